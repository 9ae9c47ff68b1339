//! Sync: a list of changed pages, taken into the tags and logged.

use crate::{
    diff::Diff,
    ffi,
    log::{position, PageId, Writer},
    refusal::said,
    Refusal, Start,
};
use core::{error::Error, fmt};

/// What a cell holds that has no bucket yet.
pub const UNSET: u64 = u64::MAX;

/// Where the bucket of a changed page is known from.
#[derive(Clone, Copy, Debug, PartialEq, Eq, Hash)]
pub enum Where {
    /// The page is in this bucket.
    Known(u64),
    /// The page is new, and no other change depends on its bucket. The log tells it after the sync: entry i
    /// is that of change i.
    Fresh,
    /// The bucket is in the lent cell of this index; if the cell is unset the page is new, and the cell gets
    /// its bucket.
    Cell(usize),
}

/// Where, as the boundary has it: 0 known, 1 fresh, any other a cell.
#[repr(C)]
#[derive(Clone, Copy, PartialEq, Eq, Hash)]
pub(crate) struct Place {
    pub(crate) kind: u64,
    pub(crate) at: u64,
}

impl Place {
    const fn of(place: Where) -> Place {
        match place {
            Where::Known(bucket) => Place { kind: 0, at: bucket },
            Where::Fresh => Place { kind: 1, at: 0 },
            Where::Cell(index) => Place { kind: 2, at: index as u64 },
        }
    }

    fn told(self) -> Where {
        match self.kind {
            0 => Where::Known(self.at),
            1 => Where::Fresh,
            _ => Where::Cell(position(self.at)),
        }
    }
}

/// A change of a page, as it is lent to a sync: a slice of these is lent as it stands, without a copy.
#[repr(C)]
#[derive(Clone, Copy, PartialEq, Eq, Hash)]
pub struct Change {
    pub(crate) id: PageId,
    pub(crate) hash: u64,
    pub(crate) diff: Diff,
    pub(crate) place: Place,
}

impl Change {
    /// A change of the page with this id and hash. A diff that is [`cleared`](Diff::cleared) clears it.
    ///
    /// The hash is the page's own, of a clear too: a bucket that is named, to be updated or to be cleared, must have
    /// its full tag. A tag has seven bits of the hash, so one other page in 128 has the same: who is not sure of a
    /// bucket looks the id up first ([`lookup`](crate::lookup)).
    pub const fn new(id: PageId, hash: u64, diff: Diff, place: Where) -> Change {
        Change { id, hash, diff, place: Place::of(place) }
    }

    /// The page's id.
    pub const fn id(&self) -> &PageId {
        &self.id
    }

    /// The page's hash.
    pub const fn hash(&self) -> u64 {
        self.hash
    }

    /// The slots that changed.
    pub const fn diff(&self) -> Diff {
        self.diff
    }

    /// Where its bucket is known from.
    pub fn place(&self) -> Where {
        self.place.told()
    }
}

impl fmt::Debug for Change {
    fn fmt(&self, f: &mut fmt::Formatter<'_>) -> fmt::Result {
        f.debug_struct("Change")
            .field("id", &self.id)
            .field("hash", &self.hash)
            .field("diff", &self.diff)
            .field("place", &self.place())
            .finish()
    }
}

/// What is lent to a sync to be changed.
#[derive(Debug)]
pub struct Lent<'a> {
    /// The table's bucket count.
    pub n: usize,
    /// The table's tag pages.
    pub tags: &'a mut [u8],
    /// One byte per tag page: 1 afterwards for each page in which a tag was written, 0 for the others.
    pub marks: &'a mut [u8],
    /// Cells for the buckets of pages that are new or that others depend on; [`UNSET`] for none.
    pub cells: &'a mut [u64],
    /// Memory for the log; its first whole pages are used.
    pub log: &'a mut [u8],
}

/// What a sync answers.
#[derive(Clone, Copy, Debug, PartialEq, Eq, Hash)]
pub struct Synced {
    /// How many buckets are full.
    pub occupied: u64,
    /// The log's length; it starts the lent slice. What stands behind it there stays, and is not the log's: keep and
    /// lend these bytes alone.
    pub length: usize,
}

/// Why a sync was refused, and at which change.
#[derive(Clone, Copy, Debug, PartialEq, Eq, Hash)]
pub struct SyncRefused {
    /// Why.
    pub refusal: Refusal,
    /// The change that was refused, counted from 0: those before it are kept. None: nothing was changed.
    pub change: Option<usize>,
}

impl fmt::Display for SyncRefused {
    fn fmt(&self, f: &mut fmt::Formatter<'_>) -> fmt::Result {
        match self.change {
            Some(change) => write!(f, "change {change} was refused: {}", self.refusal),
            None => write!(f, "the sync was refused: {}", self.refusal),
        }
    }
}

impl Error for SyncRefused {
    fn source(&self) -> Option<&(dyn Error + 'static)> {
        Some(&self.refusal)
    }
}

/// Takes a list of changes into the tags, and writes their log. `start` has the sync's number and, as
/// [`Start::two`] is told it, the store's seed. `pages` has the page of each change, in order; those of clearing
/// changes are not read. The writer is finished afterwards.
///
/// Refused at a change, it leaves in tags, cells and log what the changes before it did, the log's start with
/// them; the marks are zeroed but for those of these changes; and the writer is fresh. Tags and cells belong
/// together: lend copies of both, and a second try starts from what was before.
///
/// # Errors
///
/// In this order: [`TableUnfit`](Refusal::TableUnfit); [`LengthUnfit`](Refusal::LengthUnfit): there are
/// not 4,096 page bytes for each change and a mark for each tag page; [`NoRoom`](Refusal::NoRoom): the
/// log's slice is shorter than 4,096 bytes. Then at a change: [`DiffReserved`](Refusal::DiffReserved),
/// `LengthUnfit` for a cell that is not there, [`BucketOutside`](Refusal::BucketOutside),
/// [`BucketUnfit`](Refusal::BucketUnfit): an update or a clear of a bucket whose tag is not that of the page's own
/// hash, or a clear without a bucket; `NoRoom`, [`PathCrowded`](Refusal::PathCrowded) or
/// [`PathClosed`](Refusal::PathClosed).
pub fn sync(
    lent: &mut Lent<'_>,
    writer: &mut Writer,
    start: Start,
    changes: &[Change],
    pages: &[u8],
) -> Result<Synced, SyncRefused> {
    let answer = ffi::sync(lent, pages, changes, writer.state(), start.lent());
    *writer = Writer::of(answer.writer);
    match said(answer.refusal) {
        Ok(()) => Ok(Synced { occupied: answer.occupied, length: position(answer.length) }),
        Err(refusal) => {
            let change = (answer.at_change != 0).then(|| position(answer.change));
            Err(SyncRefused { refusal, change })
        }
    }
}

/// The state of a sync that is made step by step.
#[derive(Clone, Copy, Debug, Default, PartialEq, Eq, Hash)]
pub struct State {
    /// The log's writer, which [`Writer::begin`] opens; it keeps the log's edition.
    pub writer: Writer,
    /// How many buckets are full; [`full_count`](crate::full_count) tells at the start.
    pub occupied: u64,
}

/// What a step of a sync answers.
#[derive(Clone, Copy, Debug, PartialEq, Eq, Hash)]
pub struct Step {
    /// The change's bucket.
    pub bucket: u64,
    /// The number of its page in the table's image.
    pub page: u64,
}

/// One change of a sync: what [`sync`] does for each of its list. Before the first the caller zeroes the marks,
/// begins the log ([`Writer::begin`]) and counts the full buckets ([`full_count`](crate::full_count)) into the
/// state; after the last it finishes the log ([`Writer::finish`]).
///
/// # Errors
///
/// In this order: [`TableUnfit`](Refusal::TableUnfit); [`LengthUnfit`](Refusal::LengthUnfit) for the page
/// or the marks; [`WriterNotOpen`](Refusal::WriterNotOpen); then those of a change, as [`sync`] has them.
pub fn sync_step(lent: &mut Lent<'_>, state: &mut State, change: &Change, page: &[u8]) -> Result<Step, Refusal> {
    let before = ffi::StepState { n: lent.n as u64, writer: state.writer.state(), occupied: state.occupied };
    let answer = ffi::sync_step(lent, page, *change, before);
    *state = State { writer: Writer::of(answer.state.writer), occupied: answer.state.occupied };
    said(answer.refusal)?;
    Ok(Step { bucket: answer.bucket, page: answer.page })
}
