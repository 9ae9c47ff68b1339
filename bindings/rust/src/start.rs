//! What a log starts with: its sync number, its edition, and the seed of its store.

use crate::ffi;

/// A store's seed: 16 bytes that name it. They are drawn by chance when the store is made, and kept beside its
/// bucket count; the guide says when a copy of a store has to have its own.
pub type Seed = [u8; 16];

/// The edition of a log.
#[derive(Clone, Copy, Debug, Default, PartialEq, Eq, Hash)]
pub enum Edition {
    /// The first, that of old logs: before each record stands a byte, and nothing says which store's log it is.
    One,
    /// The second: before each record stand two bytes, and the start names the store.
    #[default]
    Two,
}

impl Edition {
    /// The edition of a log, as its first byte tells: two for 0xB2, else one. Whether it is a log at all
    /// [`Reader::new`](crate::Reader::new) tells.
    pub fn of(log: &[u8]) -> Edition {
        match ffi::reader_edition(log) {
            2 => Edition::Two,
            _ => Edition::One,
        }
    }

    /// As the boundary has it.
    pub(crate) const fn number(self) -> u32 {
        match self {
            Edition::One => 1,
            Edition::Two => 2,
        }
    }

    /// How many bytes stand before a record and tell its kind.
    pub(crate) const fn mark(self) -> usize {
        match self {
            Edition::One => 1,
            Edition::Two => 2,
        }
    }
}

/// Where the first entry stands in a log, after its start: at 22 in edition two, at 5 in edition one, as the log's
/// first byte tells.
pub fn first_entry(log: &[u8]) -> usize {
    ffi::reader_first(log)
}

/// What a log starts with: the number of its sync; and in edition two the seed of its store, by which a replay
/// refuses a log of another one.
///
/// ```
/// use bitbox::{Edition, LogWriter, Reader, Start};
///
/// # fn main() -> Result<(), bitbox::Refusal> {
/// let seed = *b"of one recording"; // a service draws it by chance
/// let mut memory = [0; 4096];
/// let log = LogWriter::begin(&mut memory, Start::two(7, seed))?.finish()?;
/// let start = Reader::new(log)?.start();
/// assert_eq!((start.sync_seqn(), start.edition(), start.seed()), (7, Edition::Two, Some(seed)));
/// # Ok(())
/// # }
/// ```
#[derive(Clone, Copy, Debug, PartialEq, Eq, Hash)]
pub struct Start {
    sync_seqn: u32,
    seed: Option<Seed>,
}

impl Start {
    /// The start of a log of edition two: that of a sync of the store with this seed.
    pub const fn two(sync_seqn: u32, seed: Seed) -> Start {
        Start { sync_seqn, seed: Some(seed) }
    }

    /// The start of a log of edition one, which names no store. **Another store takes such a log for its own** if it
    /// has the same sync number: it is for what reads old logs alone.
    pub const fn one(sync_seqn: u32) -> Start {
        Start { sync_seqn, seed: None }
    }

    /// The start of a log that has one.
    pub(crate) fn told(log: &[u8], sync_seqn: u32) -> Start {
        match Edition::of(log) {
            Edition::One => Start::one(sync_seqn),
            Edition::Two => Start::two(sync_seqn, ffi::reader_seed(log)),
        }
    }

    /// As the boundary has it: edition one leaves the seed out.
    pub(crate) fn lent(self) -> ffi::LogStart {
        ffi::LogStart { sync: self.sync_seqn, edition: self.edition().number(), seed: self.seed.unwrap_or_default() }
    }

    /// The sync's number.
    pub const fn sync_seqn(&self) -> u32 {
        self.sync_seqn
    }

    /// The log's edition.
    pub const fn edition(&self) -> Edition {
        match self.seed {
            Some(_) => Edition::Two,
            None => Edition::One,
        }
    }

    /// The seed of the log's store; none in edition one.
    pub const fn seed(&self) -> Option<Seed> {
        self.seed
    }
}
