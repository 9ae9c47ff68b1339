//! Sync: "lent its changes as a list of records: id, hash, diff, where (known b, fresh, or cell i),
//! with the pages in one slice. Lent cells are u64, and 2^64-1 means unset. Lent marks are one byte per
//! tag page, zeroed at the start. Occupied starts as the number of full tags."

use crate::{
    diff::{pack, Diff},
    edition::Start,
    path::find,
    places::{page_number, tag_pages_of, tags_fit, ELIDED_AT, ID_AT},
    tags::{full_count, full_tag, page_index, TOMBSTONE},
    unless,
    writer::{self, Writer},
    Answer, Refused, PAGE,
};

pub const UNSET: u64 = u64::MAX;

#[derive(Clone, Copy, Debug, PartialEq, Eq)]
pub enum Place {
    Known(u64),
    Fresh,
    Cell(u64),
}

#[derive(Clone, Copy, Debug, PartialEq, Eq)]
pub struct Change {
    pub id: [u8; 32],
    pub hash: u64,
    pub diff: Diff,
    pub place: Place,
}

/// "Only tags, marks, cells and the log change."
pub struct Lent<'a> {
    pub n: u64,
    pub tags: &'a mut [u8],
    pub cells: &'a mut [u64],
    pub marks: &'a mut [u8],
    pub log: &'a mut [u8],
}

#[derive(Clone, Copy, Debug, PartialEq, Eq)]
pub struct State {
    pub writer: Writer,
    pub occupied: u64,
}

/// "Each step answers bucket and page number M+b."
#[derive(Clone, Copy, Debug, PartialEq, Eq)]
pub struct Step {
    pub bucket: u64,
    pub page: u64,
}

/// One change. In order: 1, 2 (page, marks), 12, then 4, cell index 2, 9, 14, 13, 10 or 11.
pub fn step(lent: &mut Lent, state: State, change: &Change, page: &[u8]) -> Answer<(Step, State)> {
    let Lent { n, tags, cells, marks, log } = lent;
    let n = *n;
    tags_fit(tags, n)?;
    unless(page.len() == PAGE, 2)?;
    unless(marks.len() as u64 == tag_pages_of(n), 2)?;
    let (edition, at) = writer::position(state.writer)?;

    let d = change.diff;
    unless(!d.marks(126), 4)?;
    let stands = match change.place {
        Place::Known(b) => Some(b),
        Place::Fresh => None,
        Place::Cell(i) => {
            unless(i < cells.len() as u64, 2)?;
            Some(cells[i as usize]).filter(|&b| b != UNSET)
        }
    };
    if let Some(b) = stands {
        unless(b < n, 9)?;
    }

    if d.cleared() {
        let bucket = stands.ok_or(Refused(14))?;
        // 02, W-203: "The tag must be the full tag of the page's own hash."
        unless(tags[bucket as usize] == full_tag(change.hash), 14)?;
        let writer = writer::clear(log, state.writer, bucket)?;
        tags[bucket as usize] = TOMBSTONE;
        marks[page_index(bucket) as usize] = 1;
        let occupied = state.occupied.saturating_sub(1);
        return Ok((Step { bucket, page: page_number(n, bucket)? }, State { writer, occupied }));
    }

    if let Some(b) = stands {
        unless(tags[b as usize] == full_tag(change.hash), 14)?;
    }
    writer::room(log, edition, at, edition.update_size(d.count()))?;
    let mut occupied = state.occupied;
    let bucket = match stands {
        Some(b) => b,
        None => {
            let b = find(tags, n, change.hash)?;
            tags[b as usize] = full_tag(change.hash);
            marks[page_index(b) as usize] = 1;
            if let Place::Cell(i) = change.place {
                cells[i as usize] = b;
            }
            occupied = occupied.saturating_add(1);
            b
        }
    };
    let elided = page[ELIDED_AT..ID_AT].try_into().unwrap();
    let writer = writer::update(log, state.writer, &change.id, d, &pack(d, page)?, elided, bucket)?;
    Ok((Step { bucket, page: page_number(n, bucket)? }, State { writer, occupied }))
}

#[derive(Clone, Copy, Debug, PartialEq, Eq)]
pub enum Synced {
    Done {
        occupied: u64,
        length: u64,
    },
    Refused(Refused),
    /// "A sync refused at change j keeps the effects of changes before j and its marks, answers j
    /// (counted from 0), and its writer becomes fresh."
    RefusedAt {
        change: u64,
        why: Refused,
    },
}

/// The whole sync. In order: 1, 2 unless there are 4,096 page bytes per record and M marks, 13 for
/// begin; then each change. A start of either edition begins its log.
pub fn sync(lent: &mut Lent, writer: &mut Writer, start: Start, changes: &[Change], pages: &[u8]) -> Synced {
    let begun = (|| {
        tags_fit(lent.tags, lent.n)?;
        unless(pages.len() == PAGE * changes.len(), 2)?;
        unless(lent.marks.len() as u64 == tag_pages_of(lent.n), 2)?;
        let writer = writer::begin(lent.log, start)?;
        Ok(State { writer, occupied: full_count(lent.tags, lent.n)? })
    })();
    let mut state = match begun {
        Ok(state) => state,
        Err(why) => return Synced::Refused(why),
    };
    lent.marks.fill(0);
    for (j, change) in changes.iter().enumerate() {
        match step(lent, state, change, &pages[PAGE * j..PAGE * (j + 1)]) {
            Ok((_, after)) => state = after,
            Err(why) => {
                *writer = Writer::Fresh;
                return Synced::RefusedAt { change: j as u64, why };
            }
        }
    }
    let (length, finished) = writer::finish(lent.log, state.writer).expect("every record left room for end");
    *writer = finished;
    Synced::Done { occupied: state.occupied, length }
}
