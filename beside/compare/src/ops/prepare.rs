//! What the original's `prepare_sync` does with any changes, from its text: also with those that 01 refuses.

use crate::{
    departures::{self as known, Departure},
    heard::{outside, range_outside, unequal, Did, End, CHECKED, NO_REMAINDER, OVERFLOW},
    input::hash_seed,
    ops::{
        path::{takes_too_long, EXHAUSTED},
        places::page_number,
        tags::{no_pages, FULL_COUNT},
    },
    run::{page_bytes, u64_bytes},
    second::{edition, more, retold},
};
use model::{
    diff::NODE,
    edition::{Edition, Seed},
    sync::{Change, Place, UNSET},
    tags::{full_tag, TOMBSTONE},
    PAGE,
};
use original::{
    path::Map,
    sync::{Left, Prepared},
    Panic, Said, Trouble,
};
use std::collections::BTreeSet;

/// Why the original does not come to the end of a change.
pub enum Stop {
    Panic(&'static str, String),
    GivesUp,
    Endless,
    /// It gives up, by its path, after more than some tenths of a second.
    TooLong,
    /// A cell that is not there can't be handed over.
    NoCell,
}

/// A sync of the original, change after change.
pub struct Theirs<'a> {
    n: u64,
    map: Map,
    pub cells: Vec<u64>,
    /// The number of full buckets at the start, and how it has moved.
    occupied: u64,
    pub moved: i64,
    /// Start and records.
    pub log: Vec<u8>,
    pages: Vec<(u64, &'a [u8])>,
    buckets: Vec<Option<u64>>,
    /// The tag pages to write.
    pub marked: BTreeSet<u64>,
    /// The tag that the last clear found.
    pub found: u8,
}

fn panic(at: &str, said: String) -> Trouble {
    Trouble::Panic(Panic { at: at.to_string(), said })
}

impl<'a> Theirs<'a> {
    /// On these tags; or what becomes of them.
    pub fn new(n: u64, tags: &[u8], cells: &[u64], number: u32) -> Result<Self, Did> {
        let lost = |did: Did| match did.end {
            End::Panic(panic) => did_of(Err(Trouble::Panic(panic)), Left::default()),
            _ => did,
        };
        if tags.len() % 4096 != 0 {
            return Err(lost(no_pages(tags.len())));
        }
        let Some(within) = tags.get(..n as usize) else {
            return Err(lost(Did::panic(FULL_COUNT, range_outside(tags.len(), ..n as usize))));
        };
        let occupied = within.iter().filter(|&&t| t >= 0x80).count() as u64;
        let mut log = vec![1];
        log.extend(number.to_le_bytes());
        Ok(Theirs {
            n,
            map: Map::new(tags, n as usize, hash_seed()).expect("whole pages"),
            cells: cells.to_vec(),
            occupied,
            moved: 0,
            log,
            pages: vec![],
            buckets: vec![],
            marked: BTreeSet::new(),
            found: 0,
        })
    }

    pub fn tags(&self) -> &[u8] {
        self.map.tags()
    }

    /// Where the next record stands in the edition that names a store, or in the first.
    pub fn position(&self, seed: &Option<Seed>) -> u64 {
        retold(&self.log, seed).len() as u64
    }

    /// The full buckets as the changes leave them.
    pub fn full(&self) -> u64 {
        self.occupied.wrapping_add_signed(self.moved)
    }

    /// The number that 01 refuses a change with before it looks for a bucket, for records of an edition at a position
    /// in a room.
    pub fn refusal(&self, c: &Change, edition: Edition, at: u64, room: u64) -> Option<u8> {
        let d = c.diff.0;
        let tags = self.tags();
        if d >> 126 & 1 == 1 {
            return Some(4);
        }
        let stands = match c.place {
            Place::Known(b) => Some(b),
            Place::Fresh => None,
            Place::Cell(i) => match self.cells.get(i as usize) {
                None => return Some(2),
                Some(&UNSET) => None,
                Some(&b) => Some(b),
            },
        };
        if stands.is_some_and(|b| b >= self.n) {
            return Some(9);
        }
        let cleared = d >> 127 == 1;
        let unfit = match stands {
            None => cleared,
            // Of clears too, by 02, W-203.
            Some(b) => tags[b as usize] != full_tag(c.hash),
        };
        if unfit {
            return Some(14);
        }
        let size = if cleared { 9 } else { 65 + 32 * d.count_ones() as u128 };
        // The record's mark and that of end.
        let marks = 1 + 2 * more(edition) as u128;
        (at as u128 + size + marks > room as u128).then_some(13)
    }

    /// A change, taken by the original: its bucket.
    pub fn step(&mut self, c: &Change, page: &'a [u8]) -> Result<u64, Stop> {
        let cell = match c.place {
            Place::Cell(i) => Some(*self.cells.get(i as usize).ok_or(Stop::NoCell)?),
            _ => None,
        };
        let stands = match c.place {
            Place::Known(b) => Some(b),
            _ => cell.filter(|&b| b != UNSET),
        };
        if c.diff.cleared() {
            let none = "called `Option::unwrap()` on a `None` value".to_string();
            let b = match (stands, cell) {
                (Some(b), _) => b,
                (None, Some(_)) => return Err(Stop::Panic("bitbox/mod.rs:210", none)),
                (None, None) => {
                    return Err(Stop::Panic(
                        "bitbox/mod.rs:211",
                        "internal error: entered unreachable code".to_string(),
                    ))
                }
            };
            let len = self.tags().len();
            match self.map.tags_mut().get_mut(b as usize) {
                Some(tag) => self.found = std::mem::replace(tag, TOMBSTONE),
                None => return Err(Stop::Panic("bitbox/meta_map.rs:52", outside(len, b))),
            }
            self.moved -= 1;
            self.marked.insert(b / 4096);
            self.buckets.push(None);
            self.log.push(3);
            self.log.extend(b.to_le_bytes());
            return Ok(b);
        }
        let b = match stands {
            Some(b) => b,
            None => {
                if self.n == 0 {
                    return Err(Stop::Panic("bitbox/mod.rs:718", NO_REMAINDER.to_string()));
                }
                if takes_too_long(self.tags(), self.n, c.hash) {
                    return Err(Stop::TooLong);
                }
                let b = match self.map.allocate(c.id) {
                    Ok(Some(b)) => b,
                    Ok(None) => return Err(Stop::GivesUp),
                    Err(Trouble::Endless) => return Err(Stop::Endless),
                    Err(other) => return Err(Stop::Panic("an allocation", format!("{other:?}"))),
                };
                self.moved += 1;
                self.marked.insert(b / 4096);
                if let Place::Cell(i) = c.place {
                    self.cells[i as usize] = b;
                }
                b
            }
        };
        self.log.push(4);
        self.log.extend(c.id);
        self.log.extend(c.diff.bytes());
        for slot in c.diff.slots() {
            self.log.extend(&page[NODE * slot..NODE * (slot + 1)]);
        }
        self.log.extend(&page[4056..4064]);
        self.log.extend(b.to_le_bytes());
        let Ok(pn) = page_number(self.n, b) else {
            return Err(Stop::Panic("bitbox/ht_file.rs:28", OVERFLOW.to_string()));
        };
        self.buckets.push(Some(b));
        self.pages.push((pn, page));
        Ok(b)
    }

    /// What it leaves if the last change is behind it. With debug assertions no page may be written twice.
    pub fn ended(&self) -> Did {
        let mut pages: Vec<(u64, Vec<u8>)> = self.pages.iter().map(|(pn, page)| (*pn, page.to_vec())).collect();
        pages.extend(self.marked.iter().map(|&i| (i, self.tags()[PAGE * i as usize..][..PAGE].to_vec())));
        let numbers: BTreeSet<u64> = pages.iter().map(|(pn, _)| *pn).collect();
        if CHECKED && numbers.len() < pages.len() {
            let said = unequal(pages.len() as u64, numbers.len() as u64);
            return self.left(Err(panic("bitbox/mod.rs:282", said)));
        }
        self.left(Ok(Prepared { pages, buckets: self.buckets.clone() }))
    }

    /// What it leaves if it stops in a change.
    pub fn stopped(&self, stop: &Stop) -> Did {
        match stop {
            Stop::Panic(at, said) => self.left(Err(panic(at, said.clone()))),
            Stop::GivesUp | Stop::TooLong => self.left(Err(Trouble::Error(EXHAUSTED.to_string()))),
            Stop::Endless | Stop::NoCell => Did::endless(),
        }
    }

    fn left(&self, said: Said<Prepared>) -> Did {
        let mut log = self.log.clone();
        let mut occupied = self.occupied;
        if said.is_ok() {
            log.push(2);
            log.resize(log.len().next_multiple_of(PAGE), 0);
            occupied = self.full();
        }
        did_of(said, Left { tags: self.tags().to_vec(), cells: self.cells.clone(), occupied, log })
    }
}

/// A sync of the original as its end and the bytes that it gave and left.
pub fn did_of(said: Said<Prepared>, left: Left) -> Did {
    let did = Did::of(said, |mut prepared| {
        // By page number; two of one number stay as they came.
        prepared.pages.sort_by_key(|(pn, _)| *pn);
        let pages = page_bytes(&prepared.pages);
        let buckets: Vec<u64> = prepared.buckets.iter().flat_map(|b| [b.is_some() as u64, b.unwrap_or(0)]).collect();
        Did::value("prepared", &[]).with("pages", pages).with("buckets", u64_bytes(&buckets))
    });
    did.with("tags", left.tags)
        .with("cells", u64_bytes(&left.cells))
        .with("occupied", left.occupied.to_le_bytes())
        .with("log", left.log)
}

/// The original's `prepare_sync`.
pub fn asked(n: u64, tags: &[u8], number: u32, changes: &[Change], pages: &[u8], cells: &[u64]) -> Did {
    let changes: Vec<original::sync::Change> = changes
        .iter()
        .zip(pages.chunks(PAGE))
        .map(|(c, page)| original::sync::Change {
            id: c.id,
            diff: crate::input::words(c.diff),
            place: match c.place {
                Place::Known(b) => original::sync::Place::Known(b),
                Place::Fresh => original::sync::Place::Fresh,
                Place::Cell(i) => original::sync::Place::Cell(i as usize),
            },
            page,
        })
        .collect();
    let (said, left) = original::sync::prepare(n as usize, hash_seed(), tags, number, &changes, cells);
    let (said, left) = crate::faults::heard("sync", &[n, changes.len() as u64], (said, left));
    did_of(said, left)
}

/// The departure that a change is that 01 refuses with a number; none where the original gives up as 01 does. `found` is
/// the tag that it found if it clears.
pub fn departure(number: u8, c: &Change, stop: Option<&Stop>, moved: i64, found: u8) -> Option<Departure> {
    Some(match (number, stop) {
        (10, Some(Stop::GivesUp | Stop::TooLong)) if moved == 0 => return None,
        (_, Some(Stop::NoCell)) => return None,
        (_, Some(Stop::Endless)) => known::SYNC_ENDLESS,
        (_, Some(Stop::GivesUp | Stop::TooLong)) => known::SYNC_NOT_MOVED,
        (_, Some(Stop::Panic("bitbox/mod.rs:210" | "bitbox/mod.rs:211", _))) => known::SYNC_CLEAR_NEW,
        (_, Some(Stop::Panic("bitbox/meta_map.rs:52", _))) => known::SYNC_CLEAR_PAST,
        (_, Some(Stop::Panic(..))) => known::SYNC_PAGE_PANICS,
        (4, None) => known::SYNC_BIT_126,
        (9, None) if c.diff.cleared() => known::SYNC_CLEAR_PADDING,
        (9, None) => known::SYNC_ANY_BUCKET,
        (14, None) if c.diff.cleared() && found < 0x80 => known::SYNC_CLEAR_NOT_FULL,
        (14, None) if c.diff.cleared() => known::SYNC_CLEAR_OTHER,
        (14, None) => known::SYNC_OTHER_TAG,
        (_, None) => known::SYNC_GROWS,
    })
}

/// How far a sync in a room, in the edition that names a store or in the first, goes by 01's rules and the original's
/// own path: the change that is refused, and its number.
pub fn foreseen(
    (n, tags): (u64, &[u8]),
    cells: &[u64],
    changes: &[Change],
    pages: &[u8],
    (room, seed): (u64, &Option<Seed>),
) -> Option<(u64, u8)> {
    let mut theirs = Theirs::new(n, tags, cells, 0).ok()?;
    for (j, (c, page)) in changes.iter().zip(pages.chunks(PAGE)).enumerate() {
        if let Some(number) = theirs.refusal(c, edition(seed), theirs.position(seed), room) {
            return Some((j as u64, number));
        }
        match theirs.step(c, page) {
            Ok(_) => {}
            Err(Stop::Endless) => return Some((j as u64, 11)),
            Err(_) => return Some((j as u64, 10)),
        }
    }
    None
}
