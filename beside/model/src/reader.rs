//! Log: "start = 1, sync number u32; clear = 3, bucket u64; update = 4, id 32, diff 16, the marked
//! nodes, elided 8, bucket u64 (65 + 32c bytes); end = 2, then zeros to a multiple of 4,096.
//! Little-endian. The reader does not look past end"; since W-208 that is the tolerant reader.

use crate::{
    after_end::AfterEnd,
    diff::{self, Diff, Node},
    edition::{Edition, Start, SECOND},
    unless, Answer, Refused, PAGE,
};

pub const START: u8 = 1;
pub const END: u8 = 2;
pub const CLEAR: u8 = 3;
pub const UPDATE: u8 = 4;

#[derive(Clone, Debug, PartialEq, Eq)]
pub enum Entry {
    Clear { bucket: u64 },
    Update { id: [u8; 32], diff: Diff, nodes: Vec<Node>, elided: [u8; 8], bucket: u64 },
    End,
}

/// "Setting it reads the start and gives the sync number." In order: 5, then 6 for an empty log, 7.
/// "A 0xB2 not followed by 1 is 7."
pub fn set(log: &[u8]) -> Answer<Start> {
    unless(log.len() % PAGE == 0, 5)?;
    unless(!log.is_empty(), 6)?;
    let edition = Edition::of(log);
    let mut left = log.strip_prefix(&edition.mark(START)[..]).ok_or(Refused(7))?;
    let sync = u32::from_le_bytes(take(&mut left)?);
    let seed = match edition {
        Edition::One => None,
        Edition::Two => Some(take(&mut left)?),
    };
    Ok(Start { sync, seed })
}

/// The entry at a position, and the position after it. "Each entry is taken apart or the reading stops
/// there, position unchanged", and "after end it answers end again": the position after end is end's.
/// In an update: 6 up to the diff, 4, 6. In edition two: "for a mark whose first byte isn't 0xB2 the number is 8, at
/// the log's last byte too; a 0xB2 as the last byte there is 6." And 27 "in place of end", whenever it is asked.
pub fn next(log: &[u8], edition: Edition, at: u64, after: AfterEnd) -> Answer<(Entry, u64)> {
    let mut left = usize::try_from(at).ok().and_then(|at| log.get(at..)).ok_or(Refused(6))?;
    if edition == Edition::Two {
        let [first] = take(&mut left)?;
        unless(first == SECOND, 8)?;
    }
    let [tag] = take(&mut left)?;
    let entry = match tag {
        END => {
            after.look(left)?;
            return Ok((Entry::End, at));
        }
        CLEAR => Entry::Clear { bucket: u64::from_le_bytes(take(&mut left)?) },
        UPDATE => {
            let id = take(&mut left)?;
            let diff = diff::read(take(&mut left)?)?;
            let mut nodes = Vec::with_capacity(diff.count() as usize);
            for _ in 0..diff.count() {
                nodes.push(take(&mut left)?);
            }
            let elided = take(&mut left)?;
            let bucket = u64::from_le_bytes(take(&mut left)?);
            Entry::Update { id, diff, nodes, elided, bucket }
        }
        _ => return Err(Refused(8)),
    };
    Ok((entry, (log.len() - left.len()) as u64))
}

/// The next N bytes, or 6.
fn take<const N: usize>(left: &mut &[u8]) -> Answer<[u8; N]> {
    let (taken, rest) = left.split_first_chunk().ok_or(Refused(6))?;
    *left = rest;
    Ok(*taken)
}
