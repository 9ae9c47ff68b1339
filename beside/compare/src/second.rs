//! Edition two of the log beside the original, which has edition one alone: an entry of edition two is 0xB2 and
//! then an entry of edition one. So what the original wrote is told in edition two, and what stands in a log of
//! edition two is told back to it.

use model::{
    edition::{Edition, Seed, SECOND},
    PAGE,
};

/// Where the seed stands in a start of edition two.
const SEED_AT: usize = 6;
/// Where the first entry stands after it.
pub const FIRST: usize = 22;

/// Bytes that a mark has more than the original's tag.
pub fn more(edition: Edition) -> u64 {
    (edition == Edition::Two) as u64
}

/// The edition of a log that is to name this store, or none.
pub fn edition(seed: &Option<Seed>) -> Edition {
    match seed {
        None => Edition::One,
        Some(_) => Edition::Two,
    }
}

/// Whether a log is set as one of edition two. The original answers 7 to it.
pub fn is_second(log: &[u8]) -> bool {
    log.len() % PAGE == 0 && log.starts_with(&[SECOND, 1])
}

/// The store that such a log names.
pub fn seed_of(log: &[u8]) -> Seed {
    log[SEED_AT..FIRST].try_into().expect("a start")
}

/// The length of the original's record at the start of some bytes; none where it is cut or no record.
pub fn length(left: &[u8]) -> Option<usize> {
    let len = match left.first()? {
        1 => 5,
        2 => 1,
        3 => 9,
        4 => {
            let diff = left.get(33..49)?;
            65 + 32 * u128::from_le_bytes(diff.try_into().ok()?).count_ones() as usize
        }
        _ => return None,
    };
    (left.len() >= len).then_some(len)
}

/// What the original wrote, records or a whole log, told in the edition that names this store; edition one as it is.
pub fn retold(written: &[u8], seed: &Option<Seed>) -> Vec<u8> {
    let Some(seed) = seed else { return written.to_vec() };
    let (mut out, mut left) = (Vec::with_capacity(2 * written.len()), written);
    while let Some(len) = length(left) {
        out.push(SECOND);
        out.extend(&left[..len]);
        match left[0] {
            1 => out.extend(seed),
            2 => {
                out.resize(out.len().next_multiple_of(PAGE), 0);
                return out;
            }
            _ => {}
        }
        left = &left[len..];
    }
    out
}

/// A log of edition two told back: up to what is no entry, or up to its end, and what follows that; none where an entry
/// is cut, since the log's end then stands elsewhere.
pub fn told_back(log: &[u8]) -> Option<Vec<u8>> {
    let mut out = log[1..SEED_AT].to_vec();
    let mut left = &log[FIRST..];
    loop {
        let (mark, rest) = left.split_first()?;
        if *mark != SECOND {
            // Zero is no tag of the original's either.
            out.push(0);
            break;
        }
        let tag = *rest.first()?;
        let bad_diff = tag == 4 && u128::from_le_bytes(rest.get(33..49)?.try_into().ok()?) >> 126 != 0;
        if !(2..=4).contains(&tag) || bad_diff {
            out.extend(&rest[..if bad_diff { 49 } else { 1 }]);
            break;
        }
        let len = length(rest)?;
        out.extend(&rest[..len]);
        left = &rest[len..];
        if tag == 2 {
            out.extend(left);
            break;
        }
    }
    out.resize(out.len().next_multiple_of(PAGE), 0);
    Some(out)
}
