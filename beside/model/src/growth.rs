//! Growth: the marker, the pending decision, the copy.

use crate::{
    path::find,
    places::{self, length_of, page_at, page_of, tags_of, MOST},
    tags::{full_tag, kind, Kind},
    unless, Answer, PAGE,
};

/// "marker = "NOMTRH1" and a zero byte, old u32, new u32."
const MAGIC: [u8; 8] = *b"NOMTRH1\0";

pub fn write_marker(old: u32, new: u32) -> Answer<[u8; 16]> {
    unless(new > old, 17)?;
    let mut marker = [0; 16];
    marker[..8].copy_from_slice(&MAGIC);
    marker[8..12].copy_from_slice(&old.to_le_bytes());
    marker[12..].copy_from_slice(&new.to_le_bytes());
    Ok(marker)
}

/// Old and new. In order: 15, 16, 17.
pub fn read_marker(bytes: &[u8]) -> Answer<(u32, u32)> {
    unless(bytes.len() == 16, 15)?;
    unless(bytes[..8] == MAGIC, 16)?;
    let old = u32::from_le_bytes(bytes[8..12].try_into().unwrap());
    let new = u32::from_le_bytes(bytes[12..].try_into().unwrap());
    unless(new > old, 17)?;
    Ok((old, new))
}

#[derive(Clone, Copy, Debug, PartialEq, Eq)]
pub enum Pending {
    Tidy,
    /// "update meta, then tidy"
    UpdateMeta,
}

/// "Pending decision, by meta count and file length: new, new: tidy; old, new: update meta, then tidy;
/// old, old: tidy. Old 0 is allowed here." In order: 1 for any of the three counts above the limit, 17,
/// 18.
pub fn pending(meta: u64, file: u64, old: u64, new: u64) -> Answer<Pending> {
    unless(meta <= MOST && old <= MOST && new <= MOST, 1)?;
    unless(new > old, 17)?;
    if meta == new && file == length_of(new) {
        return Ok(Pending::Tidy);
    }
    if meta == old && file == length_of(new) {
        return Ok(Pending::UpdateMeta);
    }
    unless(meta == old && file == length_of(old), 18)?;
    Ok(Pending::Tidy)
}

#[derive(Clone, Copy, Debug, PartialEq, Eq)]
pub enum Grown {
    NothingToDo,
    Grown,
}

/// "Copy: the new image is zeroed, then each full old bucket, rising, is allocated by its lent hash
/// (one per old bucket) and its page copied. New = old answers nothing to do and writes nothing." In
/// order: 1 for counts, 19, nothing to do, 2 for images and hashes, 10 or 11, which leave the new image
/// all zero.
pub fn grow(old: &[u8], old_n: u64, new: &mut [u8], new_n: u64, hashes: &[u64]) -> Answer<Grown> {
    places::count(old_n)?;
    places::count(new_n)?;
    unless(new_n >= old_n, 19)?;
    if new_n == old_n {
        return Ok(Grown::NothingToDo);
    }
    unless(old.len() as u64 == length_of(old_n), 2)?;
    unless(new.len() as u64 == length_of(new_n), 2)?;
    unless(hashes.len() as u64 == old_n, 2)?;

    new.fill(0);
    for b in 0..old_n {
        if kind(old[b as usize]) != Kind::Full {
            continue;
        }
        let hash = hashes[b as usize];
        match find(tags_of(new, new_n), new_n, hash) {
            Ok(to) => {
                new[to as usize] = full_tag(hash);
                new[page_at(new_n, to)..][..PAGE].copy_from_slice(page_of(old, old_n, b));
            }
            Err(why) => {
                new.fill(0);
                return Err(why);
            }
        }
    }
    Ok(Grown::Grown)
}
