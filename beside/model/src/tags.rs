//! Tags: "0x00 empty, 0x7F tombstone, full tag = 128 + floor(hash / 2^57). Full means bit 7 set. Bytes
//! 0x01 to 0x7E are none of the three."

use crate::{
    places::{tag_pages_of, tags_fit},
    unless, Answer,
};

pub const EMPTY: u8 = 0x00;
pub const TOMBSTONE: u8 = 0x7F;

pub fn full_tag(hash: u64) -> u8 {
    (128 + hash / (1 << 57)) as u8
}

#[derive(Clone, Copy, Debug, PartialEq, Eq)]
pub enum Kind {
    Empty,
    Tombstone,
    Full,
    Other,
}

pub fn kind(tag: u8) -> Kind {
    match tag {
        EMPTY => Kind::Empty,
        TOMBSTONE => Kind::Tombstone,
        0x80.. => Kind::Full,
        _ => Kind::Other,
    }
}

pub fn set(tags: &mut [u8], n: u64, bucket: u64, tag: u8) -> Answer<()> {
    tags_fit(tags, n)?;
    unless(bucket < n, 9)?;
    tags[bucket as usize] = tag;
    Ok(())
}

pub fn full_count(tags: &[u8], n: u64) -> Answer<u64> {
    tags_fit(tags, n)?;
    Ok(tags[..n as usize].iter().filter(|&&t| kind(t) == Kind::Full).count() as u64)
}

pub fn padding_is_zero(tags: &[u8], n: u64) -> Answer<bool> {
    tags_fit(tags, n)?;
    Ok(tags[n as usize..4096 * tag_pages_of(n) as usize].iter().all(|&t| t == 0))
}

/// The tag page of a bucket.
pub fn page_index(bucket: u64) -> u64 {
    bucket / 4096
}
