//! meta_map.rs. A map goes in and out as its tags.

use crate::{
    bitbox::beside::meta_map::{self, MetaMap},
    caught::{caught, Said},
};

pub fn full_entry(hash: u64) -> u8 {
    meta_map::full_entry(hash)
}

/// What the map says of one bucket.
#[derive(Clone, Copy, Debug, PartialEq, Eq)]
pub struct Hints {
    pub empty: bool,
    pub tombstone: bool,
    pub not_match: bool,
    pub full: bool,
}

pub fn hints(tags: &[u8], n: usize, bucket: usize, hash: u64) -> Said<Hints> {
    caught(|| {
        let map = MetaMap::from_bytes(tags.to_vec(), n);
        Hints {
            empty: map.hint_empty(bucket),
            tombstone: map.hint_tombstone(bucket),
            not_match: map.hint_not_match(bucket, hash),
            full: meta_map::is_full(&map, bucket),
        }
    })
}

/// The tags after a call, whether it came back or not.
fn changed(tags: &[u8], n: usize, call: impl FnOnce(&mut MetaMap)) -> (Said<()>, Vec<u8>) {
    let mut map = match caught(|| MetaMap::from_bytes(tags.to_vec(), n)) {
        Ok(map) => map,
        Err(trouble) => return (Err(trouble), tags.to_vec()),
    };
    let said = caught(|| call(&mut map));
    (said, meta_map::tags(&map).to_vec())
}

/// A full tag is set; the tags afterwards.
pub fn set_full(tags: &[u8], n: usize, bucket: usize, hash: u64) -> (Said<()>, Vec<u8>) {
    changed(tags, n, |map| map.set_full(bucket, hash))
}

/// A tombstone is set; the tags afterwards.
pub fn set_tombstone(tags: &[u8], n: usize, bucket: usize) -> (Said<()>, Vec<u8>) {
    changed(tags, n, |map| map.set_tombstone(bucket))
}

pub fn full_count(tags: &[u8], n: usize) -> Said<usize> {
    caught(|| MetaMap::from_bytes(tags.to_vec(), n).full_count())
}

pub fn padding_is_empty(tags: &[u8], n: usize) -> Said<bool> {
    caught(|| meta_map::padding_is_empty(&MetaMap::from_bytes(tags.to_vec(), n)))
}

pub fn page_index(bucket: usize) -> Said<usize> {
    caught(|| MetaMap::from_bytes(Vec::new(), 0).page_index(bucket))
}
