//! Audit: "answers capacity, occupied and their rate, occupied over capacity as one f64 division.
//! Hashes: one per bucket. Reachable: its bucket is visited within max(2n, 100,000) visits with no empty
//! visit before."

use crate::{
    path::visit,
    places::{image_fits, page_of, tags_of, ID_AT},
    tags::{full_tag, kind, padding_is_zero, Kind, EMPTY},
    unless, Answer, Refused,
};
use std::collections::HashSet;

#[derive(Clone, Copy, Debug, PartialEq)]
pub struct Audited {
    pub capacity: u64,
    pub occupied: u64,
    pub rate: f64,
}

/// In order: 1, 2, 20, then bucket by bucket 21, 22, 23 or 24.
pub fn audit(image: &[u8], n: u64, hashes: &[u64]) -> Answer<Audited> {
    image_fits(image, n)?;
    unless(hashes.len() as u64 == n, 2)?;
    let tags = tags_of(image, n);
    unless(padding_is_zero(tags, n)?, 20)?;

    let mut labels = HashSet::new();
    for b in 0..n {
        let tag = tags[b as usize];
        if kind(tag) != Kind::Full {
            continue;
        }
        let hash = hashes[b as usize];
        unless(labels.insert(&page_of(image, n, b)[ID_AT..]), 21)?;
        unless(tag == full_tag(hash), 22)?;
        reached(tags, n, hash, b)?;
    }
    let occupied = labels.len() as u64;
    Ok(Audited { capacity: n, occupied, rate: occupied as f64 / n as f64 })
}

/// 23: empty met first; 24: not reached. The path repeats after 2n visits, so they decide.
fn reached(tags: &[u8], n: u64, hash: u64, bucket: u64) -> Answer<()> {
    for k in 0..2 * n {
        let b = visit(n, hash, k);
        if b == bucket {
            return Ok(());
        }
        unless(tags[b as usize] != EMPTY, 23)?;
    }
    Err(Refused(24))
}
