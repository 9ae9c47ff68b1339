//! page_diff.rs. A diff goes in and out as its two words.

use crate::{
    caught::{caught, Said},
    page_diff::{
        beside::{of, words},
        PageDiff,
    },
};

pub type Words = [u64; 2];

pub fn from_bytes(bytes: [u8; 16]) -> Said<Option<Words>> {
    caught(|| PageDiff::from_bytes(bytes).map(|d| words(&d)))
}

pub fn as_bytes(d: Words) -> Said<[u8; 16]> {
    caught(|| of(d).as_bytes())
}

pub fn set_changed(d: Words, slot: usize) -> Said<Words> {
    caught(|| {
        let mut d = of(d);
        d.set_changed(slot);
        words(&d)
    })
}

pub fn changed(d: Words, slot: usize) -> Said<bool> {
    caught(|| of(d).changed(slot))
}

pub fn set_cleared(d: Words) -> Said<Words> {
    caught(|| {
        let mut d = of(d);
        d.set_cleared();
        words(&d)
    })
}

pub fn cleared(d: Words) -> Said<bool> {
    caught(|| of(d).cleared())
}

pub fn count(d: Words) -> Said<usize> {
    caught(|| of(d).count())
}

pub fn join(a: Words, b: Words) -> Said<Words> {
    caught(|| words(&of(a).join(&of(b))))
}

pub fn pack(d: Words, page: &[u8]) -> Said<Vec<[u8; 32]>> {
    caught(|| of(d).pack_changed_nodes(page).collect())
}

pub fn unpack(d: Words, nodes: &[[u8; 32]], page: &mut [u8]) -> Said<()> {
    caught(|| of(d).unpack_changed_nodes(nodes, page))
}
