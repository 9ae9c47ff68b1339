//! What several tests use: tables, pages and logs, small enough to be told by hand.
#![allow(dead_code)]

use bitbox::*;

/// A store's seed, no byte of which is like another.
pub const SEED: Seed = [1, 2, 3, 5, 8, 13, 21, 34, 55, 89, 144, 233, 0xB2, 255, 4, 0];

pub const EDITIONS: [Edition; 2] = [Edition::One, Edition::Two];

/// The start of a log of this edition.
pub fn start(edition: Edition, sync_seqn: u32) -> Start {
    match edition {
        Edition::One => Start::one(sync_seqn),
        Edition::Two => Start::two(sync_seqn, SEED),
    }
}

/// The bytes of a mark of this edition, and those of a start.
pub fn sizes(edition: Edition) -> (usize, usize) {
    match edition {
        Edition::One => (1, 5),
        Edition::Two => (2, 22),
    }
}

/// An id that is told by a number.
pub fn id(k: u8) -> PageId {
    let mut id = [k; 32];
    id[0] = 0xA0;
    id
}

/// A page: node s is 32 times `with + s`, the elided children are `with`, and it ends in its id.
pub fn page(with: u8, id: &PageId) -> Vec<u8> {
    let mut page: Vec<u8> = (0..PAGE).map(|i| with.wrapping_add((i / NODE) as u8)).collect();
    page[4032..4056].fill(0x55);
    page[4056..4064].fill(with);
    page[4064..].copy_from_slice(id);
    page
}

pub fn diff(slots: &[usize]) -> Diff {
    slots.iter().fold(Diff::default(), |d, &s| d.set_changed(s).expect("a slot up to 125"))
}

/// The diff of a cleared page.
pub fn cleared() -> Diff {
    Diff::default().set_cleared()
}

/// An empty table image.
pub fn image(n: usize) -> Vec<u8> {
    vec![0; table_length(n).expect("a count within the limit") as usize]
}

/// The tag pages of an image.
pub fn tags_of(n: usize) -> usize {
    PAGE * tag_pages(n).expect("a count within the limit") as usize
}

/// Puts a page into a bucket of an image, with the full tag of its hash.
pub fn put(image: &mut [u8], n: usize, bucket: u64, hash: u64, page: &[u8]) {
    let tags = tags_of(n);
    set_full(&mut image[..tags], n, bucket, hash).expect("a bucket of the table");
    let at = PAGE * page_number(n, bucket).expect("a bucket of the table") as usize;
    image[at..at + PAGE].copy_from_slice(page);
}

/// A call that must leave all that it was lent.
pub fn leaves<T>(memory: &mut [u8], call: impl FnOnce(&mut [u8]) -> T) -> T {
    let before = memory.to_vec();
    let answer = call(memory);
    assert!(memory == before, "a refused call leaves what it was lent");
    answer
}

/// A log of these clears, finished.
pub fn clears(start: Start, buckets: &[u64]) -> Vec<u8> {
    let mut memory = vec![0xEE; 4 * PAGE];
    let mut writer = LogWriter::begin(&mut memory, start).expect("room");
    for &bucket in buckets {
        writer.write_clear(bucket).expect("room");
    }
    writer.finish().expect("room").to_vec()
}
