//! The accident: a rehearsal on a copy of a recording's table comes to the same sync number, and its log to lie beside
//! the recording's table. A log of edition one is taken in; one of edition two names its store, and is refused.
//! docs/GUIDE.md says when a copy has to have a seed of its own.

mod common;
use bitbox::*;
use common::*;

const N: usize = 64;
const PAGES: u8 = 20;
const REPLACED: u8 = 10;
/// The recording's seed is `SEED`; that of the rehearsal differs in one byte.
const REHEARSAL: Seed = {
    let mut seed = SEED;
    seed[15] ^= 1;
    seed
};

/// The page of id k has the hash 3k, which is its bucket.
fn recorded() -> Vec<u8> {
    let mut image = image(N);
    for k in 0..PAGES {
        put(&mut image, N, 3 * u64::from(k), 3 * u64::from(k), &page(k, &id(k)));
    }
    image
}

/// The log of a sync that writes all slots of the first pages anew, and the hashes of its updates.
fn rehearsed(start: Start) -> (Vec<u8>, Vec<u64>) {
    let mut tags = recorded()[..PAGE].to_vec();
    let (mut marks, mut log) = ([0; 1], vec![0; 16 * PAGE]);
    let all = diff(&(0..SLOTS).collect::<Vec<_>>());
    let hashes: Vec<u64> = (0..u64::from(REPLACED)).map(|k| 3 * k).collect();
    let change = |h: &u64| Change::new(id((h / 3) as u8), *h, all, Where::Known(*h));
    let changes: Vec<Change> = hashes.iter().map(change).collect();
    let pages: Vec<u8> = (0..REPLACED).flat_map(|k| page(100 + k, &id(k))).collect();
    let mut lent = Lent { n: N, tags: &mut tags, marks: &mut marks, cells: &mut [], log: &mut log };
    let synced = sync(&mut lent, &mut Writer::Fresh, start, &changes, &pages).expect("pages that are there");
    log.truncate(synced.length);
    (log, hashes)
}

/// How many of the recorded pages have other bytes than were recorded.
fn replaced(image: &[u8]) -> usize {
    let was = recorded();
    let at = |b: u8| PAGE * page_number(N, 3 * u64::from(b)).expect("a bucket") as usize;
    (0..PAGES).filter(|&k| image[at(k)..][..PAGE] != was[at(k)..][..PAGE]).count()
}

#[test]
fn in_edition_two_it_is_refused_and_every_byte_is_as_before() {
    for number in [5, 6] {
        let mut image = recorded();
        let (log, hashes) = rehearsed(Start::two(number, REHEARSAL));
        let refused = leaves(&mut image, |i| replay(i, N, &log, 5, &SEED, &hashes));
        assert_eq!(refused, Err(Refusal::OtherStore), "of sync {number}");
        assert_eq!(replaced(&image), 0);
        // The rehearsal's own table takes it.
        assert_eq!(replay(&mut image, N, &log, number, &REHEARSAL, &hashes), Ok(Replayed::Applied));
        assert_eq!(replaced(&image), usize::from(REPLACED));
    }
}

#[test]
fn in_edition_one_it_is_taken_and_no_audit_notices() {
    let mut image = recorded();
    let (log, hashes) = rehearsed(Start::one(5));
    assert_eq!(replay(&mut image, N, &log, 5, &SEED, &hashes), Ok(Replayed::Applied));
    assert_eq!(replaced(&image), usize::from(REPLACED));
    let all: Vec<u64> = (0..N as u64).collect();
    assert_eq!(audit(&image, N, &all), audit(&recorded(), N, &all));
    assert_eq!(audit(&image, N, &all).map(|a| a.occupied), Ok(u64::from(PAGES)));
}

/// So a copy that lives on has to have a seed of its own before its first sync.
#[test]
fn that_of_a_copy_which_kept_the_seed_is_taken() {
    let mut image = recorded();
    let (log, hashes) = rehearsed(Start::two(5, SEED));
    assert_eq!(replay(&mut image, N, &log, 5, &SEED, &hashes), Ok(Replayed::Applied));
    assert_eq!(replaced(&image), usize::from(REPLACED));
}

/// Of the same store, or in edition one, the number alone tells.
#[test]
fn one_of_another_number_is_stale() {
    for start in [Start::one(6), Start::two(6, SEED)] {
        let mut image = recorded();
        let (log, hashes) = rehearsed(start);
        assert_eq!(leaves(&mut image, |i| replay(i, N, &log, 5, &SEED, &hashes)), Ok(Replayed::Stale));
    }
}
