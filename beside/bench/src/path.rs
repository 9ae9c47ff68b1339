//! Allocation, lookup and the count of full tags. Both sides compute the page hash within the time.

use crate::{
    clock::{row, timed, Row},
    inputs::{hash_of, Rng, Table, SEED},
};
use bitbox::{allocate, full_count, lookup, Found};
use original::timed as theirs;
use std::hint::black_box;

const LOADS: [usize; 3] = [50, 70, 90];
/// Rounds that are counted, of allocation.
const ROUNDS: usize = 15;

pub fn allocation(bits: u32, rng: &mut Rng) -> Vec<Row> {
    let mut table = Table::new(1 << bits);
    LOADS
        .map(|load| {
            table.fill(load, rng);
            let pages = table.n / 100;
            // Other pages in each round, the same for both: a walk that comes again is foretold by the processor.
            let batches: Vec<Vec<[u8; 32]>> =
                (0..=ROUNDS).map(|_| (0..pages).map(|_| rng.bytes()).collect()).collect();
            let (mut for_ours, mut for_original) = (batches.iter(), batches.iter());
            let (mut mine, mut other) = (vec![], vec![]);
            let ours = || {
                let ids = for_ours.next().expect("a round");
                let mut tags = table.tags.clone();
                mine.clear();
                timed(|| {
                    mine.extend(ids.iter().map(|id| allocate(&mut tags, table.n, hash_of(*id)).expect("a bucket")))
                })
                .0
            };
            let original = || {
                let ids = for_original.next().expect("a round");
                other.clear();
                theirs::Map::new(&table.tags, table.n).allocate(ids, &SEED, &mut other)
            };
            let done = row(format!("allocate, 2^{bits}, {load} % full"), pages, ROUNDS, ours, original);
            assert!(mine == other);
            done
        })
        .into()
}

pub fn lookups(bits: u32, rng: &mut Rng) -> Vec<Row> {
    let mut table = Table::new(1 << bits);
    LOADS
        .map(|load| {
            table.fill(load, rng);
            let image = table.image();
            theirs::put_image(&image, table.n as u32, &SEED);
            let ids: Vec<[u8; 32]> = (0..10_000).map(|_| table.stored[rng.below(table.stored.len())].id).collect();
            let (mut mine, mut other) = (vec![], vec![]);
            let ours = || {
                mine.clear();
                let found = |id: &[u8; 32]| match lookup(&image, table.n, hash_of(*id), id) {
                    Ok(Found::At(bucket)) => bucket,
                    _ => u64::MAX,
                };
                timed(|| mine.extend(ids.iter().map(found))).0
            };
            let original = || {
                other.clear();
                theirs::load(&ids, &mut other)
            };
            let done = row(format!("lookup, 2^{bits}, {load} % full"), ids.len(), 7, ours, original);
            assert!(mine == other && !mine.contains(&u64::MAX));
            done
        })
        .into()
}

pub fn count(bits: u32, rng: &mut Rng) -> Row {
    let mut table = Table::new(1 << bits);
    table.fill(70, rng);
    let map = theirs::Map::new(&table.tags, table.n);
    let (mut mine, mut other) = (0, 0);
    let ours =
        || timed(|| (0..20).for_each(|_| mine = full_count(black_box(&table.tags), table.n).expect("a table"))).0;
    let original = || {
        let (took, count) = map.full_count(20);
        other = count as u64;
        took
    };
    let done = row(format!("full tags counted, 2^{bits}"), 20, 15, ours, original);
    assert!(mine == other);
    done
}
