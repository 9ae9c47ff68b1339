//! What follows end: a log of one clear with zeros after its end, at which the default calls look, beside the original
//! on a log of that length that is full of entries, and beside a plain scan of those zeros.

use crate::{
    clock::{row, timed, Row},
    inputs::{diff, hash_of, Rng, Table, SEED},
};
use bitbox::{
    read_head, replay, see_entry, Edition, EntryRef, Head, LogWriter, Packed, Refusal, Replayed, Start, Update,
};
use original::{log, timed as theirs};
use std::hint::black_box;

const LENGTH: usize = 1 << 20;
const TIMES: usize = 10;
const ROUNDS: usize = 15;

/// A clear of bucket 0 and end, with zeros after it; where end stands.
fn short() -> (Vec<u8>, usize) {
    let mut memory = vec![0; LENGTH];
    let mut writer = LogWriter::begin(&mut memory, Start::one(1)).expect("room");
    writer.write_clear(0).expect("room");
    writer.finish().expect("room");
    (memory, 14)
}

/// A log of that length: updates of 8 slots, as many as there is room for; and their hashes.
fn long(n: usize, rng: &mut Rng) -> (Vec<u8>, Vec<u64>) {
    let mut memory = vec![0; LENGTH];
    let mut writer = LogWriter::begin(&mut memory, Start::one(1)).expect("room");
    let mut hashes = vec![];
    loop {
        let nodes: Vec<[u8; 32]> = (0..8).map(|_| rng.bytes()).collect();
        let nodes = Packed::new(&nodes).expect("at most 126");
        let (bucket, id, diff) = (rng.below(n) as u64, rng.bytes(), diff(rng.slots(8)));
        if writer.write_update(&Update { bucket, id, diff, nodes, elided: rng.bytes() }).is_err() {
            break;
        }
        hashes.push(hash_of(id));
    }
    assert!(writer.finish().expect("room").len() == LENGTH);
    (memory, hashes)
}

pub fn zeros(rng: &mut Rng) -> Vec<Row> {
    let table = Table::new(1 << 12);
    let ((log, end), (full, hashes)) = (short(), long(table.n, rng));
    let mut used = log.clone();
    used[LENGTH - 1] = 1;
    assert!(see_entry(&log, end, Edition::One) == Ok((EntryRef::End, end)));
    assert!(see_entry(&used, end, Edition::One) == Err(Refusal::AfterEndUsed));

    let at_end = || {
        timed(|| {
            for _ in 0..TIMES {
                assert!(read_head(black_box(&log), end, Edition::One) == Ok(Head::End));
            }
        })
        .0
    };
    let mut reader = log::Reader::new(&full).expect("a log");
    let read = || {
        timed(|| {
            for _ in 0..TIMES {
                reader.put(5);
                while *black_box(&reader.read_entry().expect("an entry")) != log::Entry::End {}
            }
        })
        .0
    };
    let scanned = || {
        timed(|| {
            for _ in 0..TIMES {
                assert!(black_box(&log)[end + 1..].iter().all(|byte| *byte == 0));
            }
        })
        .0
    };
    vec![
        row("end read, 1 MiB of zeros after it".into(), TIMES, ROUNDS, at_end, read),
        row("end read, 1 MiB of zeros after it, beside a scan".into(), TIMES, ROUNDS, at_end, scanned),
        replayed(&table, &log, &full, &hashes),
    ]
}

/// The replay of the short log; the original has the one of that length, which ours replays to the same image.
fn replayed(table: &Table, log: &[u8], full: &[u8], hashes: &[u64]) -> Row {
    let image = table.image();
    let (mut mine, mut other) = (image.clone(), vec![]);
    let ours = || {
        mine.copy_from_slice(&image);
        let (took, said) = timed(|| replay(&mut mine, table.n, log, 1, &SEED, &[]));
        assert!(said == Ok(Replayed::Applied));
        took
    };
    let original = || {
        let (took, image) = theirs::recover(&image, table.n as u32, &SEED, full, 1);
        other = image;
        took
    };
    let done = row("replay, 1 MiB of zeros after end".into(), 1, ROUNDS, ours, original);
    let mut whole = image.clone();
    assert!(replay(&mut whole, table.n, full, 1, &SEED, hashes) == Ok(Replayed::Applied) && whole == other);
    done
}
