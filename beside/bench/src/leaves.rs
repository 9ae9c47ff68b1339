//! Pack, unpack, the log's entries.

use crate::{
    clock::{row, timed, Row},
    inputs::{diff, same_entries, Rng, EDITIONS},
};
use bitbox::{first_entry, read_entry, see_entry, Edition, Entry, EntryRef, Packed, Update, Writer, NODE, PAGE};
use original::{log, timed as theirs};
use std::hint::black_box;

const SLOTS: [usize; 5] = [1, 8, 32, 63, 126];
const TIMES: usize = 20_000;

/// Packing into a lent table, and by value.
pub fn pack(rng: &mut Rng) -> Vec<Row> {
    let page = rng.many(PAGE);
    let mut rows = vec![];
    for count in SLOTS {
        let words = rng.slots(count);
        let mut table = [[0xEE; NODE]; 126];
        let into = || {
            timed(|| {
                for _ in 0..TIMES {
                    black_box(black_box(diff(words)).pack_changed_nodes_into(black_box(&page), black_box(&mut table)))
                        .expect("a page");
                }
            })
            .0
        };
        rows.push(row(format!("pack, {count} slots, lent"), TIMES, 15, into, || theirs::pack(words, &page, TIMES)));
        let by_value = || {
            timed(|| {
                for _ in 0..TIMES {
                    black_box(black_box(diff(words)).pack_changed_nodes(black_box(&page))).expect("a page");
                }
            })
            .0
        };
        rows.push(row(format!("pack, {count} slots, by value"), TIMES, 15, by_value, || {
            theirs::pack(words, &page, TIMES)
        }));
    }
    rows
}

pub fn unpack(rng: &mut Rng) -> Vec<Row> {
    let page = rng.many(PAGE);
    SLOTS
        .map(|count| {
            let words = rng.slots(count);
            let nodes: Vec<[u8; 32]> = (0..count).map(|_| rng.bytes()).collect();
            let packed = Packed::new(&nodes).expect("at most 126");
            let (mut mine, mut other) = (page.clone(), page.clone());
            let ours = || {
                timed(|| {
                    for _ in 0..TIMES {
                        let d = black_box(diff(words));
                        d.unpack_changed_nodes(black_box(&packed), black_box(&mut mine)).expect("a page");
                    }
                })
                .0
            };
            let done = row(format!("unpack, {count} slots"), TIMES, 15, ours, || {
                theirs::unpack(words, &nodes, &mut other, TIMES)
            });
            assert!(mine == other);
            done
        })
        .into()
}

const ENTRIES: usize = 500;

/// Writing and reading a log of 500 updates, in both editions; the original's log is of edition one.
pub fn log(rng: &mut Rng) -> Vec<Row> {
    let mut rows = vec![];
    for count in SLOTS {
        let updates: Vec<Update> = (0..ENTRIES)
            .map(|_| {
                let nodes: Vec<[u8; 32]> = (0..count).map(|_| rng.bytes()).collect();
                let nodes = Packed::new(&nodes).expect("at most 126");
                Update { bucket: rng.next(), id: rng.bytes(), diff: diff(rng.slots(count)), nodes, elided: rng.bytes() }
            })
            .collect();
        let theirs = |builder: &mut log::Builder, u: &Update| {
            builder.write_update(u.id, u.diff.words(), u.nodes.nodes(), u.elided, u.bucket).expect("room")
        };
        let ours = |writer: &mut Writer, log: &mut [u8], u: &Update| writer.write_update(log, u).expect("room");
        let (written, logs) = write(&format!("write update, {count} slots"), &updates, ours, theirs);
        rows.extend(written);
        let [lent, by_value] = read(&logs, count);
        rows.extend(lent.into_iter().chain(by_value));
    }
    rows
}

/// Writing a log of 500 clears, in both editions.
pub fn clears(rng: &mut Rng) -> Vec<Row> {
    let buckets: Vec<u64> = (0..ENTRIES).map(|_| rng.next()).collect();
    let ours = |writer: &mut Writer, log: &mut [u8], b: &u64| writer.write_clear(log, *b).expect("room");
    let theirs = |builder: &mut log::Builder, b: &u64| builder.write_clear(*b).expect("room");
    write("write clear", &buckets, ours, theirs).0
}

/// A row for each edition, and the logs that ours wrote.
fn write<T>(
    name: &str,
    entries: &[T],
    put: impl Fn(&mut Writer, &mut [u8], &T),
    theirs: impl Fn(&mut log::Builder, &T),
) -> (Vec<Row>, Vec<Vec<u8>>) {
    let mut builder = log::Builder::with_initial_size(1 << 22).expect("memory for a log");
    let (mut rows, mut logs) = (vec![], vec![]);
    for (start, edition) in EDITIONS {
        let mut memory = vec![0; 1 << 22];
        let mut length = 0;
        let ours = || {
            let mut writer = Writer::Fresh;
            writer.begin(&mut memory, start).expect("room");
            let took = timed(|| entries.iter().for_each(|e| put(&mut writer, &mut memory, e))).0;
            length = writer.finish(&mut memory).expect("room");
            took
        };
        let original = || {
            builder.reset(1).expect("room");
            let took = timed(|| entries.iter().for_each(|e| theirs(&mut builder, e))).0;
            builder.finalize().expect("room");
            took
        };
        rows.push(row(format!("{name}{edition}"), entries.len(), 25, ours, original));
        memory.truncate(length);
        assert!(same_entries(&memory, builder.bytes()));
        logs.push(memory);
    }
    (rows, logs)
}

/// Reading each edition's log to its end: lent out of the log, as the original's user would, and by value. The
/// original reads the same entries in edition one.
fn read(logs: &[Vec<u8>], count: usize) -> [Vec<Row>; 2] {
    let (mut lent, mut by_value) = (vec![], vec![]);
    for (log, (start, edition)) in logs.iter().zip(EDITIONS) {
        let [seen, taken] = read_one([log, &logs[0]], start.edition(), &format!("read entry, {count} slots"), edition);
        lent.push(seen);
        by_value.push(taken);
    }
    [lent, by_value]
}

fn read_one([log, theirs]: [&[u8]; 2], edition: Edition, name: &str, ends: &str) -> [Row; 2] {
    let mut reader = log::Reader::new(theirs).expect("a log");
    let mut original = || {
        reader.put(first_entry(theirs));
        timed(|| loop {
            if let log::Entry::End = black_box(&reader.read_entry().expect("an entry")) {
                break;
            }
        })
        .0
    };
    let seen = || {
        timed(|| {
            let mut at = first_entry(log);
            while let (EntryRef::Update(update), next) = see_entry(black_box(log), at, edition).expect("an entry") {
                black_box(&update);
                at = next;
            }
        })
        .0
    };
    let taken = || {
        timed(|| {
            let mut at = first_entry(log);
            loop {
                let (entry, next) = read_entry(black_box(log), at, edition).expect("an entry");
                if let Entry::End = black_box(&entry) {
                    break;
                }
                at = next;
            }
        })
        .0
    };
    [
        row(format!("{name}, lent{ends}"), ENTRIES, 25, seen, &mut original),
        row(format!("{name}, by value{ends}"), ENTRIES, 25, taken, &mut original),
    ]
}
