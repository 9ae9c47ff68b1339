//! Edition two of the log, and both editions side by side: inputs of the reader, `list`, the writer, sync and
//! replay. The original is told them in edition one: ../second.rs.

use crate::{
    engine::Engine,
    heard::{Did, Heard},
    input::{any_seed, fill, hash_seed, near, Filler, Label, Log, Record, Table},
    ops::{
        read::{any_log, changed_bytes, good_logs, kinds, lists, update, walked, Input::*, ReadOp},
        replay::{self, ReplayOp},
        sync::{self, SyncOp, Told, CLEARED},
        write::{self, Call, WriteOp},
    },
    rng::Rng,
    run::{Op, Out, Run},
    second::{edition, retold},
};
use model::{
    after_end::AfterEnd::{self, Tolerant, Zeros},
    diff::{Diff, Packed, NODE, SLOTS},
    edition::{Edition, Seed, Start},
    reader::Entry,
    sync::{Place, UNSET},
    writer::Writer,
    PAGE,
};
use original::log::Builder;

/// A store whose seed looks like marks.
pub const STORE: Seed = [0xB2, 2, 0xB2, 1, 3, 4, 0xB2, 3, 0, 0, 0, 0, 0xB2, 4, 2, 0xB2];

pub const EDITIONS: [Edition; 2] = [Edition::One, Edition::Two];

/// A diff of so many slots.
fn slots(count: u32) -> u128 {
    (1u128 << count) - 1
}

/// A log that is written and read back by the same side.
pub struct BackOp;

#[derive(Clone, Debug)]
pub struct Back {
    start: Start,
    /// Clears and good updates.
    records: Vec<Record>,
    pages: usize,
}

/// An update's nodes and elided children.
fn fields(diff: Diff, with: u64) -> (Packed, [u8; 8]) {
    let mut nodes = [[0; NODE]; SLOTS];
    fill(nodes[..diff.count() as usize].as_flattened_mut(), with);
    (Packed { nodes, count: diff.count() }, with.to_le_bytes())
}

/// A record as the entry that it comes back as.
fn entry(record: &Record) -> Entry {
    match *record {
        Record::Clear(bucket) => Entry::Clear { bucket },
        Record::Update { label, diff, with, bucket } => {
            let (packed, elided) = fields(diff, with);
            let nodes = packed.nodes[..packed.count as usize].to_vec();
            Entry::Update { id: label.id(), diff, nodes, elided, bucket }
        }
        Record::End | Record::Byte(_) => Entry::End,
    }
}

/// Writes a log: its length, and the writer's state after it.
pub fn write<E: Engine>(log: &mut [u8], w: Writer, start: Start, records: &[Record]) -> model::Answer<(u64, Writer)> {
    let mut w = E::begin(log, w, start)?;
    for record in records {
        w = match entry(record) {
            Entry::Clear { bucket } => E::write_clear(log, w, bucket)?,
            Entry::Update { id, diff, elided, bucket, .. } => {
                let Record::Update { with, .. } = *record else { unreachable!() };
                E::write_update(log, w, &id, diff, &fields(diff, with).0, &elided, bucket)?
            }
            Entry::End => w,
        };
    }
    E::finish(log, w)
}

/// How many entries of a log, its end among them, come back as they were written.
pub fn come_back<E: Engine>(log: &[u8], start: Start, records: &[Record], after: AfterEnd) -> model::Answer<u64> {
    if E::reader_set(log)? != start {
        return Ok(0);
    }
    let edition = start.edition();
    let (mut at, mut came) = (edition.first(), 0);
    for wanted in records.iter().map(entry).chain([Entry::End]) {
        let (read, next) = E::reader_next(log, edition, at, after)?;
        came += (read == wanted) as u64;
        at = next;
    }
    Ok(came)
}

/// Writes the log and reads it back, by the default call and by the tolerant one.
fn back<E: Engine>(input: &Back) -> model::Answer<([u64; 2], Vec<u8>)> {
    let mut log = vec![0xEE; PAGE * input.pages];
    let (length, _) = write::<E>(&mut log, Writer::Fresh, input.start, &input.records)?;
    log.truncate(length as usize);
    let came = |after| come_back::<E>(&log, input.start, &input.records, after);
    Ok(([came(Zeros)?, came(Tolerant)?], log))
}

/// The log as the original writes it.
pub fn written(sync: u32, records: &[Record]) -> original::Said<Vec<u8>> {
    let mut builder = Builder::with_initial_size(PAGE)?;
    builder.reset(sync)?;
    for record in records {
        match entry(record) {
            Entry::Clear { bucket } => builder.write_clear(bucket)?,
            Entry::Update { id, diff, nodes, elided, bucket } => {
                builder.write_update(id, crate::input::words(diff), &nodes, elided, bucket)?
            }
            Entry::End => {}
        }
    }
    builder.finalize()?;
    Ok(builder.bytes().to_vec())
}

impl Op for BackOp {
    type Input = Back;

    fn name(_: &Back) -> &'static str {
        "read back"
    }

    fn run<E: Engine>(input: &Back) -> Out {
        Out::of(back::<E>(input), |(came, log)| Out::value("came back", &came).with("log", log))
    }

    fn original(input: &Back) -> Heard {
        let all = input.records.len() as u64 + 1;
        Did::of(written(input.start.sync, &input.records), |log| {
            Did::value("came back", &[all, all]).with("log", retold(&log, &input.start.seed))
        })
        .plain()
    }

    fn smaller(input: &Back) -> Vec<Back> {
        let without = |i| {
            let mut less = input.clone();
            less.records.remove(i);
            less
        };
        (0..input.records.len()).map(without).collect()
    }
}

/// Lists of good records, written and read back in both editions.
fn backs(run: &mut Run) {
    let good: Vec<Record> =
        vec![Record::Clear(0), Record::Clear(u64::MAX), update(0, 1), update(slots(126), 2), update(1 << 125, 0xB2)];
    for records in lists(&good, 3) {
        for start in [Start::one(7), Start::two(7, STORE), Start::two(0x0102_B203, [0; 16])] {
            run.case::<BackOp>(Back { start, records: records.clone(), pages: 4 });
        }
    }
}

/// One-page logs with every first two bytes.
fn first_bytes(run: &mut Run) {
    let good = Log::new(0x0403_0201, &[Record::Clear(1), Record::End]).of_store(STORE);
    let table = Table::new(2, &[0x80, 0x80]);
    for a in 0..=255 {
        for b in 0..=255 {
            let log = Log { changed: vec![(0, a), (1, b)], ..good.clone() };
            run.case::<ReadOp>(Set(log.clone()));
            if a == 1 || a == 0xB2 || b == 1 {
                run.case::<ReadOp>(Walk(log.clone(), Tolerant));
                run.case::<ReadOp>(List(log.clone()));
                for seed in [STORE, [0; 16]] {
                    run.case::<ReplayOp>(replay::Input { seed, ..replay::Input::new(table.clone(), log.clone()) });
                }
            }
        }
    }
}

/// Lists of records of edition two, bare tags and other bytes among them.
fn records(run: &mut Run) {
    let mut some = kinds(2);
    some.extend([2, 3, 4].map(Record::Byte));
    for records in lists(&some, 3) {
        walked(run, Log::new(7, &records).of_store(STORE));
    }
}

/// The good logs in edition two.
fn second_logs() -> Vec<Log> {
    good_logs().iter().map(|log| log.of_store(STORE)).collect()
}

/// A log whose bytes from a length on are zeros.
fn zeroed(log: &Log, from: usize) -> Log {
    Log { changed: (from..log.used()).map(|at| (at, 0)).collect(), ..log.clone() }
}

/// Every byte changed; cut after every byte, with zeros up to whole pages and without.
fn damaged(run: &mut Run) {
    for log in second_logs() {
        for (changed, both) in changed_bytes(&log) {
            let (at, byte) = changed.changed[0];
            if at < 24 {
                run.case::<ReadOp>(Set(changed.clone()));
            }
            // A program is run for each of these.
            if [0, 1, 2, 3, 4, 0xB2].contains(&byte) && at < 140 {
                run.case::<ReadOp>(List(changed.clone()));
            }
            run.sample::<ReadOp>(Walk(changed, Tolerant), both);
        }
        let lengths = [4095, 4096, 4097, 8191, 8192, 8193, 12_288, 65_535, 65_536, 65_537, 69_632];
        for len in (0..(log.used() + 3).min(300)).chain(lengths) {
            let cut = Log { cut: Some(len), ..log.clone() };
            run.case::<ReadOp>(Set(cut.clone()));
            run.case::<ReadOp>(Walk(cut.clone(), Tolerant));
            run.case::<ReadOp>(List(cut.clone()));
            run.case::<ReadOp>(Walk(zeroed(&log, len), Tolerant));
            // An entry of a log that ends there.
            for record in 0..log.records.len() {
                run.case::<ReadOp>(Next(cut.clone(), Edition::Two, log.start(record), Tolerant));
            }
        }
        let len = log.bytes().len() as u64;
        for at in (0..len + 3).chain([1 << 32, u64::MAX - 60, u64::MAX - 1, u64::MAX]) {
            for edition in EDITIONS {
                run.case::<ReadOp>(Next(log.clone(), edition, at, Tolerant));
            }
        }
    }
    // Logs of edition one, also read as such of edition two.
    for log in good_logs() {
        for len in [0, 4095, 4096, 8192, 65_537] {
            run.case::<ReadOp>(List(Log { cut: Some(len), ..log.clone() }));
        }
        run.case::<ReadOp>(List(Log { changed: vec![(0, 2)], ..log.clone() }));
        for at in 0..log.used() as u64 + 2 {
            run.case::<ReadOp>(Next(log.clone(), Edition::Two, at, Tolerant));
        }
    }
    last_bytes(run);
}

/// Marks in a log's last three bytes, which no whole page has to stand before.
fn last_bytes(run: &mut Run) {
    let some = [0xB2, 0, 1, 2, 3, 4, 5, 0xFF];
    for a in some {
        for b in some {
            for c in some {
                let last = [(PAGE - 3, a), (PAGE - 2, b), (PAGE - 1, c)];
                let log = Log { changed: last.to_vec(), ..Log::new(7, &[]).of_store(STORE) };
                for at in PAGE - 3..=PAGE {
                    run.case::<ReadOp>(Next(log.clone(), Edition::Two, at as u64, Tolerant));
                }
            }
        }
    }
}

/// All lists of up to three calls of a writer, begun in either edition and not at all.
fn calls(run: &mut Run) {
    let label = Label { hash: 1, free: 1 };
    let kinds = [
        Call::Begin(Start::one(7)),
        Call::Begin(Start::two(7, STORE)),
        Call::Clear(u64::MAX),
        write::update(0, 1),
        write::update(5, u64::MAX),
        write::update(slots(126), 2),
        write::update(1 << 126, 2),
        write::update(1 << 127 | 1, 2),
        Call::Update { label, diff: Diff(3), count: Some(1), with: 5, bucket: 0 },
        Call::Finish,
    ];
    for len in [0, 4095, 4096, 4097, 8191, 8192, 12_288] {
        for (a, b) in kinds.iter().flat_map(|a| kinds.iter().map(move |b| (a, b))) {
            let slice = Filler { len, with: 2 };
            let begun = [Call::Begin(Start::two(1, STORE)), a.clone(), b.clone()];
            run.case::<WriteOp>(write::Input { slice, calls: begun[..2].to_vec() });
            run.case::<WriteOp>(write::Input { slice, calls: begun[1..].to_vec() });
            run.case::<WriteOp>(write::Input { slice, calls: begun.to_vec() });
            for c in kinds.iter().filter(|_| len >= PAGE) {
                let calls = [&begun[..], &[c.clone()]].concat();
                run.case::<WriteOp>(write::Input { slice, calls });
            }
        }
    }
}

/// Writer and sync around the last byte: each record and end, at positions that leave a byte too little up to
/// some too many.
fn room(run: &mut Run) {
    let counts = [0, 1, 2, 62, 63, 64, 125, 126];
    for (len, capacity) in [(4096, 4096), (8191, 4096), (8192, 8192)] {
        let mut lasts = vec![(Call::Clear(1), CLEARED, 10), (Call::Finish, CLEARED, 0)];
        lasts.extend(counts.map(|count| (write::update(slots(count), 1), Diff(slots(count)), 66 + 32 * count as u64)));
        for (last, diff, size) in lasts {
            for left in 0..=6 {
                let Some(at) = u64::checked_sub(capacity, size + left) else { continue };
                for edition in EDITIONS {
                    let calls = vec![Call::Forge(Writer::Open(edition, at)), last.clone(), Call::Finish];
                    let slice = Filler { len, with: 2 };
                    run.case::<WriteOp>(write::Input { slice, calls: calls[..2].to_vec() });
                    run.case::<WriteOp>(write::Input { slice, calls });
                    if size > 0 {
                        step_at(run, len, Writer::Open(edition, at), diff);
                    }
                }
            }
        }
        filled(run, len, capacity as usize);
    }
    // Sums that would not fit, and states that no call answered.
    for at in [0, 1, 4, 21, 22, u64::MAX - 67, u64::MAX - 11, u64::MAX - 2, u64::MAX - 1, u64::MAX] {
        for last in [Call::Clear(1), write::update(1, 1), Call::Finish, Call::Begin(Start::two(8, STORE))] {
            for state in [Writer::Open(Edition::Two, at), Writer::Finished(at), Writer::Fresh] {
                let calls = vec![Call::Begin(Start::two(1, STORE)), Call::Forge(state), last.clone()];
                run.case::<WriteOp>(write::Input { slice: Filler { len: 8192, with: 4 }, calls });
            }
        }
    }
}

/// A step of a sync with its writer at a position.
fn step_at(run: &mut Run, len: usize, writer: Writer, diff: Diff) {
    let told = Told { label: Label { hash: 0, free: 1 }, diff, place: Place::Known(0) };
    let log = Filler { len, with: 1 };
    run.case::<SyncOp>(sync::Input {
        log,
        writer,
        step: Some(1),
        seed: Some(STORE),
        ..sync::Input::new(Table::new(2, &[0x80, 0x80]), &[told])
    });
}

/// Clears and empty updates from begin on, so many that each number of bytes is left, then each record.
fn filled(run: &mut Run, len: usize, capacity: usize) {
    for left in 0..=140 {
        let before: usize = capacity - 22 - left;
        let Some(updates) = (0..9).find(|u| (before - 66 * u) % 10 == 0) else { continue };
        let mut calls = vec![Call::Begin(Start::two(3, STORE))];
        calls.extend(vec![write::update(0, 4); updates]);
        calls.extend(vec![Call::Clear(9); (before - 66 * updates) / 10]);
        for last in [Call::Clear(1), write::update(0, 1), write::update(1, 1), Call::Finish] {
            let mut calls = calls.clone();
            calls.extend([last, Call::Finish]);
            let slice = Filler { len, with: 2 };
            run.case::<WriteOp>(write::Input { slice, calls: calls[..calls.len() - 1].to_vec() });
            run.case::<WriteOp>(write::Input { slice, calls });
        }
    }
}

/// Syncs in edition two: all pairs of changes on tables of one and two buckets, lengths, logs that are full.
fn syncs(run: &mut Run) {
    let some = [0x00, 0x7F, 0x80, 0x81];
    let mut tables: Vec<Vec<u8>> = some.iter().map(|&a| vec![a]).collect();
    tables.extend(some.iter().flat_map(|&a| some.map(|b| vec![a, b])));
    for tags in &tables {
        let n = tags.len() as u64;
        let of = |changes: &[Told]| sync::Input {
            cells: vec![UNSET, 0, n],
            seed: Some(STORE),
            ..sync::Input::new(Table::new(n, tags), changes)
        };
        run.case::<SyncOp>(of(&[]));
        for a in sync::kinds(n) {
            for seed in [None, Some(STORE)] {
                run.case::<SyncOp>(sync::Input { seed, ..of(&[a]) });
                for writer in [22, 16_384 - 12, 16_384].map(|at| Writer::Open(edition(&seed), at)) {
                    run.case::<SyncOp>(sync::Input { step: Some(1), writer, ..of(&[a]) });
                }
            }
            for b in sync::kinds(n) {
                run.case::<SyncOp>(of(&[a, b]));
            }
        }
    }
    lengths(run);
    // Clears up to the last byte: 407 fit a page. In edition one 454 do.
    let clear = |b| Told { label: Label { hash: b, free: 0 }, diff: CLEARED, place: Place::Known(b) };
    for clears in [405, 406, 407, 408, 409, 453, 454, 455] {
        let changes: Vec<Told> = (0..clears).map(clear).collect();
        for seed in [None, Some(STORE)] {
            let input = sync::Input::new(Table::new(500, &[0x80; 500]), &changes);
            run.case::<SyncOp>(sync::Input { log: Filler { len: 4096, with: 1 }, seed, ..input });
        }
    }
}

/// Tags, pages, marks and logs of other lengths.
fn lengths(run: &mut Run) {
    let fresh = |j| Told { label: Label { hash: j, free: 0 }, diff: Diff(slots(126)), place: Place::Fresh };
    for n in [0, 1, 3, 4096, 4097, 1 << 21] {
        for longer in [0, -1, 1, 4096] {
            let table = Table { longer, ..Table::new(n, &[0x80]) };
            for seed in [None, Some(STORE)] {
                let writer = Writer::Open(edition(&seed), 22);
                let input = sync::Input { seed, ..sync::Input::new(table.clone(), &[fresh(1)]) };
                run.case::<SyncOp>(input.clone());
                run.case::<SyncOp>(sync::Input { step: Some(1), writer, ..input });
            }
        }
    }
    for (pages_longer, marks_longer) in [(0, 0), (-1, 0), (4096, 0), (0, -1), (0, 1)] {
        for len in [0, 4095, 4096, 8191, 8192] {
            for changes in 0..3 {
                let changes: Vec<Told> = (0..changes).map(fresh).collect();
                let input = sync::Input {
                    pages_longer,
                    marks_longer,
                    log: Filler { len, with: 1 },
                    seed: Some(STORE),
                    ..sync::Input::new(Table::new(3, &[]), &changes)
                };
                for writer in [Writer::Fresh, Writer::Open(Edition::Two, 22), Writer::Finished(4096)] {
                    run.case::<SyncOp>(sync::Input { writer, ..input.clone() });
                    run.case::<SyncOp>(sync::Input { writer, step: Some(0), ..input.clone() });
                }
            }
        }
    }
}

/// Replays of logs of edition two, and of their entries one by one.
fn replays(run: &mut Run) {
    let table = |n: u64| Table { with: 11, ..Table::new(n, &[0x80, 0x7F, 0x01, 0x00]) };
    for n in 1..=3 {
        for records in lists(&kinds(n), 2) {
            let mut log = Log::new(7, &records).of_store(STORE);
            run.case::<ReplayOp>(replay::Input::new(table(n), log.clone()));
            log.records.push(Record::End);
            run.case::<ReplayOp>(replay::Input::new(table(n), log.clone()));
            if records.len() < 2 {
                for (sync, hashes_more, foreign) in [(8, 0, false), (7, 1, false), (7, -1, false), (7, 0, true)] {
                    let input = replay::Input::new(table(n), log.clone());
                    run.case::<ReplayOp>(replay::Input { sync, hashes_more, foreign, ..input });
                }
                for at in (0..log.used() as u64 + 2).chain([4095, 4096, u64::MAX]) {
                    for edition in EDITIONS {
                        let step = Some((edition, at));
                        run.case::<ReplayOp>(replay::Input { step, ..replay::Input::new(table(n), log.clone()) });
                    }
                }
            }
        }
    }
    for log in second_logs() {
        for (changed, both) in changed_bytes(&log) {
            run.sample::<ReplayOp>(replay::Input::new(table(3), changed), both);
        }
        for len in [0, 1, 22, 4095, 4096, 4097, 8192, 12_288] {
            for sync in [log.sync, log.sync.wrapping_add(1)] {
                let input = replay::Input::new(table(3), Log { cut: Some(len), ..log.clone() });
                run.case::<ReplayOp>(replay::Input { sync, ..input });
            }
        }
        for n in [0, 1, 2, 3, 4, 1_048_577, 1 << 32, u64::MAX] {
            for longer in [0, -1, 1, 4096] {
                for seed in [STORE, [1; 16]] {
                    let input = replay::Input::new(Table { longer, ..table(n) }, log.clone());
                    run.case::<ReplayOp>(replay::Input { seed, ..input.clone() });
                    run.case::<ReplayOp>(replay::Input { seed, step: Some((Edition::Two, 22)), ..input });
                }
            }
        }
    }
}

/// Seeds that differ in one byte of the table's, in each bit; under the log's sync number and another; with a log
/// that is good, has a bad entry, no start, no whole pages; and the same on logs of edition one.
fn seeds(run: &mut Run) {
    let table = Table { with: 11, ..Table::new(3, &[0x80, 0x7F, 0x01]) };
    let mut ask = |log: &Log, seed, sync| {
        let input = replay::Input::new(table.clone(), log.clone());
        run.case::<ReplayOp>(replay::Input { seed, sync, ..input });
    };
    for good in good_logs() {
        for log in [good.of_store(STORE), good] {
            let mut logs = vec![log.clone(), Log { changed: vec![(22, 9)], ..log.clone() }];
            logs.push(Log { changed: vec![(1, 9)], ..log.clone() });
            logs.extend([0, 1, 4095, 4097].map(|len| Log { cut: Some(len), ..log.clone() }));
            for log in &logs {
                for sync in [log.sync, log.sync.wrapping_add(1)] {
                    ask(log, STORE, sync);
                    for byte in 0..16 {
                        for bit in 0..8 {
                            ask(log, near(STORE, byte, 1 << bit), sync);
                        }
                    }
                }
            }
        }
    }
}

pub fn exhaustive(run: &mut Run) {
    seeds(run);
    room(run);
    calls(run);
    backs(run);
    syncs(run);
    first_bytes(run);
    records(run);
    damaged(run);
    replays(run);
}

/// A log of one edition or the other.
pub fn any_edition(rng: &mut Rng, log: Log) -> Log {
    match rng.below(4) {
        0 => log,
        1 => log.of_store(*hash_seed()),
        _ => log.of_store(any_seed(rng)),
    }
}

fn random_read(run: &mut Run, rng: &mut Rng) {
    let n = rng.within(1, 20);
    let log = any_log(rng, n);
    let mut log = any_edition(rng, log);
    if rng.once_in(6) {
        let at = rng.below(log.used() as u64 + 2) as usize;
        log.changed.push((at, rng.pick(&[0xB2, 0, 1, 2, 3, 4])));
    }
    match rng.below(8) {
        0 => run.case::<ReadOp>(Set(log)),
        1 => {
            let edition = rng.pick(&EDITIONS);
            let at = if rng.once_in(10) { rng.number() } else { rng.below(log.used() as u64 + 4) };
            run.case::<ReadOp>(Next(log, edition, at, Tolerant));
        }
        2 if rng.once_in(4) => run.case::<ReadOp>(List(log)),
        _ => run.case::<ReadOp>(Walk(log, Tolerant)),
    }
}

fn random_write(run: &mut Run, rng: &mut Rng) {
    let mut input = write::any(rng);
    for call in &mut input.calls {
        match call {
            Call::Begin(start) if !rng.once_in(4) => start.seed = Some(any_seed(rng)),
            Call::Forge(Writer::Open(edition, _)) => *edition = rng.pick(&EDITIONS),
            _ => {}
        }
    }
    run.case::<WriteOp>(input);
}

fn random_sync(run: &mut Run, rng: &mut Rng) {
    let mut input = sync::any(rng);
    if !rng.once_in(4) {
        input.seed = Some(any_seed(rng));
    }
    if let Writer::Open(edition, _) = &mut input.writer {
        *edition = rng.pick(&EDITIONS);
    }
    run.case::<SyncOp>(input);
}

fn random_replay(run: &mut Run, rng: &mut Rng) {
    let mut input = replay::any(rng);
    let step = input.step.map(|(_, at)| (rng.pick(&EDITIONS), at));
    let (log, sync) = (any_edition(rng, input.log.clone()), input.sync);
    input = replay::Input { sync, step, ..replay::Input { log, ..input } };
    input.seed = match (input.log.seed, rng.below(8)) {
        (Some(seed), 0) => near(seed, rng.below(16) as usize, rng.within(1, 255) as u8),
        (Some(seed), 1..) => seed,
        (None, _) => any_seed(rng),
    };
    if rng.once_in(4) && input.step.is_some() {
        let record = rng.below(input.log.records.len() as u64 + 1) as usize;
        input.step = Some((input.log.edition(), input.log.start(record)));
    }
    run.case::<ReplayOp>(input);
}

/// A clear or a good update, of a bucket by chance.
pub fn good_record(rng: &mut Rng, bucket: impl Fn(&mut Rng) -> u64) -> Record {
    match rng.below(3) {
        0 => Record::Clear(bucket(rng)),
        _ => Record::Update {
            label: Label { hash: rng.next(), free: rng.below(3) },
            diff: crate::input::good_diff(rng),
            with: rng.next(),
            bucket: bucket(rng),
        },
    }
}

fn random_back(run: &mut Run, rng: &mut Rng) {
    let count = rng.below(12) as usize;
    let records = (0..count).map(|_| good_record(rng, Rng::number)).collect();
    let sync = rng.number() as u32;
    let start = if rng.once_in(3) { Start::one(sync) } else { Start::two(sync, any_seed(rng)) };
    run.case::<BackOp>(Back { start, records, pages: count + 2 });
}

pub fn random(run: &mut Run, rng: &mut Rng) {
    match rng.below(10) {
        0..=2 => random_read(run, rng),
        3 | 4 => random_write(run, rng),
        5 | 6 => random_sync(run, rng),
        7 | 8 => random_replay(run, rng),
        _ => random_back(run, rng),
    }
}
