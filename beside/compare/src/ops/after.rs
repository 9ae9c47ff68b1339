//! What follows end: inputs of the reader, `list` and replay, by the default calls, which want zeros there, and by the
//! tolerant ones; and logs written over longer ones.

use crate::{
    engine::Engine,
    heard::{Did, Heard},
    input::{fill, hash_seed, log_hashes, Log, Record, Table},
    ops::{
        read::{any_log, standing_at, update, Input::*, ReadOp},
        replay::{self, ReplayOp},
        second::{any_edition, come_back, good_record, write, written, EDITIONS, STORE},
    },
    rng::Rng,
    run::{Op, Out, Run},
    second::{edition, retold},
};
use model::{
    after_end::AfterEnd::{self, Tolerant, Zeros},
    edition::{Seed, Start},
    writer::Writer,
    Answer, PAGE,
};
use original::log::{Entry, Reader};

const RULES: [AfterEnd; 2] = [Tolerant, Zeros];
const STORES: [Option<Seed>; 2] = [None, Some(STORE)];

/// The table that logs here are of.
fn table() -> Table {
    Table { with: 11, ..Table::new(3, &[0x80, 0x7F, 0x01]) }
}

/// A log written over another, in a slice that was filled with a byte; lent whole, and as long as finish says.
pub struct OverOp;

#[derive(Clone, Debug)]
pub struct Over {
    start: Start,
    filled: u8,
    pages: usize,
    /// Clears and good updates: of the log that was there, and of the one that is written over it.
    before: Vec<Record>,
    records: Vec<Record>,
}

/// For each lent log and each rule: the entries that came back, or 1,000 and a refusal.
const LENT: usize = 4;

/// What was answered, the slice, and the table's images after the replays.
type Came = ([u64; LENT], Vec<u8>, Vec<u8>);

fn over<E: Engine>(input: &Over) -> Answer<Came> {
    let mut slice = vec![input.filled; PAGE * input.pages];
    let (_, w) = write::<E>(&mut slice, Writer::Fresh, input.start, &input.before)?;
    let (length, _) = write::<E>(&mut slice, w, input.start, &input.records)?;
    let (mut came, mut images) = ([0; LENT], vec![]);
    let lent = [&slice[..length as usize], &slice[..]].map(|log| RULES.map(|after| (log, after)));
    for (came, (log, after)) in came.iter_mut().zip(lent.concat()) {
        *came = match come_back::<E>(log, input.start, &input.records, after) {
            Ok(count) => count,
            Err(why) => 1000 + why.0 as u64,
        };
        let mut image = table().image();
        let seed = input.start.seed.unwrap_or(*hash_seed());
        let said = E::replay(&mut image, table().n, log, input.start.sync, &seed, &log_hashes(log), after);
        images.extend(format!("{said:?}").bytes());
        images.extend(image);
    }
    Ok((came, slice, images))
}

/// The same by the original: it writes both logs and reads what its slice then has. What follows its end it does not
/// look at, so the default calls have to answer 27 where a byte of the slice is left there.
fn over_theirs(input: &Over) -> original::Said<Came> {
    let logs = [&input.before, &input.records].map(|records| written(input.start.sync, records));
    let [before, log] = [logs[0].clone()?, logs[1].clone()?];
    // The slice in its own edition, for its reader and its replay, and in the input's.
    let laid = |seed: &Option<Seed>| {
        let mut slice = vec![input.filled; PAGE * input.pages];
        let (before, log) = (retold(&before, seed), retold(&log, seed));
        slice[..before.len()].copy_from_slice(&before);
        slice[..log.len()].copy_from_slice(&log);
        (slice, log.len())
    };
    let (slice, length) = laid(&input.start.seed);
    let used = slice[length..].iter().any(|&byte| byte != 0);
    let (theirs, _) = laid(&None);
    let (mut came, mut images) = ([0; LENT], vec![]);
    for (i, lent) in [&log[..], &theirs].into_iter().enumerate() {
        let mut reader = Reader::new(lent)?;
        let mut count = 1;
        while reader.read_entry()? != Entry::End {
            count += 1;
        }
        let replayed = original::replay::recover(&table().image(), 3, hash_seed(), lent, input.start.sync);
        replayed.said?;
        for (j, after) in RULES.into_iter().enumerate() {
            let refused = after == Zeros && i == 1 && used;
            came[2 * i + j] = if refused { 1027 } else { count };
            let said = if refused { "Err(Refused(27))" } else { "Ok(Applied)" };
            images.extend(said.bytes());
            images.extend(if refused { table().image() } else { replayed.image.clone() });
        }
    }
    Ok((came, slice, images))
}

impl Op for OverOp {
    type Input = Over;

    fn name(_: &Over) -> &'static str {
        "written over"
    }

    fn run<E: Engine>(input: &Over) -> Out {
        Out::of(over::<E>(input), |(came, slice, images)| {
            Out::value("came back", &came).with("slice", slice).with("images", images)
        })
    }

    fn original(input: &Over) -> Heard {
        Did::of(over_theirs(input), |(came, slice, images)| {
            Did::value("came back", &came).with("slice", slice).with("images", images)
        })
        .plain()
    }

    fn smaller(input: &Over) -> Vec<Over> {
        let mut out = vec![];
        for i in 0..input.before.len() {
            let mut less = input.clone();
            less.before.remove(i);
            out.push(less);
        }
        for i in 0..input.records.len() {
            let mut less = input.clone();
            less.records.remove(i);
            out.push(less);
        }
        if input.filled != 0 {
            out.push(Over { filled: 0, ..input.clone() });
        }
        out
    }
}

/// The reader and replay on a log, by one call or by both.
fn whole(run: &mut Run, log: &Log, after: AfterEnd) {
    run.case::<ReadOp>(Walk(log.clone(), after));
    run.case::<ReplayOp>(replay::Input { after, ..replay::Input::new(table(), log.clone()) });
}

/// The reader's next entry and replay's step where its end stands.
fn at_end(run: &mut Run, log: &Log) {
    let (edition, end) = (log.edition(), log.start(log.records.len() - 1));
    run.case::<ReadOp>(Next(log.clone(), edition, end, Tolerant));
    let step = Some((edition, end));
    run.case::<ReplayOp>(replay::Input { step, ..replay::Input::new(table(), log.clone()) });
}

fn changed(log: &Log, at: usize, byte: u8) -> Log {
    Log { changed: vec![(at, byte)], ..log.clone() }
}

/// Logs of one page and of three: with their end on the first and on the last, and with their end as the last bytes of
/// a page, after which nothing stands or whole pages do.
fn logs(seed: Option<Seed>) -> Vec<Log> {
    let of = |records: &[Record], pages_more| Log { seed, pages_more, ..Log::new(7, records) };
    let full = (1 << 126) - 1;
    let short = [Record::Clear(1), Record::End];
    let long = [update(full, 2), update(full, 1), Record::End];
    let last = standing_at(edition(&seed).width() as usize, Record::End, seed).expect("such a log");
    vec![of(&short, 0), of(&long, 0), of(&short, 2), last.clone(), Log { pages_more: 1, ..last }]
}

/// Each single byte after end; those right after it, the last ones and those around pages with each value.
fn single_bytes(run: &mut Run) {
    for log in STORES.into_iter().flat_map(logs) {
        let (used, len) = (log.used(), log.bytes().len());
        whole(run, &log, Tolerant);
        at_end(run, &log);
        for at in used..len {
            let edge = at < used + 2 || at + 2 > len || (at + 1) % PAGE < 2;
            // Each byte by the default calls; some by the tolerant ones too.
            let one = changed(&log, at, 1 << (at % 8));
            whole(run, &one, if edge || at % 97 == 0 { Tolerant } else { Zeros });
            if edge || at % 13 == 0 {
                at_end(run, &one);
            }
            for byte in (1..=255).filter(|_| edge) {
                run.case::<ReadOp>(Walk(changed(&log, at, byte), Tolerant));
            }
            if edge || at % 997 == 0 {
                run.case::<ReadOp>(List(changed(&log, at, 0xFF)));
            }
        }
        // A log that is lent up to a byte before the one that is set, or with it.
        for at in (used..len).step_by(61).chain([len - 1]) {
            for cut in [at, at + 1] {
                let log = Log { cut: Some(cut), ..changed(&log, at, 2) };
                at_end(run, &log);
            }
        }
    }
}

/// Logs written over others in the same slice.
fn overs(run: &mut Run) {
    let full = (1 << 126) - 1;
    let some: [&[Record]; 5] = [
        &[],
        &[Record::Clear(2)],
        &[update(5, 0), Record::Clear(1)],
        &[update(full, 2), Record::Clear(0)],
        &[update(full, 2), update(full, 1), update(1, 0)],
    ];
    for seed in STORES {
        for (before, records) in some.iter().flat_map(|before| some.map(|records| (before, records))) {
            for (filled, pages) in [(0, 3), (0, 4), (0xEE, 3), (0xEE, 4)] {
                let start = Start { sync: 7, seed };
                let (before, records) = (before.to_vec(), records.to_vec());
                run.case::<OverOp>(Over { start, filled, pages, before, records });
            }
        }
    }
}

/// 27 beside the other refusals of a replay: stale, and each refusal of an entry, come before it, the hash count after.
fn orders(run: &mut Run) {
    let n = table().n;
    let bad = [
        Record::Clear(n),
        Record::Clear(u64::MAX),
        update(1, n),
        update(1 << 126, 0),
        update(1 << 127, 0),
        Record::Byte(5),
        Record::Byte(0xB2),
    ];
    for seed in STORES {
        let mut logs = vec![];
        for records in [vec![], vec![Record::Clear(1)], vec![update(5, 2), Record::Clear(0)]] {
            logs.push(records.clone());
            logs.extend(bad.map(|bad| [&records[..], &[bad]].concat()));
        }
        for records in logs {
            let mut log = Log { seed, pages_more: 1, ..Log::new(7, &records) };
            log.records.push(Record::End);
            let used = log.used();
            for at in [None, Some(used), Some(PAGE - 1), Some(PAGE), Some(2 * PAGE - 1)] {
                let log = Log { changed: at.map(|at| (at, 1)).into_iter().collect(), ..log.clone() };
                before_and_after(run, &log);
            }
        }
        // No end at all: 6 at the last byte, and 8 for zeros in an end's place.
        for record in [Record::Clear(1), update(5, 1), Record::Byte(0)] {
            for left in 0..=12 {
                let Some(log) = standing_at(left, record, seed) else { continue };
                before_and_after(run, &Log { cut: Some(PAGE), ..log.clone() });
                before_and_after(run, &Log { cut: Some(PAGE), changed: vec![(PAGE - 1, 1)], ..log });
            }
        }
    }
}

/// A log under its number and another, with the hashes and with more and fewer, for its store and another, on its table
/// and with none, in whole pages and not.
fn before_and_after(run: &mut Run, log: &Log) {
    let input = replay::Input::new(table(), log.clone());
    for (sync, hashes_more) in [(7, 0), (7, 1), (7, -1), (8, 0), (8, 1)] {
        run.case::<ReplayOp>(replay::Input { sync, hashes_more, ..input.clone() });
    }
    run.case::<ReplayOp>(replay::Input { foreign: true, ..input.clone() });
    run.case::<ReplayOp>(replay::Input { seed: [1; 16], ..input.clone() });
    run.case::<ReplayOp>(replay::Input { table: Table { longer: -1, ..table() }, ..input.clone() });
    for cut in [0, PAGE, log.bytes().len() - 1] {
        let cut = Log { cut: Some(cut), ..log.clone() };
        run.case::<ReplayOp>(replay::Input { log: cut.clone(), ..input.clone() });
        run.case::<ReadOp>(Walk(cut, Tolerant));
    }
    let start = log.changed.iter().copied().chain([(0, 9)]).collect();
    run.case::<ReplayOp>(replay::Input { log: Log { changed: start, ..log.clone() }, ..input });
    run.case::<ReadOp>(Walk(log.clone(), Tolerant));
}

pub fn exhaustive(run: &mut Run) {
    orders(run);
    overs(run);
    single_bytes(run);
}

/// A log that comes to an end, and something after it.
fn any_used(rng: &mut Rng, n: u64) -> Log {
    let log = any_log(rng, n);
    let mut log = any_edition(rng, log);
    log.cut = None;
    log.pages_more = rng.below(4) as usize;
    if !log.records.contains(&Record::End) {
        log.records.push(Record::End);
    }
    let (used, len) = (log.used() as u64, log.bytes().len() as u64);
    match rng.below(5) {
        0 => {}
        // A byte, which may be zero.
        1 if used < len => log.changed.push((rng.within(used, len - 1) as usize, rng.next() as u8)),
        // Many, from a place on.
        2 if used < len => {
            let from = rng.within(used, len - 1);
            let mut tail = vec![0; rng.within(1, (len - from).min(200)) as usize];
            fill(&mut tail, rng.next());
            log.changed.extend(tail.into_iter().enumerate().map(|(i, byte)| (from as usize + i, byte)));
        }
        // Old entries, at once or after some zeros.
        _ => {
            log.records.extend(vec![Record::Byte(0); rng.below(3) as usize]);
            for _ in 0..rng.below(4) {
                log.records.push(good_record(rng, |rng| rng.below(n)));
            }
        }
    }
    log
}

pub fn random(run: &mut Run, rng: &mut Rng) {
    if rng.once_in(6) {
        let mut records = |most: u64| {
            let count = rng.below(most);
            (0..count).map(|_| good_record(rng, |rng| rng.below(3))).collect::<Vec<_>>()
        };
        let (before, records) = (records(8), records(4));
        let pages = before.len().max(records.len()) + 1 + rng.below(2) as usize;
        let start = Start { sync: rng.number() as u32, seed: rng.pick(&STORES) };
        return run.case::<OverOp>(Over { start, filled: rng.pick(&[0, 0, 0xEE]), pages, before, records });
    }
    let log = any_used(rng, 3);
    match rng.below(4) {
        0 => {
            let end = log.records.iter().position(|r| *r == Record::End).unwrap_or(0);
            let edition = if rng.once_in(20) { rng.pick(&EDITIONS) } else { log.edition() };
            run.case::<ReadOp>(Next(log.clone(), edition, log.start(end), Tolerant));
        }
        1 => run.case::<ReadOp>(Walk(log, Tolerant)),
        2 if rng.once_in(8) => run.case::<ReadOp>(List(log)),
        _ => {
            let mut input = replay::Input::new(table(), log);
            match rng.below(8) {
                0 => input.hashes_more = rng.within(0, 2) as i64 - 1,
                1 => input.sync ^= rng.below(2) as u32,
                2 => {
                    let record = rng.below(input.log.records.len() as u64 + 1) as usize;
                    input.step = Some((input.log.edition(), input.log.start(record)));
                }
                _ => {}
            }
            run.case::<ReplayOp>(input);
        }
    }
}
