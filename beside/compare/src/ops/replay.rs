//! mod.rs: `recover`.

use crate::{
    after, departures as known,
    engine::Engine,
    faults::heard,
    heard::{number, outside, Did, End, Heard},
    input::{
        any_count, any_tags, hash_of, hash_seed, image_fits, log_hashes, smaller_number, Bytes, Label, Log, Record,
        Table,
    },
    ops::{
        places::wrong_length,
        read::{any_log, changed_bytes, cut_at, good_logs, kinds, lists, set_reader},
    },
    rng::{mixed, Rng},
    run::{u64_bytes, Op, Out, Run, Said},
    second::{is_second, seed_of, told_back},
};
use model::{
    after_end::AfterEnd::{self, Tolerant, Zeros},
    diff::{Diff, NODE},
    edition::{Edition, Seed, SECOND},
    replay::{Replayed, Stepped},
    tags::{full_tag, TOMBSTONE},
    PAGE,
};
use original::{
    log::{Entry, Reader},
    Trouble,
};
use std::{collections::BTreeSet, fmt};

pub struct ReplayOp;

#[derive(Clone)]
pub struct Input {
    pub table: Table,
    pub log: Log,
    /// The sync number of the table.
    pub sync: u32,
    /// Hashes lent more than there are updates, or fewer.
    pub hashes_more: i64,
    /// The hashes are not those of the ids, which the original takes.
    pub foreign: bool,
    /// The table's seed.
    pub seed: Seed,
    /// One step at a position, its entry read as one of an edition, instead of the whole.
    pub step: Option<(Edition, u64)>,
    pub after: AfterEnd,
}

/// What the original says, and what it leaves of table and log.
type Theirs = (original::Said<()>, Vec<u8>, u64);

fn did_of((said, image, log): Theirs) -> Did {
    Did::of(said, |()| Did::value("done", &[log])).with("image", image)
}

/// What `recover` does with any log, from its text.
fn recovers(before: &[u8], n: u64, log: &[u8], sync: u32) -> Theirs {
    let mut image = before.to_vec();
    let (said, left) = match applied(&mut image, n, log, sync) {
        Ok(()) => (Ok(()), 0),
        Err(trouble) => (Err(trouble), log.len() as u64),
    };
    (said, image, left)
}

fn applied(image: &mut [u8], n: u64, log: &[u8], sync: u32) -> original::Said<()> {
    if image.len() as u64 != 4096 * (n.div_ceil(4096) + n) {
        let End::Error(said) = wrong_length().end else { unreachable!() };
        return Err(Trouble::Error(said));
    }
    let mut reader = set_reader(log)?;
    if reader.sync_seqn() != sync {
        return Ok(());
    }
    let mut tags = image[..PAGE * n.div_ceil(4096) as usize].to_vec();
    let mut changed = BTreeSet::new();
    let panic =
        |at: &str, len: usize, b: u64| Trouble::Panic(original::Panic { at: at.to_string(), said: outside(len, b) });
    loop {
        match reader.read_entry()? {
            Entry::End => break,
            Entry::Clear { bucket } => {
                if bucket >= tags.len() as u64 {
                    return Err(panic("bitbox/meta_map.rs:52", tags.len(), bucket));
                }
                tags[bucket as usize] = TOMBSTONE;
                changed.insert(bucket as usize / PAGE);
            }
            Entry::Update { id, diff, nodes, elided, bucket } => {
                if bucket >= tags.len() as u64 {
                    return Err(panic("bitbox/meta_map.rs:67", tags.len(), bucket));
                }
                let tag = full_tag(hash_of(id));
                if tags[bucket as usize] != tag {
                    tags[bucket as usize] = tag;
                    changed.insert(bucket as usize / PAGE);
                }
                let at = PAGE * (n.div_ceil(4096) + bucket) as usize;
                let Some(page) = image.get_mut(at..at + PAGE) else {
                    return Err(Trouble::Error("failed to fill whole buffer".to_string()));
                };
                let diff = Diff((diff[1] as u128) << 64 | diff[0] as u128);
                for (slot, node) in diff.slots().into_iter().zip(nodes) {
                    page[NODE * slot..NODE * (slot + 1)].copy_from_slice(&node);
                }
                page[4056..4064].copy_from_slice(&elided);
                page[4064..].copy_from_slice(&id);
            }
        }
    }
    for i in changed {
        image[PAGE * i..PAGE * (i + 1)].copy_from_slice(&tags[PAGE * i..PAGE * (i + 1)]);
    }
    Ok(())
}

/// What 01 answers to a log, by the original's own reader: the name of an answer, or a number.
fn answer(n: u64, fits: bool, log: &[u8], sync: u32, hashes: usize) -> Result<&'static str, u8> {
    if !fits {
        return Err(1);
    }
    if log.is_empty() {
        return Ok("nothing");
    }
    let refused = |trouble: Trouble| match trouble {
        Trouble::Error(said) => number(&said).unwrap_or(0),
        _ => 0,
    };
    let mut reader = set_reader(log).map_err(refused)?;
    if reader.sync_seqn() != sync {
        return Ok("stale");
    }
    let mut updates = 0;
    loop {
        match reader.read_entry().map_err(refused)? {
            Entry::End if hashes == updates => return Ok("applied"),
            Entry::End => return Err(2),
            Entry::Clear { bucket } | Entry::Update { bucket, .. } if bucket >= n => return Err(9),
            Entry::Clear { .. } => {}
            Entry::Update { .. } => updates += 1,
        }
    }
}

/// The original's replay beside what 01 says of it, whose image is that of before where it refuses.
fn judged(before: Vec<u8>, n: u64, log: &[u8], sync: u32, said: Said) -> Heard {
    let replayed = original::replay::recover(&before, n as u32, hash_seed(), log, sync);
    let first = log.get(6..14).filter(|_| log[5] == 3).map_or(0, |b| u64::from_le_bytes(b.try_into().unwrap()));
    let replayed = heard("replay", &[n, first], replayed);
    let did = did_of((replayed.said, replayed.image, replayed.log));
    let wanted = did_of(recovers(&before, n, log, sync));
    let accepted = matches!(said, Said::Value(..));
    let agrees = match (&wanted.end, &said) {
        (End::Value(..), Said::Value(..)) => true,
        (End::Error(error), Said::Refused(n)) => number(error) == Some(*n) && wanted.left[0].1 == before,
        // It takes no hashes.
        (End::Value(..), Said::Refused(2)) => true,
        _ => false,
    };
    if agrees {
        let image = if accepted { wanted.left[0].1.clone() } else { before };
        return did.held_to(wanted, None, Out::said(said).with("image", image));
    }
    let how = match (&wanted.end, &said) {
        _ if n == 0 => known::REPLAY_NO_BUCKETS,
        (_, Said::Value(..)) => known::REPLAY_EMPTY,
        (End::Panic(_), _) => known::REPLAY_PAST,
        (End::Error(error), Said::Refused(refused)) if number(error) == Some(*refused) => known::REPLAY_WRITTEN,
        _ => known::REPLAY_PADDING,
    };
    did.departs(how, wanted, Out::said(said).with("image", before))
}

/// A log of edition two that another store's table is lent: 26, where the original answers 7. Both leave the image.
fn another_store(before: Vec<u8>, n: u64, log: &[u8], sync: u32) -> Heard {
    let replayed = original::replay::recover(&before, n as u32, hash_seed(), log, sync);
    let replayed = heard("replay", &[n, 0], replayed);
    if replayed.image != before {
        return Heard::Held(Err("it has changed the table by a log of edition two".to_string()));
    }
    Did::of(replayed.said, |()| Did::value("done", &[])).beyond(Out::refused(26).with("image", before))
}

/// One entry, as a log of its own. In edition two it stands behind its mark's first byte.
fn step(input: &Input, edition: Edition, at: u64) -> Heard {
    let (before, n, log) = (input.table.image(), input.table.n, input.log.bytes());
    let at = match (edition, usize::try_from(at).ok().and_then(|at| log.get(at))) {
        (Edition::Two, Some(&SECOND)) => at + 1,
        (Edition::Two, Some(_)) if image_fits(n, before.len()) => return Heard::NotAsked,
        _ => at,
    };
    let mut reader = Reader::at(&log, at as usize);
    let read = if image_fits(n, before.len()) { reader.read_entry() } else { Ok(Entry::End) };
    let (entry, next) = match read {
        Ok(entry) => (entry, reader.offset() as u64),
        // The reader's error; nothing is applied.
        Err(trouble) => return Did::of(Err::<(), _>(trouble), |()| Did::value("", &[])).with("image", before).plain(),
    };
    let mut alone = vec![1, 0, 0, 0, 0];
    let said = match entry {
        _ if !image_fits(n, before.len()) => Said::Refused(1),
        Entry::End => Said::Value("end", vec![]),
        Entry::Clear { bucket } | Entry::Update { bucket, .. } if bucket >= n => Said::Refused(9),
        Entry::Clear { .. } => Said::Value("cleared", vec![next]),
        Entry::Update { .. } => Said::Value("updated", vec![next]),
    };
    if entry != Entry::End {
        alone.extend(&log[at as usize..next as usize]);
    }
    alone.push(2);
    alone.resize(alone.len().next_multiple_of(PAGE), 0);
    judged(before, n, &alone, 0, said)
}

impl fmt::Debug for Input {
    fn fmt(&self, f: &mut fmt::Formatter) -> fmt::Result {
        write!(f, "{:?}, {:?}, under sync {}", self.table, self.log, self.sync)?;
        if self.hashes_more != 0 {
            write!(f, ", {} hashes more", self.hashes_more)?;
        }
        if self.foreign {
            write!(f, ", hashes of their own")?;
        }
        match self.step {
            Some((edition, at)) => write!(f, ", one step in edition {edition:?} at {at}")?,
            None if self.log.seed.is_some_and(|seed| seed != self.seed) => {
                write!(f, ", on a table of seed {:?}", Bytes(self.seed.to_vec()))?
            }
            None => {}
        }
        write!(f, ", {:?}", self.after)
    }
}

impl Input {
    pub fn new(table: Table, log: Log) -> Self {
        let seed = log.seed.unwrap_or(*hash_seed());
        Input { table, sync: log.sync, log, hashes_more: 0, foreign: false, seed, step: None, after: Tolerant }
    }

    fn hashes(&self, log: &[u8]) -> Vec<u64> {
        let mut hashes = log_hashes(log);
        let len = (hashes.len() as i64 + self.hashes_more).max(0) as usize;
        hashes.resize(len, 1 << 60);
        if self.foreign {
            hashes.iter_mut().for_each(|h| *h = mixed(*h));
        }
        hashes
    }

    /// Whether a byte after the end that it comes to is not zero.
    fn used(&self) -> bool {
        let log = self.log.bytes();
        let edition = Edition::of(&log);
        let (edition, at) = self.step.unwrap_or((edition, edition.first()));
        after::used(&log, edition, at)
    }

    /// The hash that a step is lent: that of an update's id.
    fn hash_at(&self, log: &[u8], edition: Edition, at: u64) -> u64 {
        match model::reader::next(log, edition, at, Tolerant) {
            Ok((model::reader::Entry::Update { id, .. }, _)) if !self.foreign => hash_of(id),
            _ => mixed(at),
        }
    }
}

impl Op for ReplayOp {
    type Input = Input;

    fn name(input: &Input) -> &'static str {
        match (input.step, input.log.edition(), input.after) {
            (Some((Edition::One, _)), _, Tolerant) => "replay step",
            (Some((Edition::Two, _)), _, Tolerant) => "replay step two",
            (Some((Edition::One, _)), _, Zeros) => "replay step zeros",
            (Some((Edition::Two, _)), _, Zeros) => "replay step two zeros",
            (None, Edition::One, Tolerant) => "replay",
            (None, Edition::Two, Tolerant) => "replay two",
            (None, Edition::One, Zeros) => "replay zeros",
            (None, Edition::Two, Zeros) => "replay two zeros",
        }
    }

    fn run<E: Engine>(input: &Input) -> Out {
        let mut image = input.table.image();
        let log = input.log.bytes();
        let hashes = input.hashes(&log);
        let out = match input.step {
            None => {
                let said = E::replay(&mut image, input.table.n, &log, input.sync, &input.seed, &hashes, input.after);
                Out::of(said, |r| match r {
                    Replayed::Nothing => Out::value("nothing", &[]),
                    Replayed::Stale => Out::value("stale", &[]),
                    Replayed::Applied => Out::value("applied", &[]),
                })
            }
            Some((edition, at)) => {
                let hash = input.hash_at(&log, edition, at);
                let said = E::replay_step(&mut image, input.table.n, &log, edition, at, hash, input.after);
                Out::of(said, |s| match s {
                    Stepped::Cleared { next } => Out::value("cleared", &[next]),
                    Stepped::Updated { next } => Out::value("updated", &[next]),
                    Stepped::End => Out::value("end", &[]),
                })
            }
        };
        out.with("image", image).reading("log", log).reading("hashes", u64_bytes(&hashes))
    }

    fn original(input: &Input) -> Heard {
        if input.after == Zeros {
            let tolerant = Input { after: Tolerant, ..input.clone() };
            return Self::heard_by_default(input, Self::original(&tolerant));
        }
        let n = input.table.n;
        if n > u32::MAX as u64 || input.foreign {
            return Heard::NotAsked;
        }
        if let Some((edition, at)) = input.step {
            return step(input, edition, at);
        }
        let (before, mut log) = (input.table.image(), input.log.bytes());
        let (fits, hashes) = (image_fits(n, before.len()), input.hashes(&log).len());
        if is_second(&log) {
            if fits && seed_of(&log) != input.seed {
                return another_store(before, n, &log, input.sync);
            }
            let Some(back) = told_back(&log) else { return Heard::NotAsked };
            log = back;
        }
        let said = match answer(n, fits, &log, input.sync, hashes) {
            Ok(name) => Said::Value(name, vec![]),
            Err(number) => Said::Refused(number),
        };
        judged(before, n, &log, input.sync, said)
    }

    fn by_default(input: &Input) -> Option<Input> {
        (input.after == Tolerant).then(|| Input { after: Zeros, ..input.clone() })
    }

    fn heard_by_default(input: &Input, tolerant: Heard) -> Heard {
        let inputs = [input, &Input { after: Tolerant, ..input.clone() }];
        let refused = |_: &Out| Out::refused(27).with("image", input.table.image());
        // A step is told to it as a log of its own.
        let how = input.step.is_none().then_some(known::REPLAY_AFTER_END);
        after::heard::<ReplayOp>(inputs, tolerant, || input.used(), how, refused)
    }

    fn smaller(input: &Input) -> Vec<Input> {
        let mut out: Vec<Input> = input.log.smaller().into_iter().map(|log| Input { log, ..input.clone() }).collect();
        out.extend(input.log.smaller().into_iter().map(|log| Input { sync: log.sync, log, ..input.clone() }));
        out.extend(input.table.smaller_images().into_iter().map(|table| Input { table, ..input.clone() }));
        if input.hashes_more != 0 {
            out.push(Input { hashes_more: 0, ..input.clone() });
        }
        if input.foreign {
            out.push(Input { foreign: false, ..input.clone() });
        }
        for sync in smaller_number(input.sync as u64) {
            out.push(Input { sync: sync as u32, ..input.clone() });
        }
        if let Some((edition, at)) = input.step {
            out.extend(smaller_number(at).into_iter().map(|at| Input { step: Some((edition, at)), ..input.clone() }));
        }
        out
    }
}

/// A log for a large table: updates and clears from one end to the other.
fn long_log(n: u64) -> Log {
    let mut log = Log::new(7, &[]);
    for i in 0..60 {
        let bucket = if i == 59 { n - 1 } else { i * (n / 59) };
        log.records.push(match i % 3 {
            0 => Record::Clear(bucket),
            _ => {
                let label = Label { hash: mixed(i), free: i };
                Record::Update { label, diff: Diff(1 << (i + 60) | 1 << i | 1 << 125), with: i, bucket }
            }
        });
    }
    log.records.push(Record::End);
    log
}

pub fn exhaustive(run: &mut Run) {
    // Large tables with many full buckets.
    for n in [4300, 10_600, 16_500] {
        let mut tags = vec![0; n as usize];
        crate::input::fill(&mut tags, n);
        run.case::<ReplayOp>(Input::new(Table::new(n, &tags), long_log(n)));
    }
    let table = |n: u64| Table { with: 11, ..Table::new(n, &[0x80, 0x7F, 0x01, 0x00]) };
    // All logs of up to two records on tables of one to four buckets, of three on one of two.
    for n in 1..=4 {
        for records in lists(&kinds(n), if n == 2 { 3 } else { 2 }) {
            for ended in [true, false] {
                let mut log = Log::new(7, &records);
                if ended {
                    log.records.push(Record::End);
                }
                if records.len() < 3 || ended {
                    run.case::<ReplayOp>(Input::new(table(n), log.clone()));
                }
                if records.len() < 2 {
                    for (sync, hashes_more, foreign) in [(8, 0, false), (7, 1, false), (7, -1, false), (7, 0, true)] {
                        let input = Input { sync, hashes_more, foreign, ..Input::new(table(n), log.clone()) };
                        run.case::<ReplayOp>(input);
                    }
                    let used = log.used() as u64;
                    for at in (0..used + 2).chain([4095, 4096, u64::MAX]) {
                        let step = Some((Edition::One, at));
                        run.case::<ReplayOp>(Input { step, ..Input::new(table(n), log.clone()) });
                    }
                }
            }
        }
    }
    for log in good_logs() {
        // Step after step.
        for i in 0..log.records.len() {
            for foreign in [false, true] {
                let step = Some((Edition::One, log.start(i)));
                run.case::<ReplayOp>(Input { step, foreign, ..Input::new(table(3), log.clone()) });
            }
        }
        // Every single-byte change, under the log's sync number.
        for (changed, both) in changed_bytes(&log) {
            run.sample::<ReplayOp>(Input::new(table(3), changed), both);
        }
        for len in [0, 1, 4, 5, 4095, 4096, 4097, 8191, 8192, 8193, 12288] {
            for sync in [7, 8] {
                let log = Log { cut: Some(len), ..log.clone() };
                run.case::<ReplayOp>(Input { sync, ..Input::new(table(3), log) });
            }
        }
        for n in [0, 1, 2, 3, 4, 5, 1_048_577, 1 << 32, u64::MAX] {
            for longer in [0, -1, 1, -4096, 4096] {
                run.case::<ReplayOp>(Input::new(Table { longer, ..table(n) }, log.clone()));
                let step = Some((Edition::One, 5));
                run.case::<ReplayOp>(Input { step, ..Input::new(Table { longer, ..table(n) }, log.clone()) });
            }
        }
    }
    for record in kinds(3) {
        for left in [1, 2, 8, 9, 10, 33, 34, 48, 49, 50, 64, 65, 66, 96, 97, 98, 129] {
            if let Some(log) = cut_at(left, record) {
                run.case::<ReplayOp>(Input::new(table(3), log));
            }
        }
    }
    // Around a whole tag page.
    for n in [4095, 4096, 4097] {
        for b in [n - 1, n, 4095, 4096, 8191, 8192] {
            for record in [Record::Clear(b), kinds(2)[7]] {
                let record = match record {
                    Record::Update { label, diff, with, .. } => Record::Update { label, diff, with, bucket: b },
                    other => other,
                };
                run.case::<ReplayOp>(Input::new(Table::new(n, &[0x80]), Log::new(7, &[record, Record::End])));
            }
        }
    }
}

/// A replay or one of its steps, by chance.
pub fn any(rng: &mut Rng) -> Input {
    let most = if rng.once_in(300) { 4200 } else { 24 };
    let n = any_count(rng, most);
    let mut table = Table::new(n, &any_tags(rng, n));
    table.with = rng.below(1 << 16);
    if rng.once_in(10) {
        table.padding = Some((rng.below(40), rng.next() as u8));
    }
    if rng.once_in(60) {
        table.longer = rng.below(8200) as i64 - 4100;
    }
    let log = any_log(rng, n);
    let mut input = Input::new(table, log);
    match rng.below(30) {
        0 => input.sync = input.sync.wrapping_add(1),
        1 => input.hashes_more = rng.below(5) as i64 - 2,
        2 => input.foreign = true,
        3 => input.step = Some((Edition::One, rng.below(input.log.used() as u64 + 3))),
        4..=6 => {
            let record = rng.below(input.log.records.len() as u64 + 1) as usize;
            input.step = Some((Edition::One, input.log.start(record)));
        }
        _ => {}
    }
    input
}

pub fn random(run: &mut Run, rng: &mut Rng) {
    run.case::<ReplayOp>(any(rng));
}
