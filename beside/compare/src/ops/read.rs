//! wal/read.rs: the reader, and the program that reads off a log.

use crate::{
    after, departures as known,
    engine::{head_of, Engine, Head},
    faults::heard,
    heard::{number, Did, End, Heard},
    input::{any_diff, good_diff, smaller_number, words, Label, Log, Record},
    rng::Rng,
    run::{Op, Out, Run},
    second::{is_second, seed_of, FIRST},
};
use model::{
    after_end::AfterEnd::{self, Tolerant, Zeros},
    diff::Diff,
    edition::{Edition, Seed, Start, SECOND},
    reader::Entry,
    PAGE,
};
use original::log as o;

pub struct ReadOp;

#[derive(Clone, Debug)]
pub enum Input {
    Set(Log),
    /// The entry at a position, read as one of an edition.
    Next(Log, Edition, u64, AfterEnd),
    /// Set, then entry after entry up to end or a refusal, and once more.
    Walk(Log, AfterEnd),
    List(Log),
}

use Input::*;

impl Input {
    /// The edition that it is read in, by which its row is named.
    fn edition(&self) -> Edition {
        match self {
            Next(_, edition, ..) => *edition,
            Set(log) | Walk(log, _) | List(log) => log.edition(),
        }
    }

    /// What is wanted after end; of the calls that do not come to it, and of `list`, nothing.
    fn after(&self) -> AfterEnd {
        match self {
            Next(.., after) | Walk(_, after) => *after,
            Set(_) | List(_) => Tolerant,
        }
    }

    fn asked(&self, after: AfterEnd) -> Input {
        match self.clone() {
            Next(log, edition, at, _) => Next(log, edition, at, after),
            Walk(log, _) => Walk(log, after),
            other => other,
        }
    }

    /// Whether a byte after the end that it comes to is not zero.
    fn used(&self) -> bool {
        match self {
            Next(log, edition, at, _) => after::used(&log.bytes(), *edition, *at),
            Walk(log, _) => {
                let log = log.bytes();
                let edition = Edition::of(&log);
                after::used(&log, edition, edition.first())
            }
            Set(_) | List(_) => false,
        }
    }
}

/// An entry and the position after it, as bytes.
fn entry_bytes(entry: &Entry, after: u64) -> Vec<u8> {
    let mut out = after.to_le_bytes().to_vec();
    match entry {
        Entry::End => out.push(2),
        Entry::Clear { bucket } => {
            out.push(3);
            out.extend(bucket.to_le_bytes());
        }
        Entry::Update { id, diff, nodes, elided, bucket } => {
            out.push(4);
            out.extend(id);
            out.extend(diff.bytes());
            out.extend(nodes.as_flattened());
            out.extend(elided);
            out.extend(bucket.to_le_bytes());
        }
    }
    out
}

/// The original's entry; the position after end is end's, since ours does not move on.
fn plain(entry: o::Entry) -> Entry {
    match entry {
        o::Entry::End => Entry::End,
        o::Entry::Clear { bucket } => Entry::Clear { bucket },
        o::Entry::Update { id, diff, nodes, elided, bucket } => {
            Entry::Update { id, diff: Diff((diff[1] as u128) << 64 | diff[0] as u128), nodes, elided, bucket }
        }
    }
}

/// A head or its refusal, as bytes.
fn head_bytes(head: model::Answer<Head>) -> Vec<u8> {
    match head {
        Ok(words) => words.into_iter().flat_map(u64::to_le_bytes).collect(),
        Err(why) => vec![why.0],
    }
}

/// What a start says.
fn start_told(start: Start) -> Out {
    let out = Out::value("sync", &[start.sync as u64]);
    match start.seed {
        None => out,
        Some(seed) => out.with("seed", seed),
    }
}

fn start_bytes(start: Start) -> Vec<u8> {
    [&start.sync.to_le_bytes()[..], start.seed.as_ref().map_or(&[], |seed| &seed[..])].concat()
}

fn entry_told(entry: &Entry, after: u64) -> (&'static str, Vec<u64>) {
    match entry {
        Entry::End => ("end", vec![after]),
        Entry::Clear { bucket } => ("clear", vec![*bucket, after]),
        Entry::Update { bucket, diff, .. } => {
            let [a, b] = words(*diff);
            ("update", vec![*bucket, a, b, after])
        }
    }
}

/// The original's next entry at a place. Where 01's reader stays, after end and after a refusal, the original's has
/// moved on: by as much as it has read.
fn original_next(reader: &mut o::Reader, log: &[u8], at: u64) -> Result<original::Said<(Entry, u64)>, String> {
    let said = reader.read_entry().map(plain);
    let moved = reader.offset() as u64;
    let wanted = match &said {
        Ok(Entry::End) => at + 1,
        Ok(Entry::Clear { .. }) => at + 9,
        Ok(Entry::Update { nodes, .. }) => at + 65 + 32 * nodes.len() as u64,
        Err(_) => at + read_before_error(log, at),
    };
    if moved != wanted {
        return Err(format!("it stands at {moved} after the entry at {at}, where it should at {wanted}"));
    }
    Ok(said.map(|entry| {
        let after = if entry == Entry::End { at } else { moved };
        (entry, after)
    }))
}

/// The bytes that the original has read where it stops inside an entry: its parts that the log reaches.
fn read_before_error(log: &[u8], at: u64) -> u64 {
    let Some(left) = usize::try_from(at).ok().and_then(|at| log.get(at..)) else { return 0 };
    let mut parts = vec![1];
    match left.first() {
        Some(3) => parts.push(8),
        Some(4) => {
            parts.extend([32, 16]);
            if let Some(diff) = left.get(33..49) {
                let d = u128::from_le_bytes(diff.try_into().unwrap());
                if d >> 126 == 0 {
                    parts.extend(vec![32; d.count_ones() as usize]);
                    parts.extend([8, 8]);
                }
            }
        }
        _ => {}
    }
    let mut read = 0;
    for part in parts {
        if read + part > left.len() {
            break;
        }
        read += part;
    }
    read as u64
}

/// Where the original's entry stands: in edition two behind its mark's first byte, if it has one.
fn behind(log: &[u8], edition: Edition, at: u64) -> Option<u64> {
    match (edition, usize::try_from(at).ok().and_then(|at| log.get(at))) {
        (Edition::Two, Some(&SECOND)) => Some(at + 1),
        (Edition::Two, Some(_)) => None,
        _ => Some(at),
    }
}

/// A log of edition two as the original reads its entries: each with its position and the one after it; and where
/// and with what number the reading stops, if not at end.
struct Second {
    start: Start,
    entries: Vec<(u64, Entry, u64)>,
    stop: Option<(u64, u8)>,
}

fn second(log: &[u8]) -> Result<Second, String> {
    let mut reader = o::Reader::at(log, 1);
    reader.read_start().map_err(|trouble| format!("its start: {trouble:?}"))?;
    let start = Start { sync: reader.sync_seqn(), seed: Some(seed_of(log)) };
    let mut read = Second { start, entries: vec![], stop: None };
    let mut at = FIRST as u64;
    loop {
        let Some(there) = behind(log, Edition::Two, at) else {
            return Ok(Second { stop: Some((at, 8)), ..read });
        };
        reader.put(there as usize);
        match original_next(&mut reader, log, there)? {
            Ok((Entry::End, _)) => {
                read.entries.push((at, Entry::End, at));
                return Ok(read);
            }
            Ok((entry, after)) => {
                read.entries.push((at, entry, after));
                at = after;
            }
            Err(original::Trouble::Error(error)) => {
                return Ok(Second { stop: Some((at, number(&error).unwrap_or(0))), ..read });
            }
            Err(other) => return Err(format!("{other:?}")),
        }
    }
}

/// What reading entry after entry comes to.
fn second_walk(read: &Second) -> Out {
    let mut walked = start_bytes(read.start);
    for (_, entry, after) in &read.entries {
        walked.extend(entry_bytes(entry, *after));
        walked.extend(head_bytes(Ok(head_of(entry, *after))));
    }
    let out = match (read.stop, read.entries.last()) {
        (Some((_, number)), _) => Out::refused(number),
        (None, end) => Out::value("end", &[end.map_or(0, |(at, ..)| *at), 1]),
    };
    out.with("walk", walked)
}

/// The lines of `list`: as those of edition one, and each offset that of a mark's first byte.
fn second_list(read: &Second) -> Out {
    let mut lines = format!("0 start {}\n", read.start.sync);
    for (at, entry, _) in &read.entries {
        lines += &match entry {
            Entry::Clear { bucket } => format!("{at} clear {bucket}\n"),
            Entry::Update { bucket, nodes, .. } => format!("{at} update {bucket} {}\n", nodes.len()),
            Entry::End => format!("{at} end\n"),
        };
    }
    match read.stop {
        Some((at, number)) => Out::refused(number).with("lines", format!("{lines}{at} refused {number}\n")),
        None => Out::value("listed", &[]).with("lines", lines),
    }
}

/// A log of edition two, which the original refuses with 7; beside it what its own reader makes of the entries.
fn beyond_original(log: &[u8], out: impl FnOnce(&Second) -> Out) -> Heard {
    let did = Did::of(set_reader(log), |r| Did::value("sync", &[r.sync_seqn() as u64]));
    match second(log) {
        Ok(read) => did.beyond(out(&read)),
        Err(said) => Heard::Held(Err(said)),
    }
}

/// The lines that `list` should write, from the original's reader. It lists an error by the number that it stands for.
fn original_list(log: &[u8]) -> Did {
    let refused = |lines: String, at: usize, trouble: original::Trouble| {
        let did = Did::of(Err::<(), _>(trouble), |()| Did::value("listed", &[]));
        let number = match &did.end {
            End::Error(error) => number(error).unwrap_or(0),
            _ => 0,
        };
        did.with("lines", format!("{lines}{at} refused {number}\n"))
    };
    let mut lines = String::new();
    let mut reader = match o::Reader::new(log) {
        Ok(reader) => reader,
        Err(trouble) => return refused(lines, 0, trouble),
    };
    lines += &format!("0 start {}\n", reader.sync_seqn());
    loop {
        let at = reader.offset();
        match reader.read_entry() {
            Ok(o::Entry::Clear { bucket }) => lines += &format!("{at} clear {bucket}\n"),
            Ok(o::Entry::Update { bucket, nodes, .. }) => lines += &format!("{at} update {bucket} {}\n", nodes.len()),
            Ok(o::Entry::End) => {
                lines += &format!("{at} end\n");
                return Did::value("listed", &[]).with("lines", lines);
            }
            Err(trouble) => return refused(lines, at, trouble),
        }
    }
}

/// The original's reader on a log, as `new` has it; without the file where its length is one of whole pages.
pub fn set_reader(log: &[u8]) -> original::Said<o::Reader> {
    if log.len() % PAGE != 0 {
        return o::Reader::new(log);
    }
    let mut reader = o::Reader::at(log, 0);
    reader.read_start()?;
    Ok(reader)
}

/// An error of the original with bytes beside it, that 01 refuses in the same way.
fn refused(trouble: original::Trouble, name: &'static str, bytes: impl FnOnce(u8) -> Vec<u8>) -> Heard {
    let did = Did::of(Err::<(), _>(trouble), |()| Did::value("", &[]));
    let bytes = match &did.end {
        End::Error(error) => number(error).map(bytes),
        _ => None,
    };
    did.with(name, bytes.unwrap_or_default()).plain()
}

impl Op for ReadOp {
    type Input = Input;

    fn name(input: &Input) -> &'static str {
        match (input, input.edition(), input.after()) {
            (Set(..), Edition::One, _) => "reader set",
            (Set(..), Edition::Two, _) => "reader set two",
            (Next(..), Edition::One, Tolerant) => "reader next",
            (Next(..), Edition::Two, Tolerant) => "reader next two",
            (Next(..), Edition::One, Zeros) => "reader next zeros",
            (Next(..), Edition::Two, Zeros) => "reader next two zeros",
            (Walk(..), Edition::One, Tolerant) => "reader walk",
            (Walk(..), Edition::Two, Tolerant) => "reader walk two",
            (Walk(..), Edition::One, Zeros) => "reader walk zeros",
            (Walk(..), Edition::Two, Zeros) => "reader walk two zeros",
            (List(..), Edition::One, _) => "list",
            (List(..), Edition::Two, _) => "list two",
        }
    }

    fn run<E: Engine>(input: &Input) -> Out {
        match input {
            Set(log) => {
                let log = log.bytes();
                Out::of(E::reader_set(&log), start_told).reading("log", log)
            }
            Next(log, edition, at, after) => {
                let log = log.bytes();
                let head = head_bytes(E::reader_head(&log, *edition, *at, *after));
                let out = Out::of(E::reader_next(&log, *edition, *at, *after), |(entry, next)| {
                    let (name, values) = entry_told(&entry, next);
                    Out::value(name, &values).with("entry", entry_bytes(&entry, next))
                });
                out.with("head", head).reading("log", log)
            }
            Walk(log, after) => {
                let log = log.bytes();
                let start = match E::reader_set(&log) {
                    Ok(start) => start,
                    Err(why) => return Out::refused(why.0).reading("log", log),
                };
                let mut walked = start_bytes(start);
                let edition = start.edition();
                let mut at = edition.first();
                loop {
                    match E::reader_next(&log, edition, at, *after) {
                        Ok((entry, next)) => {
                            walked.extend(entry_bytes(&entry, next));
                            walked.extend(head_bytes(E::reader_head(&log, edition, at, *after)));
                            if entry == Entry::End {
                                let again = E::reader_next(&log, edition, next, *after) == Ok((Entry::End, next));
                                let out = Out::value("end", &[at, again as u64]);
                                return out.with("walk", walked).reading("log", log);
                            }
                            at = next;
                        }
                        Err(why) => {
                            if E::reader_head(&log, edition, at, *after) != Err(why) {
                                walked.extend(b"another head");
                            }
                            if E::reader_next(&log, edition, at, *after) != Err(why) {
                                walked.extend(b"another answer");
                            }
                            return Out::refused(why.0).with("walk", walked).reading("log", log);
                        }
                    }
                }
            }
            List(log) => {
                let lines = E::list(&log.bytes());
                let last = lines.lines().last().unwrap_or("");
                let out = match last.split_once(" refused ") {
                    Some((_, number)) => Out::refused(number.parse().unwrap_or(0)),
                    None => Out::value("listed", &[]),
                };
                out.with("lines", lines)
            }
        }
    }

    fn original(input: &Input) -> Heard {
        if input.after() == Zeros {
            return Self::heard_by_default(input, Self::original(&input.asked(Tolerant)));
        }
        match input {
            Set(log) => {
                let log = log.bytes();
                if is_second(&log) {
                    return beyond_original(&log, |read| start_told(read.start));
                }
                Did::of(o::Reader::new(&log), |r| Did::value("sync", &[r.sync_seqn() as u64])).plain()
            }
            Next(log, edition, at, _) => {
                let log = log.bytes();
                let Some(there) = behind(&log, *edition, *at) else { return Heard::NotAsked };
                let mut reader = o::Reader::at(&log, there as usize);
                match heard("reader next", &[there], original_next(&mut reader, &log, there)) {
                    Ok(Ok((entry, after))) => {
                        let after = if entry == Entry::End { *at } else { after };
                        let (name, values) = entry_told(&entry, after);
                        let head = head_bytes(Ok(head_of(&entry, after)));
                        Did::value(name, &values).with("entry", entry_bytes(&entry, after)).with("head", head).plain()
                    }
                    Ok(Err(trouble)) => refused(trouble, "head", |number| vec![number]),
                    Err(said) => Heard::Held(Err(said)),
                }
            }
            Walk(log, _) => {
                let log = log.bytes();
                if is_second(&log) {
                    return beyond_original(&log, second_walk);
                }
                let mut reader = match set_reader(&log) {
                    Ok(reader) => reader,
                    Err(trouble) => return Did::of(Err::<(), _>(trouble), |()| Did::value("", &[])).plain(),
                };
                let mut walked = reader.sync_seqn().to_le_bytes().to_vec();
                loop {
                    let at = reader.offset() as u64;
                    match original_next(&mut reader, &log, at) {
                        Ok(Ok((entry, after))) => {
                            walked.extend(entry_bytes(&entry, after));
                            walked.extend(head_bytes(Ok(head_of(&entry, after))));
                            if entry == Entry::End {
                                return Did::value("end", &[at, 1]).with("walk", walked).plain();
                            }
                        }
                        // What was read before a refusal is compared too.
                        Ok(Err(trouble)) => return refused(trouble, "walk", |_| walked),
                        Err(said) => return Heard::Held(Err(said)),
                    }
                }
            }
            List(log) => {
                let log = log.bytes();
                if log.is_empty() || log.len() > model::list::MOST {
                    return Heard::NotAsked;
                }
                if is_second(&log) {
                    return beyond_original(&log, second_list);
                }
                original_list(&log).plain()
            }
        }
    }

    fn by_default(input: &Input) -> Option<Input> {
        match input {
            Next(.., Tolerant) | Walk(_, Tolerant) => Some(input.asked(Zeros)),
            _ => None,
        }
    }

    fn heard_by_default(input: &Input, tolerant: Heard) -> Heard {
        let refused = |tolerant: &Out| match input {
            Next(..) => Out::refused(27).with("head", [27]),
            _ => {
                let end = entry_bytes(&Entry::End, 0).len() + head_bytes(Ok([0; 4])).len();
                let walked = &tolerant.bytes[0].1;
                Out::refused(27).with("walk", &walked[..walked.len() - end])
            }
        };
        let inputs = [input, &input.asked(Tolerant)];
        after::heard::<ReadOp>(inputs, tolerant, || input.used(), Some(known::READER_AFTER_END), refused)
    }

    fn smaller(input: &Input) -> Vec<Input> {
        match input {
            Set(l) => l.smaller().into_iter().map(Set).collect(),
            Walk(l, after) => l.smaller().into_iter().map(|l| Walk(l, *after)).collect(),
            List(l) => l.smaller().into_iter().map(List).collect(),
            Next(l, edition, at, after) => {
                let logs = l.smaller().into_iter().map(|l| Next(l, *edition, *at, *after));
                logs.chain(smaller_number(*at).into_iter().map(|at| Next(l.clone(), *edition, at, *after))).collect()
            }
        }
    }
}

pub fn update(diff: u128, bucket: u64) -> Record {
    Record::Update { label: Label { hash: 0x1234_5678 ^ bucket, free: 1 }, diff: Diff(diff), with: 7, bucket }
}

/// A record of every kind, for a table of n buckets.
pub fn kinds(n: u64) -> Vec<Record> {
    vec![
        Record::Clear(0),
        Record::Clear(n - 1),
        Record::Clear(n),
        Record::Clear(4096),
        Record::Clear(u64::MAX),
        update(0, 0),
        update(1, n - 1),
        update(1 << 125 | 1, 0),
        update((1 << 126) - 1, 0),
        update(1 << 126, 0),
        update(1 << 127 | 1, 0),
        update(1, n),
        update(0, 4096),
        Record::End,
        Record::Byte(0),
        Record::Byte(1),
        Record::Byte(5),
        Record::Byte(0xB2),
        Record::Byte(255),
    ]
}

/// All lists of up to `most` of these.
pub fn lists(kinds: &[Record], most: usize) -> Vec<Vec<Record>> {
    let mut all = vec![vec![]];
    let mut from = 0;
    for _ in 0..most {
        let to = all.len();
        for i in from..to {
            for &k in kinds {
                let mut longer = all[i].clone();
                longer.push(k);
                all.push(longer);
            }
        }
        from = to;
    }
    all
}

/// Some good logs.
pub fn good_logs() -> Vec<Log> {
    let full = (1 << 126) - 1;
    vec![
        Log::new(7, &[Record::End]),
        Log::new(7, &[Record::Clear(0), Record::End]),
        Log::new(0xFFFF_FFFF, &[Record::Clear(1), update(1, 0), Record::Clear(2), Record::End]),
        Log::new(7, &[update(5, 2), update(0, 1), Record::End]),
        Log::new(7, &[update(full, 2), Record::Clear(0), Record::End]),
        Log::new(7, &[update(full, 2), update(full, 1), Record::End]),
    ]
}

/// A log of two pages lent with its first alone: a record stands `left` bytes before the cut.
pub fn cut_at(left: usize, record: Record) -> Option<Log> {
    Some(Log { cut: Some(PAGE), ..standing_at(left, record, None)? })
}

/// A log, of this store where it is one of edition two, in which a record stands `left` bytes before the first page's
/// end.
pub fn standing_at(left: usize, record: Record, seed: Option<Seed>) -> Option<Log> {
    let empty = Log { seed, ..Log::new(7, &[]) };
    let edition = empty.edition();
    let before = PAGE.checked_sub(empty.used() + left)?;
    // Clears and empty updates up to the place.
    let (clear, longer) = (edition.clear_size() as usize, edition.update_size(0) as usize);
    let updates = (0..10).find(|u| before >= longer * u && (before - longer * u) % clear == 0)?;
    let mut records = vec![update(0, 0); updates];
    records.extend(vec![Record::Clear(0); (before - longer * updates) / clear]);
    records.push(record);
    Some(Log { records, ..empty })
}

/// Every single-byte change of a log's records, and of some bytes after them; in a long log each byte
/// is changed to a few others. And whether the default call is asked too: of changes of the records every fifth time.
pub fn changed_bytes(log: &Log) -> impl Iterator<Item = (Log, bool)> + '_ {
    let used = log.used();
    let len = log.bytes().len();
    let values: &[u8] = if used < 600 { &EVERY } else { &[0, 1, 2, 3, 4, 0x40, 0x80, 0xB2, 0xFF] };
    let all = (0..used + 2).flat_map(|at| values.iter().map(move |&b| (at, b)));
    let some = (used + 2..len).step_by(97).flat_map(|at| [1, 2, 3, 4, 255].map(|b| (at, b)));
    let both = move |(i, (at, byte))| (Log { changed: vec![(at, byte)], ..log.clone() }, at >= used || i % 5 == 0);
    all.chain(some).enumerate().map(both)
}

const EVERY: [u8; 256] = {
    let mut all = [0; 256];
    let mut i = 0;
    while i < 256 {
        all[i] = i as u8;
        i += 1;
    }
    all
};

/// A log, with an end after its records and without; a short one is set and listed too.
pub fn walked(run: &mut Run, log: Log) {
    let mut ended = log.clone();
    ended.records.push(Record::End);
    for each in [ended, log.clone()] {
        run.case::<ReadOp>(Walk(each.clone(), Tolerant));
        if log.records.len() < 3 {
            run.case::<ReadOp>(List(each.clone()));
            run.case::<ReadOp>(Set(each));
        }
    }
}

pub fn exhaustive(run: &mut Run) {
    for records in lists(&kinds(2), 3) {
        walked(run, Log::new(7, &records));
    }
    for log in good_logs() {
        for len in [0, 1, 4, 5, 4095, 4096, 4097, 8191, 8192, 8193, 12288, 65_535, 65_536, 65_537, 69_632] {
            let log = Log { cut: Some(len), ..log.clone() };
            run.case::<ReadOp>(Set(log.clone()));
            run.case::<ReadOp>(Walk(log.clone(), Tolerant));
            run.case::<ReadOp>(List(log));
        }
        for (changed, both) in changed_bytes(&log) {
            let (at, _) = changed.changed[0];
            if at < 6 {
                run.case::<ReadOp>(Set(changed.clone()));
                run.case::<ReadOp>(List(changed.clone()));
            }
            run.sample::<ReadOp>(Walk(changed, Tolerant), both);
        }
        let len = log.bytes().len() as u64;
        for at in (0..len + 3).chain([1 << 32, u64::MAX - 60, u64::MAX]) {
            run.case::<ReadOp>(Next(log.clone(), Edition::One, at, Tolerant));
        }
    }
    // A record cut after each of its bytes.
    for record in [Record::Clear(1), update(0, 1), update(5, 1), update(1 << 126, 1), update(1 << 127, 1), Record::End]
    {
        for left in 0..=140 {
            if let Some(log) = cut_at(left, record) {
                run.case::<ReadOp>(Walk(log.clone(), Tolerant));
                run.case::<ReadOp>(List(log));
            }
        }
    }
}

/// A record, mostly good for a table of n buckets.
pub fn any_record(rng: &mut Rng, n: u64) -> Record {
    let bucket = match rng.below(40) {
        0 => rng.number(),
        1 => n + rng.below(3),
        2 => rng.below(8193),
        _ => rng.below(n),
    };
    match rng.below(40) {
        0 => Record::Byte(rng.next() as u8),
        1 => Record::End,
        2..=13 => Record::Clear(bucket),
        _ => {
            let diff = if rng.once_in(30) { any_diff(rng) } else { good_diff(rng) };
            let hash = if rng.once_in(2) { rng.next() } else { rng.below(64) };
            Record::Update { label: Label { hash, free: rng.below(4) }, diff, with: rng.below(1 << 16), bucket }
        }
    }
}

/// A log, often good, for a table of n buckets.
pub fn any_log(rng: &mut Rng, n: u64) -> Log {
    let count = match rng.below(10) {
        0 => rng.below(300),
        1..=3 => rng.below(20),
        _ => rng.below(5),
    };
    let mut log = Log::new(if rng.once_in(2) { 7 } else { rng.number() as u32 }, &[]);
    for _ in 0..count {
        log.records.push(any_record(rng, n));
    }
    if !rng.once_in(12) {
        log.records.push(Record::End);
    }
    if rng.once_in(10) {
        log.pages_more = rng.below(3) as usize;
    }
    if rng.once_in(12) {
        let len = log.bytes().len() as u64;
        let cut = match rng.below(3) {
            0 => rng.below(len + 2),
            1 => rng.pick(&[0, 1, 4095, 4096, 4097, 8192]),
            _ => rng.below(len / 4096 + 1) * 4096,
        };
        log.cut = Some(cut as usize);
    }
    if rng.once_in(5) {
        let used = log.used() as u64;
        for _ in 0..rng.within(1, 3) {
            let at = if rng.once_in(8) { rng.below(used + 4096) } else { rng.below(used + 2) };
            let byte = if rng.once_in(2) { rng.below(6) } else { rng.below(256) };
            log.changed.push((at as usize, byte as u8));
        }
    }
    log
}

pub fn random(run: &mut Run, rng: &mut Rng) {
    let n = rng.within(1, 20);
    let log = any_log(rng, n);
    match rng.below(8) {
        0 => run.case::<ReadOp>(Set(log)),
        1 => {
            let at = if rng.once_in(10) { rng.number() } else { rng.below(log.used() as u64 + 4) };
            run.case::<ReadOp>(Next(log, Edition::One, at, Tolerant));
        }
        2 => run.case::<ReadOp>(List(log)),
        _ => run.case::<ReadOp>(Walk(log, Tolerant)),
    }
}
