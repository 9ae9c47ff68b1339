//! mod.rs: `prepare_sync`, as a whole and change by change.

use crate::{
    departures as known,
    engine::Engine,
    heard::{Did, End, Heard},
    input::{
        any_diff, any_tags, fill, good_diff, hash_at, smaller_diff, smaller_number, tags_fit, Bytes, Filler, Label,
        Table,
    },
    ops::prepare::{asked, departure, Stop, Theirs},
    rng::Rng,
    run::{u64_bytes, Op, Out, Run, Said},
    second::{edition, retold},
};
use model::{
    diff::Diff,
    edition::{Edition, Seed, Start},
    places::tag_pages_of,
    sync::{Change, Lent, Place, State, Synced, UNSET},
    tags::{full_tag, kind, Kind},
    writer::Writer,
    PAGE,
};
use std::{collections::BTreeMap, fmt};

pub struct SyncOp;

#[derive(Clone, Copy, PartialEq, Eq)]
pub struct Told {
    pub label: Label,
    pub diff: Diff,
    pub place: Place,
}

impl fmt::Debug for Told {
    fn fmt(&self, f: &mut fmt::Formatter) -> fmt::Result {
        write!(f, "{:?} {:?} {:?}", self.label, self.diff, self.place)
    }
}

#[derive(Clone)]
pub struct Input {
    pub table: Table,
    pub cells: Vec<u64>,
    pub changes: Vec<Told>,
    /// What the pages are filled with, and bytes that their slice is longer.
    pub pages: u64,
    pub pages_longer: i64,
    pub marks_longer: i64,
    pub log: Filler,
    pub number: u32,
    /// The store that the log names, in edition two. A step has its edition from its writer.
    pub seed: Option<Seed>,
    /// The state before: of the whole sync, or of its one step with the occupied number.
    pub writer: Writer,
    pub step: Option<u64>,
}

impl fmt::Debug for Input {
    fn fmt(&self, f: &mut fmt::Formatter) -> fmt::Result {
        let Input { table, cells, changes, pages, log, number, .. } = self;
        write!(f, "{table:?}, sync {number} of {changes:?}, pages of mixture {pages:#x}, log {log:?}")?;
        if !cells.is_empty() {
            write!(f, ", cells {cells:x?}")?;
        }
        if self.pages_longer != 0 {
            write!(f, ", pages longer by {}", self.pages_longer)?;
        }
        if self.marks_longer != 0 {
            write!(f, ", marks longer by {}", self.marks_longer)?;
        }
        if let Some(seed) = self.seed {
            write!(f, ", of edition two with seed {:?}", Bytes(seed.to_vec()))?;
        }
        if self.writer != Writer::Fresh {
            write!(f, ", writer {:?}", self.writer)?;
        }
        match self.step {
            Some(occupied) => write!(f, ", one step with occupied {occupied}"),
            None => Ok(()),
        }
    }
}

impl Input {
    pub fn new(table: Table, changes: &[Told]) -> Self {
        Input {
            table,
            cells: vec![],
            changes: changes.to_vec(),
            pages: 3,
            pages_longer: 0,
            marks_longer: 0,
            log: Filler { len: 4 * PAGE, with: 0 },
            number: 7,
            seed: None,
            writer: Writer::Fresh,
            step: None,
        }
    }

    fn changes(&self) -> Vec<Change> {
        self.changes
            .iter()
            .map(|c| Change { id: c.label.id(), hash: c.label.hash, diff: c.diff, place: c.place })
            .collect()
    }

    fn start(&self) -> Start {
        Start { sync: self.number, seed: self.seed }
    }

    /// A page for each change.
    pub fn exact_pages(&self) -> Vec<u8> {
        let mut pages = vec![0; PAGE * self.changes.len()];
        for (j, page) in pages.chunks_mut(PAGE).enumerate() {
            fill(page, if self.pages == 0 { 0 } else { self.pages + j as u64 });
        }
        pages
    }

    fn page_bytes(&self) -> Vec<u8> {
        let mut pages = self.exact_pages();
        let len = (pages.len() as i64 + self.pages_longer).max(0) as usize;
        pages.resize(len, 0);
        pages
    }

    fn marks(&self) -> Vec<u8> {
        let exact = if self.table.n <= model::places::MOST { tag_pages_of(self.table.n) as i64 } else { 1 };
        vec![0xAA; (exact + self.marks_longer).max(0) as usize]
    }
}

fn writer_bytes(w: Writer) -> Vec<u8> {
    u64_bytes(&match w {
        Writer::Fresh => [0, 0],
        Writer::Open(Edition::One, at) => [1, at],
        Writer::Open(Edition::Two, at) => [3, at],
        Writer::Finished(len) => [2, len],
    })
}

/// What a sync leaves: tags, cells, the tag pages that it marked, and its records at a place of the log.
fn left(input: &Input, said: Said, theirs: &Theirs, at: usize, records: &[u8], w: Writer) -> Out {
    let mut marks = input.marks();
    if input.step.is_none() {
        marks.fill(0);
    }
    theirs.marked.iter().for_each(|&i| marks[i as usize] = 1);
    let mut log = input.log.bytes();
    log[at..at + records.len()].copy_from_slice(records);
    Out::said(said)
        .with("tags", theirs.tags())
        .with("cells", u64_bytes(&theirs.cells))
        .with("marks", marks)
        .with("log", log)
        .with("writer", writer_bytes(w))
}

/// A refusal that leaves all as it was.
fn untouched(input: &Input, number: u8) -> Out {
    Out::refused(number)
        .with("tags", input.table.tag_bytes())
        .with("cells", u64_bytes(&input.cells))
        .with("marks", input.marks())
        .with("log", input.log.bytes())
        .with("writer", writer_bytes(input.writer))
}

/// The first of some changes that 01 refuses, its number and how the original stops there, if it does.
type Refusal = (usize, u8, Option<Stop>);

/// The number that 01 refuses with where the original finds no bucket.
fn no_bucket(stop: &Stop) -> u8 {
    match stop {
        Stop::Endless => 11,
        _ => 10,
    }
}

/// What the original does with changes that 01 does not come to: it refuses the whole with a number.
fn refused_whole(input: &Input, number: u8) -> Heard {
    let (n, tags, changes, pages) = (input.table.n, input.table.tag_bytes(), input.changes(), input.exact_pages());
    // Up to the change in which it stops, and no further.
    let (wanted, taken) = match Theirs::new(n, &tags, &input.cells, input.number) {
        Err(lost) => (lost, 0),
        Ok(mut theirs) => {
            let mut each = changes.iter().zip(pages.chunks(PAGE)).enumerate();
            match each.find_map(|(j, (c, page))| theirs.step(c, page).err().map(|stop| (j, stop))) {
                Some((_, Stop::NoCell | Stop::TooLong)) => return Heard::NotAsked,
                Some((j, stop)) => (theirs.stopped(&stop), j + 1),
                None => (theirs.ended(), changes.len()),
            }
        }
    };
    let did = match wanted.end {
        End::Endless => Did::endless(),
        _ => asked(n, &tags, input.number, &changes[..taken], &pages, &input.cells),
    };
    let how = match (number, &wanted.end) {
        (1, End::Panic(_)) => Some(known::SYNC_TABLE_PANICS),
        (1, _) => Some(known::SYNC_TABLE_TAKEN),
        (13, _) => Some(known::SYNC_GROWS),
        // It is lent no marks, its pages come one by one, and a sync of one change begins by itself.
        _ => None,
    };
    did.held_to(wanted, how, untouched(input, number))
}

/// A whole sync: the original takes the changes before the one that 01 refuses, and then that one too.
fn whole(input: &Input) -> Heard {
    let (n, tags, changes, pages) = (input.table.n, input.table.tag_bytes(), input.changes(), input.exact_pages());
    let room = (input.log.len / PAGE * PAGE) as u64;
    if room < PAGE as u64 {
        return refused_whole(input, 13);
    }
    let mut theirs = match Theirs::new(n, &tags, &input.cells, input.number) {
        Ok(theirs) => theirs,
        Err(lost) => return Heard::Otherwise { did: lost, wanted: "a table that fits".to_string() },
    };
    let mut refused: Option<Refusal> = None;
    let mut before = None;
    for (j, (c, page)) in changes.iter().zip(pages.chunks(PAGE)).enumerate() {
        let number = theirs.refusal(c, edition(&input.seed), theirs.position(&input.seed), room);
        if let Some(number) = number {
            before = Some((theirs.ended(), out_of(input, &theirs, Some((j, number)))));
            refused = Some((j, number, theirs.step(c, page).err()));
            break;
        }
        if let Err(stop) = theirs.step(c, page) {
            refused = Some((j, no_bucket(&stop), Some(stop)));
            break;
        }
    }
    let j = refused.as_ref().map_or(changes.len(), |(j, ..)| *j);
    let at = refused.as_ref().map(|(j, number, _)| (*j, *number));
    let (wanted, out) = before.unwrap_or_else(|| (theirs.ended(), out_of(input, &theirs, at)));
    let did = asked(n, &tags, input.number, &changes[..j], &pages, &input.cells);
    // With debug assertions one bucket may not be updated twice.
    let twice = matches!(wanted.end, End::Panic(_)).then_some(known::SYNC_TWICE);
    let (number, stop) = match refused {
        Some((_, number, stop)) if did == wanted && !matches!(stop, Some(Stop::NoCell)) => (number, stop),
        _ => return did.held_to(wanted, twice, out),
    };
    // And the change that 01 refuses.
    let wanted = stop.as_ref().map_or_else(|| theirs.ended(), |stop| theirs.stopped(stop));
    let did = match stop {
        Some(Stop::Endless) => Did::endless(),
        Some(Stop::TooLong) => wanted.clone(),
        _ => asked(n, &tags, input.number, &changes[..=j], &pages, &input.cells),
    };
    did.held_to(wanted, departure(number, &changes[j], stop.as_ref(), theirs.moved, theirs.found).or(twice), out)
}

/// What 01 has to answer and leave, by the original's changes so far. In edition two its records are retold.
fn out_of(input: &Input, theirs: &Theirs, refused: Option<(usize, u8)>) -> Out {
    match refused {
        Some((j, number)) => {
            let records = retold(&theirs.log, &input.seed);
            left(input, Said::RefusedAt(j as u64, number), theirs, 0, &records, Writer::Fresh)
        }
        None => {
            let mut log = theirs.log.clone();
            log.push(2);
            log.resize(log.len().next_multiple_of(PAGE), 0);
            let log = retold(&log, &input.seed);
            let length = log.len() as u64;
            let said = Said::Value("synced", vec![theirs.full(), length]);
            left(input, said, theirs, 0, &log, Writer::Finished(length))
        }
    }
}

/// One step: a sync of the original of one change, whose record stands in the log where the writer is.
fn step(input: &Input, occupied: u64, edition: Edition, at: u64) -> Heard {
    let (n, tags, pages) = (input.table.n, input.table.tag_bytes(), input.exact_pages());
    let change = &input.changes()[..1];
    let room = (input.log.len / PAGE * PAGE) as u64;
    let mut theirs = match Theirs::new(n, &tags, &input.cells, input.number) {
        Ok(theirs) => theirs,
        Err(lost) => return Heard::Otherwise { did: lost, wanted: "a table that fits".to_string() },
    };
    let number = theirs.refusal(&change[0], edition, at, room);
    let (number, bucket, stop) = match (number, theirs.step(&change[0], &pages[..PAGE])) {
        (number, Ok(bucket)) => (number, bucket, None),
        (number, Err(stop)) => (Some(number.unwrap_or(no_bucket(&stop))), 0, Some(stop)),
    };
    let wanted = stop.as_ref().map_or_else(|| theirs.ended(), |stop| theirs.stopped(stop));
    let did = match stop {
        Some(Stop::NoCell) => return Heard::NotAsked,
        Some(Stop::Endless) => Did::endless(),
        Some(Stop::TooLong) => wanted.clone(),
        _ => asked(n, &tags, input.number, change, &pages, &input.cells),
    };
    if let Some(number) = number {
        let how = departure(number, &change[0], stop.as_ref(), 0, theirs.found);
        return did.held_to(wanted, how, untouched(input, number));
    }
    // The count that is lent moves as the original's own does, and stays within its type.
    let occupied = match theirs.moved {
        -1 => occupied.saturating_sub(1),
        moved => occupied.saturating_add(moved as u64),
    };
    let page = original::places::data_page_index(n as u32, bucket).unwrap_or(u64::MAX);
    let said = Said::Value("step", vec![bucket, page, occupied]);
    // A record names no store.
    let records = retold(&theirs.log[5..], &(edition == Edition::Two).then_some([0; 16]));
    let after = Writer::Open(edition, at + records.len() as u64);
    let out = left(input, said, &theirs, at as usize, &records, after);
    did.held_to(wanted, None, out)
}

impl Op for SyncOp {
    type Input = Input;

    fn name(input: &Input) -> &'static str {
        match (input.step, input.writer, input.seed) {
            (Some(_), Writer::Open(Edition::Two, _), _) => "sync step two",
            (Some(_), ..) => "sync step",
            (None, _, Some(_)) => "sync two",
            (None, _, None) => "sync",
        }
    }

    fn run<E: Engine>(input: &Input) -> Out {
        let mut tags = input.table.tag_bytes();
        let mut cells = input.cells.clone();
        let mut marks = input.marks();
        let mut log = input.log.bytes();
        let changes = input.changes();
        let pages = input.page_bytes();
        let mut writer = input.writer;
        let mut lent = Lent { n: input.table.n, tags: &mut tags, cells: &mut cells, marks: &mut marks, log: &mut log };
        let out = match input.step {
            None => match E::sync(&mut lent, &mut writer, input.start(), &changes, &pages) {
                Synced::Done { occupied, length } => Out::value("synced", &[occupied, length]),
                Synced::Refused(why) => Out::refused(why.0),
                Synced::RefusedAt { change, why } => Out::said(Said::RefusedAt(change, why.0)),
            },
            Some(occupied) => {
                let Some(change) = changes.first() else { return Out::value("no change", &[]) };
                Out::of(E::sync_step(&mut lent, State { writer, occupied }, change, &pages), |(step, state)| {
                    writer = state.writer;
                    Out::value("step", &[step.bucket, step.page, state.occupied])
                })
            }
        };
        out.with("tags", tags)
            .with("cells", u64_bytes(&cells))
            .with("marks", marks)
            .with("log", log)
            .with("writer", writer_bytes(writer))
            .reading("pages", pages)
    }

    fn original(input: &Input) -> Heard {
        let n = input.table.n;
        if n > u32::MAX as u64 || input.step.is_some() && input.changes.is_empty() {
            return Heard::NotAsked;
        }
        let pages = ((PAGE * input.changes.len()) as i64 + input.pages_longer).max(0);
        let lent = pages == PAGE as i64 * input.step.map_or(input.changes.len() as i64, |_| 1)
            && input.marks().len() as u64 == n.div_ceil(4096);
        match (input.step, input.writer) {
            _ if !tags_fit(n, input.table.tag_bytes().len()) => refused_whole(input, 1),
            _ if !lent => refused_whole(input, 2),
            (None, _) => whole(input),
            (Some(occupied), Writer::Open(edition, at)) => step(input, occupied, edition, at),
            (Some(_), _) => refused_whole(input, 12),
        }
    }

    fn smaller(input: &Input) -> Vec<Input> {
        let mut out = Vec::new();
        if input.changes.len() > 1 {
            out.extend(input.changes.iter().map(|c| Input { changes: vec![*c], ..input.clone() }));
        }
        for j in 0..input.changes.len() {
            let mut less = input.clone();
            less.changes.remove(j);
            out.push(less);
        }
        out.extend(input.table.smaller().into_iter().map(|table| Input { table, ..input.clone() }));
        for (j, c) in input.changes.iter().enumerate() {
            let labels = c.label.smaller().into_iter().map(|label| Told { label, ..*c });
            let diffs = smaller_diff(c.diff).into_iter().map(|diff| Told { diff, ..*c });
            let places: Vec<Place> = match c.place {
                Place::Known(b) => smaller_number(b).into_iter().map(Place::Known).collect(),
                Place::Cell(i) => {
                    let mut less: Vec<Place> = smaller_number(i).into_iter().map(Place::Cell).collect();
                    less.push(Place::Fresh);
                    less
                }
                Place::Fresh => vec![],
            };
            let places = places.into_iter().map(|place| Told { place, ..*c });
            for less in labels.chain(diffs).chain(places) {
                let mut i = input.clone();
                i.changes[j] = less;
                out.push(i);
            }
        }
        if !input.cells.is_empty() {
            let mut less = input.clone();
            less.cells.pop();
            out.push(less);
        }
        if input.pages != 0 {
            out.push(Input { pages: 0, ..input.clone() });
        }
        for len in smaller_number(input.log.len as u64) {
            out.push(Input { log: Filler { len: len as usize, ..input.log }, ..input.clone() });
        }
        out.extend(input.log.smaller().into_iter().map(|log| Input { log, ..input.clone() }));
        for number in smaller_number(input.number as u64) {
            out.push(Input { number: number as u32, ..input.clone() });
        }
        out
    }
}

pub const CLEARED: Diff = Diff(1 << 127);

/// Changes of every kind, in a table of n buckets with two cells.
pub fn kinds(n: u64) -> Vec<Told> {
    let label = |full, home| Label { hash: hash_at(full, home, n), free: 1 };
    let told = |label, diff, place| Told { label, diff, place };
    let mut out = Vec::new();
    for diff in [CLEARED, Diff(1 << 127 | 5), Diff(1)] {
        out.push(told(label(0, 0), diff, Place::Known(0)));
        out.push(told(label(0, 0), diff, Place::Known(n - 1)));
        out.push(told(label(0, 0), diff, Place::Cell(0)));
        out.push(told(label(0, 0), diff, Place::Cell(1)));
        out.push(told(label(0, 0), diff, Place::Fresh));
    }
    out.push(told(label(1, 1 % n), Diff(1 << 125 | 1), Place::Known(0)));
    out.push(told(label(1, 1 % n), Diff(0), Place::Cell(1)));
    out.push(told(label(1, n - 1), Diff((1 << 126) - 1), Place::Fresh));
    out.push(told(label(0, 0), Diff(1), Place::Known(n)));
    out.push(told(label(0, 0), Diff(1), Place::Known(u64::MAX)));
    out.push(told(label(0, 0), Diff(1), Place::Cell(2)));
    out.push(told(label(0, 0), Diff(1), Place::Cell(3)));
    out.push(told(label(0, 0), Diff(1 << 126), Place::Fresh));
    out.push(told(label(0, 0), Diff(3 << 126), Place::Known(0)));
    out
}

/// Clears of buckets that are not there: in the padding and past it.
fn clears_outside(n: u64) -> Vec<Told> {
    let label = Label { hash: 0, free: 1 };
    let clear = |b| Told { label, diff: CLEARED, place: Place::Known(b) };
    vec![clear(n), clear(4095), clear(4096), clear(u64::MAX), Told { place: Place::Cell(2), ..clear(0) }]
}

pub fn exhaustive(run: &mut Run) {
    // Clears of each tag by hashes whose tags are near it, with room for the record and without.
    for tag in 0..=255 {
        for full in [tag as u64 + 127, tag as u64, tag as u64 + 1] {
            for place in [Place::Known(0), Place::Cell(0)] {
                let clear = Told { label: Label { hash: (full % 128) << 57, free: 0 }, diff: CLEARED, place };
                let input = Input { cells: vec![0], ..Input::new(Table::new(1, &[tag]), &[clear]) };
                run.case::<SyncOp>(input.clone());
                for writer in [5, 16_374, 16_375].map(|at| Writer::Open(Edition::One, at)) {
                    run.case::<SyncOp>(Input { step: Some(1), writer, ..input.clone() });
                }
            }
        }
    }
    // A byte anywhere in the padding.
    for n in [1, 2, 4095, 4097] {
        let last = 4095 - n % 4096;
        for at in [0, 1, last / 2, last] {
            let table = Table { padding: Some((at, 0x81)), ..Table::new(n, &[0x80, 0x7F]) };
            let fresh = Told { label: Label { hash: 1, free: 0 }, diff: Diff(1), place: Place::Fresh };
            run.case::<SyncOp>(Input::new(table.clone(), &[]));
            run.case::<SyncOp>(Input::new(table.clone(), &[fresh]));
            for told in kinds(n).into_iter().chain(clears_outside(n)) {
                run.case::<SyncOp>(Input { cells: vec![UNSET, 0, n], ..Input::new(table.clone(), &[fresh, told]) });
            }
        }
    }
    // All tables of one and two buckets, all pairs of changes; on fewer tables, all triples.
    let some = [0x00, 0x01, 0x7F, 0x80, 0x81];
    let mut tables: Vec<Vec<u8>> = some.iter().map(|&a| vec![a]).collect();
    for a in some {
        tables.extend(some.iter().map(|&b| vec![a, b]));
    }
    for tags in &tables {
        let n = tags.len() as u64;
        let kinds = kinds(n);
        let cells = vec![UNSET, 0, n];
        let sync = |changes: &[Told]| Input { cells: cells.clone(), ..Input::new(Table::new(n, tags), changes) };
        run.case::<SyncOp>(sync(&[]));
        for a in &kinds {
            run.case::<SyncOp>(sync(&[*a]));
            for state in [
                Writer::Open(Edition::One, 5),
                Writer::Fresh,
                Writer::Finished(4096),
                Writer::Open(Edition::One, 16_384),
            ] {
                for occupied in [0, 1, u64::MAX] {
                    run.case::<SyncOp>(Input { step: Some(occupied), writer: state, ..sync(&[*a]) });
                }
            }
            for b in &clears_outside(n) {
                run.case::<SyncOp>(sync(&[*b]));
                run.case::<SyncOp>(sync(&[*a, *b, *a]));
                run.case::<SyncOp>(Input { step: Some(1), writer: Writer::Open(Edition::One, 5), ..sync(&[*b]) });
            }
            for b in &kinds {
                run.case::<SyncOp>(sync(&[*a, *b]));
                if tags.iter().all(|t| [0x00, 0x7F, 0x80].contains(t)) {
                    for c in &kinds {
                        run.case::<SyncOp>(sync(&[*a, *b, *c]));
                    }
                }
            }
        }
    }
    // Lengths and counts.
    let label = Label { hash: 5, free: 0 };
    for n in crate::ops::tags::counts() {
        for longer in [0, -1, 1, -4096, 4096] {
            let table = Table { longer, ..Table::new(n, &[0x80, 0x7F]) };
            let fresh = Told { label, diff: Diff(1), place: Place::Fresh };
            run.case::<SyncOp>(Input::new(table.clone(), &[fresh]));
            run.case::<SyncOp>(Input {
                step: Some(1),
                writer: Writer::Open(Edition::One, 5),
                ..Input::new(table, &[fresh])
            });
        }
    }
    for (pages_longer, marks_longer) in [(0, 0), (-1, 0), (1, 0), (-4096, 0), (4096, 0), (0, -1), (0, 1), (1, 1)] {
        for len in [0, 4095, 4096, 8191, 8192] {
            for changes in 0..3 {
                let told =
                    |j| Told { label: Label { hash: j, free: 0 }, diff: Diff((1 << 126) - 1), place: Place::Fresh };
                let changes: Vec<Told> = (0..changes).map(told).collect();
                let input = Input {
                    pages_longer,
                    marks_longer,
                    log: Filler { len, with: 1 },
                    ..Input::new(Table::new(3, &[]), &changes)
                };
                for writer in [Writer::Fresh, Writer::Open(Edition::One, 77), Writer::Finished(4096)] {
                    run.case::<SyncOp>(Input { writer, ..input.clone() });
                    run.case::<SyncOp>(Input { writer, step: Some(0), ..input.clone() });
                }
            }
        }
    }
    // A log that is full to its last byte.
    for clears in [452, 453, 454, 455] {
        let mut changes = Vec::new();
        for b in 0..clears {
            changes.push(Told { label: Label { hash: b, free: 0 }, diff: CLEARED, place: Place::Known(b) });
        }
        let table = Table::new(500, &[0x80; 500]);
        run.case::<SyncOp>(Input { log: Filler { len: 4096, with: 1 }, ..Input::new(table, &changes) });
    }
}

/// Changes that mostly fit the table as it is after those before; `slack` of 20 don't.
pub fn any_changes(rng: &mut Rng, table: &Table, cells: &[u64], count: u64, slack: u64) -> Vec<Told> {
    let n = table.n;
    let mut tags = table.tag_bytes();
    let mut cells = cells.to_vec();
    let mut hashes: BTreeMap<u64, Label> = BTreeMap::new();
    let mut out = Vec::new();
    for _ in 0..count {
        let bad = rng.below(20) < slack;
        let full: Vec<u64> = (0..n.min(2048)).filter(|&b| kind(tags[b as usize]) == Kind::Full).collect();
        let place = match rng.below(8) {
            0..=3 if !full.is_empty() => Place::Known(rng.pick(&full)),
            4 | 5 if !cells.is_empty() => Place::Cell(rng.below(cells.len() as u64)),
            _ if bad => match rng.below(4) {
                0 => Place::Known(rng.number()),
                1 => Place::Known(rng.below(n + 2)),
                2 => Place::Cell(rng.below(cells.len() as u64 + 2)),
                _ => Place::Known(n),
            },
            _ => Place::Fresh,
        };
        let stands = match place {
            Place::Known(b) => Some(b),
            Place::Cell(i) => cells.get(i as usize).copied().filter(|&b| b != UNSET),
            Place::Fresh => None,
        };
        let clears = match stands {
            Some(b) if b < n && kind(tags[b as usize]) == Kind::Full => rng.once_in(3),
            _ => bad && rng.once_in(2),
        };
        let mut label = Label { hash: rng.next(), free: rng.below(3) };
        if rng.once_in(2) {
            label.hash = hash_at(rng.below(4), rng.below(n), n);
        }
        if let Some(b) = stands.filter(|&b| b < n) {
            let tag = tags[b as usize];
            if !bad && tag >= 0x80 {
                label = hashes
                    .get(&b)
                    .copied()
                    .unwrap_or(Label { hash: hash_at(tag as u64 - 128, rng.below(n), n), free: 0 });
                if full_tag(label.hash) != tag {
                    label.hash = (tag as u64 - 128) << 57;
                }
            }
        }
        let diff = if clears {
            Diff(CLEARED.0 | if rng.once_in(4) { good_diff(rng).0 } else { 0 })
        } else if bad && rng.once_in(4) {
            any_diff(rng)
        } else {
            good_diff(rng)
        };
        let told = Told { label, diff, place };
        // As the table will be.
        if diff.cleared() {
            if let Some(b) = stands.filter(|&b| b < n) {
                tags[b as usize] = 0x7F;
            }
        } else if stands.is_none() {
            if let Ok(b) = model::path::find(&tags, n, label.hash) {
                tags[b as usize] = full_tag(label.hash);
                hashes.insert(b, label);
                if let Place::Cell(i) = place {
                    if let Some(c) = cells.get_mut(i as usize) {
                        *c = b;
                    }
                }
            }
        }
        out.push(told);
    }
    out
}

/// A sync or one of its steps, by chance.
pub fn any(rng: &mut Rng) -> Input {
    let n = match rng.below(20) {
        0 => rng.pick(&[4095, 4096, 4097, 8192, 8193, 12_289]),
        1 | 2 => rng.within(1, 64),
        _ => rng.within(1, 12),
    };
    let mut table = Table::new(n, &any_tags(rng, n));
    if rng.once_in(10) {
        table.padding = Some((rng.below(4096), rng.next() as u8));
    }
    let cells: Vec<u64> = (0..rng.below(4))
        .map(|_| match rng.below(6) {
            0 => rng.below(n),
            1 if rng.once_in(10) => rng.number(),
            _ => UNSET,
        })
        .collect();
    let count = if rng.once_in(8) { rng.below(40) } else { rng.below(6) };
    let slack = if rng.once_in(3) { 2 } else { 0 };
    let changes = any_changes(rng, &table, &cells, count, slack);
    let len = match rng.below(10) {
        0 => rng.below(20_000) as usize,
        1 => 4096,
        _ => (PAGE * (changes.len() * 4100 + 4096)).div_ceil(PAGE * PAGE) * PAGE,
    };
    let mut input = Input { cells, log: Filler { len, with: rng.below(3) }, ..Input::new(table, &changes) };
    input.number = rng.number() as u32;
    input.pages = rng.below(1 << 16);
    if rng.once_in(50) {
        input.pages_longer = rng.below(3) as i64 - 1;
        input.marks_longer = rng.below(3) as i64 - 1;
    }
    if rng.once_in(5) && !input.changes.is_empty() {
        input.changes.truncate(1);
        input.step = Some(if rng.once_in(3) { rng.number() } else { rng.below(n) });
        input.writer = match rng.below(10) {
            0 => Writer::Fresh,
            1 => Writer::Finished(rng.number()),
            2 => Writer::Open(Edition::One, rng.number()),
            _ => Writer::Open(Edition::One, 5 + rng.below(len as u64 + 1)),
        };
    }
    input
}

pub fn random(run: &mut Run, rng: &mut Rng) {
    run.case::<SyncOp>(any(rng));
}
