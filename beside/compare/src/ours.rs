//! Ours, by the safe crate over its static library: each call of [`Engine`] in 01's terms. No function here
//! decides anything.

use crate::engine::{terms::*, Engine, Head};
use model::diff::NODE;
use std::{
    hint::black_box,
    io::Write,
    process::{Command, Stdio},
};

pub struct Ours;

fn why(refusal: bitbox::Refusal) -> Refused {
    Refused(refusal.number())
}

fn answer<T, U>(said: Result<T, bitbox::Refusal>, told: impl FnOnce(T) -> U) -> Answer<U> {
    said.map(told).map_err(why)
}

fn ours(d: Diff) -> bitbox::Diff {
    bitbox::Diff::from_words([d.0 as u64, (d.0 >> 64) as u64])
}

fn diff(d: bitbox::Diff) -> Diff {
    let [lo, hi] = d.words();
    Diff((hi as u128) << 64 | lo as u128)
}

fn packed(p: &Packed) -> bitbox::Packed {
    bitbox::Packed::from_table(p.nodes, p.count as usize)
}

fn our_edition(e: Edition) -> bitbox::Edition {
    match e {
        Edition::One => bitbox::Edition::One,
        Edition::Two => bitbox::Edition::Two,
    }
}

fn edition(e: bitbox::Edition) -> Edition {
    match e {
        bitbox::Edition::One => Edition::One,
        bitbox::Edition::Two => Edition::Two,
    }
}

fn our_start(start: Start) -> bitbox::Start {
    match start.seed {
        None => bitbox::Start::one(start.sync),
        Some(seed) => bitbox::Start::two(start.sync, seed),
    }
}

fn our_writer(w: Writer) -> bitbox::Writer {
    match w {
        Writer::Fresh => bitbox::Writer::Fresh,
        Writer::Open(edition, at) => bitbox::Writer::Open(at as usize, our_edition(edition)),
        Writer::Finished(length) => bitbox::Writer::Finished(length as usize),
    }
}

fn writer(w: bitbox::Writer) -> Writer {
    match w {
        bitbox::Writer::Fresh => Writer::Fresh,
        bitbox::Writer::Open(at, e) => Writer::Open(edition(e), at as u64),
        bitbox::Writer::Finished(length) => Writer::Finished(length as u64),
    }
}

fn change(c: &Change) -> bitbox::Change {
    let place = match c.place {
        Place::Known(b) => bitbox::Where::Known(b),
        Place::Fresh => bitbox::Where::Fresh,
        Place::Cell(i) => bitbox::Where::Cell(i as usize),
    };
    bitbox::Change::new(c.id, c.hash, ours(c.diff), place)
}

fn our_lent<'a>(lent: &'a mut Lent) -> bitbox::Lent<'a> {
    bitbox::Lent {
        n: lent.n as usize,
        tags: &mut *lent.tags,
        marks: &mut *lent.marks,
        cells: &mut *lent.cells,
        log: &mut *lent.log,
    }
}

/// The state after a writer's call; a refused call keeps it.
fn kept<T>(before: Writer, after: bitbox::Writer, said: Result<T, bitbox::Refusal>) -> Answer<(T, Writer)> {
    if said.is_err() {
        assert!(writer(after) == before, "a refused call of the writer keeps its state");
    }
    answer(said, |value| (value, writer(after)))
}

/// A log's first byte alone tells its edition and where its first entry stands.
fn told(log: &[u8]) {
    let told = edition(bitbox::Edition::of(log));
    let first = bitbox::first_entry(log) as u64;
    assert!((told, first) == (Edition::of(log), told.first()), "the edition is {told:?}, the first entry at {first}");
}

type Read = Result<(bitbox::Entry, usize), bitbox::Refusal>;

/// The entry at a position, by the call that wants zeros after end or by the tolerant one.
fn read(log: &[u8], at: usize, edition: bitbox::Edition, after: AfterEnd) -> Read {
    match after {
        AfterEnd::Zeros => bitbox::read_entry(log, at, edition),
        AfterEnd::Tolerant => bitbox::read_entry_tolerant(log, at, edition),
    }
}

/// An entry that is lent out of its log is the one that is copied.
fn seen(log: &[u8], at: usize, edition: bitbox::Edition, after: AfterEnd, copied: &Read) {
    let lent = match after {
        AfterEnd::Zeros => bitbox::see_entry(log, at, edition),
        AfterEnd::Tolerant => bitbox::see_entry_tolerant(log, at, edition),
    };
    let same = match (lent, copied) {
        (Err(lent), Err(copied)) => lent == *copied,
        (Ok((lent, next)), Ok((copied, after))) => {
            next == *after
                && match (lent, copied) {
                    (bitbox::EntryRef::End, bitbox::Entry::End) => true,
                    (bitbox::EntryRef::Clear { bucket }, bitbox::Entry::Clear { bucket: b }) => bucket == *b,
                    (bitbox::EntryRef::Update(u), bitbox::Entry::Update(v)) => {
                        let fields = (u.bucket, *u.id, u.diff, *u.elided) == (v.bucket, v.id, v.diff, v.elided);
                        fields && u.count() == v.nodes.count() && u.nodes().eq(v.nodes.nodes())
                    }
                    _ => false,
                }
        }
        _ => false,
    };
    assert!(same, "an entry lent out of a log at {at} is the one that is copied");
}

/// A reader that has come to end or to a refusal stays there and answers the same again.
fn stays(mut reader: bitbox::Reader) {
    loop {
        let at = reader.position();
        let said = reader.see_entry();
        if matches!(said, Ok(bitbox::EntryRef::End) | Err(_)) {
            let again = (reader.position(), reader.see_entry(), reader.position());
            assert!(again == (at, said, at), "a reader that has stopped at {at} with {said:?} says {again:?}");
            return;
        }
    }
}

impl Engine for Ours {
    const OURS: bool = true;

    fn diff_read(bytes: [u8; 16]) -> Answer<Diff> {
        answer(bitbox::Diff::from_bytes(&bytes), diff)
    }

    fn diff_bytes(d: Diff) -> [u8; 16] {
        ours(d).as_bytes()
    }

    fn diff_set(d: Diff, slot: u64) -> Answer<Diff> {
        answer(ours(d).set_changed(slot as usize), diff)
    }

    fn diff_ask(d: Diff, slot: u64) -> Answer<bool> {
        answer(ours(d).changed(slot as usize), |marked| marked)
    }

    fn diff_set_cleared(d: Diff) -> Diff {
        diff(ours(d).set_cleared())
    }

    fn diff_cleared(d: Diff) -> bool {
        ours(d).cleared()
    }

    fn diff_count(d: Diff) -> u64 {
        ours(d).count() as u64
    }

    fn diff_join(a: Diff, b: Diff) -> Diff {
        diff(ours(a).join(ours(b)))
    }

    fn pack(d: Diff, page: &[u8]) -> Answer<Packed> {
        answer(ours(d).pack_changed_nodes(page), |p| Packed { nodes: *p.table(), count: p.count() as u64 })
    }

    fn pack_into(d: Diff, page: &[u8], nodes: &mut [Node]) -> Answer<u64> {
        answer(ours(d).pack_changed_nodes_into(page, nodes), |count| count as u64)
    }

    fn unpack(d: Diff, nodes: &Packed, page: &mut [u8]) -> Answer<()> {
        let lent = packed(nodes);
        let said = ours(d).unpack_changed_nodes(&lent, page);
        assert!(*black_box(&lent) == packed(nodes), "nodes that are lent for reading are not written");
        answer(said, |()| ())
    }

    fn full_tag(hash: u64) -> u8 {
        bitbox::full_tag(hash)
    }

    fn kind(tag: u8) -> Kind {
        match (bitbox::hint_empty(tag), bitbox::hint_tombstone(tag), bitbox::is_full(tag)) {
            (true, false, false) => Kind::Empty,
            (false, true, false) => Kind::Tombstone,
            (false, false, true) => Kind::Full,
            (false, false, false) => Kind::Other,
            kinds => panic!("ours says that tag {tag:#x} is of more than one kind: {kinds:?}"),
        }
    }

    fn not_match(tag: u8, hash: u64) -> bool {
        bitbox::hint_not_match(tag, hash)
    }

    fn set_full(tags: &mut [u8], n: u64, bucket: u64, hash: u64) -> Answer<()> {
        answer(bitbox::set_full(tags, n as usize, bucket, hash), |()| ())
    }

    fn set_tombstone(tags: &mut [u8], n: u64, bucket: u64) -> Answer<()> {
        answer(bitbox::set_tombstone(tags, n as usize, bucket), |()| ())
    }

    fn full_count(tags: &[u8], n: u64) -> Answer<u64> {
        answer(bitbox::full_count(tags, n as usize), |count| count)
    }

    fn padding_is_zero(tags: &[u8], n: u64) -> Answer<bool> {
        answer(bitbox::padding_is_empty(tags, n as usize), |zero| zero)
    }

    fn tag_page(bucket: u64) -> u64 {
        bitbox::tag_page(bucket)
    }

    fn tag_pages(n: u64) -> Answer<u64> {
        answer(bitbox::tag_pages(n as usize), |pages| pages)
    }

    fn length(n: u64) -> Answer<u64> {
        answer(bitbox::table_length(n as usize), |length| length)
    }

    fn page_number(n: u64, bucket: u64) -> Answer<u64> {
        answer(bitbox::page_number(n as usize, bucket), |page| page)
    }

    fn probe(tags: &[u8], n: u64, hash: u64, k: u64) -> Answer<Probed> {
        answer(bitbox::probe(tags, n as usize, hash, k), |probed| match probed {
            bitbox::Probed::Empty { bucket, visit } => Probed::Empty { bucket, visit },
            bitbox::Probed::Tombstone { bucket, visit } => Probed::Tombstone { bucket, visit },
            bitbox::Probed::Hit { bucket, visit } => Probed::Hit { bucket, visit },
            bitbox::Probed::Closed => Probed::Closed,
        })
    }

    fn lookup(image: &[u8], n: u64, hash: u64, id: &[u8; 32]) -> Answer<Found> {
        answer(bitbox::lookup(image, n as usize, hash, id), |found| match found {
            bitbox::Found::At(bucket) => Found::Bucket(bucket),
            bitbox::Found::Absent => Found::Absent,
            bitbox::Found::Closed => Found::Closed,
        })
    }

    fn allocate(tags: &mut [u8], n: u64, hash: u64) -> Answer<u64> {
        answer(bitbox::allocate(tags, n as usize, hash), |bucket| bucket)
    }

    fn reader_set(log: &[u8]) -> Answer<Start> {
        told(log);
        answer(bitbox::Reader::new(log), |reader| {
            assert!(reader.position() == bitbox::first_entry(log), "a reader stands at the first entry");
            let start = Start { sync: reader.sync_seqn(), seed: reader.seed() };
            stays(reader.clone());
            stays(reader.tolerant());
            start
        })
    }

    fn reader_next(log: &[u8], e: Edition, at: u64, after: AfterEnd) -> Answer<(Entry, u64)> {
        let said = read(log, at as usize, our_edition(e), after);
        seen(log, at as usize, our_edition(e), after, &said);
        answer(said, |(entry, next)| {
            let entry = match entry {
                bitbox::Entry::End => Entry::End,
                bitbox::Entry::Clear { bucket } => Entry::Clear { bucket },
                bitbox::Entry::Update(u) => {
                    let (given, rest) = u.nodes.table().split_at(u.nodes.count());
                    assert!(rest.iter().all(|node| *node == [0; NODE]), "nodes from the count on are zero");
                    let nodes = given.to_vec();
                    Entry::Update { id: u.id, diff: diff(u.diff), nodes, elided: u.elided, bucket: u.bucket }
                }
            };
            (entry, next as u64)
        })
    }

    fn reader_head(log: &[u8], e: Edition, at: u64, after: AfterEnd) -> Answer<Head> {
        let said = match after {
            AfterEnd::Zeros => bitbox::read_head(log, at as usize, our_edition(e)),
            AfterEnd::Tolerant => bitbox::read_head_tolerant(log, at as usize, our_edition(e)),
        };
        answer(said, |head| match head {
            bitbox::Head::End => [0; 4],
            bitbox::Head::Clear { bucket, next } => [1, bucket, 0, next as u64],
            bitbox::Head::Update { bucket, count, next } => [2, bucket, count as u64, next as u64],
        })
    }

    fn begin(log: &mut [u8], w: Writer, start: Start) -> Answer<Writer> {
        let mut after = our_writer(w);
        let said = after.begin(log, our_start(start));
        kept(w, after, said).map(|((), after)| after)
    }

    fn write_clear(log: &mut [u8], w: Writer, bucket: u64) -> Answer<Writer> {
        let mut after = our_writer(w);
        let said = after.write_clear(log, bucket);
        kept(w, after, said).map(|((), after)| after)
    }

    fn write_update(
        log: &mut [u8],
        w: Writer,
        id: &[u8; 32],
        d: Diff,
        nodes: &Packed,
        elided: &[u8; 8],
        bucket: u64,
    ) -> Answer<Writer> {
        let mut after = our_writer(w);
        let update = bitbox::Update { bucket, id: *id, diff: ours(d), nodes: packed(nodes), elided: *elided };
        let said = after.write_update(log, &update);
        let read = black_box(&update);
        assert!((read.id, read.nodes, read.elided) == (*id, packed(nodes), *elided), "an update is only read");
        kept(w, after, said).map(|((), after)| after)
    }

    fn finish(log: &mut [u8], w: Writer) -> Answer<(u64, Writer)> {
        let mut after = our_writer(w);
        let said = after.finish(log);
        kept(w, after, said).map(|(length, after)| (length as u64, after))
    }

    fn sync_step(lent: &mut Lent, state: State, c: &Change, page: &[u8]) -> Answer<(Step, State)> {
        let mut after = bitbox::State { writer: our_writer(state.writer), occupied: state.occupied };
        let said = bitbox::sync_step(&mut our_lent(lent), &mut after, &change(c), page);
        let after = State { writer: writer(after.writer), occupied: after.occupied };
        if said.is_err() {
            assert!(after == state, "a refused step keeps the state");
        }
        answer(said, |step| (Step { bucket: step.bucket, page: step.page }, after))
    }

    fn sync(lent: &mut Lent, w: &mut Writer, start: Start, changes: &[Change], pages: &[u8]) -> Synced {
        let records: Vec<bitbox::Change> = changes.iter().map(change).collect();
        let mut after = our_writer(*w);
        let said = bitbox::sync(&mut our_lent(lent), &mut after, our_start(start), &records, pages);
        assert!(black_box(&records).iter().copied().eq(changes.iter().map(change)), "changes are only read");
        *w = writer(after);
        match said {
            Ok(synced) => Synced::Done { occupied: synced.occupied, length: synced.length as u64 },
            Err(bitbox::SyncRefused { refusal, change: None }) => Synced::Refused(why(refusal)),
            Err(bitbox::SyncRefused { refusal, change: Some(change) }) => {
                Synced::RefusedAt { change: change as u64, why: why(refusal) }
            }
        }
    }

    fn replay(
        image: &mut [u8],
        n: u64,
        log: &[u8],
        sync: u32,
        seed: &Seed,
        hashes: &[u64],
        after: AfterEnd,
    ) -> Answer<Replayed> {
        let said = match after {
            AfterEnd::Zeros => bitbox::replay(image, n as usize, log, sync, seed, hashes),
            AfterEnd::Tolerant => bitbox::replay_tolerant(image, n as usize, log, sync, seed, hashes),
        };
        answer(said, |replayed| match replayed {
            bitbox::Replayed::Nothing => Replayed::Nothing,
            bitbox::Replayed::Stale => Replayed::Stale,
            bitbox::Replayed::Applied => Replayed::Applied,
        })
    }

    fn replay_step(
        image: &mut [u8],
        n: u64,
        log: &[u8],
        e: Edition,
        at: u64,
        hash: u64,
        after: AfterEnd,
    ) -> Answer<Stepped> {
        let (n, e, at) = (n as usize, our_edition(e), at as usize);
        let said = match after {
            AfterEnd::Zeros => bitbox::replay_step(image, n, log, e, at, hash),
            AfterEnd::Tolerant => bitbox::replay_step_tolerant(image, n, log, e, at, hash),
        };
        answer(said, |stepped| match stepped {
            bitbox::Stepped::End => Stepped::End,
            bitbox::Stepped::Cleared { next } => Stepped::Cleared { next: next as u64 },
            bitbox::Stepped::Updated { next } => Stepped::Updated { next: next as u64 },
        })
    }

    fn write_marker(old: u32, new: u32) -> Answer<[u8; 16]> {
        answer(bitbox::write_marker(bitbox::Marker { old, new }), |bytes| bytes)
    }

    fn read_marker(bytes: &[u8]) -> Answer<(u32, u32)> {
        answer(bitbox::read_marker(bytes), |marker| (marker.old, marker.new))
    }

    fn pending(meta: u64, file: u64, old: u64, new: u64) -> Answer<Pending> {
        answer(bitbox::pending(old, new, meta, file), |pending| match pending {
            bitbox::Pending::Tidy => Pending::Tidy,
            bitbox::Pending::UpdateMetaThenTidy => Pending::UpdateMeta,
        })
    }

    fn grow(old: &[u8], old_n: u64, new: &mut [u8], new_n: u64, hashes: &[u64]) -> Answer<Grown> {
        answer(bitbox::grow(old, old_n as usize, new, new_n as usize, hashes), |grown| match grown {
            bitbox::Grown::NothingToDo => Grown::NothingToDo,
            bitbox::Grown::Done => Grown::Grown,
        })
    }

    fn audit(image: &[u8], n: u64, hashes: &[u64]) -> Answer<Audited> {
        answer(bitbox::audit(image, n as usize, hashes), |a| Audited {
            capacity: a.capacity,
            occupied: a.occupied,
            rate: a.rate,
        })
    }

    /// The program `list`, where RUSSULADEN_LIST names it; else 01's lines, so that nothing is compared.
    fn list(log: &[u8]) -> String {
        let Some(program) = std::env::var_os("RUSSULADEN_LIST") else {
            return model::list::list(log);
        };
        let mut child =
            Command::new(program).stdin(Stdio::piped()).stdout(Stdio::piped()).spawn().expect("the program list runs");
        // It may end before it has read all.
        let _ = child.stdin.take().expect("its standard input").write_all(log);
        let said = child.wait_with_output().expect("the program list ends");
        let lines = String::from_utf8_lossy(&said.stdout).into_owned();
        if said.status.success() {
            lines
        } else {
            format!("{lines}ended with {}\n", said.status)
        }
    }
}
