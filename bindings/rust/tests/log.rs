//! The log's reader and writer: states and refusals, and the bytes of edition one. tests/editions.rs has those of
//! edition two.

mod common;
use bitbox::*;
use common::*;
use Edition::{One, Two};
use Refusal::*;

fn update(bucket: u64, slots: &[usize]) -> Update {
    let d = diff(slots);
    let from = page(3, &id(9));
    let nodes = d.pack_changed_nodes(&from).expect("a page");
    Update { bucket, id: id(9), diff: d, nodes, elided: [3; 8] }
}

#[test]
fn a_log_is_written_and_read() {
    let mut memory = vec![0xEE; 3 * PAGE + 5];
    let mut writer = LogWriter::begin(&mut memory, Start::one(7)).expect("room");
    writer.write_clear(3).expect("room");
    writer.write_update(&update(9, &[2, 125])).expect("room");
    let log = writer.finish().expect("room").to_vec();
    assert_eq!(log.len(), PAGE);
    assert_eq!(log[..14], [1, 7, 0, 0, 0, 3, 3, 0, 0, 0, 0, 0, 0, 0]);
    assert_eq!((log[14], log[143]), (4, 2));
    assert!(log[144..].iter().all(|&b| b == 0));
    assert!(memory[PAGE..].iter().all(|&b| b == 0xEE), "the rest of the slice is left");

    let mut reader = Reader::new(&log).expect("a log");
    assert_eq!((reader.start(), reader.position()), (Start::one(7), 5));
    assert_eq!((reader.sync_seqn(), reader.edition(), reader.seed()), (7, One, None));
    assert_eq!(reader.peek(), Ok(Entry::Clear { bucket: 3 }));
    assert_eq!(reader.read_entry(), Ok(Entry::Clear { bucket: 3 }));
    assert_eq!(reader.position(), 14);
    assert_eq!(reader.read_entry(), Ok(Entry::Update(update(9, &[2, 125]))));
    for _ in 0..2 {
        assert_eq!((reader.position(), reader.read_entry()), (143, Ok(Entry::End)));
    }
    let all: Vec<_> = Reader::new(&log).expect("a log").collect();
    assert_eq!(all, [Ok(Entry::Clear { bucket: 3 }), Ok(Entry::Update(update(9, &[2, 125])))]);
    let lent: Vec<_> = Reader::new(&log).expect("a log").entries().map(|e| e.expect("an entry")).collect();
    assert_eq!(lent, [see_entry(&log, 5, One), see_entry(&log, 14, One)].map(|e| e.expect("an entry").0));
    let buckets = |e: &Result<Entry, Refusal>| e.as_ref().ok().and_then(Entry::bucket);
    assert_eq!(all.iter().map(buckets).collect::<Vec<_>>(), [Some(3), Some(9)]);
    assert_eq!(lent.iter().map(EntryRef::bucket).collect::<Vec<_>>(), [Some(3), Some(9)]);
    assert_eq!((Entry::End.bucket(), EntryRef::End.bucket()), (None, None));
    assert_eq!(reader.see_entry(), Ok(EntryRef::End));
    assert_eq!(read_entry(&log, 5, One), Ok((Entry::Clear { bucket: 3 }, 14)));
    assert_eq!(read_entry(&log, 143, One), Ok((Entry::End, 143)));
    assert_eq!(read_head(&log, 5, One), Ok(Head::Clear { bucket: 3, next: 14 }));
    assert_eq!(read_head(&log, 14, One), Ok(Head::Update { bucket: 9, count: 2, next: 143 }));
    assert_eq!(read_head(&log, 143, One), Ok(Head::End));
}

#[test]
fn setting_a_reader_refuses() {
    for edition in EDITIONS {
        let log = clears(start(edition, 1), &[1]);
        assert_eq!(Reader::new(&log[1..]).err(), Some(LogNotPages));
        assert_eq!(Reader::new(&log[..PAGE - 1]).err(), Some(LogNotPages));
    }
    assert_eq!(Reader::new(&[]).err(), Some(LogCut));
    assert_eq!(Reader::new(&[0; PAGE]).err(), Some(NoStart));
    assert_eq!(Reader::new(&[2; PAGE]).err(), Some(NoStart));
}

#[test]
fn reading_refuses_and_stays() {
    let good = {
        let mut memory = vec![0; PAGE];
        let mut writer = LogWriter::begin(&mut memory, Start::one(1)).expect("room");
        writer.write_update(&update(1, &[0])).expect("room");
        writer.finish().expect("room").to_vec()
    };
    let mut unknown = good.clone();
    unknown[5] = 5;
    let mut reserved = good.clone();
    reserved[5 + 1 + 32 + 15] = 0x80;
    let mut cut = vec![0; PAGE];
    cut[0] = 1;
    // Clears up to the last bytes, and no end.
    for at in (5..PAGE).step_by(9) {
        cut[at] = 3;
    }
    for (log, why, entries) in [(&unknown, TagUnknown, 0), (&reserved, DiffReserved, 0), (&cut, LogCut, 454)] {
        let mut reader = Reader::new(log).expect("a start");
        for _ in 0..entries {
            assert_eq!(reader.read_entry(), Ok(Entry::Clear { bucket: 0 }));
        }
        let at = reader.position();
        for _ in 0..2 {
            assert_eq!((reader.read_entry(), reader.peek(), reader.position()), (Err(why), Err(why), at));
            assert_eq!(read_head(log, at, One), Err(why));
        }
        let all: Vec<_> = Reader::new(log).expect("a start").collect();
        assert_eq!(all.len(), entries + 1, "the refusal is given once and ends it");
        assert_eq!(all.last(), Some(&Err(why)));
        let mut lent = Reader::new(log).expect("a start").entries();
        assert_eq!(lent.by_ref().count(), entries + 1, "as is one of entries that are lent");
        assert_eq!(lent.next(), None);
    }
    for at in [PAGE, PAGE + 1, usize::MAX] {
        for edition in EDITIONS {
            assert_eq!(read_entry(&good, at, edition), Err(LogCut), "at {at}");
            assert_eq!(read_head(&good, at, edition), Err(LogCut), "at {at}");
        }
    }
    assert_eq!(read_entry(&good, 0, One), Err(TagUnknown), "a start is no entry");
    assert_eq!(read_entry(&[], 0, One), Err(LogCut));
}

#[test]
fn a_writer_s_states() {
    let mut log = vec![0xEE; PAGE];
    let mut w = Writer::default();
    assert_eq!(w, Writer::Fresh);
    let refused = |w: &mut Writer, log: &mut [u8]| {
        let before = *w;
        assert_eq!(leaves(log, |l| w.write_clear(l, 1)), Err(WriterNotOpen));
        // Not open comes before a wrong count.
        let bad = Update { nodes: Packed::new(&[]).expect("none"), ..update(1, &[1]) };
        assert_eq!(leaves(log, |l| w.write_update(l, &bad)), Err(WriterNotOpen));
        assert_eq!(leaves(log, |l| w.finish(l)), Err(WriterNotOpen));
        assert_eq!(*w, before, "a refused call leaves the state");
    };
    refused(&mut w, &mut log);
    assert_eq!(w.begin(&mut log, Start::one(0x0102_0304)), Ok(()));
    assert_eq!((w, &log[..6]), (Writer::Open(5, One), &[1, 4, 3, 2, 1, 0xEE][..]));
    assert_eq!(w.write_clear(&mut log, u64::MAX), Ok(()));
    assert_eq!(w, Writer::Open(14, One));
    assert_eq!(w.begin(&mut log, Start::two(2, SEED)), Ok(()), "in any state, in the other edition");
    assert_eq!(w, Writer::Open(22, Two));
    assert_eq!(w.write_clear(&mut log, u64::MAX), Ok(()));
    assert_eq!(w, Writer::Open(32, Two));
    assert_eq!(w.finish(&mut log), Ok(PAGE));
    assert_eq!(w, Writer::Finished(PAGE));
    refused(&mut w, &mut log);
    assert_eq!(w.begin(&mut log, Start::one(3)), Ok(()));
    assert_eq!(w, Writer::Open(5, One));
}

#[test]
fn a_writer_refuses_what_does_not_fit() {
    let mut short = vec![0xEE; PAGE - 1];
    let mut w = Writer::Finished(8);
    for edition in EDITIONS {
        assert_eq!(leaves(&mut short, |l| w.begin(l, start(edition, 1))), Err(NoRoom));
        assert_eq!(w, Writer::Finished(8));
        assert_eq!(LogWriter::begin(&mut short, start(edition, 1)).err(), Some(NoRoom));
    }

    // 454 clears fit in a page, the next does not; 8,191 bytes are one page.
    for len in [PAGE, 2 * PAGE - 1] {
        let mut log = vec![0xEE; len];
        let mut w = Writer::Fresh;
        w.begin(&mut log, Start::one(1)).expect("a page");
        for _ in 0..454 {
            assert_eq!(w.write_clear(&mut log, 1), Ok(()));
        }
        assert_eq!(leaves(&mut log, |l| w.write_clear(l, 1)), Err(NoRoom));
        assert_eq!(w, Writer::Open(5 + 9 * 454, One));
        assert_eq!(w.finish(&mut log), Ok(PAGE));
    }
    let mut log = vec![0xEE; PAGE];
    let mut writer = LogWriter::begin(&mut log, Start::one(1)).expect("a page");
    assert_eq!(writer.write_update(&update(1, &(0..126).collect::<Vec<_>>())), Err(NoRoom));
    // 5 and 65 + 32c and 1 are at most 4,096 for c up to 125.
    assert_eq!(writer.write_update(&update(1, &(0..125).collect::<Vec<_>>())), Ok(()));
    // A state that no call answered.
    for (at, edition) in [PAGE, usize::MAX - 1, usize::MAX].into_iter().flat_map(|at| EDITIONS.map(|e| (at, e))) {
        let mut w = Writer::Open(at, edition);
        assert_eq!(leaves(&mut log, |l| w.write_clear(l, 1)), Err(NoRoom));
        assert_eq!(leaves(&mut log, |l| w.write_update(l, &update(1, &[1]))), Err(NoRoom));
        assert_eq!(leaves(&mut log, |l| w.finish(l)), Err(NoRoom));
        assert_eq!(w, Writer::Open(at, edition));
    }
}

#[test]
fn a_writer_refuses_bad_updates() {
    for edition in EDITIONS {
        refuses_bad_updates(edition);
    }
}

fn refuses_bad_updates(edition: Edition) {
    let (mark, first) = sizes(edition);
    let mut log = vec![0xEE; 2 * PAGE];
    let mut w = Writer::Fresh;
    w.begin(&mut log, start(edition, 1)).expect("a page");
    for count in [0, 1, 3, 127, usize::MAX] {
        let bad = Update { nodes: Packed::from_table([[1; NODE]; SLOTS], count), ..update(1, &[1, 2]) };
        assert_eq!(leaves(&mut log, |l| w.write_update(l, &bad)), Err(LengthUnfit), "{count} nodes");
    }
    for words in [[0, 1 << 63], [0, 1 << 62], [u64::MAX; 2]] {
        let d = Diff::from_words(words);
        // The count comes before the diff.
        let bad = Update { diff: d, nodes: Packed::from_table([[1; NODE]; SLOTS], 0), ..update(1, &[]) };
        assert_eq!(leaves(&mut log, |l| w.write_update(l, &bad)), Err(LengthUnfit));
        let bad = Update { diff: d, nodes: Packed::from_table([[1; NODE]; SLOTS], d.count()), ..update(1, &[]) };
        assert_eq!(leaves(&mut log, |l| w.write_update(l, &bad)), Err(DiffReserved));
    }
    assert_eq!(w, Writer::Open(first, edition));
    // Nodes beyond the count are ignored.
    let mut table = [[0xAB; NODE]; SLOTS];
    table[0] = [7; NODE];
    let good = Update { nodes: Packed::from_table(table, 1), ..update(1, &[4]) };
    assert_eq!(w.write_update(&mut log, &good), Ok(()));
    assert_eq!(w, Writer::Open(first + mark + 64 + 32, edition));
    assert!(!log.contains(&0xAB));
}

/// The entry with all that it lends copied.
fn copied(entry: EntryRef<'_>) -> Entry {
    match entry {
        EntryRef::End => Entry::End,
        EntryRef::Clear { bucket } => Entry::Clear { bucket },
        EntryRef::Update(u) => {
            let nodes: Vec<Node> = u.nodes().copied().collect();
            assert_eq!(nodes.len(), u.count());
            let nodes = Packed::new(&nodes).expect("at most 126");
            Entry::Update(Update { bucket: u.bucket, id: *u.id, diff: u.diff, nodes, elided: *u.elided })
        }
    }
}

#[test]
fn an_entry_seen_is_the_entry_read() {
    for edition in EDITIONS {
        is_seen_as_it_is_read(edition);
    }
}

fn is_seen_as_it_is_read(edition: Edition) {
    let (mark, first) = sizes(edition);
    let mut memory = vec![0; PAGE];
    let mut writer = LogWriter::begin(&mut memory, start(edition, 7)).expect("room");
    writer.write_clear(3).expect("room");
    writer.write_update(&update(9, &[2, 64, 125])).expect("room");
    writer.write_update(&update(u64::MAX, &[])).expect("room");
    let good = writer.finish().expect("room").to_vec();
    let same = |log: &[u8], at: usize| {
        for told in EDITIONS {
            let seen = see_entry(log, at, told).map(|(entry, next)| (copied(entry), next));
            assert_eq!(seen, read_entry(log, at, told), "at {at}");
        }
    };
    let second = first + mark + 8;
    let third = second + mark + 64 + 96;
    // At every position, at every length, and with each of the first bytes changed.
    for at in 0..PAGE + 2 {
        same(&good, at);
        same(&good[..at.min(300)], first);
    }
    for change in 0..300 {
        let mut log = good.clone();
        log[change] ^= 1 << (change % 8);
        for at in [first, second, third] {
            same(&log, at);
        }
    }
    assert_eq!(see_entry(&good, second, edition).map(|(_, next)| next), Ok(third));
    for at in [PAGE, PAGE + 1, usize::MAX] {
        assert_eq!(see_entry(&good, at, edition), Err(LogCut));
    }
}
