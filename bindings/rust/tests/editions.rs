//! The log's second edition: its bytes, its room, what its reader refuses, and the seed by which a replay tells the
//! store's own log.

mod common;
use bitbox::*;
use common::*;
use Edition::{One, Two};
use Refusal::*;

fn update(bucket: u64, slots: usize) -> Update {
    let d = diff(&(0..slots).collect::<Vec<_>>());
    let nodes = d.pack_changed_nodes(&page(3, &id(9))).expect("a page");
    Update { bucket, id: id(9), diff: d, nodes, elided: [3; 8] }
}

/// A clear of bucket 3, an update of bucket 1 with two slots, and the end: at 22, 32 and 162.
fn log() -> Vec<u8> {
    let mut memory = vec![0xEE; 2 * PAGE];
    let mut writer = LogWriter::begin(&mut memory, Start::two(7, SEED)).expect("room");
    writer.write_clear(3).expect("room");
    writer.write_update(&update(1, 2)).expect("room");
    writer.finish().expect("room").to_vec()
}

const MARKS: [usize; 3] = [22, 32, 162];

/// The log with a byte changed.
fn changed(at: usize, byte: u8) -> Vec<u8> {
    let mut log = log();
    log[at] = byte;
    log
}

/// What reading, seeing and stepping answer at a position: all the same refusal.
fn refused(log: &[u8], at: usize, edition: Edition) -> Option<Refusal> {
    let why = read_entry(log, at, edition).err();
    assert_eq!(read_head(log, at, edition).err(), why, "at {at}");
    assert_eq!(see_entry(log, at, edition).err(), why, "at {at}");
    let mut table = image(4);
    assert_eq!(leaves(&mut table, |i| replay_step(i, 4, log, edition, at, 1)).err(), why, "at {at}");
    why
}

#[test]
fn its_bytes() {
    let mut memory = vec![0xEE; 3 * PAGE + 5];
    let mut writer = LogWriter::begin(&mut memory, Start::two(0x0403_0201, SEED)).expect("room");
    writer.write_clear(0x0807_0605_0403_0201).expect("room");
    writer.write_update(&update(9, 2)).expect("room");
    let log = writer.finish().expect("room").to_vec();
    let nodes = [[3; NODE], [4; NODE]].concat();
    let wanted = [
        &[0xB2, 1, 1, 2, 3, 4][..],
        &SEED,
        &[0xB2, 3, 1, 2, 3, 4, 5, 6, 7, 8],
        &[0xB2, 4],
        &id(9),
        &[3, 0, 0, 0, 0, 0, 0, 0, 0, 0, 0, 0, 0, 0, 0, 0],
        &nodes,
        &[3; 8],
        &[9, 0, 0, 0, 0, 0, 0, 0],
        &[0xB2, 2],
    ]
    .concat();
    assert_eq!(log[..wanted.len()], wanted);
    assert_eq!((log.len(), wanted.len()), (PAGE, 22 + 10 + 130 + 2));
    assert!(log[wanted.len()..].iter().all(|&b| b == 0));
    assert!(memory[PAGE..].iter().all(|&b| b == 0xEE), "the rest of the slice is left");
}

#[test]
fn it_is_read_back() {
    let log = log();
    let mut reader = Reader::new(&log).expect("a log");
    assert_eq!((reader.start(), reader.position()), (Start::two(7, SEED), 22));
    assert_eq!((reader.sync_seqn(), reader.edition(), reader.seed()), (7, Two, Some(SEED)));
    assert_eq!(reader.peek(), Ok(Entry::Clear { bucket: 3 }));
    assert_eq!(reader.read_entry(), Ok(Entry::Clear { bucket: 3 }));
    assert_eq!((reader.position(), reader.read_entry()), (32, Ok(Entry::Update(update(1, 2)))));
    for _ in 0..2 {
        assert_eq!(
            (reader.position(), reader.read_entry(), reader.see_entry()),
            (162, Ok(Entry::End), Ok(EntryRef::End))
        );
    }
    let all: Vec<_> = Reader::new(&log).expect("a log").collect();
    assert_eq!(all, [Ok(Entry::Clear { bucket: 3 }), Ok(Entry::Update(update(1, 2)))]);
    assert_eq!(Reader::new(&log).expect("a log").entries().count(), 2);
    assert_eq!(read_head(&log, 22, Two), Ok(Head::Clear { bucket: 3, next: 32 }));
    assert_eq!(read_head(&log, 32, Two), Ok(Head::Update { bucket: 1, count: 2, next: 162 }));
    assert_eq!(read_head(&log, 162, Two), Ok(Head::End));
}

#[test]
fn a_start_holds_what_it_was_made_of() {
    let (one, two) = (Start::one(5), Start::two(5, SEED));
    assert_eq!((one.sync_seqn(), one.edition(), one.seed()), (5, One, None));
    assert_eq!((two.sync_seqn(), two.edition(), two.seed()), (5, Two, Some(SEED)));
    assert!(one != two && two != Start::two(5, [0; 16]) && two != Start::two(6, SEED));
    assert_eq!(Edition::default(), Two);
    // A seed of zeros is one like any other.
    let log = clears(Start::two(u32::MAX, [0; 16]), &[]);
    assert_eq!(Reader::new(&log).map(|r| r.start()), Ok(Start::two(u32::MAX, [0; 16])));
}

#[test]
fn the_first_byte_tells_the_edition() {
    for first in 0..=255 {
        let wanted = if first == 0xB2 { (Two, 22) } else { (One, 5) };
        for log in [&[first][..], &[first; 21], &[first; PAGE]] {
            assert_eq!((Edition::of(log), first_entry(log)), wanted, "{first:#x}");
        }
        // 7 for any other start than 1, and than 0xB2 and 1.
        let mut other = log();
        other[0] = first;
        assert_eq!(Reader::new(&other).is_ok(), [1, 0xB2].contains(&first), "{first:#x}");
        let mut other = log();
        other[1] = first;
        assert_eq!(Reader::new(&other).err(), (first != 1).then_some(NoStart), "0xb2 and {first:#x}");
    }
    assert_eq!((Edition::of(&[]), first_entry(&[])), (One, 5));
}

#[test]
fn room_for_a_clear() {
    for at in PAGE - 14..PAGE + 2 {
        let mut log = vec![0xEE; 2 * PAGE - 1];
        let mut w = Writer::Open(at, Two);
        if at + 10 + 2 <= PAGE {
            assert_eq!(w.write_clear(&mut log, 5), Ok(()), "at {at}");
            assert_eq!(w, Writer::Open(at + 10, Two));
            assert_eq!(read_entry(&log, at, Two), Ok((Entry::Clear { bucket: 5 }, at + 10)));
            assert_eq!(w.finish(&mut log), Ok(PAGE), "there is room for the end");
            assert!(log[..at].iter().chain(&log[PAGE..]).all(|&b| b == 0xEE));
        } else {
            assert_eq!(leaves(&mut log, |l| w.write_clear(l, 5)), Err(NoRoom), "at {at}");
            assert_eq!(w, Writer::Open(at, Two));
        }
    }
}

#[test]
fn room_for_an_update() {
    for slots in [0, 1, 63, 64, 65, 124, 125, 126] {
        let (u, size) = (update(5, slots), 66 + 32 * slots);
        let last = 2 * PAGE - size - 2;
        let mut log = vec![0xEE; 2 * PAGE + 4095];
        let mut w = Writer::Open(last + 1, Two);
        assert_eq!(leaves(&mut log, |l| w.write_update(l, &u)), Err(NoRoom), "{slots} slots");
        assert_eq!(w, Writer::Open(last + 1, Two));
        w = Writer::Open(last, Two);
        assert_eq!(w.write_update(&mut log, &u), Ok(()), "{slots} slots");
        assert_eq!(w, Writer::Open(2 * PAGE - 2, Two));
        assert_eq!(read_entry(&log, last, Two), Ok((Entry::Update(u), 2 * PAGE - 2)));
        assert_eq!(w.finish(&mut log), Ok(2 * PAGE));
        assert!(log[..last].iter().chain(&log[2 * PAGE..]).all(|&b| b == 0xEE));
    }
}

#[test]
fn room_for_the_end() {
    for (at, room) in [(PAGE - 3, true), (PAGE - 2, true), (PAGE - 1, false), (PAGE, false)] {
        let mut log = vec![0xEE; PAGE];
        let mut w = Writer::Open(at, Two);
        if room {
            assert_eq!(w.finish(&mut log), Ok(PAGE), "at {at}");
            assert_eq!((w, &log[at..at + 2]), (Writer::Finished(PAGE), &[0xB2, 2][..]));
            assert!(log[..at].iter().all(|&b| b == 0xEE) && log[at + 2..].iter().all(|&b| b == 0));
        } else {
            assert_eq!(leaves(&mut log, |l| w.finish(l)), Err(NoRoom), "at {at}");
            assert_eq!(w, Writer::Open(at, Two));
        }
    }
    // From begin on: 407 clears are 22 + 4,070 bytes, and the next does not fit; an update of 125 slots fits.
    let mut log = vec![0xEE; PAGE];
    let mut writer = LogWriter::begin(&mut log, Start::two(1, SEED)).expect("a page");
    for bucket in 0..407 {
        assert_eq!(writer.write_clear(bucket), Ok(()));
    }
    assert_eq!(writer.write_clear(407), Err(NoRoom));
    let log = writer.finish().expect("room");
    assert!(Reader::new(log).expect("a log").map(|e| e.ok().and_then(|e| e.bucket())).eq((0..407).map(Some)));
    let mut log = vec![0xEE; PAGE];
    let mut writer = LogWriter::begin(&mut log, Start::two(1, SEED)).expect("a page");
    assert_eq!(writer.write_update(&update(1, 126)), Err(NoRoom));
    assert_eq!(writer.write_update(&update(1, 125)), Ok(()));
    assert_eq!(writer.finish().map(<[u8]>::len), Ok(PAGE));
}

#[test]
fn a_damaged_mark_is_refused() {
    for (i, at) in MARKS.into_iter().enumerate() {
        for byte in 0..=255 {
            let (first, second) = (changed(at, byte), changed(at + 1, byte));
            if byte != 0xB2 {
                // Bare tags of edition one among them.
                assert_eq!(refused(&first, at, Two), Some(TagUnknown), "at {at}, {byte:#x}");
                assert_eq!(Reader::new(&first).expect("a start").last(), Some(Err(TagUnknown)));
            }
            // A second start and a second 0xB2 among them.
            if ![2, 3, 4].contains(&byte) {
                assert_eq!(refused(&second, at, Two), Some(TagUnknown), "at {at}, 0xb2 and {byte:#x}");
                assert_eq!(
                    Reader::new(&second).expect("a start").count(),
                    i + 1,
                    "the entries before it and the refusal"
                );
            }
        }
    }
    assert_eq!(refused(&log(), 0, Two), Some(TagUnknown), "a start is no entry");
    // Each edition's records are none of the other's.
    assert_eq!(refused(&log(), 22, One), Some(TagUnknown));
    assert_eq!(refused(&clears(Start::one(7), &[1]), 5, Two), Some(TagUnknown));
    let mut mixed = clears(Start::one(7), &[1, 2]);
    mixed[14] = 0xB2;
    assert_eq!(refused(&mixed, 14, One), Some(TagUnknown));
}

#[test]
fn a_log_that_ends_inside_a_record_is_cut() {
    let good = log();
    // At the last byte: 0xB2 is the half of a mark, any other is none; after it stands nothing.
    for byte in 0..=255 {
        let why = if byte == 0xB2 { LogCut } else { TagUnknown };
        assert_eq!(refused(&changed(PAGE - 1, byte), PAGE - 1, Two), Some(why), "{byte:#x}");
    }
    for at in [PAGE, PAGE + 1, usize::MAX - 1, usize::MAX] {
        assert_eq!(refused(&good, at, Two), Some(LogCut), "at {at}");
    }
    // The clear is at 22, the update at 32, the end at 162: each is there at its last byte and not before.
    for (at, next) in [(22, 32), (32, 162)] {
        for end in at..next {
            assert_eq!(refused(&good[..end], at, Two), Some(LogCut), "at {at}, {end} bytes");
        }
        assert_eq!(read_head(&good[..next], at, Two).map(|h| h == Head::End), Ok(false));
    }
    assert_eq!((read_head(&good[..163], 162, Two), read_head(&good[..164], 162, Two)), (Err(LogCut), Ok(Head::End)));

    // 22 + (66 + 32 * 124) + 4 * 10 bytes are a page, and the end is in the next one.
    let mut memory = vec![0; 2 * PAGE];
    let mut writer = LogWriter::begin(&mut memory, Start::two(7, SEED)).expect("room");
    writer.write_update(&update(1, 124)).expect("room");
    for _ in 0..4 {
        writer.write_clear(1).expect("room");
    }
    let whole = writer.finish().expect("room").to_vec();
    assert_eq!((whole.len(), &whole[PAGE..PAGE + 3]), (2 * PAGE, &[0xB2, 2, 0][..]));
    let mut table = image(4);
    assert_eq!(leaves(&mut table, |i| replay(i, 4, &whole[..PAGE], 7, &SEED, &[1])), Err(LogCut));
    assert_eq!(Reader::new(&whole[..PAGE]).expect("a start").last(), Some(Err(LogCut)));
    assert_eq!(replay(&mut table, 4, &whole, 7, &SEED, &[1]), Ok(Replayed::Applied));
}

#[test]
fn a_replay_refuses_another_store_s_log() {
    let (log, mut table) = (log(), image(4));
    // A single byte of the seed, by any bit.
    for (byte, bit) in (0..16).flat_map(|byte| (0..8).map(move |bit| (byte, bit))) {
        let mut other = SEED;
        other[byte] ^= 1 << bit;
        let refused = leaves(&mut table, |i| replay(i, 4, &log, 7, &other, &[1]));
        assert_eq!(refused, Err(OtherStore), "byte {byte}, bit {bit}");
        // So is a log whose own seed has another byte.
        let log = changed(6 + byte, other[byte]);
        assert_eq!(leaves(&mut table, |i| replay(i, 4, &log, 7, &SEED, &[1])), Err(OtherStore));
        assert_eq!(Reader::new(&log).map(|r| r.seed()), Ok(Some(other)));
    }
    assert_eq!(leaves(&mut table, |i| replay(i, 4, &log, 7, &[0; 16], &[1])), Err(OtherStore));
    assert_eq!(replay(&mut table, 4, &log, 7, &SEED, &[1]), Ok(Replayed::Applied));
    assert_eq!(table[..4], [0, 0x80, 0, TOMBSTONE]);
}

#[test]
fn another_store_comes_after_no_start_and_before_stale() {
    let (good, mut table, other) = (log(), image(4), [9; 16]);
    let mut refused = |n, log: &[u8], number| leaves(&mut table, |i| replay(i, n, log, number, &other, &[]));
    assert_eq!(refused(5, &good, 7), Err(TableUnfit));
    assert_eq!(refused(4, &[], 7), Ok(Replayed::Nothing));
    assert_eq!(refused(4, &good[..PAGE - 1], 7), Err(LogNotPages));
    assert_eq!(refused(4, &changed(1, 2), 7), Err(NoStart));
    assert_eq!(refused(4, &good, 8), Err(OtherStore), "another number too");
    assert_eq!(refused(4, &changed(22, 0), 7), Err(OtherStore), "no entry is read");
    assert_eq!(refused(4, &good, 7), Err(OtherStore), "nor are hashes counted");
    assert_eq!(leaves(&mut table, |i| replay(i, 4, &good, 8, &SEED, &[])), Ok(Replayed::Stale));
    assert_eq!(leaves(&mut table, |i| replay(i, 4, &good, 7, &SEED, &[])), Err(LengthUnfit));
}

#[test]
fn edition_one_is_never_of_another_store() {
    for seed in [[0; 16], [0xFF; 16], SEED] {
        let mut table = image(4);
        let log = clears(Start::one(7), &[2]);
        assert_eq!(replay(&mut table, 4, &log, 7, &seed, &[]), Ok(Replayed::Applied));
        assert_eq!(leaves(&mut table, |i| replay(i, 4, &log, 8, &seed, &[])), Ok(Replayed::Stale));
        assert_eq!(table[2], TOMBSTONE);
        // Where the second edition has its seed, the first has entries.
        let mut log = clears(Start::one(7), &[2, 3]);
        log[6..22].copy_from_slice(&[2, 0, 0, 0, 0, 0, 0, 0, 3, 3, 0, 0, 0, 0, 0, 0]);
        assert_eq!(replay(&mut table, 4, &log, 7, &seed, &[]), Ok(Replayed::Applied));
    }
}
