//! Edition two of the log by hand: its bytes, its room, its refusals. Document 02, W-207.

use model::{
    after_end::AfterEnd,
    diff::{pack, Diff},
    edition::{Edition, Seed, Start},
    list::list,
    reader::{self, Entry},
    replay::{replay, step, Replayed, Stepped},
    sync::{sync, Change, Lent, Place, Synced},
    writer::{self, Writer},
    Refused,
};

const SEED: Seed = [0xA0, 0xA1, 0xA2, 0xA3, 0xA4, 0xA5, 0xA6, 0xA7, 0xA8, 0xA9, 0xAA, 0xAB, 0xAC, 0xAD, 0xAE, 0xAF];
const OTHER: Seed = [0; 16];

/// Start, clear of bucket 3, update of bucket 0 with slot 1, end.
fn log() -> Vec<u8> {
    let mut log = vec![0xEE; 8192];
    let w = writer::begin(&mut log, Start::two(7, SEED)).unwrap();
    assert_eq!(w, Writer::Open(Edition::Two, 22));
    let w = writer::clear(&mut log, w, 3).unwrap();
    assert_eq!(w, Writer::Open(Edition::Two, 32));
    let packed = pack(Diff(2), &[0x55; 4096]).unwrap();
    let w = writer::update(&mut log, w, &[0x11; 32], Diff(2), &packed, &[0x22; 8], 0).unwrap();
    assert_eq!(w, Writer::Open(Edition::Two, 32 + 66 + 32));
    assert_eq!(writer::finish(&mut log, w), Ok((4096, Writer::Finished(4096))));
    assert_eq!(log[4096..], [0xEE; 4096]);
    log.truncate(4096);
    log
}

/// A page that begins with these bytes.
fn page(first: &[u8]) -> Vec<u8> {
    let mut page = vec![0; 4096];
    page[..first.len()].copy_from_slice(first);
    page
}

#[test]
fn bytes() {
    let mut due = vec![0xB2, 1, 7, 0, 0, 0];
    due.extend(SEED);
    due.extend([0xB2, 3, 3, 0, 0, 0, 0, 0, 0, 0]);
    due.extend([0xB2, 4]);
    due.extend([0x11; 32]);
    due.extend([2, 0, 0, 0, 0, 0, 0, 0, 0, 0, 0, 0, 0, 0, 0, 0]);
    due.extend([0x55; 32]);
    due.extend([0x22; 8]);
    due.extend([0; 8]);
    due.extend([0xB2, 2]);
    assert_eq!(due.len(), 132);
    assert_eq!(log(), page(&due));
}

#[test]
fn read_back() {
    let log = log();
    assert_eq!(reader::set(&log), Ok(Start::two(7, SEED)));
    assert_eq!(reader::next(&log, Edition::Two, 22, AfterEnd::Zeros), Ok((Entry::Clear { bucket: 3 }, 32)));
    let (entry, after) = reader::next(&log, Edition::Two, 32, AfterEnd::Zeros).unwrap();
    let update = Entry::Update { id: [0x11; 32], diff: Diff(2), nodes: vec![[0x55; 32]], elided: [0x22; 8], bucket: 0 };
    assert_eq!((entry, after), (update, 130));
    assert_eq!(reader::next(&log, Edition::Two, 130, AfterEnd::Zeros), Ok((Entry::End, 130)));
    assert_eq!(list(&log), "0 start 7\n22 clear 3\n32 update 0 1\n130 end\n");
    // A reader of edition one that is put behind a mark's first byte.
    assert_eq!(reader::next(&log, Edition::One, 23, AfterEnd::Zeros), Ok((Entry::Clear { bucket: 3 }, 32)));
}

#[test]
fn starts() {
    let set = |first: &[u8]| reader::set(&page(first)).map(|start| start.edition());
    assert_eq!(set(&[1]), Ok(Edition::One));
    assert_eq!(set(&[0xB2, 1]), Ok(Edition::Two));
    assert_eq!(set(&[1, 0xB2]), Ok(Edition::One));
    for other in [&[0xB2][..], &[0xB2, 0xB2], &[0xB2, 2], &[0xB2, 3], &[0, 1], &[2], &[0xB1, 1]] {
        assert_eq!(set(other), Err(Refused(7)));
    }
    assert_eq!(reader::set(&[0xB2]), Err(Refused(5)));
    assert_eq!(reader::set(&[]), Err(Refused(6)));
}

#[test]
fn marks() {
    let next = |log: &[u8], at| reader::next(log, Edition::Two, at, AfterEnd::Zeros).map(|(entry, _)| entry);
    // A bare tag, a start, an unknown tag, 0xB2 twice, zeros.
    for bad in [&[3, 0][..], &[2], &[4], &[0xB2, 1], &[0xB2, 5], &[0xB2, 0], &[0xB2, 0xB2, 2], &[0]] {
        assert_eq!(next(&page(bad), 0), Err(Refused(8)));
    }
    // At the last byte, and with none left.
    assert_eq!(next(&[0xB2], 0), Err(Refused(6)));
    for last in [0, 1, 2, 3, 4, 0xFF] {
        assert_eq!(next(&[last], 0), Err(Refused(8)));
    }
    assert_eq!(next(&[0xB2, 2], 2), Err(Refused(6)));
    // End as the last two bytes; a clear that is cut.
    assert_eq!(next(&[0xB2, 2], 0), Ok(Entry::End));
    assert_eq!(next(&[0xB2, 3, 0, 0, 0, 0, 0, 0, 0], 0), Err(Refused(6)));
    // A mark of edition two in a log of edition one.
    assert_eq!(reader::next(&[0xB2, 2], Edition::One, 0, AfterEnd::Zeros), Err(Refused(8)));
}

#[test]
fn clears_that_fit() {
    let mut log = vec![0; 4096];
    let mut w = writer::begin(&mut log, Start::two(7, SEED)).unwrap();
    // 22 + 407 * 10 + 2 = 4094.
    for b in 0..407 {
        w = writer::clear(&mut log, w, b).unwrap();
    }
    assert_eq!(writer::clear(&mut log, w, 407), Err(Refused(13)));
    assert_eq!(writer::finish(&mut log, w), Ok((4096, Writer::Finished(4096))));
}

#[test]
fn room() {
    let mut log = vec![0; 4096];
    let mut clear = |at| writer::clear(&mut log, Writer::Open(Edition::Two, at), 0);
    assert_eq!(clear(4084), Ok(Writer::Open(Edition::Two, 4094)));
    assert_eq!(clear(4085), Err(Refused(13)));
    assert_eq!(clear(u64::MAX), Err(Refused(13)));
    let mut finish = |at| writer::finish(&mut log, Writer::Open(Edition::Two, at));
    assert_eq!(finish(4094), Ok((4096, Writer::Finished(4096))));
    assert_eq!(finish(4095), Err(Refused(13)));
    assert_eq!(writer::begin(&mut [0; 4095], Start::two(7, SEED)), Err(Refused(13)));
    // Edition one: a clear is a byte less, and so is end.
    assert_eq!(writer::clear(&mut log, Writer::Open(Edition::One, 4086), 0), Ok(Writer::Open(Edition::One, 4095)));
}

#[test]
fn another_store() {
    let log = log();
    let mut image = vec![0; 4096 * 5];
    let mut replayed = |log: &[u8], sync, seed: &Seed| {
        let said = replay(&mut image, 4, log, sync, seed, &[0], AfterEnd::Zeros);
        (said, (image[0], image[3]))
    };
    // 26 stands before stale, whatever the number; stale where the store is the one.
    assert_eq!(replayed(&log, 7, &OTHER), (Err(Refused(26)), (0, 0)));
    assert_eq!(replayed(&log, 8, &OTHER), (Err(Refused(26)), (0, 0)));
    assert_eq!(replayed(&log, 8, &SEED), (Ok(Replayed::Stale), (0, 0)));
    // Every byte of the seed counts.
    for i in 0..16 {
        let mut near = SEED;
        near[i] ^= 1;
        assert_eq!(replayed(&log, 7, &near).0, Err(Refused(26)));
    }
    // 5 and 7 stand before it, a bad entry after it.
    assert_eq!(replayed(&log[1..], 7, &OTHER).0, Err(Refused(5)));
    let with = |at: usize, byte| {
        let mut other = log.clone();
        other[at] = byte;
        other
    };
    assert_eq!(replayed(&with(1, 2), 7, &OTHER).0, Err(Refused(7)));
    assert_eq!(replayed(&with(22, 3), 7, &OTHER).0, Err(Refused(26)));
    assert_eq!(replayed(&with(22, 3), 7, &SEED).0, Err(Refused(8)));
    assert_eq!(replayed(&log, 7, &SEED), (Ok(Replayed::Applied), (0x80, 0x7F)));
}

#[test]
fn edition_one_names_no_store() {
    let mut log = vec![0; 4096];
    let w = writer::begin(&mut log, Start::one(7)).unwrap();
    writer::finish(&mut log, w).unwrap();
    for seed in [SEED, OTHER] {
        assert_eq!(replay(&mut [0; 8192], 1, &log, 7, &seed, &[], AfterEnd::Zeros), Ok(Replayed::Applied));
    }
}

#[test]
fn steps() {
    let log = log();
    let mut image = vec![0; 4096 * 5];
    let mut at = |at| step(&mut image, 4, &log, Edition::Two, at, u64::MAX, AfterEnd::Zeros);
    assert_eq!(at(22), Ok(Stepped::Cleared { next: 32 }));
    assert_eq!(at(32), Ok(Stepped::Updated { next: 130 }));
    assert_eq!(at(130), Ok(Stepped::End));
    assert_eq!(at(23), Err(Refused(8)));
    assert_eq!((image[0], image[3], image[4096 + 32]), (0xFF, 0x7F, 0x55));
}

#[test]
fn synced() {
    let (mut tags, mut marks, mut log) = (vec![0; 4096], vec![9], vec![0xEE; 4096]);
    tags[3] = 0x80;
    let clear = Change { id: [0; 32], hash: 0, diff: Diff(1 << 127), place: Place::Known(3) };
    let mut lent = Lent { n: 4, tags: &mut tags, cells: &mut [], marks: &mut marks, log: &mut log };
    let mut writer = Writer::Fresh;
    let said = sync(&mut lent, &mut writer, Start::two(7, SEED), &[clear], &[0; 4096]);
    assert_eq!((said, writer), (Synced::Done { occupied: 0, length: 4096 }, Writer::Finished(4096)));
    assert_eq!(list(&log), "0 start 7\n22 clear 3\n32 end\n");
    assert_eq!(log[6..22], SEED);
}
