//! Where the original parts from document 01, each with a smallest input, run on the original itself: what it leaves,
//! or the place and the words of a panic. Both as released and with debug assertions and overflow checks (cargo test
//! --profile checked).

use original::{
    audit, diff, growth,
    hash::id_of,
    log::{Builder, Entry, Reader},
    path::{self, Map},
    places, replay,
    running::Folder,
    sync::{prepare, Change, Place},
    tags, Panic, Trouble,
};

const SEED: [u8; 16] = [3; 16];
const CLEARED: [u64; 2] = [0, 1 << 63];
const BIT_126: [u64; 2] = [0, 1 << 62];
const CHECKED: bool = cfg!(debug_assertions);

fn tags_of(first: &[u8]) -> Vec<u8> {
    let mut tags = vec![0; 4096];
    tags[..first.len()].copy_from_slice(first);
    tags
}

fn image_of(n: usize, first: &[u8]) -> Vec<u8> {
    let mut image = tags_of(first);
    image.resize(4096 * (1 + n), 0);
    image
}

fn change(hash: u64, diff: [u64; 2], place: Place, page: &[u8]) -> Change<'_> {
    Change { id: id_of(hash, &SEED, 0), diff, place, page }
}

fn log_of(records: &[u8]) -> Vec<u8> {
    let mut log = vec![1, 7, 0, 0, 0];
    log.extend(records);
    log.resize(log.len().next_multiple_of(4096), 0);
    log
}

/// The place and the words of a panic.
fn panic<T>(said: original::Said<T>) -> (String, String) {
    match said {
        Err(Trouble::Panic(Panic { at, said })) => (at, said),
        Err(other) => panic!("{other:?}"),
        Ok(_) => panic!("no panic"),
    }
}

fn at(place: &str, said: &str) -> (String, String) {
    (place.to_string(), said.to_string())
}

fn outside(place: &str, len: usize, index: u64) -> (String, String) {
    at(place, &format!("index out of bounds: the len is {len} but the index is {index}"))
}

fn unequal(place: &str, left: u64, right: u64) -> (String, String) {
    at(place, &format!("assertion `left == right` failed\n  left: {left}\n right: {right}"))
}

fn error<T>(said: original::Said<T>) -> String {
    match said {
        Err(Trouble::Error(said)) => said,
        Err(other) => panic!("{other:?}"),
        Ok(_) => panic!("no error"),
    }
}

const NO_REMAINDER: &str = "attempt to calculate the remainder with a divisor of zero";
const OVERFLOW: &str = "attempt to add with overflow";
const PAGE: [u8; 4096] = [0; 4096];

// Diffs.

#[test]
fn slots_that_are_not_there() {
    let said = "assertion failed: slot_index < NODES_PER_PAGE";
    assert_eq!(panic(diff::set_changed([0; 2], 126)), at("page_diff.rs:38", said));
    assert_eq!(diff::changed([0; 2], 127), Ok(false));
    assert_eq!(panic(diff::changed([0; 2], 128)), outside("page_diff.rs:51", 2, 2));
}

#[test]
fn bits_127_and_126() {
    let reserved = unequal("page_diff.rs:107", 1 << 63, 0);
    assert_eq!(panic(diff::pack(CLEARED, &PAGE)), reserved);
    assert_eq!(panic(diff::unpack(CLEARED, &[[0; 32]], &mut PAGE.clone())), reserved);
    let mut page = PAGE;
    page[4032] = 9;
    assert_eq!(diff::pack(BIT_126, &page).unwrap()[0][0], 9);
    diff::unpack(BIT_126, &[[8; 32]], &mut page).unwrap();
    assert_eq!((page[4031], page[4032], page[4063], page[4064]), (0, 8, 8, 0));
}

#[test]
fn pages_and_nodes_of_another_number() {
    assert_eq!(diff::pack([0; 2], &[]), Ok(vec![]));
    assert_eq!(diff::pack([1, 0], &[7; 32]), Ok(vec![[7; 32]]));
    let (place, said) = panic(diff::pack([1, 0], &[]));
    assert_eq!(place, "page_diff.rs:74");
    assert!(said.starts_with("range ") && said.ends_with(" out of range for slice of length 0"), "{said}");
    let mut page = [0; 32];
    assert_eq!(panic(diff::unpack([3, 0], &[[1; 32], [2; 32]], &mut page)).0, "page_diff.rs:87");
    assert_eq!(page, [1; 32]);
    assert_eq!(panic(diff::unpack([0; 2], &[[0; 32]], &mut PAGE.clone())), unequal("page_diff.rs:83", 0, 1));
}

// Tags and places.

#[test]
fn tags_in_the_padding_and_past_it() {
    assert_eq!(tags::set_tombstone(&tags_of(&[]), 1, 1), (Ok(()), tags_of(&[0, 0x7F])));
    assert_eq!(tags::set_full(&tags_of(&[]), 1, 4095, 0).1[4095], 0x80);
    let (said, left) = tags::set_tombstone(&tags_of(&[]), 1, 4096);
    assert_eq!((panic(said), left), (outside("bitbox/meta_map.rs:52", 4096, 4096), tags_of(&[])));
    assert_eq!(panic(tags::set_full(&tags_of(&[]), 1, 4096, 0).0), outside("bitbox/meta_map.rs:38", 4096, 4096));
}

#[test]
fn tags_of_another_count_or_length() {
    assert_eq!(tags::set_tombstone(&tags_of(&[]), 0, 0), (Ok(()), tags_of(&[0x7F])));
    assert_eq!(panic(tags::set_tombstone(&[0], 1, 0).0), unequal("bitbox/meta_map.rs:19", 1, 0));
    assert_eq!(tags::full_count(&tags_of(&[0x80]), 0), Ok(0));
    assert_eq!(panic(tags::full_count(&[], 1)).0, "bitbox/meta_map.rs:27");
    assert_eq!(panic(tags::padding_is_empty(&[], 1)).0, "bitbox/meta_map.rs:46");
}

#[test]
fn counts_and_buckets_have_no_limit() {
    assert_eq!((places::num_meta_byte_pages(0), places::expected_file_len(0)), (Ok(0), Ok(0)));
    assert_eq!((places::num_meta_byte_pages(1_048_577), places::data_page_index(0, 0)), (Ok(257), Ok(0)));
    assert_eq!(places::data_page_index(1, 1), Ok(2));
    assert!(places::expected_file_len(4_293_918_974).is_ok());
    let (length, page) = (places::expected_file_len(4_293_918_975), places::data_page_index(1, u64::MAX));
    if CHECKED {
        assert_eq!(panic(length), at("bitbox/ht_file.rs:38", OVERFLOW));
        assert_eq!(panic(page), at("bitbox/ht_file.rs:28", OVERFLOW));
    } else {
        assert_eq!((length, page), (Ok(0), Ok(0)));
    }
}

// Paths.

#[test]
fn paths_of_no_buckets_and_of_other_tags() {
    let id = id_of(0, &SEED, 0);
    assert_eq!(panic(path::probe(&[], 0, 0, 0)), at("bitbox/mod.rs:729", NO_REMAINDER));
    assert_eq!(panic(path::load(&[], 0, id, &SEED)), at("bitbox/mod.rs:718", NO_REMAINDER));
    assert_eq!(panic(Map::new(&[], 0, &SEED).unwrap().allocate(id)), at("bitbox/mod.rs:718", NO_REMAINDER));
    assert_eq!(panic(path::probe(&[0], 1, 0, 0)), unequal("bitbox/meta_map.rs:19", 1, 0));
    assert_eq!(panic(path::probe(&[], 1, 0, 0)), outside("bitbox/meta_map.rs:57", 0, 0));
    assert_eq!(path::probe(&[0; 8192], 1, 0, 0), Ok((path::Probed::Empty(0), 0)));
}

#[test]
fn paths_that_never_end() {
    let id = id_of(0, &SEED, 0);
    // Found by walking ahead; not called.
    assert_eq!(path::probe(&tags_of(&[1]), 1, 0, 0), Err(Trouble::Endless));
    assert_eq!(Map::new(&tags_of(&[0x81, 0x81, 0]), 3, &SEED).unwrap().allocate(id), Err(Trouble::Endless));
    assert_eq!(path::load(&image_of(1, &[0x80]), 1, id, &SEED), Err(Trouble::Endless));
    assert_eq!(path::load(&image_of(1, &[0x7F]), 1, id, &SEED), Err(Trouble::Endless));
}

#[test]
fn hits_are_counted_by_visit() {
    let mut tags = vec![0x80; 10_112];
    tags[5_836] = 0;
    tags.resize(12_288, 0);
    assert_eq!(Map::new(&tags, 10_112, &SEED).unwrap().allocate(id_of(0, &SEED, 0)), Ok(None));
}

// The log.

#[test]
fn the_reader_moves_on_after_end() {
    let mut reader = Reader::new(&log_of(&[2, 3, 5, 0, 0, 0, 0, 0, 0, 0])).unwrap();
    assert_eq!(reader.read_entry(), Ok(Entry::End));
    assert_eq!(reader.read_entry(), Ok(Entry::Clear { bucket: 5 }));
}

#[test]
fn the_writer_writes_whatever_comes() {
    let mut fresh = Builder::with_initial_size(4096).unwrap();
    fresh.write_clear(0).unwrap();
    assert_eq!(fresh.bytes(), [3, 0, 0, 0, 0, 0, 0, 0, 0]);
    let mut builder = Builder::with_initial_size(4096).unwrap();
    builder.reset(7).unwrap();
    for diff in [BIT_126, CLEARED] {
        let before = builder.position();
        builder.write_update([9; 32], diff, &[[5; 32]], [0; 8], 0).unwrap();
        assert_eq!(builder.position() - before, 97);
    }
    // Two nodes for one mark, and more than a page.
    builder.write_update([9; 32], [1, 0], &[[5; 32]; 2], [0; 8], 0).unwrap();
    assert_eq!(builder.position(), 5 + 97 + 97 + 129);
    for b in 0..1000 {
        builder.write_clear(b).unwrap();
    }
    builder.finalize().unwrap();
    assert_eq!(builder.position(), 12_288);
}

// Sync: what is left, and the first byte of the last record.

#[test]
fn a_sync_takes_what_is_not_in_order() {
    let fresh = change(0, [1, 0], Place::Fresh, &PAGE);
    let known = |b| change(0, [1, 0], Place::Known(b), &PAGE);
    let clear = |b| change(0, CLEARED, Place::Known(b), &PAGE);
    let bit_126 = change(0, BIT_126, Place::Fresh, &PAGE);
    // The tags before, a change, then: tag 0 and 1 afterwards, the full buckets by its count, the record's kind, and
    // the pages to write.
    for (before, change, after, occupied, kind, pages) in [
        (&[0x81][..], known(0), [0x81, 0], 1, 4, &[1][..]),
        (&[0], known(0), [0, 0], 0, 4, &[1]),
        (&[0], known(1), [0, 0], 0, 4, &[2]),
        (&[0], clear(0), [0x7F, 0], u64::MAX, 3, &[0]),
        (&[0x81], clear(0), [0x7F, 0], 0, 3, &[0]),
        (&[0x80], clear(1), [0x80, 0x7F], 0, 3, &[0]),
        (&[0], bit_126, [0x80, 0], 1, 4, &[0, 1]),
        (&[0], fresh, [0x80, 0], 1, 4, &[0, 1]),
    ] {
        let (said, left) = prepare(1, &SEED, &tags_of(before), 7, &[change], &[]);
        let mut numbers: Vec<u64> = said.unwrap().pages.iter().map(|(pn, _)| *pn).collect();
        numbers.sort();
        assert_eq!((&left.tags[..2], left.occupied, left.log[5], &numbers[..]), (&after[..], occupied, kind, pages));
    }
    // The bit stands in the logged diff.
    assert_eq!(prepare(1, &SEED, &tags_of(&[0]), 7, &[bit_126], &[]).1.log[5 + 33 + 15], 0x40);
}

#[test]
fn a_sync_on_other_tables() {
    let known = [change(0, [1, 0], Place::Known(0), &PAGE)];
    let fresh = [change(0, [1, 0], Place::Fresh, &PAGE)];
    assert_eq!(prepare(0, &SEED, &[], 7, &known, &[]).0.unwrap().pages[0].0, 0);
    assert_eq!(panic(prepare(0, &SEED, &[], 7, &fresh, &[]).0), at("bitbox/mod.rs:718", NO_REMAINDER));
    assert_eq!(panic(prepare(1, &SEED, &[], 7, &fresh, &[]).0).0, "bitbox/meta_map.rs:27");
    assert_eq!(panic(prepare(1, &SEED, &[0], 7, &fresh, &[]).0), unequal("bitbox/meta_map.rs:19", 1, 0));
}

#[test]
fn a_sync_panics() {
    let one = |diff, place, tags: &[u8], cells: &[u64]| {
        panic(prepare(1, &SEED, &tags_of(tags), 7, &[change(0, diff, place, &PAGE)], cells).0)
    };
    let unreachable = "internal error: entered unreachable code";
    assert_eq!(one(CLEARED, Place::Fresh, &[0x80], &[]), at("bitbox/mod.rs:211", unreachable));
    let none = "called `Option::unwrap()` on a `None` value";
    assert_eq!(one(CLEARED, Place::Cell(0), &[0x80], &[u64::MAX]), at("bitbox/mod.rs:210", none));
    assert_eq!(one(CLEARED, Place::Known(4096), &[], &[]), outside("bitbox/meta_map.rs:52", 4096, 4096));
    let (said, left) = prepare(1, &SEED, &tags_of(&[]), 7, &[change(0, [0; 2], Place::Known(u64::MAX), &PAGE)], &[]);
    if CHECKED {
        assert_eq!(panic(said), at("bitbox/ht_file.rs:28", OVERFLOW));
    } else {
        assert_eq!(said.unwrap().pages[0].0, 0);
    }
    assert_eq!(left.log[5], 4);
}

#[test]
fn one_bucket_twice_in_one_sync() {
    let twice = [change(0, [1, 0], Place::Known(0), &PAGE), change(0, [2, 0], Place::Known(0), &PAGE)];
    let (said, _) = prepare(1, &SEED, &tags_of(&[0x80]), 7, &twice, &[]);
    if CHECKED {
        assert_eq!(panic(said), unequal("bitbox/mod.rs:282", 2, 1));
    } else {
        let numbers: Vec<u64> = said.unwrap().pages.iter().map(|(pn, _)| *pn).collect();
        assert_eq!(numbers, [1, 1]);
    }
}

#[test]
fn a_sync_that_gives_up_keeps_earlier_tags_and_does_not_move_occupied() {
    let two = [change(0, [1, 0], Place::Fresh, &PAGE), change(0, [1, 0], Place::Fresh, &PAGE)];
    let (said, left) = prepare(1, &SEED, &tags_of(&[0]), 7, &two, &[]);
    assert_eq!(error(said), "bucket exhaustion");
    assert_eq!((left.tags[0], left.occupied), (0x80, 0));
}

// Replay.

#[test]
fn a_replay_of_an_empty_log_and_of_no_buckets() {
    assert_eq!(error(replay::recover(&image_of(1, &[]), 1, &SEED, &[], 7).said), "Unexpected end of WAL file");
    assert_eq!(replay::recover(&[], 0, &SEED, &log_of(&[2]), 7).said, Ok(()));
}

#[test]
fn a_replay_of_buckets_that_are_not_there() {
    let clear = |b: u64| log_of(&[&[3][..], &b.to_le_bytes(), &[2]].concat());
    let padding = replay::recover(&image_of(1, &[]), 1, &SEED, &clear(1), 7);
    assert_eq!((padding.said, padding.image, padding.log), (Ok(()), image_of(1, &[0, 0x7F]), 0));
    let past = replay::recover(&image_of(1, &[]), 1, &SEED, &clear(4096), 7);
    assert_eq!((panic(past.said), past.log), (outside("bitbox/meta_map.rs:52", 4096, 4096), 4096));
}

#[test]
fn a_refused_replay_has_written_pages() {
    let mut update = vec![4];
    update.extend([9; 32]);
    update.extend([0; 16 + 8 + 8]);
    update.push(0xFF);
    let replayed = replay::recover(&image_of(1, &[]), 1, &SEED, &log_of(&update), 7);
    assert_eq!(error(replayed.said), "unknown WAL entry tag: 255");
    assert_eq!((replayed.image[0], replayed.image[8191]), (0, 9));
}

#[test]
fn what_follows_end_is_not_looked_at() {
    // A clear of bucket 0, end, and an old entry: a clear of bucket 1.
    let log = log_of(&[3, 0, 0, 0, 0, 0, 0, 0, 0, 2, 3, 1, 0, 0, 0, 0, 0, 0, 0, 2]);
    let mut reader = Reader::new(&log).unwrap();
    assert_eq!(reader.read_entry(), Ok(Entry::Clear { bucket: 0 }));
    assert_eq!(reader.read_entry(), Ok(Entry::End));
    let replayed = replay::recover(&image_of(2, &[]), 2, &SEED, &log, 7);
    assert_eq!((replayed.said, replayed.image), (Ok(()), image_of(2, &[0x7F])));
}

// Growth and audit.

#[test]
fn growth_has_no_limits() {
    assert_eq!(growth::marker_encode(8, 8).unwrap()[8..], [8, 0, 0, 0, 8, 0, 0, 0]);
    let pending = growth::finish_pending(&Folder::new(), &growth::marker_encode(0, 1_048_577).unwrap(), 0, 0);
    assert_eq!((pending.said, pending.count, pending.marker, pending.half_made), (Ok(()), 0, false, false));
    let from_0 = growth::grow(&Folder::new(), &[], 0, &SEED, 3);
    assert_eq!((from_0.said, from_0.length, from_0.pages, from_0.count), (Ok(()), 4 * 4096, vec![], 3));
    let longer = growth::grow(&Folder::new(), &[0], 0, &SEED, 3);
    assert_eq!(error(longer.said), "Store corrupted; unexpected file length");
    let above = growth::grow(&Folder::new(), &image_of(1, &[]), 1, &SEED, 1_048_577);
    assert_eq!((above.said, above.length, above.count), (Ok(()), 4096 * (257 + 1_048_577), 1_048_577));
}

#[test]
fn an_audit_replays_the_log_first() {
    let folder = Folder::new();
    folder.put_meta(1, 7, SEED);
    folder.put_file("ht", &image_of(1, &[0x80]));
    folder.put_file("wal", &log_of(&[3, 0, 0, 0, 0, 0, 0, 0, 0, 2]));
    assert_eq!(audit::audit(&folder).unwrap().occupied, 0);
    assert_eq!((folder.file("ht")[0], folder.file("wal").len()), (0x7F, 0));
}
