//! What follows a log's end: zeros are wanted there, up to the end of what is lent, and any other byte is refused with 27
//! in place of the end. The tolerant calls take it.

mod common;
use bitbox::*;
use common::*;
use Refusal::*;

const N: usize = 4;
const HASHES: [u64; 1] = [1];

/// A log of sync 7, of one page or of three: a clear of bucket 3, an update of bucket 1, and then clears of bucket 0 to
/// fill two pages and more. And where its end stands.
fn log(edition: Edition, pages: usize) -> (Vec<u8>, usize) {
    let (d, (mark, first)) = (diff(&[0, 125]), sizes(edition));
    let nodes = d.pack_changed_nodes(&page(3, &id(9))).expect("a page");
    let mut memory = vec![0xEE; 4 * PAGE];
    let mut writer = LogWriter::begin(&mut memory, start(edition, 7)).expect("room");
    writer.write_clear(3).expect("room");
    writer.write_update(&Update { bucket: 1, id: id(9), diff: d, nodes, elided: [3; 8] }).expect("room");
    let more = if pages == 1 { 0 } else { 2 * PAGE / (mark + 8) };
    for _ in 0..more {
        writer.write_clear(0).expect("room");
    }
    let log = writer.finish().expect("room").to_vec();
    assert_eq!(log.len(), pages * PAGE);
    (log, first + (more + 1) * (mark + 8) + mark + 64 + 64)
}

/// The logs of these tests, each with its edition, where its end stands and where that is over.
fn logs() -> impl Iterator<Item = (Vec<u8>, Edition, usize, usize)> {
    let kinds = EDITIONS.into_iter().flat_map(|edition| [(edition, 1), (edition, 3)]);
    kinds.map(|(edition, pages)| {
        let (log, end) = log(edition, pages);
        let over = end + sizes(edition).0;
        assert!(log[over..].iter().all(|&b| b == 0), "the writer pads with zeros");
        (log, edition, end, over)
    })
}

/// The log with a byte changed.
fn changed(log: &[u8], at: usize, byte: u8) -> Vec<u8> {
    let mut log = log.to_vec();
    log[at] = byte;
    log
}

/// A replay for the store with the seed of these tests.
fn replayed(image: &mut [u8], log: &[u8], hashes: &[u64]) -> Result<Replayed, Refusal> {
    replay(image, N, log, 7, &SEED, hashes)
}

/// The image after a log of these tests.
fn after(log: &[u8]) -> Vec<u8> {
    let mut image = image(N);
    assert_eq!(replayed(&mut image, log, &HASHES), Ok(Replayed::Applied));
    image
}

/// The entries of a log whose end is as is wanted, and the reader at its end.
fn read<'a>(mut reader: Reader<'a>, end: usize) -> (Vec<EntryRef<'a>>, Reader<'a>) {
    let mut entries = vec![];
    while reader.position() < end {
        entries.push(reader.see_entry().expect("an entry"));
    }
    assert_eq!(reader.position(), end);
    (entries, reader)
}

#[test]
fn zeros_are_taken_by_both() {
    for (log, edition, end, _) in logs() {
        assert_eq!(read_entry(&log, end, edition), Ok((Entry::End, end)));
        assert_eq!(read_entry_tolerant(&log, end, edition), Ok((Entry::End, end)));
        let (mut one, mut two) = (image(N), image(N));
        assert_eq!(replay(&mut one, N, &log, 7, &SEED, &HASHES), Ok(Replayed::Applied));
        assert_eq!(replay_tolerant(&mut two, N, &log, 7, &SEED, &HASHES), Ok(Replayed::Applied));
        assert!(one == two && one[..N] == [if log.len() == PAGE { 0 } else { TOMBSTONE }, 0x80, 0, TOMBSTONE]);
    }
}

#[test]
fn the_reader_answers_27_in_place_of_the_end() {
    for (mut log, edition, end, over) in logs() {
        let good = log.clone();
        let (entries, _) = read(Reader::new(&good).expect("a log"), end);
        for at in over..good.len() {
            // Any bit of it.
            log[at] = 1 << (at % 8);
            let (_, mut reader) = read(Reader::new(&log).expect("a log"), end);
            for _ in 0..2 {
                assert_eq!((reader.read_entry(), reader.peek()), (Err(AfterEndUsed), Err(AfterEndUsed)), "byte {at}");
                assert_eq!((reader.see_entry(), reader.position()), (Err(AfterEndUsed), end), "byte {at}");
            }
            for _ in 0..2 {
                let mut reader = reader.clone().tolerant();
                assert_eq!((reader.read_entry(), reader.peek()), (Ok(Entry::End), Ok(Entry::End)), "byte {at}");
                assert_eq!((reader.see_entry(), reader.position()), (Ok(EntryRef::End), end), "byte {at}");
            }
            assert_eq!(read_entry(&log, end, edition), Err(AfterEndUsed));
            assert_eq!(read_head(&log, end, edition), Err(AfterEndUsed));
            assert_eq!(see_entry(&log, end, edition), Err(AfterEndUsed));
            assert_eq!(read_entry_tolerant(&log, end, edition), Ok((Entry::End, end)));
            assert_eq!(read_head_tolerant(&log, end, edition), Ok(Head::End));
            assert_eq!(see_entry_tolerant(&log, end, edition), Ok((EntryRef::End, end)));
            log[at] = 0;
        }
        // As an iterator: the entries, then the refusal, once; the tolerant one gives the entries alone.
        let log = changed(&good, good.len() - 1, 1);
        let lent: Vec<_> = Reader::new(&log).expect("a log").entries().collect();
        assert!(lent.iter().copied().eq(entries.iter().copied().map(Ok).chain([Err(AfterEndUsed)])));
        let mut reader = Reader::new(&log).expect("a log");
        assert_eq!(reader.by_ref().last(), Some(Err(AfterEndUsed)));
        assert_eq!(reader.next(), None);
        assert_eq!(Reader::new(&log).expect("a log").count(), entries.len() + 1);
        let tolerant = || Reader::new(&log).expect("a log").tolerant();
        assert!(tolerant().entries().eq(entries.iter().copied().map(Ok)));
        assert_eq!(tolerant().filter(Result::is_ok).count(), entries.len());
        assert_eq!(tolerant().count(), entries.len());
        assert_eq!((tolerant().start(), tolerant().position()), (start(edition, 7), sizes(edition).1));
    }
}

#[test]
fn a_replay_refuses_with_27_and_leaves_every_byte() {
    for (mut log, edition, end, over) in logs() {
        let (mut table, after) = (image(N), after(&log));
        for at in over..log.len() {
            log[at] = 1 << (at % 8);
            assert_eq!(leaves(&mut table, |i| replayed(i, &log, &HASHES)), Err(AfterEndUsed), "byte {at}");
            let stepped = leaves(&mut table, |i| replay_step(i, N, &log, edition, end, 0));
            assert_eq!(stepped, Err(AfterEndUsed), "byte {at}");
            let stepped = leaves(&mut table, |i| replay_step_tolerant(i, N, &log, edition, end, 0));
            assert_eq!(stepped, Ok(Stepped::End), "byte {at}");
            log[at] = 0;
        }
        // What is refused for its tail is the same log: tolerant replay leaves the image that its own leaves.
        for at in (over..log.len()).step_by(61).chain([over, log.len() - 1]) {
            let log = changed(&log, at, 0xFF);
            let mut table = image(N);
            assert_eq!(replay_tolerant(&mut table, N, &log, 7, &SEED, &HASHES), Ok(Replayed::Applied), "byte {at}");
            assert!(table == after, "byte {at}");
        }
        assert_eq!(replayed(&mut table, &log, &HASHES), Ok(Replayed::Applied));
    }
}

/// A step before the end does not look at what follows it.
#[test]
fn steps_before_the_end_are_made() {
    for (log, edition, end, over) in logs() {
        let (wanted, log) = (after(&log), changed(&log, over, 4));
        let (mut table, mut at) = (image(N), first_entry(&log));
        while at < end {
            at = match replay_step(&mut table, N, &log, edition, at, HASHES[0]) {
                Ok(Stepped::Cleared { next } | Stepped::Updated { next }) => next,
                other => panic!("at {at}: {other:?}"),
            };
        }
        assert!(table == wanted);
        assert_eq!(leaves(&mut table, |i| replay_step(i, N, &log, edition, at, 0)), Err(AfterEndUsed));
    }
}

#[test]
fn it_comes_after_stale_and_every_entry_s_refusal_and_before_the_hashes() {
    let mut table = image(N);
    for (good, edition, end, over) in logs() {
        let (mark, first) = sizes(edition);
        let used = changed(&good, over, 1);
        let mut order = |log: &[u8], hashes: &[u64], wanted| {
            assert_eq!(leaves(&mut table, |i| replayed(i, log, hashes)), wanted);
        };
        // Before it: length, start, the clear's bucket, the update's tag and diff, the end's tag.
        order(&used[..used.len() - 1], &HASHES, Err(LogNotPages));
        order(&changed(&used, mark - 1, 2), &HASHES, Err(NoStart));
        order(&changed(&used, first + mark, N as u8), &HASHES, Err(BucketOutside));
        let update = first + mark + 8;
        order(&changed(&used, update + mark - 1, 9), &HASHES, Err(TagUnknown));
        order(&changed(&used, update + mark + 47, 0x40), &HASHES, Err(DiffReserved));
        order(&changed(&used, end + mark - 1, 9), &HASHES, Err(TagUnknown));
        // After it: the count of hashes.
        for hashes in [&[][..], &HASHES, &[1, 2]] {
            order(&used, hashes, Err(AfterEndUsed));
        }
        order(&good, &[], Err(LengthUnfit));
        // And stale comes before it, and another store.
        assert_eq!(leaves(&mut table, |i| replay(i, N, &used, 8, &SEED, &HASHES)), Ok(Replayed::Stale));
        let other = leaves(&mut table, |i| replay(i, N, &used, 7, &[9; 16], &HASHES));
        assert_eq!(other, Err(if edition == Edition::One { AfterEndUsed } else { OtherStore }));
        assert_eq!(leaves(&mut table, |i| replay(i, N + 1, &used, 7, &SEED, &HASHES)), Err(TableUnfit));
        assert_eq!(leaves(&mut table, |i| replay_step(i, N + 1, &used, edition, end, 0)), Err(TableUnfit));

        // A tag that makes the end a clear which the log does not hold, the byte after it set: 6.
        let most = (PAGE - first - mark) / (mark + 8);
        let mut cut = clears(start(edition, 7), &vec![1; most]);
        let last = first + (mark + 8) * most;
        cut[last + mark - 1] = 3;
        cut[PAGE - 1] = 1;
        assert_eq!((cut.len(), last + mark < PAGE), (PAGE, true));
        assert_eq!(leaves(&mut table, |i| replayed(i, &cut, &[])), Err(LogCut));
        cut[last + mark - 1] = 2;
        assert_eq!(leaves(&mut table, |i| replayed(i, &cut, &[])), Err(AfterEndUsed));
        // The tolerant one has the same order without it.
        let tolerant = leaves(&mut table, |i| replay_tolerant(i, N, &used, 7, &SEED, &[]));
        assert_eq!(tolerant, Err(LengthUnfit));
        assert_eq!(leaves(&mut table, |i| replay_tolerant(i, N, &used, 8, &SEED, &[])), Ok(Replayed::Stale));
    }
}

/// An end that the log's last bytes are: nothing stands after it, in edition two its own two bytes do not.
#[test]
fn the_bytes_of_the_end_are_not_after_it() {
    for edition in EDITIONS {
        let mark = sizes(edition).0;
        let mut memory = vec![0; PAGE];
        let mut writer = Writer::Open(PAGE - mark, edition);
        assert_eq!(writer.finish(&mut memory), Ok(PAGE));
        assert_eq!(memory[PAGE - mark..], [0xB2, 2][2 - mark..]);
        assert_eq!(read_entry(&memory, PAGE - mark, edition), Ok((Entry::End, PAGE - mark)));
        assert_eq!(leaves(&mut image(N), |i| replay_step(i, N, &memory, edition, PAGE - mark, 0)), Ok(Stepped::End));
        // With anything before it, and with one byte more, which is after it.
        memory[..PAGE - mark].fill(0xEE);
        assert_eq!(read_head(&memory, PAGE - mark, edition), Ok(Head::End));
        for (byte, wanted) in [(0, Ok(Head::End)), (2, Err(AfterEndUsed)), (0xB2, Err(AfterEndUsed))] {
            let longer = [&memory[..], &[byte]].concat();
            assert_eq!(read_head(&longer, PAGE - mark, edition), wanted, "{byte:#x}");
        }
    }
}

/// The accident of the request: a log is written over a longer one in the same slice, and entries of the longer one stand
/// after its end. Lent whole it is refused; lent by the length that finish answered it is the log.
#[test]
fn a_log_written_over_a_longer_one() {
    for edition in EDITIONS {
        let mut memory = vec![0; 4 * PAGE];
        let mut written = |buckets: std::ops::Range<u64>| {
            let mut writer = Writer::Fresh;
            writer.begin(&mut memory, start(edition, 7)).expect("room");
            for bucket in buckets {
                writer.write_clear(&mut memory, bucket % N as u64).expect("room");
            }
            let length = writer.finish(&mut memory).expect("room");
            (memory.clone(), length)
        };
        let (_, longer) = written(0..1200);
        assert_eq!(longer, 3 * PAGE);
        let (slice, length) = written(1..3);
        assert_eq!(length, PAGE);
        assert!(slice[PAGE..longer].iter().any(|&b| b != 0), "the longer log's entries are there");

        let mut table = image(N);
        assert_eq!(leaves(&mut table, |i| replayed(i, &slice, &[])), Err(AfterEndUsed));
        assert_eq!(Reader::new(&slice).expect("a log").last(), Some(Err(AfterEndUsed)));
        // The tolerant calls do not notice; what they take is the shorter log, and nothing of the longer one.
        let mut tolerant = image(N);
        assert_eq!(replay_tolerant(&mut tolerant, N, &slice, 7, &SEED, &[]), Ok(Replayed::Applied));
        assert_eq!(replayed(&mut table, &slice[..length], &[]), Ok(Replayed::Applied));
        assert!(table == tolerant && table[..N] == [0, TOMBSTONE, TOMBSTONE, 0]);
        // A page more of it is refused, and so is any other part that reaches behind the log.
        for pages in 2..=longer / PAGE {
            assert_eq!(leaves(&mut table, |i| replayed(i, &slice[..pages * PAGE], &[])), Err(AfterEndUsed));
        }
    }
}
