//! Replay, whole and step by step, and stops on its way, of logs of both editions.

mod common;
use bitbox::*;
use common::*;
use Refusal::*;

const N: usize = 4;

/// A log of sync 7: an update of bucket 2, a clear of bucket 0, an update of bucket 2 again.
fn log(edition: Edition) -> Vec<u8> {
    let mut memory = vec![0; 2 * PAGE];
    let mut writer = LogWriter::begin(&mut memory, start(edition, 7)).expect("room");
    for (slots, with) in [(vec![0, 9], 1), (vec![9, 125], 50)] {
        let d = diff(&slots);
        let page = page(with, &id(4));
        let nodes = d.pack_changed_nodes(&page).expect("a page");
        writer.write_update(&Update { bucket: 2, id: id(4), diff: d, nodes, elided: [with; 8] }).expect("room");
        if with == 1 {
            writer.write_clear(0).expect("room");
        }
    }
    writer.finish().expect("room").to_vec()
}

const HASHES: [u64; 2] = [2, u64::MAX];

fn before() -> Vec<u8> {
    let mut image = image(N);
    put(&mut image, N, 0, 0, &page(9, &id(9)));
    put(&mut image, N, 2, 2, &page(30, &id(8)));
    image
}

fn after() -> Vec<u8> {
    let mut image = before();
    image[0] = TOMBSTONE;
    image[2] = 0xFF;
    let page = &mut image[3 * PAGE..4 * PAGE];
    page[..32].fill(1);
    page[9 * 32..10 * 32].fill(59);
    page[125 * 32..126 * 32].fill(50u8.wrapping_add(125));
    page[4056..4064].fill(50);
    page[4064..].copy_from_slice(&id(4));
    image
}

/// A replay for the store with the seed of these tests.
fn replayed(image: &mut [u8], n: usize, log: &[u8], sync_seqn: u32, hashes: &[u64]) -> Result<Replayed, Refusal> {
    replay(image, n, log, sync_seqn, &SEED, hashes)
}

#[test]
fn a_log_is_replayed() {
    for log in EDITIONS.map(log) {
        let mut image = before();
        assert_eq!(replayed(&mut image, N, &log, 7, &HASHES), Ok(Replayed::Applied));
        assert!(image == after());
        assert_eq!(replayed(&mut image, N, &log, 7, &HASHES), Ok(Replayed::Applied));
        assert!(image == after(), "a second time changes nothing");
    }
}

#[test]
fn nothing_and_stale_leave_the_image() {
    let mut image = before();
    assert_eq!(leaves(&mut image, |i| replayed(i, N, &[], 7, &[1])), Ok(Replayed::Nothing));
    for edition in EDITIONS {
        assert_eq!(leaves(&mut image, |i| replayed(i, N, &log(edition), 8, &[])), Ok(Replayed::Stale));
        let mut bad = log(edition);
        bad[sizes(edition).1] = 99;
        let stale = leaves(&mut image, |i| replayed(i, N, &bad, 8, &[]));
        assert_eq!(stale, Ok(Replayed::Stale), "later entries are not read");
        assert_eq!(replayed(&mut image, N, &clears(start(edition, 7), &[]), 7, &[]), Ok(Replayed::Applied));
    }
}

#[test]
fn a_replay_refused_leaves_the_image() {
    for edition in EDITIONS {
        refused(edition);
    }
}

fn refused(edition: Edition) {
    let mut i = before();
    let good = log(edition);
    let changed = |at: usize, byte: u8| {
        let mut log = good.clone();
        log[at] = byte;
        log
    };
    let ((mark, first), clears) = (sizes(edition), |buckets: &[u64]| clears(start(edition, 7), buckets));
    let second = first + mark + 64 + 64;
    assert_eq!(leaves(&mut i, |i| replayed(i, 0, &[1], 7, &[])), Err(TableUnfit));
    assert_eq!(leaves(&mut i, |i| replayed(i, N + 1, &good, 7, &HASHES)), Err(TableUnfit));
    assert_eq!(leaves(&mut i, |i| replayed(i, N, &good[1..], 7, &HASHES)), Err(LogNotPages));
    assert_eq!(leaves(&mut i, |i| replayed(i, N, &changed(0, 2), 7, &HASHES)), Err(NoStart));
    assert_eq!(leaves(&mut i, |i| replayed(i, N, &changed(second + mark - 1, 1), 7, &HASHES)), Err(TagUnknown));
    assert_eq!(leaves(&mut i, |i| replayed(i, N, &changed(first + mark + 47, 0x40), 7, &HASHES)), Err(DiffReserved));
    assert_eq!(leaves(&mut i, |i| replayed(i, N, &changed(second + mark, N as u8), 7, &HASHES)), Err(BucketOutside));
    assert_eq!(leaves(&mut i, |i| replayed(i, N, &clears(&[4095]), 7, &[])), Err(BucketOutside), "in the padding");
    for hashes in [&HASHES[..1], &[1, 2, 3], &[]] {
        assert_eq!(leaves(&mut i, |i| replayed(i, N, &good, 7, hashes)), Err(LengthUnfit));
    }
    // The end becomes a clear, which the log's last bytes do not hold.
    let most = (PAGE - first - mark) / (mark + 8);
    let mut cut = clears(&vec![1; most]);
    assert_eq!(cut.len(), PAGE);
    cut[first + (mark + 8) * most + mark - 1] = 3;
    assert_eq!(leaves(&mut i, |i| replayed(i, N, &cut, 7, &[])), Err(LogCut));
}

#[test]
fn steps_come_to_the_same_wherever_they_stop() {
    for (edition, stop) in EDITIONS.into_iter().flat_map(|edition| (0..=3).map(move |stop| (edition, stop))) {
        let (log, mark) = (log(edition), sizes(edition).0);
        let mut image = before();
        let mut at = first_entry(&log);
        let mut hashes = HASHES.iter();
        for _ in 0..stop {
            let is_update = log[at + mark - 1] == 4;
            let hash = if is_update { *hashes.next().expect("one for each update") } else { 0 };
            match replay_step(&mut image, N, &log, edition, at, hash) {
                Ok(Stepped::Updated { next }) if is_update => at = next,
                Ok(Stepped::Cleared { next }) if !is_update => at = next,
                other => panic!("at {at}: {other:?}"),
            }
        }
        if stop == 3 {
            assert!(image == after());
            assert_eq!(leaves(&mut image, |i| replay_step(i, N, &log, edition, at, 0)), Ok(Stepped::End));
        }
        assert_eq!(replayed(&mut image, N, &log, 7, &HASHES), Ok(Replayed::Applied));
        assert!(image == after(), "stopped after {stop} entries");
    }
}

#[test]
fn a_step_refuses() {
    let mut i = before();
    for edition in EDITIONS {
        let (log, (mark, first)) = (log(edition), sizes(edition));
        assert_eq!(leaves(&mut i, |i| replay_step(i, 0, &log, edition, first, 0)), Err(TableUnfit));
        assert_eq!(leaves(&mut i, |i| replay_step(i, N + 1, &log, edition, first, 0)), Err(TableUnfit));
        assert_eq!(leaves(&mut i, |i| replay_step(i, N, &log, edition, 0, 0)), Err(TagUnknown), "the start");
        assert_eq!(leaves(&mut i, |i| replay_step(i, N, &log, edition, PAGE, 0)), Err(LogCut));
        assert_eq!(leaves(&mut i, |i| replay_step(i, N, &log, edition, usize::MAX, 0)), Err(LogCut));
        let outside = clears(start(edition, 7), &[4]);
        assert_eq!(leaves(&mut i, |i| replay_step(i, N, &outside, edition, first, 0)), Err(BucketOutside));
        let mut bad = log.clone();
        bad[first + mark + 47] = 0x80;
        assert_eq!(leaves(&mut i, |i| replay_step(i, N, &bad, edition, first, 0)), Err(DiffReserved));
    }
    // An entry of one edition is none of the other.
    for (of, told) in [(Edition::One, Edition::Two), (Edition::Two, Edition::One)] {
        let (log, first) = (log(of), sizes(of).1);
        assert_eq!(leaves(&mut i, |i| replay_step(i, N, &log, told, first, 0)), Err(TagUnknown));
    }
}
