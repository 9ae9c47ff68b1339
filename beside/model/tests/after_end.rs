//! What follows end, by hand: where 27 stands, and how far it looks. Document 02, W-208.

use model::{
    after_end::AfterEnd::{self, Tolerant, Zeros},
    edition::{Edition, Seed, Start},
    list::list,
    reader::{self, Entry},
    replay::{replay, step, Replayed, Stepped},
    writer::{self, Writer},
    Answer, Refused,
};

const SEED: Seed = [0xA5; 16];
const STARTS: [Start; 2] = [Start { sync: 7, seed: None }, Start { sync: 7, seed: Some(SEED) }];

/// Start, a clear of a bucket, end, and zeros up to so many pages; where end stands.
fn log(start: Start, bucket: u64, pages: usize) -> (Vec<u8>, usize) {
    let mut log = vec![0; 4096 * pages];
    let w = writer::begin(&mut log, start).unwrap();
    let w = writer::clear(&mut log, w, bucket).unwrap();
    let Writer::Open(_, end) = w else { panic!("it is open") };
    writer::finish(&mut log, w).unwrap();
    (log, end as usize)
}

fn with(log: &[u8], at: usize, byte: u8) -> Vec<u8> {
    let mut other = log.to_vec();
    other[at] = byte;
    other
}

/// A replay on a table of four buckets: what is answered, and the tags.
fn replayed(log: &[u8], sync: u32, hashes: &[u64], after: AfterEnd) -> (Answer<Replayed>, [u8; 4]) {
    let mut image = vec![0; 4096 * 5];
    let said = replay(&mut image, 4, log, sync, &SEED, hashes, after);
    (said, image[..4].try_into().unwrap())
}

#[test]
fn each_byte_after_end() {
    for start in STARTS {
        for pages in [1, 3] {
            let (log, end) = log(start, 3, pages);
            let (edition, end) = (start.edition(), end as u64);
            let next = |log: &[u8], after| reader::next(log, edition, end, after);
            assert_eq!(next(&log, Zeros), Ok((Entry::End, end)));
            for at in (end + edition.width()) as usize..log.len() {
                let used = with(&log, at, 1);
                assert_eq!(next(&used, Zeros), Err(Refused(27)));
                assert_eq!(next(&used, Tolerant), Ok((Entry::End, end)));
                // A log that ends before that byte.
                assert_eq!(next(&used[..at], Zeros), Ok((Entry::End, end)));
            }
        }
    }
}

#[test]
fn nothing_after_end() {
    for (edition, end) in [(Edition::One, &[2][..]), (Edition::Two, &[0xB2, 2])] {
        assert_eq!(reader::next(end, edition, 0, Zeros), Ok((Entry::End, 0)));
        let used = [end, &[1]].concat();
        assert_eq!(reader::next(&used, edition, 0, Zeros), Err(Refused(27)));
    }
}

#[test]
fn in_replay() {
    for start in STARTS {
        let (log, end) = log(start, 3, 2);
        let after = end + start.edition().width() as usize;
        let applied = (Ok(Replayed::Applied), [0, 0, 0, 0x7F]);
        let refused = |number| (Err(Refused(number)), [0; 4]);
        assert_eq!(replayed(&log, 7, &[], Zeros), applied);
        for at in [after, 4095, 4096, 8191] {
            let used = with(&log, at, 1);
            assert_eq!(replayed(&used, 7, &[], Tolerant), applied);
            assert_eq!(replayed(&used, 7, &[], Zeros), refused(27));
            // Before the hash count, after stale.
            assert_eq!(replayed(&used, 7, &[0], Zeros), refused(27));
            assert_eq!(replayed(&used, 7, &[0], Tolerant), refused(2));
            assert_eq!(replayed(&used, 8, &[0], Zeros), (Ok(Replayed::Stale), [0; 4]));
        }
        // After an entry's refusal: of the bucket, of the mark.
        let used = with(&log, 8191, 1);
        assert_eq!(replayed(&with(&used, end - 8, 4), 7, &[], Zeros), refused(9));
        assert_eq!(replayed(&with(&used, end - 9, 5), 7, &[], Zeros), refused(8));
        assert_eq!(replayed(&with(&used, end, 5), 7, &[], Zeros), refused(8));
        // A log that was written over a longer one, lent whole and as long as finish says.
        assert_eq!(replayed(&used[..4096], 7, &[], Zeros), applied);
    }
}

#[test]
fn a_step_at_end() {
    for start in STARTS {
        let (log, end) = log(start, 3, 1);
        let mut image = vec![0; 4096 * 5];
        let mut at_end = |log: &[u8], after| step(&mut image, 4, log, start.edition(), end as u64, 0, after);
        let used = with(&log, 4095, 1);
        assert_eq!(at_end(&log, Zeros), Ok(Stepped::End));
        assert_eq!(at_end(&used, Zeros), Err(Refused(27)));
        assert_eq!(at_end(&used, Tolerant), Ok(Stepped::End));
    }
}

#[test]
fn list_is_tolerant() {
    for start in STARTS {
        let (log, _) = log(start, 3, 1);
        assert_eq!(list(&with(&log, 4095, 1)), list(&log));
    }
}
