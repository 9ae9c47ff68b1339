//! Probing, lookup, allocation.

mod common;
use bitbox::*;
use common::*;
use Refusal::*;

fn tags(first: &[u8]) -> Vec<u8> {
    let mut tags = vec![0; PAGE];
    tags[..first.len()].copy_from_slice(first);
    tags
}

#[test]
fn the_path_of_a_hash() {
    // An empty table stops at each visit.
    let along = |n, hash, visits| -> Vec<u64> {
        (0..visits)
            .map(|k| match probe(&tags(&[]), n, hash, k) {
                Ok(Probed::Empty { bucket, visit }) if visit == k => bucket,
                other => panic!("visit {k}: {other:?}"),
            })
            .collect()
    };
    assert_eq!(along(8, 8, 8), [0, 1, 3, 6, 2, 7, 5, 4]);
    assert_eq!(along(5, 5, 5), [0, 1, 3, 1, 0]);
    assert_eq!(along(3, u64::MAX, 3), [0, 1, 0]);
}

#[test]
fn probing() {
    let t = tags(&[0x80, 0x01, 0x7F, 0x81]);
    assert_eq!(probe(&t, 4, 0, 0), Ok(Probed::Hit { bucket: 0, visit: 0 }));
    assert_eq!(probe(&t, 4, 0, 1), Ok(Probed::Tombstone { bucket: 2, visit: 3 }));
    assert_eq!(probe(&t, 4, 0, 8), Ok(Probed::Hit { bucket: 0, visit: 0 }), "visits are taken mod 2n");
    assert_eq!(probe(&tags(&[0x80, 0]), 2, 0, 1), Ok(Probed::Empty { bucket: 1, visit: 1 }));
    assert_eq!(probe(&tags(&[0x81, 0x01]), 2, 0, 0), Ok(Probed::Closed));
    assert_eq!(probe(&t, 0, 0, 0), Err(TableUnfit));
    assert_eq!(probe(&t, 4097, 0, 0), Err(TableUnfit));
    assert_eq!(probe(&t[1..], 4, 0, 0), Err(TableUnfit));
}

#[test]
fn lookup_finds_what_stands_there() {
    let n = 4;
    let mut image = image(n);
    put(&mut image, n, 0, 0, &page(1, &id(1)));
    put(&mut image, n, 1, 4, &page(2, &id(2)));
    assert_eq!(lookup(&image, n, 0, &id(1)), Ok(Found::At(0)));
    assert_eq!(lookup(&image, n, 4, &id(2)), Ok(Found::At(1)), "past a hit of another page");
    assert_eq!(lookup(&image, n, 0, &id(3)), Ok(Found::Absent));
    assert_eq!(Found::At(1).bucket(), Some(1));
    assert_eq!((Found::Absent.bucket(), Found::Closed.bucket()), (None, None));
    set_tombstone(&mut image[..PAGE], n, 0).expect("bucket 0");
    assert_eq!(lookup(&image, n, 0, &id(1)), Ok(Found::Absent), "a tombstone is no hit");
    image[..4].fill(TOMBSTONE);
    assert_eq!(lookup(&image, n, 0, &id(1)), Ok(Found::Closed));
    assert_eq!(lookup(&image[..image.len() - 1], n, 0, &id(1)), Err(TableUnfit));
    assert_eq!(lookup(&image, 3, 0, &id(1)), Err(TableUnfit));
    assert_eq!(lookup(&[], 0, 0, &id(1)), Err(TableUnfit));
}

#[test]
fn allocation() {
    let mut t = tags(&[0x81, 0x7F, 0x00]);
    assert_eq!(allocate(&mut t, 3, 0), Ok(1));
    assert_eq!(t, tags(&[0x81, 0x80, 0x00]));
    // Bucket 2 is off the path of hash 0.
    assert_eq!(leaves(&mut t, |t| allocate(t, 3, 0)), Err(PathCrowded));
    assert_eq!(leaves(&mut tags(&[0x81, 0x81, 0x00]), |t| allocate(t, 3, 0)), Err(PathClosed));
    assert_eq!(leaves(&mut tags(&[0x80, 0x81, 0x00]), |t| allocate(t, 3, 0)), Err(PathCrowded));
    assert_eq!(leaves(&mut t, |t| allocate(t, 0, 0)), Err(TableUnfit));
    assert_eq!(leaves(&mut t, |t| allocate(t, 5000, 0)), Err(TableUnfit));
}

#[test]
fn allocation_gives_up_after_9998_hits() {
    let n = 16_384;
    let mut tags = vec![0; tags_of(n)];
    for hits in 1..=9_998u64 {
        let bucket = allocate(&mut tags, n, 0).expect("a free visit");
        assert!(bucket < n as u64 && full_count(&tags, n) == Ok(hits));
    }
    assert!(allocate(&mut tags, n, 0).is_ok(), "9,998 hits and then an empty visit");
    assert_eq!(leaves(&mut tags, |t| allocate(t, n, 0)), Err(PathCrowded), "9,999 hits");
}
