//! Markers, what is pending of a growth, growth, and the audit.

mod common;
use bitbox::*;
use common::*;
use Refusal::*;

#[test]
fn markers() {
    let bytes = *b"NOMTRH1\0\x04\0\0\0\x08\0\0\0";
    let marker = Marker { old: 4, new: 8 };
    assert_eq!(write_marker(marker), Ok(bytes));
    assert_eq!(read_marker(&bytes), Ok(marker));
    for (old, new) in [(0, 1), (u32::MAX - 1, u32::MAX), (0x0102_0304, 0x0403_0201)] {
        let marker = Marker { old, new };
        assert_eq!(write_marker(marker).and_then(|b| read_marker(&b)), Ok(marker));
    }
    for (old, new) in [(8, 8), (9, 8), (0, 0), (u32::MAX, 0)] {
        assert_eq!(write_marker(Marker { old, new }), Err(MarkerOrder));
    }
    assert_eq!(read_marker(&bytes[..15]), Err(MarkerLength));
    assert_eq!(read_marker(&[bytes.as_slice(), &[0]].concat()), Err(MarkerLength));
    assert_eq!(read_marker(&[]), Err(MarkerLength));
    let changed = |at: usize, byte: u8| {
        let mut b = bytes;
        b[at] = byte;
        b
    };
    assert_eq!(read_marker(&changed(7, 1)), Err(MarkerMagic));
    assert_eq!(read_marker(&changed(0, b'n')), Err(MarkerMagic));
    assert_eq!(read_marker(&changed(12, 4)), Err(MarkerOrder));
}

#[test]
fn pending_growth() {
    let length = |n: usize| if n == 0 { 0 } else { table_length(n).expect("a count") };
    for (old, new) in [(4, 8), (0, 1), (4096, 4097)] {
        let (from, to) = (old as u64, new as u64);
        assert_eq!(pending(from, to, to, length(new)), Ok(Pending::Tidy));
        assert_eq!(pending(from, to, from, length(new)), Ok(Pending::UpdateMetaThenTidy));
        assert_eq!(pending(from, to, from, length(old)), Ok(Pending::Tidy));
        assert_eq!(pending(from, to, to, length(old)), Err(NothingPending));
        assert_eq!(pending(from, to, to, length(new) + 1), Err(NothingPending));
        assert_eq!(pending(from, to, to + 1, length(new)), Err(NothingPending));
        assert_eq!(pending(to, from, to, length(new)), Err(MarkerOrder));
        assert_eq!(pending(to, to, to, length(new)), Err(MarkerOrder));
    }
    let above = MOST_BUCKETS as u64 + 1;
    for (old, new, meta) in [(4, above, 4), (above, 4, 4), (4, 8, above), (8, 8, u64::MAX)] {
        assert_eq!(pending(old, new, meta, 0), Err(TableUnfit));
    }
}

/// A table of 4 buckets with pages of hashes 0, 4 and 3, a tombstone, and their hashes.
fn table() -> (Vec<u8>, Vec<u64>) {
    let mut i = image(4);
    put(&mut i, 4, 0, 0, &page(1, &id(1)));
    put(&mut i, 4, 1, 4, &page(2, &id(2)));
    put(&mut i, 4, 3, 3, &page(3, &id(3)));
    set_tombstone(&mut i[..PAGE], 4, 2).expect("bucket 2");
    (i, vec![0, 4, 77, 3])
}

#[test]
fn growth() {
    let (old, hashes) = table();
    let mut new = vec![0xEE; image(8).len()];
    assert_eq!(grow(&old, 4, &mut new, 8, &hashes), Ok(Grown::Done));
    let mut wanted = image(8);
    put(&mut wanted, 8, 0, 0, &page(1, &id(1)));
    put(&mut wanted, 8, 4, 4, &page(2, &id(2)));
    put(&mut wanted, 8, 3, 3, &page(3, &id(3)));
    assert!(new == wanted);
    for (hash, k, bucket) in [(0, 1, 0), (4, 2, 4), (3, 3, 3)] {
        assert_eq!(lookup(&new, 8, hash, &id(k)), Ok(Found::At(bucket)));
    }
    assert_eq!(leaves(&mut new, |new| grow(&[], 8, new, 8, &[])), Ok(Grown::NothingToDo));
}

#[test]
fn growth_refuses() {
    let (old, hashes) = table();
    let mut new = vec![0xEE; image(8).len()];
    for (from, to) in [(0, 8), (4, MOST_BUCKETS + 1), (0, 0), (4, 0), ((1 << 32) + 4, (1 << 32) + 8)] {
        assert_eq!(leaves(&mut new, |new| grow(&old, from, new, to, &hashes)), Err(TableUnfit));
    }
    assert_eq!(leaves(&mut new, |new| grow(&[], 8, new, 4, &[])), Err(WouldShrink));
    assert_eq!(leaves(&mut new, |new| grow(&old[1..], 4, new, 8, &hashes)), Err(LengthUnfit));
    assert_eq!(leaves(&mut new, |new| grow(&old, 4, new, 9, &hashes)), Err(LengthUnfit));
    assert_eq!(leaves(&mut new, |new| grow(&old, 4, new, 8, &hashes[1..])), Err(LengthUnfit));
    // In a table of 5 the path of hash 0 comes to three buckets.
    let mut old = image(4);
    for b in 0..4 {
        put(&mut old, 4, b, 0, &page(b as u8, &id(b as u8)));
    }
    for (hashes, why) in [([0; 4], PathCrowded), ([0, 0, 0, 5 << 57], PathClosed)] {
        let mut new = vec![0xEE; image(5).len()];
        assert_eq!(grow(&old, 4, &mut new, 5, &hashes), Err(why));
        assert!(new.iter().all(|&b| b == 0), "all zero");
    }
}

#[test]
fn the_audit_passes() {
    let (i, hashes) = table();
    assert_eq!(audit(&i, 4, &hashes), Ok(Audit { capacity: 4, occupied: 3, rate: 0.75 }));
    assert_eq!(audit(&image(3), 3, &[1; 3]), Ok(Audit { capacity: 3, occupied: 0, rate: 0.0 }));
}

#[test]
fn the_audit_refuses() {
    let (i, hashes) = table();
    assert_eq!(audit(&[], 0, &[]), Err(TableUnfit));
    assert_eq!(audit(&i, 5, &[0; 5]), Err(TableUnfit));
    assert_eq!(audit(&i[1..], 4, &hashes), Err(TableUnfit));
    assert_eq!(audit(&i, 4, &hashes[1..]), Err(LengthUnfit));
    let with = |change: fn(&mut Vec<u8>)| {
        let mut i = i.clone();
        change(&mut i);
        audit(&i, 4, &hashes)
    };
    assert_eq!(with(|i| i[4] = 1), Err(PaddingUsed));
    assert_eq!(with(|i| i[4095] = 0x80), Err(PaddingUsed));
    assert_eq!(with(|i| i.copy_within(2 * PAGE - 32..2 * PAGE, 3 * PAGE - 32)), Err(LabelTwice));
    assert_eq!(with(|i| i[3] = 0x81), Err(TagWrong));
    assert_eq!(with(|i| i[0] = EMPTY), Err(EmptyFirst));
    // In a table of 5 the path of hash 0 never comes to bucket 2.
    let mut i = image(5);
    put(&mut i, 5, 2, 0, &page(1, &id(1)));
    i[..5].iter_mut().filter(|t| **t == 0).for_each(|t| *t = TOMBSTONE);
    assert_eq!(audit(&i, 5, &[0; 5]), Err(NotReached));
}

/// A table of 4,096 buckets, which has no padding, grows by one bucket and one tag page: the full buckets are
/// carried over by their hashes, tombstones and other tags are not.
#[test]
fn growth_and_audit_across_a_tag_page() {
    let (n, new_n) = (4096, 4097);
    let mut old = image(n);
    let mut hashes = vec![0; n];
    for k in 0..40u8 {
        let bucket = 100 * u64::from(k);
        let hash = u64::from(k) << 57 | bucket;
        put(&mut old, n, bucket, hash, &page(k, &id(k)));
        hashes[bucket as usize] = hash;
    }
    assert_eq!(audit(&old, n, &hashes).map(|a| (a.capacity, a.occupied)), Ok((4096, 40)));
    old[50] = TOMBSTONE;
    old[4095] = 1;
    let mut new = vec![0xFF; image(new_n).len()];
    assert_eq!(grow(&old, n, &mut new, new_n, &hashes), Ok(Grown::Done));
    assert_eq!(full_count(&new[..tags_of(new_n)], new_n), Ok(40));
    let mut expected = image(new_n);
    let mut new_hashes = vec![0; new_n];
    for k in 0..40u8 {
        let hash = hashes[100 * usize::from(k)];
        let bucket = hash % new_n as u64;
        assert_eq!(lookup(&new, new_n, hash, &id(k)), Ok(Found::At(bucket)));
        put(&mut expected, new_n, bucket, hash, &page(k, &id(k)));
        new_hashes[bucket as usize] = hash;
    }
    assert!(new == expected, "every byte of the new image");
    assert_eq!(audit(&new, new_n, &new_hashes).map(|a| a.occupied), Ok(40));
    // A byte after the tags of 4,097 buckets is padding; 4,096 buckets have none.
    new[4097] = 1;
    assert_eq!(audit(&new, new_n, &new_hashes), Err(PaddingUsed));
    old[4095] = 0x80;
    assert_eq!(audit(&old, n, &hashes), Err(EmptyFirst));
}
