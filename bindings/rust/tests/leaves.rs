//! Diffs, tags, lengths and page numbers.

mod common;
use bitbox::*;
use common::*;
use Refusal::*;

#[test]
fn a_diff_s_marks() {
    let d = diff(&[0, 63, 64, 125]);
    assert_eq!(d.words(), [1 | 1 << 63, 1 | 1 << 61]);
    assert_eq!(Diff::from_words(d.words()), d);
    assert_eq!(d.count(), 4);
    for slot in 0..128 {
        assert_eq!(d.changed(slot), Ok([0, 63, 64, 125].contains(&slot)), "slot {slot}");
    }
    assert_eq!(format!("{:?}", diff(&[64, 1])), "Diff(0x10000000000000002)");
    assert_eq!(d.set_changed(126), Err(SlotUnfit));
    assert_eq!(d.set_changed(usize::MAX), Err(SlotUnfit));
    assert_eq!(d.changed(128), Err(SlotUnfit));
    assert_eq!(d.changed(1 << 32), Err(SlotUnfit));
}

#[test]
fn a_cleared_diff() {
    let d = diff(&[5]).set_cleared();
    assert_eq!((d.cleared(), d.count(), d.words()), (true, 2, [32, 1 << 63]));
    assert!(!diff(&[5]).cleared());
    // Setting a slot drops the mark of a cleared page; joining keeps it.
    assert_eq!(d.set_changed(6), Ok(diff(&[5, 6])));
    assert_eq!(diff(&[7]).join(d), diff(&[5, 7]).set_cleared());
    assert_eq!(diff(&[1, 2]).join(diff(&[2, 125])), diff(&[1, 2, 125]));
}

#[test]
fn a_diff_s_bytes() {
    let mut bytes = [0; 16];
    bytes[15] = 0x20;
    assert_eq!(Diff::from_bytes(&bytes), Ok(diff(&[125])));
    assert_eq!(diff(&[125]).as_bytes(), bytes);
    assert_eq!(diff(&[0, 9]).as_bytes()[..2], [1, 2]);
    for reserved in [0x40, 0x80, 0xC0, 0xFF] {
        bytes[15] = reserved;
        assert_eq!(Diff::from_bytes(&bytes), Err(DiffReserved), "{reserved:#x}");
        assert_eq!(Diff::from_words([0, u64::from(reserved) << 56]).as_bytes(), bytes);
    }
}

#[test]
fn nodes_are_packed_and_unpacked() {
    let from = page(1, &id(1));
    for slots in [vec![], vec![0], vec![125], vec![3, 64, 100], (0..126).collect()] {
        let d = diff(&slots);
        let packed = d.pack_changed_nodes(&from).expect("a page and a diff of slots");
        assert_eq!(packed.count(), slots.len());
        assert_eq!(packed.nodes().len(), slots.len());
        for (node, &slot) in packed.nodes().iter().zip(&slots) {
            assert_eq!(node[..], from[NODE * slot..NODE * (slot + 1)]);
        }
        assert!(packed.table()[slots.len()..].iter().all(|n| *n == [0; NODE]), "zero from the count on");
        let mut nodes = [[0xEE; NODE]; SLOTS];
        assert_eq!(d.pack_changed_nodes_into(&from, &mut nodes), Ok(slots.len()));
        assert!(nodes == *packed.table());

        let mut to = page(100, &id(2));
        let before = to.clone();
        assert_eq!(d.unpack_changed_nodes(&packed, &mut to), Ok(()));
        for slot in 0..SLOTS {
            let wanted = if slots.contains(&slot) { &from } else { &before };
            assert_eq!(to[NODE * slot..NODE * (slot + 1)], wanted[NODE * slot..NODE * (slot + 1)], "slot {slot}");
        }
        assert_eq!(to[NODE * SLOTS..], before[NODE * SLOTS..]);
    }
}

#[test]
fn packing_refuses() {
    let good = page(1, &id(1));
    for len in [0, 4032, 4095, 4097] {
        let mut other = vec![7; len];
        assert_eq!(diff(&[1]).pack_changed_nodes(&other), Err(LengthUnfit), "{len} bytes");
        // The page's length comes before the diff.
        assert_eq!(cleared().pack_changed_nodes(&other), Err(LengthUnfit));
        let packed = Packed::new(&[[1; NODE]]).expect("one node");
        assert_eq!(leaves(&mut other, |p| diff(&[1]).unpack_changed_nodes(&packed, p)), Err(LengthUnfit));
    }
    let mut page = good.clone();
    for reserved in [cleared(), Diff::from_words([0, 1 << 62]), Diff::from_words([1, 3 << 62])] {
        assert_eq!(reserved.pack_changed_nodes(&good), Err(DiffReserved));
        // The diff comes before the count.
        let packed = Packed::new(&[]).expect("no node");
        assert_eq!(leaves(&mut page, |p| reserved.unpack_changed_nodes(&packed, p)), Err(DiffReserved));
    }
    for count in [0, 1, 3, 126, 127, usize::MAX] {
        let packed = Packed::from_table([[9; NODE]; SLOTS], count);
        assert_eq!(leaves(&mut page, |p| diff(&[1, 2]).unpack_changed_nodes(&packed, p)), Err(LengthUnfit), "{count}");
    }
}

#[test]
fn packing_into_lent_memory_refuses() {
    let page = page(1, &id(1));
    let into = |d: Diff, page: &[u8], room: usize| {
        let mut nodes = vec![[0xEE; NODE]; room];
        let answer = d.pack_changed_nodes_into(page, &mut nodes);
        assert!(nodes.iter().all(|n| *n == [0xEE; NODE]), "a refused call leaves what it was lent");
        answer
    };
    for len in [0, 4032, 4095] {
        // The page's length comes before the diff, and this before the nodes.
        assert_eq!(into(cleared(), &page[..len], 0), Err(LengthUnfit), "{len} bytes");
        assert_eq!(into(diff(&[1]), &page[..len], SLOTS), Err(LengthUnfit), "{len} bytes");
    }
    assert_eq!(into(cleared(), &page, 0), Err(DiffReserved));
    assert_eq!(into(Diff::from_words([0, 1 << 62]), &page, SLOTS), Err(DiffReserved));
    for room in [0, 1, 125, 127] {
        assert_eq!(into(diff(&[1]), &page, room), Err(LengthUnfit), "room for {room}");
    }
}

#[test]
fn packed_nodes_by_hand() {
    let nodes = [[1; NODE], [2; NODE]];
    let packed = Packed::new(&nodes).expect("two nodes");
    assert_eq!((packed.nodes(), packed.count()), (&nodes[..], 2));
    let mut others = [[9; NODE]; SLOTS];
    others[..2].copy_from_slice(&nodes);
    assert_eq!(Packed::from_table(others, 2), packed, "what is beyond the count is ignored");
    assert_ne!(Packed::from_table(others, 3), packed);
    assert_eq!(Packed::new(&[[0; NODE]; 127]), Err(LengthUnfit));
    assert_eq!(Packed::new(&[[0; NODE]; SLOTS]).map(|p| p.count()), Ok(SLOTS));
    assert_eq!(Packed::from_table(others, usize::MAX).nodes().len(), SLOTS, "no more than there are");
}

#[test]
fn tags() {
    for (hash, tag) in [(0, 0x80), ((1 << 57) - 1, 0x80), (1 << 57, 0x81), (u64::MAX, 0xFF)] {
        assert_eq!(full_tag(hash), tag, "{hash:#x}");
        assert!(!hint_not_match(tag, hash));
        assert!(hint_not_match(tag ^ 1, hash));
    }
    for tag in 0..=255 {
        assert_eq!(hint_empty(tag), tag == EMPTY, "{tag:#x}");
        assert_eq!(hint_tombstone(tag), tag == TOMBSTONE, "{tag:#x}");
        assert_eq!(is_full(tag), tag >= 0x80, "{tag:#x}");
        assert_eq!(hint_not_match(tag, 0), tag != 0x80, "{tag:#x}");
    }
}

#[test]
fn tags_are_set_and_counted() {
    let n = 5000;
    let mut tags = vec![0; 2 * PAGE];
    assert_eq!(set_full(&mut tags, n, 4999, u64::MAX), Ok(()));
    assert_eq!(set_full(&mut tags, n, 0, 0), Ok(()));
    assert_eq!(set_tombstone(&mut tags, n, 7), Ok(()));
    assert_eq!((tags[4999], tags[0], tags[7]), (0xFF, 0x80, TOMBSTONE));
    assert_eq!(tags.iter().filter(|&&t| t != 0).count(), 3);
    tags[1] = 0x7E;
    assert_eq!(full_count(&tags, n), Ok(2));
    assert_eq!(padding_is_empty(&tags, n), Ok(true));
    tags[5000] = 0x80;
    assert_eq!(padding_is_empty(&tags, n), Ok(false));
    assert_eq!(full_count(&tags, n), Ok(2), "the padding is not counted");
}

#[test]
fn tags_refuse() {
    let mut tags = vec![0; PAGE];
    for (n, len) in
        [(0, 0), (0, PAGE), (4097, PAGE), (1, 2 * PAGE), (1, PAGE - 1), (MOST_BUCKETS + 1, PAGE), (usize::MAX, PAGE)]
    {
        let mut tags = vec![0; len];
        assert_eq!(leaves(&mut tags, |t| set_full(t, n, 0, 0)), Err(TableUnfit), "n {n}, {len} bytes");
        assert_eq!(leaves(&mut tags, |t| set_tombstone(t, n, 0)), Err(TableUnfit));
        assert_eq!(full_count(&tags, n), Err(TableUnfit));
        assert_eq!(padding_is_empty(&tags, n), Err(TableUnfit));
    }
    for bucket in [8, 4096, u64::MAX] {
        assert_eq!(leaves(&mut tags, |t| set_full(t, 8, bucket, 0)), Err(BucketOutside), "{bucket}");
        assert_eq!(leaves(&mut tags, |t| set_tombstone(t, 8, bucket)), Err(BucketOutside), "{bucket}");
    }
}

#[test]
fn places() {
    for (n, pages) in [(1, 1), (4096, 1), (4097, 2), (8192, 2), (MOST_BUCKETS, 256)] {
        assert_eq!(tag_pages(n), Ok(pages));
        assert_eq!(table_length(n), Ok(4096 * (pages + n as u64)));
        assert_eq!(page_number(n, 0), Ok(pages));
        assert_eq!(page_number(n, n as u64 - 1), Ok(pages + n as u64 - 1));
        assert_eq!(page_number(n, n as u64), Err(BucketOutside));
        assert_eq!(page_number(n, u64::MAX), Err(BucketOutside));
    }
    for n in [0, MOST_BUCKETS + 1, 1 << 32, (1 << 32) + 1, usize::MAX] {
        assert_eq!(tag_pages(n), Err(TableUnfit));
        assert_eq!(table_length(n), Err(TableUnfit));
        // The count comes before the bucket.
        assert_eq!(page_number(n, u64::MAX), Err(TableUnfit));
    }
    for (bucket, at) in [(0, 0), (4095, 0), (4096, 1), (u64::MAX, u64::MAX / 4096)] {
        assert_eq!(tag_page(bucket), at);
    }
}
