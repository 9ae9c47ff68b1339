//! 01's "Checked by hand".

use model::{
    after_end::AfterEnd, diff::*, edition::Start, growth::*, path::*, reader, replay::*, tags::*, writer,
    writer::Writer, Refused,
};

fn tags(first: &[u8]) -> Vec<u8> {
    let mut tags = vec![0; 4096];
    tags[..first.len()].copy_from_slice(first);
    tags
}

#[test]
fn diffs() {
    let of = |last| {
        let mut bytes = [0; 16];
        bytes[15] = last;
        read(bytes)
    };
    let d = of(0x20).unwrap();
    assert_eq!((d.slots(), d.count()), (vec![125], 1));
    assert_eq!((of(0x40), of(0x80)), (Err(Refused(4)), Err(Refused(4))));
}

#[test]
fn full_tags() {
    let seen = [0, (1 << 57) - 1, 1 << 57, u64::MAX].map(full_tag);
    assert_eq!(seen, [0x80, 0x80, 0x81, 0xFF]);
}

#[test]
fn paths() {
    let path = |n, hash, count| (0..count).map(|k| visit(n, hash, k)).collect::<Vec<_>>();
    assert_eq!(path(8, 8, 8), [0, 1, 3, 6, 2, 7, 5, 4]);
    assert_eq!(path(5, 5, 5), [0, 1, 3, 1, 0]);
    assert_eq!(path(2, 0, 4)[1..], [1, 1, 0]);
}

#[test]
fn allocation() {
    let three = |first| allocate(&mut tags(first), 3, 0);
    assert_eq!(three(&[0x81, 0x81, 0]), Err(Refused(11)));
    assert_eq!(three(&[0x80, 0x81, 0]), Err(Refused(10)));
    assert_eq!(three(&[0x81, 0x7F, 0]), Ok(1));
}

#[test]
fn the_limit_of_hits() {
    let n = 16_384;
    let full_but_visit = |k| {
        let mut tags = vec![0x80; n as usize];
        tags[visit(n, 0, k) as usize] = 0;
        allocate(&mut tags, n, 0)
    };
    assert_eq!(full_but_visit(9_998), Ok(visit(n, 0, 9_998)));
    assert_eq!(full_but_visit(9_999), Err(Refused(10)));
}

#[test]
fn markers() {
    assert_eq!(write_marker(4, 8).unwrap(), *b"NOMTRH1\0\x04\0\0\0\x08\0\0\0");
    assert_eq!(write_marker(8, 8), Err(Refused(17)));
}

#[test]
fn clears_that_fit() {
    let mut log = vec![0; 4096];
    let mut w = writer::begin(&mut log, Start::one(7)).unwrap();
    for b in 0..454 {
        w = writer::clear(&mut log, w, b).unwrap();
    }
    assert_eq!(writer::clear(&mut log, w, 454), Err(Refused(13)));
    assert_eq!(writer::finish(&mut log, w), Ok((4096, Writer::Finished(4096))));
    assert_eq!(reader::set(&log), Ok(Start::one(7)));
}

#[test]
fn one_clear_replayed() {
    let mut log = vec![0; 4096];
    let w = writer::begin(&mut log, Start::one(7)).unwrap();
    let w = writer::clear(&mut log, w, 0).unwrap();
    writer::finish(&mut log, w).unwrap();
    let mut image = vec![0; 8192];
    assert_eq!(replay(&mut image, 1, &log, 8, &[9; 16], &[], AfterEnd::Zeros), Ok(Replayed::Stale));
    assert_eq!(image[0], 0);
    assert_eq!(replay(&mut image, 1, &log, 7, &[9; 16], &[], AfterEnd::Zeros), Ok(Replayed::Applied));
    assert_eq!(image[0], 0x7F);
}

#[test]
fn listed() {
    let mut log = vec![0; 4096];
    let d = Diff(0b101);
    let w = writer::begin(&mut log, Start::one(7)).unwrap();
    let w = writer::clear(&mut log, w, 3).unwrap();
    let packed = pack(d, &[0; 4096]).unwrap();
    let w = writer::update(&mut log, w, &[0; 32], d, &packed, &[0; 8], 9).unwrap();
    writer::finish(&mut log, w).unwrap();
    assert_eq!(model::list::list(&log), "0 start 7\n5 clear 3\n14 update 9 2\n143 end\n");
    assert_eq!(model::list::list(&[]), "empty\n");
}
