//! 02, W-203: a clear wants the full tag of the page's own hash.

use model::{
    after_end::AfterEnd,
    diff::Diff,
    edition::{Edition, Start},
    replay::*,
    sync::{step, Change, Lent, Place, State, Step},
    tags::full_tag,
    writer::{self, Writer},
    Answer, Refused,
};

/// A step that clears bucket 0 of one, with this tag, by a page of this hash, the writer standing there in 4,096 bytes
/// of log; and what it leaves of the tag.
fn cleared(tag: u8, hash: u64, at: u64) -> (Answer<Step>, u8) {
    let (mut tags, mut marks, mut log) = (vec![0; 4096], vec![0], vec![0; 4096]);
    tags[0] = tag;
    let mut lent = Lent { n: 1, tags: &mut tags, cells: &mut [], marks: &mut marks, log: &mut log };
    let change = Change { id: [0; 32], hash, diff: Diff(1 << 127), place: Place::Known(0) };
    let state = State { writer: Writer::Open(Edition::One, at), occupied: 1 };
    (step(&mut lent, state, &change, &[0; 4096]).map(|(step, _)| step), tags[0])
}

#[test]
fn its_own_tag_alone() {
    for hash in [0, 1 << 57, u64::MAX] {
        for tag in 0..=255 {
            let own = tag == full_tag(hash);
            let wanted = if own { (Ok(Step { bucket: 0, page: 1 }), 0x7F) } else { (Err(Refused(14)), tag) };
            assert_eq!(cleared(tag, hash, 5), wanted);
        }
    }
}

/// "In 14's present place": before 13.
#[test]
fn before_the_room() {
    assert_eq!(cleared(0x80, 0, 4087), (Err(Refused(13)), 0x80));
    assert_eq!(cleared(0x81, 0, 4087), (Err(Refused(14)), 0x81));
}

/// "Replay of clears stays, since a logged clear has no id."
#[test]
fn a_replay_takes_any() {
    let mut log = vec![0; 4096];
    let w = writer::begin(&mut log, Start::one(7)).unwrap();
    let w = writer::clear(&mut log, w, 0).unwrap();
    writer::finish(&mut log, w).unwrap();
    for tag in 0..=255 {
        let mut image = vec![0; 8192];
        image[0] = tag;
        assert_eq!(replay(&mut image, 1, &log, 7, &[9; 16], &[], AfterEnd::Zeros), Ok(Replayed::Applied));
        assert_eq!(image[0], 0x7F);
    }
}
