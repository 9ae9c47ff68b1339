//! What a service does around a sync: it asks for buckets, and tries again after a refusal.

mod common;
use bitbox::*;
use common::*;
use Refusal::*;

const N: usize = 8;

/// A sync number 3 of these changes, all of whose pages are zeros; and its log.
fn synced(tags: &mut [u8], cells: &mut [u64], changes: &[Change]) -> Result<Vec<u8>, SyncRefused> {
    let (mut marks, mut log) = ([0; 1], vec![0; 4 * PAGE]);
    let mut lent = Lent { n: N, tags, marks: &mut marks, cells, log: &mut log };
    let synced = sync(&mut lent, &mut Writer::Fresh, Start::two(3, SEED), changes, &vec![0; PAGE * changes.len()])?;
    log.truncate(synced.length);
    Ok(log)
}

fn buckets(log: &[u8]) -> Vec<Option<u64>> {
    Reader::new(log).expect("a log").entries().map(|entry| entry.expect("an entry").bucket()).collect()
}

#[test]
fn the_log_tells_the_bucket_of_each_change() {
    let mut tags = [0; PAGE];
    tags[1] = 0x80;
    tags[4] = 0x80;
    let changes = [
        Change::new(id(1), 1, diff(&[1]), Where::Fresh),
        Change::new(id(2), 1, diff(&[2]), Where::Known(1)),
        Change::new(id(3), 4, cleared(), Where::Known(4)),
        Change::new(id(4), 1, diff(&[3]), Where::Fresh),
        Change::new(id(5), 0, diff(&[4]), Where::Cell(0)),
    ];
    let mut cells = [UNSET];
    let log = synced(&mut tags, &mut cells, &changes).expect("five changes");
    // The path of hash 1 in 8 buckets: 1, 2, 4, 7.
    assert_eq!(buckets(&log), [Some(2), Some(1), Some(4), Some(4), Some(0)]);
    assert_eq!(cells, [0]);
}

/// A new page in cell 0 and, after it, a clear that is refused.
fn refused(tags: &mut [u8], cells: &mut [u64]) {
    let changes =
        [Change::new(id(1), 5, diff(&[1]), Where::Cell(0)), Change::new(id(2), 0, cleared(), Where::Known(0))];
    let why = synced(tags, cells, &changes).expect_err("nothing is in bucket 0");
    assert_eq!(why, SyncRefused { refusal: BucketUnfit, change: Some(1) });
    assert_eq!((tags[5], cells[0]), (0x80, 5), "the change before it is kept");
}

#[test]
fn tags_brought_back_and_cells_kept_do_not_fit() {
    let (mut tags, mut cells) = ([0; PAGE], [UNSET]);
    let before = tags;
    refused(&mut tags, &mut cells);
    let new = Change::new(id(1), 5, diff(&[1]), Where::Cell(0));

    // The cell says bucket 5, the tags say that it is empty.
    tags = before;
    let again = synced(&mut tags, &mut cells, &[new]);
    assert_eq!(again, Err(SyncRefused { refusal: BucketUnfit, change: Some(0) }));

    // Or worse: another new page is given that bucket first, and the two are in one.
    tags = before;
    let other = Change::new(id(9), 5, diff(&[1]), Where::Fresh);
    let log = synced(&mut tags, &mut cells, &[other, new]).expect("the tag is the hash's");
    assert_eq!(buckets(&log), [Some(5), Some(5)]);
}

#[test]
fn a_sync_on_copies_can_be_tried_again() {
    let (tags, cells) = ([0; PAGE], [UNSET]);
    refused(&mut tags.clone(), &mut cells.clone());

    let (mut tags, mut cells) = (tags, cells);
    let other = Change::new(id(9), 5, diff(&[1]), Where::Fresh);
    let new = Change::new(id(1), 5, diff(&[1]), Where::Cell(0));
    let log = synced(&mut tags, &mut cells, &[other, new]).expect("two new pages");
    assert_eq!(buckets(&log), [Some(5), Some(6)]);
    assert_eq!(cells, [6]);
}
