//! Sync, whole and step by step.

mod common;
use bitbox::*;
use common::*;
use std::error::Error;
use Refusal::*;

/// Memory for syncs of a table.
struct Memory {
    n: usize,
    tags: Vec<u8>,
    marks: Vec<u8>,
    cells: Vec<u64>,
    log: Vec<u8>,
    writer: Writer,
    edition: Edition,
}

impl Memory {
    fn new(n: usize) -> Memory {
        let pages = tag_pages(n).expect("a count") as usize;
        Memory {
            n,
            tags: vec![0; PAGE * pages],
            marks: vec![9; pages],
            cells: vec![UNSET; 2],
            log: vec![0xEE; 4 * PAGE],
            writer: Writer::Fresh,
            edition: Edition::Two,
        }
    }

    fn lent(&mut self) -> Lent<'_> {
        let Memory { n, tags, marks, cells, log, .. } = self;
        Lent { n: *n, tags, marks, cells, log }
    }

    fn sync(&mut self, seqn: u32, changes: &[Change], pages: &[u8]) -> Result<Synced, SyncRefused> {
        let (mut writer, start) = (self.writer, start(self.edition, seqn));
        let answer = sync(&mut self.lent(), &mut writer, start, changes, pages);
        self.writer = writer;
        answer
    }

    fn all(&self) -> (Vec<u8>, Vec<u8>, Vec<u64>, Vec<u8>, Writer) {
        (self.tags.clone(), self.marks.clone(), self.cells.clone(), self.log.clone(), self.writer)
    }
}

fn pages(of: &[Change]) -> Vec<u8> {
    of.iter().flat_map(|c| page(c.hash() as u8, c.id())).collect()
}

#[test]
fn a_change_holds_what_it_was_made_of() {
    for place in [Where::Known(5), Where::Known(u64::MAX), Where::Fresh, Where::Cell(3), Where::Cell(usize::MAX)] {
        let c = Change::new(id(1), 7, diff(&[2]), place);
        assert_eq!((*c.id(), c.hash(), c.diff(), c.place()), (id(1), 7, diff(&[2]), place));
        assert!(format!("{c:?}").contains(&format!("{place:?}")));
    }
}

#[test]
fn a_sync_takes_its_changes() {
    for edition in EDITIONS {
        takes_its_changes(edition);
    }
}

fn takes_its_changes(edition: Edition) {
    let mut m = Memory { edition, ..Memory::new(5000) };
    m.tags[4998] = 0x80;
    let changes = [
        Change::new(id(1), 4096, diff(&[1, 2]), Where::Cell(1)),
        Change::new(id(2), 8, diff(&[]), Where::Fresh),
        Change::new(id(3), 0, cleared(), Where::Known(4998)),
        Change::new(id(1), 4096, diff(&[3]), Where::Cell(1)),
    ];
    let pages = pages(&changes);
    assert_eq!(m.sync(6, &changes, &pages), Ok(Synced { occupied: 2, length: PAGE }));
    assert_eq!(m.writer, Writer::Finished(PAGE));
    assert_eq!(m.cells, [UNSET, 4096]);
    assert_eq!(m.marks, [1, 1]);
    assert_eq!((m.tags[4096], m.tags[8], m.tags[4998]), (0x80, 0x80, TOMBSTONE));
    assert_eq!(m.tags.iter().filter(|&&t| t != 0).count(), 3);

    let reader = Reader::new(&m.log[..PAGE]).expect("a log");
    assert_eq!(reader.start(), start(edition, 6));
    let entries: Vec<Entry> = reader.map(|e| e.expect("an entry")).collect();
    let wanted = |i: usize, bucket| {
        let page = &pages[PAGE * i..][..PAGE];
        let diff = changes[i].diff();
        Entry::Update(Update {
            bucket,
            id: *changes[i].id(),
            diff,
            nodes: diff.pack_changed_nodes(page).expect("a page"),
            elided: page[4056..4064].try_into().expect("eight bytes"),
        })
    };
    assert_eq!(entries, [wanted(0, 4096), wanted(1, 8), Entry::Clear { bucket: 4998 }, wanted(3, 4096)]);
}

#[test]
fn a_sync_of_nothing() {
    let mut m = Memory::new(3);
    m.tags[1] = 0xFF;
    assert_eq!(m.sync(1, &[], &[]), Ok(Synced { occupied: 1, length: PAGE }));
    assert_eq!(m.marks, [0], "marks are zeroed");
    assert_eq!(Reader::new(&m.log[..PAGE]).expect("a log").count(), 0);
}

#[test]
fn a_sync_refused_before_it_begins_leaves_everything() {
    let change = [Change::new(id(1), 0, diff(&[1]), Where::Fresh)];
    let one = pages(&change);
    let refused = |mut m: Memory, changes: &[Change], pages: &[u8], refusal| {
        m.writer = Writer::Finished(77);
        let before = m.all();
        assert_eq!(m.sync(1, changes, pages), Err(SyncRefused { refusal, change: None }));
        assert!(m.all() == before, "{refusal:?} leaves what was lent");
    };
    refused(Memory { n: 0, ..Memory::new(1) }, &change, &one, TableUnfit);
    refused(Memory { n: 4097, ..Memory::new(1) }, &change, &one, TableUnfit);
    refused(Memory { n: (1 << 32) + 1, ..Memory::new(1) }, &change, &one, TableUnfit);
    // The table comes before the pages, and these before the log.
    refused(Memory { n: 0, log: vec![], ..Memory::new(1) }, &change, &[], TableUnfit);
    refused(Memory { log: vec![], ..Memory::new(1) }, &change, &one[1..], LengthUnfit);
    refused(Memory::new(1), &[], &one, LengthUnfit);
    refused(Memory { marks: vec![9; 2], ..Memory::new(1) }, &change, &one, LengthUnfit);
    refused(Memory { marks: vec![], ..Memory::new(1) }, &[], &[], LengthUnfit);
    refused(Memory { log: vec![0; PAGE - 1], ..Memory::new(1) }, &change, &one, NoRoom);
}

#[test]
fn a_sync_refused_at_a_change_keeps_those_before() {
    let good = Change::new(id(1), 2, diff(&[1]), Where::Cell(0));
    // What is done to a table of 4 buckets, the second change, and why it is refused.
    type Case = (fn(&mut Memory), Change, Refusal);
    let change = |d, place| Change::new(id(2), 0, d, place);
    let bit_126 = Diff::from_words([0, 1 << 62]);
    let cases: [Case; 16] = [
        (|_| {}, change(bit_126, Where::Fresh), DiffReserved),
        (|_| {}, change(bit_126.set_cleared(), Where::Known(99)), DiffReserved),
        (|_| {}, change(diff(&[]), Where::Cell(2)), LengthUnfit),
        (|_| {}, change(cleared(), Where::Cell(usize::MAX)), LengthUnfit),
        (|_| {}, change(diff(&[]), Where::Known(4)), BucketOutside),
        (|_| {}, change(cleared(), Where::Known(UNSET)), BucketOutside),
        (|m| m.cells[1] = 4, change(diff(&[]), Where::Cell(1)), BucketOutside),
        (|_| {}, change(diff(&[]), Where::Known(1)), BucketUnfit),
        (|m| m.tags[1] = 0x81, change(diff(&[]), Where::Known(1)), BucketUnfit),
        (|m| m.tags[1] = TOMBSTONE, change(cleared(), Where::Known(1)), BucketUnfit),
        (|m| m.tags[1] = 0x81, change(cleared(), Where::Known(1)), BucketUnfit),
        (|m| (m.tags[1], m.cells[1]) = (0xFF, 1), change(cleared(), Where::Cell(1)), BucketUnfit),
        (|_| {}, change(cleared(), Where::Fresh), BucketUnfit),
        (|_| {}, change(cleared(), Where::Cell(1)), BucketUnfit),
        (|m| m.log.truncate(PAGE), change(diff(&(0..126).collect::<Vec<_>>()), Where::Fresh), NoRoom),
        (|m| m.tags[..2].fill(0x81), Change::new(id(2), 1 << 63, diff(&[]), Where::Cell(1)), PathClosed),
    ];
    for (i, (done, second, refusal)) in cases.into_iter().enumerate() {
        let mut m = Memory::new(4);
        m.tags[3] = 0x81;
        // It becomes fresh; it is not so before.
        m.writer = if i % 2 == 0 { Writer::Open(77, Edition::One) } else { Writer::Finished(PAGE) };
        done(&mut m);
        let tags = m.tags.clone();
        let cells = m.cells.clone();
        let changes = [good, second, good];
        let refused = m.sync(3, &changes, &pages(&changes));
        assert_eq!(refused, Err(SyncRefused { refusal, change: Some(1) }), "case {i}");
        assert_eq!(m.writer, Writer::Fresh, "case {i}");
        assert_eq!((m.cells[0], m.cells[1]), (2, cells[1]), "case {i}");
        assert_eq!(m.marks, [1], "case {i}");
        assert_eq!((m.tags[2], tags[2]), (0x80, 0), "case {i}: the change before is kept");
        assert!(m.tags.iter().zip(&tags).enumerate().all(|(b, (now, then))| b == 2 || now == then), "case {i}");
    }
    // All hits.
    let mut m = Memory { writer: Writer::Open(22, Edition::Two), ..Memory::new(4) };
    m.tags[..4].fill(0x80);
    let changes = [Change::new(id(2), 0, diff(&[]), Where::Fresh)];
    let refused = m.sync(3, &changes, &pages(&changes)).expect_err("no free bucket");
    assert_eq!(refused, SyncRefused { refusal: PathCrowded, change: Some(0) });
    assert_eq!((m.marks, m.writer), (vec![0], Writer::Fresh), "zeroed before the first change");
}

#[test]
fn a_refused_sync_says_where() {
    let at = SyncRefused { refusal: NoRoom, change: Some(4) };
    assert_eq!(at.to_string(), format!("change 4 was refused: {NoRoom}"));
    assert_eq!(at.source().map(|s| s.to_string()), Some(NoRoom.to_string()));
    let whole = SyncRefused { refusal: TableUnfit, change: None };
    assert_eq!(whole.to_string(), format!("the sync was refused: {TableUnfit}"));
}

#[test]
fn steps_come_to_the_same_as_a_sync() {
    let changes = [
        Change::new(id(1), 9, diff(&[0, 125]), Where::Cell(0)),
        Change::new(id(2), 9, diff(&[7]), Where::Fresh),
        Change::new(id(1), 9, cleared(), Where::Cell(0)),
    ];
    let pages = pages(&changes);
    for edition in EDITIONS {
        let mut whole = Memory { edition, ..Memory::new(8) };
        let synced = whole.sync(5, &changes, &pages).expect("three changes");

        let mut m = Memory::new(8);
        m.marks.fill(0);
        let mut state = State { writer: Writer::Fresh, occupied: full_count(&m.tags, 8).expect("tags") };
        state.writer.begin(&mut m.log, start(edition, 5)).expect("room");
        let mut steps = vec![];
        for (c, page) in changes.iter().zip(pages.chunks(PAGE)) {
            steps.push(sync_step(&mut m.lent(), &mut state, c, page).expect("a step"));
            assert!(matches!(state.writer, Writer::Open(_, kept) if kept == edition), "the writer keeps the edition");
        }
        let at = |bucket| Step { bucket, page: 1 + bucket };
        assert_eq!(steps, [at(1), at(2), at(1)]);
        let length = state.writer.finish(&mut m.log).expect("room");
        assert_eq!(Synced { occupied: state.occupied, length }, synced);
        m.writer = state.writer;
        assert!(m.all() == whole.all());
    }
}

#[test]
fn a_step_refuses() {
    for edition in EDITIONS {
        step_refuses(edition);
    }
}

fn step_refuses(edition: Edition) {
    let (mark, first) = sizes(edition);
    let good = Change::new(id(1), 0, diff(&[1]), Where::Fresh);
    let open = State { writer: Writer::Open(first, edition), occupied: 3 };
    let page = page(1, &id(1));
    let refused = |mut m: Memory, mut state: State, c: Change, page: &[u8], refusal| {
        let (before, state_before) = (m.all(), state);
        assert_eq!(sync_step(&mut m.lent(), &mut state, &c, page), Err(refusal));
        assert!(m.all() == before && state == state_before, "{refusal:?} leaves what was lent");
    };
    let fresh = State::default();
    let bad = Change::new(id(1), 0, Diff::from_words([0, 1 << 62]), Where::Cell(9));
    refused(Memory { n: 0, ..Memory::new(1) }, fresh, bad, &[], TableUnfit);
    refused(Memory::new(1), fresh, bad, &page[1..], LengthUnfit);
    refused(Memory { marks: vec![0; 2], ..Memory::new(1) }, fresh, bad, &page, LengthUnfit);
    refused(Memory::new(1), fresh, bad, &page, WriterNotOpen);
    refused(Memory::new(1), State { writer: Writer::Finished(5), ..open }, bad, &page, WriterNotOpen);
    refused(Memory::new(1), open, bad, &page, DiffReserved);
    let with = |d, place| Change::new(id(1), 0, d, place);
    refused(Memory::new(1), open, with(diff(&[1]), Where::Cell(2)), &page, LengthUnfit);
    refused(Memory::new(1), open, with(diff(&[1]), Where::Known(1)), &page, BucketOutside);
    refused(Memory::new(1), open, with(diff(&[1]), Where::Known(0)), &page, BucketUnfit);
    refused(Memory::new(1), open, with(cleared(), Where::Fresh), &page, BucketUnfit);
    // The last place at which it fits is a byte before the one at which it does not.
    let last = 4 * PAGE - (mark + 64 + 32) - mark;
    for at in [last + 1, 4 * PAGE, usize::MAX] {
        refused(Memory::new(1), State { writer: Writer::Open(at, edition), ..open }, good, &page, NoRoom);
    }
    let mut state = State { writer: Writer::Open(last, edition), ..open };
    assert_eq!(sync_step(&mut Memory::new(1).lent(), &mut state, &good, &page), Ok(Step { bucket: 0, page: 1 }));
    assert_eq!(state, State { writer: Writer::Open(4 * PAGE - mark, edition), occupied: 4 });
    let full = |tag| {
        let mut m = Memory::new(1);
        m.tags[0] = tag;
        m
    };
    refused(full(0x80), open, good, &page, PathCrowded);
    refused(full(0x81), open, good, &page, PathClosed);
    // A clear of another tag, before the room is looked at and after.
    let clear = with(cleared(), Where::Known(0));
    for at in [first, 4 * PAGE] {
        refused(full(0x81), State { writer: Writer::Open(at, edition), ..open }, clear, &page, BucketUnfit);
    }
    refused(full(0x80), State { writer: Writer::Open(4 * PAGE, edition), ..open }, clear, &page, NoRoom);
    // A false count of full buckets does not stop it.
    let mut m = full(0x80);
    let mut state = State { occupied: 0, ..open };
    assert_eq!(sync_step(&mut m.lent(), &mut state, &clear, &page), Ok(Step { bucket: 0, page: 1 }));
    assert_eq!(state, State { writer: Writer::Open(first + mark + 8, edition), occupied: 0 });
    let mut state = State { occupied: u64::MAX, ..open };
    assert_eq!(sync_step(&mut m.lent(), &mut state, &good, &page), Ok(Step { bucket: 0, page: 1 }));
    assert_eq!(state.occupied, u64::MAX);
}

/// Page 1 has the hash 3 and was in bucket 3 of 8. It was cleared and stored anew, and is in bucket 4; page 2, of a
/// hash with this tag, is in bucket 3.
fn moved(tag: u64) -> (Vec<u8>, u64) {
    let (mut image, hash) = (image(8), tag << 57 | 3);
    put(&mut image, 8, 4, 3, &page(1, &id(1)));
    put(&mut image, 8, 3, hash, &page(2, &id(2)));
    (image, hash)
}

/// Clears page 1 in this bucket of the image's tags, by a sync and by a step; the memory that the sync leaves.
fn clear_one(image: &[u8], bucket: u64, edition: Edition) -> (Memory, Result<Synced, SyncRefused>) {
    let clear = [Change::new(id(1), 3, cleared(), Where::Known(bucket))];
    let lent = || Memory { tags: image[..PAGE].to_vec(), edition, ..Memory::new(8) };
    let (mut m, mut stepped) = (lent(), lent());
    let synced = m.sync(4, &clear, &pages(&clear));

    let before = stepped.all();
    let open = State { writer: Writer::Open(sizes(edition).1, edition), occupied: 2 };
    let mut state = open;
    let step = sync_step(&mut stepped.lent(), &mut state, &clear[0], &pages(&clear));
    assert_eq!(step.err(), synced.err().map(|why| why.refusal));
    if step.is_err() {
        assert!(stepped.all() == before && state == open, "a refused step leaves what was lent");
    }
    (m, synced)
}

#[test]
fn a_clear_with_an_old_bucket_number_leaves_the_neighbour() {
    for edition in EDITIONS {
        let (mut image, hash) = moved(5);
        let (m, refused) = clear_one(&image, 3, edition);
        assert_eq!(refused, Err(SyncRefused { refusal: BucketUnfit, change: Some(0) }));
        assert_eq!((&m.tags[..], &m.marks[..], &m.cells[..]), (&image[..PAGE], &[0][..], &[UNSET; 2][..]));

        // Who looks the id up first has the right bucket.
        let found = lookup(&image, 8, 3, &id(1)).expect("a table").bucket();
        assert_eq!(found, Some(4));
        let (m, synced) = clear_one(&image, 4, edition);
        assert_eq!(synced, Ok(Synced { occupied: 1, length: PAGE }));
        image[..PAGE].copy_from_slice(&m.tags);
        assert_eq!(lookup(&image, 8, 3, &id(1)), Ok(Found::Absent));
        assert_eq!(lookup(&image, 8, hash, &id(2)), Ok(Found::At(3)), "the neighbour is there");
    }
}

#[test]
fn a_clear_still_hits_a_neighbour_of_the_same_tag() {
    // A tag has seven bits of the hash: by chance one neighbour in 128 has the same.
    let (mut image, hash) = moved(0);
    let (m, synced) = clear_one(&image, 3, Edition::Two);
    assert_eq!(synced, Ok(Synced { occupied: 1, length: PAGE }));
    image[..PAGE].copy_from_slice(&m.tags);
    assert_eq!(lookup(&image, 8, hash, &id(2)), Ok(Found::Absent));
    assert_eq!(lookup(&image, 8, 3, &id(1)), Ok(Found::At(4)), "and the page is where it was");
}

#[test]
fn of_all_tags_a_clear_takes_its_own_alone() {
    for hash in [0, 5 << 57 | 3, (1 << 57) - 1, 1 << 63, u64::MAX] {
        let clear = [Change::new(id(1), hash, cleared(), Where::Known(6))];
        let taken = (0..=255).filter(|&tag| {
            let mut m = Memory::new(8);
            m.tags[6] = tag;
            let synced = m.sync(4, &clear, &pages(&clear));
            assert_eq!(m.tags[6], if synced.is_ok() { TOMBSTONE } else { tag });
            synced.is_ok()
        });
        assert_eq!(taken.collect::<Vec<u8>>(), [full_tag(hash)]);
    }
}

#[test]
fn a_logged_clear_is_replayed_whatever_the_tag() {
    for edition in EDITIONS {
        let (mut image, _) = moved(5);
        let log = clears(start(edition, 7), &[3]);
        assert_eq!(replay(&mut image, 8, &log, 7, &SEED, &[]), Ok(Replayed::Applied));
        assert_eq!((image[3], image[4]), (TOMBSTONE, 0x80));
    }
}
