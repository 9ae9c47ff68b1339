//! Every call that writes, on slices that stand amid other memory: what is before and after them stays.

mod common;
use bitbox::*;
use common::*;

const ROOM: usize = 96;

/// Memory amid other memory.
struct Amid<T>(Vec<T>);

impl<T: Copy + PartialEq> Amid<T> {
    fn new(of: &[T], wall: T) -> Amid<T> {
        Amid([&[wall; ROOM][..], of, &[wall; ROOM][..]].concat())
    }

    fn lent(&mut self) -> &mut [T] {
        let end = self.0.len() - ROOM;
        &mut self.0[ROOM..end]
    }

    fn stays(&self, wall: T) -> bool {
        let end = self.0.len() - ROOM;
        self.0[..ROOM].iter().chain(&self.0[end..]).all(|x| *x == wall)
    }
}

const WALL: u8 = 0xA5;

fn bytes(len: usize) -> Amid<u8> {
    Amid::new(&vec![0; len], WALL)
}

#[test]
fn pages_and_tags() {
    let all = diff(&(0..SLOTS).collect::<Vec<_>>());
    let from = page(1, &id(1));
    let mut page = bytes(PAGE);
    let nodes = all.pack_changed_nodes(&from).expect("a page");
    assert_eq!(all.unpack_changed_nodes(&nodes, page.lent()), Ok(()));
    assert!(page.lent()[..4032] == from[..4032] && page.stays(WALL));

    let mut table = Amid::new(&[[0xEE; NODE]; SLOTS], [WALL; NODE]);
    assert_eq!(all.pack_changed_nodes_into(&from, table.lent()), Ok(SLOTS));
    assert!(table.lent() == nodes.table() && table.stays([WALL; NODE]));

    let mut tags = bytes(PAGE);
    assert_eq!(set_full(tags.lent(), 4096, 4095, u64::MAX), Ok(()));
    assert_eq!(set_tombstone(tags.lent(), 4096, 0), Ok(()));
    assert_eq!(allocate(tags.lent(), 4096, 4095), Ok(0));
    assert_eq!((tags.lent()[0], tags.lent()[4095]), (0x80, 0xFF));
    assert!(tags.stays(WALL));
}

#[test]
fn logs() {
    // A log that is full to its last byte: 5 + (65 + 32 * 121) + 17 * 9 + 1 bytes, 22 + (66 + 32 * 123) + 7 * 10 + 2.
    for (edition, slots, clears) in [(Edition::One, 121, 17), (Edition::Two, 123, 7)] {
        let mut log = bytes(PAGE);
        let mut w = Writer::Fresh;
        w.begin(log.lent(), start(edition, u32::MAX)).expect("a page");
        let d = diff(&(0..slots).collect::<Vec<_>>());
        let nodes = Packed::from_table([[7; NODE]; SLOTS], slots);
        w.write_update(log.lent(), &Update { bucket: 1, id: id(1), diff: d, nodes, elided: [8; 8] }).expect("room");
        for _ in 0..clears {
            w.write_clear(log.lent(), u64::MAX).expect("room");
        }
        assert_eq!(w, Writer::Open(PAGE - sizes(edition).0, edition));
        assert_eq!(w.finish(log.lent()), Ok(PAGE));
        assert!(log.lent()[PAGE - 1] == 2 && log.stays(WALL));
    }
}

#[test]
fn syncs() {
    for edition in EDITIONS {
        a_sync_and_a_step(edition);
    }
}

fn a_sync_and_a_step(edition: Edition) {
    let (n, mark) = (4096, sizes(edition).0);
    let (mut tags, mut marks, mut log) = (bytes(PAGE), bytes(1), bytes(PAGE));
    let mut cells = Amid::new(&[UNSET], 0xC0FFEE);
    let changes = [
        Change::new(id(1), 4095, diff(&[0, 125]), Where::Cell(0)),
        Change::new(id(2), 4095, diff(&(0..100).collect::<Vec<_>>()), Where::Fresh),
        Change::new(id(1), 4095, cleared(), Where::Cell(0)),
    ];
    let pages: Vec<u8> = changes.iter().flat_map(|c| page(5, c.id())).collect();
    let (mut writer, start) = (Writer::Fresh, start(edition, 1));
    let mut lent = Lent { n, tags: tags.lent(), marks: marks.lent(), cells: cells.lent(), log: log.lent() };
    assert_eq!(sync(&mut lent, &mut writer, start, &changes, &pages), Ok(Synced { occupied: 1, length: PAGE }));
    assert_eq!((cells.lent()[0], tags.lent()[4095], tags.lent()[0]), (4095, TOMBSTONE, 0x80));
    assert!(tags.stays(WALL) && marks.stays(WALL) && log.stays(WALL) && cells.stays(0xC0FFEE));

    let mut state = State { writer: Writer::Open(PAGE - (mark + 8) - mark, edition), occupied: 1 };
    let mut lent = Lent { n, tags: tags.lent(), marks: marks.lent(), cells: cells.lent(), log: log.lent() };
    let clear = Change::new(id(2), 4095, cleared(), Where::Known(0));
    assert_eq!(sync_step(&mut lent, &mut state, &clear, &pages[..PAGE]), Ok(Step { bucket: 0, page: 1 }));
    assert_eq!(state, State { writer: Writer::Open(PAGE - mark, edition), occupied: 0 });
    assert!(tags.stays(WALL) && marks.stays(WALL) && log.stays(WALL) && cells.stays(0xC0FFEE));
}

#[test]
fn images() {
    for edition in EDITIONS {
        a_replay_and_a_growth(edition);
    }
}

fn a_replay_and_a_growth(edition: Edition) {
    let (n, (mark, first)) = (2, sizes(edition));
    let mut memory = vec![0; PAGE];
    let mut writer = LogWriter::begin(&mut memory, start(edition, 1)).expect("a page");
    let d = diff(&[0, 125]);
    let nodes = Packed::new(&[[1; NODE], [2; NODE]]).expect("two nodes");
    writer.write_clear(0).expect("room");
    writer.write_update(&Update { bucket: 1, id: id(1), diff: d, nodes, elided: [3; 8] }).expect("room");
    let log = writer.finish().expect("room");

    let mut image = bytes(common::image(n).len());
    assert_eq!(replay(image.lent(), n, log, 1, &SEED, &[1]), Ok(Replayed::Applied));
    assert!(image.lent().ends_with(&id(1)) && image.stays(WALL));
    let mut again = bytes(common::image(n).len());
    let (at, next) = (first + mark + 8, first + mark + 8 + mark + 64 + 64);
    assert_eq!(replay_step(again.lent(), n, log, edition, at, 1), Ok(Stepped::Updated { next }));
    assert!(again.lent().ends_with(&id(1)) && again.stays(WALL));

    let mut larger = bytes(common::image(4).len());
    larger.lent().fill(0xEE);
    assert_eq!(grow(image.lent(), n, larger.lent(), 4, &[0, 3]), Ok(Grown::Done));
    assert!(larger.lent().ends_with(&id(1)) && larger.stays(WALL) && image.stays(WALL));
    larger.lent().fill(0xEE);
    image.lent()[..2].fill(0x80);
    assert_eq!(grow(image.lent(), n, larger.lent(), 3, &[0, 3]), Err(Refusal::LengthUnfit));
    assert!(larger.lent().iter().all(|&b| b == 0xEE) && larger.stays(WALL));
}
