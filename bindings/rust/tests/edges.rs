//! Syncs at the edges that document 01 names: lengths, cells, buckets, tags and diffs that are refused, and changes
//! that meet the same cell or bucket; and the clears that W-203 refuses. Each line of edges.txt is a title, the answer,
//! and what stands afterwards in the first four tags, the marks, the first two cells, the writer and some bytes of the
//! log; it is worked out from documents 01 and 02 apart from this code.

use bitbox::*;
use std::fmt::Write;

const N: usize = 4;
const SEQN: u32 = 7;

/// The diffs' high words: no mark, the mark that nobody has, and that of a cleared page.
const PLAIN: u64 = 0;
const BIT_126: u64 = 1 << 62;
const CLEARED: u64 = 1 << 63;

/// The full tag of hash 0; one that is not, and a hash that has it.
const MINE: u8 = 0x80;
const OTHER: u8 = 0x81;
const OTHERS: u64 = 1 << 57;

/// What the marks and the log hold before a call.
const WAS: u8 = 9;

/// A table with what is lent to a sync of it, as each case changes it.
struct Case {
    title: &'static str,
    n: usize,
    tags: Vec<u8>,
    marks: Vec<u8>,
    cells: [u64; 2],
    log: Vec<u8>,
    pages: Vec<u8>,
    start: Start,
}

impl Case {
    /// One page for each of so many changes: its first node and its elided children tell which.
    fn new(title: &'static str, changes: usize) -> Case {
        let mut pages = vec![5; PAGE * changes];
        for (j, page) in pages.chunks_mut(PAGE).enumerate() {
            page[0] = 50 + 10 * j as u8;
            page[4056] = 51 + 10 * j as u8;
        }
        let (tags, marks, log) = (vec![0; PAGE], vec![WAS], vec![WAS; 2 * PAGE]);
        Case { title, n: N, tags, marks, cells: [UNSET, 7], log, pages, start: Start::one(SEQN) }
    }

    /// The same on a table with these two tags first.
    fn tagged(title: &'static str, changes: usize, first: u8, second: u8) -> Case {
        let mut case = Case::new(title, changes);
        case.tags[..2].copy_from_slice(&[first, second]);
        case
    }

    fn lent(&mut self) -> Lent<'_> {
        Lent { n: self.n, tags: &mut self.tags, marks: &mut self.marks, cells: &mut self.cells, log: &mut self.log }
    }

    /// The case's line: what it answered, the writer, and what stands afterwards.
    fn line(&self, answer: &str, writer: Writer) -> String {
        let mut said = format!("{}: {answer}", self.title);
        match writer {
            Writer::Fresh => said += "; fresh",
            Writer::Open(at, _) => write!(said, "; open {at}").expect("a string"),
            Writer::Finished(length) => write!(said, "; finished {length}").expect("a string"),
        }
        let mut bytes = |title: &str, of: &[u8], places: &[usize]| {
            said += title;
            for byte in places.iter().filter_map(|&i| of.get(i)) {
                write!(said, " {byte}").expect("a string");
            }
        };
        bytes("; tags", &self.tags, &[0, 1, 2, 3]);
        bytes("; marks", &self.marks, &[0, 1]);
        bytes(&format!("; cells {} {}", self.cells[0], self.cells[1]), &[], &[]);
        // The start and the first record's kind and first field; then where an update of one slot has its diff, node,
        // elided children, bucket and what follows, where it stands first, behind a clear, and behind such an update.
        bytes("; log", &self.log, &[0, 1, 5, 6, 14]);
        bytes(",", &self.log, &[38, 54, 86, 94, 102]);
        bytes(",", &self.log, &[63, 95, 103, 111]);
        bytes(",", &self.log, &[151, 183, 191, 199]);
        said
    }

    fn synced(mut self, changes: &[Change]) -> String {
        let mut writer = Writer::Open(77, Edition::One);
        let (pages, start) = (self.pages.clone(), self.start);
        let answer = match sync(&mut self.lent(), &mut writer, start, changes, &pages) {
            Ok(Synced { occupied, length }) => format!("done {occupied} {length}"),
            Err(SyncRefused { refusal, change: None }) => format!("refused {}", refusal.number()),
            Err(SyncRefused { refusal, change: Some(j) }) => format!("refused {} at {j}", refusal.number()),
        };
        self.line(&answer, writer)
    }

    fn stepped(mut self, writer: Writer, change: Change) -> String {
        let mut state = State { writer, occupied: 0 };
        let page = vec![5; PAGE];
        let answer = match sync_step(&mut self.lent(), &mut state, &change, &page) {
            Ok(Step { bucket, page }) => format!("bucket {bucket} page {page}"),
            Err(refusal) => format!("refused {}", refusal.number()),
        };
        self.line(&format!("{answer} occupied {}", state.occupied), state.writer)
    }
}

/// A change of slot 0, by a diff with this high word.
fn change(hash: u64, high: u64, place: Where) -> Change {
    Change::new([33; 32], hash, Diff::from_words([1, high]), place)
}

#[test]
fn syncs_at_the_edges() {
    let fresh = change(0, PLAIN, Where::Fresh);
    let one = |title, tag, change| Case::tagged(title, 1, tag, 0).synced(&[change]);
    let step = |title, writer, change| Case::tagged(title, 0, 0, MINE).stepped(writer, change);
    let full = Writer::Open(8183, Edition::One);
    let lines = [
        // what a sync tests before its first change
        Case { tags: vec![MINE; PAGE], ..Case::new("no changes", 0) }.synced(&[]),
        one("one fresh", 0, fresh),
        Case { start: Start::two(SEQN, [40; 16]), ..Case::new("edition two", 1) }.synced(&[fresh]),
        Case { pages: vec![5; PAGE - 1], ..Case::new("pages short", 1) }.synced(&[fresh]),
        Case { marks: vec![WAS; 2], ..Case::new("two marks", 1) }.synced(&[fresh]),
        Case { n: 0, ..Case::new("no buckets", 1) }.synced(&[fresh]),
        Case { log: vec![WAS; PAGE - 1], ..Case::new("log short", 1) }.synced(&[fresh]),
        // one change
        one("cell 2 of 2", 0, change(0, PLAIN, Where::Cell(2))),
        Case { cells: [4, 7], ..Case::new("cell holds 4", 1) }.synced(&[change(0, PLAIN, Where::Cell(0))]),
        one("known most", MINE, change(0, PLAIN, Where::Known(u64::MAX))),
        one("known with another tag", OTHER, change(0, PLAIN, Where::Known(0))),
        one("clear without a bucket", MINE, change(0, CLEARED, Where::Fresh)),
        one("clear by an unset cell", MINE, change(0, CLEARED, Where::Cell(0))),
        one("clear with another tag", OTHER, change(0, CLEARED, Where::Known(0))),
        one("bit 126", 0, change(0, BIT_126, Where::Fresh)),
        one("bits 126 and 127", MINE, change(0, BIT_126 + CLEARED, Where::Known(0))),
        // two changes
        Case::tagged("one unset cell twice", 2, OTHER, 0).synced(&[change(0, PLAIN, Where::Cell(0)); 2]),
        Case::tagged("cleared and taken again", 2, OTHER, 0).synced(&[change(OTHERS, CLEARED, Where::Known(0)), fresh]),
        Case::tagged("second refused", 2, 0, OTHER).synced(&[fresh, change(0, PLAIN, Where::Known(1))]),
        // one step alone; a clear's record that would end where the log does leaves no byte for the end, and its tag is
        // looked at before that
        step("step, fresh writer", Writer::Fresh, fresh),
        step("step, occupied 0", Writer::Open(5, Edition::One), change(0, CLEARED, Where::Known(1))),
        step("step, no room", full, change(0, CLEARED, Where::Known(1))),
        step("step, no room, another tag", full, change(OTHERS, CLEARED, Where::Known(1))),
    ];
    let wanted: Vec<&str> = include_str!("edges.txt").lines().collect();
    assert_eq!(lines.len(), wanted.len());
    for (line, wanted) in lines.iter().zip(wanted) {
        assert_eq!(line, wanted);
    }
}
