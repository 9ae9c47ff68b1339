//! Sync, replay, growth and audit, whole.

use crate::{
    clock::{row, timed, Row},
    inputs::{diff, hash_of, same_entries, Rng, Stored, Table, EDITIONS, SEED},
};
use bitbox::{audit, grow, replay, sync, Change, Grown, Lent, Replayed, Where, Writer, PAGE};
use original::{diff::Words, running::Folder, sync as their, timed as theirs};

/// The table that sync and replay work on.
const BITS: u32 = 16;

struct Changed {
    id: [u8; 32],
    words: Words,
    known: Option<u64>,
}

/// Of ten changes one clears, five are updates of 8 slots, four are new pages of 20 slots.
fn changes(stored: &[Stored], count: usize, rng: &mut Rng) -> Vec<Changed> {
    (0..count)
        .map(|i| match i % 10 {
            0 => Changed { id: stored[i].id, words: [0, 1 << 63], known: Some(stored[i].bucket) },
            1..=5 => Changed { id: stored[i].id, words: rng.slots(8), known: Some(stored[i].bucket) },
            _ => Changed { id: rng.bytes(), words: rng.slots(20), known: None },
        })
        .collect()
}

/// A sync of so many changes, and the replay of its log: in edition one, then in edition two.
pub fn sync_and_replay(count: usize, repeats: usize, rng: &mut Rng) -> [[Row; 2]; 2] {
    let mut table = Table::new(1 << BITS);
    table.fill(50, rng);
    let list = changes(&table.stored, count, rng);
    let pages = rng.many(count * PAGE);
    let mine: Vec<Change> = list
        .iter()
        .map(|c| Change::new(c.id, hash_of(c.id), diff(c.words), c.known.map_or(Where::Fresh, Where::Known)))
        .collect();
    let other: Vec<their::Change> = list
        .iter()
        .zip(pages.chunks(PAGE))
        .map(|(c, page)| {
            let place = c.known.map_or(their::Place::Fresh, their::Place::Known);
            their::Change { id: c.id, diff: c.words, place, page }
        })
        .collect();
    let hashes: Vec<u64> = mine.iter().filter(|c| !c.diff().cleared()).map(Change::hash).collect();
    EDITIONS.map(|(start, edition)| {
        let (mut log, mut length, mut log_of_theirs) = (vec![0; (count + 2) * PAGE], 0, vec![]);
        // The original is given pages that have just been copied, so ours is too.
        let mut lent_pages = pages.clone();
        let ours = || {
            lent_pages.copy_from_slice(&pages);
            let (mut tags, mut marks) = (table.tags.clone(), vec![0; table.tags.len() / PAGE]);
            let mut lent = Lent { n: table.n, tags: &mut tags, marks: &mut marks, cells: &mut [], log: &mut log };
            let (took, said) = timed(|| sync(&mut lent, &mut Writer::Fresh, start, &mine, &lent_pages));
            length = said.expect("the sync is taken").length;
            took
        };
        let original = || {
            let (took, log) = theirs::prepare(table.n, &SEED, &table.tags, 1, &other, &[]);
            log_of_theirs = log;
            took
        };
        let synced = row(format!("sync, {count} changes{edition}"), count, repeats, ours, original);
        assert!(same_entries(&log[..length], &log_of_theirs));
        let logs = [&log[..length], &log_of_theirs];
        [synced, replayed(&table, logs, &hashes, format!("replay, {count} entries{edition}"), (count, repeats))]
    })
}

/// The replay of a log by ours, and of the original's log of the same entries by the original.
fn replayed(
    table: &Table,
    [log, theirs]: [&[u8]; 2],
    hashes: &[u64],
    name: String,
    (count, repeats): (usize, usize),
) -> Row {
    let image = table.image();
    let (mut mine, mut other) = (image.clone(), vec![]);
    let ours = || {
        mine.copy_from_slice(&image);
        let (took, said) = timed(|| replay(&mut mine, table.n, log, 1, &SEED, hashes));
        assert!(said == Ok(Replayed::Applied));
        took
    };
    let original = || {
        let (took, image) = theirs::recover(&image, table.n as u32, &SEED, theirs, 1);
        other = image;
        took
    };
    let done = row(name, count, repeats, ours, original);
    assert!(mine == other);
    done
}

pub fn growth(bits: u32, repeats: usize, rng: &mut Rng) -> Row {
    let mut table = Table::new(1 << bits);
    table.fill(70, rng);
    let (image, hashes, folder) = (table.image(), table.hashes(), Folder::new());
    let new = 2 * table.n;
    let (mut mine, mut other) = (vec![0xFF; new.div_ceil(PAGE) * PAGE + new * PAGE], vec![]);
    let ours = || {
        let (took, said) = timed(|| grow(&image, table.n, &mut mine, new, &hashes));
        assert!(said == Ok(Grown::Done));
        took
    };
    let original = || {
        let (took, image) = theirs::grow(&folder, &image, table.n as u32, &SEED, new as u32);
        other = image;
        took
    };
    let done = row(format!("growth, 2^{bits} to 2^{}", bits + 1), table.n, repeats, ours, original);
    assert!(mine == other);
    done
}

pub fn audits(bits: u32, repeats: usize, rng: &mut Rng) -> Row {
    let mut table = Table::new(1 << bits);
    table.fill(70, rng);
    let (image, hashes, folder) = (table.image(), table.hashes(), Folder::new());
    theirs::put_table(&folder, &image, table.n as u32, &SEED);
    let (mut mine, mut other) = (0, 0);
    let ours = || {
        let (took, said) = timed(|| audit(&image, table.n, &hashes));
        mine = said.expect("the table passes").occupied;
        took
    };
    let original = || {
        let (took, occupied) = theirs::validate(&folder);
        other = occupied as u64;
        took
    };
    let done = row(format!("audit, 2^{bits}"), table.n, repeats, ours, original);
    assert!(mine == other);
    done
}
