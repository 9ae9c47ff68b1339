//! Replay: "the whole log is read before the image is touched. Update: full tag, marked slots, last 40
//! bytes. Clear: tombstone."

use crate::{
    after_end::AfterEnd,
    diff::NODE,
    edition::{Edition, Seed},
    places::{image_fits, page_at, ELIDED_AT, ID_AT},
    reader::{self, Entry},
    tags::{full_tag, TOMBSTONE},
    unless, Answer,
};

#[derive(Clone, Copy, Debug, PartialEq, Eq)]
pub enum Replayed {
    Nothing,
    Stale,
    Applied,
}

/// In order: 1, nothing, 5, 7, 26, stale, then the first bad entry, 27 "after the entries and before the hash count",
/// last that, 2. "Replay is lent the table's seed and refuses another store's log"; a log of edition one names none.
pub fn replay(
    image: &mut [u8],
    n: u64,
    log: &[u8],
    sync: u32,
    seed: &Seed,
    hashes: &[u64],
    after: AfterEnd,
) -> Answer<Replayed> {
    image_fits(image, n)?;
    if log.is_empty() {
        return Ok(Replayed::Nothing);
    }
    let start = reader::set(log)?;
    if let Some(named) = start.seed {
        unless(named == *seed, 26)?;
    }
    if start.sync != sync {
        return Ok(Replayed::Stale);
    }
    let (entries, end) = entries(log, start.edition(), n)?;
    after.look(&log[(end + start.edition().width()) as usize..])?;
    let updates = entries.iter().filter(|e| matches!(e, Entry::Update { .. })).count();
    unless(hashes.len() == updates, 2)?;

    let mut hashes = hashes.iter();
    for entry in &entries {
        match entry {
            Entry::Update { .. } => apply(image, n, entry, *hashes.next().expect("one for each update")),
            _ => apply(image, n, entry, 0),
        }
    }
    Ok(Replayed::Applied)
}

/// The entries of a log that begins with a start, each with a bucket below n, and where its end stands.
fn entries(log: &[u8], edition: Edition, n: u64) -> Answer<(Vec<Entry>, u64)> {
    let mut entries = Vec::new();
    let mut at = edition.first();
    loop {
        let (entry, next) = entry(log, edition, n, at, AfterEnd::Tolerant)?;
        if entry == Entry::End {
            return Ok((entries, at));
        }
        entries.push(entry);
        at = next;
    }
}

fn entry(log: &[u8], edition: Edition, n: u64, at: u64, after: AfterEnd) -> Answer<(Entry, u64)> {
    let (entry, next) = reader::next(log, edition, at, after)?;
    if let Entry::Clear { bucket } | Entry::Update { bucket, .. } = entry {
        unless(bucket < n, 9)?;
    }
    Ok((entry, next))
}

/// What an entry does to an image that fits.
fn apply(image: &mut [u8], n: u64, entry: &Entry, hash: u64) {
    match entry {
        Entry::End => {}
        Entry::Clear { bucket } => image[*bucket as usize] = TOMBSTONE,
        Entry::Update { id, diff, nodes, elided, bucket } => {
            image[*bucket as usize] = full_tag(hash);
            let page = &mut image[page_at(n, *bucket)..];
            for (slot, node) in diff.slots().into_iter().zip(nodes) {
                page[NODE * slot..NODE * (slot + 1)].copy_from_slice(node);
            }
            page[ELIDED_AT..ID_AT].copy_from_slice(elided);
            page[ID_AT..ID_AT + 32].copy_from_slice(id);
        }
    }
}

#[derive(Clone, Copy, Debug, PartialEq, Eq)]
pub enum Stepped {
    Cleared { next: u64 },
    Updated { next: u64 },
    End,
}

/// One entry of a log, applied: "each entry is applied by one step". In order: 1, the entry's; at end the reader's 27.
pub fn step(
    image: &mut [u8],
    n: u64,
    log: &[u8],
    edition: Edition,
    at: u64,
    hash: u64,
    after: AfterEnd,
) -> Answer<Stepped> {
    image_fits(image, n)?;
    let (entry, next) = entry(log, edition, n, at, after)?;
    apply(image, n, &entry, hash);
    Ok(match entry {
        Entry::Clear { .. } => Stepped::Cleared { next },
        Entry::Update { .. } => Stepped::Updated { next },
        Entry::End => Stepped::End,
    })
}
