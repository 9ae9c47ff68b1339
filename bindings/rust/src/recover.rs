//! Replay: a sync's log, taken into the table's image after a stop.

use crate::{
    ffi,
    log::{position, AfterEnd},
    refusal::said,
    Edition, Refusal, Seed,
};

/// What a replay comes to.
#[derive(Clone, Copy, Debug, PartialEq, Eq, Hash)]
pub enum Replayed {
    /// The log is empty: nothing was to be done.
    Nothing,
    /// The log has another sync number: the image is as it was.
    Stale,
    /// The log is in the image.
    Applied,
}

/// Takes a log of either edition into a table's image. The whole log is read before the image is touched. Wherever a
/// replay stops, another one from there ends in the same image. `hashes` has the hash of each update's page, in
/// the log's order.
///
/// `sync_seqn` and `seed` are the store's own. A log of edition two that names another seed is refused. **One of
/// edition one names none**: it is taken if it has the same sync number, whichever store's it is.
///
/// After the log's end zeros are wanted, up to the end of `log`: lend exactly as many bytes as the sync answered. What
/// else stands there may be entries of a longer log that this one was written over. [`replay_tolerant`] does not look.
///
/// ```
/// use bitbox::*;
///
/// # fn main() -> Result<(), Box<dyn std::error::Error>> {
/// const N: usize = 8;
/// let seed = *b"of one recording"; // a service draws it by chance
/// let id = [7; 32];
/// let hash_of = |_id: &PageId| 42; // the service's own hash
/// let mut page = [1; PAGE];
/// page[PAGE - 32..].copy_from_slice(&id);
///
/// // A sync works on the tags in memory and writes the log; the image stays as it was.
/// let mut image = vec![0; table_length(N)? as usize];
/// let mut tags = image[..PAGE * tag_pages(N)? as usize].to_vec();
/// let (mut marks, mut log, mut writer) = ([0; 1], [0; PAGE], Writer::Fresh);
/// let changes = [Change::new(id, hash_of(&id), Diff::default().set_changed(3)?, Where::Fresh)];
/// let mut lent = Lent { n: N, tags: &mut tags, marks: &mut marks, cells: &mut [], log: &mut log };
/// let synced = sync(&mut lent, &mut writer, Start::two(1, seed), &changes, &page)?;
/// let log = &log[..synced.length];
///
/// // After a power cut: the hashes of the log's updates, then the replay.
/// let mut hashes = vec![];
/// for entry in Reader::new(log)? {
///     if let Entry::Update(update) = entry? {
///         hashes.push(hash_of(&update.id));
///     }
/// }
/// assert_eq!(replay(&mut image, N, log, 1, b"of its rehearsal", &hashes), Err(Refusal::OtherStore));
/// assert_eq!(replay(&mut image, N, log, 1, &seed, &hashes)?, Replayed::Applied);
/// assert_eq!(image[..tags.len()], tags);
/// assert_eq!(lookup(&image, N, 42, &id)?, Found::At(2));
/// assert_eq!(audit(&image, N, &[42; N])?.occupied, 1);
/// # Ok(())
/// # }
/// ```
///
/// # Errors
///
/// In this order: [`TableUnfit`](Refusal::TableUnfit), [`LogNotPages`](Refusal::LogNotPages),
/// [`NoStart`](Refusal::NoStart), [`OtherStore`](Refusal::OtherStore); then, unless the log is stale, those of the
/// first bad entry, [`LogCut`](Refusal::LogCut), [`DiffReserved`](Refusal::DiffReserved),
/// [`TagUnknown`](Refusal::TagUnknown) or [`BucketOutside`](Refusal::BucketOutside); then
/// [`AfterEndUsed`](Refusal::AfterEndUsed): a byte after the end is not zero; last
/// [`LengthUnfit`](Refusal::LengthUnfit): there are not as many hashes as updates.
pub fn replay(
    image: &mut [u8],
    n: usize,
    log: &[u8],
    sync_seqn: u32,
    seed: &Seed,
    hashes: &[u64],
) -> Result<Replayed, Refusal> {
    replay_by(image, n, log, sync_seqn, seed, hashes, AfterEnd::Zeros)
}

/// What [`replay`] does, whatever follows the log's end: for logs that have something there, as a label. Where both are
/// applied they leave the same image.
///
/// # Errors
///
/// Those of [`replay`] in its order, without [`AfterEndUsed`](Refusal::AfterEndUsed).
pub fn replay_tolerant(
    image: &mut [u8],
    n: usize,
    log: &[u8],
    sync_seqn: u32,
    seed: &Seed,
    hashes: &[u64],
) -> Result<Replayed, Refusal> {
    replay_by(image, n, log, sync_seqn, seed, hashes, AfterEnd::Tolerant)
}

fn replay_by(
    image: &mut [u8],
    n: usize,
    log: &[u8],
    sync_seqn: u32,
    seed: &Seed,
    hashes: &[u64],
    rule: AfterEnd,
) -> Result<Replayed, Refusal> {
    let answer = ffi::replay(image, n, log, sync_seqn, seed, hashes, rule);
    said(answer.refusal)?;
    Ok(match answer.value {
        0 => Replayed::Nothing,
        1 => Replayed::Stale,
        // 2; no other value is answered.
        _ => Replayed::Applied,
    })
}

/// What a step of a replay comes to.
#[derive(Clone, Copy, Debug, PartialEq, Eq, Hash)]
pub enum Stepped {
    /// No entry is left.
    End,
    /// A clear is in the image.
    Cleared {
        /// Where the next entry stands.
        next: usize,
    },
    /// An update is in the image.
    Updated {
        /// Where the next entry stands.
        next: usize,
    },
}

/// Takes the entry at a position of a log of this edition into a table's image; `hash` is that of an update's page.
/// Neither the log's number nor its seed is looked at: that is [`replay`]'s, which looks before its first step. What
/// follows the log's end is looked at where the step comes to the end, and not before: what earlier steps did stays.
///
/// # Errors
///
/// In this order: [`TableUnfit`](Refusal::TableUnfit); those of the entry, as [`replay`] has them; in place of
/// [`Stepped::End`] [`AfterEndUsed`](Refusal::AfterEndUsed).
pub fn replay_step(
    image: &mut [u8],
    n: usize,
    log: &[u8],
    edition: Edition,
    at: usize,
    hash: u64,
) -> Result<Stepped, Refusal> {
    step_by(image, n, log, edition, at, hash, AfterEnd::Zeros)
}

/// What [`replay_step`] does, whatever follows the log's end.
///
/// # Errors
///
/// Those of [`replay_step`], without [`AfterEndUsed`](Refusal::AfterEndUsed).
pub fn replay_step_tolerant(
    image: &mut [u8],
    n: usize,
    log: &[u8],
    edition: Edition,
    at: usize,
    hash: u64,
) -> Result<Stepped, Refusal> {
    step_by(image, n, log, edition, at, hash, AfterEnd::Tolerant)
}

fn step_by(
    image: &mut [u8],
    n: usize,
    log: &[u8],
    edition: Edition,
    at: usize,
    hash: u64,
    rule: AfterEnd,
) -> Result<Stepped, Refusal> {
    let ffi::Stepped { refusal, kind, next } = ffi::replay_step(image, n, log, edition.number(), at, hash, rule);
    said(refusal)?;
    let next = position(next);
    Ok(match kind {
        0 => Stepped::End,
        1 => Stepped::Cleared { next },
        // 2; no other kind is answered.
        _ => Stepped::Updated { next },
    })
}
