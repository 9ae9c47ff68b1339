//! Writer: "fresh, open or finished. Capacity is the lent slice rounded down to 4,096."

use crate::{
    diff::{Diff, Packed},
    edition::{Edition, Start},
    reader::{CLEAR, END, START, UPDATE},
    unless, Answer, Refused, PAGE,
};

/// Open in an edition with the position of the next record; finished with the log's length.
#[derive(Clone, Copy, Debug, PartialEq, Eq)]
pub enum Writer {
    Fresh,
    Open(Edition, u64),
    Finished(u64),
}

fn capacity(log: &[u8]) -> u128 {
    (log.len() / PAGE * PAGE) as u128
}

/// "A record is taken exactly when position + size + 1 is at most capacity"; "a record of edition two is taken when
/// position + size + 2 is". So end fits behind each.
pub fn room(log: &[u8], edition: Edition, at: u64, size: u64) -> Answer<()> {
    unless(at as u128 + size as u128 + edition.width() as u128 <= capacity(log), 13)
}

/// The edition and the position of an open writer, else 12.
pub fn position(w: Writer) -> Answer<(Edition, u64)> {
    match w {
        Writer::Open(edition, at) => Ok((edition, at)),
        _ => Err(Refused(12)),
    }
}

/// "Begin works in any state and needs capacity 4,096."
pub fn begin(log: &mut [u8], start: Start) -> Answer<Writer> {
    unless(capacity(log) >= 4096, 13)?;
    let edition = start.edition();
    let at = put(log, 0, &edition.mark(START));
    let at = put(log, at, &start.sync.to_le_bytes());
    Ok(Writer::Open(edition, put(log, at, start.seed.as_ref().map_or(&[], |seed| &seed[..]))))
}

/// In order: 12, 13.
pub fn clear(log: &mut [u8], w: Writer, bucket: u64) -> Answer<Writer> {
    let (edition, at) = position(w)?;
    room(log, edition, at, edition.clear_size())?;
    let at = put(log, at, &edition.mark(CLEAR));
    Ok(Writer::Open(edition, put(log, at, &bucket.to_le_bytes())))
}

/// In order: 12, 2, 4, 13.
pub fn update(
    log: &mut [u8],
    w: Writer,
    id: &[u8; 32],
    d: Diff,
    packed: &Packed,
    elided: &[u8; 8],
    bucket: u64,
) -> Answer<Writer> {
    let (edition, at) = position(w)?;
    unless(packed.count == d.count(), 2)?;
    unless(!d.reserved(), 4)?;
    room(log, edition, at, edition.update_size(d.count()))?;
    let at = put(log, at, &edition.mark(UPDATE));
    let at = put(log, at, id);
    let at = put(log, at, &d.bytes());
    let at = put(log, at, packed.nodes[..packed.count as usize].as_flattened());
    let at = put(log, at, elided);
    Ok(Writer::Open(edition, put(log, at, &bucket.to_le_bytes())))
}

/// "Finish answers the length of the log, which starts the slice." In order: 12, 13.
pub fn finish(log: &mut [u8], w: Writer) -> Answer<(u64, Writer)> {
    let (edition, at) = position(w)?;
    room(log, edition, at, 0)?;
    let at = put(log, at, &edition.mark(END));
    let length = at.next_multiple_of(PAGE as u64);
    log[at as usize..length as usize].fill(0);
    Ok((length, Writer::Finished(length)))
}

/// Writes bytes at a position; the position after them.
fn put(log: &mut [u8], at: u64, bytes: &[u8]) -> u64 {
    log[at as usize..][..bytes.len()].copy_from_slice(bytes);
    at + bytes.len() as u64
}
