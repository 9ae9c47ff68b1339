//! Growth: a table copied into one of more buckets, and the marker that tells of it.

use crate::{ffi, refusal::said, Refusal};

/// The counts of a growth marker.
#[derive(Clone, Copy, Debug, PartialEq, Eq, Hash)]
pub struct Marker {
    /// The bucket count before.
    pub old: u32,
    /// The bucket count afterwards.
    pub new: u32,
}

/// The bytes of a growth marker.
///
/// # Errors
///
/// [`MarkerOrder`](Refusal::MarkerOrder): the new count is not above the old one.
pub fn write_marker(marker: Marker) -> Result<[u8; 16], Refusal> {
    let answer = ffi::write_marker(marker.old, marker.new);
    said(answer.refusal)?;
    Ok(answer.bytes)
}

/// A growth marker out of its bytes.
///
/// # Errors
///
/// In this order: [`MarkerLength`](Refusal::MarkerLength), [`MarkerMagic`](Refusal::MarkerMagic),
/// [`MarkerOrder`](Refusal::MarkerOrder).
pub fn read_marker(bytes: &[u8]) -> Result<Marker, Refusal> {
    let answer = ffi::read_marker(bytes);
    said(answer.refusal)?;
    // A marker has its counts in four bytes each, so they fit.
    let count = |n: u64| u32::try_from(n).unwrap_or(u32::MAX);
    Ok(Marker { old: count(answer.old), new: count(answer.new) })
}

/// What is left to do of a growth.
#[derive(Clone, Copy, Debug, PartialEq, Eq, Hash)]
pub enum Pending {
    /// Remove what the growth has left.
    Tidy,
    /// Write the new count to the metadata, then remove what the growth has left.
    UpdateMetaThenTidy,
}

/// What is left to do of a growth from `old` to `new` buckets, by the metadata's count and the length of
/// the table's file. An old count of 0 is allowed.
///
/// # Errors
///
/// In this order: [`TableUnfit`](Refusal::TableUnfit): a count is above the limit;
/// [`MarkerOrder`](Refusal::MarkerOrder), [`NothingPending`](Refusal::NothingPending).
pub fn pending(old: u64, new: u64, meta: u64, file_len: u64) -> Result<Pending, Refusal> {
    let answer = ffi::pending(old, new, meta, file_len);
    said(answer.refusal)?;
    Ok(match answer.value {
        0 => Pending::Tidy,
        // 1; no other value is answered.
        _ => Pending::UpdateMetaThenTidy,
    })
}

/// What a growth comes to.
#[derive(Clone, Copy, Debug, PartialEq, Eq, Hash)]
pub enum Grown {
    /// The counts are equal: nothing was written.
    NothingToDo,
    /// The new image holds every page.
    Done,
}

/// Copies each full bucket's page into the image of a larger table. `hashes` has one hash for each old
/// bucket; those of buckets that are not full are ignored.
///
/// # Errors
///
/// In this order: [`TableUnfit`](Refusal::TableUnfit) for a count, [`WouldShrink`](Refusal::WouldShrink);
/// [`LengthUnfit`](Refusal::LengthUnfit) for an image or the hashes; [`PathCrowded`](Refusal::PathCrowded)
/// or [`PathClosed`](Refusal::PathClosed), which leave the new image all zero.
pub fn grow(
    old_image: &[u8],
    old_n: usize,
    new_image: &mut [u8],
    new_n: usize,
    hashes: &[u64],
) -> Result<Grown, Refusal> {
    let answer = ffi::grow(old_image, old_n, new_image, new_n, hashes);
    said(answer.refusal)?;
    Ok(match answer.value {
        0 => Grown::NothingToDo,
        // 1; no other value is answered.
        _ => Grown::Done,
    })
}
