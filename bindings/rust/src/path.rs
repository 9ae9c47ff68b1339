//! The path of a hash along a table's buckets: visit k is at (hash + k(k+1)/2) mod n.

use crate::{ffi, refusal::said, Refusal};

/// What probing comes to.
#[derive(Clone, Copy, Debug, PartialEq, Eq, Hash)]
pub enum Probed {
    /// A bucket that is empty.
    Empty {
        /// The bucket.
        bucket: u64,
        /// The visit that comes to it.
        visit: u64,
    },
    /// A bucket that was cleared.
    Tombstone {
        /// The bucket.
        bucket: u64,
        /// The visit that comes to it.
        visit: u64,
    },
    /// A bucket with the hash's full tag; its page tells whether it is the one.
    Hit {
        /// The bucket.
        bucket: u64,
        /// The visit that comes to it.
        visit: u64,
    },
    /// The path comes to none of these.
    Closed,
}

/// The first empty bucket, tombstone or hit among the 2n visits from visit k, taken mod 2n. To probe on,
/// ask again from the visit after the one answered.
///
/// # Errors
///
/// [`TableUnfit`](Refusal::TableUnfit).
pub fn probe(tags: &[u8], n: usize, hash: u64, k: u64) -> Result<Probed, Refusal> {
    let ffi::Probed { refusal, kind, bucket, visit } = ffi::probe(tags, n, hash, k);
    said(refusal)?;
    Ok(match kind {
        0 => Probed::Empty { bucket, visit },
        1 => Probed::Tombstone { bucket, visit },
        2 => Probed::Hit { bucket, visit },
        // 3; no other kind is answered.
        _ => Probed::Closed,
    })
}

/// What a lookup comes to.
#[derive(Clone, Copy, Debug, PartialEq, Eq, Hash)]
pub enum Found {
    /// The page is in this bucket.
    At(u64),
    /// It is not there: its path meets an empty bucket first.
    Absent,
    /// It is not there: its path meets neither it nor an empty bucket.
    Closed,
}

impl Found {
    /// The bucket, if the page was found.
    pub const fn bucket(self) -> Option<u64> {
        match self {
            Found::At(bucket) => Some(bucket),
            Found::Absent | Found::Closed => None,
        }
    }
}

/// The bucket of the page with this id and hash, in a table image.
///
/// # Errors
///
/// [`TableUnfit`](Refusal::TableUnfit).
pub fn lookup(image: &[u8], n: usize, hash: u64, id: &[u8; 32]) -> Result<Found, Refusal> {
    let ffi::Found { refusal, kind, bucket } = ffi::lookup(image, n, hash, id);
    said(refusal)?;
    Ok(match kind {
        0 => Found::At(bucket),
        1 => Found::Absent,
        // 2; no other kind is answered.
        _ => Found::Closed,
    })
}

/// Takes a bucket for a page with this hash: the first on its path that is empty or a tombstone, if at
/// most 9,998 hits come before it. Its tag becomes the hash's full tag.
///
/// # Errors
///
/// In this order: [`TableUnfit`](Refusal::TableUnfit); [`PathCrowded`](Refusal::PathCrowded) or
/// [`PathClosed`](Refusal::PathClosed).
pub fn allocate(tags: &mut [u8], n: usize, hash: u64) -> Result<u64, Refusal> {
    let answer = ffi::allocate(tags, n, hash);
    said(answer.refusal)?;
    Ok(answer.value)
}
