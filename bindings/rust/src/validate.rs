//! The audit of a table.

use crate::{ffi, refusal::said, Refusal};

/// What an audit answers of a table that passes.
#[derive(Clone, Copy, Debug, PartialEq)]
pub struct Audit {
    /// How many buckets there are.
    pub capacity: u64,
    /// How many of them are full.
    pub occupied: u64,
    /// The share that is full.
    pub rate: f64,
}

/// Whether every page of a table can be found. `hashes` has one hash for each bucket; those of buckets
/// that are not full are ignored. Where more than 64 buckets are full it takes about 260 KB of stack, by far the most of
/// all calls here.
///
/// # Errors
///
/// In this order: [`TableUnfit`](Refusal::TableUnfit), [`LengthUnfit`](Refusal::LengthUnfit) for the
/// hashes, [`PaddingUsed`](Refusal::PaddingUsed); then bucket by bucket
/// [`LabelTwice`](Refusal::LabelTwice), [`TagWrong`](Refusal::TagWrong),
/// [`EmptyFirst`](Refusal::EmptyFirst) or [`NotReached`](Refusal::NotReached).
pub fn audit(image: &[u8], n: usize, hashes: &[u64]) -> Result<Audit, Refusal> {
    let ffi::Audited { refusal, capacity, occupied, rate } = ffi::audit(image, n, hashes);
    said(refusal)?;
    Ok(Audit { capacity, occupied, rate })
}
