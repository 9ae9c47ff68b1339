//! A table's tags, lengths and page numbers.

use crate::{ffi, refusal::said, Refusal};

/// The bytes of a page.
pub const PAGE: usize = 4096;

/// The most buckets that a table has.
pub const MOST_BUCKETS: usize = 1_048_576;

/// The tag of an empty bucket.
pub const EMPTY: u8 = 0x00;

/// The tag of a bucket that was cleared.
pub const TOMBSTONE: u8 = 0x7F;

/// The tag of a full bucket whose page has this hash: 128 and the hash's upper seven bits.
pub fn full_tag(hash: u64) -> u8 {
    ffi::full_tag(hash)
}

/// Whether a tag is that of an empty bucket.
pub fn hint_empty(tag: u8) -> bool {
    ffi::hint_empty(tag)
}

/// Whether a tag is a tombstone.
pub fn hint_tombstone(tag: u8) -> bool {
    ffi::hint_tombstone(tag)
}

/// Whether a tag is not the full tag of this hash.
pub fn hint_not_match(tag: u8, hash: u64) -> bool {
    ffi::hint_not_match(tag, hash)
}

/// Whether a tag is that of a full bucket.
pub fn is_full(tag: u8) -> bool {
    ffi::is_full(tag)
}

/// Makes a bucket's tag the full tag of a hash.
///
/// # Errors
///
/// In this order: [`TableUnfit`](Refusal::TableUnfit), [`BucketOutside`](Refusal::BucketOutside).
pub fn set_full(tags: &mut [u8], n: usize, bucket: u64, hash: u64) -> Result<(), Refusal> {
    said(ffi::set_full(tags, n, bucket, hash).refusal)
}

/// Makes a bucket's tag a tombstone.
///
/// # Errors
///
/// In this order: [`TableUnfit`](Refusal::TableUnfit), [`BucketOutside`](Refusal::BucketOutside).
pub fn set_tombstone(tags: &mut [u8], n: usize, bucket: u64) -> Result<(), Refusal> {
    said(ffi::set_tombstone(tags, n, bucket).refusal)
}

/// How many buckets are full.
///
/// # Errors
///
/// [`TableUnfit`](Refusal::TableUnfit).
pub fn full_count(tags: &[u8], n: usize) -> Result<u64, Refusal> {
    let answer = ffi::full_count(tags, n);
    said(answer.refusal)?;
    Ok(answer.value)
}

/// Whether the bytes after the last tag are all zero.
///
/// # Errors
///
/// [`TableUnfit`](Refusal::TableUnfit).
pub fn padding_is_empty(tags: &[u8], n: usize) -> Result<bool, Refusal> {
    let answer = ffi::padding_is_empty(tags, n);
    said(answer.refusal)?;
    Ok(answer.value != 0)
}

/// The tag page that has a bucket's tag, counted from 0: the one whose mark a sync sets.
pub fn tag_page(bucket: u64) -> u64 {
    ffi::tag_page(bucket)
}

/// How many tag pages a table of n buckets has.
///
/// # Errors
///
/// [`TableUnfit`](Refusal::TableUnfit).
pub fn tag_pages(n: usize) -> Result<u64, Refusal> {
    let answer = ffi::tag_pages(n);
    said(answer.refusal)?;
    Ok(answer.value)
}

/// How many bytes the image of a table of n buckets has.
///
/// # Errors
///
/// [`TableUnfit`](Refusal::TableUnfit).
pub fn table_length(n: usize) -> Result<u64, Refusal> {
    let answer = ffi::table_length(n);
    said(answer.refusal)?;
    Ok(answer.value)
}

/// The number of a bucket's page in the image.
///
/// # Errors
///
/// In this order: [`TableUnfit`](Refusal::TableUnfit), [`BucketOutside`](Refusal::BucketOutside).
pub fn page_number(n: usize, bucket: u64) -> Result<u64, Refusal> {
    let answer = ffi::page_number(n, bucket);
    said(answer.refusal)?;
    Ok(answer.value)
}
