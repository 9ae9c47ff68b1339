//! Table image: "n buckets, 1 to 1,048,576. Tag pages M = ceil(n/4096), then n data pages; length
//! 4096(M+n). Bucket b is page M+b. Tag bytes from n on are padding."

use crate::{unless, Answer, PAGE};

pub const MOST: u64 = 1_048_576;

/// The tag pages of an allowed count, and of 0.
pub fn tag_pages_of(n: u64) -> u64 {
    n.div_ceil(4096)
}

/// The image's length for an allowed count, and for 0.
pub fn length_of(n: u64) -> u64 {
    4096 * (tag_pages_of(n) + n)
}

pub fn count(n: u64) -> Answer<()> {
    unless(1 <= n && n <= MOST, 1)
}

pub fn tag_pages(n: u64) -> Answer<u64> {
    count(n)?;
    Ok(tag_pages_of(n))
}

pub fn length(n: u64) -> Answer<u64> {
    count(n)?;
    Ok(length_of(n))
}

pub fn page_number(n: u64, bucket: u64) -> Answer<u64> {
    count(n)?;
    unless(bucket < n, 9)?;
    Ok(tag_pages_of(n) + bucket)
}

/// Tags are lent as exactly the tag pages.
pub fn tags_fit(tags: &[u8], n: u64) -> Answer<()> {
    count(n)?;
    unless(tags.len() as u64 == 4096 * tag_pages_of(n), 1)
}

/// An image is lent as exactly its pages.
pub fn image_fits(image: &[u8], n: u64) -> Answer<()> {
    count(n)?;
    unless(image.len() as u64 == length_of(n), 1)
}

/// The tags of an image that fits.
pub fn tags_of(image: &[u8], n: u64) -> &[u8] {
    &image[..PAGE * tag_pages_of(n) as usize]
}

/// Where the page of a bucket begins in an image that fits.
pub fn page_at(n: u64, bucket: u64) -> usize {
    PAGE * (tag_pages_of(n) + bucket) as usize
}

/// The page of a bucket in an image that fits.
pub fn page_of(image: &[u8], n: u64, bucket: u64) -> &[u8] {
    &image[page_at(n, bucket)..][..PAGE]
}

/// "8 bytes elided children and 32 bytes page id: the last 40."
pub const ELIDED_AT: usize = 4056;
pub const ID_AT: usize = 4064;
