//! ht_file.rs: lengths and page numbers.

use crate::{
    bitbox::beside::ht_file,
    caught::{caught, tried, Said},
    stage::with_stage,
};

pub fn num_meta_byte_pages(n: u32) -> Said<u32> {
    caught(|| ht_file::num_meta_byte_pages(n))
}

pub fn expected_file_len(n: u32) -> Said<u64> {
    caught(|| ht_file::expected_file_len(n))
}

pub fn data_page_index(n: u32, bucket: u64) -> Said<u64> {
    caught(|| ht_file::offsets(n).data_page_index(bucket))
}

pub fn meta_bytes_index(n: u32, ix: u64) -> Said<u64> {
    caught(|| ht_file::offsets(n).meta_bytes_index(ix))
}

/// Opens a table file of zeros of a length: the number of its buckets, or an error for the length.
pub fn open(n: u32, len: u64) -> Said<usize> {
    with_stage(|stage| {
        stage.put_zeros(len);
        tried(|| ht_file::open(n, &stage.pool, stage.ht()).map(|(_, map)| map.len()))
    })
}
