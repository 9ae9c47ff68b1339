
pub(crate) mod beside {
    use super::*;

    pub(crate) fn offsets(num_pages: u32) -> HTOffsets {
        HTOffsets::new(num_pages)
    }

    pub(crate) fn expected_file_len(num_pages: u32) -> u64 {
        super::expected_file_len(num_pages)
    }

    pub(crate) fn num_meta_byte_pages(num_pages: u32) -> u32 {
        super::num_meta_byte_pages(num_pages)
    }

    pub(crate) fn open(
        num_pages: u32,
        page_pool: &PagePool,
        ht_fd: &File,
    ) -> anyhow::Result<(HTOffsets, MetaMap)> {
        super::open(num_pages, page_pool, ht_fd)
    }
}
