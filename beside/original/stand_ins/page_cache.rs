// Of page_cache.rs what bitbox uses: a page and the number of its nodes. The cache does nothing.
use crate::{
    bitbox::BucketIndex,
    io::{page_pool::FatPage, PagePool, PAGE_SIZE},
    merkle::ElidedChildren,
};
use nomt_core::{page::DEPTH, page_id::PageId, trie::Node};
use std::{fmt, sync::Arc};

// PASSAGE
#[derive(Clone)]
pub struct PageCache;

impl PageCache {
    pub fn batch_update(&self, _updated_pages: Vec<(PageId, Option<(Page, BucketIndex)>)>) {}

    pub fn evict(&self) {}
}
