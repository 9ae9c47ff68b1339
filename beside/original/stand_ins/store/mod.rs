// Stand-in for the store: what bitbox takes from it.
pub mod meta;

use crate::{
    bitbox::{BucketIndex, SharedMaybeBucketIndex},
    page_cache::Page,
    page_diff::PageDiff,
};

pub enum BucketInfo {
    Known(BucketIndex),
    FreshWithNoDependents,
    FreshOrDependent(SharedMaybeBucketIndex),
}

pub struct DirtyPage {
    pub page: Page,
    pub diff: PageDiff,
    pub bucket: BucketInfo,
}
