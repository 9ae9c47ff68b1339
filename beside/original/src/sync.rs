//! mod.rs: `prepare_sync`.

use crate::{
    bitbox::{
        beside::{self, wal},
        SharedMaybeBucketIndex,
    },
    caught::{caught, Said, Trouble},
    diff::Words,
    hash::Seed,
    io::{PagePool, PAGE_SIZE},
    page_cache::PageMut,
    page_diff,
    page_id::PageId,
    stage::with_stage,
    store::{BucketInfo, DirtyPage},
};

#[derive(Clone, Copy, Debug, PartialEq, Eq)]
pub enum Place {
    Known(u64),
    Fresh,
    Cell(usize),
}

#[derive(Clone, Copy, Debug)]
pub struct Change<'a> {
    pub id: [u8; 32],
    pub diff: Words,
    pub place: Place,
    pub page: &'a [u8],
}

/// What a sync has given.
#[derive(Clone, Debug, PartialEq, Eq)]
pub struct Prepared {
    /// The pages to write, by page number, in the order in which they were given (with debug
    /// assertions: by page number).
    pub pages: Vec<(u64, Vec<u8>)>,
    /// The bucket of each change, none for a clear.
    pub buckets: Vec<Option<u64>>,
}

/// What a sync leaves, whether it came back or not.
#[derive(Clone, Debug, Default, PartialEq, Eq)]
pub struct Left {
    pub tags: Vec<u8>,
    pub cells: Vec<u64>,
    pub occupied: u64,
    /// What stands in the log's buffer.
    pub log: Vec<u8>,
}

/// The changes as the original takes them, and the cells they share.
pub(crate) fn dirty(pool: &PagePool, changes: &[Change], cells: &[SharedMaybeBucketIndex]) -> Vec<(PageId, DirtyPage)> {
    changes
        .iter()
        .map(|c| {
            let mut page = pool.alloc_fat_page();
            page[..PAGE_SIZE].copy_from_slice(c.page);
            let bucket = match c.place {
                Place::Known(b) => BucketInfo::Known(beside::bucket(b)),
                Place::Fresh => BucketInfo::FreshWithNoDependents,
                Place::Cell(i) => BucketInfo::FreshOrDependent(cells[i].clone()),
            };
            let page = PageMut::pristine_with_data(page).freeze();
            (PageId(c.id), DirtyPage { page, diff: page_diff::beside::of(c.diff), bucket })
        })
        .collect()
}

pub(crate) fn shared_cells(cells: &[u64]) -> Vec<SharedMaybeBucketIndex> {
    cells.iter().map(|&c| SharedMaybeBucketIndex::new((c != u64::MAX).then(|| beside::bucket(c)))).collect()
}

pub(crate) fn plain_cells(cells: &[SharedMaybeBucketIndex]) -> Vec<u64> {
    cells.iter().map(|c| c.get().map_or(u64::MAX, beside::index)).collect()
}

/// `prepare_sync` on these tags. It is for the caller to see that no change would probe for ever. Nothing is left
/// where a map of the tags can't be had.
pub fn prepare(
    n: usize,
    seed: &Seed,
    tags: &[u8],
    sync: u32,
    changes: &[Change],
    cells: &[u64],
) -> (Said<Prepared>, Left) {
    with_stage(|stage| {
        if let Err(trouble) = caught(|| stage.put_tags(n as u32, *seed, tags)) {
            return (Err(trouble), Left::default());
        }
        let cells = shared_cells(cells);
        let changes = dirty(&stage.pool, changes, &cells);
        let builder: &mut wal::write::WalBlobBuilder = &mut stage.builder;
        let (db, pool) = (&stage.db, &stage.pool);
        let said = caught(|| beside::prepare_sync(db, sync, pool, changes, builder))
            .and_then(|r| r.map_err(|e| Trouble::Error(e.to_string())));
        let left = Left {
            tags: beside::tags(&stage.db),
            cells: plain_cells(&cells),
            occupied: stage.db.utilization().occupied as u64,
            log: stage.builder.as_slice().to_vec(),
        };
        let said = said.map(|(pages, updates)| Prepared {
            pages: pages.iter().map(|(pn, page)| (*pn, page.to_vec())).collect(),
            buckets: updates.into_iter().map(|(_, update)| update.map(|(_, bucket)| beside::index(bucket))).collect(),
        });
        (said, left)
    })
}
