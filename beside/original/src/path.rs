//! mod.rs: probing, lookup, allocation. A loop of the original that never ends can't be stopped, so a call
//! along a path is made only where the path, walked ahead by the original's own steps, comes to an end.

use crate::{
    bitbox::{
        beside::{self, ht_file, meta_map, meta_map::MetaMap, Probe},
        PageLoader,
    },
    caught::{caught, tried, Said, Trouble},
    hash::Seed,
    io::PAGE_SIZE,
    page_id::PageId,
    stage::with_stage,
};
use std::cell::RefCell;

#[derive(Clone, Copy, Debug, PartialEq, Eq)]
pub enum Probed {
    Hit(u64),
    Empty(u64),
    Tombstone(u64),
}

/// The buckets of a path's visits, by the original's own probe: along a table where every bucket is empty it
/// stops at each. After 2n visits they repeat (tests/path.rs).
pub fn visits<T>(n: usize, hash: u64, walk: impl FnOnce(&mut dyn Iterator<Item = u64>) -> T) -> T {
    thread_local!(static EMPTY: RefCell<Option<MetaMap>> = const { RefCell::new(None) });
    EMPTY.with_borrow_mut(|kept| {
        if kept.as_ref().is_none_or(|map| map.len() != n) {
            *kept = Some(MetaMap::from_bytes(vec![0; n.div_ceil(4096) * 4096], n));
        }
        let map = kept.as_ref().expect("it is kept");
        let mut probe = Probe::at(hash, hash % n as u64, 0);
        walk(&mut std::iter::from_fn(|| match probe.next(map) {
            beside::Probed::Empty(b) => Some(b),
            _ => None,
        }))
    })
}

/// What stands on a path.
#[derive(Clone, Copy, Debug, PartialEq, Eq)]
pub enum Ahead {
    /// An empty bucket, a tombstone, or a bucket that the tags do not reach.
    Stop,
    /// None of these, and so many hits in 2n visits.
    Hits(u64),
}

pub fn ahead(tags: &[u8], n: usize, hash: u64) -> Ahead {
    let full = meta_map::full_entry(hash);
    visits(n, hash, |path| {
        let mut hits = 0;
        for b in path.take(2 * n) {
            match tags.get(b as usize) {
                None | Some(0 | 0x7F) => return Ahead::Stop,
                Some(tag) => hits += (*tag == full) as u64,
            }
        }
        Ahead::Hits(hits)
    })
}

/// Whether a probe of an id's path would not come back. For a count far above those of 01 it is for the caller to see.
fn never_ends(tags: &[u8], n: usize, hash: u64) -> bool {
    (1..=1 << 21).contains(&n) && ahead(tags, n, hash) == Ahead::Hits(0)
}

/// Whether a load comes to an end: at an empty bucket, or at a hit whose page it takes for its own.
pub(crate) fn load_ends(tags: &[u8], n: usize, hash: u64, own: impl Fn(u64) -> bool) -> bool {
    let full = meta_map::full_entry(hash);
    visits(n, hash, |path| {
        path.take(2 * n).any(|b| {
            let tag = tags[b as usize];
            tag == 0 || tag == full && own(b)
        })
    })
}

/// The page number of a bucket's page in an image of n buckets, and whether it ends in an id.
pub(crate) fn ends_in(image: &[u8], n: usize, bucket: u64, id: &[u8; 32]) -> bool {
    let end = PAGE_SIZE * (n.div_ceil(4096) + bucket as usize + 1);
    image[end - 32..end] == id[..]
}

fn met(p: beside::Probed) -> Probed {
    match p {
        beside::Probed::Hit(b) => Probed::Hit(b),
        beside::Probed::Empty(b) => Probed::Empty(b),
        beside::Probed::Tombstone(b) => Probed::Tombstone(b),
    }
}

/// The probe that stands before visit `step`, carried on: what it comes to, and at which visit.
pub fn probe(tags: &[u8], n: usize, hash: u64, step: u64) -> Said<(Probed, u64)> {
    let map = caught(|| MetaMap::from_bytes(tags.to_vec(), n))?;
    if never_ends(tags, n, hash) {
        return Err(Trouble::Endless);
    }
    let bucket = match (n, step as u128) {
        (0, _) => 0,
        (_, 0) => hash % n as u64,
        (_, k) => ((hash as u128 + (k - 1) * k / 2) % n as u128) as u64,
    };
    caught(|| {
        let mut probe = Probe::at(hash, bucket, step);
        let stop = met(probe.next(&map));
        (stop, probe.step() - 1)
    })
}

/// A probe from the start, `times` times.
pub fn probe_on(tags: &[u8], n: usize, id: [u8; 32], seed: &Seed, times: usize) -> Said<Vec<(Probed, u64)>> {
    let map = caught(|| MetaMap::from_bytes(tags.to_vec(), n))?;
    if never_ends(tags, n, crate::hash::hash(id, seed)) {
        return Err(Trouble::Endless);
    }
    caught(|| {
        let mut probe = Probe::new(id, &map, seed);
        (0..times)
            .map(|_| {
                let stop = met(probe.next(&map));
                (stop, probe.step() - 1)
            })
            .collect()
    })
}

/// Tags in the original's hands, for allocation after allocation.
pub struct Map {
    map: MetaMap,
    seed: Seed,
}

impl Map {
    pub fn new(tags: &[u8], n: usize, seed: &Seed) -> Said<Self> {
        Ok(Map { map: caught(|| MetaMap::from_bytes(tags.to_vec(), n))?, seed: *seed })
    }

    pub fn tags(&self) -> &[u8] {
        meta_map::tags(&self.map)
    }

    pub fn tags_mut(&mut self) -> &mut [u8] {
        meta_map::tags_mut(&mut self.map)
    }

    /// The bucket given, none where the original gives up.
    pub fn allocate(&mut self, id: [u8; 32]) -> Said<Option<u64>> {
        if never_ends(self.tags(), self.map.len(), crate::hash::hash(id, &self.seed)) {
            return Err(Trouble::Endless);
        }
        caught(|| beside::allocate(id, &mut self.map, &self.seed))
    }
}

/// `ht_file::open` on an image and a page load there, `PageLoader::probe` and `PageLoad::try_complete` in turn:
/// the bucket, or none where the page is not there.
pub fn load(image: &[u8], n: u32, id: [u8; 32], seed: &Seed) -> Said<Option<u64>> {
    with_stage(|stage| {
        stage.put_image(image);
        let (_, map) = tried(|| ht_file::open(n, &stage.pool, stage.ht()))?;
        let tags = meta_map::tags(&map).to_vec();
        stage.put_tags(n, *seed, &tags);
        let hash = crate::hash::hash(id, seed);
        let buckets = n as usize;
        if n > 0 && !load_ends(&tags, buckets, hash, |b| ends_in(image, buckets, b, &id)) {
            return Err(Trouble::Endless);
        }
        caught(|| {
            let loader = PageLoader::new(&stage.db);
            let mut load = loader.start_load(PageId(id));
            loop {
                if !loader.probe(&mut load, &stage.io, 0) {
                    return None;
                }
                stage.worker.carry_out();
                let complete = stage.io.recv().expect("the read is done");
                complete.result.expect("a page of the table");
                if let Some((_, bucket)) = load.try_complete(complete.command.kind.unwrap_buf()) {
                    return Some(beside::index(bucket));
                }
            }
        })
    })
}
