//! The original by the clock, for the benchmark. Only the original's own call is timed, on memory that
//! was made ready before; what it does to files goes to files in memory.

use crate::{
    bitbox::{
        self,
        beside::{self, ht_file, meta_map::MetaMap},
        PageLoader,
    },
    diff::Words,
    hash::Seed,
    page_diff::beside::of,
    page_id::PageId,
    running::Folder,
    stage::with_stage,
    sync::{dirty, shared_cells, Change},
};
use std::{
    hint::black_box,
    time::{Duration, Instant},
};

fn timed<T>(run: impl FnOnce() -> T) -> (Duration, T) {
    let start = Instant::now();
    let value = run();
    (start.elapsed(), value)
}

pub type Table = [[u8; 32]; 126];

/// The nodes of the marked slots, put into a table as they come.
pub fn pack(d: Words, page: &[u8], times: usize) -> Duration {
    let d = of(d);
    timed(|| {
        for _ in 0..times {
            let mut nodes: Table = [[0; 32]; 126];
            for (to, node) in nodes.iter_mut().zip(black_box(&d).pack_changed_nodes(black_box(page))) {
                *to = node;
            }
            black_box(&nodes);
        }
    })
    .0
}

pub fn unpack(d: Words, nodes: &[[u8; 32]], page: &mut [u8], times: usize) -> Duration {
    let d = of(d);
    timed(|| {
        for _ in 0..times {
            black_box(&d).unpack_changed_nodes(black_box(nodes), black_box(&mut *page));
        }
    })
    .0
}

/// A map with these tags.
pub struct Map(MetaMap);

impl Map {
    pub fn new(tags: &[u8], n: usize) -> Self {
        Map(MetaMap::from_bytes(tags.to_vec(), n))
    }

    /// An allocation for each id: the buckets.
    pub fn allocate(&mut self, ids: &[[u8; 32]], seed: &Seed, buckets: &mut Vec<u64>) -> Duration {
        timed(|| buckets.extend(ids.iter().map(|id| beside::allocate(*id, &mut self.0, seed).unwrap_or(u64::MAX)))).0
    }

    pub fn full_count(&self, times: usize) -> (Duration, usize) {
        timed(|| (0..times).map(|_| black_box(&self.0).full_count()).last().unwrap_or(0))
    }
}

/// Makes the image of a table ready, for `load`.
pub fn put_image(image: &[u8], n: u32, seed: &Seed) {
    with_stage(|stage| {
        stage.put_image(image);
        stage.put_tags(n, *seed, &image[..(n as usize).div_ceil(4096) * 4096]);
    });
}

/// A load of each id on the image that is there: probing, reading the page, its label compared.
pub fn load(ids: &[[u8; 32]], buckets: &mut Vec<u64>) -> Duration {
    with_stage(|stage| {
        let loader = PageLoader::new(&stage.db);
        timed(|| {
            for id in ids {
                let mut load = loader.start_load(PageId(*id));
                let found = loop {
                    if !loader.probe(&mut load, &stage.io, 0) {
                        break u64::MAX;
                    }
                    stage.worker.carry_out();
                    let complete = stage.io.recv().expect("the read is done");
                    if let Some((_, bucket)) = load.try_complete(complete.command.kind.unwrap_buf()) {
                        break beside::index(bucket);
                    }
                };
                buckets.push(found);
            }
        })
        .0
    })
}

/// `prepare_sync`: the log.
pub fn prepare(n: usize, seed: &Seed, tags: &[u8], sync: u32, changes: &[Change], cells: &[u64]) -> (Duration, Vec<u8>) {
    with_stage(|stage| {
        stage.put_tags(n as u32, *seed, tags);
        let cells = shared_cells(cells);
        let changes = dirty(&stage.pool, changes, &cells);
        let (db, pool, builder) = (&stage.db, &stage.pool, &mut stage.builder);
        let (took, said) = timed(|| beside::prepare_sync(db, sync, pool, changes, builder));
        assert!(said.is_ok(), "the sync is taken");
        (took, stage.builder.as_slice().to_vec())
    })
}

/// `recover` of a log on an image: the image.
pub fn recover(image: &[u8], n: u32, seed: &Seed, log: &[u8], sync: u32) -> (Duration, Vec<u8>) {
    with_stage(|stage| {
        stage.put_image(image);
        stage.put_log(log);
        let (offsets, mut map) = ht_file::open(n, &stage.pool, stage.ht()).expect("a table file");
        let (took, said) =
            timed(|| beside::recover(sync, stage.ht(), stage.wal(), &stage.pool, &offsets, &mut map, *seed));
        said.expect("the log is taken");
        (took, stage.image())
    })
}

/// `grow_hashtable` on a table file: the file.
pub fn grow(folder: &Folder, image: &[u8], n: u32, seed: &Seed, new: u32) -> (Duration, Vec<u8>) {
    folder.put_meta(n, 1, *seed);
    folder.put_file("ht", image);
    folder.put_file("wal", &[]);
    let (took, said) = timed(|| bitbox::grow_hashtable(folder.path(), folder.pool(), new, false));
    said.expect("the table grows");
    (took, folder.file("ht"))
}

/// Makes a table file ready, for `validate`.
pub fn put_table(folder: &Folder, image: &[u8], n: u32, seed: &Seed) {
    folder.put_meta(n, 1, *seed);
    folder.put_file("ht", image);
    folder.put_file("wal", &[]);
}

/// `validate_hashtable`: the occupied buckets.
pub fn validate(folder: &Folder) -> (Duration, usize) {
    let (took, said) = timed(|| bitbox::validate_hashtable(folder.path(), folder.pool()));
    (took, said.expect("the table passes").occupied)
}
