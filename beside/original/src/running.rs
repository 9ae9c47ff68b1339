//! The original as a service runs it: a folder with the files meta, ht and wal, a database on it, syncs
//! that write them, stops between the writes.

use crate::{
    bitbox::{self, beside, PageLoader, DB},
    caught::{caught, tried, Said, Trouble},
    hash::Seed,
    io::{start_io_pool, IoPool, PagePool, PAGE_SIZE},
    page_cache::PageCache,
    page_id::PageId,
    path::{ends_in, load_ends},
    stage::{put, taken, taken_pages},
    store::meta::Meta,
    sync::{dirty, plain_cells, shared_cells, Change},
};
use std::{
    fs::{self, File, OpenOptions},
    os::unix::fs::FileExt,
    path::{Path, PathBuf},
    sync::atomic::{AtomicU64, Ordering},
};

/// A folder of its own, in memory where there is such a place, that is removed in the end.
pub struct Folder {
    path: PathBuf,
    pool: PagePool,
}

impl Folder {
    pub fn new() -> Self {
        static NEXT: AtomicU64 = AtomicU64::new(0);
        let memory = Path::new("/dev/shm");
        let above = if memory.is_dir() { memory.to_path_buf() } else { std::env::temp_dir() };
        let name = format!("russuladen-{}-{}", std::process::id(), NEXT.fetch_add(1, Ordering::Relaxed));
        let path = above.join(name);
        fs::create_dir_all(&path).expect("a folder to run in");
        Folder { path, pool: PagePool::new() }
    }

    pub fn path(&self) -> &Path {
        &self.path
    }

    pub(crate) fn pool(&self) -> &PagePool {
        &self.pool
    }

    fn open(&self, name: &str) -> File {
        OpenOptions::new()
            .read(true)
            .write(true)
            .create(true)
            .truncate(false)
            .open(self.path.join(name))
            .expect("a file of the folder")
    }

    pub fn put_file(&self, name: &str, bytes: &[u8]) {
        put(&self.open(name), bytes);
    }

    pub fn put_file_len(&self, name: &str, len: u64) {
        let file = self.open(name);
        file.set_len(0).expect("a file of the folder");
        file.set_len(len).expect("a file of the folder");
    }

    pub fn file(&self, name: &str) -> Vec<u8> {
        taken(&self.open(name))
    }

    /// The length of a file, and its pages that are not all zero.
    pub fn file_pages(&self, name: &str) -> (u64, Vec<(u64, Vec<u8>)>) {
        taken_pages(&self.open(name))
    }

    pub fn has(&self, name: &str) -> bool {
        self.path.join(name).exists()
    }

    pub fn remove(&self, name: &str) {
        let _ = fs::remove_file(self.path.join(name));
    }

    pub fn put_meta(&self, n: u32, sync: u32, seed: Seed) {
        let mut meta = Meta::create_new(seed, n);
        meta.sync_seqn = sync;
        Meta::write(&self.pool, &self.open("meta"), &meta).expect("a file of the folder");
    }

    pub fn meta_count(&self) -> u32 {
        Meta::read(&self.pool, &self.open("meta")).expect("a file of the folder").bitbox_num_pages
    }
}

impl Default for Folder {
    fn default() -> Self {
        Self::new()
    }
}

impl Drop for Folder {
    fn drop(&mut self) {
        let _ = fs::remove_dir_all(&self.path);
    }
}

/// A store that is open.
pub struct Running {
    pub folder: Folder,
    pub seed: Seed,
    pub n: u32,
    /// The last sync that the meta file knows.
    pub sync: u32,
    db: Option<DB>,
    io: IoPool,
}

/// How far a sync is let go before the power is cut.
#[derive(Clone, Debug, PartialEq, Eq)]
pub enum Cut {
    /// It ends.
    None,
    /// The log is written, the meta file isn't.
    BeforeMeta,
    /// Log and meta file are written, and of each of the table's pages some bytes: see `written`.
    Among(u64),
}

/// How many bytes of a page are written before the power is cut: none, all, or some.
pub fn written(bits: u64, pn: u64) -> usize {
    match bits >> (2 * (pn % 32)) & 3 {
        0 => 0,
        1 | 2 => PAGE_SIZE,
        _ => (bits.rotate_left(pn as u32 % 64).wrapping_mul(0x9E37_79B9_7F4A_7C15) >> 52) as usize,
    }
}

/// What a sync gave.
#[derive(Clone, Debug, PartialEq, Eq)]
pub struct Synced {
    pub occupied: u64,
    pub log: Vec<u8>,
    pub tags: Vec<u8>,
    pub cells: Vec<u64>,
}

impl Running {
    /// A new store of n empty buckets.
    pub fn create(n: u32, seed: Seed) -> Said<Self> {
        let folder = Folder::new();
        folder.put_meta(n, 0, seed);
        caught(|| bitbox::create(folder.path().to_path_buf(), n, false))?.map_err(|e| Trouble::Error(e.to_string()))?;
        let io = start_io_pool(1, PagePool::new());
        let mut running = Running { folder, seed, n, sync: 0, db: None, io };
        running.open()?;
        Ok(running)
    }

    /// `DB::open`, which replays a log that is there.
    pub fn open(&mut self) -> Said<()> {
        self.db = None;
        let folder = &self.folder;
        let db = tried(|| {
            DB::open(self.sync, self.n, self.seed, folder.pool.clone(), folder.open("ht"), folder.open("wal"))
        })?;
        self.db = Some(db);
        Ok(())
    }

    fn db(&self) -> &DB {
        self.db.as_ref().expect("the store is open")
    }

    pub fn image(&self) -> Vec<u8> {
        self.folder.file("ht")
    }

    /// Puts table and log back as they were when the power was cut, and closes the store.
    pub fn put_back(&mut self, image: &[u8], log: &[u8]) {
        self.db = None;
        self.folder.put_file("ht", image);
        self.folder.put_file("wal", log);
    }

    pub fn wal(&self) -> Vec<u8> {
        self.folder.file("wal")
    }

    pub fn tags(&self) -> Vec<u8> {
        beside::tags(self.db())
    }

    pub fn occupied(&self) -> u64 {
        self.db().utilization().occupied as u64
    }

    /// A whole sync by `SyncController`, up to a cut; afterwards the store is closed if it was cut.
    pub fn sync(&mut self, changes: &[Change], cells: &[u64], cut: &Cut) -> Said<Synced> {
        let number = self.sync + 1;
        let cells = shared_cells(cells);
        let changes = dirty(&self.folder.pool, changes, &cells);
        let mut controller = self.db().sync();
        tried(|| {
            controller.begin_sync(number, PageCache, changes);
            controller.wait_pre_meta()
        })?;
        let synced =
            Synced { occupied: self.occupied(), log: self.wal(), tags: self.tags(), cells: plain_cells(&cells) };
        if *cut != Cut::BeforeMeta {
            self.sync = number;
            self.folder.put_meta(self.n, number, self.seed);
        }
        match cut {
            Cut::None => {
                caught(|| controller.post_meta(self.io.make_handle()))?.map_err(|e| Trouble::Error(e.to_string()))?
            }
            Cut::BeforeMeta => self.db = None,
            Cut::Among(bits) => {
                let ht = self.folder.open("ht");
                for (pn, page) in beside::to_write(&controller) {
                    let part = &page[..written(*bits, pn)];
                    ht.write_all_at(part, pn * PAGE_SIZE as u64).expect("a file of the folder");
                }
                self.db = None;
            }
        }
        Ok(synced)
    }

    /// A page load on the open store: the bucket, or none where the page is not there.
    pub fn load(&self, id: [u8; 32]) -> Said<Option<u64>> {
        let handle = self.io.make_handle();
        let (tags, image, n) = (self.tags(), self.image(), self.n as usize);
        if !load_ends(&tags, n, crate::hash::hash(id, &self.seed), |b| ends_in(&image, n, b, &id)) {
            return Err(Trouble::Endless);
        }
        caught(|| {
            let loader = PageLoader::new(self.db());
            let mut load = loader.start_load(PageId(id));
            loop {
                if !loader.probe(&mut load, &handle, 0) {
                    return None;
                }
                let complete = handle.recv().expect("the read is done");
                complete.result.expect("a page of the table");
                if let Some((_, bucket)) = load.try_complete(complete.command.kind.unwrap_buf()) {
                    return Some(beside::index(bucket));
                }
            }
        })
    }

    /// `grow_hashtable` on the closed store, and open it again.
    pub fn grow(&mut self, new: u32) -> Said<()> {
        self.db = None;
        let grown = tried(|| bitbox::grow_hashtable(self.folder.path(), self.folder.pool(), new, false));
        if grown.is_ok() {
            self.n = self.folder.meta_count();
        }
        self.open()?;
        grown
    }

    /// `validate_hashtable` on the closed store, and open it again.
    pub fn audit(&mut self) -> Said<crate::audit::Audited> {
        self.db = None;
        let audited = crate::audit::audit(&self.folder);
        self.open()?;
        audited
    }
}
