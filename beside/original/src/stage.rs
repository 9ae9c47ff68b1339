//! Where the original runs: a table file and a log file in memory, and a database on them.

use crate::{
    bitbox::{
        beside::{self, meta_map::MetaMap, wal},
        DB,
    },
    hash::Seed,
    io::{self, IoHandle, IoPool, PagePool, PAGE_SIZE},
};
use std::{
    cell::RefCell,
    fs::File,
    os::{
        fd::{AsRawFd, FromRawFd},
        unix::fs::FileExt,
    },
};
use threadpool::ThreadPool;

pub struct Stage {
    pub pool: PagePool,
    pub db: DB,
    pub io: IoHandle,
    pub worker: io::beside::Worker,
    pub builder: wal::write::WalBlobBuilder,
    _io_pool: IoPool,
}

thread_local!(static STAGE: RefCell<Stage> = RefCell::new(Stage::new()));

pub fn with_stage<T>(run: impl FnOnce(&mut Stage) -> T) -> T {
    STAGE.with_borrow_mut(run)
}

impl Stage {
    fn new() -> Self {
        let pool = PagePool::new();
        let (io_pool, worker) = io::beside::pool(pool.clone());
        let builder = || wal::write::with_initial_size(1 << 20).expect("memory for a log");
        let db = beside::db(
            1,
            [0; 16],
            MetaMap::from_bytes(vec![0; PAGE_SIZE], 1),
            pool.clone(),
            memory_file(),
            memory_file(),
            ThreadPool::new(1),
            builder(),
        );
        Stage { pool, db, io: io_pool.make_handle(), worker, builder: builder(), _io_pool: io_pool }
    }

    pub fn ht(&self) -> &File {
        beside::ht_fd(&self.db)
    }

    pub fn wal(&self) -> &File {
        beside::wal_fd(&self.db)
    }

    /// The database on these tags.
    pub fn put_tags(&mut self, n: u32, seed: Seed, tags: &[u8]) {
        beside::put_table(&mut self.db, n, seed, MetaMap::from_bytes(tags.to_vec(), n as usize));
    }

    pub fn put_image(&self, image: &[u8]) {
        put(self.ht(), image);
    }

    pub fn put_zeros(&self, len: u64) {
        self.ht().set_len(0).expect("a file in memory");
        self.ht().set_len(len).expect("a file in memory");
    }

    pub fn image(&self) -> Vec<u8> {
        taken(self.ht())
    }

    pub fn put_log(&self, log: &[u8]) {
        put(self.wal(), log);
    }

    pub fn log_len(&self) -> u64 {
        self.wal().metadata().expect("a file in memory").len()
    }
}

/// Files up to this length are written and read as a whole.
const SHORT: usize = 1 << 18;

/// Makes a file hold these bytes; whole pages of zeros are left as holes in a long one.
pub fn put(file: &File, bytes: &[u8]) {
    file.set_len(0).expect("a file in memory");
    if bytes.len() <= SHORT {
        file.write_all_at(bytes, 0).expect("a file in memory");
        return;
    }
    file.set_len(bytes.len() as u64).expect("a file in memory");
    for (i, page) in bytes.chunks(PAGE_SIZE).enumerate() {
        if page.iter().any(|&b| b != 0) {
            file.write_all_at(page, (i * PAGE_SIZE) as u64).expect("a file in memory");
        }
    }
}

/// The bytes of a file.
pub fn taken(file: &File) -> Vec<u8> {
    let len = file.metadata().expect("a file in memory").len() as usize;
    let mut bytes = vec![0; len];
    file.read_exact_at(&mut bytes, 0).expect("a file in memory");
    bytes
}

/// The length of a file, and its pages that are not all zero. Holes of a long one are not read.
pub fn taken_pages(file: &File) -> (u64, Vec<(u64, Vec<u8>)>) {
    let len = file.metadata().expect("a file in memory").len();
    let mut pages = Vec::new();
    let mut at = 0;
    while let Some(start) = data_from(file, at, len) {
        let mut bytes = vec![0; (len - start).min(SHORT as u64) as usize];
        file.read_exact_at(&mut bytes, start).expect("a file in memory");
        for (i, page) in bytes.chunks(PAGE_SIZE).enumerate() {
            if page.iter().any(|&b| b != 0) {
                pages.push((start / PAGE_SIZE as u64 + i as u64, page.to_vec()));
            }
        }
        at = start + bytes.len() as u64;
    }
    (len, pages)
}

/// The page's start from which on a file has data.
fn data_from(file: &File, at: u64, len: u64) -> Option<u64> {
    if at >= len || len <= SHORT as u64 {
        return (at < len).then_some(at);
    }
    // SAFETY: the descriptor is open; the call moves its place, which nobody else uses.
    let data = unsafe { libc::lseek(file.as_raw_fd(), at as i64, libc::SEEK_DATA) };
    (data >= 0).then_some(data as u64 / PAGE_SIZE as u64 * PAGE_SIZE as u64)
}

fn memory_file() -> File {
    // SAFETY: the name is a C string, and the descriptor belongs to nobody else.
    unsafe {
        let fd = libc::memfd_create(c"russuladen".as_ptr(), libc::MFD_CLOEXEC);
        assert!(fd >= 0, "memfd_create: {}", std::io::Error::last_os_error());
        File::from_raw_fd(fd)
    }
}
