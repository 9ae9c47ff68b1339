//! rehash.rs: the marker, a pending growth, growth.

use crate::{
    bitbox::{self, beside::rehash},
    caught::{caught, tried, Said},
    hash::Seed,
    running::Folder,
};

pub fn marker_encode(old: u32, new: u32) -> Said<[u8; 16]> {
    caught(|| rehash::encode(old, new))
}

pub fn marker_decode(bytes: &[u8]) -> Said<(u32, u32)> {
    tried(|| rehash::decode(bytes))
}

/// What a pending growth leaves.
#[derive(Clone, Debug, PartialEq, Eq)]
pub struct Finished {
    pub said: Said<()>,
    /// The meta file's count.
    pub count: u32,
    /// Whether the marker and the half-made table are there.
    pub marker: bool,
    pub half_made: bool,
}

/// `finish_pending_rehash` in a folder with this marker, a half-made table, a meta file with this count and a table
/// file of this length.
pub fn finish_pending(folder: &Folder, marker: &[u8], meta: u32, ht_len: u64) -> Finished {
    folder.put_meta(meta, 1, [0; 16]);
    folder.put_file_len("ht", ht_len);
    folder.put_file("wal", &[]);
    folder.put_file(rehash::MARKER_FILE, marker);
    folder.put_file(rehash::TMP_HT_FILE, b"half made");
    let said = tried(|| bitbox::finish_pending_rehash(folder.path(), folder.pool()));
    let (marker, half_made) = (folder.has(rehash::MARKER_FILE), folder.has(rehash::TMP_HT_FILE));
    folder.remove(rehash::MARKER_FILE);
    folder.remove(rehash::TMP_HT_FILE);
    Finished { said, count: folder.meta_count(), marker, half_made }
}

/// What a growth leaves.
#[derive(Clone, Debug, PartialEq, Eq)]
pub struct Grown {
    pub said: Said<()>,
    /// The table file: its length, and its pages that are not all zero.
    pub length: u64,
    pub pages: Vec<(u64, Vec<u8>)>,
    /// The meta file's count.
    pub count: u32,
}

/// `grow_hashtable` on a table file. It is for the caller to see that no page would probe for ever.
pub fn grow(folder: &Folder, image: &[u8], n: u32, seed: &Seed, new: u32) -> Grown {
    folder.put_meta(n, 1, *seed);
    folder.put_file("ht", image);
    folder.put_file("wal", &[]);
    let said = tried(|| bitbox::grow_hashtable(folder.path(), folder.pool(), new, false));
    folder.remove(rehash::MARKER_FILE);
    folder.remove(rehash::TMP_HT_FILE);
    let (length, pages) = folder.file_pages("ht");
    Grown { said, length, pages, count: folder.meta_count() }
}
