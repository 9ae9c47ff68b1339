//! wal/read.rs and wal/write.rs.

use crate::{
    bitbox::beside::wal::{
        read::{self, WalBlobReader, WalEntry},
        write::{self, WalBlobBuilder},
    },
    caught::{caught, tried, Said},
    diff::Words,
    merkle::ElidedChildren,
    page_diff,
    stage::with_stage,
};

#[derive(Clone, Debug, PartialEq, Eq)]
pub enum Entry {
    Clear { bucket: u64 },
    Update { id: [u8; 32], diff: Words, nodes: Vec<[u8; 32]>, elided: [u8; 8], bucket: u64 },
    End,
}

fn plain(entry: Option<WalEntry>) -> Entry {
    match entry {
        None => Entry::End,
        Some(WalEntry::Clear { bucket }) => Entry::Clear { bucket },
        Some(WalEntry::Update { page_id, page_diff, changed_nodes, elided_children, bucket }) => Entry::Update {
            id: page_id,
            diff: page_diff::beside::words(&page_diff),
            nodes: changed_nodes,
            elided: elided_children.to_bytes(),
            bucket,
        },
    }
}

/// `WalBlobReader` on a log.
pub struct Reader(WalBlobReader);

impl Reader {
    /// `WalBlobReader::new`, with the log in a file.
    pub fn new(log: &[u8]) -> Said<Self> {
        with_stage(|stage| {
            stage.put_log(log);
            tried(|| WalBlobReader::new(&stage.pool, stage.wal()).map(Reader))
        })
    }

    /// A reader of these bytes at a place, as it would be after other entries. It has read no start.
    pub fn at(log: &[u8], offset: usize) -> Self {
        Reader(read::at(log.to_vec(), offset))
    }

    /// What `new` does once the file is in memory.
    pub fn read_start(&mut self) -> Said<()> {
        tried(|| read::read_start(&mut self.0))
    }

    pub fn sync_seqn(&self) -> u32 {
        self.0.sync_seqn()
    }

    pub fn read_entry(&mut self) -> Said<Entry> {
        tried(|| self.0.read_entry()).map(plain)
    }

    pub fn offset(&self) -> usize {
        read::offset(&self.0)
    }

    pub fn put(&mut self, offset: usize) {
        read::put(&mut self.0, offset);
    }
}

/// `WalBlobBuilder`.
pub struct Builder(WalBlobBuilder);

impl Builder {
    pub fn with_initial_size(size: usize) -> Said<Self> {
        tried(|| write::with_initial_size(size).map(Builder))
    }

    pub fn reset(&mut self, sync: u32) -> Said<()> {
        caught(|| self.0.reset(sync))
    }

    pub fn write_clear(&mut self, bucket: u64) -> Said<()> {
        caught(|| self.0.write_clear(bucket))
    }

    pub fn write_update(
        &mut self,
        id: [u8; 32],
        diff: Words,
        nodes: &[[u8; 32]],
        elided: [u8; 8],
        bucket: u64,
    ) -> Said<()> {
        caught(|| {
            self.0.write_update(
                id,
                &page_diff::beside::of(diff),
                nodes.iter().copied(),
                ElidedChildren::from_bytes(elided),
                bucket,
            )
        })
    }

    pub fn finalize(&mut self) -> Said<()> {
        caught(|| self.0.finalize())
    }

    pub fn position(&self) -> usize {
        write::position(&self.0)
    }

    /// The bytes up to the position.
    pub fn bytes(&self) -> &[u8] {
        self.0.as_slice()
    }
}
