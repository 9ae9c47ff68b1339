
pub(crate) mod beside {
    pub(crate) use super::{WalBlobReader, WalEntry};

    // A reader as `new` has it once the file is read, at a place of the log.
    pub(crate) fn at(wal: Vec<u8>, offset: usize) -> WalBlobReader {
        WalBlobReader { wal, offset, sync_seqn: 0 }
    }

    pub(crate) fn put(reader: &mut WalBlobReader, offset: usize) {
        reader.offset = offset;
    }

    pub(crate) fn read_start(reader: &mut WalBlobReader) -> anyhow::Result<()> {
        reader.read_start()
    }

    pub(crate) fn offset(reader: &WalBlobReader) -> usize {
        reader.offset
    }
}
