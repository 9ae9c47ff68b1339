
pub(crate) mod beside {
    use super::*;

    pub(crate) use super::{
        ht_file::beside as ht_file, meta_map::beside as meta_map, rehash::beside as rehash,
        wal::beside as wal,
    };

    pub(crate) fn bucket(index: u64) -> BucketIndex {
        BucketIndex(index)
    }

    pub(crate) fn index(bucket: BucketIndex) -> u64 {
        bucket.0
    }

    pub(crate) fn hash(id: [u8; 32], seed: &[u8; 16]) -> u64 {
        hash_raw_page_id(id, seed)
    }

    pub(crate) fn allocate(id: [u8; 32], map: &mut MetaMap, seed: &[u8; 16]) -> Option<u64> {
        allocate_bucket_raw(id, map, seed).map(index)
    }

    pub(crate) enum Probed {
        Hit(u64),
        Empty(u64),
        Tombstone(u64),
    }

    // A probe before its visit `step`, with the bucket of the visit before.
    pub(crate) struct Probe(ProbeSequence);

    impl Probe {
        pub(crate) fn new(id: [u8; 32], map: &MetaMap, seed: &[u8; 16]) -> Self {
            Probe(ProbeSequence::new_raw(id, map, seed))
        }

        pub(crate) fn at(hash: u64, bucket: u64, step: u64) -> Self {
            Probe(ProbeSequence { hash, bucket, step })
        }

        pub(crate) fn next(&mut self, map: &MetaMap) -> Probed {
            match self.0.next(map) {
                ProbeResult::PossibleHit(b) => Probed::Hit(b),
                ProbeResult::Empty(b) => Probed::Empty(b),
                ProbeResult::Tombstone(b) => Probed::Tombstone(b),
            }
        }

        pub(crate) fn step(&self) -> u64 {
            self.0.step
        }
    }

    // A database as `DB::open` has it, on tags that are already read.
    pub(crate) fn db(
        num_pages: u32,
        seed: [u8; 16],
        map: MetaMap,
        page_pool: PagePool,
        ht_fd: File,
        wal_fd: File,
        sync_tp: ThreadPool,
        wal_blob_builder: WalBlobBuilder,
    ) -> DB {
        DB {
            shared: Arc::new(Shared {
                page_pool,
                store: HTOffsets::new(num_pages),
                seed,
                occupied_buckets: AtomicUsize::new(map.full_count()),
                capacity: map.len(),
                meta_map: Arc::new(RwLock::new(map)),
                wal_blob_builder: Arc::new(Mutex::new(wal_blob_builder)),
                wal_fd,
                ht_fd,
                sync_tp,
            }),
        }
    }

    // The same database on another table.
    pub(crate) fn put_table(db: &mut DB, num_pages: u32, seed: [u8; 16], map: MetaMap) {
        let shared = Arc::get_mut(&mut db.shared).expect("no loader is left");
        shared.store = HTOffsets::new(num_pages);
        shared.seed = seed;
        shared.occupied_buckets = AtomicUsize::new(map.full_count());
        shared.capacity = map.len();
        shared.meta_map = Arc::new(RwLock::new(map));
    }

    pub(crate) fn ht_fd(db: &DB) -> &File {
        &db.shared.ht_fd
    }

    pub(crate) fn wal_fd(db: &DB) -> &File {
        &db.shared.wal_fd
    }

    pub(crate) fn tags(db: &DB) -> Vec<u8> {
        meta_map::tags(&db.shared.meta_map.read()).to_vec()
    }

    pub(crate) fn wal_blob(db: &DB) -> Arc<Mutex<WalBlobBuilder>> {
        db.shared.wal_blob_builder.clone()
    }

    pub(crate) type Prepared = (Vec<(u64, Arc<FatPage>)>, Vec<(PageId, Option<(Page, BucketIndex)>)>);

    pub(crate) fn prepare_sync(
        db: &DB,
        sync_seqn: u32,
        page_pool: &PagePool,
        changes: impl IntoIterator<Item = (PageId, DirtyPage)>,
        wal_blob_builder: &mut WalBlobBuilder,
    ) -> Result<Prepared, BucketExhaustion> {
        db.prepare_sync(sync_seqn, page_pool, changes, wal_blob_builder)
    }

    pub(crate) fn recover(
        sync_seqn: u32,
        ht_fd: &File,
        wal_fd: &File,
        page_pool: &PagePool,
        ht_offsets: &HTOffsets,
        map: &mut MetaMap,
        seed: [u8; 16],
    ) -> anyhow::Result<()> {
        super::recover(sync_seqn, ht_fd, wal_fd, page_pool, ht_offsets, map, seed)
    }

    // The pages that a sync has still to write to the table file.
    pub(crate) fn to_write(controller: &SyncController) -> Vec<(u64, Arc<FatPage>)> {
        controller.ht_to_write.lock().clone().unwrap_or_default()
    }
}
