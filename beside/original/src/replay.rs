//! mod.rs: `recover`.

use crate::{
    bitbox::beside::{self, ht_file},
    caught::{tried, Said},
    hash::Seed,
    stage::with_stage,
};

/// What a replay leaves.
#[derive(Clone, Debug, PartialEq, Eq)]
pub struct Replayed {
    pub said: Said<()>,
    /// The table file afterwards.
    pub image: Vec<u8>,
    /// The length of the log file afterwards.
    pub log: u64,
}

/// `ht_file::open` on an image, and `recover` of a log there.
pub fn recover(image: &[u8], n: u32, seed: &Seed, log: &[u8], sync: u32) -> Replayed {
    with_stage(|stage| {
        stage.put_image(image);
        stage.put_log(log);
        let said = tried(|| {
            let (offsets, mut map) = ht_file::open(n, &stage.pool, stage.ht())?;
            beside::recover(sync, stage.ht(), stage.wal(), &stage.pool, &offsets, &mut map, *seed)
        });
        Replayed { said, image: stage.image(), log: stage.log_len() }
    })
}
