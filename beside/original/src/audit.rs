//! validate.rs.

use crate::{
    bitbox,
    caught::{tried, Said},
    hash::Seed,
    running::Folder,
};

#[derive(Clone, Copy, Debug, PartialEq)]
pub struct Audited {
    pub capacity: usize,
    pub occupied: usize,
    pub rate: f64,
}

/// `validate_hashtable` on a table file, with no log.
pub fn validate(folder: &Folder, image: &[u8], n: u32, seed: &Seed) -> Said<Audited> {
    folder.put_meta(n, 1, *seed);
    folder.put_file("ht", image);
    folder.put_file("wal", &[]);
    audit(folder)
}

/// `validate_hashtable` on the folder as it is.
pub fn audit(folder: &Folder) -> Said<Audited> {
    tried(|| {
        let u = bitbox::validate_hashtable(folder.path(), folder.pool())?;
        Ok(Audited { capacity: u.capacity, occupied: u.occupied, rate: u.occupancy_rate() })
    })
}
