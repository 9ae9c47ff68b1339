//! The original hash table, compiled from its published text (see build.rs), and functions on plain
//! values that drive it. A function here does nothing of its own but carry values in and out: an error
//! or a panic of the original comes back as [`Trouble`].

// The crates by whose names the original reaches what stands in for them here.
extern crate self as nomt_core;
extern crate self as parking_lot;
extern crate self as twox_hash;

mod tree {
    #![allow(warnings)]
    include!(concat!(env!("OUT_DIR"), "/tree/root.rs"));
}
pub(crate) use tree::*;

pub use parking_lot_debian::{lock_api::ArcRwLockReadGuard, Mutex, RawRwLock, RwLock};

pub mod trie {
    pub type Node = [u8; 32];
}

pub mod xxhash3_64 {
    pub struct Hasher;

    impl Hasher {
        pub fn oneshot_with_seed(seed: u64, bytes: &[u8]) -> u64 {
            xxhash_rust::xxh3::xxh3_64_with_seed(bytes, seed)
        }
    }
}

pub mod audit;
pub mod caught;
pub mod diff;
pub mod growth;
pub mod hash;
pub mod log;
pub mod path;
pub mod places;
pub mod replay;
pub mod running;
mod stage;
pub mod sync;
pub mod tags;
pub mod timed;

pub use caught::{Panic, Said, Trouble};
pub use hash::Seed;
