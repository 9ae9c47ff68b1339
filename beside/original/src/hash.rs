//! The original's page hash, and ids that have a chosen hash.

use crate::bitbox::beside;

pub type Seed = [u8; 16];

/// The original's hash of a page id.
pub fn hash(id: [u8; 32], seed: &Seed) -> u64 {
    beside::hash(id, seed)
}

/// A page id with the given hash, one for each `free`: XXH3 on 32 bytes, run backwards. It adds a
/// product of the first 16 bytes to one of the last 16, and the last product is chosen by making one
/// of its factors 1.
pub fn id_of(hash: u64, seed: &Seed, free: u128) -> [u8; 32] {
    const PRIME: u64 = 0x9E37_79B1_85EB_CA87;
    const SECRET: [u64; 4] =
        [0xbe4b_a423_396c_feb8, 0x1cad_21f7_2c81_017c, 0xdb97_9083_e96d_d4de, 0x1f67_b3b7_a4a4_4072];
    let seed = u64::from_be_bytes(seed[..8].try_into().unwrap());
    let first = free.to_le_bytes();
    let word = |i: usize| u64::from_le_bytes(first[i..i + 8].try_into().unwrap());
    let product = (word(0) ^ SECRET[0].wrapping_add(seed)) as u128 * (word(8) ^ SECRET[1].wrapping_sub(seed)) as u128;
    let product = product as u64 ^ (product >> 64) as u64;

    let sum = before_avalanche(hash);
    let wanted = sum.wrapping_sub(PRIME.wrapping_mul(32)).wrapping_sub(product);
    let mut id = [0; 32];
    id[..16].copy_from_slice(&first);
    id[16..24].copy_from_slice(&(wanted ^ SECRET[2].wrapping_add(seed)).to_le_bytes());
    id[24..].copy_from_slice(&(1 ^ SECRET[3].wrapping_sub(seed)).to_le_bytes());
    id
}

// XXH3's last step backwards.
fn before_avalanche(hash: u64) -> u64 {
    const FACTOR: u64 = 0x1656_6791_9E37_79F9;
    // Newton: each round doubles the bits of the inverse that are right.
    let mut inverse = FACTOR;
    for _ in 0..6 {
        inverse = inverse.wrapping_mul(2u64.wrapping_sub(FACTOR.wrapping_mul(inverse)));
    }
    let h = hash ^ hash >> 32;
    let h = h.wrapping_mul(inverse);
    h ^ h >> 37
}
