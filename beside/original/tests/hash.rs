use original::hash::{hash, id_of};

#[test]
fn an_id_has_the_hash_that_was_asked() {
    let mut x = 1u64;
    for i in 0..10_000u64 {
        x = x.wrapping_mul(6364136223846793005).wrapping_add(1442695040888963407);
        let mut seed = [0; 16];
        seed[..8].copy_from_slice(&x.rotate_left(17).to_be_bytes());
        for h in [i, x, u64::MAX - i, x >> 40, i << 57] {
            assert_eq!(hash(id_of(h, &seed, x as u128 * i as u128), &seed), h);
        }
    }
}
