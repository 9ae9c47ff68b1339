//! The hash of an existing store as docs/GUIDE.md has it is the original's.

use original::hash::hash;

#[test]
fn the_guide_s_hash_is_the_original_s() {
    let (id, seed) = (std::array::from_fn(|i| i as u8), std::array::from_fn(|i| i as u8));
    assert_eq!(hash(id, &seed), 0xC2DB_806F_9AFA_00C5);
    assert!(include_str!("../../../docs/GUIDE.md").contains("0xC2DB_806F_9AFA_00C5"));
}
