use original::path::visits;

/// What is walked ahead of the original is all that there is.
#[test]
fn a_path_repeats_after_2n_visits() {
    for n in 1..200 {
        for hash in [0, 1, n as u64 - 1, n as u64, u64::MAX, 1 << 63] {
            let seen: Vec<u64> = visits(n, hash, |path| path.take(6 * n).collect());
            assert_eq!(seen.len(), 6 * n);
            assert_eq!((&seen[..2 * n], &seen[..2 * n]), (&seen[2 * n..4 * n], &seen[4 * n..]));
        }
    }
}
