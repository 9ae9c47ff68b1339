//! A table of many pages: `cargo test --release --test large -- --ignored`.

mod common;
use bitbox::*;
use common::*;
use Refusal::*;

const N: usize = 300_000;

/// The id of bucket b's page; its hash is b, so that its path begins at b.
fn id_of(b: usize) -> PageId {
    let mut id = [0; 32];
    id[..8].copy_from_slice(&(b as u64).wrapping_mul(0x9E37_79B9_7F4A_7C15).to_le_bytes());
    id[24..].copy_from_slice(&(b as u64).to_le_bytes());
    id
}

fn label(image: &mut [u8], b: usize, id: &PageId) {
    let at = PAGE * (page_number(N, b as u64).expect("a bucket") as usize + 1) - 32;
    image[at..at + 32].copy_from_slice(id);
}

/// More full buckets than the audit looks at in one pass: what is wrong is found wherever it stands, and the
/// first bucket decides.
#[test]
#[ignore = "takes 1.3 GB"]
fn the_audit_of_many_labels() {
    let mut image = image(N);
    image[..N].fill(0x80);
    for b in 0..N {
        label(&mut image, b, &id_of(b));
    }
    let mut hashes: Vec<u64> = (0..N as u64).collect();
    assert_eq!(audit(&image, N, &hashes), Ok(Audit { capacity: N as u64, occupied: N as u64, rate: 1.0 }));

    for (first, second) in [(0, N - 1), (0, 1), (N - 2, N - 1), (7, 262_144), (262_143, 262_144), (150_000, 299_000)] {
        label(&mut image, second, &id_of(first));
        assert_eq!(audit(&image, N, &hashes), Err(LabelTwice), "{first} and {second}");
        // A wrong tag before the second of the two decides, after it does not.
        if second > first + 1 {
            image[second - 1] = 0x81;
            assert_eq!(audit(&image, N, &hashes), Err(TagWrong), "{first} and {second}");
            image[second - 1] = 0x80;
        }
        if second + 1 < N {
            image[second + 1] = 0x81;
            assert_eq!(audit(&image, N, &hashes), Err(LabelTwice), "{first} and {second}");
            image[second + 1] = 0x80;
        }
        // The labels of buckets that are not full are no labels.
        image[first] = TOMBSTONE;
        assert_eq!(audit(&image, N, &hashes).map(|a| a.occupied), Ok(N as u64 - 1));
        image[first] = 0x80;
        label(&mut image, second, &id_of(second));
    }
    // The path of hash 0 goes by the sums 0, 1, 3, 6 and so on, and never comes to the last bucket.
    hashes[N - 1] = 0;
    assert_eq!(audit(&image, N, &hashes), Err(NotReached));
    image[6] = EMPTY;
    assert_eq!(audit(&image, N, &hashes), Err(EmptyFirst));
}
