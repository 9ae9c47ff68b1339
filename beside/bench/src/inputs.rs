//! What the rows are run on: the same bytes for ours and for the original.

use bitbox::{allocate, Diff, Reader, Start, PAGE};
use original::{diff::Words, hash, Seed};

pub const SEED: Seed = [7; 16];

/// The editions of ours, and how a row's name ends for each. The original has edition one alone, and stands beside
/// both with it.
pub const EDITIONS: [(Start, &str); 2] = [(Start::one(1), ""), (Start::two(1, SEED), ", edition two")];

/// Whether a log has the entries that the original's has; in edition one it is the same bytes.
pub fn same_entries(log: &[u8], theirs: &[u8]) -> bool {
    let (read, other) = (Reader::new(log).expect("a log"), Reader::new(theirs).expect("a log"));
    match read.edition() == other.edition() {
        true => log == theirs,
        false => read.eq(other),
    }
}

/// Numbers that look random and are the same at each run.
pub struct Rng(pub u64);

impl Rng {
    pub fn next(&mut self) -> u64 {
        self.0 ^= self.0 << 13;
        self.0 ^= self.0 >> 7;
        self.0 ^= self.0 << 17;
        self.0.wrapping_mul(0x2545_F491_4F6C_DD1D)
    }

    pub fn below(&mut self, n: usize) -> usize {
        (self.next() % n as u64) as usize
    }

    pub fn bytes<const N: usize>(&mut self) -> [u8; N] {
        let mut bytes = [0; N];
        bytes.fill_with(|| self.next() as u8);
        bytes
    }

    pub fn many(&mut self, len: usize) -> Vec<u8> {
        (0..len).map(|_| self.next() as u8).collect()
    }

    /// A diff of so many slots.
    pub fn slots(&mut self, count: usize) -> Words {
        let mut words = [0; 2];
        let mut left = count;
        while left > 0 {
            let slot = self.below(126);
            let bit = 1 << (slot % 64);
            if words[slot / 64] & bit == 0 {
                words[slot / 64] |= bit;
                left -= 1;
            }
        }
        words
    }
}

pub fn diff(words: Words) -> Diff {
    Diff::from_words(words)
}

pub fn hash_of(id: [u8; 32]) -> u64 {
    hash::hash(id, &SEED)
}

/// A page that is stored: its id, its hash, its bucket.
#[derive(Clone, Copy)]
pub struct Stored {
    pub id: [u8; 32],
    pub hash: u64,
    pub bucket: u64,
}

/// A table of n buckets that is filled page by page.
pub struct Table {
    pub n: usize,
    pub tags: Vec<u8>,
    pub stored: Vec<Stored>,
}

impl Table {
    pub fn new(n: usize) -> Self {
        Table { n, tags: vec![0; n.div_ceil(PAGE) * PAGE], stored: vec![] }
    }

    /// Takes new pages up to this load, in percent.
    pub fn fill(&mut self, percent: usize, rng: &mut Rng) {
        while self.stored.len() < self.n * percent / 100 {
            let id = rng.bytes();
            let hash = hash_of(id);
            let bucket = allocate(&mut self.tags, self.n, hash).expect("there is a bucket");
            self.stored.push(Stored { id, hash, bucket });
        }
    }

    /// The image: each page with some nodes and its id.
    pub fn image(&self) -> Vec<u8> {
        let mut image = vec![0; self.tags.len() + self.n * PAGE];
        image[..self.tags.len()].copy_from_slice(&self.tags);
        for page in &self.stored {
            let at = self.tags.len() + page.bucket as usize * PAGE;
            image[at..at + 64].fill(page.hash as u8);
            image[at + PAGE - 32..at + PAGE].copy_from_slice(&page.id);
        }
        image
    }

    /// One hash per bucket, 0 for those that hold no page.
    pub fn hashes(&self) -> Vec<u64> {
        let mut hashes = vec![0; self.n];
        for page in &self.stored {
            hashes[page.bucket as usize] = page.hash;
        }
        hashes
    }
}
