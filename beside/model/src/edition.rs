//! The editions of the log. Document 02, W-207: "Edition two puts a two-byte mark before each record: 0xB2 and
//! then the tag of edition one. After the start mark come the sync number and the store's 16 seed bytes (22 bytes
//! in all); other records are as before, end is the mark alone, then zeros."

/// The first byte of every mark of edition two.
pub const SECOND: u8 = 0xB2;

/// What names a store.
pub type Seed = [u8; 16];

#[derive(Clone, Copy, Debug, PartialEq, Eq)]
pub enum Edition {
    One,
    Two,
}

/// What a log begins with: its sync number and, in edition two alone, its store's seed.
#[derive(Clone, Copy, Debug, PartialEq, Eq)]
pub struct Start {
    pub sync: u32,
    pub seed: Option<Seed>,
}

impl Start {
    /// A start of edition one.
    pub fn one(sync: u32) -> Self {
        Start { sync, seed: None }
    }

    /// A start of edition two.
    pub fn two(sync: u32, seed: Seed) -> Self {
        Start { sync, seed: Some(seed) }
    }

    pub fn edition(self) -> Edition {
        match self.seed {
            None => Edition::One,
            Some(_) => Edition::Two,
        }
    }
}

impl Edition {
    /// "The first byte tells: 1 or 0xB2." Any other byte begins no log; it is then told as edition one.
    pub fn of(log: &[u8]) -> Self {
        match log.first() {
            Some(&SECOND) => Edition::Two,
            _ => Edition::One,
        }
    }

    /// What a record of a tag begins with.
    pub fn mark(self, tag: u8) -> Vec<u8> {
        match self {
            Edition::One => vec![tag],
            Edition::Two => vec![SECOND, tag],
        }
    }

    /// The bytes of a mark, and so of end: what each record leaves free behind it.
    pub fn width(self) -> u64 {
        match self {
            Edition::One => 1,
            Edition::Two => 2,
        }
    }

    /// Where the first entry stands.
    pub fn first(self) -> u64 {
        match self {
            Edition::One => 5,
            Edition::Two => 22,
        }
    }

    pub fn clear_size(self) -> u64 {
        self.width() + 8
    }

    /// An update of so many nodes: id, diff, nodes, elided, bucket after the mark.
    pub fn update_size(self, count: u64) -> u64 {
        self.width() + 64 + 32 * count
    }
}
