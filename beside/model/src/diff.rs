//! Diff: "a diff is two 64-bit words, little-endian in 16 bytes. Bit i of word w marks slot 64w+i."
//! That is one number of 128 bits, little-endian.

use crate::{unless, Answer, PAGE};
use std::fmt;

#[derive(Clone, Copy, Default, PartialEq, Eq)]
pub struct Diff(pub u128);

impl fmt::Debug for Diff {
    fn fmt(&self, f: &mut fmt::Formatter) -> fmt::Result {
        write!(f, "diff {:#x}", self.0)
    }
}

pub const SLOTS: usize = 126;
pub const NODE: usize = 32;

pub type Node = [u8; NODE];

/// "a table of 126 entries of 32 bytes with a count; entries from the count on are zero, and ignored
/// where a caller lends others."
#[derive(Clone, Debug, PartialEq, Eq)]
pub struct Packed {
    pub nodes: [Node; SLOTS],
    pub count: u64,
}

impl Diff {
    pub fn marks(self, slot: u64) -> bool {
        self.0 >> slot & 1 == 1
    }

    /// "Bit 127 means cleared."
    pub fn cleared(self) -> bool {
        self.marks(127)
    }

    pub fn set_cleared(self) -> Diff {
        Diff(self.0 | 1 << 127)
    }

    /// "Count is the ones of both words, bit 127 included."
    pub fn count(self) -> u64 {
        self.0.count_ones() as u64
    }

    /// "Join is OR."
    pub fn join(self, other: Diff) -> Diff {
        Diff(self.0 | other.0)
    }

    pub fn bytes(self) -> [u8; 16] {
        self.0.to_le_bytes()
    }

    /// Bit 126 or 127.
    pub fn reserved(self) -> bool {
        self.marks(126) || self.marks(127)
    }

    /// "Slots go in rising order."
    pub fn slots(self) -> Vec<usize> {
        (0..128).filter(|&s| self.marks(s)).map(|s| s as usize).collect()
    }
}

/// "Reading refuses bit 126 or 127."
pub fn read(bytes: [u8; 16]) -> Answer<Diff> {
    let d = Diff(u128::from_le_bytes(bytes));
    unless(!d.reserved(), 4)?;
    Ok(d)
}

/// "Setting a slot drops bit 127."
pub fn set(d: Diff, slot: u64) -> Answer<Diff> {
    unless(slot <= 125, 3)?;
    Ok(Diff((d.0 | 1 << slot) & !(1 << 127)))
}

pub fn ask(d: Diff, slot: u64) -> Answer<bool> {
    unless(slot <= 127, 3)?;
    Ok(d.marks(slot))
}

/// The nodes of the marked slots. In order: page length 2, 4.
pub fn pack(d: Diff, page: &[u8]) -> Answer<Packed> {
    unless(page.len() == PAGE, 2)?;
    unless(!d.reserved(), 4)?;
    let mut nodes = [[0; NODE]; SLOTS];
    for (i, s) in d.slots().into_iter().enumerate() {
        nodes[i].copy_from_slice(&page[NODE * s..NODE * (s + 1)]);
    }
    Ok(Packed { nodes, count: d.count() })
}

/// Puts nodes at the marked slots. In order: page length 2, 4, node count 2.
pub fn unpack(d: Diff, packed: &Packed, page: &mut [u8]) -> Answer<()> {
    unless(page.len() == PAGE, 2)?;
    unless(!d.reserved(), 4)?;
    unless(packed.count == d.count(), 2)?;
    for (i, s) in d.slots().into_iter().enumerate() {
        page[NODE * s..NODE * (s + 1)].copy_from_slice(&packed.nodes[i]);
    }
    Ok(())
}
