//! The slots of a page that changed.

use crate::{ffi, log::position, refusal::said, Refusal};
use core::fmt;

/// The slots of a page.
pub const SLOTS: usize = 126;

/// The bytes of a node.
pub const NODE: usize = 32;

/// A node: what a slot holds.
pub type Node = [u8; NODE];

/// Which of a page's 126 slots changed, or that the page was cleared: two words, of which bit i of word w
/// marks slot 64w + i. Bit 127 means cleared.
#[repr(C)]
#[derive(Clone, Copy, Default, PartialEq, Eq, Hash)]
pub struct Diff {
    pub(crate) words: [u64; 2],
}

impl Diff {
    /// The diff with these words, low word first. Every pair of words is taken; a call that needs a
    /// diff of slots alone refuses bits 126 and 127 itself.
    pub const fn from_words(words: [u64; 2]) -> Diff {
        Diff { words }
    }

    /// Its words, low word first.
    pub const fn words(self) -> [u64; 2] {
        self.words
    }

    /// A diff out of its sixteen bytes, as a log has them.
    ///
    /// # Errors
    ///
    /// [`DiffReserved`](Refusal::DiffReserved): bit 126 or 127 is set.
    pub fn from_bytes(bytes: &[u8; 16]) -> Result<Diff, Refusal> {
        let answer = ffi::diff_read(bytes);
        said(answer.refusal)?;
        Ok(answer.diff)
    }

    /// Its sixteen bytes.
    pub fn as_bytes(&self) -> [u8; 16] {
        ffi::diff_bytes(*self)
    }

    /// The diff with a slot marked, and no longer cleared.
    ///
    /// # Errors
    ///
    /// [`SlotUnfit`](Refusal::SlotUnfit): the slot is above 125.
    pub fn set_changed(self, slot: usize) -> Result<Diff, Refusal> {
        let answer = ffi::diff_set(self, slot);
        said(answer.refusal)?;
        Ok(answer.diff)
    }

    /// Whether a slot is marked; 126 and 127 may be asked after too.
    ///
    /// # Errors
    ///
    /// [`SlotUnfit`](Refusal::SlotUnfit): the slot is above 127.
    pub fn changed(self, slot: usize) -> Result<bool, Refusal> {
        let answer = ffi::diff_ask(self, slot);
        said(answer.refusal)?;
        Ok(answer.value != 0)
    }

    /// The diff with the mark of a cleared page; its other marks stay.
    pub fn set_cleared(self) -> Diff {
        ffi::diff_set_cleared(self)
    }

    /// Whether it is that of a cleared page.
    pub fn cleared(self) -> bool {
        ffi::diff_cleared(self)
    }

    /// How many marks it has, of all 128.
    pub fn count(self) -> usize {
        ffi::diff_count(self)
    }

    /// The marks of both.
    pub fn join(self, other: Diff) -> Diff {
        ffi::diff_join(self, other)
    }

    /// The nodes of the marked slots, in rising order.
    ///
    /// # Errors
    ///
    /// In this order: [`LengthUnfit`](Refusal::LengthUnfit): the page is not 4,096 bytes long;
    /// [`DiffReserved`](Refusal::DiffReserved): bit 126 or 127 is set.
    pub fn pack_changed_nodes(self, page: &[u8]) -> Result<Packed, Refusal> {
        let answer = ffi::pack(self, page);
        said(answer.refusal)?;
        Ok(answer.packed)
    }

    /// The same into lent memory, with no table between: the nodes, and zeros after them. How many nodes there
    /// are is answered.
    ///
    /// # Errors
    ///
    /// Those of [`pack_changed_nodes`](Diff::pack_changed_nodes), then
    /// [`LengthUnfit`](Refusal::LengthUnfit): there is not room for exactly 126 nodes.
    pub fn pack_changed_nodes_into(self, page: &[u8], nodes: &mut [Node]) -> Result<usize, Refusal> {
        let answer = ffi::pack_into(self, page, nodes.as_flattened_mut());
        said(answer.refusal)?;
        Ok(position(answer.value))
    }

    /// Puts nodes at the marked slots of a page, in rising order.
    ///
    /// # Errors
    ///
    /// In this order: [`LengthUnfit`](Refusal::LengthUnfit): the page is not 4,096 bytes long;
    /// [`DiffReserved`](Refusal::DiffReserved): bit 126 or 127 is set; `LengthUnfit`: there are not as
    /// many nodes as marks.
    pub fn unpack_changed_nodes(self, nodes: &Packed, page: &mut [u8]) -> Result<(), Refusal> {
        said(ffi::unpack(self, &nodes.nodes, nodes.count, page).refusal)
    }
}

impl fmt::Debug for Diff {
    fn fmt(&self, f: &mut fmt::Formatter<'_>) -> fmt::Result {
        let [lo, hi] = self.words;
        write!(f, "Diff({:#x})", u128::from(hi) << 64 | u128::from(lo))
    }
}

/// The nodes of a diff's marked slots: a table of 126, and how many of them count.
#[repr(C)]
#[derive(Clone, Copy)]
pub struct Packed {
    pub(crate) nodes: [Node; SLOTS],
    pub(crate) count: usize,
}

impl Packed {
    /// These nodes.
    ///
    /// # Errors
    ///
    /// [`LengthUnfit`](Refusal::LengthUnfit): there are more than 126.
    pub fn new(nodes: &[Node]) -> Result<Packed, Refusal> {
        let mut table = [[0; NODE]; SLOTS];
        match table.get_mut(..nodes.len()) {
            Some(first) => first.copy_from_slice(nodes),
            None => return Err(Refusal::LengthUnfit),
        }
        Ok(Packed { nodes: table, count: nodes.len() })
    }

    /// A table, and how many of its nodes count. A count that is not the diff's is refused where the two
    /// are used together.
    pub const fn from_table(nodes: [Node; SLOTS], count: usize) -> Packed {
        Packed { nodes, count }
    }

    /// The nodes that count.
    pub fn nodes(&self) -> &[Node] {
        self.nodes.get(..self.count).unwrap_or(&self.nodes)
    }

    /// The whole table; zero from the count on where the library has filled it.
    pub const fn table(&self) -> &[Node; SLOTS] {
        &self.nodes
    }

    /// How many nodes count.
    pub const fn count(&self) -> usize {
        self.count
    }
}

/// What is beyond the count is ignored.
impl PartialEq for Packed {
    fn eq(&self, other: &Packed) -> bool {
        self.count == other.count && self.nodes() == other.nodes()
    }
}

impl Eq for Packed {}

impl fmt::Debug for Packed {
    fn fmt(&self, f: &mut fmt::Formatter<'_>) -> fmt::Result {
        f.debug_struct("Packed").field("count", &self.count).field("nodes", &self.nodes()).finish()
    }
}
