//! What is wanted after end. Document 02, W-208: "From now on the reader (on coming to end) and replay want zeros there
//! by default. Tolerant calls with the former rule remain."

use crate::{unless, Answer};

#[derive(Clone, Copy, Debug, PartialEq, Eq)]
pub enum AfterEnd {
    /// The default: zeros, up to the end of the lent log.
    Zeros,
    /// The former rule: "the reader does not look past end".
    Tolerant,
}

impl AfterEnd {
    /// 27, "a byte after end not zero", of all that a lent log has after end's mark, be it of one byte or of two.
    pub fn look(self, after: &[u8]) -> Answer<()> {
        unless(self == AfterEnd::Tolerant || after.iter().all(|&byte| byte == 0), 27)
    }
}
