//! Document 01, and of 02 what has landed (W-207, W-208), written out as a plain program: from their text and the settled
//! readings alone, with no eye to speed. Where the original panics or never ends, this is what ours is held to.
//!
//! A refusal leaves all lent memory, but for growth refused with 10 or 11 and a sync refused at a
//! change; both say so.

pub mod after_end;
pub mod audit;
pub mod diff;
pub mod edition;
pub mod growth;
pub mod list;
pub mod path;
pub mod places;
pub mod reader;
pub mod replay;
pub mod sync;
pub mod tags;
pub mod writer;

/// The number of a refusal.
#[derive(Clone, Copy, Debug, PartialEq, Eq, PartialOrd, Ord, Hash)]
pub struct Refused(pub u8);

/// What a call answers: its value, or a refusal.
pub type Answer<T> = Result<T, Refused>;

pub const PAGE: usize = 4096;

/// Refuses with a number unless something holds.
fn unless(holds: bool, number: u8) -> Answer<()> {
    if holds {
        Ok(())
    } else {
        Err(Refused(number))
    }
}
