//! A hash table of tree pages on disk, as NOMT's bitbox is one, proved: safe calls of its static
//! library.
//!
//! Every call on every input ends with an answer: its value, or a [`Refusal`] that has a name, a number
//! and a sentence. No call needs its caller to check anything first. A refused call leaves all lent
//! memory as it was, but for two: [`grow`] refused with 10 or 11 leaves the new image all zero, and a
//! [`sync`] refused at a change keeps what the changes before it did.
//!
//! Files, threads and the page hash stay with the caller: memory is lent as slices, a page's hash
//! arrives as a number. The library keeps nothing between calls, so calls on separate memory may run in
//! separate threads, and so may calls that only read the same memory. The crate needs neither `std` nor
//! `alloc`.
//!
//! - A **page** is [`PAGE`] bytes: bytes 0 to 4,031 are [`SLOTS`] slots of [`NODE`] bytes; bytes 4,032 to
//!   4,055 belong to nobody, and no log holds them; bytes 4,056 to 4,063 are its elided children; bytes
//!   4,064 to 4,095 are its id.
//! - A **table image** of n buckets, 1 to [`MOST_BUCKETS`], has `tag_pages(n)` tag pages and then n data
//!   pages; bucket b is page `tag_pages(n) + b`. [`lookup`], [`replay`], [`grow`] and [`audit`] are lent
//!   images.
//! - **Tags** are the tag pages alone, one byte per bucket, as a service keeps them in memory.
//!   [`probe`], [`allocate`], [`sync`] and the functions of single tags are lent these.
//! - A **log** is what a sync writes and a replay reads: [`Reader`], [`LogWriter`]. It says which sync it is
//!   of, by a number, and of which store, by the store's [`Seed`]. That is a log of edition two, which
//!   [`Start::two`] begins. Those of edition one, which may lie there from before, do not name their store.
//!   Reader and replay want zeros after a log's end, up to the end of what is lent; the calls whose names end in
//!   `_tolerant`, and [`Reader::tolerant`], take what is there.
//!
//! The [`guide`] has a sync and a recovery with files from start to end, and what to do about each refusal.
//!
//! ```
//! use bitbox::{sync, Change, Diff, Lent, Start, Where, Writer, PAGE, UNSET};
//!
//! # fn main() -> Result<(), Box<dyn std::error::Error>> {
//! // A table of 8 buckets; one new page, of which slot 3 is set.
//! let (mut tags, mut marks, mut cells, mut log) = ([0; PAGE], [0; 1], [UNSET; 1], [0; PAGE]);
//! let page = [0; PAGE];
//! let diff = Diff::default().set_changed(3)?;
//! let change = Change::new([7; 32], 42, diff, Where::Cell(0));
//!
//! // The log of the first sync of the store with this seed, which is drawn by chance when the store is made.
//! let start = Start::two(1, *b"of one recording");
//! let mut writer = Writer::Fresh;
//! let mut lent = Lent { n: 8, tags: &mut tags, marks: &mut marks, cells: &mut cells, log: &mut log };
//! let synced = sync(&mut lent, &mut writer, start, &[change], &page)?;
//! assert_eq!((synced.occupied, synced.length), (1, PAGE));
//! assert_eq!(cells, [42 % 8]);
//! # Ok(())
//! # }
//! ```
#![no_std]
#![deny(missing_docs, unsafe_code)]
#![warn(unreachable_pub)]
#![cfg_attr(
    not(test),
    deny(
        clippy::arithmetic_side_effects,
        clippy::expect_used,
        clippy::indexing_slicing,
        clippy::panic,
        clippy::unreachable,
        clippy::unwrap_used
    )
)]

mod change;
mod diff;
#[allow(unsafe_code)]
mod ffi;
mod growth;
mod log;
mod path;
mod recover;
mod refusal;
mod start;
mod table;
mod validate;

pub use change::{sync, sync_step, Change, Lent, State, Step, SyncRefused, Synced, Where, UNSET};
pub use diff::{Diff, Node, Packed, NODE, SLOTS};
pub use growth::{grow, pending, read_marker, write_marker, Grown, Marker, Pending};
pub use log::{
    read_entry, read_entry_tolerant, read_head, read_head_tolerant, see_entry, see_entry_tolerant, Elided, Entries,
    Entry, EntryRef, Head, LogWriter, PageId, Reader, Update, UpdateRef, Writer,
};
pub use path::{allocate, lookup, probe, Found, Probed};
pub use recover::{replay, replay_step, replay_step_tolerant, replay_tolerant, Replayed, Stepped};
pub use refusal::Refusal;
pub use start::{first_entry, Edition, Seed, Start};
pub use table::{
    full_count, full_tag, hint_empty, hint_not_match, hint_tombstone, is_full, padding_is_empty, page_number, set_full,
    set_tombstone, table_length, tag_page, tag_pages, EMPTY, MOST_BUCKETS, PAGE, TOMBSTONE,
};
pub use validate::{audit, Audit};

/// The repository's docs/GUIDE.md, whose code the tests run. Its links are to files of the repository.
#[cfg(any(doc, doctest))]
#[doc = include_str!("../../../docs/GUIDE.md")]
pub mod guide {}
