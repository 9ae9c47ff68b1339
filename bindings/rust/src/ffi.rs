//! The boundary: the structs and functions of the static library, declared here and nowhere else, and a
//! safe function over each. All that is unsafe in this crate is in this file.
//!
//! tests/boundary.rs holds every declaration here against the text of the library's own source, and the
//! tests at the end of this file hold the layout of every struct.

use crate::{
    change::{Change, Lent},
    diff::{Diff, Node, Packed, SLOTS},
    log::AfterEnd,
};

/// 0, or the refusal's number; and a value, 0 where there is none.
#[repr(C)]
#[derive(Clone, Copy)]
pub(crate) struct Answer {
    pub(crate) refusal: u64,
    pub(crate) value: u64,
}

/// The same with a diff.
#[repr(C)]
#[derive(Clone, Copy)]
pub(crate) struct DiffAnswer {
    pub(crate) refusal: u64,
    pub(crate) diff: Diff,
}

/// The same with packed nodes.
#[repr(C)]
#[derive(Clone, Copy)]
pub(crate) struct PackAnswer {
    pub(crate) refusal: u64,
    pub(crate) packed: Packed,
}

/// What probing comes to: 0 empty, 1 tombstone, 2 hit, 3 closed.
#[repr(C)]
#[derive(Clone, Copy)]
pub(crate) struct Probed {
    pub(crate) refusal: u64,
    pub(crate) kind: u64,
    pub(crate) bucket: u64,
    pub(crate) visit: u64,
}

/// What lookup comes to: 0 found, 1 absent, 2 closed.
#[repr(C)]
#[derive(Clone, Copy)]
pub(crate) struct Found {
    pub(crate) refusal: u64,
    pub(crate) kind: u64,
    pub(crate) bucket: u64,
}

/// An entry of a log: 0 end, 1 clear, 2 update.
#[repr(C)]
#[derive(Clone, Copy)]
pub(crate) struct Entry {
    pub(crate) refusal: u64,
    pub(crate) kind: u64,
    pub(crate) bucket: u64,
    pub(crate) next: u64,
    pub(crate) id: [u8; 32],
    pub(crate) diff: Diff,
    pub(crate) packed: Packed,
    pub(crate) elided: [u8; 8],
}

/// An entry seen without its fields: 0 end, 1 clear, 2 update; its bucket; the count of its nodes; where the
/// next one stands.
#[repr(C)]
#[derive(Clone, Copy)]
pub(crate) struct Head {
    pub(crate) refusal: u64,
    pub(crate) kind: u64,
    pub(crate) bucket: u64,
    pub(crate) count: u64,
    pub(crate) next: u64,
}

/// What a log starts with: edition 2 is the second, any other number the first, which leaves the seed out.
#[repr(C)]
#[derive(Clone, Copy)]
pub(crate) struct LogStart {
    pub(crate) sync: u32,
    pub(crate) edition: u32,
    pub(crate) seed: [u8; 16],
}

/// A writer's state: 0 fresh; open at a position, 1 in edition one, 3 in edition two; any other finished with a
/// length.
#[repr(C)]
#[derive(Clone, Copy)]
pub(crate) struct WriterState {
    pub(crate) kind: u64,
    pub(crate) at: u64,
}

/// What a writer's call comes to, and the state after it.
#[repr(C)]
#[derive(Clone, Copy)]
pub(crate) struct Written {
    pub(crate) refusal: u64,
    pub(crate) length: u64,
    pub(crate) writer: WriterState,
}

/// The state of a sync that is made step by step.
#[repr(C)]
#[derive(Clone, Copy)]
pub(crate) struct StepState {
    pub(crate) n: u64,
    pub(crate) writer: WriterState,
    pub(crate) occupied: u64,
}

/// What a step of a sync comes to.
#[repr(C)]
#[derive(Clone, Copy)]
pub(crate) struct StepAnswer {
    pub(crate) refusal: u64,
    pub(crate) bucket: u64,
    pub(crate) page: u64,
    pub(crate) state: StepState,
}

/// What a sync comes to.
#[repr(C)]
#[derive(Clone, Copy)]
pub(crate) struct SyncAnswer {
    pub(crate) refusal: u64,
    pub(crate) at_change: u64,
    pub(crate) change: u64,
    pub(crate) occupied: u64,
    pub(crate) length: u64,
    pub(crate) writer: WriterState,
}

/// What a step of replay comes to: 0 end, 1 cleared, 2 updated.
#[repr(C)]
#[derive(Clone, Copy)]
pub(crate) struct Stepped {
    pub(crate) refusal: u64,
    pub(crate) kind: u64,
    pub(crate) next: u64,
}

/// The counts of a marker.
#[repr(C)]
#[derive(Clone, Copy)]
pub(crate) struct Marker {
    pub(crate) refusal: u64,
    pub(crate) old: u64,
    pub(crate) new: u64,
}

/// The bytes of a marker.
#[repr(C)]
#[derive(Clone, Copy)]
pub(crate) struct MarkerBytes {
    pub(crate) refusal: u64,
    pub(crate) bytes: [u8; 16],
}

/// What an audit comes to.
#[repr(C)]
#[derive(Clone, Copy)]
pub(crate) struct Audited {
    pub(crate) refusal: u64,
    pub(crate) capacity: u64,
    pub(crate) occupied: u64,
    pub(crate) rate: f64,
}

/// The declarations: a slice is a pointer and then its length, an array behind one pointer.
#[rustfmt::skip]
mod library {
    use super::*;

    extern "C" {
        pub(super) fn bitbox_diff_read(bytes: &[u8; 16]) -> DiffAnswer;
        pub(super) fn bitbox_diff_bytes(lo: u64, hi: u64, bytes: &mut [u8; 16]);
        pub(super) fn bitbox_diff_set(lo: u64, hi: u64, slot: usize) -> DiffAnswer;
        pub(super) fn bitbox_diff_ask(lo: u64, hi: u64, slot: usize) -> Answer;
        pub(super) fn bitbox_diff_set_cleared(lo: u64, hi: u64) -> Diff;
        pub(super) fn bitbox_diff_cleared(lo: u64, hi: u64) -> bool;
        pub(super) fn bitbox_diff_count(lo: u64, hi: u64) -> usize;
        pub(super) fn bitbox_diff_join(lo: u64, hi: u64, lo2: u64, hi2: u64) -> Diff;
        pub(super) fn bitbox_pack(lo: u64, hi: u64, page: *const u8, page_len: usize) -> PackAnswer;
        pub(super) fn bitbox_pack_into(lo: u64, hi: u64, page: *const u8, page_len: usize, nodes: *mut u8, nodes_len: usize) -> Answer;
        pub(super) fn bitbox_unpack(lo: u64, hi: u64, nodes: &[[u8; 32]; 126], count: usize, page: *mut u8, page_len: usize) -> Answer;

        pub(super) fn bitbox_full_tag(hash: u64) -> u8;
        pub(super) fn bitbox_hint_empty(tag: u8) -> bool;
        pub(super) fn bitbox_hint_tombstone(tag: u8) -> bool;
        pub(super) fn bitbox_hint_not_match(tag: u8, hash: u64) -> bool;
        pub(super) fn bitbox_is_full(tag: u8) -> bool;
        pub(super) fn bitbox_set_full(tags: *mut u8, tags_len: usize, n: usize, bucket: u64, hash: u64) -> Answer;
        pub(super) fn bitbox_set_tombstone(tags: *mut u8, tags_len: usize, n: usize, bucket: u64) -> Answer;
        pub(super) fn bitbox_full_count(tags: *const u8, tags_len: usize, n: usize) -> Answer;
        pub(super) fn bitbox_padding_is_empty(tags: *const u8, tags_len: usize, n: usize) -> Answer;
        pub(super) fn bitbox_tag_page(bucket: u64) -> u64;
        pub(super) fn bitbox_tag_pages(n: usize) -> Answer;
        pub(super) fn bitbox_table_length(n: usize) -> Answer;
        pub(super) fn bitbox_page_number(n: usize, bucket: u64) -> Answer;

        pub(super) fn bitbox_probe(tags: *const u8, tags_len: usize, n: usize, hash: u64, k: u64) -> Probed;
        pub(super) fn bitbox_lookup(image: *const u8, image_len: usize, n: usize, hash: u64, id: &[u8; 32]) -> Found;
        pub(super) fn bitbox_allocate(tags: *mut u8, tags_len: usize, n: usize, hash: u64) -> Answer;

        pub(super) fn bitbox_reader_set(log: *const u8, log_len: usize) -> Answer;
        pub(super) fn bitbox_reader_edition(log: *const u8, log_len: usize) -> u32;
        pub(super) fn bitbox_reader_first(log: *const u8, log_len: usize) -> usize;
        pub(super) fn bitbox_reader_seed(log: *const u8, log_len: usize, seed: &mut [u8; 16]);
        pub(super) fn bitbox_reader_next(log: *const u8, log_len: usize, at: usize, edition: u32) -> Entry;
        pub(super) fn bitbox_reader_next_tolerant(log: *const u8, log_len: usize, at: usize, edition: u32) -> Entry;
        pub(super) fn bitbox_reader_head(log: *const u8, log_len: usize, at: usize, edition: u32) -> Head;
        pub(super) fn bitbox_reader_head_tolerant(log: *const u8, log_len: usize, at: usize, edition: u32) -> Head;
        pub(super) fn bitbox_begin(log: *mut u8, log_len: usize, w: WriterState, start: LogStart) -> Written;
        pub(super) fn bitbox_write_clear(log: *mut u8, log_len: usize, w: WriterState, bucket: u64) -> Written;
        pub(super) fn bitbox_write_update(log: *mut u8, log_len: usize, w: WriterState, id: &[u8; 32], lo: u64, hi: u64, nodes: &[[u8; 32]; 126], count: usize, elided: &[u8; 8], bucket: u64) -> Written;
        pub(super) fn bitbox_finish(log: *mut u8, log_len: usize, w: WriterState) -> Written;

        pub(super) fn bitbox_sync_step(tags: *mut u8, tags_len: usize, marks: *mut u8, marks_len: usize, cells: *mut u64, cells_len: usize, log: *mut u8, log_len: usize, page: *const u8, page_len: usize, c: Change, st: StepState) -> StepAnswer;
        pub(super) fn bitbox_sync(tags: *mut u8, tags_len: usize, marks: *mut u8, marks_len: usize, cells: *mut u64, cells_len: usize, log: *mut u8, log_len: usize, pages: *const u8, pages_len: usize, changes: *const Change, changes_len: usize, n: usize, w: WriterState, start: LogStart) -> SyncAnswer;

        pub(super) fn bitbox_replay(image: *mut u8, image_len: usize, n: usize, log: *const u8, log_len: usize, sync_seqn: u32, seed: &[u8; 16], hashes: *const u64, hashes_len: usize) -> Answer;
        pub(super) fn bitbox_replay_tolerant(image: *mut u8, image_len: usize, n: usize, log: *const u8, log_len: usize, sync_seqn: u32, seed: &[u8; 16], hashes: *const u64, hashes_len: usize) -> Answer;
        pub(super) fn bitbox_replay_step(image: *mut u8, image_len: usize, n: usize, log: *const u8, log_len: usize, edition: u32, at: usize, hash: u64) -> Stepped;
        pub(super) fn bitbox_replay_step_tolerant(image: *mut u8, image_len: usize, n: usize, log: *const u8, log_len: usize, edition: u32, at: usize, hash: u64) -> Stepped;

        pub(super) fn bitbox_write_marker(old: u32, new: u32) -> MarkerBytes;
        pub(super) fn bitbox_read_marker(bytes: *const u8, bytes_len: usize) -> Marker;
        pub(super) fn bitbox_pending(old: u64, new: u64, meta: u64, file_len: u64) -> Answer;
        pub(super) fn bitbox_grow(old_image: *const u8, old_image_len: usize, old_n: usize, new_image: *mut u8, new_image_len: usize, new_n: usize, hashes: *const u64, hashes_len: usize) -> Answer;
        pub(super) fn bitbox_audit(image: *const u8, image_len: usize, n: usize, hashes: *const u64, hashes_len: usize) -> Audited;
    }
}

// SAFETY, of every call below: the library asks of its caller that pointers and lengths are true and
// nothing else. Each pointer here goes with its length out of one slice, or out of one reference to an
// array, that is lent for the call; what is written goes to slices that are lent mutably, so that nobody
// else holds them. The library keeps no pointer and has no state.

pub(crate) fn diff_read(bytes: &[u8; 16]) -> DiffAnswer {
    unsafe { library::bitbox_diff_read(bytes) }
}

pub(crate) fn diff_bytes(diff: Diff) -> [u8; 16] {
    let [lo, hi] = diff.words();
    let mut bytes = [0; 16];
    unsafe { library::bitbox_diff_bytes(lo, hi, &mut bytes) };
    bytes
}

pub(crate) fn diff_set(diff: Diff, slot: usize) -> DiffAnswer {
    let [lo, hi] = diff.words();
    unsafe { library::bitbox_diff_set(lo, hi, slot) }
}

pub(crate) fn diff_ask(diff: Diff, slot: usize) -> Answer {
    let [lo, hi] = diff.words();
    unsafe { library::bitbox_diff_ask(lo, hi, slot) }
}

pub(crate) fn diff_set_cleared(diff: Diff) -> Diff {
    let [lo, hi] = diff.words();
    unsafe { library::bitbox_diff_set_cleared(lo, hi) }
}

pub(crate) fn diff_cleared(diff: Diff) -> bool {
    let [lo, hi] = diff.words();
    unsafe { library::bitbox_diff_cleared(lo, hi) }
}

pub(crate) fn diff_count(diff: Diff) -> usize {
    let [lo, hi] = diff.words();
    unsafe { library::bitbox_diff_count(lo, hi) }
}

pub(crate) fn diff_join(a: Diff, b: Diff) -> Diff {
    let ([lo, hi], [lo2, hi2]) = (a.words(), b.words());
    unsafe { library::bitbox_diff_join(lo, hi, lo2, hi2) }
}

pub(crate) fn pack(diff: Diff, page: &[u8]) -> PackAnswer {
    let [lo, hi] = diff.words();
    unsafe { library::bitbox_pack(lo, hi, page.as_ptr(), page.len()) }
}

pub(crate) fn pack_into(diff: Diff, page: &[u8], nodes: &mut [u8]) -> Answer {
    let [lo, hi] = diff.words();
    let (nodes, len) = (nodes.as_mut_ptr(), nodes.len());
    unsafe { library::bitbox_pack_into(lo, hi, page.as_ptr(), page.len(), nodes, len) }
}

pub(crate) fn unpack(diff: Diff, nodes: &[Node; SLOTS], count: usize, page: &mut [u8]) -> Answer {
    let [lo, hi] = diff.words();
    unsafe { library::bitbox_unpack(lo, hi, nodes, count, page.as_mut_ptr(), page.len()) }
}

pub(crate) fn full_tag(hash: u64) -> u8 {
    unsafe { library::bitbox_full_tag(hash) }
}

pub(crate) fn hint_empty(tag: u8) -> bool {
    unsafe { library::bitbox_hint_empty(tag) }
}

pub(crate) fn hint_tombstone(tag: u8) -> bool {
    unsafe { library::bitbox_hint_tombstone(tag) }
}

pub(crate) fn hint_not_match(tag: u8, hash: u64) -> bool {
    unsafe { library::bitbox_hint_not_match(tag, hash) }
}

pub(crate) fn is_full(tag: u8) -> bool {
    unsafe { library::bitbox_is_full(tag) }
}

pub(crate) fn set_full(tags: &mut [u8], n: usize, bucket: u64, hash: u64) -> Answer {
    unsafe { library::bitbox_set_full(tags.as_mut_ptr(), tags.len(), n, bucket, hash) }
}

pub(crate) fn set_tombstone(tags: &mut [u8], n: usize, bucket: u64) -> Answer {
    unsafe { library::bitbox_set_tombstone(tags.as_mut_ptr(), tags.len(), n, bucket) }
}

pub(crate) fn full_count(tags: &[u8], n: usize) -> Answer {
    unsafe { library::bitbox_full_count(tags.as_ptr(), tags.len(), n) }
}

pub(crate) fn padding_is_empty(tags: &[u8], n: usize) -> Answer {
    unsafe { library::bitbox_padding_is_empty(tags.as_ptr(), tags.len(), n) }
}

pub(crate) fn tag_page(bucket: u64) -> u64 {
    unsafe { library::bitbox_tag_page(bucket) }
}

pub(crate) fn tag_pages(n: usize) -> Answer {
    unsafe { library::bitbox_tag_pages(n) }
}

pub(crate) fn table_length(n: usize) -> Answer {
    unsafe { library::bitbox_table_length(n) }
}

pub(crate) fn page_number(n: usize, bucket: u64) -> Answer {
    unsafe { library::bitbox_page_number(n, bucket) }
}

pub(crate) fn probe(tags: &[u8], n: usize, hash: u64, k: u64) -> Probed {
    unsafe { library::bitbox_probe(tags.as_ptr(), tags.len(), n, hash, k) }
}

pub(crate) fn lookup(image: &[u8], n: usize, hash: u64, id: &[u8; 32]) -> Found {
    unsafe { library::bitbox_lookup(image.as_ptr(), image.len(), n, hash, id) }
}

pub(crate) fn allocate(tags: &mut [u8], n: usize, hash: u64) -> Answer {
    unsafe { library::bitbox_allocate(tags.as_mut_ptr(), tags.len(), n, hash) }
}

pub(crate) fn reader_set(log: &[u8]) -> Answer {
    unsafe { library::bitbox_reader_set(log.as_ptr(), log.len()) }
}

pub(crate) fn reader_edition(log: &[u8]) -> u32 {
    unsafe { library::bitbox_reader_edition(log.as_ptr(), log.len()) }
}

pub(crate) fn reader_first(log: &[u8]) -> usize {
    unsafe { library::bitbox_reader_first(log.as_ptr(), log.len()) }
}

pub(crate) fn reader_seed(log: &[u8]) -> [u8; 16] {
    let mut seed = [0; 16];
    unsafe { library::bitbox_reader_seed(log.as_ptr(), log.len(), &mut seed) };
    seed
}

pub(crate) fn reader_next(log: &[u8], at: usize, edition: u32, rule: AfterEnd) -> Entry {
    let next = match rule {
        AfterEnd::Zeros => library::bitbox_reader_next,
        AfterEnd::Tolerant => library::bitbox_reader_next_tolerant,
    };
    unsafe { next(log.as_ptr(), log.len(), at, edition) }
}

pub(crate) fn reader_head(log: &[u8], at: usize, edition: u32, rule: AfterEnd) -> Head {
    let head = match rule {
        AfterEnd::Zeros => library::bitbox_reader_head,
        AfterEnd::Tolerant => library::bitbox_reader_head_tolerant,
    };
    unsafe { head(log.as_ptr(), log.len(), at, edition) }
}

pub(crate) fn begin(log: &mut [u8], w: WriterState, start: LogStart) -> Written {
    unsafe { library::bitbox_begin(log.as_mut_ptr(), log.len(), w, start) }
}

pub(crate) fn write_clear(log: &mut [u8], w: WriterState, bucket: u64) -> Written {
    unsafe { library::bitbox_write_clear(log.as_mut_ptr(), log.len(), w, bucket) }
}

pub(crate) fn write_update(
    log: &mut [u8],
    w: WriterState,
    id: &[u8; 32],
    diff: Diff,
    packed: &Packed,
    elided: &[u8; 8],
    bucket: u64,
) -> Written {
    let [lo, hi] = diff.words();
    let (log, len) = (log.as_mut_ptr(), log.len());
    unsafe { library::bitbox_write_update(log, len, w, id, lo, hi, packed.table(), packed.count(), elided, bucket) }
}

pub(crate) fn finish(log: &mut [u8], w: WriterState) -> Written {
    unsafe { library::bitbox_finish(log.as_mut_ptr(), log.len(), w) }
}

pub(crate) fn sync_step(lent: &mut Lent<'_>, page: &[u8], c: Change, st: StepState) -> StepAnswer {
    let Lent { n: _, tags, marks, cells, log } = lent;
    unsafe {
        library::bitbox_sync_step(
            tags.as_mut_ptr(),
            tags.len(),
            marks.as_mut_ptr(),
            marks.len(),
            cells.as_mut_ptr(),
            cells.len(),
            log.as_mut_ptr(),
            log.len(),
            page.as_ptr(),
            page.len(),
            c,
            st,
        )
    }
}

pub(crate) fn sync(
    lent: &mut Lent<'_>,
    pages: &[u8],
    changes: &[Change],
    w: WriterState,
    start: LogStart,
) -> SyncAnswer {
    let Lent { n, tags, marks, cells, log } = lent;
    unsafe {
        library::bitbox_sync(
            tags.as_mut_ptr(),
            tags.len(),
            marks.as_mut_ptr(),
            marks.len(),
            cells.as_mut_ptr(),
            cells.len(),
            log.as_mut_ptr(),
            log.len(),
            pages.as_ptr(),
            pages.len(),
            changes.as_ptr(),
            changes.len(),
            *n,
            w,
            start,
        )
    }
}

pub(crate) fn replay(
    image: &mut [u8],
    n: usize,
    log: &[u8],
    sync_seqn: u32,
    seed: &[u8; 16],
    hashes: &[u64],
    rule: AfterEnd,
) -> Answer {
    let replay = match rule {
        AfterEnd::Zeros => library::bitbox_replay,
        AfterEnd::Tolerant => library::bitbox_replay_tolerant,
    };
    let (image, len) = (image.as_mut_ptr(), image.len());
    let (log, log_len) = (log.as_ptr(), log.len());
    unsafe { replay(image, len, n, log, log_len, sync_seqn, seed, hashes.as_ptr(), hashes.len()) }
}

pub(crate) fn replay_step(
    image: &mut [u8],
    n: usize,
    log: &[u8],
    edition: u32,
    at: usize,
    hash: u64,
    rule: AfterEnd,
) -> Stepped {
    let step = match rule {
        AfterEnd::Zeros => library::bitbox_replay_step,
        AfterEnd::Tolerant => library::bitbox_replay_step_tolerant,
    };
    let (image, len) = (image.as_mut_ptr(), image.len());
    unsafe { step(image, len, n, log.as_ptr(), log.len(), edition, at, hash) }
}

pub(crate) fn write_marker(old: u32, new: u32) -> MarkerBytes {
    unsafe { library::bitbox_write_marker(old, new) }
}

pub(crate) fn read_marker(bytes: &[u8]) -> Marker {
    unsafe { library::bitbox_read_marker(bytes.as_ptr(), bytes.len()) }
}

pub(crate) fn pending(old: u64, new: u64, meta: u64, file_len: u64) -> Answer {
    unsafe { library::bitbox_pending(old, new, meta, file_len) }
}

pub(crate) fn grow(old: &[u8], old_n: usize, new: &mut [u8], new_n: usize, hashes: &[u64]) -> Answer {
    let (new, new_len) = (new.as_mut_ptr(), new.len());
    unsafe { library::bitbox_grow(old.as_ptr(), old.len(), old_n, new, new_len, new_n, hashes.as_ptr(), hashes.len()) }
}

pub(crate) fn audit(image: &[u8], n: usize, hashes: &[u64]) -> Audited {
    unsafe { library::bitbox_audit(image.as_ptr(), image.len(), n, hashes.as_ptr(), hashes.len()) }
}

#[cfg(test)]
mod layout {
    use super::*;
    use crate::change::Place;
    use core::mem::{align_of, offset_of, size_of};

    // The size and alignment of a struct, and the offset of each field, in the boundary's order.
    macro_rules! laid_out {
        ($name:ident: $size:expr, $align:expr; $($field:ident $at:expr),*) => {
            assert_eq!(size_of::<$name>(), $size, "size of {}", stringify!($name));
            assert_eq!(align_of::<$name>(), $align, "alignment of {}", stringify!($name));
            $(assert_eq!(offset_of!($name, $field), $at, "{}.{}", stringify!($name), stringify!($field));)*
        };
    }

    #[test]
    fn every_struct_is_laid_out_as_the_boundary_has_it() {
        assert_eq!(size_of::<usize>(), 8, "the library is for machines of 64 bits");
        laid_out!(Diff: 16, 8; words 0);
        laid_out!(Packed: 126 * 32 + 8, 8; nodes 0, count 4032);
        laid_out!(Place: 16, 8; kind 0, at 8);
        laid_out!(Change: 72, 8; id 0, hash 32, diff 40, place 56);
        laid_out!(Answer: 16, 8; refusal 0, value 8);
        laid_out!(DiffAnswer: 24, 8; refusal 0, diff 8);
        laid_out!(PackAnswer: 8 + 4040, 8; refusal 0, packed 8);
        laid_out!(Probed: 32, 8; refusal 0, kind 8, bucket 16, visit 24);
        laid_out!(Found: 24, 8; refusal 0, kind 8, bucket 16);
        laid_out!(Entry: 4128, 8; refusal 0, kind 8, bucket 16, next 24, id 32, diff 64, packed 80, elided 4120);
        laid_out!(Head: 40, 8; refusal 0, kind 8, bucket 16, count 24, next 32);
        laid_out!(LogStart: 24, 4; sync 0, edition 4, seed 8);
        laid_out!(WriterState: 16, 8; kind 0, at 8);
        laid_out!(Written: 32, 8; refusal 0, length 8, writer 16);
        laid_out!(StepState: 32, 8; n 0, writer 8, occupied 24);
        laid_out!(StepAnswer: 56, 8; refusal 0, bucket 8, page 16, state 24);
        laid_out!(SyncAnswer: 56, 8; refusal 0, at_change 8, change 16, occupied 24, length 32, writer 40);
        laid_out!(Stepped: 24, 8; refusal 0, kind 8, next 16);
        laid_out!(Marker: 24, 8; refusal 0, old 8, new 16);
        laid_out!(MarkerBytes: 24, 8; refusal 0, bytes 8);
        laid_out!(Audited: 32, 8; refusal 0, capacity 8, occupied 16, rate 24);
    }
}
