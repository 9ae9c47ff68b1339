//! What the comparison asks of 01 and of ours, call by call, in 01's terms. The original is asked in
//! its own; see ops/.

use terms::*;

/// The terms that calls are asked and answered in.
pub mod terms {
    pub use model::{
        after_end::AfterEnd,
        audit::Audited,
        diff::{Diff, Node, Packed},
        edition::{Edition, Seed, Start},
        growth::{Grown, Pending},
        path::{Found, Probed},
        reader::Entry,
        replay::{Replayed, Stepped},
        sync::{Change, Lent, Place, State, Step, Synced},
        tags::Kind,
        writer::Writer,
        Answer, Refused,
    };
}

/// An entry without its fields: 0 end, 1 clear, 2 update; its bucket; the count of its nodes; the position
/// after it, 0 for end.
pub type Head = [u64; 4];

pub fn head_of(entry: &Entry, after: u64) -> Head {
    match entry {
        Entry::End => [0; 4],
        Entry::Clear { bucket } => [1, *bucket, 0, after],
        Entry::Update { bucket, nodes, .. } => [2, *bucket, nodes.len() as u64, after],
    }
}

pub trait Engine {
    /// Whether it is ours, and not 01's program.
    const OURS: bool;

    fn diff_read(bytes: [u8; 16]) -> Answer<Diff>;
    fn diff_bytes(d: Diff) -> [u8; 16];
    fn diff_set(d: Diff, slot: u64) -> Answer<Diff>;
    fn diff_ask(d: Diff, slot: u64) -> Answer<bool>;
    fn diff_set_cleared(d: Diff) -> Diff;
    fn diff_cleared(d: Diff) -> bool;
    fn diff_count(d: Diff) -> u64;
    fn diff_join(a: Diff, b: Diff) -> Diff;
    fn pack(d: Diff, page: &[u8]) -> Answer<Packed>;
    /// Into lent memory; the count.
    fn pack_into(d: Diff, page: &[u8], nodes: &mut [Node]) -> Answer<u64>;
    fn unpack(d: Diff, packed: &Packed, page: &mut [u8]) -> Answer<()>;

    fn full_tag(hash: u64) -> u8;
    fn kind(tag: u8) -> Kind;
    fn not_match(tag: u8, hash: u64) -> bool;
    fn set_full(tags: &mut [u8], n: u64, bucket: u64, hash: u64) -> Answer<()>;
    fn set_tombstone(tags: &mut [u8], n: u64, bucket: u64) -> Answer<()>;
    fn full_count(tags: &[u8], n: u64) -> Answer<u64>;
    fn padding_is_zero(tags: &[u8], n: u64) -> Answer<bool>;
    fn tag_page(bucket: u64) -> u64;

    fn tag_pages(n: u64) -> Answer<u64>;
    fn length(n: u64) -> Answer<u64>;
    fn page_number(n: u64, bucket: u64) -> Answer<u64>;

    fn probe(tags: &[u8], n: u64, hash: u64, k: u64) -> Answer<Probed>;
    fn lookup(image: &[u8], n: u64, hash: u64, id: &[u8; 32]) -> Answer<Found>;
    fn allocate(tags: &mut [u8], n: u64, hash: u64) -> Answer<u64>;

    fn reader_set(log: &[u8]) -> Answer<Start>;
    fn reader_next(log: &[u8], edition: Edition, at: u64, after: AfterEnd) -> Answer<(Entry, u64)>;
    /// An entry without its fields.
    fn reader_head(log: &[u8], edition: Edition, at: u64, after: AfterEnd) -> Answer<Head>;

    fn begin(log: &mut [u8], w: Writer, start: Start) -> Answer<Writer>;
    fn write_clear(log: &mut [u8], w: Writer, bucket: u64) -> Answer<Writer>;
    fn write_update(
        log: &mut [u8],
        w: Writer,
        id: &[u8; 32],
        d: Diff,
        packed: &Packed,
        elided: &[u8; 8],
        bucket: u64,
    ) -> Answer<Writer>;
    fn finish(log: &mut [u8], w: Writer) -> Answer<(u64, Writer)>;

    fn sync_step(lent: &mut Lent, state: State, change: &Change, page: &[u8]) -> Answer<(Step, State)>;
    fn sync(lent: &mut Lent, writer: &mut Writer, start: Start, changes: &[Change], pages: &[u8]) -> Synced;

    fn replay(
        image: &mut [u8],
        n: u64,
        log: &[u8],
        sync: u32,
        seed: &Seed,
        hashes: &[u64],
        after: AfterEnd,
    ) -> Answer<Replayed>;
    fn replay_step(
        image: &mut [u8],
        n: u64,
        log: &[u8],
        edition: Edition,
        at: u64,
        hash: u64,
        after: AfterEnd,
    ) -> Answer<Stepped>;

    fn write_marker(old: u32, new: u32) -> Answer<[u8; 16]>;
    fn read_marker(bytes: &[u8]) -> Answer<(u32, u32)>;
    fn pending(meta: u64, file: u64, old: u64, new: u64) -> Answer<Pending>;
    fn grow(old: &[u8], old_n: u64, new: &mut [u8], new_n: u64, hashes: &[u64]) -> Answer<Grown>;

    fn audit(image: &[u8], n: u64, hashes: &[u64]) -> Answer<Audited>;
    fn list(log: &[u8]) -> String;
}

/// Document 01.
pub struct Model;

impl Engine for Model {
    const OURS: bool = false;

    fn diff_read(bytes: [u8; 16]) -> Answer<Diff> {
        model::diff::read(bytes)
    }

    fn diff_bytes(d: Diff) -> [u8; 16] {
        d.bytes()
    }

    fn diff_set(d: Diff, slot: u64) -> Answer<Diff> {
        model::diff::set(d, slot)
    }

    fn diff_ask(d: Diff, slot: u64) -> Answer<bool> {
        model::diff::ask(d, slot)
    }

    fn diff_set_cleared(d: Diff) -> Diff {
        d.set_cleared()
    }

    fn diff_cleared(d: Diff) -> bool {
        d.cleared()
    }

    fn diff_count(d: Diff) -> u64 {
        d.count()
    }

    fn diff_join(a: Diff, b: Diff) -> Diff {
        a.join(b)
    }

    fn pack(d: Diff, page: &[u8]) -> Answer<Packed> {
        model::diff::pack(d, page)
    }

    fn pack_into(d: Diff, page: &[u8], nodes: &mut [Node]) -> Answer<u64> {
        let packed = model::diff::pack(d, page)?;
        if nodes.len() != packed.nodes.len() {
            return Err(Refused(2));
        }
        nodes.copy_from_slice(&packed.nodes);
        Ok(packed.count)
    }

    fn unpack(d: Diff, packed: &Packed, page: &mut [u8]) -> Answer<()> {
        model::diff::unpack(d, packed, page)
    }

    fn full_tag(hash: u64) -> u8 {
        model::tags::full_tag(hash)
    }

    fn kind(tag: u8) -> Kind {
        model::tags::kind(tag)
    }

    fn not_match(tag: u8, hash: u64) -> bool {
        tag != model::tags::full_tag(hash)
    }

    fn set_full(tags: &mut [u8], n: u64, bucket: u64, hash: u64) -> Answer<()> {
        model::tags::set(tags, n, bucket, model::tags::full_tag(hash))
    }

    fn set_tombstone(tags: &mut [u8], n: u64, bucket: u64) -> Answer<()> {
        model::tags::set(tags, n, bucket, model::tags::TOMBSTONE)
    }

    fn full_count(tags: &[u8], n: u64) -> Answer<u64> {
        model::tags::full_count(tags, n)
    }

    fn padding_is_zero(tags: &[u8], n: u64) -> Answer<bool> {
        model::tags::padding_is_zero(tags, n)
    }

    fn tag_page(bucket: u64) -> u64 {
        model::tags::page_index(bucket)
    }

    fn tag_pages(n: u64) -> Answer<u64> {
        model::places::tag_pages(n)
    }

    fn length(n: u64) -> Answer<u64> {
        model::places::length(n)
    }

    fn page_number(n: u64, bucket: u64) -> Answer<u64> {
        model::places::page_number(n, bucket)
    }

    fn probe(tags: &[u8], n: u64, hash: u64, k: u64) -> Answer<Probed> {
        model::path::probe(tags, n, hash, k)
    }

    fn lookup(image: &[u8], n: u64, hash: u64, id: &[u8; 32]) -> Answer<Found> {
        model::path::lookup(image, n, hash, id)
    }

    fn allocate(tags: &mut [u8], n: u64, hash: u64) -> Answer<u64> {
        model::path::allocate(tags, n, hash)
    }

    fn reader_set(log: &[u8]) -> Answer<Start> {
        model::reader::set(log)
    }

    fn reader_next(log: &[u8], edition: Edition, at: u64, after: AfterEnd) -> Answer<(Entry, u64)> {
        model::reader::next(log, edition, at, after)
    }

    fn reader_head(log: &[u8], edition: Edition, at: u64, after: AfterEnd) -> Answer<Head> {
        model::reader::next(log, edition, at, after).map(|(entry, next)| head_of(&entry, next))
    }

    fn begin(log: &mut [u8], _w: Writer, start: Start) -> Answer<Writer> {
        model::writer::begin(log, start)
    }

    fn write_clear(log: &mut [u8], w: Writer, bucket: u64) -> Answer<Writer> {
        model::writer::clear(log, w, bucket)
    }

    fn write_update(
        log: &mut [u8],
        w: Writer,
        id: &[u8; 32],
        d: Diff,
        packed: &Packed,
        elided: &[u8; 8],
        bucket: u64,
    ) -> Answer<Writer> {
        model::writer::update(log, w, id, d, packed, elided, bucket)
    }

    fn finish(log: &mut [u8], w: Writer) -> Answer<(u64, Writer)> {
        model::writer::finish(log, w)
    }

    fn sync_step(lent: &mut Lent, state: State, change: &Change, page: &[u8]) -> Answer<(Step, State)> {
        model::sync::step(lent, state, change, page)
    }

    fn sync(lent: &mut Lent, writer: &mut Writer, start: Start, changes: &[Change], pages: &[u8]) -> Synced {
        model::sync::sync(lent, writer, start, changes, pages)
    }

    fn replay(
        image: &mut [u8],
        n: u64,
        log: &[u8],
        sync: u32,
        seed: &Seed,
        hashes: &[u64],
        after: AfterEnd,
    ) -> Answer<Replayed> {
        model::replay::replay(image, n, log, sync, seed, hashes, after)
    }

    fn replay_step(
        image: &mut [u8],
        n: u64,
        log: &[u8],
        edition: Edition,
        at: u64,
        hash: u64,
        after: AfterEnd,
    ) -> Answer<Stepped> {
        model::replay::step(image, n, log, edition, at, hash, after)
    }

    fn write_marker(old: u32, new: u32) -> Answer<[u8; 16]> {
        model::growth::write_marker(old, new)
    }

    fn read_marker(bytes: &[u8]) -> Answer<(u32, u32)> {
        model::growth::read_marker(bytes)
    }

    fn pending(meta: u64, file: u64, old: u64, new: u64) -> Answer<Pending> {
        model::growth::pending(meta, file, old, new)
    }

    fn grow(old: &[u8], old_n: u64, new: &mut [u8], new_n: u64, hashes: &[u64]) -> Answer<Grown> {
        model::growth::grow(old, old_n, new, new_n, hashes)
    }

    fn audit(image: &[u8], n: u64, hashes: &[u64]) -> Answer<Audited> {
        model::audit::audit(image, n, hashes)
    }

    fn list(log: &[u8]) -> String {
        model::list::list(log)
    }
}
