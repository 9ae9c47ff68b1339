//! The ways in which the original departs from 01, by name: docs/DIFFERENCES.md has each with its smallest input.
//! ops/ tells, for an input, which it is, what the original does there to the byte, and what 01 answers.

use crate::heard::CHECKED;

/// The build of the original in which it is met.
#[derive(Clone, Copy, PartialEq)]
pub enum Build {
    Each,
    /// With debug assertions and overflow checks.
    Checked,
    Released,
}

#[derive(Clone, Copy)]
pub struct Departure {
    /// The part of the comparison whose short inputs meet it.
    pub part: &'static str,
    pub build: Build,
    pub says: &'static str,
}

macro_rules! departures {
    ($($name:ident: $part:literal $build:ident $says:literal;)*) => {
        $(pub const $name: Departure = Departure { part: $part, build: Build::$build, says: $says };)*
        const ALL: &[Departure] = &[$($name),*];
    };
}

departures! {
    SLOT_SET: "diff" Each "diff set: a slot above 125 panics (01: 3)";
    SLOT_ASKED: "diff" Each "diff ask: a slot above 127 panics (01: 3)";
    BIT_127: "diff" Each "pack, unpack: bit 127 panics (01: 4, or 2 before it)";
    BIT_126: "diff" Each "pack, unpack: bit 126 goes as bytes 4032..4063 (01: 4)";
    PAGE_TAKEN: "diff" Each "pack, unpack: any page that reaches the slots is taken (01: 2)";
    PAGE_SHORT: "diff" Each "pack, unpack: a page that ends before a slot panics (01: 2)";
    NODE_COUNT: "diff" Each "unpack: a wrong node count panics (01: 2, or 4 before it)";

    TAG_IN_PADDING: "tags" Each "a tag of the padding is set (01: 9)";
    TAG_PAST_PADDING: "tags" Each "a tag past the padding panics (01: 9, or 1 before it)";
    TAGS_NO_PAGES: "tags" Each "tags: a length that is no multiple of 4,096 panics (01: 1)";
    TAGS_SHORT: "tags" Each "full count, padding: tags shorter than the count panic (01: 1)";
    TAGS_TAKEN: "tags" Each "tags: any count is taken, and any number of whole pages (01: 1)";

    NO_BUCKETS: "places" Each "places: 0 buckets are a table of length 0 (01: 1)";
    ANY_COUNT: "places" Each "places: any u32 count is taken (01: 1 above 1,048,576)";
    LENGTH_PANICS: "places" Checked "table length: overflows from n = 4,293,918,975 and panics (01: 1)";
    LENGTH_WRAPS: "places" Released "table length: overflows from n = 4,293,918,975 and wraps (01: 1)";
    ANY_BUCKET: "places" Each "page number: M+b is answered for any bucket (01: 9)";
    PAGE_PANICS: "places" Checked "page number: M+b overflows near 2^64 and panics (01: 9, or 1 before it)";
    PAGE_WRAPS: "places" Released "page number: M+b overflows near 2^64 and wraps (01: 9, or 1 before it)";

    PATH_NO_BUCKETS: "path" Each "probe, lookup, allocate: 0 buckets panic (01: 1)";
    PATH_NO_PAGES: "path" Each "probe, allocate: tags that are no whole pages panic (01: 1)";
    PATH_TAGS_SHORT: "path" Each "probe, allocate: a bucket that the tags do not reach panics (01: 1)";
    PATH_TAGS_TAKEN: "path" Each "probe, allocate: any count is taken, and any number of whole pages (01: 1)";
    PROBE_ENDLESS: "path" Each "probe: a path with nothing to stop at never ends (01: closed)";
    LOOKUP_ENDLESS: "path" Each "lookup: a path with no empty bucket and no such page never ends (01: closed)";
    ALLOCATE_ENDLESS: "path" Each "allocate: a path with nothing to stop at never ends (01: 11)";

    WRITER_NOT_OPEN: "write" Each "writer: a call that no begin went before is written (01: 12)";
    WRITER_NODES: "write" Each "writer: any number of nodes is written (01: 2)";
    WRITER_BITS: "write" Each "writer: bits 126 and 127 are written (01: 4)";
    WRITER_GROWS: "write" Each "writer: the buffer grows (01: 13)";

    SYNC_TABLE_TAKEN: "sync" Each "sync: 0 buckets are taken, and any number of whole tag pages (01: 1)";
    SYNC_TABLE_PANICS: "sync" Each "sync: tags that are no whole pages or shorter than the count panic (01: 1)";
    SYNC_GROWS: "sync" Each "sync: the log's buffer grows (01: 13)";
    SYNC_TWICE: "sync" Checked "sync: one bucket updated twice fails a debug assertion (01: accepted)";
    SYNC_BIT_126: "sync" Each "sync: a change with bit 126 is taken (01: 4)";
    SYNC_ANY_BUCKET: "sync" Each "sync: an update of a bucket at or above n is taken (01: 9)";
    SYNC_PAGE_PANICS: "sync" Checked "sync: an update of a bucket near 2^64 panics (01: 9)";
    SYNC_CLEAR_PADDING: "sync" Each "sync: a clear in the padding is done (01: 9)";
    SYNC_CLEAR_PAST: "sync" Each "sync: a clear past the padding panics (01: 9)";
    SYNC_OTHER_TAG: "sync" Each "sync: an update of a bucket with another tag is taken (01: 14)";
    SYNC_CLEAR_NOT_FULL: "sync" Each "sync: a clear of a bucket that is not full is done (01: 14)";
    SYNC_CLEAR_OTHER: "sync" Each "sync: a clear of a bucket that is full with another tag is done (02: 14)";
    SYNC_CLEAR_NEW: "sync" Each "sync: a clear of a new page panics (01: 14)";
    SYNC_NOT_MOVED: "sync" Each "sync: refused with 10, the tags keep earlier changes and occupied isn't moved";
    SYNC_ENDLESS: "sync" Each "sync: a new page whose path has nothing to stop at never ends (01: 11)";

    REPLAY_EMPTY: "replay" Each "replay: an empty log is an error of `recover` itself (01: nothing)";
    REPLAY_NO_BUCKETS: "replay" Each "replay: 0 buckets are a table of length 0 (01: 1)";
    REPLAY_PADDING: "replay" Each "replay: a clear in the padding is done (01: 9)";
    REPLAY_PAST: "replay" Each "replay: a bucket at or above the padded length panics (01: 9)";
    REPLAY_WRITTEN: "replay" Each "replay: refused, and pages of earlier updates are written (01: unchanged)";

    READER_AFTER_END: "after" Each "reader: what follows end is not looked at (02: 27)";
    REPLAY_AFTER_END: "after" Each "replay: what follows end is not looked at (02: 27)";

    MARKER_ANY_COUNTS: "growth" Each "marker write: any counts are written (01: 17)";
    PENDING_ANY_COUNT: "growth" Each "pending: counts have no upper limit (01: 1)";
    GROWTH_FROM_0: "growth" Each "growth: from 0 buckets is accepted (01: 1)";
    GROWTH_FROM_0_LENGTH: "growth" Each "growth: from 0 buckets, a wrong length is the error (01: 1)";
    GROWTH_ANY_COUNT: "growth" Each "growth: counts have no upper limit (01: 1)";
    GROWTH_ENDLESS: "growth" Each "growth: a path with nothing to stop at never ends (01: 11)";
}

/// Those that a part's short inputs meet in this build.
pub fn of_part(part: &str) -> impl Iterator<Item = &'static str> + '_ {
    let here = |build| match build {
        Build::Each => true,
        Build::Checked => CHECKED,
        Build::Released => !CHECKED,
    };
    ALL.iter().filter(move |d| d.part == part && here(d.build)).map(|d| d.says)
}
