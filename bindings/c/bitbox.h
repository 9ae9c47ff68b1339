/* A hash table of tree pages on disk, proved: the functions of libbitbox.a, for x86-64.
 *
 * Every call on every input ends with an answer. A slice is a pointer and then its length in elements; with
 * length 0 the pointer may be NULL. What a caller has to see to:
 *   - pointers and lengths are true;
 *   - pointers to uint64_t and to structs are aligned to 8 bytes, as C has them; bytes may stand anywhere;
 *   - what a call may write (a pointer without const) overlaps nothing else that is lent to it;
 *   - nobody else writes what is lent, or reads what the call may write, while it runs.
 * The library keeps nothing between calls, so calls on separate memory may run in separate threads, and so may
 * calls that only read the same memory.
 *
 * An answer begins with `refusal`: 0, or the number of the reason for which nothing was done (BITBOX_... below;
 * bitbox_refusal_name gives its name, docs/ANSWERS.md has a sentence on each). Fields that have no value are 0.
 * A refused call leaves all that it was lent, but for two: bitbox_grow refused with 10 or 11 leaves the new image
 * all zero, and bitbox_sync refused at a change keeps what it did before that (see there).
 *
 * A page is 4,096 bytes: 126 slots of 32 bytes; bytes 4,032 to 4,055, which belong to nobody and stand in no log;
 * 8 bytes of elided children; 32 bytes of id. A table has at most 1,048,576 buckets.
 */
#ifndef BITBOX_H
#define BITBOX_H

#include <stdbool.h>
#include <stddef.h>
#include <stdint.h>

#ifdef __cplusplus
extern "C" {
#endif

#define BITBOX_VERSION "0.4.0"
#define BITBOX_VERSION_NUMBER 400 /* 10,000 for the first number, 100 for the second */

#define BITBOX_PAGE 4096         /* bytes of a page */
#define BITBOX_SLOTS 126         /* slots of a page */
#define BITBOX_NODE 32           /* bytes of a slot's node */
#define BITBOX_MOST_BUCKETS 1048576
#define BITBOX_UNSET UINT64_MAX  /* a cell with no bucket yet */
#define BITBOX_SEED 16           /* bytes of a store's seed, which names it */

/* The refusals. */
enum {
    BITBOX_DONE = 0,
    BITBOX_TABLE_UNFIT = 1,      /* no bucket or too many, or a table of another length */
    BITBOX_LENGTH_UNFIT = 2,     /* another length, a node count that is not the diff's, no such cell */
    BITBOX_SLOT_UNFIT = 3,       /* no such slot */
    BITBOX_DIFF_RESERVED = 4,    /* bit 126, or bit 127 where nodes were expected */
    BITBOX_LOG_NOT_PAGES = 5,    /* a log's length is no multiple of 4,096 */
    BITBOX_LOG_CUT = 6,          /* a log ends inside a record or before its end */
    BITBOX_NO_START = 7,         /* a log does not begin with a start */
    BITBOX_TAG_UNKNOWN = 8,      /* a record begins with a byte that is no record's */
    BITBOX_BUCKET_OUTSIDE = 9,   /* no such bucket */
    BITBOX_PATH_CROWDED = 10,    /* no bucket: hits, and no free visit within the limit */
    BITBOX_PATH_CLOSED = 11,     /* no bucket: neither a free visit nor a hit */
    BITBOX_WRITER_NOT_OPEN = 12, /* the writer has not begun, or has finished */
    BITBOX_NO_ROOM = 13,         /* no room for this record and the end */
    BITBOX_BUCKET_UNFIT = 14,    /* a bucket to update or clear has not the page's own tag, or a clear has no bucket */
    BITBOX_MARKER_LENGTH = 15,   /* a growth marker is 16 bytes */
    BITBOX_MARKER_MAGIC = 16,    /* no growth marker */
    BITBOX_MARKER_ORDER = 17,    /* the new count is not above the old one */
    BITBOX_NOTHING_PENDING = 18, /* counts and length fit no step of a growth */
    BITBOX_WOULD_SHRINK = 19,    /* the new table would be smaller */
    BITBOX_PADDING_USED = 20,    /* a byte after the last tag is not zero */
    BITBOX_LABEL_TWICE = 21,     /* two buckets hold a page with the same id */
    BITBOX_TAG_WRONG = 22,       /* a bucket's tag is not its page's */
    BITBOX_EMPTY_FIRST = 23,     /* a page's path meets an empty bucket before its own */
    BITBOX_NOT_REACHED = 24,     /* a page's path never comes to its bucket */
    BITBOX_OTHER_STORE = 26,     /* a log names another store */
    BITBOX_AFTER_END_USED = 27   /* a byte after a log's end is not zero */
};

/* The name of a refusal as docs/ANSWERS.md has it, "Done" for 0; "Unknown" for a number that is none. */
static inline const char *bitbox_refusal_name(uint64_t refusal)
{
    switch (refusal) {
    case BITBOX_DONE: return "Done";
    case BITBOX_TABLE_UNFIT: return "TableUnfit";
    case BITBOX_LENGTH_UNFIT: return "LengthUnfit";
    case BITBOX_SLOT_UNFIT: return "SlotUnfit";
    case BITBOX_DIFF_RESERVED: return "DiffReserved";
    case BITBOX_LOG_NOT_PAGES: return "LogNotPages";
    case BITBOX_LOG_CUT: return "LogCut";
    case BITBOX_NO_START: return "NoStart";
    case BITBOX_TAG_UNKNOWN: return "TagUnknown";
    case BITBOX_BUCKET_OUTSIDE: return "BucketOutside";
    case BITBOX_PATH_CROWDED: return "PathCrowded";
    case BITBOX_PATH_CLOSED: return "PathClosed";
    case BITBOX_WRITER_NOT_OPEN: return "WriterNotOpen";
    case BITBOX_NO_ROOM: return "NoRoom";
    case BITBOX_BUCKET_UNFIT: return "BucketUnfit";
    case BITBOX_MARKER_LENGTH: return "MarkerLength";
    case BITBOX_MARKER_MAGIC: return "MarkerMagic";
    case BITBOX_MARKER_ORDER: return "MarkerOrder";
    case BITBOX_NOTHING_PENDING: return "NothingPending";
    case BITBOX_WOULD_SHRINK: return "WouldShrink";
    case BITBOX_PADDING_USED: return "PaddingUsed";
    case BITBOX_LABEL_TWICE: return "LabelTwice";
    case BITBOX_TAG_WRONG: return "TagWrong";
    case BITBOX_EMPTY_FIRST: return "EmptyFirst";
    case BITBOX_NOT_REACHED: return "NotReached";
    case BITBOX_OTHER_STORE: return "OtherStore";
    case BITBOX_AFTER_END_USED: return "AfterEndUsed";
    default: return "Unknown";
    }
}

/* What `kind` and `value` say. */
enum { BITBOX_PROBED_EMPTY = 0, BITBOX_PROBED_TOMBSTONE = 1, BITBOX_PROBED_HIT = 2, BITBOX_PROBED_CLOSED = 3 };
enum { BITBOX_FOUND_AT = 0, BITBOX_FOUND_ABSENT = 1, BITBOX_FOUND_CLOSED = 2 };
enum { BITBOX_ENTRY_END = 0, BITBOX_ENTRY_CLEAR = 1, BITBOX_ENTRY_UPDATE = 2 };
enum { BITBOX_EDITION_ONE = 1, BITBOX_EDITION_TWO = 2 };
enum { BITBOX_WRITER_FRESH = 0, BITBOX_WRITER_OPEN_ONE = 1, BITBOX_WRITER_FINISHED = 2, BITBOX_WRITER_OPEN_TWO = 3 };
enum { BITBOX_KNOWN = 0, BITBOX_FRESH = 1, BITBOX_CELL = 2 };
enum { BITBOX_REPLAY_NOTHING = 0, BITBOX_REPLAY_STALE = 1, BITBOX_REPLAY_APPLIED = 2 };
enum { BITBOX_STEP_END = 0, BITBOX_STEP_CLEARED = 1, BITBOX_STEP_UPDATED = 2 };
enum { BITBOX_PENDING_TIDY = 0, BITBOX_PENDING_UPDATE_META = 1 };
enum { BITBOX_GROWN_NOTHING = 0, BITBOX_GROWN_DONE = 1 };

/* ---- structs */

/* Which slots changed: bit i of word w is slot 64w + i; bit 127 is that of a cleared page. */
typedef struct {
    uint64_t words[2];
} bitbox_diff;

/* The nodes of a diff's slots, in rising order, and how many count. */
typedef struct {
    uint8_t nodes[126][32];
    size_t count;
} bitbox_packed;

/* Where a bucket is known from: BITBOX_KNOWN with the bucket, BITBOX_FRESH, any other a cell's index. */
typedef struct {
    uint64_t kind;
    uint64_t at;
} bitbox_place;

/* A change of a page. The hash is the page's own, of a clear too: a bucket that is named must have its tag. */
typedef struct {
    uint8_t id[32];
    uint64_t hash;
    bitbox_diff diff;
    bitbox_place place;
} bitbox_change;

/* A value, 0 where it is refused. */
typedef struct {
    uint64_t refusal;
    uint64_t value;
} bitbox_answer;

/* A diff: of no mark where it is refused to read one, the lent one where to set one. */
typedef struct {
    uint64_t refusal;
    bitbox_diff diff;
} bitbox_diff_answer;

/* Packed nodes: none where it is refused. */
typedef struct {
    uint64_t refusal;
    bitbox_packed packed;
} bitbox_pack_answer;

/* What probing comes to: BITBOX_PROBED_..., the bucket and its visit. */
typedef struct {
    uint64_t refusal;
    uint64_t kind;
    uint64_t bucket;
    uint64_t visit;
} bitbox_probed;

/* What lookup comes to: BITBOX_FOUND_..., the bucket. */
typedef struct {
    uint64_t refusal;
    uint64_t kind;
    uint64_t bucket;
} bitbox_found;

/* An entry of a log: BITBOX_ENTRY_..., its bucket, where the next stands (at the end and where it is refused, the
 * position that was asked for); what an update has. */
typedef struct {
    uint64_t refusal;
    uint64_t kind;
    uint64_t bucket;
    uint64_t next;
    uint8_t id[32];
    bitbox_diff diff;
    bitbox_packed packed;
    uint8_t elided[8];
} bitbox_entry;

/* An entry seen without its fields: BITBOX_ENTRY_..., its bucket, its nodes, where the next stands (at the end and
 * where it is refused, the position that was asked for). */
typedef struct {
    uint64_t refusal;
    uint64_t kind;
    uint64_t bucket;
    uint64_t count;
    uint64_t next;
} bitbox_head;

/* What a log starts with: its sync number; its edition, where 2 is the second and any other number the first; the
 * seed of its store, which edition one leaves out. */
typedef struct {
    uint32_t sync;
    uint32_t edition;
    uint8_t seed[16];
} bitbox_log_start;

/* A writer's state: BITBOX_WRITER_..., where open tells the edition; the position or the finished log's length. A
 * kind above 3 is finished too. */
typedef struct {
    uint64_t kind;
    uint64_t at;
} bitbox_writer_state;

/* What a writer's call comes to (the log's length for finish), and the state after it. */
typedef struct {
    uint64_t refusal;
    uint64_t length;
    bitbox_writer_state writer;
} bitbox_written;

/* The state of a sync that is made step by step: buckets of the table, the log's writer, full buckets. */
typedef struct {
    uint64_t n;
    bitbox_writer_state writer;
    uint64_t occupied;
} bitbox_step_state;

/* What a step of a sync comes to: the bucket, its page's number, the state after it. */
typedef struct {
    uint64_t refusal;
    uint64_t bucket;
    uint64_t page;
    bitbox_step_state state;
} bitbox_step_answer;

/* What a sync comes to: full buckets and the log's length, or a refusal, at `change` where at_change is 1. */
typedef struct {
    uint64_t refusal;
    uint64_t at_change;
    uint64_t change;
    uint64_t occupied;
    uint64_t length;
    bitbox_writer_state writer;
} bitbox_sync_answer;

/* What a step of replay comes to: BITBOX_STEP_..., where the next entry stands (at the end and where it is refused,
 * the position that was asked for). */
typedef struct {
    uint64_t refusal;
    uint64_t kind;
    uint64_t next;
} bitbox_stepped;

/* The counts of a growth marker. */
typedef struct {
    uint64_t refusal;
    uint64_t old_count;
    uint64_t new_count;
} bitbox_marker;

/* The bytes of a growth marker: zeros where it is refused. */
typedef struct {
    uint64_t refusal;
    uint8_t bytes[16];
} bitbox_marker_bytes;

/* What an audit comes to: buckets, full ones, and their rate. */
typedef struct {
    uint64_t refusal;
    uint64_t capacity;
    uint64_t occupied;
    double rate;
} bitbox_audited;

/* ---- diffs; lo and hi are a diff's words */

/* A diff out of its 16 bytes. 4. */
bitbox_diff_answer bitbox_diff_read(const uint8_t bytes[16]);
/* A diff's 16 bytes. */
void bitbox_diff_bytes(uint64_t lo, uint64_t hi, uint8_t bytes[16]);
/* A slot marked, and no longer cleared. 3. */
bitbox_diff_answer bitbox_diff_set(uint64_t lo, uint64_t hi, size_t slot);
/* 1 if a slot is marked, else 0. 3. */
bitbox_answer bitbox_diff_ask(uint64_t lo, uint64_t hi, size_t slot);
/* With the mark of a cleared page. */
bitbox_diff bitbox_diff_set_cleared(uint64_t lo, uint64_t hi);
/* Whether it has that mark. */
bool bitbox_diff_cleared(uint64_t lo, uint64_t hi);
/* How many marks it has. */
size_t bitbox_diff_count(uint64_t lo, uint64_t hi);
/* The marks of both. */
bitbox_diff bitbox_diff_join(uint64_t lo, uint64_t hi, uint64_t lo2, uint64_t hi2);
/* The nodes of the marked slots. 2, 4. */
bitbox_pack_answer bitbox_pack(uint64_t lo, uint64_t hi, const uint8_t *page, size_t page_len);
/* The same into 126 * 32 lent bytes: the nodes and zeros after them; their count. 2, 4, 2. */
bitbox_answer bitbox_pack_into(uint64_t lo, uint64_t hi, const uint8_t *page, size_t page_len, uint8_t *nodes,
                               size_t nodes_len);
/* Puts nodes at the marked slots; `nodes` points to 126 * 32 bytes, as packed.nodes[0] does. 2, 4, 2. */
bitbox_answer bitbox_unpack(uint64_t lo, uint64_t hi, const uint8_t *nodes, size_t count, uint8_t *page,
                            size_t page_len);

/* ---- tags, lengths, page numbers; `tags` are the tag pages of a table of n buckets */

/* The full tag of a hash. */
uint8_t bitbox_full_tag(uint64_t hash);
/* Whether a tag is that of an empty bucket. */
bool bitbox_hint_empty(uint8_t tag);
/* Whether a tag is a tombstone. */
bool bitbox_hint_tombstone(uint8_t tag);
/* Whether a tag is not the full tag of a hash. */
bool bitbox_hint_not_match(uint8_t tag, uint64_t hash);
/* Whether a tag is that of a full bucket. */
bool bitbox_is_full(uint8_t tag);
/* Makes a bucket's tag the full tag of a hash. 1, 9. */
bitbox_answer bitbox_set_full(uint8_t *tags, size_t tags_len, size_t n, uint64_t bucket, uint64_t hash);
/* Makes a bucket's tag a tombstone. 1, 9. */
bitbox_answer bitbox_set_tombstone(uint8_t *tags, size_t tags_len, size_t n, uint64_t bucket);
/* How many buckets are full. 1. */
bitbox_answer bitbox_full_count(const uint8_t *tags, size_t tags_len, size_t n);
/* 1 if the bytes after the last tag are all zero, else 0. 1. */
bitbox_answer bitbox_padding_is_empty(const uint8_t *tags, size_t tags_len, size_t n);
/* The tag page that has a bucket's tag. */
uint64_t bitbox_tag_page(uint64_t bucket);
/* How many tag pages a table has. 1. */
bitbox_answer bitbox_tag_pages(size_t n);
/* How many bytes a table's image has. 1. */
bitbox_answer bitbox_table_length(size_t n);
/* The number of a bucket's page in the image. 1, 9. */
bitbox_answer bitbox_page_number(size_t n, uint64_t bucket);

/* ---- the path of a hash */

/* The first empty bucket, tombstone or hit among 2n visits from visit k. 1. */
bitbox_probed bitbox_probe(const uint8_t *tags, size_t tags_len, size_t n, uint64_t hash, uint64_t k);
/* The bucket of the page with this id. 1. */
bitbox_found bitbox_lookup(const uint8_t *image, size_t image_len, size_t n, uint64_t hash, const uint8_t id[32]);
/* Takes a bucket: its tag becomes the hash's. 1, 10 or 11. */
bitbox_answer bitbox_allocate(uint8_t *tags, size_t tags_len, size_t n, uint64_t hash);

/* ---- the log; edition two, whose start names the store, is the one to write, edition one that of old logs.
 * `edition` is BITBOX_EDITION_...: 2 is the second, any other number the first. What comes to a log's end, here and in
 * replay, wants zeros after it, up to log_len: lend exactly the length that finish or sync answered. The calls whose
 * names end in _tolerant take whatever is there: for logs that have something after their end, as a label, and for
 * what only shows a log */

/* The sync number of a log of either edition. 5, 6, 7. */
bitbox_answer bitbox_reader_set(const uint8_t *log, size_t log_len);
/* The edition of a log, by its first byte: 2 for 0xB2, else 1. */
uint32_t bitbox_reader_edition(const uint8_t *log, size_t log_len);
/* Where the first entry stands in a log: 22 in edition two, else 5. */
size_t bitbox_reader_first(const uint8_t *log, size_t log_len);
/* The seed in the start of a log of edition two, bytes 6 to 21; zeros where the log is shorter. */
void bitbox_reader_seed(const uint8_t *log, size_t log_len, uint8_t seed[16]);
/* The entry at a position of a log of this edition. 4, 6, 8; 27 in place of the end. */
bitbox_entry bitbox_reader_next(const uint8_t *log, size_t log_len, size_t at, uint32_t edition);
/* The same, whatever follows the end. 4, 6, 8. */
bitbox_entry bitbox_reader_next_tolerant(const uint8_t *log, size_t log_len, size_t at, uint32_t edition);
/* The entry without an update's fields. 4, 6, 8; 27 in place of the end. */
bitbox_head bitbox_reader_head(const uint8_t *log, size_t log_len, size_t at, uint32_t edition);
/* The same, whatever follows the end. 4, 6, 8. */
bitbox_head bitbox_reader_head_tolerant(const uint8_t *log, size_t log_len, size_t at, uint32_t edition);
/* Begins a log, in any state. 13. */
bitbox_written bitbox_begin(uint8_t *log, size_t log_len, bitbox_writer_state w, bitbox_log_start start);
/* Writes that a bucket is cleared. 12, 13. */
bitbox_written bitbox_write_clear(uint8_t *log, size_t log_len, bitbox_writer_state w, uint64_t bucket);
/* Writes that a page is changed; `nodes` points to 126 * 32 bytes, as packed.nodes[0] does. 12, 2, 4, 13. */
bitbox_written bitbox_write_update(uint8_t *log, size_t log_len, bitbox_writer_state w, const uint8_t id[32],
                                   uint64_t lo, uint64_t hi, const uint8_t *nodes, size_t count,
                                   const uint8_t elided[8], uint64_t bucket);
/* Finishes the log, which is the first `length` bytes of the slice; those behind it stay, and are not the log's. 12,
 * 13. */
bitbox_written bitbox_finish(uint8_t *log, size_t log_len, bitbox_writer_state w);

/* ---- sync; `marks` has a byte for each tag page, `cells` buckets that changes share */

/* One change, with its page. Of a sync by steps the caller first zeroes the marks, begins the log (bitbox_begin)
 * and counts the full buckets (bitbox_full_count) into the state, and last finishes the log (bitbox_finish).
 * 1, 2, 12, then 4, 2, 9, 14, 13, 10 or 11. */
bitbox_step_answer bitbox_sync_step(uint8_t *tags, size_t tags_len, uint8_t *marks, size_t marks_len, uint64_t *cells,
                                    size_t cells_len, uint8_t *log, size_t log_len, const uint8_t *page,
                                    size_t page_len, bitbox_change c, bitbox_step_state st);
/* A list of changes, with a page for each. Refused at a change, it leaves in tags, cells and log what the changes
 * before it did, the log's start record with them; the marks are zeroed but for those of these changes; and the
 * writer is fresh: try again on copies of tags and cells that were made before. 1, 2, 13; at a change 4, 2, 9, 14,
 * 13, 10 or 11. */
bitbox_sync_answer bitbox_sync(uint8_t *tags, size_t tags_len, uint8_t *marks, size_t marks_len, uint64_t *cells,
                               size_t cells_len, uint8_t *log, size_t log_len, const uint8_t *pages,
                               size_t pages_len, const bitbox_change *changes, size_t changes_len, size_t n,
                               bitbox_writer_state w, bitbox_log_start start);

/* ---- replay */

/* A log of either edition into the image of the store with this seed, with a hash for each update:
 * BITBOX_REPLAY_... One of edition one names no store: it is taken by its sync number alone. 1, 5, 7, 26, an entry's,
 * 27, 2. */
bitbox_answer bitbox_replay(uint8_t *image, size_t image_len, size_t n, const uint8_t *log, size_t log_len,
                            uint32_t sync_seqn, const uint8_t seed[16], const uint64_t *hashes, size_t hashes_len);
/* The same, whatever follows the log's end. 1, 5, 7, 26, an entry's, 2. */
bitbox_answer bitbox_replay_tolerant(uint8_t *image, size_t image_len, size_t n, const uint8_t *log, size_t log_len,
                                     uint32_t sync_seqn, const uint8_t seed[16], const uint64_t *hashes,
                                     size_t hashes_len);
/* The entry at a position of a log of this edition into an image; no seed is compared. 1, 4, 6, 8, 9; 27 in place of
 * the end. */
bitbox_stepped bitbox_replay_step(uint8_t *image, size_t image_len, size_t n, const uint8_t *log, size_t log_len,
                                  uint32_t edition, size_t at, uint64_t hash);
/* The same, whatever follows the log's end. 1, 4, 6, 8, 9. */
bitbox_stepped bitbox_replay_step_tolerant(uint8_t *image, size_t image_len, size_t n, const uint8_t *log,
                                           size_t log_len, uint32_t edition, size_t at, uint64_t hash);

/* ---- growth and audit; `hashes` has one for each (old) bucket */

/* The bytes of a growth marker. 17. */
bitbox_marker_bytes bitbox_write_marker(uint32_t old_count, uint32_t new_count);
/* A growth marker out of its bytes. 15, 16, 17. */
bitbox_marker bitbox_read_marker(const uint8_t *bytes, size_t bytes_len);
/* What is left to do of a growth: BITBOX_PENDING_... 1, 17, 18. */
bitbox_answer bitbox_pending(uint64_t old_count, uint64_t new_count, uint64_t meta, uint64_t file_len);
/* Copies a table into a larger one: BITBOX_GROWN_... 1, 19, 2, 10 or 11. */
bitbox_answer bitbox_grow(const uint8_t *old_image, size_t old_image_len, size_t old_n, uint8_t *new_image,
                          size_t new_image_len, size_t new_n, const uint64_t *hashes, size_t hashes_len);
/* Whether every page can be found. 1, 2, 20, then 21, 22, 23 or 24. */
bitbox_audited bitbox_audit(const uint8_t *image, size_t image_len, size_t n, const uint64_t *hashes,
                            size_t hashes_len);

#ifdef __cplusplus
}
#endif

#endif
