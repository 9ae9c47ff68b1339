/* A sync of two new pages; power fails while the table is written out; another store's log is refused, and so is one
 * with entries of a longer log behind it; the store's own is replayed onto the older image, and the pages are looked up
 * and audited. Then nodes are packed out of a page, written into a log, read back and put into another page. */
#include "bitbox.h"
#include <stdio.h>
#include <string.h>

/* The structs are laid out as the library has them. */
_Static_assert(sizeof(bitbox_diff) == 16, "diff");
_Static_assert(sizeof(bitbox_packed) == 4040 && offsetof(bitbox_packed, count) == 4032, "packed");
_Static_assert(sizeof(bitbox_change) == 72 && offsetof(bitbox_change, place) == 56, "change");
_Static_assert(sizeof(bitbox_log_start) == 24 && offsetof(bitbox_log_start, seed) == 8, "start");
_Static_assert(sizeof(bitbox_entry) == 4128 && offsetof(bitbox_entry, elided) == 4120, "entry");
_Static_assert(sizeof(bitbox_sync_answer) == 56 && offsetof(bitbox_sync_answer, writer) == 40, "sync");
_Static_assert(sizeof(bitbox_step_answer) == 56 && offsetof(bitbox_step_answer, state) == 24, "step");
_Static_assert(sizeof(bitbox_audited) == 32 && offsetof(bitbox_audited, rate) == 24, "audit");

enum { N = 8, LENGTH = (1 + N) * BITBOX_PAGE };

static uint8_t image[LENGTH];  /* the table as it stands on disk */
static uint8_t log_[2 * BITBOX_PAGE];
static uint8_t pages[2 * BITBOX_PAGE];

/* The store's seed; a service draws it by chance when the store is made, and keeps it beside the bucket count. */
static const uint8_t seed[BITBOX_SEED] = "a recording";
static const uint8_t rehearsal[BITBOX_SEED] = "its rehearsal";

/* What the log of a sync of this store starts with. */
static bitbox_log_start start_of(uint32_t sync)
{
    bitbox_log_start start = {sync, BITBOX_EDITION_TWO, {0}};
    memcpy(start.seed, seed, sizeof seed);
    return start;
}

/* The nodes of a page's marked slots, into a log and out of it. Answers 0 or the first refusal. */
static uint64_t nodes_there_and_back(const bitbox_change *change, const uint8_t *page)
{
    uint64_t lo = change->diff.words[0], hi = change->diff.words[1];
    bitbox_pack_answer packed = bitbox_pack(lo, hi, page, BITBOX_PAGE);
    bitbox_writer_state fresh = {BITBOX_WRITER_FRESH, 0};
    bitbox_written w = bitbox_begin(log_, sizeof log_, fresh, start_of(9));
    if (packed.refusal == 0 && w.refusal == 0)
        w = bitbox_write_update(log_, sizeof log_, w.writer, change->id, lo, hi, packed.packed.nodes[0],
                                packed.packed.count, page + BITBOX_PAGE - 40, 5);
    if (w.refusal == 0)
        w = bitbox_finish(log_, sizeof log_, w.writer);
    if (packed.refusal != 0 || w.refusal != 0)
        return packed.refusal != 0 ? packed.refusal : w.refusal;

    static uint8_t other[BITBOX_PAGE];
    bitbox_entry e = bitbox_reader_next(log_, w.length, bitbox_reader_first(log_, w.length), BITBOX_EDITION_TWO);
    bitbox_answer put = bitbox_unpack(e.diff.words[0], e.diff.words[1], e.packed.nodes[0], e.packed.count, other,
                                      sizeof other);
    if (e.refusal != 0 || put.refusal != 0)
        return e.refusal != 0 ? e.refusal : put.refusal;
    printf("packed %zu nodes, logged and put into another page: slot 125 is %s\n", packed.packed.count,
           memcmp(other + 125 * BITBOX_NODE, page + 125 * BITBOX_NODE, BITBOX_NODE) == 0 ? "the same" : "another");
    return bitbox_unpack(lo, hi, e.packed.nodes[0], 1, other, sizeof other).refusal;
}

int main(void)
{
    printf("bitbox %s\n", BITBOX_VERSION);
    printf("table of %d buckets: %llu bytes\n", N, (unsigned long long)bitbox_table_length(N).value);

    /* Two new pages: every byte of the first is 1, of the second 2; they end in their ids. */
    bitbox_change changes[2];
    memset(changes, 0, sizeof changes);
    for (int i = 0; i < 2; i++) {
        memset(pages + BITBOX_PAGE * (size_t)i, i + 1, BITBOX_PAGE);
        memset(changes[i].id, i + 1, 32);
        changes[i].hash = 3; /* both begin at bucket 3 */
        changes[i].diff = bitbox_diff_set(0, 0, 10 * (size_t)i).diff;
        changes[i].diff = bitbox_diff_set(changes[i].diff.words[0], changes[i].diff.words[1], 125).diff;
        changes[i].place = (bitbox_place){BITBOX_CELL, (uint64_t)i};
    }

    /* The sync works on the tags in memory; the image on disk stays the older one. */
    uint8_t tags[BITBOX_PAGE], marks[1];
    uint64_t cells[2] = {BITBOX_UNSET, BITBOX_UNSET};
    memcpy(tags, image, sizeof tags);
    bitbox_writer_state fresh = {BITBOX_WRITER_FRESH, 0};
    bitbox_sync_answer synced = bitbox_sync(tags, sizeof tags, marks, sizeof marks, cells, 2, log_, sizeof log_, pages,
                                            sizeof pages, changes, 2, N, fresh, start_of(7));
    printf("sync: refusal %llu, %llu full, a log of %llu bytes, tag page written: %d\n",
           (unsigned long long)synced.refusal, (unsigned long long)synced.occupied, (unsigned long long)synced.length,
           marks[0]);
    printf("buckets %llu and %llu\n", (unsigned long long)cells[0], (unsigned long long)cells[1]);

    /* The log, read off; what follows its end does not matter for that. */
    uint32_t edition = bitbox_reader_edition(log_, synced.length);
    uint8_t named[BITBOX_SEED];
    bitbox_reader_seed(log_, synced.length, named);
    printf("log of sync %llu, edition %u, the store is %s\n",
           (unsigned long long)bitbox_reader_set(log_, synced.length).value, edition,
           memcmp(named, seed, sizeof seed) == 0 ? "this one" : "another");
    size_t first = bitbox_reader_first(log_, synced.length), at = first;
    for (;;) {
        bitbox_entry e = bitbox_reader_next_tolerant(log_, synced.length, at, edition);
        if (e.refusal != 0 || e.kind == BITBOX_ENTRY_END) {
            printf("%zu end\n", at);
            break;
        }
        printf("%zu %s %llu, %zu slots\n", at, e.kind == BITBOX_ENTRY_UPDATE ? "update" : "clear",
               (unsigned long long)e.bucket, e.packed.count);
        at = e.next;
    }

    /* Power fails after one entry; the replay then begins anew. */
    uint64_t hashes[2] = {changes[0].hash, changes[1].hash};
    bitbox_stepped step = bitbox_replay_step(image, LENGTH, N, log_, synced.length, edition, first, hashes[0]);
    printf("one step: refusal %llu, kind %llu\n", (unsigned long long)step.refusal, (unsigned long long)step.kind);
    bitbox_answer other = bitbox_replay(image, LENGTH, N, log_, synced.length, 8, seed, hashes, 2);
    printf("replay for sync 8: %s\n", other.value == BITBOX_REPLAY_STALE ? "stale" : "not stale");
    bitbox_answer foreign = bitbox_replay(image, LENGTH, N, log_, synced.length, 7, rehearsal, hashes, 2);
    printf("replay for sync 7 of a rehearsal: refusal %llu, %s\n", (unsigned long long)foreign.refusal,
           bitbox_refusal_name(foreign.refusal));
    /* A longer log that was in this slice has left an update behind the end. What is lent is the log alone. */
    log_[synced.length] = 4;
    bitbox_answer whole = bitbox_replay(image, LENGTH, N, log_, sizeof log_, 7, seed, hashes, 2);
    printf("replay of the whole slice: refusal %llu, %s\n", (unsigned long long)whole.refusal,
           bitbox_refusal_name(whole.refusal));
    bitbox_answer replayed = bitbox_replay(image, LENGTH, N, log_, synced.length, 7, seed, hashes, 2);
    printf("replay for sync 7: %s\n", replayed.value == BITBOX_REPLAY_APPLIED ? "applied" : "not applied");
    printf("tags are those of the sync: %s\n", memcmp(image, tags, sizeof tags) == 0 ? "yes" : "no");

    for (int i = 0; i < 2; i++) {
        bitbox_found found = bitbox_lookup(image, LENGTH, N, 3, changes[i].id);
        printf("page %d: %s, bucket %llu\n", i + 1, found.kind == BITBOX_FOUND_AT ? "found" : "not found",
               (unsigned long long)found.bucket);
    }
    uint8_t nobody[32] = {9};
    printf("another page: %s\n", bitbox_lookup(image, LENGTH, N, 3, nobody).kind == BITBOX_FOUND_ABSENT ? "absent" : "?");

    uint64_t all[N] = {0};
    all[cells[0]] = all[cells[1]] = 3;
    bitbox_audited audited = bitbox_audit(image, LENGTH, N, all, N);
    printf("audit: refusal %llu, %llu of %llu full, rate %.2f\n", (unsigned long long)audited.refusal,
           (unsigned long long)audited.occupied, (unsigned long long)audited.capacity, audited.rate);

    uint64_t refusal = nodes_there_and_back(&changes[0], pages);
    printf("one node for two slots: refusal %llu, %s\n", (unsigned long long)refusal, bitbox_refusal_name(refusal));

    /* What is wrong is told by a number. */
    printf("a table of no buckets: refusal %llu\n", (unsigned long long)bitbox_table_length(0).refusal);
    image[N] = 1;
    printf("audit with a byte in the padding: refusal %llu\n",
           (unsigned long long)bitbox_audit(image, LENGTH, N, all, N).refusal);
    return 0;
}
