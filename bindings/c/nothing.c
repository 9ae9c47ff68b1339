/* Every function that is lent a slice is lent none, NULL and 0: each answers, told any edition; and a log's seed is
 * read at its edges. Ends with status 1 where one answers otherwise than it should. */
#include "bitbox.h"
#include <stdio.h>
#include <string.h>

static int asked, wrong;

static void answers(const char *call, uint64_t refusal, uint64_t wanted)
{
    asked++;
    if (refusal != wanted) {
        wrong++;
        printf("%s: %s, not %s\n", call, bitbox_refusal_name(refusal), bitbox_refusal_name(wanted));
    }
}

static void tells(const char *call, uint64_t number, uint64_t wanted)
{
    asked++;
    if (number != wanted) {
        wrong++;
        printf("%s: %llu, not %llu\n", call, (unsigned long long)number, (unsigned long long)wanted);
    }
}

int main(void)
{
    static const uint8_t id[32], elided[8], nodes[126 * 32];
    static uint8_t page[BITBOX_PAGE], tags[BITBOX_PAGE], marks[1], image[2 * BITBOX_PAGE], log_[BITBOX_PAGE];
    static const uint8_t seed[BITBOX_SEED], other[BITBOX_SEED] = {1};
    static const uint8_t start_bytes[22] = {0xB2, 1,  2,  3,  4,  5,  6,  7,  8,  9,  10,
                                            11,   12, 13, 14, 15, 16, 17, 18, 19, 20, 21};
    bitbox_log_start start = {1, BITBOX_EDITION_TWO, {0}};
    bitbox_writer_state open = {BITBOX_WRITER_OPEN_TWO, 22};
    bitbox_writer_state open_one = {BITBOX_WRITER_OPEN_ONE, 5};
    bitbox_step_state state = {1, open, 0};
    bitbox_change change = {{0}, 0, {{0, 0}}, {BITBOX_FRESH, 0}};

    answers("pack", bitbox_pack(0, 0, NULL, 0).refusal, BITBOX_LENGTH_UNFIT);
    answers("pack_into, no page", bitbox_pack_into(0, 0, NULL, 0, page, 4032).refusal, BITBOX_LENGTH_UNFIT);
    answers("pack_into, no room", bitbox_pack_into(0, 0, page, BITBOX_PAGE, NULL, 0).refusal, BITBOX_LENGTH_UNFIT);
    answers("unpack", bitbox_unpack(0, 0, nodes, 0, NULL, 0).refusal, BITBOX_LENGTH_UNFIT);
    answers("set_full", bitbox_set_full(NULL, 0, 1, 0, 0).refusal, BITBOX_TABLE_UNFIT);
    answers("set_tombstone", bitbox_set_tombstone(NULL, 0, 1, 0).refusal, BITBOX_TABLE_UNFIT);
    answers("full_count", bitbox_full_count(NULL, 0, 1).refusal, BITBOX_TABLE_UNFIT);
    answers("padding_is_empty", bitbox_padding_is_empty(NULL, 0, 1).refusal, BITBOX_TABLE_UNFIT);
    answers("probe", bitbox_probe(NULL, 0, 1, 0, 0).refusal, BITBOX_TABLE_UNFIT);
    answers("lookup", bitbox_lookup(NULL, 0, 1, 0, id).refusal, BITBOX_TABLE_UNFIT);
    answers("allocate", bitbox_allocate(NULL, 0, 1, 0).refusal, BITBOX_TABLE_UNFIT);
    answers("reader_set", bitbox_reader_set(NULL, 0).refusal, BITBOX_LOG_CUT);
    tells("reader_edition", bitbox_reader_edition(NULL, 0), BITBOX_EDITION_ONE);
    tells("reader_first", bitbox_reader_first(NULL, 0), 5);
    /* A seed is written between two other bytes: zeros for a log that is shorter than its start. */
    for (size_t len = 0; len <= sizeof start_bytes; len++) {
        uint8_t told[1 + BITBOX_SEED + 1];
        memset(told, 9, sizeof told);
        bitbox_reader_seed(len == 0 ? NULL : start_bytes, len, told + 1);
        tells("reader_seed, first byte", told[1], len == sizeof start_bytes ? 6 : 0);
        tells("reader_seed, last byte", told[BITBOX_SEED], len == sizeof start_bytes ? 21 : 0);
        tells("reader_seed, before and after", told[0] == 9 && told[1 + BITBOX_SEED] == 9, 1);
    }
    for (uint32_t edition = 0; edition <= 3; edition++) {
        answers("reader_next", bitbox_reader_next(NULL, 0, 5, edition).refusal, BITBOX_LOG_CUT);
        answers("reader_next_tolerant", bitbox_reader_next_tolerant(NULL, 0, 5, edition).refusal, BITBOX_LOG_CUT);
        answers("reader_head", bitbox_reader_head(NULL, 0, 5, edition).refusal, BITBOX_LOG_CUT);
        answers("reader_head_tolerant", bitbox_reader_head_tolerant(NULL, 0, 5, edition).refusal, BITBOX_LOG_CUT);
        answers("replay_step", bitbox_replay_step(image, sizeof image, 1, NULL, 0, edition, 5, 0).refusal,
                BITBOX_LOG_CUT);
        answers("replay_step_tolerant",
                bitbox_replay_step_tolerant(image, sizeof image, 1, NULL, 0, edition, 5, 0).refusal, BITBOX_LOG_CUT);
    }
    answers("begin", bitbox_begin(NULL, 0, open, start).refusal, BITBOX_NO_ROOM);
    answers("write_clear", bitbox_write_clear(NULL, 0, open, 1).refusal, BITBOX_NO_ROOM);
    answers("write_clear, edition one", bitbox_write_clear(NULL, 0, open_one, 1).refusal, BITBOX_NO_ROOM);
    answers("write_update", bitbox_write_update(NULL, 0, open, id, 0, 0, nodes, 0, elided, 1).refusal, BITBOX_NO_ROOM);
    answers("finish", bitbox_finish(NULL, 0, open).refusal, BITBOX_NO_ROOM);
    answers("finish, edition one", bitbox_finish(NULL, 0, open_one).refusal, BITBOX_NO_ROOM);
    answers("sync_step", bitbox_sync_step(NULL, 0, NULL, 0, NULL, 0, NULL, 0, NULL, 0, change, state).refusal,
            BITBOX_TABLE_UNFIT);
    answers("sync_step, no cells",
            bitbox_sync_step(tags, sizeof tags, marks, 1, NULL, 0, log_, sizeof log_, page, sizeof page, change, state)
                .refusal,
            BITBOX_DONE);
    answers("sync", bitbox_sync(NULL, 0, NULL, 0, NULL, 0, NULL, 0, NULL, 0, NULL, 0, 1, open, start).refusal,
            BITBOX_TABLE_UNFIT);
    answers("sync, no cells, no changes",
            bitbox_sync(tags, sizeof tags, marks, 1, NULL, 0, log_, sizeof log_, NULL, 0, NULL, 0, 1, open, start)
                .refusal,
            BITBOX_DONE);
    answers("replay", bitbox_replay(NULL, 0, 1, NULL, 0, 1, seed, NULL, 0).refusal, BITBOX_TABLE_UNFIT);
    answers("replay, no log", bitbox_replay(image, sizeof image, 1, NULL, 0, 1, other, NULL, 0).refusal, BITBOX_DONE);
    answers("replay, no hashes", bitbox_replay(image, sizeof image, 1, log_, sizeof log_, 1, seed, NULL, 0).refusal,
            BITBOX_DONE);
    answers("replay, another store",
            bitbox_replay(image, sizeof image, 1, log_, sizeof log_, 1, other, NULL, 0).refusal, BITBOX_OTHER_STORE);
    answers("replay_tolerant", bitbox_replay_tolerant(NULL, 0, 1, NULL, 0, 1, seed, NULL, 0).refusal,
            BITBOX_TABLE_UNFIT);
    answers("replay_tolerant, no log",
            bitbox_replay_tolerant(image, sizeof image, 1, NULL, 0, 1, other, NULL, 0).refusal, BITBOX_DONE);
    answers("replay_tolerant, no hashes",
            bitbox_replay_tolerant(image, sizeof image, 1, log_, sizeof log_, 1, seed, NULL, 0).refusal, BITBOX_DONE);
    answers("read_marker", bitbox_read_marker(NULL, 0).refusal, BITBOX_MARKER_LENGTH);
    answers("grow", bitbox_grow(NULL, 0, 1, NULL, 0, 2, NULL, 0).refusal, BITBOX_LENGTH_UNFIT);
    answers("audit", bitbox_audit(NULL, 0, 1, NULL, 0).refusal, BITBOX_TABLE_UNFIT);
    answers("audit, no hashes", bitbox_audit(image, sizeof image, 1, NULL, 0).refusal, BITBOX_LENGTH_UNFIT);
    printf("%d answers, %d of them otherwise than they should be\n", asked, wrong);
    return wrong != 0;
}
