/* The proved machine called from C: two zones, a take that becomes stable, a log, the texts, rejections.
 *
 *     cc -Wall -Wextra -Werror -I include tests/c/main.c include/libpenkwadar.a
 *
 * Prints one line with the number of checks, and ends with status 1 where one failed. */
#include <string.h>

#include "check.h"
#include "penkwadar.h"

#define WORDS (2 * PENKWADAR_ZONE_WORDS)
#define UNWRITTEN 0xeeeeeeeeeeeeeeeeULL

enum {
    ADD = PENKWADAR_ADD,
    ADOPT = PENKWADAR_ADOPT,
    LEARN = PENKWADAR_LEARN,
    WEDGE = PENKWADAR_WEDGE,
    INSTALL = PENKWADAR_INSTALL,
    INHERIT = PENKWADAR_INHERIT,
    CATCH_UP = PENKWADAR_CATCH_UP
};
enum { PENDING = PENKWADAR_PENDING, ACTIVE = PENKWADAR_ACTIVE, IMMUTABLE = PENKWADAR_IMMUTABLE };

/* Boxes 3 and 5, orderer 3, for index 2 of zone 1. */
#define ISSUE PENKWADAR_ISSUE(2, 1, 3, PENKWADAR_MEMBER(3) + PENKWADAR_MEMBER(5))
/* Another one for that index: orderer 5. */
#define RIVAL PENKWADAR_ISSUE(2, 1, 5, PENKWADAR_MEMBER(3) + PENKWADAR_MEMBER(5))

/* Zone 0: sequencer 1, boxes 0 and 1, orderer 0. Zone 1: sequencer 0, boxes 2 and 3, orderer 2. */
static const uint64_t plan[6] = {1, 3, 0, 0, 12, 2};

/* The log of document 01: add 7, adopt by 1, confirm by both, wedge 0, and an add that comes too late. */
static const uint8_t sample[26] = {1, 0, 1, 7, 2, 0, 1, 1, 3, 0, 1, 0, 1, 3, 0, 1, 1, 1, 4, 0, 1, 0, 1, 0, 1, 8};

static const char sample_text[] =
    "1 1 0\n2 2 0\n3 3 0\n4 3 0\n5 4 0\n6 1 12\nzone 0 7\nzone 1\nended 6 1 26\n";

static uint64_t state[WORDS], before[WORDS];

static uint64_t step(uint64_t kind, uint64_t a, uint64_t b, uint64_t c, uint64_t d)
{
    memcpy(before, state, sizeof state);
    return penkwadar_step(state, WORDS, kind, a, b, c, d);
}

static int state_unchanged(void)
{
    return memcmp(before, state, sizeof state) == 0;
}

/* The first word of a seat of index 1. */
static const uint64_t *seat(unsigned zone, unsigned number)
{
    return state + PENKWADAR_SEAT(zone, 1, number);
}

static void check_setup(void)
{
    CHECK(penkwadar_state_words(1) == 0);
    CHECK(penkwadar_state_words(2) == WORDS);
    CHECK(penkwadar_state_words(8) == 8 * PENKWADAR_ZONE_WORDS);
    CHECK(penkwadar_state_words(9) == 0);

    memset(state, 0xee, sizeof state);
    CHECK(penkwadar_setup(state, WORDS - 1, plan, 6) == PENKWADAR_STATE_LENGTH);
    CHECK(penkwadar_setup(state, WORDS, plan, 5) == PENKWADAR_PLAN);
    const uint64_t bad[6] = {0, 3, 0, 1, 12, 2};
    CHECK(penkwadar_setup(state, WORDS, bad, 6) == PENKWADAR_PLAN);
    CHECK(all_words(state, WORDS, UNWRITTEN));

    CHECK(penkwadar_setup(state, WORDS, plan, 6) == 0);
    CHECK(state[0] == 1 && state[1] == 1 && state[2] == 3 && state[10] == 0);
    CHECK(state[PENKWADAR_ZONE_WORDS] == 0 && state[PENKWADAR_ZONE_WORDS + 2] == 12);
    CHECK(state[PENKWADAR_ZONE_WORDS + 10] == 2);
    CHECK(seat(0, 0)[0] == ACTIVE && seat(0, 1)[0] == ACTIVE && seat(0, 2)[0] == 0);
}

/* An entry goes to the seat that the header says, of every member of every member set. */
static void check_seats(void)
{
    unsigned members = 0, found = 0;
    for (uint64_t set = 1; set < 65536; set++) {
        for (uint64_t box = 0; box < PENKWADAR_BOXES; box++) {
            const uint64_t own[6] = {1, set, box, 0, 12, 2};
            if (penkwadar_setup(state, WORDS, own, 6) == 0) {
                members++;
                found += step(ADD, 0, 1, 7, 0) == 0 && seat(0, (unsigned)penkwadar_seat_of(set, box))[8] == 7;
            }
        }
    }
    CHECK(members == 16 + 2 * 120 + 3 * 560 + 4 * 1820 && found == members);
}

/* A take goes through both boxes and becomes stable in each. */
static void check_take(void)
{
    CHECK(step(ADD, 0, 1, 7, 0) == 0);
    CHECK(seat(0, 0)[1] == 1 && seat(0, 0)[8] == 7);
    CHECK(step(LEARN, 0, 1, 0, 1) == PENKWADAR_NOT_ALIKE && state_unchanged());
    CHECK(step(ADOPT, 0, 1, 1, 0) == 0);
    CHECK(seat(0, 1)[1] == 1 && seat(0, 1)[8] == 7 && seat(0, 1)[2] == 0);
    CHECK(step(LEARN, 0, 1, 0, 1) == 0);
    CHECK(step(LEARN, 0, 1, 1, 1) == 0);
    CHECK(seat(0, 0)[2] == 1 && seat(0, 1)[2] == 1);
}

static void check_rejected_steps(void)
{
    CHECK(step(ADD, 0, 1, 7, 0) == PENKWADAR_ENTRY_HELD && state_unchanged());
    CHECK(step(ADD, 0, 2, 8, 0) == PENKWADAR_NOT_INSTALLED && state_unchanged());
    CHECK(step(ADD, 2, 1, 8, 0) == PENKWADAR_RANGE && state_unchanged());
    CHECK(step(ADOPT, 0, 1, 0, 0) == PENKWADAR_BY_ORDERER && state_unchanged());
    CHECK(step(ADOPT, 0, 1, 2, 0) == PENKWADAR_NO_MEMBER && state_unchanged());
    CHECK(step(LEARN, 0, 1, 0, 0) == PENKWADAR_NOT_ABOVE_STABLE && state_unchanged());
    CHECK(step(LEARN, 0, 1, 0, 56) == PENKWADAR_NOT_ALIKE && state_unchanged());
    CHECK(step(LEARN, 0, 1, 0, 57) == PENKWADAR_RANGE && state_unchanged());
    CHECK(step(INSTALL, 1, 1, 0, 0) == PENKWADAR_NO_STABLE_ISSUE && state_unchanged());
    CHECK(step(INSTALL, 1, 1, 0, 55) == PENKWADAR_NO_STABLE_ISSUE && state_unchanged());
    CHECK(step(INSTALL, 1, 1, 0, 56) == PENKWADAR_RANGE && state_unchanged());
    CHECK(step(INHERIT, 0, 1, 0, 0) == PENKWADAR_ACTING_MODE && state_unchanged());
    CHECK(step(CATCH_UP, 0, 1, 0, 1) == PENKWADAR_ACTING_MODE && state_unchanged());
    CHECK(step(CATCH_UP, 0, 1, 0, 16) == PENKWADAR_RANGE && state_unchanged());
    CHECK(step(8, 0, 0, 0, 0) == PENKWADAR_KIND_KEPT && state_unchanged());
    CHECK(step(0, 0, 0, 0, 0) == PENKWADAR_KIND_UNKNOWN && state_unchanged());
    /* Boxes 3 and 5 for index 2 of zone 1 are issued by zone 0 only. */
    CHECK(step(ADD, 1, 1, ISSUE, 0) == PENKWADAR_OTHER_SEQUENCER && state_unchanged());
    CHECK(penkwadar_step(state, WORDS - 1, WEDGE, 0, 1, 0, 0) == PENKWADAR_STATE_LENGTH && state_unchanged());
    state[1] = 9;
    CHECK(step(WEDGE, 0, 1, 0, 0) == PENKWADAR_NOT_WELL_FORMED && state_unchanged());
    state[1] = 1;
}

static void check_stable_history(void)
{
    uint64_t out[PENKWADAR_LIST_ENTRIES], count[2] = {UNWRITTEN, UNWRITTEN};
    memset(out, 0xee, sizeof out);
    CHECK(penkwadar_stable_history(state, WORDS, 0, out, 1, count, 0) == PENKWADAR_OUTPUT_SHORT);
    CHECK(penkwadar_stable_history(state, WORDS, 0, out, 0, count, 1) == PENKWADAR_OUTPUT_SHORT);
    CHECK(penkwadar_stable_history(state, WORDS, 2, out, 1, count, 1) == PENKWADAR_RANGE);
    CHECK(all_words(out, PENKWADAR_LIST_ENTRIES, UNWRITTEN) && all_words(count, 2, UNWRITTEN));
    CHECK(penkwadar_stable_history(state, WORDS, 0, out, PENKWADAR_LIST_ENTRIES, count, 2) == 0);
    CHECK(count[0] == 1 && count[1] == UNWRITTEN && out[0] == 7);
    CHECK(all_words(out + 1, PENKWADAR_LIST_ENTRIES - 1, UNWRITTEN));
    CHECK(penkwadar_stable_history(state, WORDS, 1, out, 0, count, 1) == 0 && count[0] == 0);
}

/* What single boxes show: both confirmed the take; nothing was confirmed in zone 1. */
static void check_stable_prefix(void)
{
    uint64_t out[PENKWADAR_LIST_ENTRIES], count[2] = {UNWRITTEN, UNWRITTEN};
    memset(out, 0xee, sizeof out);
    CHECK(penkwadar_stable_prefix(state, WORDS, 0, 1, 1, out, 1, count, 0) == PENKWADAR_OUTPUT_SHORT);
    CHECK(penkwadar_stable_prefix(state, WORDS - 1, 2, 0, 16, out, 1, count, 1) == PENKWADAR_STATE_LENGTH);
    CHECK(penkwadar_stable_prefix(state, WORDS, 2, 1, 1, out, 1, count, 1) == PENKWADAR_RANGE);
    CHECK(penkwadar_stable_prefix(state, WORDS, 0, 0, 1, out, 1, count, 1) == PENKWADAR_RANGE);
    CHECK(penkwadar_stable_prefix(state, WORDS, 0, 9, 1, out, 1, count, 1) == PENKWADAR_RANGE);
    CHECK(penkwadar_stable_prefix(state, WORDS, 0, 1, 16, out, 1, count, 1) == PENKWADAR_RANGE);
    CHECK(penkwadar_stable_prefix(state, WORDS, 0, 2, 2, out, 1, count, 1) == PENKWADAR_NOT_INSTALLED);
    CHECK(penkwadar_stable_prefix(state, WORDS, 0, 1, 2, out, 0, count, 1) == PENKWADAR_NO_MEMBER);
    CHECK(penkwadar_stable_prefix(state, WORDS, 0, 1, 1, out, 0, count, 1) == PENKWADAR_OUTPUT_SHORT);
    state[1] = 9;
    CHECK(penkwadar_stable_prefix(state, WORDS, 0, 2, 2, out, 1, count, 1) == PENKWADAR_NOT_WELL_FORMED);
    state[1] = 1;
    CHECK(all_words(out, PENKWADAR_LIST_ENTRIES, UNWRITTEN) && all_words(count, 2, UNWRITTEN));
    CHECK(penkwadar_stable_prefix(state, WORDS, 0, 1, 1, out, PENKWADAR_LIST_ENTRIES, count, 2) == 0);
    CHECK(count[0] == 1 && count[1] == UNWRITTEN && out[0] == 7);
    CHECK(all_words(out + 1, PENKWADAR_LIST_ENTRIES - 1, UNWRITTEN));
    CHECK(penkwadar_stable_prefix(state, WORDS, 1, 1, 3, out, 0, count, 1) == 0 && count[0] == 0);
}

/* Zone 0 issues boxes 3 and 5 for index 2 of zone 1, which can be installed once a box of index 1 is wedged; box 3
 * starts from the frozen list of box 2. */
static void check_reconfiguration(void)
{
    const uint64_t *heir = state + PENKWADAR_SEAT(1, 2, 0);
    CHECK(step(ADD, 0, 1, ISSUE, 0) == 0);
    CHECK(step(ADD, 0, 1, ISSUE, 0) == PENKWADAR_ENTRY_HELD && state_unchanged());
    CHECK(step(ADD, 0, 1, RIVAL, 0) == PENKWADAR_INDEX_ISSUED && state_unchanged());
    CHECK(step(ADOPT, 0, 1, 1, 0) == 0);
    CHECK(step(LEARN, 0, 1, 1, 2) == 0);
    CHECK(step(ADD, 1, 1, 300, 0) == 0);
    CHECK(PENKWADAR_NOT_WEDGED == 24);
    CHECK(step(INSTALL, 1, 1, 1, 1) == PENKWADAR_NOT_WEDGED && state_unchanged());
    CHECK(step(INSTALL, 1, 1, 1, 0) == PENKWADAR_NO_STABLE_ISSUE && state_unchanged());
    CHECK(step(WEDGE, 1, 1, 3, 0) == 0);
    CHECK(step(INSTALL, 1, 1, 1, 1) == 0);
    CHECK(state[PENKWADAR_INSTALLED(1)] == 2);
    CHECK(state[PENKWADAR_MEMBERS(1, 2)] == 40 && state[PENKWADAR_ORDERER(1, 2)] == 3);
    CHECK(heir[0] == PENDING && heir[64] == PENDING && heir[128] == 0);
    CHECK(step(INHERIT, 1, 2, 3, 2) == PENKWADAR_OTHER_MODE && state_unchanged());
    CHECK(step(WEDGE, 1, 1, 2, 0) == 0);
    CHECK(step(INHERIT, 1, 2, 3, 2) == 0);
    CHECK(heir[0] == ACTIVE && heir[1] == 1 && heir[8] == 300 && heir[PENKWADAR_SEAT_ORIGIN] == 3);
    CHECK(step(INSTALL, 1, 1, 1, 1) == PENKWADAR_NOT_NEXT_INDEX && state_unchanged());
}

/* Box 3 of index 2 got its list from box 2, box 5 waits for one, and the boxes of index 1 had none before. */
static void check_trace(void)
{
    uint64_t out[PENKWADAR_TRACE_BOXES + 1], count[2] = {UNWRITTEN, UNWRITTEN};
    uint64_t *origin = state + PENKWADAR_SEAT(1, 2, 0) + PENKWADAR_SEAT_ORIGIN;
    memset(out, 0xee, sizeof out);
    CHECK(penkwadar_trace(state, WORDS, 1, 2, 3, out, 7, count, 0) == PENKWADAR_OUTPUT_SHORT);
    CHECK(penkwadar_trace(state, WORDS - 1, 2, 0, 16, out, 6, count, 1) == PENKWADAR_OUTPUT_SHORT);
    CHECK(penkwadar_trace(state, WORDS - 1, 2, 0, 16, out, 7, count, 1) == PENKWADAR_STATE_LENGTH);
    CHECK(penkwadar_trace(state, WORDS, 2, 2, 3, out, 7, count, 1) == PENKWADAR_RANGE);
    CHECK(penkwadar_trace(state, WORDS, 1, 9, 3, out, 7, count, 1) == PENKWADAR_RANGE);
    CHECK(penkwadar_trace(state, WORDS, 1, 2, 16, out, 7, count, 1) == PENKWADAR_RANGE);
    CHECK(penkwadar_trace(state, WORDS, 0, 2, 3, out, 7, count, 1) == PENKWADAR_NOT_INSTALLED);
    CHECK(penkwadar_trace(state, WORDS, 1, 2, 2, out, 7, count, 1) == PENKWADAR_NO_MEMBER);
    const uint64_t wrong[] = {0, 1, 5, 17};
    for (size_t i = 0; i < 4; i++) {
        *origin = wrong[i];
        CHECK(penkwadar_trace(state, WORDS, 0, 2, 3, out, 7, count, 1) == PENKWADAR_NOT_WELL_FORMED);
    }
    *origin = 3;
    CHECK(all_words(out, PENKWADAR_TRACE_BOXES + 1, UNWRITTEN) && all_words(count, 2, UNWRITTEN));
    CHECK(penkwadar_trace(state, WORDS, 1, 2, 5, out, 7, count, 2) == 0 && count[0] == 0);
    CHECK(penkwadar_trace(state, WORDS, 1, 1, 2, out, 7, count, 2) == 0 && count[0] == 0);
    CHECK(all_words(out, PENKWADAR_TRACE_BOXES + 1, UNWRITTEN));
    CHECK(penkwadar_trace(state, WORDS, 1, 2, 3, out, PENKWADAR_TRACE_BOXES + 1, count, 2) == 0);
    CHECK(count[0] == 1 && count[1] == UNWRITTEN && out[0] == 2);
    CHECK(all_words(out + 1, PENKWADAR_TRACE_BOXES, UNWRITTEN) && state_unchanged());
}

/* Box 5 catches up from box 3: it has that one's list, and the box from which that one began. */
static void check_catch_up(void)
{
    const uint64_t *peer = state + PENKWADAR_SEAT(1, 2, 0), *heir = state + PENKWADAR_SEAT(1, 2, 1);
    uint64_t out[PENKWADAR_TRACE_BOXES], count;
    CHECK(step(CATCH_UP, 1, 3, 5, 3) == PENKWADAR_NOT_INSTALLED && state_unchanged());
    CHECK(step(CATCH_UP, 1, 2, 2, 3) == PENKWADAR_NO_MEMBER && state_unchanged());
    CHECK(step(CATCH_UP, 1, 2, 3, 3) == PENKWADAR_ACTING_MODE && state_unchanged());
    CHECK(step(CATCH_UP, 1, 2, 5, 2) == PENKWADAR_OTHER_MODE && state_unchanged());
    CHECK(step(CATCH_UP, 1, 2, 5, 5) == PENKWADAR_OTHER_MODE && state_unchanged());
    CHECK(step(CATCH_UP, 1, 2, 5, 3) == 0);
    CHECK(heir[0] == ACTIVE && heir[8] == 300 && memcmp(heir, peer, 64 * sizeof *heir) == 0);
    CHECK(step(CATCH_UP, 1, 2, 5, 3) == PENKWADAR_ACTING_MODE && state_unchanged());
    CHECK(penkwadar_trace(state, WORDS, 1, 2, 5, out, 7, &count, 1) == 0 && count == 1 && out[0] == 2);
}

/* The stable histories as rows: of zone 0 the take and the issue, of zone 1 none. */
static void check_csv(void)
{
    static const char text[] = "zone,place,kind,entry\r\n0,0,take,7\r\n0,1,issue,4329766952\r\n";
    const size_t length = sizeof text - 1;
    uint8_t out[PENKWADAR_CSV_BYTES];
    uint64_t count[2] = {UNWRITTEN, UNWRITTEN};
    memset(out, 0xee, sizeof out);
    CHECK(penkwadar_csv(state, WORDS, out, sizeof out, count, 0) == PENKWADAR_OUTPUT_SHORT);
    CHECK(penkwadar_csv(state, WORDS - 1, out, sizeof out, count, 1) == PENKWADAR_STATE_LENGTH);
    CHECK(penkwadar_csv(state, WORDS, out, length - 1, count, 1) == PENKWADAR_OUTPUT_SHORT);
    state[1] = 9;
    CHECK(penkwadar_csv(state, WORDS, out, 0, count, 1) == PENKWADAR_NOT_WELL_FORMED);
    state[1] = 1;
    CHECK(all_bytes(out, sizeof out, 0xee) && all_words(count, 2, UNWRITTEN));
    CHECK(penkwadar_csv(state, WORDS, out, length, count, 2) == 0);
    CHECK(count[0] == length && count[1] == UNWRITTEN && memcmp(out, text, length) == 0);
    CHECK(all_bytes(out + length, sizeof out - length, 0xee));
}

static void check_wedge(void)
{
    CHECK(step(WEDGE, 0, 1, 0, 0) == 0);
    CHECK(seat(0, 0)[0] == IMMUTABLE);
    CHECK(step(WEDGE, 0, 1, 0, 0) == PENKWADAR_ACTING_MODE && state_unchanged());
    CHECK(step(ADD, 0, 1, 8, 0) == PENKWADAR_ACTING_MODE && state_unchanged());
}

static void check_read(void)
{
    const uint8_t log[] = {4, 1, 2, 5, 1, 0, 1, 0xac, 2};
    uint64_t words[7];
    memset(words, 0xee, sizeof words);
    CHECK(penkwadar_read_step(log, sizeof log, 0, words, 5) == PENKWADAR_OUTPUT_SHORT);
    CHECK(penkwadar_read_step(log, 3, 0, words, 7) == PENKWADAR_BYTES_END);
    CHECK(penkwadar_read_step((const uint8_t[]){0x80, 0}, 2, 0, words, 7) == PENKWADAR_NUMBER_BYTES);
    CHECK(penkwadar_read_step((const uint8_t[]){7, 1, 2, 5}, 4, 0, words, 7) == PENKWADAR_BYTES_END);
    CHECK(penkwadar_read_step((const uint8_t[]){8}, 1, 0, words, 7) == PENKWADAR_KIND_KEPT);
    CHECK(penkwadar_read_step((const uint8_t[]){31}, 1, 0, words, 7) == PENKWADAR_KIND_KEPT);
    CHECK(penkwadar_read_step((const uint8_t[]){32}, 1, 0, words, 7) == PENKWADAR_KIND_UNKNOWN);
    CHECK(all_words(words, 7, UNWRITTEN));

    const uint64_t wedge[6] = {4, 1, 2, 5, 0, 4}, add[6] = {1, 0, 1, 300, 0, 9};
    CHECK(penkwadar_read_step(log, sizeof log, 0, words, 7) == 0);
    CHECK(memcmp(words, wedge, sizeof wedge) == 0 && words[6] == UNWRITTEN);
    CHECK(penkwadar_read_step(log, sizeof log, words[5], words, 7) == 0);
    CHECK(memcmp(words, add, sizeof add) == 0);
    const size_t ends[] = {words[5], sizeof log + 1, SIZE_MAX};
    for (size_t i = 0; i < 3; i++) {
        memset(words, 0xee, sizeof words);
        CHECK(penkwadar_read_step(log, sizeof log, ends[i], words, 7) == 0);
        CHECK(all_words(words, 6, 0) && words[6] == UNWRITTEN);
    }
}

static void check_write(void)
{
    uint8_t out[8];
    uint64_t count = UNWRITTEN;
    memset(out, 0xee, sizeof out);
    CHECK(penkwadar_write_step(out, 8, 1, ADD, 0, 1, 300, 0, &count, 0) == PENKWADAR_OUTPUT_SHORT);
    CHECK(penkwadar_write_step(out, 8, 1, 9, 0, 1, 300, 0, &count, 1) == PENKWADAR_KIND_KEPT);
    CHECK(penkwadar_write_step(out, 8, 1, 99, 0, 1, 300, 0, &count, 1) == PENKWADAR_KIND_UNKNOWN);
    CHECK(penkwadar_write_step(out, 8, 1, ADD, 0, 1, 300, 1, &count, 1) == PENKWADAR_RANGE);
    CHECK(penkwadar_write_step(out, 8, 1, ADD, 0, 1, 1ULL << 35, 0, &count, 1) == PENKWADAR_RANGE);
    CHECK(penkwadar_write_step(out, 8, 4, ADD, 0, 1, 300, 0, &count, 1) == PENKWADAR_OUTPUT_SHORT);
    CHECK(penkwadar_write_step(out, 8, 8, ADD, 0, 1, 300, 0, &count, 1) == PENKWADAR_OUTPUT_SHORT);
    CHECK(penkwadar_write_step(out, 8, 9, ADD, 0, 1, 300, 0, &count, 1) == PENKWADAR_OUTPUT_SHORT);
    CHECK(penkwadar_write_step(out, 8, SIZE_MAX, ADD, 0, 1, 300, 0, &count, 1) == PENKWADAR_OUTPUT_SHORT);
    CHECK(all_bytes(out, 8, 0xee) && count == UNWRITTEN);

    const uint8_t expected[8] = {0xee, 1, 0, 1, 0xac, 2, 0xee, 0xee};
    CHECK(penkwadar_write_step(out, 8, 1, ADD, 0, 1, 300, 0, &count, 1) == 0);
    CHECK(count == 5 && memcmp(out, expected, 8) == 0);
}

static int report_is(const uint64_t *report, uint64_t stop, uint64_t tried, uint64_t rejected, uint64_t bytes)
{
    return report[0] == stop && report[1] == tried && report[2] == rejected && report[3] == bytes &&
           report[4] == UNWRITTEN;
}

static void check_replay(void)
{
    uint64_t report[5];
    memset(report, 0xee, sizeof report);
    CHECK(penkwadar_setup(state, WORDS, plan, 6) == 0);
    memcpy(before, state, sizeof state);
    CHECK(penkwadar_replay(state, WORDS, sample, 26, 9, report, 3) == PENKWADAR_OUTPUT_SHORT);
    CHECK(penkwadar_replay(state, 0, sample, 26, 9, report, 5) == PENKWADAR_STATE_LENGTH);
    CHECK(state_unchanged());
    state[3] = before[3] = 1;
    CHECK(penkwadar_replay(state, WORDS, sample, 26, 9, report, 5) == PENKWADAR_NOT_WELL_FORMED);
    CHECK(state_unchanged() && all_words(report, 5, UNWRITTEN));
    state[3] = 0;

    CHECK(penkwadar_replay(state, WORDS, sample, 26, 0, report, 5) == 0);
    CHECK(report_is(report, PENKWADAR_SPENT, 0, 0, 0));
    CHECK(penkwadar_replay(state, WORDS, sample, 26, UINT64_MAX, report, 5) == 0);
    CHECK(report_is(report, PENKWADAR_ENDED, 6, 1, 26));
    CHECK(seat(0, 0)[0] == IMMUTABLE && seat(0, 0)[2] == 1 && seat(0, 1)[2] == 1);

    /* Bytes that end inside the second step: the first keeps its effect. */
    CHECK(penkwadar_setup(state, WORDS, plan, 6) == 0);
    CHECK(penkwadar_replay(state, WORDS, sample, 6, UINT64_MAX, report, 5) == PENKWADAR_BYTES_END);
    CHECK(report_is(report, PENKWADAR_DAMAGED, 1, 0, 4));
    CHECK(seat(0, 0)[1] == 1 && seat(0, 1)[1] == 0);
}

/* A budget that ends with the log, and a log in parts: each begins where the one before was spent. */
static void check_budgets(void)
{
    uint64_t report[5];
    memset(report, 0xee, sizeof report);
    CHECK(penkwadar_setup(state, WORDS, plan, 6) == 0);
    CHECK(penkwadar_replay(state, WORDS, sample, 26, 6, report, 5) == 0);
    CHECK(report_is(report, PENKWADAR_ENDED, 6, 1, 26));
    memcpy(before, state, sizeof state);

    CHECK(penkwadar_setup(state, WORDS, plan, 6) == 0);
    CHECK(penkwadar_replay(state, WORDS, sample, 26, 5, report, 5) == 0);
    CHECK(report_is(report, PENKWADAR_SPENT, 5, 0, 22));

    CHECK(penkwadar_setup(state, WORDS, plan, 6) == 0);
    const uint8_t *log = sample;
    size_t log_len = 26;
    uint64_t tried = 0, rejected = 0, calls = 0;
    do {
        CHECK(penkwadar_replay(state, WORDS, log, log_len, 2, report, 5) == 0);
        log += report[3];
        log_len -= report[3];
        tried += report[1];
        rejected += report[2];
        calls++;
    } while (report[0] == PENKWADAR_SPENT);
    CHECK(report[0] == PENKWADAR_ENDED && log_len == 0 && tried == 6 && rejected == 1 && calls == 3);
    CHECK(state_unchanged());
}

static int tally_is(const uint64_t *tally, uint64_t of_box_0, uint64_t of_box_5, uint64_t of_no_box)
{
    uint64_t expected[PENKWADAR_TALLY_WORDS] = {0};
    expected[0] = of_box_0;
    expected[5] = of_box_5;
    expected[PENKWADAR_TALLY_NO_BOX] = of_no_box;
    return memcmp(tally, expected, sizeof expected) == 0 && tally[PENKWADAR_TALLY_WORDS] == UNWRITTEN;
}

/* Rejections told by box. */
static void check_replay_tally(void)
{
    /* Box 5 is no member, also of a zone that is not there; box 16 is none; an index that is not installed; box 0, the
     * orderer, has the take already. The last step has no end. */
    static const uint8_t log[] = {4, 0, 1, 5, 4, 2, 1, 5, 4, 0, 1, 16, 1, 0, 2, 7, 1, 0, 1, 7, 1, 0, 1, 7, 4};
    uint64_t report[5], tally[PENKWADAR_TALLY_WORDS + 1];
    memset(report, 0xee, sizeof report);
    memset(tally, 0xee, sizeof tally);
    CHECK(penkwadar_setup(state, WORDS, plan, 6) == 0);
    memcpy(before, state, sizeof state);
    CHECK(penkwadar_replay_tally(state, 0, log, 25, 9, report, 3, tally, 17) == PENKWADAR_OUTPUT_SHORT);
    CHECK(penkwadar_replay_tally(state, 0, log, 25, 9, report, 5, tally, 16) == PENKWADAR_OUTPUT_SHORT);
    CHECK(penkwadar_replay_tally(state, 0, log, 25, 9, report, 5, tally, 18) == PENKWADAR_STATE_LENGTH);
    state[3] = before[3] = 1;
    CHECK(penkwadar_replay_tally(state, WORDS, log, 25, 9, report, 5, tally, 18) == PENKWADAR_NOT_WELL_FORMED);
    CHECK(state_unchanged() && all_words(report, 5, UNWRITTEN) && all_words(tally, 18, UNWRITTEN));
    state[3] = 0;

    CHECK(penkwadar_replay_tally(state, WORDS, log, 25, UINT64_MAX, report, 5, tally, 18) == PENKWADAR_BYTES_END);
    CHECK(report_is(report, PENKWADAR_DAMAGED, 6, 5, 24) && tally_is(tally, 1, 2, 2));
    CHECK(seat(0, 0)[1] == 1 && seat(0, 0)[8] == 7);
    CHECK(penkwadar_replay_tally(state, WORDS, log, 24, 1, report, 5, tally, 18) == 0);
    CHECK(report_is(report, PENKWADAR_SPENT, 1, 1, 4) && tally_is(tally, 0, 1, 0));
    CHECK(penkwadar_replay_tally(state, WORDS, log, 24, 0, report, 5, tally, 18) == 0);
    CHECK(report_is(report, PENKWADAR_SPENT, 0, 0, 0) && tally_is(tally, 0, 0, 0));
}

static void check_transcript(void)
{
    const size_t length = sizeof sample_text - 1;
    uint8_t out[100];
    uint64_t count = UNWRITTEN;
    memset(out, 0xee, sizeof out);
    CHECK(penkwadar_transcript(sample, 26, out, 100, &count, 0) == PENKWADAR_OUTPUT_SHORT);
    CHECK(penkwadar_transcript(sample, 26, out, length - 1, &count, 1) == PENKWADAR_OUTPUT_SHORT);
    CHECK(all_bytes(out, 100, 0xee) && count == UNWRITTEN);
    CHECK(penkwadar_transcript(sample, 26, out, 100, &count, 1) == 0);
    CHECK(count == length && memcmp(out, sample_text, length) == 0);
    CHECK(all_bytes(out + length, 100 - length, 0xee));

    static const uint8_t long_log[16385];
    CHECK(penkwadar_transcript(long_log, sizeof long_log, out, 100, &count, 1) == 0);
    CHECK(count == 9 && memcmp(out, "too long\n", 9) == 0);
}

int main(void)
{
    check_seats();
    check_setup();
    check_take();
    check_rejected_steps();
    check_stable_history();
    check_stable_prefix();
    check_reconfiguration();
    check_trace();
    check_catch_up();
    check_csv();
    check_wedge();
    check_read();
    check_write();
    check_replay();
    check_budgets();
    check_replay_tally();
    check_transcript();
    return told("main");
}
