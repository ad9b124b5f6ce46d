/* NULL for a buffer of length 0, of every function and each of its buffers.
 *
 *     cc -I include tests/c/null.c include/libpenkwadar.a
 *
 * Prints one line with the number of checks, and ends with status 1 where one failed. */
#include <string.h>

#include "check.h"
#include "penkwadar.h"

#define WORDS (2 * PENKWADAR_ZONE_WORDS)

/* The program's plan. */
static const uint64_t plan[6] = {1, 3, 0, 0, 12, 2};
/* An add of take 7 in zone 0. */
static const uint8_t add[4] = {1, 0, 1, 7};

static uint64_t state[WORDS], before[WORDS], words[PENKWADAR_LIST_ENTRIES], tally[PENKWADAR_TALLY_WORDS], count[1];
static uint8_t out[100];

/* Fills the outputs, and keeps the state. */
static void prepare(void)
{
    memset(words, 0xee, sizeof words);
    memset(tally, 0xee, sizeof tally);
    memset(count, 0xee, sizeof count);
    memset(out, 0xee, sizeof out);
    memcpy(before, state, sizeof state);
}

/* Whether no output was written since then, and the state stayed. */
static int nothing_written(void)
{
    const uint64_t unwritten = 0xeeeeeeeeeeeeeeee;
    return all_words(words, PENKWADAR_LIST_ENTRIES, unwritten) && all_words(tally, PENKWADAR_TALLY_WORDS, unwritten) &&
           count[0] == unwritten && all_bytes(out, sizeof out, 0xee) && memcmp(state, before, sizeof state) == 0;
}

/* Take 7 is confirmed in zone 0, and nothing in zone 1. */
static void check_setup(void)
{
    CHECK(penkwadar_setup(state, WORDS, plan, 6) == 0);
    CHECK(penkwadar_step(state, WORDS, PENKWADAR_ADD, 0, 1, 7, 0) == 0);
    CHECK(penkwadar_step(state, WORDS, PENKWADAR_ADOPT, 0, 1, 1, 0) == 0);
    CHECK(penkwadar_step(state, WORDS, PENKWADAR_LEARN, 0, 1, 1, 1) == 0);
    prepare();
    CHECK(penkwadar_setup(NULL, 0, plan, 6) == PENKWADAR_STATE_LENGTH);
    CHECK(penkwadar_setup(NULL, 0, NULL, 0) == PENKWADAR_STATE_LENGTH);
    CHECK(penkwadar_setup(state, WORDS, NULL, 0) == PENKWADAR_PLAN);
    CHECK(nothing_written());
}

static void check_no_state(void)
{
    prepare();
    CHECK(penkwadar_step(NULL, 0, PENKWADAR_ADD, 0, 1, 8, 0) == PENKWADAR_STATE_LENGTH);
    CHECK(penkwadar_replay(NULL, 0, add, 4, 9, words, 4) == PENKWADAR_STATE_LENGTH);
    CHECK(penkwadar_replay_tally(NULL, 0, add, 4, 9, words, 4, tally, 17) == PENKWADAR_STATE_LENGTH);
    CHECK(penkwadar_stable_prefix(NULL, 0, 0, 1, 1, words, 56, count, 1) == PENKWADAR_STATE_LENGTH);
    CHECK(penkwadar_stable_history(NULL, 0, 0, words, 56, count, 1) == PENKWADAR_STATE_LENGTH);
    CHECK(penkwadar_trace(NULL, 0, 0, 1, 1, words, 7, count, 1) == PENKWADAR_STATE_LENGTH);
    CHECK(penkwadar_csv(NULL, 0, out, sizeof out, count, 1) == PENKWADAR_STATE_LENGTH);
    CHECK(nothing_written());
}

/* A log of no bytes is at its end. */
static void check_no_log(void)
{
    static const char text[] = "zone 0\nzone 1\nended 0 0 0\n";
    const uint64_t budgets[] = {0, 1, UINT64_MAX};
    const size_t positions[] = {0, 1, SIZE_MAX};
    for (size_t i = 0; i < 3; i++) {
        prepare();
        CHECK(penkwadar_replay(state, WORDS, NULL, 0, budgets[i], words, 4) == 0 && all_words(words, 4, 0));
        prepare();
        CHECK(penkwadar_replay_tally(state, WORDS, NULL, 0, budgets[i], words, 4, tally, 17) == 0);
        CHECK(all_words(words, 4, 0) && all_words(tally, 17, 0));
        prepare();
        CHECK(penkwadar_read_step(NULL, 0, positions[i], words, 6) == 0 && all_words(words, 6, 0));
    }
    CHECK(penkwadar_transcript(NULL, 0, out, sizeof out, count, 1) == 0);
    CHECK(count[0] == sizeof text - 1 && memcmp(out, text, sizeof text - 1) == 0);
    CHECK(memcmp(state, before, sizeof state) == 0);
}

/* Outputs for words and for their count. */
static void check_no_output(void)
{
    prepare();
    CHECK(penkwadar_replay(state, WORDS, add, 4, 9, NULL, 0) == PENKWADAR_OUTPUT_SHORT);
    CHECK(penkwadar_replay_tally(state, WORDS, add, 4, 9, NULL, 0, tally, 17) == PENKWADAR_OUTPUT_SHORT);
    CHECK(penkwadar_replay_tally(state, WORDS, add, 4, 9, words, 4, NULL, 0) == PENKWADAR_OUTPUT_SHORT);
    CHECK(penkwadar_read_step(add, 4, 0, NULL, 0) == PENKWADAR_OUTPUT_SHORT);
    CHECK(penkwadar_write_step(NULL, 0, 0, PENKWADAR_ADD, 0, 1, 8, 0, count, 1) == PENKWADAR_OUTPUT_SHORT);
    CHECK(penkwadar_write_step(NULL, 0, SIZE_MAX, PENKWADAR_ADD, 0, 1, 8, 0, count, 1) == PENKWADAR_OUTPUT_SHORT);
    CHECK(penkwadar_write_step(out, sizeof out, 0, PENKWADAR_ADD, 0, 1, 8, 0, NULL, 0) == PENKWADAR_OUTPUT_SHORT);
    CHECK(penkwadar_stable_prefix(state, WORDS, 0, 1, 1, NULL, 0, count, 1) == PENKWADAR_OUTPUT_SHORT);
    CHECK(penkwadar_stable_prefix(state, WORDS, 0, 1, 1, words, 56, NULL, 0) == PENKWADAR_OUTPUT_SHORT);
    CHECK(penkwadar_stable_history(state, WORDS, 0, NULL, 0, count, 1) == PENKWADAR_OUTPUT_SHORT);
    CHECK(penkwadar_stable_history(state, WORDS, 0, words, 56, NULL, 0) == PENKWADAR_OUTPUT_SHORT);
    CHECK(penkwadar_trace(state, WORDS, 0, 1, 1, NULL, 0, count, 1) == PENKWADAR_OUTPUT_SHORT);
    CHECK(penkwadar_trace(state, WORDS, 0, 1, 1, words, 7, NULL, 0) == PENKWADAR_OUTPUT_SHORT);
    CHECK(penkwadar_csv(state, WORDS, NULL, 0, count, 1) == PENKWADAR_OUTPUT_SHORT);
    CHECK(penkwadar_csv(state, WORDS, out, sizeof out, NULL, 0) == PENKWADAR_OUTPUT_SHORT);
    CHECK(penkwadar_transcript(add, 4, NULL, 0, count, 1) == PENKWADAR_OUTPUT_SHORT);
    CHECK(penkwadar_transcript(add, 4, out, sizeof out, NULL, 0) == PENKWADAR_OUTPUT_SHORT);
    CHECK(nothing_written());
}

/* A list of no entries fits where there is no room. */
static void check_no_entries(void)
{
    prepare();
    CHECK(penkwadar_stable_prefix(state, WORDS, 0, 1, 0, NULL, 0, count, 1) == 0 && count[0] == 0);
    prepare();
    CHECK(penkwadar_stable_history(state, WORDS, 1, NULL, 0, count, 1) == 0 && count[0] == 0);
}

/* Every buffer of a call at once. */
static void check_nothing_at_all(void)
{
    CHECK(penkwadar_replay(NULL, 0, NULL, 0, 9, NULL, 0) == PENKWADAR_OUTPUT_SHORT);
    CHECK(penkwadar_replay_tally(NULL, 0, NULL, 0, 9, NULL, 0, NULL, 0) == PENKWADAR_OUTPUT_SHORT);
    CHECK(penkwadar_read_step(NULL, 0, 0, NULL, 0) == PENKWADAR_OUTPUT_SHORT);
    CHECK(penkwadar_write_step(NULL, 0, 0, PENKWADAR_ADD, 0, 1, 8, 0, NULL, 0) == PENKWADAR_OUTPUT_SHORT);
    CHECK(penkwadar_stable_prefix(NULL, 0, 0, 1, 1, NULL, 0, NULL, 0) == PENKWADAR_OUTPUT_SHORT);
    CHECK(penkwadar_stable_history(NULL, 0, 0, NULL, 0, NULL, 0) == PENKWADAR_OUTPUT_SHORT);
    CHECK(penkwadar_trace(NULL, 0, 0, 1, 1, NULL, 0, NULL, 0) == PENKWADAR_OUTPUT_SHORT);
    CHECK(penkwadar_csv(NULL, 0, NULL, 0, NULL, 0) == PENKWADAR_OUTPUT_SHORT);
    CHECK(penkwadar_transcript(NULL, 0, NULL, 0, NULL, 0) == PENKWADAR_OUTPUT_SHORT);
}

int main(void)
{
    check_setup();
    check_no_state();
    check_no_log();
    check_no_output();
    check_no_entries();
    check_nothing_at_all();
    return told("null");
}
