/* A worked example of include/penkwadar.h: three zones of a hall, a box of the balcony that drops out and is replaced,
 * and what the balcony's boxes show before and after. It is C99 and C++17 alike:
 *
 *     ./library
 *     cc -I include tests/c/story.c include/libpenkwadar.a -o story && ./story
 *
 * Ends with status 1 where a step is rejected that should not be. */
#include <inttypes.h>
#include <stdio.h>
#include <stdlib.h>

#include "penkwadar.h"

/* The zones, each appointed by the next: stalls by balcony, balcony by stage, stage by stalls. */
enum { STALLS, BALCONY, STAGE, ZONES };

static const uint64_t plan[3 * ZONES] = {
    /* sequencer, members of index 1, orderer */
    BALCONY, PENKWADAR_MEMBER(0) + PENKWADAR_MEMBER(1), 0, /* stalls: boxes 0 and 1 */
    STAGE,   PENKWADAR_MEMBER(2) + PENKWADAR_MEMBER(3), 2, /* balcony: boxes 2 and 3 */
    STALLS,  PENKWADAR_MEMBER(4) + PENKWADAR_MEMBER(5), 4, /* stage: boxes 4 and 5 */
};

static uint64_t state[ZONES * PENKWADAR_ZONE_WORDS];
static const size_t state_len = sizeof state / sizeof state[0];

/* A call that has to be accepted. */
static void accepted(uint64_t answer, const char *call)
{
    if (answer != 0) {
        fprintf(stderr, "%s: rejection %" PRIu64 "\n", call, answer);
        exit(EXIT_FAILURE);
    }
}

static void add(uint64_t zone, uint64_t index, uint64_t entry)
{
    accepted(penkwadar_step(state, state_len, PENKWADAR_ADD, zone, index, entry, 0), "add");
}

static void adopt(uint64_t zone, uint64_t index, uint64_t box)
{
    accepted(penkwadar_step(state, state_len, PENKWADAR_ADOPT, zone, index, box, 0), "adopt");
}

static void learn(uint64_t zone, uint64_t index, uint64_t box, uint64_t length)
{
    accepted(penkwadar_step(state, state_len, PENKWADAR_LEARN, zone, index, box, length), "learn");
}

static void wedge(uint64_t zone, uint64_t index, uint64_t box)
{
    accepted(penkwadar_step(state, state_len, PENKWADAR_WEDGE, zone, index, box, 0), "wedge");
}

static void install(uint64_t zone, uint64_t index, uint64_t box, uint64_t place)
{
    accepted(penkwadar_step(state, state_len, PENKWADAR_INSTALL, zone, index, box, place), "install");
}

static void inherit(uint64_t zone, uint64_t index, uint64_t box, uint64_t source)
{
    accepted(penkwadar_step(state, state_len, PENKWADAR_INHERIT, zone, index, box, source), "inherit");
}

static void catch_up(uint64_t zone, uint64_t index, uint64_t box, uint64_t peer)
{
    accepted(penkwadar_step(state, state_len, PENKWADAR_CATCH_UP, zone, index, box, peer), "catch up");
}

static void print_list(const char *name, const uint64_t *list, uint64_t count)
{
    printf("%s:", name);
    for (uint64_t i = 0; i < count; i++) {
        printf(" %" PRIu64, list[i]);
    }
    printf("\n");
}

/* What a box of the balcony shows: its confirmed list. */
static void show(const char *name, uint64_t index, uint64_t box)
{
    uint64_t list[PENKWADAR_LIST_ENTRIES], count;
    accepted(penkwadar_stable_prefix(state, state_len, BALCONY, index, box, list, PENKWADAR_LIST_ENTRIES, &count, 1),
             name);
    print_list(name, list, count);
}

/* From which boxes a box of the balcony got its list, nearest first. */
static void trace(const char *name, uint64_t index, uint64_t box)
{
    uint64_t boxes[PENKWADAR_TRACE_BOXES], count;
    accepted(penkwadar_trace(state, state_len, BALCONY, index, box, boxes, PENKWADAR_TRACE_BOXES, &count, 1), name);
    print_list(name, boxes, count);
}

int main(void)
{
    /* The state's length, and its setup: index 1 of each zone, all lists empty. */
    if (penkwadar_state_words(ZONES) != state_len) {
        return EXIT_FAILURE;
    }
    accepted(penkwadar_setup(state, state_len, plan, 3 * ZONES), "setup");

    /* Takes 11 and 12 at the balcony: its orderer, box 2, takes them, box 3 adopts the list, and both confirm it. */
    add(BALCONY, 1, 11);
    add(BALCONY, 1, 12);
    adopt(BALCONY, 1, 3);
    learn(BALCONY, 1, 3, 2);
    learn(BALCONY, 1, 2, 2);
    show("box 3 of the balcony", 1, 3);

    /* Box 3 drops out. The stage appoints the balcony's boxes: it issues boxes 2, 6 and 7, with orderer 6, for index 2,
     * and its own boxes have to confirm that. */
    add(STAGE, 1,
        PENKWADAR_ISSUE(2, BALCONY, 6, PENKWADAR_MEMBER(2) + PENKWADAR_MEMBER(6) + PENKWADAR_MEMBER(7)));
    adopt(STAGE, 1, 5);
    learn(STAGE, 1, 5, 1);

    /* Box 2 is wedged, so that its list can be inherited; before a box of index 1 is, index 2 cannot be installed. It
     * is, from the first place of the list of box 5. */
    wedge(BALCONY, 1, 2);
    install(BALCONY, 1, 5, 0);
    show("box 6, just appointed", 2, 6);
    inherit(BALCONY, 2, 6, 2);
    inherit(BALCONY, 2, 2, 2);
    show("box 6, after inheriting", 2, 6);
    trace("it began from box", 2, 6);

    /* The other new one, box 7, reaches its neighbour, box 6, before box 2, and begins with that one's list. */
    catch_up(BALCONY, 2, 7, 6);
    show("box 7, after catching up", 2, 7);
    trace("its list began from box", 2, 7);

    /* The new orderer, box 6, takes take 13. */
    add(BALCONY, 2, 13);
    adopt(BALCONY, 2, 2);
    adopt(BALCONY, 2, 7);
    learn(BALCONY, 2, 6, 3);
    show("box 6 of the balcony", 2, 6);
    show("box 3, read once more", 1, 3);

    /* A late add to the old index is rejected: its orderer is wedged. */
    uint64_t late = penkwadar_step(state, state_len, PENKWADAR_ADD, BALCONY, 1, 14, 0);
    printf("a late add: %s\n", late == PENKWADAR_ACTING_MODE ? "rejected, the orderer is wedged" : "?");

    /* The whole zone: the longest of what its boxes show. */
    uint64_t list[PENKWADAR_LIST_ENTRIES], count;
    accepted(penkwadar_stable_history(state, state_len, BALCONY, list, PENKWADAR_LIST_ENTRIES, &count, 1), "history");
    print_list("the balcony", list, count);
    return EXIT_SUCCESS;
}
