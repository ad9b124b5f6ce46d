/* What include/penkwadar.h computes by itself: places of words, issues put together and taken apart, seats, texts of
 * rejections. It is C99 and C++17 alike, and no archive is linked:
 *
 *     cc -I include tests/c/header.c
 *
 * Prints one line with the number of checks, and ends with status 1 where one failed. */
#include <string.h>

#include "check.h"
#include "penkwadar.h"

/* The macros are constants where their arguments are. */
static const uint64_t issue = PENKWADAR_ISSUE(2, 1, 3, PENKWADAR_MEMBER(3) + PENKWADAR_MEMBER(5));
static const uint64_t apart[] = {PENKWADAR_ISSUE_INDEX(PENKWADAR_ISSUE(2, 1, 3, 40)),
                                 PENKWADAR_ISSUE_ZONE(PENKWADAR_ISSUE(2, 1, 3, 40)),
                                 PENKWADAR_ISSUE_ORDERER(PENKWADAR_ISSUE(2, 1, 3, 40)),
                                 PENKWADAR_ISSUE_MEMBERS(PENKWADAR_ISSUE(2, 1, 3, 40))};

#if PENKWADAR_VERSION != 1
#error "this program knows version 1"
#endif

static void check_places(void)
{
    CHECK(PENKWADAR_SEQUENCER(1) == PENKWADAR_ZONE_WORDS && PENKWADAR_INSTALLED(1) == PENKWADAR_ZONE_WORDS + 1);
    CHECK(PENKWADAR_MEMBERS(1, 1) == PENKWADAR_ZONE_WORDS + 2 && PENKWADAR_MEMBERS(1, 8) == PENKWADAR_ZONE_WORDS + 9);
    CHECK(PENKWADAR_ORDERER(1, 1) == PENKWADAR_ZONE_WORDS + 10 && PENKWADAR_ORDERER(1, 8) == PENKWADAR_ZONE_WORDS + 17);
    CHECK(PENKWADAR_SEAT(0, 1, 0) == 64 && PENKWADAR_SEAT(1, 8, 3) == 2 * PENKWADAR_ZONE_WORDS - 64);
    CHECK(PENKWADAR_SEAT_ENTRIES + PENKWADAR_LIST_ENTRIES == 64);
}

/* Whether an issue's word comes apart into what it was put together from. */
static int comes_apart(unsigned index, unsigned zone, unsigned orderer, unsigned members)
{
    const uint64_t word = PENKWADAR_ISSUE(index, zone, orderer, members);
    return PENKWADAR_IS_ISSUE(word) && PENKWADAR_ISSUE_INDEX(word) == index && PENKWADAR_ISSUE_ZONE(word) == zone &&
           PENKWADAR_ISSUE_ORDERER(word) == orderer && PENKWADAR_ISSUE_MEMBERS(word) == members;
}

/* Every index, zone and orderer that the word has bits for, beside some member sets; and every member set beside some
 * of those. */
static void check_issues(void)
{
    static const unsigned sets[] = {0, 1, 40, 32768, 65535}, ends[] = {0, 15};
    unsigned words = 0;
    for (unsigned place = 0; place < 256 * 16 * 16; place++) {
        for (unsigned set = 0; set < 5; set++) {
            words += (unsigned)comes_apart(place / 256, place / 16 % 16, place % 16, sets[set]);
        }
    }
    CHECK(words == 256 * 16 * 16 * 5);
    words = 0;
    for (unsigned members = 0; members < 65536; members++) {
        for (unsigned end = 0; end < 2; end++) {
            words += (unsigned)comes_apart(ends[end] * 17, ends[end], ends[1 - end], members);
        }
    }
    CHECK(words == 65536 * 2);
    CHECK(issue == UINT64_C(4329766952) && apart[0] == 2 && apart[1] == 1 && apart[2] == 3 && apart[3] == 40);
    /* An argument may be an expression. */
    CHECK(PENKWADAR_ISSUE_MEMBERS(issue | 1) == 41 && PENKWADAR_ISSUE_INDEX(issue + 0) == 2);
}

static void check_issue_words(void)
{
    const uint64_t takes_end = UINT64_C(1) << 32, issues_end = UINT64_C(1) << 33;
    CHECK(PENKWADAR_TAKE_MOST == takes_end - 1);
    CHECK(!PENKWADAR_IS_ISSUE(0) && !PENKWADAR_IS_ISSUE(1) && !PENKWADAR_IS_ISSUE(PENKWADAR_TAKE_MOST));
    CHECK(PENKWADAR_IS_ISSUE(takes_end) && PENKWADAR_IS_ISSUE(issues_end - 1));
    CHECK(!PENKWADAR_IS_ISSUE(issues_end) && !PENKWADAR_IS_ISSUE(takes_end + issues_end));
    CHECK(!PENKWADAR_IS_ISSUE(UINT64_MAX));
}

/* Of each of the 65,536 sets, box after box: a member's seat is how many members came before. */
static void check_seats(void)
{
    unsigned wrong = 0;
    for (uint64_t members = 0; members < 65536; members++) {
        uint64_t before = 0;
        for (uint64_t box = 0; box < PENKWADAR_BOXES; box++) {
            wrong += penkwadar_seat_of(members, box) != before;
            before += (members & PENKWADAR_MEMBER(box)) != 0;
        }
    }
    CHECK(wrong == 0);
    CHECK(penkwadar_seat_of(65535, UINT64_MAX) == PENKWADAR_BOXES);
}

/* Texts of the answers 0 to 24 and of a number that is none: not empty, one line, and no two alike. */
static void check_texts(void)
{
    for (uint64_t a = 0; a <= PENKWADAR_NOT_WEDGED + 1; a++) {
        const char *text = penkwadar_rejection_text(a);
        CHECK(strlen(text) > 0 && strlen(text) < 60 && strchr(text, '\n') == NULL);
        for (uint64_t b = 0; b < a; b++) {
            CHECK(strcmp(text, penkwadar_rejection_text(b)) != 0);
        }
    }
    const char *none = penkwadar_rejection_text(PENKWADAR_NOT_WEDGED + 1);
    CHECK(strcmp(penkwadar_rejection_text(UINT64_MAX), none) == 0);
    CHECK(strcmp(penkwadar_rejection_text(UINT64_C(1) << 32), none) == 0);
    CHECK(strcmp(penkwadar_rejection_text(0), "accepted") == 0);
    CHECK(strcmp(penkwadar_rejection_text(16), "the list is full") == 0);
}

int main(void)
{
    check_places();
    check_issues();
    check_issue_words();
    check_seats();
    check_texts();
    return told("header");
}
