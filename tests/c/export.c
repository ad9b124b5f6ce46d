/* A file for spreadsheets: replays a log and writes the text of every zone's stable history. Once ./library has built
 * the archive, this makes a file of a log of the program's two zones:
 *
 *     cc -I include tests/c/export.c include/libpenkwadar.a -o target/export && target/export LOG FILE
 *
 * Another hall's plan, the one that the log begins with, goes after these two, three numbers a zone, zone after zone:
 *
 *     target/export LOG FILE SEQUENCER MEMBERS ORDERER SEQUENCER MEMBERS ORDERER ..
 *
 * MEMBERS is the sum of 2^box over the boxes. On standard output stand the stable histories themselves, a line a zone,
 * as the program prints them. Ends with status 2, and no file is written, where the words are no such command, and with
 * 1 where something else fails. A log that ends in damaged bytes counts up to them, as in the program. */
#include <errno.h>
#include <inttypes.h>
#include <stdio.h>
#include <stdlib.h>

#include "penkwadar.h"

#define PLAN_WORDS (3 * PENKWADAR_ZONES_MOST)
#define WRONG_WORDS 2

static uint64_t plan[PLAN_WORDS] = {1, 3, 0, 0, 12, 2};
static uint64_t state[PENKWADAR_ZONES_MOST * PENKWADAR_ZONE_WORDS];
static uint8_t text[PENKWADAR_CSV_BYTES];

static void fail(const char *what)
{
    fprintf(stderr, "export: %s\n", what);
    exit(EXIT_FAILURE);
}

static void refuse(const char *what)
{
    fprintf(stderr, "export: %s\n", what);
    exit(WRONG_WORDS);
}

/* A number of the plan: decimal digits and nothing else, below 2^64. */
static uint64_t read_number(const char *word)
{
    char *rest;
    errno = 0;
    const unsigned long long number = strtoull(word, &rest, 10);
    if (word[0] < '0' || '9' < word[0] || *rest != '\0' || errno == ERANGE) {
        fprintf(stderr, "export: no whole number below 2^64: '%s'\n", word);
        exit(WRONG_WORDS);
    }
    return number;
}

/* The plan of the command line, if there is one: how many words it has. */
static size_t read_plan(int count, char **words)
{
    if (count == 0) {
        return 6;
    }
    if (count % 3 != 0 || count < 3 * PENKWADAR_ZONES_LEAST || PLAN_WORDS < count) {
        refuse("a plan has three numbers a zone, for 2 to 8 zones");
    }
    for (int i = 0; i < count; i++) {
        plan[i] = read_number(words[i]);
    }
    return (size_t)count;
}

static uint8_t *read_log(const char *name, size_t *length)
{
    FILE *file = fopen(name, "rb");
    uint8_t *log = NULL;
    size_t room = 0, got = 0;
    if (file == NULL) {
        fail("cannot open the log");
    }
    do {
        *length += got;
        if (*length == room) {
            room += 65536;
            log = (uint8_t *)realloc(log, room);
        }
        if (log == NULL) {
            fail("no memory for the log");
        }
        got = fread(log + *length, 1, room - *length, file);
    } while (got > 0);
    if (ferror(file) || fclose(file) != 0) {
        fail("cannot read the log");
    }
    return log;
}

static void write_text(const char *name, uint64_t length)
{
    FILE *file = fopen(name, "wb");
    if (file == NULL || fwrite(text, 1, length, file) != length || fclose(file) != 0) {
        fail("cannot write the file");
    }
}

static void print_history(uint64_t zone, size_t state_len)
{
    uint64_t entries[PENKWADAR_LIST_ENTRIES], count[1];
    if (penkwadar_stable_history(state, state_len, zone, entries, PENKWADAR_LIST_ENTRIES, count, 1) != 0) {
        fail("a stable history is rejected");
    }
    printf("zone %" PRIu64, zone);
    for (uint64_t i = 0; i < count[0]; i++) {
        printf(" %" PRIu64, entries[i]);
    }
    printf("\n");
}

int main(int count, char **words)
{
    if (count < 3) {
        refuse("usage: export LOG FILE [SEQUENCER MEMBERS ORDERER]..");
    }
    const size_t plan_len = read_plan(count - 3, words + 3), zones = plan_len / 3;
    const size_t state_len = penkwadar_state_words(zones);
    const uint64_t rejection = penkwadar_setup(state, state_len, plan, plan_len);
    if (rejection != 0) {
        refuse(penkwadar_rejection_text(rejection));
    }
    uint64_t report[4], length[1];
    size_t log_len = 0;
    uint8_t *log = read_log(words[1], &log_len);
    penkwadar_replay(state, state_len, log, log_len, UINT64_MAX, report, 4);
    if (penkwadar_csv(state, state_len, text, sizeof text, length, 1) != 0) {
        fail("the text is rejected");
    }
    write_text(words[2], length[0]);
    for (uint64_t zone = 0; zone < zones; zone++) {
        print_history(zone, state_len);
    }
    free(log);
    return EXIT_SUCCESS;
}
