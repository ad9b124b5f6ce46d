/* What the C programs that test share: checks that are counted, each told with its place where it fails, and looks at
 * outputs. */
#ifndef CHECK_H
#define CHECK_H

#include <stdint.h>
#include <stdio.h>
#include <stdlib.h>

static unsigned checks, failed;

static inline void check(int holds, const char *file, int line, const char *what)
{
    checks++;
    if (!holds) {
        failed++;
        fprintf(stderr, "%s:%d: %s\n", file, line, what);
    }
}

#define CHECK(condition) check((condition), __FILE__, __LINE__, #condition)

/* Prints how many checks there were, and gives the status of the program. */
static inline int told(const char *program)
{
    printf("c: %s: %u checks, %u failed\n", program, checks, failed);
    return failed == 0 ? EXIT_SUCCESS : EXIT_FAILURE;
}

static inline int all_words(const uint64_t *words, size_t count, uint64_t value)
{
    for (size_t i = 0; i < count; i++) {
        if (words[i] != value) {
            return 0;
        }
    }
    return 1;
}

static inline int all_bytes(const uint8_t *bytes, size_t count, uint8_t value)
{
    for (size_t i = 0; i < count; i++) {
        if (bytes[i] != value) {
            return 0;
        }
    }
    return 1;
}

#endif
