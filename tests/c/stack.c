/* How much stack each function needs. Each call has a process of its own, where it is the first call of the library: it
 * goes on a painted stack, and what is no longer painted is counted. What the calls work on is in memory that the
 * processes share. The word after the program's name tells how it was linked:
 *
 *     stack static, stack now    with -static or -Wl,-z,now, so that memcpy, memmove and memset are bound before the
 *                                call: the header's three numbers have to be above what is found
 *     stack lazy                 with -Wl,-z,lazy: the same where each process calls the three before; where it does
 *                                not, a call needs more, and less than PENKWADAR_LAZY_STACK_BYTES more
 *
 * Prints one line, and ends with status 1 where a number does not hold, or a call is rejected. */
#define _GNU_SOURCE
#include <stdio.h>
#include <stdlib.h>
#include <string.h>
#include <sys/mman.h>
#include <sys/wait.h>
#include <ucontext.h>
#include <unistd.h>

#include "penkwadar.h"

#define WORDS (2 * PENKWADAR_ZONE_WORDS)
#define STACK (512 * 1024)
#define PAINT 0xa5
#define STEPS 7
#define ISSUE PENKWADAR_ISSUE(2, 1, 3, PENKWADAR_MEMBER(3) + PENKWADAR_MEMBER(5))

/* The program's plan, and a step of each kind that is accepted in turn. */
static const uint64_t plan[6] = {1, 3, 0, 0, 12, 2};
static const uint64_t steps[STEPS][5] = {{PENKWADAR_ADD, 0, 1, ISSUE, 0},  {PENKWADAR_ADOPT, 0, 1, 1, 0},
                                         {PENKWADAR_LEARN, 0, 1, 1, 1},    {PENKWADAR_WEDGE, 1, 1, 2, 0},
                                         {PENKWADAR_INSTALL, 1, 1, 1, 0},  {PENKWADAR_INHERIT, 1, 2, 3, 2},
                                         {PENKWADAR_CATCH_UP, 1, 2, 5, 3}};

/* What the processes share. */
static struct shared {
    uint64_t state[WORDS], words[PENKWADAR_LIST_ENTRIES], tally[PENKWADAR_TALLY_WORDS], count[1], answers;
    uint8_t text[PENKWADAR_TEXT_BYTES], log[64];
    size_t log_len, turn, used;
} *s;

/* The most that was found: of a tally, a transcript, and any other call. */
struct needs {
    size_t most, tally, transcript;
};

static unsigned char stack[STACK];
static ucontext_t caller, callee;

static void nothing(void) {}
static void state_words(void) { s->answers += penkwadar_state_words(1); }
static void setup(void) { s->answers += penkwadar_setup(s->state, WORDS, plan, 6); }
static void step(void) {
    const uint64_t *n = steps[s->turn];
    s->answers += penkwadar_step(s->state, WORDS, n[0], n[1], n[2], n[3], n[4]);
}
static void write_step(void) {
    const uint64_t *n = steps[s->turn];
    s->answers +=
        penkwadar_write_step(s->log, sizeof s->log, s->log_len, n[0], n[1], n[2], n[3], n[4], s->count, 1);
}
static void read_step(void) { s->answers += penkwadar_read_step(s->log, s->log_len, 0, s->words, 6); }
static void replay(void) { s->answers += penkwadar_replay(s->state, WORDS, s->log, s->log_len, 99, s->words, 4); }
static void replay_tally(void) {
    s->answers += penkwadar_replay_tally(s->state, WORDS, s->log, s->log_len, 99, s->words, 4, s->tally,
                                         PENKWADAR_TALLY_WORDS);
}
static void prefix(void) { s->answers += penkwadar_stable_prefix(s->state, WORDS, 0, 1, 1, s->words, 56, s->count, 1); }
static void history(void) { s->answers += penkwadar_stable_history(s->state, WORDS, 0, s->words, 56, s->count, 1); }
static void trace(void) { s->answers += penkwadar_trace(s->state, WORDS, 1, 2, 3, s->words, 56, s->count, 1); }
static void csv(void) { s->answers += penkwadar_csv(s->state, WORDS, s->text, sizeof s->text, s->count, 1); }
static void transcript(void) {
    s->answers += penkwadar_transcript(s->log, s->log_len, s->text, sizeof s->text, s->count, 1);
}

/* Calls all three, with a length that the compiler does not know. */
static void bind_all(void) {
    static unsigned char bytes[2];
    static volatile size_t one = 1;
    memcpy(bytes, bytes + 1, one);
    memmove(bytes + 1, bytes, one);
    memset(bytes, PAINT, one);
}

/* The bytes of stack that a call wrote to, with those of the call itself. */
static size_t measured(void (*call)(void)) {
    for (size_t i = 0; i < STACK; i++) ((volatile unsigned char *)stack)[i] = PAINT;
    getcontext(&callee);
    callee.uc_stack.ss_sp = stack;
    callee.uc_stack.ss_size = STACK;
    callee.uc_link = &caller;
    makecontext(&callee, call, 0);
    swapcontext(&caller, &callee);
    size_t untouched = 0;
    while (untouched < STACK && stack[untouched] == PAINT) untouched++;
    return STACK - untouched;
}

/* The same of a call in a process of its own. */
static size_t used(void (*call)(void), int bound) {
    pid_t child = fork();
    int status = 1;
    if (child == 0) {
        if (bound) bind_all();
        s->used = measured(call);
        _exit(0);
    }
    if (child < 0 || waitpid(child, &status, 0) != child || status != 0) exit(EXIT_FAILURE);
    return s->used;
}

/* Measures some calls one after the other, and raises what was found so far. */
static void find_most(size_t *most, void (*const *calls)(void), size_t count, int bound) {
    for (size_t i = 0; i < count; i++) {
        const size_t bytes = used(calls[i], bound);
        if (*most < bytes) *most = bytes;
    }
}

/* Each function in turn, and every kind of step. Where a call is not as expected, the program ends. */
static struct needs measure(int bound) {
    static void (*const begin[])(void) = {state_words, setup}, (*const turn[])(void) = {step, write_step};
    static void (*const others[])(void) = {csv, prefix, history, trace, read_step, setup, replay};
    static void (*const tally[])(void) = {replay_tally}, (*const text[])(void) = {transcript};
    struct needs n = {0, 0, 0};
    s->log_len = 0;
    find_most(&n.most, begin, 2, bound);
    for (s->turn = 0; s->turn < STEPS; s->turn++) {
        find_most(&n.most, turn, 2, bound);
        s->log_len += s->count[0];
    }
    find_most(&n.most, others, 7, bound);
    int expected = s->words[0] == PENKWADAR_ENDED && s->words[1] == STEPS && s->words[2] == 0;
    find_most(&n.tally, tally, 1, bound);
    expected = expected && s->words[2] == STEPS - 1; /* once more, all are rejected but the adopt */
    find_most(&n.most, begin, 2, bound);
    find_most(&n.tally, tally, 1, bound);
    expected = expected && s->words[2] == 0;
    find_most(&n.transcript, text, 1, bound);
    if (!expected || s->answers != 0) exit(EXIT_FAILURE);
    const size_t around = used(nothing, bound);
    return (struct needs){n.most - around, n.tally - around, n.transcript - around};
}

/* Whether the header's numbers are above what was found. */
static int within(struct needs n) {
    return n.most < PENKWADAR_STACK_BYTES && n.tally < PENKWADAR_TALLY_STACK_BYTES &&
           n.transcript < PENKWADAR_TRANSCRIPT_STACK_BYTES;
}

/* Whether binding needs stack of its own, and in no call as much as the header says. */
static int binds_within(struct needs late, struct needs n) {
    return n.most < late.most && late.most < n.most + PENKWADAR_LAZY_STACK_BYTES &&
           late.tally < n.tally + PENKWADAR_LAZY_STACK_BYTES &&
           late.transcript < n.transcript + PENKWADAR_LAZY_STACK_BYTES;
}

int main(int count, char **arguments) {
    if (count != 2) return EXIT_FAILURE;
    const int lazy = strcmp(arguments[1], "lazy") == 0;
    s = mmap(NULL, sizeof *s, PROT_READ | PROT_WRITE, MAP_SHARED | MAP_ANONYMOUS, -1, 0);
    if (s == MAP_FAILED) return EXIT_FAILURE;
    const struct needs unbound = measure(0), n = lazy ? measure(1) : unbound;
    printf("stack, %s: at most %zu bytes, a tally %zu, a transcript %zu", arguments[1], n.most, n.tally, n.transcript);
    if (lazy) printf("; while binding %zu, %zu, %zu", unbound.most, unbound.tally, unbound.transcript);
    printf("\n");
    return within(n) && (!lazy || binds_within(unbound, n)) ? EXIT_SUCCESS : EXIT_FAILURE;
}
