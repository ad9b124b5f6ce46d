/* The library without a C library: memcpy, memmove and memset are all that has to be supplied. Ends with status 0 where
 * a take that was added, adopted and learned is read back, by a call and from its seat, a rejection has its text, and
 * the text of a log has the right length. */
#include "penkwadar.h"

#define WORDS (2 * PENKWADAR_ZONE_WORDS)

void *memcpy(void *to, const void *from, size_t count) {
    for (size_t i = 0; i < count; i++) ((unsigned char *)to)[i] = ((const unsigned char *)from)[i];
    return to;
}

void *memmove(void *to, const void *from, size_t count) {
    if ((uintptr_t)to <= (uintptr_t)from) return memcpy(to, from, count);
    for (size_t i = count; i > 0; i--) ((unsigned char *)to)[i - 1] = ((const unsigned char *)from)[i - 1];
    return to;
}

void *memset(void *to, int byte, size_t count) {
    for (size_t i = 0; i < count; i++) ((unsigned char *)to)[i] = (unsigned char)byte;
    return to;
}

static uint64_t state[WORDS];
static uint8_t text[PENKWADAR_TEXT_BYTES];

int run(void) {
    static const uint64_t plan[6] = {1, 3, 0, 0, 12, 2};
    static const uint8_t wedge[4] = {4, 1, 1, 2};
    uint64_t list[PENKWADAR_LIST_ENTRIES], count[1];
    if (penkwadar_setup(state, WORDS, plan, 6) != 0) return 1;
    if (penkwadar_step(state, WORDS, PENKWADAR_ADD, 0, 1, 7, 0) != 0) return 2;
    if (penkwadar_step(state, WORDS, PENKWADAR_ADOPT, 0, 1, 1, 0) != 0) return 3;
    if (penkwadar_step(state, WORDS, PENKWADAR_LEARN, 0, 1, 1, 1) != 0) return 4;
    if (penkwadar_stable_prefix(state, WORDS, 0, 1, 1, list, PENKWADAR_LIST_ENTRIES, count, 1) != 0) return 5;
    if (count[0] != 1 || list[0] != 7) return 6;
    if (state[PENKWADAR_SEAT(0, 1, penkwadar_seat_of(plan[1], 1)) + PENKWADAR_SEAT_STABLE] != 1) return 7;
    if (penkwadar_rejection_text(penkwadar_step(state, WORDS, 0, 0, 0, 0, 0))[0] != 't') return 8;
    if (penkwadar_transcript(wedge, 4, text, sizeof text, count, 1) != 0) return 9;
    return count[0] == sizeof "1 4 0\nzone 0\nzone 1\nended 1 0 4\n" - 1 ? 0 : 10;
}

__asm__(".globl _start\n"
        "_start:\n"
        "    and $-16, %rsp\n"
        "    call run\n"
        "    mov %eax, %edi\n"
        "    mov $60, %eax\n" /* exit */
        "    syscall\n");
