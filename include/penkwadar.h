/* The proved machine for firmware in C.
 *
 *     ./library
 *     cc -Wl,-z,now -I include tests/c/story.c include/libpenkwadar.a -o target/story
 *
 * The first writes libpenkwadar.a beside this header, the second links a worked example. The header is C99 and C++11.
 * What is static inline in it is C; all else is in the archive, and proved.
 *
 * Zones hold lists of entries. Up to four boxes hold a zone's list, each in a seat of its own; another zone, the zone's
 * sequencer, appoints those boxes, in its own list, and each appointment is a configuration, numbered by its index from
 * 1 on. One caller keeps all zones in one state, a slice of 64-bit words. Steps that boxes take on copies of their own
 * are no steps on that state, and nothing is promised of them (docs/ANSWER.md).
 *
 * ANSWERS. Every function but penkwadar_state_words answers 0, or the number of the rejection; their names stand below,
 * and penkwadar_rejection_text has a short text of each. A rejected call leaves every buffer as it was. (A replay that
 * stops at damaged bytes is not rejected: the steps before the damage keep their effects, and the report is written.)
 * Every call ends, and none allocates or keeps a pointer.
 *
 * WHAT A CALLER OWES. A pointer reaches as many elements as its length says; where the length is 0, nothing is read or
 * written through it, and it may be NULL. A pointer to words is aligned to 8 bytes; one to bytes may have any address.
 * Buffers of one call do not overlap. Nothing else is asked: any words, any bytes, any numbers. A buffer may be longer
 * than what is written; the rest of it stays as it was.
 *
 * WHAT IT NEEDS. The archive is for x86-64 with the System V calling convention, as `rt lib` builds it; of the
 * processor it uses SSE2 and nothing later, and of the stack also the convention's red zone. It calls memcpy, memmove
 * and memset, which a program without a C library has to supply, and nothing else. It has no data of its own: any
 * threads may call it at the same time on distinct buffers. None of its instructions divides.
 *
 * STACK. Measured on a painted stack (tests/c/stack.c), not proved: a call needs less than PENKWADAR_STACK_BYTES,
 * penkwadar_replay_tally less than PENKWADAR_TALLY_STACK_BYTES, and penkwadar_transcript less than
 * PENKWADAR_TRANSCRIPT_STACK_BYTES. That is with glibc's memcpy, memmove and memset; what a program's own ones need
 * counts on top. And it is where these three are bound before the call: in a program that is linked statically or with
 * -Wl,-z,now, or that has called all three itself. Without that a dynamic linker may bind them late (lazy binding), and
 * the call that first reaches one needs the linker's stack as well: less than PENKWADAR_LAZY_STACK_BYTES more with
 * glibc 2.36 on a processor with AVX-512, whose registers are kept there meanwhile; with others it may be more. */
#ifndef PENKWADAR_H
#define PENKWADAR_H

#include <stddef.h>
#include <stdint.h>

#ifdef __cplusplus
extern "C" {
#endif

/* ---- Version ----
 *
 * One number for what a program that calls these functions, or keeps logs or states, relies on:
 *
 *     the log       kinds 1 to 7; a number has at most five bytes
 *     the state     2,112 words a zone; in use are head words 0 to 17, and words 0 to 3 and 8 to 63 of a seat
 *     the functions the twelve below, what they do, and rejections 1 to 24 with their orders
 *
 * It rises by one with every change of one of these, additions too; new names and texts in this header alone leave it.
 * A log or a state is for the version that wrote it, unless a later one says that it takes it. The archive has no
 * number of its own: take it from where this header is from. */
#define PENKWADAR_VERSION 1

/* ---- Stack ---- */
#define PENKWADAR_STACK_BYTES 576
#define PENKWADAR_TALLY_STACK_BYTES 768
#define PENKWADAR_TRANSCRIPT_STACK_BYTES 77824
#define PENKWADAR_LAZY_STACK_BYTES 4096 /* the dynamic linker's, on top of one of these */

/* ---- Zones, boxes, indices and entries ----
 *
 * Zones are numbered from 0, at least 2 and at most 8; boxes from 0 to 15; indices from 1 to 8. */
#define PENKWADAR_ZONES_LEAST 2
#define PENKWADAR_ZONES_MOST 8
#define PENKWADAR_BOXES 16
#define PENKWADAR_INDICES 8
#define PENKWADAR_LIST_ENTRIES 56 /* the entries that a list holds at most */

/* A member set is a sum of these, of one to four boxes. */
#define PENKWADAR_MEMBER(box) (UINT64_C(1) << (box))

/* The number of a member's seat: how many members are smaller, 0 to 3. A box that is no member has no seat. */
static inline uint64_t penkwadar_seat_of(uint64_t members, uint64_t box)
{
    uint64_t seat = 0;
    for (uint64_t smaller = 0; smaller < box && smaller < PENKWADAR_BOXES; smaller++) {
        seat += (members >> smaller) & 1;
    }
    return seat;
}

/* An entry is a take, 1 to 4,294,967,295, or an issue: for a zone and an index of it from 2 on, who its members are and
 * which of them is the orderer. Only the zone's sequencer takes its issues. PENKWADAR_ISSUE puts an issue's word
 * together; the others below tell it from a take and take it apart. */
#define PENKWADAR_TAKE_MOST UINT64_C(4294967295)
#define PENKWADAR_ISSUE(index, zone, orderer, members)                                                                 \
    ((UINT64_C(1) << 32) + ((uint64_t)(index) << 24) + ((uint64_t)(zone) << 20) + ((uint64_t)(orderer) << 16) +        \
     (uint64_t)(members))
#define PENKWADAR_IS_ISSUE(entry) (((uint64_t)(entry) >> 32) == 1)
#define PENKWADAR_ISSUE_INDEX(issue) (((uint64_t)(issue) >> 24) & 255)
#define PENKWADAR_ISSUE_ZONE(issue) (((uint64_t)(issue) >> 20) & 15)
#define PENKWADAR_ISSUE_ORDERER(issue) (((uint64_t)(issue) >> 16) & 15)
#define PENKWADAR_ISSUE_MEMBERS(issue) ((uint64_t)(issue) & 65535)

/* ---- The state ----
 *
 * PENKWADAR_ZONE_WORDS words a zone, zone after zone: 64 head words, and then 32 seats of 64 words, four for each
 * index. These are the places of words in the state. Read them at will; a state that is written by other means than
 * the functions below is judged anew at every call, but what penkwadar_stable_prefix promises of two lists is about one
 * setup and then the functions alone. */
#define PENKWADAR_ZONE_WORDS 2112
#define PENKWADAR_SEQUENCER(zone) ((size_t)(zone) * PENKWADAR_ZONE_WORDS)     /* the appointing zone */
#define PENKWADAR_INSTALLED(zone) ((size_t)(zone) * PENKWADAR_ZONE_WORDS + 1) /* how many indices are installed */
#define PENKWADAR_MEMBERS(zone, index) (PENKWADAR_INSTALLED(zone) + (size_t)(index))     /* an index's member set */
#define PENKWADAR_ORDERER(zone, index) (PENKWADAR_INSTALLED(zone) + 8 + (size_t)(index)) /* and its orderer */

/* A seat, by its number (penkwadar_seat_of, of the index's member set). Words of a seat: */
#define PENKWADAR_SEAT(zone, index, seat)                                                                              \
    ((size_t)(zone) * PENKWADAR_ZONE_WORDS + 64 + ((size_t)(index) - 1) * 256 + (size_t)(seat) * 64)
#define PENKWADAR_SEAT_MODE 0    /* one of the modes below */
#define PENKWADAR_SEAT_LENGTH 1  /* entries in the list */
#define PENKWADAR_SEAT_STABLE 2  /* of these, so many first ones are stable (confirmed) */
#define PENKWADAR_SEAT_ORIGIN 3  /* the box from which it inherited, of the index before, plus 1; that of its peer where
                                    it caught up; 0 where it is pending, unused or of index 1 */
#define PENKWADAR_SEAT_ENTRIES 8 /* the first entry; words 4 to 7 and those past the list are 0 */

#define PENKWADAR_UNUSED 0
#define PENKWADAR_PENDING 1   /* appointed, and without a list yet */
#define PENKWADAR_ACTIVE 2    /* its list may change */
#define PENKWADAR_IMMUTABLE 3 /* wedged: its list stays as it is */

/* WELL-FORMED is a state of which all of this holds. Any other is rejected, with 9 if no check before that one fails;
 * setup alone asks nothing of the words that it finds. What setup makes is well-formed, and stays so under all calls.
 *
 *     zones     each has another zone for its sequencer, and no two have the same; 1 to 8 indices are installed
 *     indices   an installed one has a member set of one to four boxes, of which its orderer is one
 *     seats     of an installed index, as many first ones as it has members are in use: pending (not in index 1),
 *               active or immutable
 *     lists     the length is at most 56, in a pending seat 0, and the stable length at most the length; an entry is a
 *               take, or an issue for one of indices 2 to 8 of a zone of the state, with members and orderer as above
 *     origins   as told at PENKWADAR_SEAT_ORIGIN; the box that one names is a member of the index before, and its seat
 *               there is not pending
 *     the rest  all other words are 0
 *
 * For the proofs this is crates/model/specs/WellFormed.antt, and Origins.antt beside it. */

/* ---- Steps ----
 *
 * A step is a kind and four numbers, 0 where the kind does not use one. A length is at most 56, a place at most 55.
 * Learn is what the requirements and README.md call confirm. */
#define PENKWADAR_ADD 1      /* zone, index, entry: the entry goes last in the list of the index's orderer */
#define PENKWADAR_ADOPT 2    /* zone, index, box: the box's list becomes the orderer's */
#define PENKWADAR_LEARN 3    /* zone, index, box, length: so many first entries are stable at the box, where all lists
                                of the index begin alike so far */
#define PENKWADAR_WEDGE 4    /* zone, index, box: the box's list becomes immutable */
#define PENKWADAR_INSTALL 5  /* zone; index and box in its sequencer, place from 0 in that box's list: the next index of
                                the zone is what is issued there, its members pending. A box of the zone's newest index
                                has to be wedged first, so that they find a list to inherit */
#define PENKWADAR_INHERIT 6  /* zone, index, box, source: the pending box begins with the list of an immutable box of
                                the index before, and its seat notes which box that is */
#define PENKWADAR_CATCH_UP 7 /* zone, index, box, peer: the pending box begins with the list of another box of the same
                                index that is not pending, and its seat notes the same source */

/* ---- Rejections ----
 *
 * Of a step, in this order: 1, 3, 4, 7, 9, and then of an add 10, 12, 17, 15, 23, 16; an adopt 10, 11, 14, 12, 13; a
 * learn 10, 11, 12, 18, 19; a wedge 10, 11, 12; an install 10, 11, 20, 21, 24, 22; an inherit and a catch-up
 * 10, 11, 12, 13. */

/* because of the input */
#define PENKWADAR_STATE_LENGTH 1   /* the state's length is no 2,112 x Z, Z from 2 to 8 */
#define PENKWADAR_PLAN 2           /* the plan's length is not 3 x Z, or its zones are not well-formed */
#define PENKWADAR_KIND_KEPT 3      /* kind 8 to 31 */
#define PENKWADAR_KIND_UNKNOWN 4   /* kind 0 or above 31 */
#define PENKWADAR_BYTES_END 5      /* the log ends inside a step */
#define PENKWADAR_NUMBER_BYTES 6   /* a number's fifth byte goes on, or its last of several bytes is 0 */
#define PENKWADAR_RANGE 7          /* a number out of range: a zone not below Z, an index not 1 to 8, a box above 15, a
                                      length above 56, a place above 55, an entry that is none, or an unused number that
                                      is not 0. The writer of steps has a meaning of its own: an unused number that is
                                      not 0, or a number of 2^35 or more; it asks nothing else */
#define PENKWADAR_OUTPUT_SHORT 8   /* an output is too short */

/* because of the state */
#define PENKWADAR_NOT_WELL_FORMED 9   /* what well-formed is stands above, with the state */
#define PENKWADAR_NOT_INSTALLED 10    /* the index is not installed (install: in the sequencer) */
#define PENKWADAR_NO_MEMBER 11        /* the box is no member of the index */
#define PENKWADAR_ACTING_MODE 12      /* the acting seat has the wrong mode; of an add, the orderer's */
#define PENKWADAR_OTHER_MODE 13       /* the other seat has the wrong mode, or an inherit's source or a catch-up's peer
                                         is no member */
#define PENKWADAR_BY_ORDERER 14       /* adopt by the orderer */
#define PENKWADAR_ENTRY_HELD 15       /* the list has the entry already */
#define PENKWADAR_LIST_FULL 16        /* the list holds 56 entries */
#define PENKWADAR_OTHER_SEQUENCER 17  /* an issue for a zone that another zone appoints */
#define PENKWADAR_NOT_ABOVE_STABLE 18 /* the length is not above the stable length */
#define PENKWADAR_NOT_ALIKE 19        /* a list is shorter than the length, or lists are not alike that far */
#define PENKWADAR_NO_STABLE_ISSUE 20  /* the place is not stable, or has no issue for the zone */
#define PENKWADAR_NOT_NEXT_INDEX 21   /* the issue's index is not the next one */
#define PENKWADAR_EARLIER_ISSUE 22    /* an earlier issue there has the same zone and index; no step gets this on a
                                         state that comes from setup by these functions alone */
#define PENKWADAR_INDEX_ISSUED 23     /* another issue in the list has the same zone and index */
#define PENKWADAR_NOT_WEDGED 24       /* no box of the zone's newest index is wedged (immutable) */

/* A short text of an answer: of 0, of each rejection, and one more for any other number. */
static inline const char *penkwadar_rejection_text(uint64_t rejection)
{
    switch (rejection) {
    case 0: return "accepted";
    case PENKWADAR_STATE_LENGTH: return "the state has no length of 2 to 8 zones";
    case PENKWADAR_PLAN: return "the plan is not three words a zone, or not well-formed";
    case PENKWADAR_KIND_KEPT: return "the kind is kept for later";
    case PENKWADAR_KIND_UNKNOWN: return "there is no such kind";
    case PENKWADAR_BYTES_END: return "the log ends inside a step";
    case PENKWADAR_NUMBER_BYTES: return "a number's bytes are too many, or end in 0";
    case PENKWADAR_RANGE: return "a number is out of range";
    case PENKWADAR_OUTPUT_SHORT: return "an output is too short";
    case PENKWADAR_NOT_WELL_FORMED: return "the state is not well-formed";
    case PENKWADAR_NOT_INSTALLED: return "the index is not installed";
    case PENKWADAR_NO_MEMBER: return "the box is no member of the index";
    case PENKWADAR_ACTING_MODE: return "the acting box has the wrong mode";
    case PENKWADAR_OTHER_MODE: return "the other box has the wrong mode, or is no member";
    case PENKWADAR_BY_ORDERER: return "the orderer does not adopt";
    case PENKWADAR_ENTRY_HELD: return "the list has the entry already";
    case PENKWADAR_LIST_FULL: return "the list is full";
    case PENKWADAR_OTHER_SEQUENCER: return "the issue is for a zone that another zone appoints";
    case PENKWADAR_NOT_ABOVE_STABLE: return "so many entries are confirmed already";
    case PENKWADAR_NOT_ALIKE: return "the lists are not alike that far";
    case PENKWADAR_NO_STABLE_ISSUE: return "no confirmed issue for the zone stands there";
    case PENKWADAR_NOT_NEXT_INDEX: return "the issue is not for the next index";
    case PENKWADAR_EARLIER_ISSUE: return "an earlier issue there is for the same zone and index";
    case PENKWADAR_INDEX_ISSUED: return "another issue in the list is for the same zone and index";
    case PENKWADAR_NOT_WEDGED: return "no box of the newest index is wedged";
    default: return "there is no such rejection";
    }
}

/* ---- Setup and steps ---- */

/* The length of a state for so many zones: 2,112 x zones for 2 to 8 zones, else 0. */
uint64_t penkwadar_state_words(uint64_t zones);

/* Writes the whole state from a plan of three words a zone: its sequencer (another zone, and no two zones have the
 * same), the member set of index 1, and its orderer. The seats of index 1 are active, with empty lists.
 * Rejections: 1, 2. */
uint64_t penkwadar_setup(uint64_t *state, size_t state_len, const uint64_t *plan, size_t plan_len);

/* Tries one step. Rejections: 1, 3, 4, 7, 9, and those of the kind, 10 to 24. */
uint64_t penkwadar_step(uint64_t *state, size_t state_len, uint64_t kind, uint64_t a, uint64_t b, uint64_t c,
                        uint64_t d);

/* ---- Logs ----
 *
 * A log is steps end to end: a kind and the numbers that it uses, each in groups of seven bits, lowest first, with the
 * top bit on all bytes but the last, at most five bytes. So a number below 128 is one byte. */

/* how a replay stopped: word 0 of its report */
#define PENKWADAR_ENDED 0   /* no bytes left */
#define PENKWADAR_SPENT 1   /* as many steps tried as the budget allows */
#define PENKWADAR_DAMAGED 2 /* at bytes that are no step */

/* Reads and tries the steps of a log, as many as the budget allows; UINT64_MAX is no limit. The first four words of
 * report become: how it stopped, the steps tried, those rejected, and the bytes of whole steps read. Answers 0 where it
 * ended or was spent, and where it is damaged the number of the damage, 3 to 6. A budget that is used up just at the
 * end of the log is told as ended. To go on after spent, call again with log + report[3] and log_len - report[3]; the
 * report is then about that part of the log.
 * Rejections, with nothing tried and the report as it was: 8 (report_len below 4), then 1, then 9. */
uint64_t penkwadar_replay(uint64_t *state, size_t state_len, const uint8_t *log, size_t log_len, uint64_t budget,
                          uint64_t *report, size_t report_len);

/* Rejected steps told by box: a tally has a word for each box, at the place of its number, and one for no box. */
#define PENKWADAR_TALLY_WORDS 17
#define PENKWADAR_TALLY_NO_BOX 16

/* Does what penkwadar_replay does, and counts the steps rejected: the first PENKWADAR_TALLY_WORDS words of tally start
 * from zero, and in the end their sum is the report's third word. A step counts for the box that is its third number,
 * whatever else is wrong with it, and for no box where that number is above 15. An add counts for the orderer of its
 * zone and index, and for no box where it gets 7 or 10. A call that goes on after spent starts from zero again.
 * Rejections, with nothing tried, and report and tally as they were: 8 (report_len below 4, or tally_len below
 * PENKWADAR_TALLY_WORDS), then 1, then 9. */
uint64_t penkwadar_replay_tally(uint64_t *state, size_t state_len, const uint8_t *log, size_t log_len, uint64_t budget,
                                uint64_t *report, size_t report_len, uint64_t *tally, size_t tally_len);

/* Reads the step at a position of a log. The first six words of step become: kind, the four numbers, and the position
 * after the step. At the end, which is any position that is not below log_len, all six become 0; kind 0 is no step's.
 * Rejections: 8 (step_len below 6), then 3 to 6. */
uint64_t penkwadar_read_step(const uint8_t *log, size_t log_len, size_t at, uint64_t *step, size_t step_len);

/* Writes a step's bytes at a position of out; the first word of count becomes how many they are, at most 21.
 * Rejections: 8 (count_len below 1), then 3, 4, 7 (in the writer's meaning), and 8 (out is too short for them at that
 * position, also where it is past the end). */
uint64_t penkwadar_write_step(uint8_t *out, size_t out_len, size_t at, uint64_t kind, uint64_t a, uint64_t b,
                              uint64_t c, uint64_t d, uint64_t *count, size_t count_len);

/* ---- Lists ---- */

/* Copies what one box shows of an index of a zone, the stable prefix of its list, to out; the first word of count
 * becomes how many entries it has, at most 56. Of any two lists that this call gives, at any two moments and for any
 * two boxes of a zone, one begins the other.
 * Rejections: 8 (count_len below 1), then 1, 7 (zone not below Z, index not 1 to 8, box above 15), 9, 10, 11, and
 * 8 (out is too short). */
uint64_t penkwadar_stable_prefix(const uint64_t *state, size_t state_len, uint64_t zone, uint64_t index, uint64_t box,
                                 uint64_t *out, size_t out_len, uint64_t *count, size_t count_len);

/* Copies a zone's stable history (its confirmed list: the longest stable prefix over all its seats; of equally long
 * ones the lowest index, then the lowest seat) to out; the first word of count becomes how many entries it has, at most
 * 56.
 * Rejections: 8 (count_len below 1), then 1, 7 (zone not below Z), 9, and 8 (out is too short). */
uint64_t penkwadar_stable_history(const uint64_t *state, size_t state_len, uint64_t zone, uint64_t *out, size_t out_len,
                                  uint64_t *count, size_t count_len);

/* ---- Where a seat got its list ---- */
#define PENKWADAR_TRACE_BOXES 7 /* a trace has at most so many boxes: one for each index after the first */

/* The trace of a box's seat: the first word of count becomes how many boxes it has, and the first words of out become
 * these boxes, nearest first: the one from which the seat inherited, in the index before, the one from which that box's
 * seat there inherited, and so on back to index 1; a seat that caught up has the boxes of its peer. A pending seat has
 * none, any other exactly index - 1.
 * Rejections: 8 (count_len below 1 or out_len below PENKWADAR_TRACE_BOXES), then 1, 7 (zone not below Z, index not 1 to
 * 8, box above 15), 9, 10, 11. */
uint64_t penkwadar_trace(const uint64_t *state, size_t state_len, uint64_t zone, uint64_t index, uint64_t box,
                         uint64_t *out, size_t out_len, uint64_t *count, size_t count_len);

/* ---- The text for spreadsheets ----
 *
 * Comma-separated text by RFC 4180: the header row `zone,place,kind,entry`, and a row for each entry of each zone's
 * stable history, by zone and then place. A place counts from 0; the kind is `take` or `issue`. No field has quotes or
 * needs them, and every row, the header and the last one too, ends in carriage return and line feed. This makes a file
 * of a log:
 *
 *     cc -I include tests/c/export.c include/libpenkwadar.a -o target/export && target/export LOG FILE
 */
#define PENKWADAR_CSV_BYTES 10247 /* no text is longer; with fewer zones, none is longer than 23 + 1,278 x Z */

/* Writes the text of a state; the first word of count becomes its length in bytes, at most PENKWADAR_CSV_BYTES.
 * Rejections: 8 (count_len below 1), then 1, 9, and 8 (out is too short for the text). */
uint64_t penkwadar_csv(const uint64_t *state, size_t state_len, uint8_t *out, size_t out_len, uint64_t *count,
                       size_t count_len);

/* ---- The program's text ----
 *
 * It has a state and a plan of its own: zone 0 has sequencer 1, boxes 0 and 1, orderer 0; zone 1 has sequencer 0,
 * boxes 2 and 3, orderer 2. A log has at most PENKWADAR_TRANSCRIPT_LOG_BYTES; the text of a longer one is
 * `too long`. */
#define PENKWADAR_TRANSCRIPT_LOG_BYTES 16384
#define PENKWADAR_TEXT_BYTES 42232 /* no text is longer */

/* Writes the program's whole text for a log; the first word of count becomes its length in bytes, at most
 * PENKWADAR_TEXT_BYTES. Rejections: 8 (count_len below 1, or out is too short for the text). */
uint64_t penkwadar_transcript(const uint8_t *log, size_t log_len, uint8_t *out, size_t out_len, uint64_t *count,
                              size_t count_len);

#ifdef __cplusplus
}
#endif

#endif
