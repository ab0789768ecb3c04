/* The operations for callers in C and C++. A list passes as a pointer and the number of its elements; the operation
   fills no list past its least length. No pointer may be null, and no two lists of one call may overlap.

   For firmware: the archive has no globals, allocates nothing, calls nothing back, and needs only memcpy and memset
   from outside; its code and constants take less than 54 kB of read-only memory, and a call takes less than 108 kB of
   stack (till_check less than 128 kB, till_book less than 118 kB; till_read less than 9 kB; till_reach, till_run and
   till_write less than 1 kB). It is for x86-64 and uses the SSE registers.

   A program that was compiled before there were I lines lends stores of 3,972 numbers, and till_write an out of 14,420
   bytes: each such call gets TILL_SHORT_LIST until the program is compiled anew. Of a store that was kept, read the
   text again, or put 128 zeros behind it. A kept store without a high action is no longer good and gets TILL_NOT_GOOD;
   its text gets TILL_NO_HIGH: export the model again. */
#ifndef TILL_H
#define TILL_H

#include <stddef.h>
#include <stdint.h>

#ifdef __cplusplus
extern "C" {
#endif

/* The most of each that a text may have. */
#define TILL_STATE_LIMIT 128
#define TILL_ACTION_LIMIT 64
#define TILL_STEP_LIMIT 1024
#define TILL_EXTRA_START_LIMIT (TILL_STATE_LIMIT - 1) /* they rise, and are above the start of line 1 */
#define TILL_NAME_LIMIT 12                            /* bytes of a name */
#define TILL_TEXT_LIMIT 16384                         /* bytes of a text */

/* The store has a head, a row for each action, a row for each step, and the extra starts: a model has the start of
   line 1 and one for each I line. Unused places are 0. */
#define TILL_HEAD_SIZE 4
#define TILL_ACTION_SIZE (2 + TILL_NAME_LIMIT)
#define TILL_STEP_SIZE 3
#define TILL_ACTIONS_AT TILL_HEAD_SIZE
#define TILL_STEPS_AT (TILL_ACTIONS_AT + TILL_ACTION_LIMIT * TILL_ACTION_SIZE)

/* Places of the head: how many states, actions and steps there are, and the start of line 1. */
#define TILL_STATES 0
#define TILL_ACTIONS 1
#define TILL_STEPS 2
#define TILL_START 3

/* Places of action i: its level, the length of its name, and the name's first byte. */
#define TILL_ACTION_LEVEL(i) (TILL_ACTIONS_AT + (i) * TILL_ACTION_SIZE)
#define TILL_ACTION_NAME_LENGTH(i) (TILL_ACTION_LEVEL(i) + 1)
#define TILL_ACTION_NAME(i) (TILL_ACTION_LEVEL(i) + 2)

/* Places of step j: its source, its action and its target. */
#define TILL_STEP_SOURCE(j) (TILL_STEPS_AT + (j) * TILL_STEP_SIZE)
#define TILL_STEP_ACTION(j) (TILL_STEP_SOURCE(j) + 1)
#define TILL_STEP_TARGET(j) (TILL_STEP_SOURCE(j) + 2)

/* The place of how many extra starts there are, and that of extra start k. */
#define TILL_EXTRA_STARTS (TILL_STEPS_AT + TILL_STEP_LIMIT * TILL_STEP_SIZE)
#define TILL_EXTRA_START(k) (TILL_EXTRA_STARTS + 1 + (k))

/* Levels. A good store has a high action, which need not have a step. */
#define TILL_LOW 0
#define TILL_RELEASE 1
#define TILL_HIGH 2
#define TILL_SILENT 3 /* not high; from T in an A line */

/* Least lengths of the lists, in elements. */
#define TILL_STORE TILL_EXTRA_START(TILL_EXTRA_START_LIMIT)
#define TILL_DISTANCES TILL_STATE_LIMIT
#define TILL_TABLE (TILL_STATE_LIMIT * TILL_STATE_LIMIT)
#define TILL_RUN (TILL_STATE_LIMIT - 1)
#define TILL_WORD (TILL_STATE_LIMIT - 1)
#define TILL_PAGE 5000
#define TILL_ROLL 35840
#define TILL_BOOK (TILL_TABLE * TILL_ENTRY_SIZE)
#define TILL_WRITTEN 15182

/* The distance of a state that no start leads to, and of places past the states. */
#define TILL_NO_DISTANCE 65535

/* The place in the table of the rank of states p and q; and the two, by such a place or the number of an entry. */
#define TILL_PAIR(p, q) ((p) * TILL_STATE_LIMIT + (q))
#define TILL_PAIR_FIRST(place) ((place) / TILL_STATE_LIMIT)
#define TILL_PAIR_SECOND(place) ((place) % TILL_STATE_LIMIT)

/* A book has an entry for each ordered pair of states p and q; TILL_PAIR(p, q) is its number. Its place, and those of
   its bytes: the side that opens, the action and the target of its move, and the depth. */
#define TILL_ENTRY_SIZE 4
#define TILL_ENTRY(p, q) (TILL_PAIR(p, q) * TILL_ENTRY_SIZE)
#define TILL_ENTRY_SIDE(p, q) TILL_ENTRY(p, q)
#define TILL_ENTRY_ACTION(p, q) (TILL_ENTRY(p, q) + 1)
#define TILL_ENTRY_TARGET(p, q) (TILL_ENTRY(p, q) + 2)
#define TILL_ENTRY_DEPTH(p, q) (TILL_ENTRY(p, q) + 3)

/* Sides of an entry. Without one the entry is absent, whatever its other bytes are. */
#define TILL_NO_SIDE 0
#define TILL_FIRST 1
#define TILL_SECOND 2

/* The action of a silent opening. No action has this number. */
#define TILL_SILENT_MOVE 255

/* Refusals: of a text, by till_read. */
#define TILL_TOO_LONG 1     /* more than TILL_TEXT_LIMIT bytes */
#define TILL_FORM 2         /* wrong letter, field count, level or name */
#define TILL_RANGE 3        /* a number outside its range */
#define TILL_REPEATED 4     /* a name used before */
#define TILL_ORDER 5        /* a step not above the one before it */
#define TILL_DIGITS 31      /* a number field that is not 1 to 5 digits without a leading zero */
#define TILL_ABSENT 32      /* a line that is absent or has no line end; bytes after E */
#define TILL_START_ORDER 33 /* an I line not above the one before it, the first not above line 1's start */
#define TILL_NO_HIGH 35     /* no action is high; the place is the last A line */

/* Refusals: of what a call finds. */
#define TILL_SHORT_LIST 21        /* a list below its least length */
#define TILL_NOT_GOOD 22          /* no text reads to the store */
#define TILL_NOT_DETERMINISTIC 23 /* till_word: some reachable state has two steps of one action */
#define TILL_NO_LEAK 24           /* till_word: deterministic, without a reachable silent step, and passed */
#define TILL_NO_STATE 25          /* till_run: the state is not below states */
#define TILL_UNREACHABLE 26       /* till_run: no start leads to the state */
#define TILL_NOT_SOUND 34         /* till_check: the book is not sound; the place is its first bad entry's number */
#define TILL_SILENT_STEP 36       /* till_word: deterministic, with a reachable silent step; the place is the first */

/* Ends of a step, as till_word names them. */
#define TILL_SOURCE 0
#define TILL_TARGET 1

/* Number 0 with `count` values, or a refusal's number with its place; what is not told is 0. */
typedef struct TillAnswer {
    uint64_t number;
    uint64_t place;
    uint64_t count;
    uint64_t first;
    uint64_t second;
    uint64_t third;
} TillAnswer;

/* What till_read, till_judge and till_word answer of one text. */
typedef struct TillTold {
    TillAnswer read;
    TillAnswer judge;
    TillAnswer word;
} TillTold;

/* Whether an answer of till_judge says that the model passed, or that it is refused. Neither, where it gives no
   verdict. */
static inline int till_passed(TillAnswer judged) {
    return judged.number == 0 && judged.count == 1;
}
static inline int till_refused(TillAnswer judged) {
    return judged.number == 0 && judged.count > 1;
}

/* Fills the store from a text. No value. */
TillAnswer till_read(const uint8_t *text, size_t text_len, uint16_t *store, size_t store_len);

/* Fills the least numbers of steps to each state from the nearest start. No value. */
TillAnswer till_reach(const uint16_t *store, size_t store_len, uint16_t *distances, size_t distances_len);

/* Fills the ranks. One value: the last round that separated two states. */
TillAnswer till_rank(const uint16_t *store, size_t store_len, uint8_t *table, size_t table_len);

/* Fills distances and ranks. Passed: one value, the greatest rank. Refused: two values, a step and a depth. */
TillAnswer till_judge(const uint16_t *store, size_t store_len, uint16_t *distances, size_t distances_len,
                      uint8_t *table, size_t table_len);

/* Fills distances, and the steps of a shortest run to the state: each of its states is entered by the lowest-numbered
   step from a distance one less. It begins at the start that this leads back to: the source of its first step, or the
   state itself where there is none. One value: its length. */
TillAnswer till_run(const uint16_t *store, size_t store_len, uint16_t *distances, size_t distances_len,
                    uint16_t *run, size_t run_len, uint16_t state);

/* Fills distances and ranks, and the action numbers of the first shortest low sequence that just one end of Judge's
   step allows. Two values: its length, and the end that allows it, TILL_SOURCE or TILL_TARGET. Where a silent step can
   be reached, no such sequence need show the leak: the book does. */
TillAnswer till_word(const uint16_t *store, size_t store_len, uint16_t *distances, size_t distances_len,
                     uint8_t *table, size_t table_len, uint16_t *word, size_t word_len);

/* Fills ranks, and the book of plays: an entry for each two states of a rank above 0, which is its depth; all else is
   0. It tells how the scanner tells the two apart: one side opens with a move, and whatever move with the same action
   the other side answers, the two targets, the opening's on the opener's side, have an entry of lower depth. A low move
   is a low step with any number of silent steps before and after it; a silent move is any number of silent steps, none
   too, and has the action TILL_SILENT_MOVE. Of the openings that allow this it has the first: by side, then action,
   then target. No value. */
TillAnswer till_book(const uint16_t *store, size_t store_len, uint8_t *table, size_t table_len, uint8_t *book,
                     size_t book_len);

/* Whether a book is sound, whoever made it: each entry that is not absent has side TILL_FIRST or TILL_SECOND, its
   opening is a move of that side in the model, and every answer of the other side, a move with the same action, leads
   to a pair, the opening's target on the opener's side, that has an entry of lower depth. No low-view
   bisimulation pairs two states that a sound book has an entry for. No value, or TILL_NOT_SOUND. The book is only
   read. */
TillAnswer till_check(const uint16_t *store, size_t store_len, const uint8_t *book, size_t book_len);

/* Fills distances and ranks, the run to the source of Judge's step if the model is refused, the word if the page has a
   `B` line, and the page. One value: the bytes of the page. */
TillAnswer till_page(const uint16_t *store, size_t store_len, uint16_t *distances, size_t distances_len,
                     uint8_t *table, size_t table_len, uint16_t *run, size_t run_len, uint16_t *word, size_t word_len,
                     uint8_t *out, size_t out_len);

/* The same on receipt paper: fills the lists as till_page does, but out with the roll, each of whose lines has 42
   columns. One value: the bytes of the roll. */
TillAnswer till_roll(const uint16_t *store, size_t store_len, uint16_t *distances, size_t distances_len,
                     uint8_t *table, size_t table_len, uint16_t *run, size_t run_len, uint16_t *word, size_t word_len,
                     uint8_t *out, size_t out_len);

/* From a text to its page: fills the store as Read does and the other lists as Page does, or only the line
   `F,number,place` where Read refuses the text. One value: the bytes printed. */
TillAnswer till_print(const uint8_t *text, size_t text_len, uint16_t *store, size_t store_len, uint16_t *distances,
                      size_t distances_len, uint8_t *table, size_t table_len, uint16_t *run, size_t run_len,
                      uint16_t *word, size_t word_len, uint8_t *out, size_t out_len);

/* From a text to what is told of it: Read, then Judge and Word on the store that it filled, each with its own answer
   and lists. Where Read refuses, the answers of the other two are all 0. */
TillTold till_tell(const uint8_t *text, size_t text_len, uint16_t *store, size_t store_len, uint16_t *distances,
                   size_t distances_len, uint8_t *table, size_t table_len, uint16_t *word, size_t word_len);

/* Fills the text that reads to the store. One value: its length. */
TillAnswer till_write(const uint16_t *store, size_t store_len, uint8_t *out, size_t out_len);

#ifdef __cplusplus
}
#endif

#endif
