/* The worked example, tills with further starts and with ticks, and texts that are refused, through the operations as a
   C program calls them. It prints the worked example's page. The numbers are the documents'; the first that differs is
   told, and the program then ends with 1. */
#include <stdio.h>
#include <stdlib.h>
#include <string.h>

#include "till.h"

_Static_assert(TILL_ACTION_LEVEL(0) == 4 && TILL_ACTION_NAME(1) == 20, "actions");
_Static_assert(TILL_STEP_SOURCE(0) == 900 && TILL_STEP_TARGET(1) == 905, "steps");
_Static_assert(TILL_EXTRA_STARTS == 3972 && TILL_EXTRA_START(0) == 3973, "extra starts");
_Static_assert(TILL_EXTRA_START_LIMIT == 127 && TILL_EXTRA_START(126) == 4099, "extra starts");
_Static_assert(TILL_PAIR(1, 2) == 130 && TILL_PAIR_FIRST(130) == 1 && TILL_PAIR_SECOND(130) == 2, "pairs");
_Static_assert(TILL_TEXT_LIMIT == 16384, "text");
_Static_assert(TILL_STORE == 4100, "store");
_Static_assert(TILL_DISTANCES == 128, "distances");
_Static_assert(TILL_TABLE == 16384, "table");
_Static_assert(TILL_RUN == 127, "run");
_Static_assert(TILL_WORD == 127, "word");
_Static_assert(TILL_PAGE == 5000, "page");
_Static_assert(TILL_ROLL == 35840, "roll");
_Static_assert(TILL_BOOK == 65536, "book");
_Static_assert(TILL_ENTRY(0, 0) == 0 && TILL_ENTRY(1, 2) == 520 && TILL_ENTRY(127, 127) == 65532, "entries");
_Static_assert(TILL_ENTRY_SIDE(1, 2) == 520 && TILL_ENTRY_ACTION(1, 2) == 521, "bytes of an entry");
_Static_assert(TILL_ENTRY_TARGET(1, 2) == 522 && TILL_ENTRY_DEPTH(1, 2) == 523, "bytes of an entry");
_Static_assert(TILL_WRITTEN == 15182, "written");
_Static_assert(TILL_TOO_LONG == 1 && TILL_FORM == 2 && TILL_RANGE == 3, "refusals of a text");
_Static_assert(TILL_REPEATED == 4 && TILL_ORDER == 5, "refusals of a text");
_Static_assert(TILL_DIGITS == 31 && TILL_ABSENT == 32 && TILL_START_ORDER == 33, "refusals of a text");
_Static_assert(TILL_NO_HIGH == 35, "refusals of a text");
_Static_assert(TILL_LOW == 0 && TILL_RELEASE == 1 && TILL_HIGH == 2 && TILL_SILENT == 3, "levels");
_Static_assert(TILL_SILENT_STEP == 36 && TILL_SILENT_MOVE == 255, "silent steps");

static const char text[] = "M,4,3,4,0\nA,L,scan\nA,H,print\nA,D,close\n"
                           "S,0,0,1\nS,0,1,2\nS,1,0,1\nS,2,0,3\nE\n";
/* The same with the level of print lost. */
static const char lost[] = "M,4,3,4,0\nA,L,scan\nA,L,print\nA,D,close\n"
                           "S,0,0,1\nS,0,1,2\nS,1,0,1\nS,2,0,3\nE\n";
static const char page[] = "V,refuse,1,2\nC,0,0,0\nC,1,1,0\nC,2,1,2\nC,3,2,3\n"
                           "W,scan\nW,scan\nB,source\nE\n";
/* Each line has 42 columns. */
static const char *const rolled[] = {"V,refuse,1,2", "  0   0   0 scan", "  1   1   0 scan", "  2   1   2 scan",
                                     "  3   2   3",  "W,scan",           "W,scan",           "B,source",
                                     "E"};
#define TEXT_LENGTH (sizeof text - 1)
#define PAGE_LENGTH (sizeof page - 1)
#define ROLL_LENGTH (sizeof rolled / sizeof *rolled * 43)

/* One element more than need be, which must stay as it is. */
static uint16_t store[TILL_STORE + 1], distances[TILL_DISTANCES + 1], run[TILL_RUN + 1], word[TILL_WORD + 1];
static uint8_t table[TILL_TABLE + 1], book[TILL_BOOK + 1], out[TILL_ROLL + 1];

static void expect(const char *what, uint64_t is, uint64_t expected) {
    if (is != expected) {
        fprintf(stderr, "%s is %llu, expected %llu\n", what, (unsigned long long)is, (unsigned long long)expected);
        exit(1);
    }
}

static void answers(const char *what, TillAnswer is, uint64_t count, uint64_t first, uint64_t second) {
    expect(what, is.number, 0);
    expect(what, is.count, count);
    expect(what, is.first, first);
    expect(what, is.second, second);
    expect(what, is.third, 0);
}

static void refuses(const char *what, TillAnswer is, uint64_t number, uint64_t place) {
    expect(what, is.number, number);
    expect(what, is.place, place);
}

/* Fills all lists but the store with old contents. */
static void forget(void) {
    memset(distances, 7, sizeof distances);
    memset(run, 7, sizeof run);
    memset(word, 7, sizeof word);
    memset(table, 7, sizeof table);
    memset(book, 7, sizeof book);
    memset(out, 7, sizeof out);
}

static void expect_distances(void) {
    static const uint16_t first[4] = {0, 1, 1, 2};
    for (size_t state = 0; state < TILL_DISTANCES; state++)
        expect("a distance", distances[state], state < 4 ? first[state] : TILL_NO_DISTANCE);
    expect("the number after the distances", distances[TILL_DISTANCES], 0x0707);
}

static void expect_table(void) {
    static const uint8_t ranks[4][4] = {{0, 0, 2, 1}, {0, 0, 2, 1}, {2, 2, 0, 1}, {1, 1, 1, 0}};
    for (size_t p = 0; p < TILL_STATE_LIMIT; p++)
        for (size_t q = 0; q < TILL_STATE_LIMIT; q++)
            expect("a rank", table[TILL_PAIR(p, q)], p < 4 && q < 4 ? ranks[p][q] : 0);
    expect("the byte after the table", table[TILL_TABLE], 7);
}

/* Side, action, target and depth. States 0 and 1 scan to 1, and state 2 scans to 3, which does not scan. */
static void expect_book(void) {
    static const uint8_t entries[4][4][4] = {
        {{0}, {0}, {TILL_FIRST, 0, 1, 2}, {TILL_FIRST, 0, 1, 1}},
        {{0}, {0}, {TILL_FIRST, 0, 1, 2}, {TILL_FIRST, 0, 1, 1}},
        {{TILL_FIRST, 0, 3, 2}, {TILL_FIRST, 0, 3, 2}, {0}, {TILL_FIRST, 0, 3, 1}},
        {{TILL_SECOND, 0, 1, 1}, {TILL_SECOND, 0, 1, 1}, {TILL_SECOND, 0, 3, 1}, {0}},
    };
    static const uint8_t absent[4] = {TILL_NO_SIDE};
    for (size_t p = 0; p < TILL_STATE_LIMIT; p++)
        for (size_t q = 0; q < TILL_STATE_LIMIT; q++) {
            const uint8_t *entry = p < 4 && q < 4 ? entries[p][q] : absent;
            expect("a side", book[TILL_ENTRY_SIDE(p, q)], entry[0]);
            expect("an action", book[TILL_ENTRY_ACTION(p, q)], entry[1]);
            expect("a target", book[TILL_ENTRY_TARGET(p, q)], entry[2]);
            expect("a depth", book[TILL_ENTRY_DEPTH(p, q)], entry[3]);
        }
    expect("the byte after the book", book[TILL_BOOK], 7);
}

/* So many letters 0, and old contents after them. */
static void expect_letters(size_t count) {
    for (size_t i = 0; i <= TILL_WORD; i++) expect("a letter", word[i], i < count ? 0 : 0x0707);
}

static void expect_word(void) {
    expect_letters(2);
}

static void expect_out(const char *bytes, size_t length) {
    for (size_t i = 0; i < sizeof out; i++) expect("a byte out", out[i], i < length ? (uint8_t)bytes[i] : 7);
}

static void expect_store(void) {
    static const uint16_t levels[3] = {TILL_LOW, TILL_HIGH, TILL_RELEASE};
    static const uint16_t steps[4][3] = {{0, 0, 1}, {0, 1, 2}, {1, 0, 1}, {2, 0, 3}};
    expect("states", store[TILL_STATES], 4);
    expect("actions", store[TILL_ACTIONS], 3);
    expect("steps", store[TILL_STEPS], 4);
    expect("the start", store[TILL_START], 0);
    for (size_t i = 0; i < 3; i++) expect("a level", store[TILL_ACTION_LEVEL(i)], levels[i]);
    expect("the length of print", store[TILL_ACTION_NAME_LENGTH(1)], 5);
    expect("the first letter of print", store[TILL_ACTION_NAME(1)], 'p');
    for (size_t j = 0; j < 4; j++) {
        expect("a source", store[TILL_STEP_SOURCE(j)], steps[j][0]);
        expect("an action", store[TILL_STEP_ACTION(j)], steps[j][1]);
        expect("a target", store[TILL_STEP_TARGET(j)], steps[j][2]);
    }
    expect("the number of extra starts", store[TILL_EXTRA_STARTS], 0);
    expect("an unused number", store[TILL_STORE - 1], 0);
    expect("the number after the store", store[TILL_STORE], 0x0707);
}

static void reads(void) {
    memset(store, 7, sizeof store);
    answers("Read", till_read((const uint8_t *)text, TEXT_LENGTH, store, TILL_STORE), 0, 0, 0);
    expect_store();
}

/* A text for each refusal of a text; the refusals by their names. */
static void refuses_texts(void) {
    static const struct {
        const char *text;
        uint64_t number, place;
    } bad[] = {
        {"M,4,3,4,0\nA,X,scan\n", TILL_FORM, 2},
        {"M,4,3,4,0\nA,L,scan\nA,H,print\nA,D,close\nS,0,0,4\n", TILL_RANGE, 5},
        {"M,4,3,4,0\nA,L,scan\nA,H,scan\n", TILL_REPEATED, 3},
        {"M,4,3,4,0\nA,L,scan\nA,H,print\nA,D,close\nS,0,0,1\nS,0,0,0\n", TILL_ORDER, 6},
        {"M,200,3,4,x\n", TILL_DIGITS, 1},
        {"M,4,3,4,0\nA,X", TILL_ABSENT, 2},
        {"", TILL_ABSENT, 1},
        {"M,1,1,0,0\nA,H,print\nE\n\n", TILL_ABSENT, 4},
        {"M,4,1,0,1\nA,H,print\nI,1\nE\n", TILL_START_ORDER, 3},
        {"M,4,1,0,1\nA,H,print\nI,2\nI,3\nI,3\nE\n", TILL_START_ORDER, 5},
        {"M,1,1,0,0\nA,L,print\nE\n", TILL_NO_HIGH, 2},
        {"M,4,3,4,0\nA,L,scan\nA,L,print\nA,D,close\nS,0,0,4\n", TILL_NO_HIGH, 4},
        {"M,4,3,4,0\nA,L,scan\nA,L,print\nA,D,scan\n", TILL_REPEATED, 4},
    };
    memset(store, 7, sizeof store);
    for (size_t i = 0; i < sizeof bad / sizeof *bad; i++)
        refuses(bad[i].text, till_read((const uint8_t *)bad[i].text, strlen(bad[i].text), store, TILL_STORE),
                bad[i].number, bad[i].place);
    static uint8_t too_long[TILL_TEXT_LIMIT + 1];
    refuses("a long text", till_read(too_long, sizeof too_long, store, TILL_STORE), TILL_TOO_LONG, 0);
    for (size_t i = 0; i <= TILL_STORE; i++) expect("a number of the store", store[i], 0x0707);
}

static void judges(void) {
    forget();
    answers("Reach", till_reach(store, TILL_STORE, distances, TILL_DISTANCES), 0, 0, 0);
    expect_distances();
    answers("Rank", till_rank(store, TILL_STORE, table, TILL_TABLE), 1, 2, 0);
    expect_table();
    forget();
    answers("Judge", till_judge(store, TILL_STORE, distances, TILL_DISTANCES, table, TILL_TABLE), 2, 1, 2);
    expect_distances();
    expect_table();
    forget();
    answers("Run", till_run(store, TILL_STORE, distances, TILL_DISTANCES, run, TILL_RUN, 3), 1, 2, 0);
    expect("the first step", run[0], 1);
    expect("the second step", run[1], 3);
    expect("the number after the run", run[2], 0x0707);
    refuses("Run", till_run(store, TILL_STORE, distances, TILL_DISTANCES, run, TILL_RUN, 4), TILL_NO_STATE, 4);
}

static void plays(void) {
    forget();
    answers("Book", till_book(store, TILL_STORE, table, TILL_TABLE, book, TILL_BOOK), 0, 0, 0);
    expect_table();
    expect_book();
    refuses("Book", till_book(store, TILL_STORE, table, TILL_TABLE, book, TILL_BOOK - 1), TILL_SHORT_LIST, 3);
    answers("Check", till_check(store, TILL_STORE, book, TILL_BOOK), 0, 0, 0);
    expect_book();
    refuses("Check", till_check(store, TILL_STORE, book, TILL_BOOK - 1), TILL_SHORT_LIST, 2);
    /* 0 scan 1 is answered by 2 scan 3, and the entry of 1 and 3 is now not lower. */
    book[TILL_ENTRY_DEPTH(1, 3)] = 2;
    refuses("Check", till_check(store, TILL_STORE, book, TILL_BOOK), TILL_NOT_SOUND, TILL_PAIR(0, 2));
}

static void shows(void) {
    forget();
    answers("Word",
            till_word(store, TILL_STORE, distances, TILL_DISTANCES, table, TILL_TABLE, word, TILL_WORD), 2, 2, 0);
    expect_distances();
    expect_table();
    expect_word();
    forget();
    answers("Page",
            till_page(store, TILL_STORE, distances, TILL_DISTANCES, table, TILL_TABLE, run, TILL_RUN, word, TILL_WORD,
                      out, TILL_PAGE),
            1, PAGE_LENGTH, 0);
    expect_distances();
    expect_table();
    expect_word();
    expect("the first step", run[0], 0x0707);
    expect_out(page, PAGE_LENGTH);
    forget();
    char roll[ROLL_LENGTH + 1];
    for (size_t i = 0; i < sizeof rolled / sizeof *rolled; i++) snprintf(roll + 43 * i, 44, "%-42s\n", rolled[i]);
    answers("Roll",
            till_roll(store, TILL_STORE, distances, TILL_DISTANCES, table, TILL_TABLE, run, TILL_RUN, word, TILL_WORD,
                      out, TILL_ROLL),
            1, ROLL_LENGTH, 0);
    expect_distances();
    expect_table();
    expect_word();
    expect("the first step", run[0], 0x0707);
    expect_out(roll, ROLL_LENGTH);
    refuses("Roll",
            till_roll(store, TILL_STORE, distances, TILL_DISTANCES, table, TILL_TABLE, run, TILL_RUN, word, TILL_WORD,
                      out, TILL_ROLL - 1),
            TILL_SHORT_LIST, 6);
    forget();
    answers("Write", till_write(store, TILL_STORE, out, TILL_WRITTEN), 1, TEXT_LENGTH, 0);
    expect_out(text, TEXT_LENGTH);
    refuses("Write", till_write(store, TILL_STORE, out, TILL_WRITTEN - 1), TILL_SHORT_LIST, 2);
}

/* A till that wakes in states 0, 2 and 3. Only state 2 leads to the print, from state 1. */
static void wakes(void) {
    static const char waking[] = "M,5,3,3,0\nA,L,scan\nA,H,print\nA,D,close\nI,2\nI,3\n"
                                 "S,1,1,4\nS,2,2,1\nS,4,0,4\nE\n";
    static const uint16_t starts[3] = {2, 3, 0}, nearest[5] = {0, 1, 0, 0, 2};
    memset(store, 7, sizeof store);
    answers("Read", till_read((const uint8_t *)waking, sizeof waking - 1, store, TILL_STORE), 0, 0, 0);
    expect("the number of extra starts", store[TILL_EXTRA_STARTS], 2);
    for (size_t k = 0; k < 3; k++) expect("an extra start", store[TILL_EXTRA_START(k)], starts[k]);
    forget();
    answers("Judge", till_judge(store, TILL_STORE, distances, TILL_DISTANCES, table, TILL_TABLE), 2, 0, 1);
    for (size_t state = 0; state < 5; state++) expect("a distance", distances[state], nearest[state]);
    answers("Run", till_run(store, TILL_STORE, distances, TILL_DISTANCES, run, TILL_RUN, 1), 1, 1, 0);
    expect("the run's first step", run[0], 1);
    expect("the run's start", store[TILL_STEP_SOURCE(run[0])], store[TILL_EXTRA_START(0)]);
    answers("Write", till_write(store, TILL_STORE, out, TILL_WRITTEN), 1, sizeof waking - 1, 0);
    expect_out(waking, sizeof waking - 1);
    /* The lengths that lists had before there were extra starts. */
    refuses("Read", till_read((const uint8_t *)waking, sizeof waking - 1, store, 3972), TILL_SHORT_LIST, 2);
    refuses("Reach", till_reach(store, 3972, distances, TILL_DISTANCES), TILL_SHORT_LIST, 1);
    refuses("Write", till_write(store, TILL_STORE, out, 14420), TILL_SHORT_LIST, 2);
}

/* After the print the timer may switch the scanner off: state 2 comes to 3 silently. State 0 can only stay. */
static void ticks(void) {
    static const char ticking[] = "M,4,4,6,0\nA,L,scan\nA,H,print\nA,D,close\nA,T,tick\n"
                                  "S,0,0,1\nS,0,1,2\nS,1,2,0\nS,2,0,1\nS,2,3,3\nS,3,2,0\nE\n";
    static const char ticking_page[] = "V,refuse,1,2\nC,0,0,0\nC,1,1,1\nC,2,1,2\nC,3,2,1\nN\nE\n";
    static const uint8_t ranks[4][4] = {{0, 1, 2, 1}, {1, 0, 1, 0}, {2, 1, 0, 1}, {1, 0, 1, 0}};
    memset(store, 7, sizeof store);
    answers("Read", till_read((const uint8_t *)ticking, sizeof ticking - 1, store, TILL_STORE), 0, 0, 0);
    expect("the level of tick", store[TILL_ACTION_LEVEL(3)], TILL_SILENT);
    forget();
    answers("Write", till_write(store, TILL_STORE, out, TILL_WRITTEN), 1, sizeof ticking - 1, 0);
    expect_out(ticking, sizeof ticking - 1);
    forget();
    refuses("Word", till_word(store, TILL_STORE, distances, TILL_DISTANCES, table, TILL_TABLE, word, TILL_WORD),
            TILL_SILENT_STEP, 4);
    expect_distances();
    for (size_t p = 0; p < 4; p++)
        for (size_t q = 0; q < 4; q++) expect("a rank", table[TILL_PAIR(p, q)], ranks[p][q]);
    expect_letters(0);
    answers("Judge", till_judge(store, TILL_STORE, distances, TILL_DISTANCES, table, TILL_TABLE), 2, 1, 2);
    forget();
    answers("Page",
            till_page(store, TILL_STORE, distances, TILL_DISTANCES, table, TILL_TABLE, run, TILL_RUN, word, TILL_WORD,
                      out, TILL_PAGE),
            1, sizeof ticking_page - 1, 0);
    expect_out(ticking_page, sizeof ticking_page - 1);
    expect_letters(0);
    answers("Book", till_book(store, TILL_STORE, table, TILL_TABLE, book, TILL_BOOK), 0, 0, 0);
    expect("a side", book[TILL_ENTRY_SIDE(0, 2)], TILL_SECOND);
    expect("an action", book[TILL_ENTRY_ACTION(0, 2)], TILL_SILENT_MOVE);
    expect("a target", book[TILL_ENTRY_TARGET(0, 2)], 3);
    expect("a depth", book[TILL_ENTRY_DEPTH(0, 2)], 2);
    answers("Check", till_check(store, TILL_STORE, book, TILL_BOOK), 0, 0, 0);
    /* The number of the silent action is no opening. */
    book[TILL_ENTRY_ACTION(0, 2)] = 3;
    refuses("Check", till_check(store, TILL_STORE, book, TILL_BOOK), TILL_NOT_SOUND, TILL_PAIR(0, 2));
    /* A number past the levels is none. */
    store[TILL_ACTION_LEVEL(3)] = TILL_SILENT + 1;
    refuses("Judge", till_judge(store, TILL_STORE, distances, TILL_DISTANCES, table, TILL_TABLE), TILL_NOT_GOOD, 0);
}

/* No operation takes the store, and each list is as it was. */
static void expect_not_good(void) {
    forget();
    refuses("Reach", till_reach(store, TILL_STORE, distances, TILL_DISTANCES), TILL_NOT_GOOD, 0);
    refuses("Rank", till_rank(store, TILL_STORE, table, TILL_TABLE), TILL_NOT_GOOD, 0);
    refuses("Judge", till_judge(store, TILL_STORE, distances, TILL_DISTANCES, table, TILL_TABLE), TILL_NOT_GOOD, 0);
    refuses("Run", till_run(store, TILL_STORE, distances, TILL_DISTANCES, run, TILL_RUN, 0), TILL_NOT_GOOD, 0);
    refuses("Word",
            till_word(store, TILL_STORE, distances, TILL_DISTANCES, table, TILL_TABLE, word, TILL_WORD),
            TILL_NOT_GOOD, 0);
    refuses("Book", till_book(store, TILL_STORE, table, TILL_TABLE, book, TILL_BOOK), TILL_NOT_GOOD, 0);
    refuses("Check", till_check(store, TILL_STORE, book, TILL_BOOK), TILL_NOT_GOOD, 0);
    refuses("Page",
            till_page(store, TILL_STORE, distances, TILL_DISTANCES, table, TILL_TABLE, run, TILL_RUN, word, TILL_WORD,
                      out, TILL_PAGE),
            TILL_NOT_GOOD, 0);
    refuses("Roll",
            till_roll(store, TILL_STORE, distances, TILL_DISTANCES, table, TILL_TABLE, run, TILL_RUN, word, TILL_WORD,
                      out, TILL_ROLL),
            TILL_NOT_GOOD, 0);
    refuses("Write", till_write(store, TILL_STORE, out, TILL_WRITTEN), TILL_NOT_GOOD, 0);
    refuses("Write", till_write(store, TILL_STORE, out, TILL_WRITTEN - 1), TILL_SHORT_LIST, 2);
    for (size_t i = 0; i <= TILL_DISTANCES; i++) expect("a distance", distances[i], 0x0707);
    for (size_t i = 0; i <= TILL_RUN; i++) expect("a step", run[i], 0x0707);
    for (size_t i = 0; i <= TILL_TABLE; i++) expect("a rank", table[i], 7);
    for (size_t i = 0; i <= TILL_BOOK; i++) expect("a byte of the book", book[i], 7);
    expect_letters(0);
    expect_out("", 0);
}

/* A store that was kept, and that has no high action. */
static void lacks_high(void) {
    static const uint16_t levels[3] = {TILL_LOW, TILL_RELEASE, TILL_SILENT};
    reads();
    for (size_t i = 0; i < 3; i++) {
        store[TILL_ACTION_LEVEL(1)] = levels[i];
        expect_not_good();
    }
    /* One is enough, whichever it is. */
    store[TILL_ACTION_LEVEL(2)] = TILL_HIGH;
    answers("Judge", till_judge(store, TILL_STORE, distances, TILL_DISTANCES, table, TILL_TABLE), 1, 2, 0);
}

static TillTold tell(const char *bytes, size_t length) {
    forget();
    memset(store, 7, sizeof store);
    return till_tell((const uint8_t *)bytes, length, store, TILL_STORE, distances, TILL_DISTANCES, table, TILL_TABLE,
                     word, TILL_WORD);
}

static void expect_no_verdict(TillTold told) {
    answers("Judge", told.judge, 0, 0, 0);
    answers("Word", told.word, 0, 0, 0);
    expect("no verdict", (uint64_t)(till_refused(told.judge) + till_passed(told.judge)), 0);
}

static void tells(void) {
    TillTold told = tell(text, TEXT_LENGTH);
    answers("Read", told.read, 0, 0, 0);
    answers("Judge", told.judge, 2, 1, 2);
    answers("Word", told.word, 2, 2, TILL_SOURCE);
    expect("refused", (uint64_t)till_refused(told.judge), 1);
    expect("not passed", (uint64_t)till_passed(told.judge), 0);
    expect_store();
    expect_distances();
    expect_table();
    expect_word();
    told = tell(text, TEXT_LENGTH - 1);
    refuses("Read", told.read, TILL_ABSENT, 9);
    expect_no_verdict(told);
    told = tell(lost, sizeof lost - 1);
    refuses("Read", told.read, TILL_NO_HIGH, 4);
    expect_no_verdict(told);
}

static TillAnswer print(const char *bytes, size_t length) {
    forget();
    memset(store, 7, sizeof store);
    return till_print((const uint8_t *)bytes, length, store, TILL_STORE, distances, TILL_DISTANCES, table, TILL_TABLE,
                      run, TILL_RUN, word, TILL_WORD, out, TILL_PAGE);
}

int main(void) {
    refuses_texts();
    reads();
    judges();
    plays();
    shows();
    wakes();
    ticks();
    lacks_high();
    tells();
    answers("print", print(text, TEXT_LENGTH - 1), 1, 7, 0);
    expect_out("F,32,9\n", 7);
    answers("print", print(lost, sizeof lost - 1), 1, 7, 0);
    expect_out("F,35,4\n", 7);
    answers("print", print(text, TEXT_LENGTH), 1, PAGE_LENGTH, 0);
    expect_out(page, PAGE_LENGTH);
    return fwrite(out, 1, PAGE_LENGTH, stdout) == PAGE_LENGTH ? 0 : 1;
}
