/* Judges the model on standard input through the archive `libtill_c.a`. Ends as the script `till` does: with 0 for
   passed, 1 for refused, 2 for a text that is not read, 3 for a failure, where it gives no verdict. */
#include <stdio.h>

#include "till.h"

enum { PASSED, REFUSED, NOT_READ, FAILED };

/* One byte more than a text may have, so that a longer text is told from the longest. */
static uint8_t text[TILL_TEXT_LIMIT + 1];
static uint16_t store[TILL_STORE], distances[TILL_DISTANCES];
static uint8_t table[TILL_TABLE];

static int failed(const char *why) {
    fprintf(stderr, "judge: %s\n", why);
    return FAILED;
}

static int judge(void) {
    TillAnswer judged = till_judge(store, TILL_STORE, distances, TILL_DISTANCES, table, TILL_TABLE);
    if (till_passed(judged)) {
        printf("passed, rank %d\n", (int)judged.first);
        return PASSED;
    }
    if (till_refused(judged)) {
        printf("refused at step %d, depth %d\n", (int)judged.first, (int)judged.second);
        return REFUSED;
    }
    return failed("no verdict");
}

int main(void) {
    size_t length = fread(text, 1, sizeof text, stdin);
    if (ferror(stdin)) return failed("the text could not be read");
    TillAnswer read = till_read(text, length, store, TILL_STORE);
    int status = NOT_READ;
    if (read.number == 0)
        status = judge();
    else
        printf("not read: number %d, place %d\n", (int)read.number, (int)read.place);
    if (fflush(stdout) != 0 || ferror(stdout)) return failed("the answer could not be written");
    return status;
}
