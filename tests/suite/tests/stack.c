/* How many bytes of the stack each call takes on the text on standard input, measured on a painted stack. The test
   writes `calls.h` from the table of operations: the lists, a function `call_NAME` for each operation, and `calls`,
   which has them all. Check is lent the book that Book filled before. */
#define _GNU_SOURCE
#include <stdio.h>
#include <string.h>
#include <ucontext.h>

#include "till.h"

#define PAINT 0xa5

static uint8_t text[16384];
static size_t text_len;
static const uint16_t state = 3;
#include "calls.h"

/* More than any call may take, so that one that takes too much is measured. */
static unsigned char stack[1 << 18];
static ucontext_t caller, callee;

static void nothing(void) {}

static size_t used(void (*call)(void)) {
    memset(stack, PAINT, sizeof stack);
    getcontext(&callee);
    callee.uc_stack.ss_sp = stack;
    callee.uc_stack.ss_size = sizeof stack;
    callee.uc_link = &caller;
    makecontext(&callee, call, 0);
    swapcontext(&caller, &callee);
    size_t unused = 0;
    while (unused < sizeof stack && stack[unused] == PAINT) unused++;
    return sizeof stack - unused;
}

int main(void) {
    text_len = fread(text, 1, sizeof text, stdin);
    size_t count = sizeof calls / sizeof *calls;
    /* The first calls also find memcpy and memset, which takes stack of its own. */
    for (size_t i = 0; i < count; i++) used(calls[i].call);
    for (size_t i = 0; i < count; i++) printf("%s %zu\n", calls[i].name, used(calls[i].call) - used(nothing));
    return 0;
}
