/* How many bytes of stack a call of sighvona_lift takes. Standard input holds texts, each after its length, four bytes, the lowest first. For each a
 * line is printed: the answer, and the bytes. The call runs on a stack of its own that was painted before; what is no longer paint was used. */
#include <stdint.h>
#include <stdio.h>
#include <stdlib.h>
#include <string.h>
#include <ucontext.h>

#include "../bindings/c/sighvona.h"

enum { STACK = 1 << 20, PAINT = 0xa5 };

static unsigned char stack[STACK], text[SIGHVONA_TEXT_BYTES + 1];
static uint32_t func[SIGHVONA_SCRATCH_WORDS], work[SIGHVONA_SCRATCH_WORDS], out[SIGHVONA_MAX_WORDS];
static size_t length, words;
static uint32_t next, answer;
static ucontext_t here, there;

static void lift(void) {
    /* above every id of the text */
    answer = sighvona_lift(text, length, 4000000, func, SIGHVONA_SCRATCH_WORDS, work, SIGHVONA_SCRATCH_WORDS, out, SIGHVONA_MAX_WORDS, &words, &next);
}

static void nothing(void) {
    answer = 0;
}

/* The bytes of stack that a function without parameters takes, with what makecontext puts there. */
static size_t taken(void (*called)(void)) {
    size_t left = 0;
    memset(stack, PAINT, STACK);
    getcontext(&there);
    there.uc_stack.ss_sp = stack;
    there.uc_stack.ss_size = STACK;
    there.uc_link = &here;
    makecontext(&there, called, 0);
    swapcontext(&here, &there);
    while (left < STACK && stack[left] == PAINT) {
        left += 1;
    }
    return STACK - left;
}

int main(void) {
    unsigned char size[4];
    size_t base = taken(nothing);
    while (fread(size, 1, 4, stdin) == 4) {
        length = size[0] | (size_t)size[1] << 8 | (size_t)size[2] << 16 | (size_t)size[3] << 24;
        if (length > sizeof text || fread(text, 1, length, stdin) != length) {
            return 1;
        }
        size_t bytes = taken(lift) - base;
        printf("%u %zu\n", (unsigned)answer, bytes);
    }
    return 0;
}
