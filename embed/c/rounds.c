/* Rounds of `set`, `stabilize`, `show` for timing: rounds [COUNT]. Prints the last answer, and the seconds to standard error. */
#include "incr.h"
#include <stdio.h>
#include <stdlib.h>
#include <string.h>
#include <time.h>

static uint8_t out[64];
static size_t count;

static void take(incr_slot *slot, const char *text, size_t length) { incr_line(slot, text, length, out, sizeof out, &count); }

int main(int argc, char **argv) {
    long rounds = argc > 1 ? atol(argv[1]) : 100000;
    incr_slot slot = INCR_EMPTY;
    struct timespec from, to;
    clock_gettime(CLOCK_MONOTONIC, &from);
    if (incr_open(&slot) != INCR_DONE) return 1;
    take(&slot, "var x int 3", 11);
    take(&slot, "let y add(x, 4)", 15);
    take(&slot, "observe o y", 11);
    take(&slot, "stabilize", 9);
    for (long i = 0; i < rounds; i++) {
        char text[32];
        take(&slot, text, (size_t)snprintf(text, sizeof text, "set x %ld", i));
        take(&slot, "stabilize", 9);
        take(&slot, "show o", 6);
    }
    printf("%.*s", (int)count, (const char *)out);
    incr_close(&slot);
    clock_gettime(CLOCK_MONOTONIC, &to);
    fprintf(stderr, "C: %.3f s\n", (double)(to.tv_sec - from.tv_sec) + (double)(to.tv_nsec - from.tv_nsec) * 1e-9);
    return 0;
}
