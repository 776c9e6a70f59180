#include "failing.h"

static long from, asked;
static unsigned marked;
static int watched;

void *__real_malloc(size_t size);
void *__real_calloc(size_t count, size_t size);
void *__real_realloc(void *block, size_t size);

void failing_from(long first, unsigned which) {
    asked = 0;
    from = first;
    marked = which;
}

void failing_watch(int on) { watched = on; }

long failing_asked(void) { return asked; }

int failing_fails(void) {
    if (!watched) return 0;
    long place = asked++ - from;
    return place >= 0 && place < 32 && (marked >> place & 1);
}

void *__wrap_malloc(size_t size) { return failing_fails() ? 0 : __real_malloc(size); }
void *__wrap_calloc(size_t count, size_t size) { return failing_fails() ? 0 : __real_calloc(count, size); }
void *__wrap_realloc(void *block, size_t size) { return failing_fails() ? 0 : __real_realloc(block, size); }
