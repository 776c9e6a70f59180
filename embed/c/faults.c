/* Runs a script over and over, in each run with other allocations that fail, and gives a line again that found no memory. It prints what
   each run printed, and what each stabilize told as it is read, with a line `--` behind it; allowed.awk says whether anything was lost.
   faults SCRIPT */
#include "failing.h"
#include "incr.h"
#include <stdio.h>
#include <stdlib.h>
#include <string.h>

/* The room for what is handed out, which grows. */
static uint8_t *room;
static size_t room_length;

/* Prints what was handed out, `count` bytes where they fit into the room; else they are fetched, or wait for want of memory. */
static void print(incr_slot *session, size_t count) {
    if (count > room_length) {
        uint8_t *more = realloc(room, count);
        if (!more) return;
        room = more;
        room_length = count;
        incr_rest(session, room, room_length, &count);
    }
    if (count > 0) fwrite(room, 1, count, stdout);
}

/* Gives the session a line, and prints what is handed out, whatever the answer. */
static int32_t take(incr_slot *session, const char *text, size_t length) {
    size_t count;
    failing_watch(1);
    int32_t how = incr_line(session, text, length, room, room_length, &count);
    print(session, count);
    failing_watch(0);
    return how;
}

/* The room for notices, which grows too. */
static uint8_t *notice_room;
static size_t notice_length;

/* Reads a notice into its room. */
static int32_t read_notice(incr_slot *session, size_t number, incr_told *told) {
    int32_t kind = incr_notice(session, number, notice_room, notice_length, told);
    size_t length = told->name + told->before + told->now;
    if (length <= notice_length) return kind;
    uint8_t *more = realloc(notice_room, length);
    if (!more) return INCR_NO_MEMORY;
    notice_room = more;
    notice_length = length;
    return incr_notice(session, number, notice_room, notice_length, told);
}

/* Prints what the last stabilize told, if that is a later one than before. A notice that finds no memory is read again. */
static void print_notices(incr_slot *session, uint64_t *round) {
    incr_told told;
    incr_notice(session, SIZE_MAX, 0, 0, &told);
    if (told.round == *round) return;
    *round = told.round;
    for (size_t number = 0;; number++) {
        int32_t kind;
        failing_watch(1);
        do kind = read_notice(session, number, &told);
        while (kind == INCR_NO_MEMORY);
        failing_watch(0);
        if (kind <= 0) return;
        const char *name = (const char *)notice_room, *before = name + told.name, *now = before + told.before;
        printf("told %d %.*s,%.*s,%.*s\n", (int)kind, (int)told.name, name, (int)told.before, before, (int)told.now, now);
    }
}

/* Runs the script. Whether each of its lines was taken. */
static int run(const char *script) {
    incr_slot session = INCR_EMPTY;
    int32_t how = INCR_NO_MEMORY;
    size_t count;
    uint64_t round = 0;
    while (how == INCR_NO_MEMORY) {
        failing_watch(1);
        how = incr_open(&session);
        failing_watch(0);
    }
    for (const char *line = script, *end; how >= 0 && (end = strchr(line, '\n')); line = end + 1) {
        do {
            how = take(&session, line, (size_t)(end - line));
            print_notices(&session, &round);
        } while (how == INCR_NO_MEMORY);
    }
    incr_rest(&session, 0, 0, &count);
    print(&session, count);
    puts("--");
    free(room);
    free(notice_room);
    room = notice_room = 0;
    room_length = notice_length = 0;
    return incr_close(&session) == INCR_DONE && how >= 0;
}

int main(int argc, char **argv) {
    static char script[1 << 16];
    static char out[1 << 16];
    setvbuf(stdout, out, _IOFBF, sizeof out);
    FILE *file = argc == 2 ? fopen(argv[1], "rb") : 0;
    if (!file || fread(script, 1, sizeof script - 1, file) == 0) return 2;
    fclose(file);
    for (unsigned which = 1; which <= FAILING_MOST; which += 2) {
        long first = 0;
        do {
            failing_from(first, which);
            if (!run(script)) return 1;
        } while (first++ < failing_asked());
    }
    return fflush(stdout) != 0;
}
