/* Text in place: the proved calls copy out what they read where there is room for it, and here that room is a text of the caller's, which grows.
   There is no state but in these texts. Like words.c this isn't proved: no export of Rattle has a clause that says what stands at a pointer which it hands out. */
#include "incr.h"
#include <stdbool.h>
#include <stdlib.h>

/* A text's first room, with that for the 0 behind its bytes. */
enum { LEAST_ROOM = 256 };

static uint8_t *bytes_of(incr_text *text) { return (uint8_t *)(uintptr_t)text->at; }

/* How many bytes there is room for beside the 0. */
static size_t room_of(const incr_text *text) { return text->room ? text->room - 1 : 0; }

/* The text has so many bytes, for which there is room; none waits. */
static void holds(incr_text *text, size_t length) {
    text->length = length;
    text->waiting = 0;
    if (text->room) bytes_of(text)[length] = 0;
}

/* Makes room for so many bytes, and lets go of what stood there: whether there was memory for it. */
static bool make_room(incr_text *text, size_t length) {
    if (text->room && length <= room_of(text)) return true;
    if (length == SIZE_MAX) return false;
    size_t room = length < LEAST_ROOM ? LEAST_ROOM : length + 1;
    uint8_t *more = malloc(room);
    if (!more) return false;
    free(bytes_of(text));
    text->at = (const char *)more;
    text->room = room;
    return true;
}

/* Reads `count` bytes into the text: they stand there already where there was room for them. */
static bool fetch(incr_slot *slot, incr_text *text, size_t count) {
    if (count > room_of(text)) {
        if (!make_room(text, count)) {
            holds(text, 0);
            text->waiting = count;
            return false;
        }
        incr_rest(slot, bytes_of(text), room_of(text), &count);
    }
    holds(text, count);
    return true;
}

int32_t incr_ask(incr_slot *slot, const char *line, size_t length, incr_text *text) {
    size_t count = 0;
    make_room(text, 0);
    int32_t how = incr_line(slot, line, length, bytes_of(text), room_of(text), &count);
    fetch(slot, text, count);
    return how;
}

int32_t incr_fetch(incr_slot *slot, incr_text *text) {
    size_t count = 0;
    make_room(text, 0);
    int32_t how = incr_rest(slot, bytes_of(text), room_of(text), &count);
    return fetch(slot, text, count) ? how : INCR_NO_MEMORY;
}

int32_t incr_notice_text(incr_slot *slot, size_t notice, incr_text *text, incr_told *told) {
    make_room(text, 0);
    int32_t what = incr_notice(slot, notice, bytes_of(text), room_of(text), told);
    size_t count = told->name + told->before + told->now;
    if (count > room_of(text)) {
        if (!make_room(text, count)) what = INCR_NO_MEMORY;
        else what = incr_notice(slot, notice, bytes_of(text), room_of(text), told);
        count = told->name + told->before + told->now;
    }
    if (what == INCR_NO_MEMORY) count = told->name = told->before = told->now = 0;
    holds(text, count);
    return what;
}

void incr_text_free(incr_text *text) {
    incr_text none = INCR_NO_TEXT;
    free(bytes_of(text));
    *text = none;
}
