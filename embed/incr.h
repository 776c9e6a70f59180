/* Sessions of Garovymba for C and C++.

   A session takes the lines of a script one after the other, and what they print is handed out as bytes. The caller keeps
   each session in an `incr_slot` of its own: the library has no state beside its slots.

   Every call has an answer for a slot of zeros, for one whose session was ended, for a second close, for an open where a
   session is already, for any bytes and for room of any size, none at all too; that is proved. What follows is not checked,
   and nothing can check it here. The caller sees to it that

   - a slot begins as zeros, and is written by no one but these calls; while it has a session it isn't copied: of two copies
     only one may be used again, and the other one must not be closed (to move a slot, copy it and set the old one to zeros);
   - each pointer points to as much memory as the length beside it says, which no one else writes during the call and which
     overlaps no other argument of it; `slot`, `slots`, `count` and `told` aren't null. A null `text` or `out` with the length 0 is read
     and written by no call;
   - a session is in one call at a time, and stays on its thread; different sessions may be on different threads;
   - `malloc`, `realloc` and `free` are those of one C library, and align as C says;
   - no call is made in a signal handler, nor in the forked child of a process with threads.

   Platform: the library is machine code for Linux on x86-64. It needs a C library, and nothing else. Threads: it starts none, takes no
   lock, and has no state of its own; sessions of different threads don't meet.

   This header is C99 or later, and C++98 or later. Link libincr.a, or libincr.so: `pkg-config --cflags --libs incr` tells how. */
#ifndef INCR_H
#define INCR_H
#include <stddef.h>
#include <stdint.h>

/* The version of this header; `incr_version()` is that of the library that is linked. */
#define INCR_VERSION 200 /* 10,000 * major + 100 * minor + patch */
#define INCR_VERSION_TEXT "0.2.0"

/* The most bytes of a line, without its newline, and the most lines of a session. */
#define INCR_MAX_LINE 4096
#define INCR_MAX_LINES 1073741824

/* Whether an answer is that a line was refused, and the number of that refusal in docs/language.md. */
#define INCR_IS_REFUSED(answer) ((answer) > INCR_REFUSED)
#define INCR_REFUSAL(answer) ((answer) - INCR_REFUSED)

#ifdef __cplusplus
extern "C" {
#endif

/* Where a caller keeps a session. It begins as zeros: `incr_slot slot = INCR_EMPTY;` */
typedef struct incr_slot {
    uint64_t live; /* 0 where there is no session. It may be read */
    void *at;      /* the library's */
} incr_slot;

#ifdef __cplusplus
#define INCR_EMPTY {}
#else
#define INCR_EMPTY {0, 0}
#endif

/* What is told of a notice beside its bytes. */
typedef struct incr_told {
    uint64_t round; /* the K of the last `stable K`, which is the stabilize that told it; 0 before the first one */
    size_t name;    /* how many bytes the observer's name has */
    size_t before;  /* how many bytes that has which was told of it before */
    size_t now;     /* how many bytes that has which it shows now */
} incr_told;

/* What calls answer. A line that is refused with the number n answers INCR_REFUSED + n; docs/language.md tells the causes of each. Some
   numbers answer several calls, and have a name for each. The enum is made by tools/words.py. */
enum incr_answer {
    INCR_IS_OPEN = -5,                  /* the slot has a session already */
    INCR_NO_SLOT = -4,                  /* there is no slot of that number */
    INCR_TOO_MANY = -3,                 /* the session has taken 2^30 lines, and takes no more */
    INCR_NO_MEMORY = -2,                /* no memory was found */
    INCR_NO_SESSION = -1,               /* the slot has no session */
    INCR_BLANK = 0,                     /* the line asks for nothing */
    INCR_NO_NOTICE = 0,                 /* there is no notice of that number */
    INCR_ACCEPTED = 1,                  /* the line was accepted */
    INCR_DONE = 1,                      /* what was asked for is done */
    INCR_INIT = 1,                      /* the notice is the first one of an observer */
    INCR_CHANGE = 2,                    /* the notice is of another value */
    INCR_INVALID = 3,                   /* the notice is that a value turned to invalid */
    INCR_REFUSED = 100,                 /* and the number of the refusal; no call answers this alone */
    INCR_REFUSED_NO_COMMAND = 101,      /* the line is no command */
    INCR_REFUSED_TOO_LONG = 102,        /* the line has more than 4,096 bytes */
    INCR_REFUSED_DECLARED = 103,        /* the name is declared already */
    INCR_REFUSED_UNDECLARED = 104,      /* a name isn't declared */
    INCR_REFUSED_NO_FUNCTION = 105,     /* there is no function of this name */
    INCR_REFUSED_MISFIT = 106,          /* a type or a number of arguments doesn't fit */
    INCR_REFUSED_NO_VARIABLE = 107,     /* the name isn't that of a variable */
    INCR_REFUSED_NO_BIND = 108,         /* the name isn't that of a bind */
    INCR_REFUSED_UNBUILT = 109,         /* the bind has no right side */
    INCR_REFUSED_NO_EXPERT = 110,       /* the name isn't that of an expert */
    INCR_REFUSED_NO_OBSERVER = 111,     /* there is no observer of this name */
    INCR_REFUSED_OBSERVED = 112,        /* the observer's name is in use */
    INCR_REFUSED_UNSTABILIZED = 113,    /* no stabilize was accepted since the observer was made */
    INCR_REFUSED_NOT_WHOLE = 114,       /* an after, an every or a freeze isn't the whole formula */
    INCR_REFUSED_PAST = 115,            /* the time is before the clock */
    INCR_REFUSED_TOO_LATE = 116,        /* a time or a span is too great */
    INCR_REFUSED_NOT_RISING = 117,      /* the times of a steps don't rise strictly */
    INCR_REFUSED_NO_SPAN = 118,         /* the span of an every is 0 */
    INCR_REFUSED_TOO_MANY_PLACES = 119, /* the script would have more than 1,048,575 places */
    INCR_REFUSED_CYCLE = 120,           /* what observers need, or what was passed through, has a cycle */
    INCR_REFUSED_TOO_DEEP = 121,        /* what observers need, or what was passed through, is deeper than 128 */
    INCR_REFUSED_BROKEN = 122,          /* an earlier stabilize was refused, and broke the session */
    INCR_REFUSED_NO_LINK = 123,         /* the expert's list doesn't have this link */
    INCR_REFUSED_TOO_MANY_LINKS = 124,  /* the expert's list has 4,096 links already */
    INCR_REFUSED_TOO_NESTED = 125       /* more than 64 levels are open */
};

/* What an answer means, in a short sentence of ASCII. It is never null, and stays where it is; a number that no call answers has one too. */
const char *incr_errstr(int32_t answer);

/* The version of the library: INCR_VERSION where header and library are of one version. */
int32_t incr_version(void);

/* Opens a session in the slot: INCR_DONE. INCR_IS_OPEN where it has one already, INCR_NO_MEMORY where there is no memory;
   then the slot still has none. */
int32_t incr_open(incr_slot *slot);

/* Gives the session its next line: `length` bytes at `text`, without a newline. A line of more than INCR_MAX_LINE bytes is refused with 2,
   and a carriage return at the end of another one is dropped, as the program does.

   What the line prints comes behind what is still to be read, and `*count` is how many bytes are to be read in all. Where that is
   at most `room`, they are at `out`, and have been read, whatever the answer: INCR_NO_MEMORY hands out what waited, like any other.
   Where it is more, `out` stays as it was and nothing is lost: incr_rest, or the next line with enough room, hands all of it out.

   The answer tells how the line was taken, and not whether there was room: INCR_BLANK, INCR_ACCEPTED, INCR_REFUSED + n;
   INCR_NO_SESSION with 0 to be read; INCR_TOO_MANY. INCR_REFUSED_CYCLE and INCR_REFUSED_TOO_DEEP come from a stabilize, and break the
   session: it answers each later command with INCR_REFUSED_BROKEN. With INCR_NO_MEMORY the line printed nothing: either the line changed
   nothing and may be given again, or it is a stabilize that was carried out, whose notices can be read, or one that broke the session
   (docs/embedding.md). */
int32_t incr_line(incr_slot *slot, const char *text, size_t length, uint8_t *out, size_t room, size_t *count);

/* Hands out what is still to be read, by the same rule: INCR_DONE, or INCR_NO_SESSION with 0 to be read. */
int32_t incr_rest(incr_slot *slot, uint8_t *out, size_t room, size_t *count);

/* Reads a notice of the last accepted stabilize: what it told of an observer that is watched, without parsing its lines. `notice` counts
   the notices from 0, in the order in which their observers were made. The answer is INCR_INIT, INCR_CHANGE or INCR_INVALID, or
   INCR_NO_NOTICE where there is no further one; INCR_NO_SESSION, and then all of `*told` is 0; INCR_NO_MEMORY.

   The three parts of the notice are at `out`, one directly behind the other: `told->name` bytes of the observer's name, `told->before`
   bytes of what was told of it before, and `told->now` bytes of what it shows now, both as `show` prints them. Only INCR_CHANGE has
   something before, and at INCR_INVALID `invalid` is now. The name is empty where the observer ended since. Where the three have more
   bytes than `room`, `out` stays as it was, and the same call with enough room gives them.

   Reading changes nothing: the notices can be read until the next accepted stabilize, in any order and again, also where it found no
   memory for its lines. `told->round` tells then whether it was carried out. */
int32_t incr_notice(incr_slot *slot, size_t notice, uint8_t *out, size_t room, incr_told *told);

/* ---- Text in place

   These calls put what they read where nobody has to guess its length: into a text of the caller's, which begins as zeros and grows as it has to. What is
   in it stands there until the next call that is given this text; incr_text_free lets go of it. One text may serve any sessions of one thread.

   They are C over the calls above (embed/c/texts.c), and aren't proved. */
typedef struct incr_text {
    const char *at; /* the bytes, and a 0 behind them; null where there was no memory for any */
    size_t length;  /* how many bytes they are */
    size_t waiting; /* how many bytes wait in the session, as there was no memory for them here; then `length` is 0 */
    size_t room;    /* the library's */
} incr_text;

#ifdef __cplusplus
#define INCR_NO_TEXT {}
#else
#define INCR_NO_TEXT {0, 0, 0, 0}
#endif

/* incr_line, and all that is to be read is read into the text. The answer tells how the line was taken. */
int32_t incr_ask(incr_slot *slot, const char *line, size_t length, incr_text *text);

/* incr_rest, into the text: INCR_DONE, INCR_NO_SESSION, or INCR_NO_MEMORY, and then all of it waits still. */
int32_t incr_fetch(incr_slot *slot, incr_text *text);

/* incr_notice, its parts into the text, one directly behind the other. At INCR_NO_MEMORY there is none for them, and the lengths in `*told` are 0. */
int32_t incr_notice_text(incr_slot *slot, size_t notice, incr_text *text, incr_told *told);

/* Lets go of the text's memory: it is zeros again. */
void incr_text_free(incr_text *text);

/* Ends the session and lets go of all its memory, with what was still to be read: INCR_DONE, or INCR_NO_SESSION. The slot may be
   opened again. */
int32_t incr_close(incr_slot *slot);

/* The same at the slot with this number, counted from 0, of an array of `slots_length`; INCR_NO_SLOT where there is none, and then
   nothing is written but 0 to `*count` or to all of `*told`. */
int32_t incr_open_at(incr_slot *slots, size_t slots_length, size_t number);
int32_t incr_line_at(incr_slot *slots, size_t slots_length, size_t number, const char *text, size_t length, uint8_t *out, size_t room,
                     size_t *count);
int32_t incr_rest_at(incr_slot *slots, size_t slots_length, size_t number, uint8_t *out, size_t room, size_t *count);
int32_t incr_notice_at(incr_slot *slots, size_t slots_length, size_t number, size_t notice, uint8_t *out, size_t room, incr_told *told);
int32_t incr_close_at(incr_slot *slots, size_t slots_length, size_t number);

#ifdef __cplusplus
}
#endif
#endif
