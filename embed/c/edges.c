/* What calls answer where little or too much is given to them. The last line is `N passed, M failed`. */
#include "incr.h"
#include <stdio.h>
#include <stdlib.h>
#include <string.h>

static int passed, failed;
static uint8_t out[256];
static size_t count;

static void is(const char *what, long long found, long long wanted) {
    if (found == wanted) {
        passed++;
    } else {
        failed++;
        printf("edges: %s: %lld, and not %lld\n", what, found, wanted);
    }
}

static void prints(const char *what, const char *wanted) {
    is(what, count == strlen(wanted) && memcmp(out, wanted, count) == 0, 1);
}

static int32_t line(incr_slot *slot, const char *text) {
    return incr_line(slot, text, strlen(text), out, sizeof out, &count);
}

static void tells(const char *what, incr_slot *slot, size_t notice, int32_t kind, const char *name, const char *before, const char *now) {
    char wanted[sizeof out];
    incr_told told;
    is(what, incr_notice(slot, notice, out, sizeof out, &told), kind);
    is(what, told.name == strlen(name) && told.before == strlen(before) && told.now == strlen(now), 1);
    count = (size_t)snprintf(wanted, sizeof wanted, "%s%s%s", name, before, now);
    prints(what, wanted);
}

/* What stabilizes told of watched observers. */
static void notices(void) {
    incr_slot slot = INCR_EMPTY;
    incr_told told = {7, 7, 7, 7};
    is("a notice without a session", incr_notice(&slot, 0, out, sizeof out, &told), INCR_NO_SESSION);
    is("tells nothing", told.round == 0 && told.name == 0 && told.before == 0 && told.now == 0, 1);
    incr_open(&slot);
    is("a notice before the first stabilize", incr_notice(&slot, 0, out, sizeof out, &told), INCR_NO_NOTICE);
    is("which is none", (long long)told.round, 0);
    const char *const lines[] = {"var x int 3", "let y add(x, 4)", "observe o y", "observe p x", "watch p", "watch o", "stabilize"};
    for (size_t i = 0; i < sizeof lines / sizeof *lines; i++) is(lines[i], line(&slot, lines[i]), INCR_ACCEPTED);
    prints("and its lines", "stable 1\no init 7\np init 3\n");
    tells("a first notice", &slot, 0, INCR_INIT, "o", "", "7");
    tells("another one", &slot, 1, INCR_INIT, "p", "", "3");
    is("no third one", incr_notice(&slot, 2, out, sizeof out, &told), INCR_NO_NOTICE);
    is("none far beyond", incr_notice(&slot, SIZE_MAX, out, sizeof out, &told), INCR_NO_NOTICE);
    is("the stabilize's number", (long long)told.round, 1);

    memset(out, 7, sizeof out);
    is("too little room", incr_notice(&slot, 1, out, 1, &told), INCR_INIT);
    is("tells how much there is", told.name == 1 && told.before == 0 && told.now == 1, 1);
    is("and copies nothing", out[0], 7);
    is("no room at all", incr_notice(&slot, 1, 0, 0, &told), INCR_INIT);
    is("room for it alone", incr_notice(&slot, 1, out, 2, &told), INCR_INIT);
    is("takes it", memcmp(out, "p3", 2) == 0 && out[2] == 7, 1);

    line(&slot, "set x -5");
    tells("what was told stays", &slot, 0, INCR_INIT, "o", "", "7");
    line(&slot, "stabilize");
    tells("a change", &slot, 0, INCR_CHANGE, "o", "7", "-1");
    tells("another change", &slot, 1, INCR_CHANGE, "p", "3", "-5");
    line(&slot, "unobserve o");
    tells("of one that ended", &slot, 0, INCR_CHANGE, "", "7", "-1");
    line(&slot, "stabilize");
    is("nothing new", incr_notice(&slot, 0, out, sizeof out, &told), INCR_NO_NOTICE);
    is("of a later stabilize", (long long)told.round, 3);

    /* a reference to what dies */
    const char *const more[] = {"var h node int &x", "let b bind v = x in neg(v)", "observe q b", "stabilize", "grab r b", "set h &r", "let j join(h)",
                                "observe j j", "observe h h", "watch j", "watch h", "stabilize"};
    for (size_t i = 0; i < sizeof more / sizeof *more; i++) is(more[i], line(&slot, more[i]), INCR_ACCEPTED);
    tells("a value", &slot, 0, INCR_INIT, "j", "", "5");
    tells("a reference", &slot, 1, INCR_INIT, "h", "", "&r");
    line(&slot, "set x 2");
    line(&slot, "stabilize");
    tells("a change", &slot, 0, INCR_CHANGE, "p", "-5", "2");
    tells("what turned to invalid", &slot, 1, INCR_INVALID, "j", "", "invalid");
    line(&slot, "set h &x");
    line(&slot, "stabilize");
    tells("what was invalid", &slot, 0, INCR_CHANGE, "j", "invalid", "2");
    tells("another reference", &slot, 1, INCR_CHANGE, "h", "&r", "&x");

    is("a close", incr_close(&slot), INCR_DONE);
    is("a notice behind it", incr_notice(&slot, 0, out, sizeof out, &told), INCR_NO_SESSION);
}

/* Words and versions. */
static void words(void) {
    int none = 0;
    for (int32_t answer = -1000; answer < 1000; answer++) none += !incr_errstr(answer) || !*incr_errstr(answer);
    is("an answer without words", none, 0);
    is("words of a refusal", strcmp(incr_errstr(INCR_REFUSED + 4), "a name isn't declared"), 0);
    is("words of a negative answer", strcmp(incr_errstr(INCR_NO_SESSION), "the slot has no session"), 0);
    is("words of no answer", strcmp(incr_errstr(INT32_MIN), incr_errstr(INCR_REFUSED)), 0);
    is("words of an unknown refusal", strcmp(incr_errstr(INT32_MAX), incr_errstr(INCR_REFUSED + 99)), 0);
    is("which is one", strcmp(incr_errstr(INT32_MAX), incr_errstr(INCR_REFUSED)) != 0, 1);
    is("the version", incr_version(), INCR_VERSION);
    is("a refusal", INCR_IS_REFUSED(INCR_REFUSED_UNDECLARED) && !INCR_IS_REFUSED(INCR_ACCEPTED) && !INCR_IS_REFUSED(INCR_NO_MEMORY), 1);
    is("and its number", INCR_REFUSAL(INCR_REFUSED_UNDECLARED), 4);
}

int main(void) {
    incr_slot slot = INCR_EMPTY, slots[3] = {INCR_EMPTY, INCR_EMPTY, INCR_EMPTY};
    is("a slot is 16 bytes", sizeof slot, 16);

    /* a slot of zeros */
    count = 7;
    is("a line without a session", line(&slot, "stabilize"), INCR_NO_SESSION);
    is("nothing is to be read there", (long long)count, 0);
    is("a rest without a session", incr_rest(&slot, out, sizeof out, &count), INCR_NO_SESSION);
    is("a close without a session", incr_close(&slot), INCR_NO_SESSION);

    /* lines */
    is("an open", incr_open(&slot), INCR_DONE);
    is("a variable", line(&slot, "var x int 3"), INCR_ACCEPTED);
    is("an open over an open one", incr_open(&slot), INCR_IS_OPEN);
    is("whose session stays", line(&slot, "let y add(x, 4)"), INCR_ACCEPTED);
    prints("and prints", "ok\n");
    is("an observer", line(&slot, "observe o y"), INCR_ACCEPTED);
    is("a stabilize", line(&slot, "stabilize\r"), INCR_ACCEPTED);
    is("a note", line(&slot, "# note"), INCR_BLANK);
    is("a note prints nothing", (long long)count, 0);
    is("an unknown name", line(&slot, "set z 1"), INCR_REFUSED + 4);
    prints("is told", "refused 4\n");
    is("a line with its newline", line(&slot, "stabilize\n"), INCR_REFUSED + 1);
    is("an empty line", incr_line(&slot, (const char *)out, 0, out, sizeof out, &count), INCR_BLANK);
    is("null with length 0", incr_line(&slot, 0, 0, 0, 0, &count), INCR_BLANK);

    /* room */
    memset(out, 7, sizeof out);
    is("too little room", incr_line(&slot, "show o", 6, out, 5, &count), INCR_ACCEPTED);
    is("tells how much there is", (long long)count, 6);
    is("and copies nothing", out[0], 7);
    is("no room at all", incr_line(&slot, "show o", 6, 0, 0, &count), INCR_ACCEPTED);
    is("adds to it", (long long)count, 12);
    is("a note", line(&slot, "# note"), INCR_BLANK);
    prints("hands all of it out", "o = 7\no = 7\n");
    is("the rest of the room stays", out[12], 7);
    is("a rest", incr_rest(&slot, out, sizeof out, &count), INCR_DONE);
    is("has nothing more", (long long)count, 0);
    incr_line(&slot, "show o", 6, 0, 0, &count);
    is("a rest with too little room", incr_rest(&slot, out, 5, &count), INCR_DONE);
    is("tells how much there is", (long long)count, 6);
    is("a rest with room for it", incr_rest(&slot, out, 6, &count), INCR_DONE);
    prints("hands it out", "o = 7\n");

    /* long lines and other bytes */
    static char big[1 << 20];
    memset(big, ' ', sizeof big);
    is("4,096 spaces", incr_line(&slot, big, 4096, out, sizeof out, &count), INCR_BLANK);
    is("4,097 spaces", incr_line(&slot, big, 4097, out, sizeof out, &count), INCR_REFUSED + 2);
    is("a megabyte", incr_line(&slot, big, sizeof big, out, sizeof out, &count), INCR_REFUSED + 2);
    prints("is told", "refused 2\n");
    uint32_t chance = 1;
    int wrong = 0;
    for (int i = 0; i < 20000; i++) {
        char bytes[64];
        size_t length = (chance = chance * 1664525u + 1013904223u) >> 26;
        for (size_t k = 0; k < length; k++) bytes[k] = (char)((chance = chance * 1664525u + 1013904223u) >> 24);
        int32_t how = incr_line(&slot, bytes, length, out, sizeof out, &count);
        wrong += how < 0 || count > 64;
    }
    is("random bytes without an answer", wrong, 0);
    is("the session goes on", line(&slot, "show o"), INCR_ACCEPTED);
    prints("as it was", "o = 7\n");

    /* the end */
    is("a close", incr_close(&slot), INCR_DONE);
    is("a second close", incr_close(&slot), INCR_NO_SESSION);
    is("a line behind it", line(&slot, "show o"), INCR_NO_SESSION);
    is("another open", incr_open(&slot), INCR_DONE);
    is("begins anew", line(&slot, "show o"), INCR_REFUSED + 11);
    is("a close", incr_close(&slot), INCR_DONE);

    /* by number */
    is("an open by number", incr_open_at(slots, 3, 2), INCR_DONE);
    is("an open beyond the last", incr_open_at(slots, 3, 3), INCR_NO_SLOT);
    is("an open far beyond", incr_open_at(slots, 3, SIZE_MAX), INCR_NO_SLOT);
    is("an open of none", incr_open_at(slots, 0, 0), INCR_NO_SLOT);
    is("a line by number", incr_line_at(slots, 3, 2, "var x int 3", 11, out, sizeof out, &count), INCR_ACCEPTED);
    prints("prints", "ok\n");
    is("a line at another one", incr_line_at(slots, 3, 1, "var x int 3", 11, out, sizeof out, &count), INCR_NO_SESSION);
    count = 7;
    is("a line beyond", incr_line_at(slots, 3, 3, "var x int 3", 11, out, sizeof out, &count), INCR_NO_SLOT);
    is("has nothing", (long long)count, 0);
    is("a rest by number", incr_rest_at(slots, 3, 2, out, sizeof out, &count), INCR_DONE);
    is("a rest beyond", incr_rest_at(slots, 3, 4, out, sizeof out, &count), INCR_NO_SLOT);
    incr_told told = {7, 7, 7, 7};
    line(&slots[2], "observe o x");
    line(&slots[2], "watch o");
    line(&slots[2], "stabilize");
    is("a notice by number", incr_notice_at(slots, 3, 2, 0, out, sizeof out, &told), INCR_INIT);
    is("is that one's", told.round == 1 && told.name == 1 && told.now == 1 && memcmp(out, "o3", 2) == 0, 1);
    is("no further one", incr_notice_at(slots, 3, 2, 1, out, sizeof out, &told), INCR_NO_NOTICE);
    is("a notice at another one", incr_notice_at(slots, 3, 0, 0, out, sizeof out, &told), INCR_NO_SESSION);
    told = (incr_told){7, 7, 7, 7};
    is("a notice beyond", incr_notice_at(slots, 3, 3, 0, out, sizeof out, &told), INCR_NO_SLOT);
    is("tells nothing", told.round == 0 && told.name == 0 && told.before == 0 && told.now == 0, 1);
    is("a close beyond", incr_close_at(slots, 3, 3), INCR_NO_SLOT);
    is("a close by number", incr_close_at(slots, 3, 2), INCR_DONE);
    is("a second one", incr_close_at(slots, 3, 2), INCR_NO_SESSION);

    words();
    notices();
    printf("%d passed, %d failed\n", passed, failed);
    return failed != 0;
}
