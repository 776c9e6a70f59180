/* What the calls do that read into a text, also while one allocation after another fails. The last line is `N passed, M failed`. */
#include "failing.h"
#include "incr.h"
#include <stdbool.h>
#include <stdio.h>
#include <stdlib.h>
#include <string.h>

static int passed, failed;
static incr_text text = INCR_NO_TEXT;

static void is(const char *what, long long found, long long wanted) {
    if (found == wanted) {
        passed++;
    } else {
        failed++;
        printf("texts: %s: %lld, and not %lld\n", what, found, wanted);
    }
}

static int32_t ask(incr_slot *slot, const char *line) { return incr_ask(slot, line, strlen(line), &text); }

static void reads(const char *what, const char *wanted) {
    is(what, text.length == strlen(wanted) && memcmp(text.at, wanted, text.length) == 0 && text.at[text.length] == 0 && text.waiting == 0, 1);
}

static void declare(incr_slot *slot) {
    static char line[2100];
    is("an open", incr_open(slot), INCR_DONE);
    is("a variable", ask(slot, "var x int 3"), INCR_ACCEPTED);
    reads("is told", "ok\n");
    memset(line, 'x', sizeof line);
    memcpy(line, "var t text \"", 12);
    memcpy(line + 2011, "\"", 2);
    is("a text", ask(slot, line), INCR_ACCEPTED);
    const char *const lines[] = {"observe o x", "observe p t", "watch o", "watch p", "stabilize"};
    for (size_t i = 0; i < sizeof lines / sizeof *lines; i++) is(lines[i], ask(slot, lines[i]), INCR_ACCEPTED);
    is("a long answer", text.length > 2000 && memcmp(text.at, "stable 1\no init 3\np init \"", 26) == 0 && text.at[text.length] == 0, 1);
}

/* Each allocation fails in turn, alone and with all behind it; then the same is done again, and all of it is there. */
static void faults(bool alone) {
    for (long first = 0; first < 100; first++) {
        incr_slot slot = INCR_EMPTY;
        incr_text found = INCR_NO_TEXT;
        incr_told told;
        declare(&slot);
        failing_from(first, alone ? 1 : UINT32_MAX);
        failing_watch(1);
        int32_t how = incr_ask(&slot, "show p", 6, &found);
        int32_t kind = incr_notice_text(&slot, 1, &text, &told);
        failing_watch(0);
        long asked = failing_asked();
        is("an answer", how == INCR_ACCEPTED || how == INCR_NO_MEMORY, 1);
        if (how == INCR_NO_MEMORY) is("another one", incr_ask(&slot, "show p", 6, &found), INCR_ACCEPTED);
        else if (found.waiting) is("what waits", found.length == 0 && incr_fetch(&slot, &found) == INCR_DONE, 1);
        is("is all there", (long long)found.length, 2006);
        is("a notice", kind == INCR_INIT || kind == INCR_NO_MEMORY, 1);
        if (kind == INCR_NO_MEMORY) {
            is("tells nothing", told.name == 0 && told.before == 0 && told.now == 0 && text.length == 0, 1);
            is("another one", incr_notice_text(&slot, 1, &text, &told), INCR_INIT);
        }
        is("is all there", text.length == 2002 && told.name == 1 && told.now == 2001, 1);
        incr_text_free(&found);
        incr_text_free(&text);
        incr_close(&slot);
        if (asked <= first) break;
    }
}

int main(void) {
    incr_slot slot = INCR_EMPTY;
    incr_told told;
    is("no session", ask(&slot, "show o"), INCR_NO_SESSION);
    is("reads nothing", text.length == 0 && text.waiting == 0, 1);
    is("nothing to fetch", incr_fetch(&slot, &text), INCR_NO_SESSION);
    is("no notice", incr_notice_text(&slot, 0, &text, &told), INCR_NO_SESSION);
    declare(&slot);
    is("a notice", incr_notice_text(&slot, 0, &text, &told), INCR_INIT);
    reads("is told", "o3");
    is("no third one", incr_notice_text(&slot, 2, &text, &told), INCR_NO_NOTICE);
    reads("is nothing", "");
    size_t count;
    is("a line without room", incr_line(&slot, "show o", 6, 0, 0, &count), INCR_ACCEPTED);
    is("a refused line", ask(&slot, "set z 1"), INCR_REFUSED_UNDECLARED);
    reads("comes behind what waited", "o = 3\nrefused 4\n");
    is("nothing more", incr_fetch(&slot, &text), INCR_DONE);
    reads("waits", "");
    is("a note of null", incr_ask(&slot, 0, 0, &text), INCR_BLANK);
    is("a close", incr_close(&slot), INCR_DONE);
    incr_text_free(&text);
    is("a text is zeros again", !text.at && !text.length && !text.waiting && !text.room, 1);
    faults(true);
    faults(false);
    printf("%d passed, %d failed\n", passed, failed);
    return failed != 0;
}
