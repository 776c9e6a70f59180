/* A price screen: papers with a bid and an ask, of which the screen shows the ask where the spread is narrow. It watches what it
   shows, and prints only what changed. With the name of a script it runs that one instead, and prints the transcript. */
#include "incr.h"
#include <stdio.h>
#include <stdlib.h>
#include <string.h>

static const char *const DECLARATIONS[] = {
    "# A price screen: a price is shown where its spread is narrow, and the best of them beside it.",
    "var acme_bid int 100", "var acme_ask int 104", "var bolt_bid int 96", "var bolt_ask int 98", "var widest int 5",
    "let acme_spread add(acme_ask, neg(acme_bid))", "let bolt_spread add(bolt_ask, neg(bolt_bid))",
    "let acme pick(lt(acme_spread, widest), acme_ask, 0)", "let bolt pick(lt(bolt_spread, widest), bolt_ask, 0)",
    "let best pick(lt(acme, bolt), bolt, acme)",
    "observe acme acme", "observe bolt bolt", "observe best best", "watch acme", "watch bolt", "watch best",
};
static const struct { const char *name; int price; } TICKS[] = {
    {"acme_bid", 101}, {"acme_ask", 107}, {"bolt_ask", 99}, {"bolt_bid", 97}, {"widest", 7}, {"bolt_ask", 120},
    {"acme_ask", 103}, {"acme_ask", 103}, {"cash_ask", 50},
};

/* What is printed, and the parts of notices. */
static incr_text text = INCR_NO_TEXT;

/* Prints what was handed out. Whether it was written, and all of it. */
static int print_text(void) { return fwrite(text.at, 1, text.length, stdout) == text.length && text.waiting == 0; }

/* Gives the session a line of a script, and prints what is handed out, whatever the answer. Whether the session goes on. */
static int take(incr_slot *session, const char *line, size_t length) {
    int32_t how = incr_ask(session, line, length, &text);
    if (how < 0) fprintf(stderr, "screen: %s\n", incr_errstr(how));
    return fwrite(text.at, 1, text.length, stdout) == text.length && how >= 0;
}

/* Prints what still waits. Whether nothing does then. */
static int finish(incr_slot *session) {
    if (incr_fetch(session, &text) == INCR_NO_SESSION) return 0;
    return print_text();
}

/* Prints what the last stabilize told. Whether there was memory for all of it. */
static int print_changes(incr_slot *session) {
    incr_told told;
    int32_t kind;
    for (size_t number = 0; (kind = incr_notice_text(session, number, &text, &told)) > 0; number++) {
        const char *name = text.at, *before = name + told.name, *now = before + told.before;
        printf("%.*s: ", (int)told.name, name);
        if (kind == INCR_CHANGE) printf("%.*s -> ", (int)told.before, before);
        printf("%s\n", now);
    }
    return kind == INCR_NO_NOTICE;
}

/* Brings the screen up to date. */
static int refresh(incr_slot *session) {
    return incr_ask(session, "stabilize", strlen("stabilize"), &text) == INCR_ACCEPTED && print_changes(session);
}

static int show_prices(incr_slot *session) {
    for (size_t i = 0; i < sizeof DECLARATIONS / sizeof *DECLARATIONS; i++) {
        int32_t how = incr_ask(session, DECLARATIONS[i], strlen(DECLARATIONS[i]), &text);
        if (how != INCR_ACCEPTED && how != INCR_BLANK) return 0;
    }
    int well = refresh(session);
    for (size_t i = 0; well && i < sizeof TICKS / sizeof *TICKS; i++) {
        char line[64];
        int length = snprintf(line, sizeof line, "set %s %d", TICKS[i].name, TICKS[i].price);
        int32_t how = incr_ask(session, line, (size_t)length, &text);
        if (INCR_IS_REFUSED(how)) printf("%s is no price: %s\n", TICKS[i].name, incr_errstr(how));
        well = how >= 0 && refresh(session);
    }
    return well;
}

/* A script is lines that end at a newline; what stands behind the last one is a line too. */
static int run_script(incr_slot *session, const char *name) {
    FILE *file = fopen(name, "rb");
    char *line = 0;
    size_t size = 0, length = 0;
    int well = file != 0, byte;
    while (well && (byte = getc(file)) != EOF) {
        if (byte == '\n') {
            well = take(session, line, length);
            length = 0;
            continue;
        }
        if (length == size) {
            char *more = realloc(line, size = size ? 2 * size : 128);
            if (!more) well = 0;
            else line = more;
        }
        if (well) line[length++] = (char)byte;
    }
    if (well && length) well = take(session, line, length);
    free(line);
    if (file) fclose(file);
    return well;
}

int main(int argc, char **argv) {
    incr_slot session = INCR_EMPTY;
    int well = incr_open(&session) == INCR_DONE;
    if (well) well = argc > 1 ? run_script(&session, argv[1]) : show_prices(&session);
    if (!finish(&session)) well = 0;
    incr_close(&session);
    incr_text_free(&text);
    return well && fflush(stdout) == 0 ? 0 : 1;
}
