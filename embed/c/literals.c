/* Lines that are string literals, without a cast, and what is told of refusals, without a table: in C since C99, and in C++ since C++98. It
   prints the words of a refusal. */
#include "incr.h"
#include <stdio.h>

int main(void) {
    static const char line[] = "set z 1";
    incr_slot slot = INCR_EMPTY;
    uint8_t out[64];
    size_t count = 0;
    int32_t how = incr_open(&slot);
    if (how != INCR_DONE) return 1;
    how = incr_line(&slot, "var x int 3", 11, out, sizeof out, &count);
    if (how != INCR_ACCEPTED || INCR_IS_REFUSED(how) || incr_version() != INCR_VERSION) return 2;
    how = incr_line(&slot, line, sizeof line - 1, out, sizeof out, &count);
    if (sizeof line > INCR_MAX_LINE || count > INCR_MAX_LINES || how != INCR_REFUSED_UNDECLARED) return 3;
    if (INCR_IS_REFUSED(how)) printf("refused %d: %s (incr %s)\n", (int)INCR_REFUSAL(how), incr_errstr(how), INCR_VERSION_TEXT);
    return incr_close(&slot) == INCR_DONE ? 0 : 4;
}
