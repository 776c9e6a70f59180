/* What answers mean, and the version. Made by tools/words.py of embed/words.txt. */
#include "incr.h"

const char *incr_errstr(int32_t answer) {
    switch (answer) {
    case -5: return "the slot has a session already";
    case -4: return "there is no slot of that number";
    case -3: return "the session has taken 2^30 lines, and takes no more";
    case -2: return "no memory was found";
    case -1: return "the slot has no session";
    case 0: return "the line asks for nothing, or there is no notice of that number";
    case 1: return "the line was accepted, or what was asked for is done, or the notice is the first one of an observer";
    case 2: return "the notice is of another value";
    case 3: return "the notice is that a value turned to invalid";
    case 101: return "the line is no command";
    case 102: return "the line has more than 4,096 bytes";
    case 103: return "the name is declared already";
    case 104: return "a name isn't declared";
    case 105: return "there is no function of this name";
    case 106: return "a type or a number of arguments doesn't fit";
    case 107: return "the name isn't that of a variable";
    case 108: return "the name isn't that of a bind";
    case 109: return "the bind has no right side";
    case 110: return "the name isn't that of an expert";
    case 111: return "there is no observer of this name";
    case 112: return "the observer's name is in use";
    case 113: return "no stabilize was accepted since the observer was made";
    case 114: return "an after, an every or a freeze isn't the whole formula";
    case 115: return "the time is before the clock";
    case 116: return "a time or a span is too great";
    case 117: return "the times of a steps don't rise strictly";
    case 118: return "the span of an every is 0";
    case 119: return "the script would have more than 1,048,575 places";
    case 120: return "what observers need, or what was passed through, has a cycle";
    case 121: return "what observers need, or what was passed through, is deeper than 128";
    case 122: return "an earlier stabilize was refused, and broke the session";
    case 123: return "the expert's list doesn't have this link";
    case 124: return "the expert's list has 4,096 links already";
    case 125: return "more than 64 levels are open";
    default: break;
    }
    return INCR_IS_REFUSED(answer) ? "the line was refused, by a number that this version doesn't know" : "no call answers this";
}

int32_t incr_version(void) { return INCR_VERSION; }
