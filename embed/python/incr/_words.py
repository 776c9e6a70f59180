"""What answers mean. Made by tools/words.py of embed/words.txt."""

IS_OPEN = -5
NO_SLOT = -4
TOO_MANY = -3
NO_MEMORY = -2
NO_SESSION = -1
BLANK = 0
NO_NOTICE = 0
ACCEPTED = 1
DONE = 1
REFUSED = 100

WORDS = {
    -5: "the slot has a session already",
    -4: "there is no slot of that number",
    -3: "the session has taken 2^30 lines, and takes no more",
    -2: "no memory was found",
    -1: "the slot has no session",
    0: "the line asks for nothing, or there is no notice of that number",
    1: "the line was accepted, or what was asked for is done, or the notice is the first one of an observer",
    2: "the notice is of another value",
    3: "the notice is that a value turned to invalid",
    101: "the line is no command",
    102: "the line has more than 4,096 bytes",
    103: "the name is declared already",
    104: "a name isn't declared",
    105: "there is no function of this name",
    106: "a type or a number of arguments doesn't fit",
    107: "the name isn't that of a variable",
    108: "the name isn't that of a bind",
    109: "the bind has no right side",
    110: "the name isn't that of an expert",
    111: "there is no observer of this name",
    112: "the observer's name is in use",
    113: "no stabilize was accepted since the observer was made",
    114: "an after, an every or a freeze isn't the whole formula",
    115: "the time is before the clock",
    116: "a time or a span is too great",
    117: "the times of a steps don't rise strictly",
    118: "the span of an every is 0",
    119: "the script would have more than 1,048,575 places",
    120: "what observers need, or what was passed through, has a cycle",
    121: "what observers need, or what was passed through, is deeper than 128",
    122: "an earlier stabilize was refused, and broke the session",
    123: "the expert's list doesn't have this link",
    124: "the expert's list has 4,096 links already",
    125: "more than 64 levels are open",
}


def words(answer: int) -> str:
    """What an answer of incr.h means, in a short sentence; 100 + n is a refusal with the number n."""
    return WORDS.get(answer, "the line was refused, by a number that this version doesn't know" if answer > REFUSED else "no call answers this")
