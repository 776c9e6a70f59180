//! What answers mean. Made by tools/words.py of embed/words.txt.

use crate::{Fault, Took};
use std::fmt;

/// What a refusal with this number of docs/language.md means.
fn refusal(number: u8) -> &'static str {
    match number {
        1 => "the line is no command",
        2 => "the line has more than 4,096 bytes",
        3 => "the name is declared already",
        4 => "a name isn't declared",
        5 => "there is no function of this name",
        6 => "a type or a number of arguments doesn't fit",
        7 => "the name isn't that of a variable",
        8 => "the name isn't that of a bind",
        9 => "the bind has no right side",
        10 => "the name isn't that of an expert",
        11 => "there is no observer of this name",
        12 => "the observer's name is in use",
        13 => "no stabilize was accepted since the observer was made",
        14 => "an after, an every or a freeze isn't the whole formula",
        15 => "the time is before the clock",
        16 => "a time or a span is too great",
        17 => "the times of a steps don't rise strictly",
        18 => "the span of an every is 0",
        19 => "the script would have more than 1,048,575 places",
        20 => "what observers need, or what was passed through, has a cycle",
        21 => "what observers need, or what was passed through, is deeper than 128",
        22 => "an earlier stabilize was refused, and broke the session",
        23 => "the expert's list doesn't have this link",
        24 => "the expert's list has 4,096 links already",
        25 => "more than 64 levels are open",
        _ => "the line was refused, by a number that this version doesn't know",
    }
}

impl Took {
    /// The answer of incr.h: 0, 1, or 100 and the number of the refusal.
    pub fn number(self) -> i32 {
        match self {
            Took::Blank => 0,
            Took::Accepted => 1,
            Took::Refused(number) => 100 + i32::from(number),
        }
    }

    /// What it means, in a short sentence.
    pub fn words(self) -> &'static str {
        match self {
            Took::Blank => "the line asks for nothing",
            Took::Accepted => "the line was accepted",
            Took::Refused(number) => refusal(number),
        }
    }
}

impl fmt::Display for Took {
    fn fmt(&self, f: &mut fmt::Formatter<'_>) -> fmt::Result {
        match self {
            Took::Refused(number) => write!(f, "refused {number}: {}", self.words()),
            Took::Blank | Took::Accepted => f.write_str(self.words()),
        }
    }
}

impl Fault {
    /// The answer of incr.h.
    pub fn number(self) -> i32 {
        match self {
            Fault::NoMemory => -2,
            Fault::TooManyLines => -3,
        }
    }

    /// What it means, in a short sentence.
    pub fn words(self) -> &'static str {
        match self {
            Fault::NoMemory => "no memory was found",
            Fault::TooManyLines => "the session has taken 2^30 lines, and takes no more",
        }
    }
}

impl fmt::Display for Fault {
    fn fmt(&self, f: &mut fmt::Formatter<'_>) -> fmt::Result {
        f.write_str(self.words())
    }
}
