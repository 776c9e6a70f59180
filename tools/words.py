#!/usr/bin/env python3
"""Makes what C, Rust and Python say of an answer from one table, embed/words.txt.

words.py            writes embed/c/words.c, words.rs of the Rust crate, _words.py of the Python package, and the enum of embed/incr.h
words.py --check    tells what isn't as the table has it, each refusal of docs/language.md without a sentence and each sentence without
                    a refusal, and each place where the version isn't that of incr.h; ends with 1 where it told something
"""
import os
import re
import sys

ROOT = os.path.dirname(os.path.dirname(os.path.abspath(__file__)))
HEADER = "embed/incr.h"
REFUSED = 100
UNKNOWN_REFUSAL = "the line was refused, by a number that this version doesn't know"
UNKNOWN = "no call answers this"
MADE = "Made by tools/words.py of embed/words.txt."


def text_of(name):
    with open(os.path.join(ROOT, name), encoding="utf-8") as file:
        return file.read()


def rows():
    """The rows of the table: number, name, words."""
    for line in text_of("embed/words.txt").splitlines():
        if line and not line.startswith("#"):
            number, name, words = line.split(None, 2)
            yield int(number), name, words


def words_by_number():
    """What is said of each number: where it has several meanings all of them."""
    words = {}
    for number, _, sentence in rows():
        words[number] = f"{words[number]}, or {sentence}" if number in words else sentence
    return words


def c_table():
    cases = "".join(f'    case {number}: return "{words}";\n' for number, words in words_by_number().items())
    return f"""/* What answers mean, and the version. {MADE} */
#include "incr.h"

const char *incr_errstr(int32_t answer) {{
    switch (answer) {{
{cases}    default: break;
    }}
    return INCR_IS_REFUSED(answer) ? "{UNKNOWN_REFUSAL}" : "{UNKNOWN}";
}}

int32_t incr_version(void) {{ return INCR_VERSION; }}
"""


def c_enum():
    lines = []
    table = list(rows())
    for at, (number, name, words) in enumerate(table):
        if number > REFUSED and table[at - 1][0] <= REFUSED:
            lines.append((f"INCR_REFUSED = {REFUSED},", "and the number of the refusal; no call answers this alone"))
        lines.append((f"INCR_{name} = {number}" + ("," if at + 1 < len(table) else ""), words))
    width = max(len(text) for text, _ in lines)
    return "".join(f"    {text:<{width}} /* {words} */\n" for text, words in lines)


def header():
    text = text_of(HEADER)
    made, count = re.subn(r"(enum incr_answer \{\n).*?(\};)", lambda m: m[1] + c_enum() + m[2], text, flags=re.S)
    if count != 1:
        sys.exit("words: incr.h has no enum incr_answer")
    return made


def rust_table():
    named = {name: (number, words) for number, name, words in rows()}
    refusals = "".join(f'        {number - REFUSED} => "{words}",\n' for number, _, words in rows() if number > REFUSED)

    def arms(kind, variants):
        return "".join(f'            {kind}::{variant} => "{named[name][1]}",\n' for variant, name in variants)

    def numbers(kind, variants):
        return "".join(f"            {kind}::{variant} => {named[name][0]},\n" for variant, name in variants)

    took = [("Blank", "BLANK"), ("Accepted", "ACCEPTED")]
    fault = [("NoMemory", "NO_MEMORY"), ("TooManyLines", "TOO_MANY")]
    return f"""//! What answers mean. {MADE}

use crate::{{Fault, Took}};
use std::fmt;

/// What a refusal with this number of docs/language.md means.
fn refusal(number: u8) -> &'static str {{
    match number {{
{refusals}        _ => "{UNKNOWN_REFUSAL}",
    }}
}}

impl Took {{
    /// The answer of incr.h: 0, 1, or 100 and the number of the refusal.
    pub fn number(self) -> i32 {{
        match self {{
{numbers("Took", took)}            Took::Refused(number) => {REFUSED} + i32::from(number),
        }}
    }}

    /// What it means, in a short sentence.
    pub fn words(self) -> &'static str {{
        match self {{
{arms("Took", took)}            Took::Refused(number) => refusal(number),
        }}
    }}
}}

impl fmt::Display for Took {{
    fn fmt(&self, f: &mut fmt::Formatter<'_>) -> fmt::Result {{
        match self {{
            Took::Refused(number) => write!(f, "refused {{number}}: {{}}", self.words()),
            Took::Blank | Took::Accepted => f.write_str(self.words()),
        }}
    }}
}}

impl Fault {{
    /// The answer of incr.h.
    pub fn number(self) -> i32 {{
        match self {{
{numbers("Fault", fault)}        }}
    }}

    /// What it means, in a short sentence.
    pub fn words(self) -> &'static str {{
        match self {{
{arms("Fault", fault)}        }}
    }}
}}

impl fmt::Display for Fault {{
    fn fmt(&self, f: &mut fmt::Formatter<'_>) -> fmt::Result {{
        f.write_str(self.words())
    }}
}}
"""


def python_table():
    table = "".join(f'    {number}: "{words}",\n' for number, words in words_by_number().items())
    names = "".join(f"{name} = {number}\n" for number, name, _ in rows() if number < 2 and name != "INIT")
    return f'''"""What answers mean. {MADE}"""

{names}REFUSED = {REFUSED}

WORDS = {{
{table}}}


def words(answer: int) -> str:
    """What an answer of incr.h means, in a short sentence; 100 + n is a refusal with the number n."""
    return WORDS.get(answer, "{UNKNOWN_REFUSAL}" if answer > REFUSED else "{UNKNOWN}")
'''


def made():
    return {
        HEADER: header(),
        "embed/c/words.c": c_table(),
        "embed/rust/garovymba/src/words.rs": rust_table(),
        "embed/python/incr/_words.py": python_table(),
    }


def faults():
    for name, text in made().items():
        try:
            is_so = text_of(name) == text
        except FileNotFoundError:
            is_so = False
        if not is_so:
            yield f"{name} isn't what embed/words.txt says: run tools/words.py"
    numbers = [number for number, _, _ in rows()]
    names = [name for _, name, _ in rows()]
    if numbers != sorted(numbers) or len(set(names)) != len(names):
        yield "embed/words.txt: the numbers don't rise, or a name comes twice"
    said = {number - REFUSED for number in numbers if number > REFUSED}
    table = text_of("docs/language.md").split("\n## Refusals\n")[1].split("\n## ")[0]
    told = {int(number) for number in re.findall(r"^\| (\d+) \|", table, re.M)}
    for number in sorted(told - said):
        yield f"embed/words.txt: refusal {number} of docs/language.md has no sentence"
    for number in sorted(said - told):
        yield f"embed/words.txt: {REFUSED + number} is no refusal of docs/language.md"
    yield from versions()


def versions():
    """Where the version isn't that of incr.h."""
    version = re.search(r'^#define INCR_VERSION_TEXT "(.*)"$', text_of(HEADER), re.M)[1]
    major, minor, patch = map(int, version.split("."))
    places = [
        (HEADER, r"^#define INCR_VERSION (\d+)", str(10000 * major + 100 * minor + patch)),
        ("embed/python/incr/__init__.py", r'^__version__ = "(.*)"', version),
        ("embed/rust/garovymba-sys/Cargo.toml", r'^version = "(.*)"', version),
        ("embed/rust/garovymba/Cargo.toml", r'^version = "(.*)"', version),
        ("embed/rust/garovymba/Cargo.toml", r'^garovymba-sys = .* version = "(.*)"', version),
        ("embed/rust/Cargo.lock", r'^name = "garovymba"\nversion = "(.*)"', version),
        ("embed/rust/Cargo.lock", r'^name = "garovymba-sys"\nversion = "(.*)"', version),
        ("embed/incr.map", r"^INCR_(\d+) \{", str(major)),
    ]
    for name, pattern, wanted in places:
        found = re.search(pattern, text_of(name), re.M)
        if not found or found[1] != wanted:
            yield f"{name}: the version isn't {wanted}, as incr.h has it"


def main():
    if sys.argv[1:] == ["--check"]:
        told = list(faults())
        print("\n".join(told) or f"words: {len(words_by_number())} numbers have words, the same in C, Rust and Python")
        return 1 if told else 0
    if sys.argv[1:]:
        print(__doc__, file=sys.stderr)
        return 2
    for name, text in made().items():
        with open(os.path.join(ROOT, name), "w", encoding="utf-8") as file:
            file.write(text)
    return 0


if __name__ == "__main__":
    sys.exit(main())
