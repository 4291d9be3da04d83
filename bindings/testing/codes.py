"""Prints the codes of the library as the page `bindings/CODES.md`; `bindings/test` compares both.

    codes.py [--check]

Each code has one name in C, Rust and Python. The names and numbers are the header's, the texts those
of the library in the folder that MYSQL_SESSION_LIBRARY names, or of bindings/out.
"""

import os
import re
import sys

TESTING = os.path.dirname(os.path.abspath(__file__))
BINDINGS = os.path.dirname(TESTING)
PAGE = os.path.join(BINDINGS, "CODES.md")
HEADER = os.path.join(BINDINGS, "c", "mysql_session.h")

BEGINNING = """# Codes

What a call of the library answers that isn't done. A code has the same name in C (behind
`MYSQL_SESSION_`), in Rust (`Code`) and in Python (`Code`); its text is
`mysql_session_code_text`'s, which errors of Rust and Python show. Which call answers which code, and
in which order, stands at the call in [mysql_session.h](c/mysql_session.h). This page is written by
`testing/codes.py`.
"""

# The codes from a number on: what they are of, and the enum of the library for Rattle.
PARTS = [
    (0, "Any call", None),
    (100, "A stream of commands that is received or recoded", "StreamFault"),
    (200, "Parameter sets that are sent", "Refusal"),
    (300, "A reply that is read", "ReplyFault"),
    (400, "A reply that is written", "ReplyRefusal"),
    (500, "Bytes of a connection that are fed", "FeedRefusal"),
    (510, "A connection that is read", "Fault"),
    (520, "A payload that is put on a connection", "PayloadRefusal"),
]
# Variants that aren't called as their codes.
VARIANTS = {"CONNECTION_KEPT": "Fault::Held", "CONNECTION_NOT_DUE": "ReplyFault::NotDue",
            "CONNECTION_NOT_ITS_TURN": "PayloadRefusal::NotDue", "MIXED": "Refusal::Mixed"}


def codes_of_header():
    """Returns the numbers and names of the header's codes."""
    with open(HEADER, encoding="utf-8") as it:
        body = re.search(r"enum mysql_session_code \{(.*?)\n\};", it.read(), re.S)[1]
    return [(int(number), name) for name, number in
            re.findall(r"^    MYSQL_SESSION_(\w+) = (\d+)", body, re.M)]


def variant_of(name, enum):
    """Returns what the library for Rattle calls a code."""
    if name in VARIANTS:
        return f"`{VARIANTS[name]}`"
    if not enum:
        return ""
    words = name.split("_")[1:]
    return f"`{enum}::{''.join(it.capitalize() for it in words)}`"


def page(text_of):
    """Returns the page, where a code has this text."""
    lines, codes = [BEGINNING], codes_of_header()
    ends = [it[0] for it in PARTS[1:]] + [sys.maxsize]
    for (begin, title, enum), end in zip(PARTS, ends):
        lines += [f"## {title}\n", "| code | name | in Rattle | text |", "|---|---|---|---|"]
        lines += [f"| {number} | `{name}` | {variant_of(name, enum)} | {text_of(number)} |"
                  for number, name in codes if begin <= number < end]
        lines.append("")
    return "\n".join(lines)


def main():
    sys.path.insert(0, os.path.join(BINDINGS, "python"))
    from mysql_session import code_text
    made = page(code_text)
    if sys.argv[1:] != ["--check"]:
        sys.stdout.write(made)
        return 0
    with open(PAGE, encoding="utf-8") as it:
        if it.read() == made:
            return 0
    print("bindings/CODES.md isn't what bindings/testing/codes.py prints")
    return 1


if __name__ == "__main__":
    sys.exit(main())
