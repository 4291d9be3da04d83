"""What crates.txt says: the crates, what each lists, and which of them the gate doesn't prove."""

import pathlib
import re

ROOT = pathlib.Path(__file__).resolve().parent.parent
CRATES = ROOT / "crates"
LISTED = ROOT / "crates.txt"
# A paragraph in capitals begins a part. The crates of this one aren't proved.
PART, UNPROVED = re.compile(r"# [A-Z]{3}"), "# UNPROVED: "
CRATE = re.compile(r"(\w+)([^:]*):(.*)")


def paragraphs():
    """Yields the paragraphs of crates.txt, each with whether it is of what isn't proved."""
    is_unproved = False
    for it in LISTED.read_text(encoding="utf-8").strip().split("\n\n"):
        if PART.match(it):
            is_unproved = it.startswith(UNPROVED)
        yield it, is_unproved


def lines_of(paragraph):
    """Yields the crates of a paragraph: the name, the kind behind it, and the libraries."""
    for line in paragraph.split("\n"):
        found = CRATE.fullmatch(line.partition("#")[0].strip())
        if found:
            yield found[1], found[2].strip(), found[3].split()


def crates(of_unproved=None):
    """Returns the crates, each with the libraries that it lists: all, those that aren't proved, or the others."""
    return {name: uses for it, is_unproved in paragraphs() if of_unproved in (None, is_unproved)
            for name, _, uses in lines_of(it)}


def kinds():
    """Returns the words behind the crates' names: `staticlib`, or none."""
    return {name: kind for it, _ in paragraphs() for name, kind, _ in lines_of(it)}


def below(names, uses):
    """Returns these crates and all below them, by the libraries that each lists."""
    found, left = set(), list(names)
    while left:
        name = left.pop()
        if name in uses and name not in found:
            found.add(name)
            left += uses[name]
    return found


def is_program(name):
    """Whether a crate is a program."""
    return (CRATES / name / "src" / "main.rt").is_file()


def proved_text():
    """Returns crates.txt without what isn't proved."""
    return "\n\n".join(it for it, is_unproved in paragraphs() if not is_unproved) + "\n"
