"""Rows of data: how they are written, read, run and told; the programs that have rows share it.

    # a comment; an empty line means nothing
    NAME = TOKENS              a name, good in what follows in the file
    NAME = FIELD | FIELD ..    a name for some fields, which is alone between bars
    HEAD | FIELD | FIELD ..    a row; its program says what heads there are, and what fields

A field is tokens, with blanks between them. Read as bytes they are

    61 0a  610a                pairs of hexadecimal digits
    "text"  'text'             a text, in which nothing is escaped, and a bar is none between fields
    NAME                       what the name refers to
    /                          the end of a line
    N * TOKEN                  the token's bytes N times
    first N of ..              the first N bytes of all that follows

(The program of crates/conformance, which reads the rows in its data, knows no text in single quotes,
and no `/`.) A row that fails is told with its file and line, what it wanted and what came;
those behind it still run. A program's last line is `N passed, M failed`, and its status is 1 where
a row failed, or none passed.
"""

import argparse
import contextlib
import functools
import glob
import os
import re
from typing import NamedTuple

ROOT = os.path.dirname(os.path.dirname(os.path.dirname(os.path.abspath(__file__))))
NAME = re.compile(r"([A-Z][A-Z0-9_]*) = (.*)")
TOKEN = re.compile(r"\"[^\"]*\"|'[^']*'|[^\s\"']+|\S")
BAR = re.compile(r"(\"[^\"]*\"|'[^']*')|\|")
DIGITS = re.compile("(?:[0-9a-f]{2})+")
# Of longer texts and bytes that differ, what is the same in front is left out.
LONG = 200


class Failure(Exception):
    """Why a row failed; and its position, where another one was run of which it is a part."""

    def __init__(self, why, place=""):
        super().__init__(why)
        self.place = place


# ---- Reading ------------------------------------------------------------------------------------


class Field:
    """A field, read as its row wants it."""

    def __init__(self, text, names=None):
        self.text, self.names = text.strip(), names or {}

    @functools.cached_property
    def tokens(self):
        """Its tokens: words, texts in their quotes, and fields where names refer to them."""
        found = [self.names.get(it, it) for it in TOKEN.findall(self.text)]
        if '"' in found or "'" in found:
            raise Failure("a text has no end")
        return found

    @functools.cached_property
    def data(self):
        """Its bytes."""
        if self.tokens[:1] == ["first"]:
            _, count, _, rest = self.text.split(None, 3)
            return Field(rest, self.names).data[:int(count)]
        found, times = bytearray(), 1
        for at, token in enumerate(self.tokens):
            if self.tokens[at + 1:at + 2] == ["*"]:
                times = int(token)
            elif token != "*":
                found += data_of(token) * times
                times = 1
        return bytes(found)

    @property
    def words(self):
        """Its tokens, and in the place of names those that they refer to."""
        words = [it.words if isinstance(it, Field) else [it] for it in self.tokens]
        return [it for some in words for it in some]

    @property
    def written(self):
        """Its words, with a blank between two."""
        return " ".join(self.words)

    @property
    def number(self):
        """The number that it is."""
        return int(self.written)

    def parts(self, mark):
        """The fields between the tokens that are this mark."""
        found = [[]]
        for token in TOKEN.findall(self.text):
            if token == mark:
                found.append([])
            else:
                found[-1].append(token)
        return [Field(" ".join(it), self.names) for it in found]


def data_of(token):
    """The bytes of a token."""
    if isinstance(token, Field):
        return token.data
    if token[0] in "\"'":
        return token[1:-1].encode()
    if token == "/":
        return b"\n"
    if not DIGITS.fullmatch(token):
        raise Failure(f"{token} is neither bytes nor a name")
    return bytes.fromhex(token)


def fields_of(text, names):
    """The fields between the bars of a text."""
    found = []
    for part in BAR.sub(lambda it: it[1] or "\n", text).split("\n"):
        named = names.get(part.strip())
        some = fields_of(named.text, named.names) if named else []
        found += some if some[1:] else [Field(part, names)]
    return found


class Row(NamedTuple):
    """A row: its file and line, what is in the line, before its first bar and behind it."""

    place: str
    line: str
    head: str
    fields: list
    names: dict


def rows_of(file):
    """The rows of a file."""
    path, names = os.path.abspath(file), {}
    shown = os.path.relpath(path, ROOT) if path.startswith(ROOT + os.sep) else file
    with open(file, encoding="utf-8") as it:
        for number, line in enumerate(map(str.strip, it), 1):
            named = NAME.fullmatch(line)
            if named:
                # Those before it stay as they are, whatever the name stood for.
                names = {**names, named[1]: Field(named[2], names)}
            elif line and not line.startswith("#"):
                head, bar, rest = line.partition("|")
                fields = fields_of(rest, names) if bar else []
                yield Row(f"{shown}:{number}", line, head.strip(), fields, names)


@contextlib.contextmanager
def reading(row):
    """Names the row where what reads it fails."""
    try:
        yield
    except Exception as error:
        why = str(error) if isinstance(error, Failure) else repr(error)
        raise Failure(f"it can't be read: {why}", row.place) from error


# ---- Running ------------------------------------------------------------------------------------


def compare(found, wanted, what="it differs", place=""):
    """Fails where what came isn't what is wanted."""
    if found == wanted:
        return
    if type(found) is type(wanted) and isinstance(found, (bytes, str)) and len(found) > LONG:
        at = len(os.path.commonprefix([found, wanted]))
        found, wanted, what = found[at:], wanted[at:], f"{what}, from {at} on"
    raise Failure(f"{what}\n  wanted {wanted!r:.1000}\n  came   {found!r:.1000}", place)


def refusal(call, *given, **named):
    """The error with a code by which a call is refused; None where it isn't."""
    try:
        call(*given, **named)
    except Exception as error:
        if not hasattr(error, "code"):
            raise
        return error
    return None


class Report:
    """Counts the rows that passed and failed, and tells each that failed."""

    def __init__(self):
        self.passed = self.failed = 0

    def read(self, files, read):
        """Returns what a call reads of files, each as a list; tells where one can't be read."""
        found = []
        for file in files:
            try:
                found += read(file)
            except Failure as error:
                self.fail(error.place, error)
        return found

    def run(self, place, check, *given):
        """Runs a row by a call that raises where it fails."""
        try:
            check(*given)
        except Failure as error:
            self.fail(error.place or place, error)
        except Exception as error:  # (whatever it is, the rows behind it still run)
            self.fail(place, repr(error))
        else:
            self.passed += 1

    def fail(self, place, why):
        """Tells that a row failed."""
        self.failed += 1
        print(f"FAILED {place}: {why}", flush=True)

    def end(self):
        """Tells the counts, and returns the status."""
        print(f"{self.passed} passed, {self.failed} failed")
        return 1 if self.failed or not self.passed else 0


def words_for(text, *patterns):
    """A parser of a program's words: files, or all of these patterns in the repository."""
    form = argparse.RawDescriptionHelpFormatter
    parser = argparse.ArgumentParser(description=text, formatter_class=form)
    files = [file for it in patterns for file in sorted(glob.glob(os.path.join(ROOT, it)))]
    parser.add_argument("files", nargs="*", metavar="FILE", default=files)
    return parser
