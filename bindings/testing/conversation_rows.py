"""The rows of conversations: what `conversations.py` and the tests in C read.

    conversation_rows.py MADE FILE ..

Writes the conversations of files as MADE, for programs that read no texts. There is a line for each
step and event, and behind that of bytes so many of them. The head of each file of
crates/connection_conformance/data says in which form conversations are, and rows.py how rows are.
"""

import os
import sys
from typing import Dict, List, NamedTuple, Optional, Tuple

from rows import Failure, Row, reading, rows_of
from streams import packets_of

DEFAULT_LIMITS = (16777216, 16777216, 134217728)
CLIENT, SERVER = 0, 1
SIDES = {"client": CLIENT, "server": SERVER}
# The library's flags of modes and spellings.
SPELLINGS = {"quoted": 0, "hexadecimal": 4}
MODES = {"plain": 0, "NO_BACKSLASH_ESCAPES": 1, "ANSI_QUOTES": 2, "both": 3, "unknown": 8}


class Wanted(NamedTuple):
    """The line of an event that has to come."""

    place: str
    side: Optional[int]
    text: str

    def is_line(self, line: str) -> bool:
        """Whether a line is it, or begins as it does where only its beginning is told."""
        side, _, said = line.partition(" ")
        if self.side is not None and SIDES.get(side) != self.side:
            return False
        if self.text.endswith(" .."):
            return (said + " ").startswith(self.text[:-2])
        return said == self.text


class Step:
    """A row: what is done, and the events that have to come by it."""

    def __init__(self, place: str, kind: str, side: Optional[int] = None, data: bytes = b"",
                 number: int = 0):
        self.place, self.kind, self.side, self.data, self.number = place, kind, side, data, number
        self.wanted: List[Wanted] = []


class Conversation:
    """A conversation of a file."""

    def __init__(self, place: str, title: str):
        self.place, self.title = place, title
        self.in_force: Optional[Tuple[int, int]] = None
        self.limits = DEFAULT_LIMITS
        self.steps: List[Step] = []
        self.end, self.end_place, self.next = "", place, 0

    def take(self, row: Row) -> None:
        """A row of it."""
        kind, *words = row.head.split()
        texts, place = [it.text for it in row.fields], row.place
        if row.head == "in force":
            self.in_force = (int(texts[0], 16), int(texts[1], 16))
        elif kind == "limits":
            self.limits = tuple(map(int, texts))
        elif kind in ("command", "client", "server"):
            self.payload(place, kind, words, row.fields[0].data, texts[1])
        elif kind == "bytes":
            self.steps.append(Step(place, "feed", SIDES[words[0]], row.fields[0].data))
        elif kind == "event":
            self.steps[-1].wanted.append(Wanted(place, None, texts[0]))
        elif kind == "held":
            self.steps.append(Step(place, "held", number=int(texts[0])))
        elif kind == "mode":
            self.steps.append(Step(place, "mode", number=MODES[texts[0]]))
        elif kind == "spelling":
            self.steps.append(Step(place, "spelling", number=SPELLINGS[texts[0]]))
        elif kind == "turn":
            side = None if texts[0] == "nobody" else SIDES[texts[0]]
            self.steps.append(Step(place, "turn", side))
        elif kind == "close":
            self.steps.append(Step(place, "close", SIDES[texts[0]]))
        elif kind == "end":
            self.end, self.end_place = "end " + texts[0], place
        elif row.head != "at greeting":
            raise Failure(f"no row: {row.head}")

    def payload(self, place: str, kind: str, words: List[str], payload: bytes, line: str) -> None:
        """A payload of a side."""
        side = SIDES.get(kind, CLIENT)
        if kind == "command":
            self.next = 0
        if words:
            self.next = int(words[0].lstrip("@"))
        packets, self.next = packets_of(payload, self.next)
        step = Step(place, "feed", side, packets)
        if line:
            step.wanted.append(Wanted(place, side, line))
        self.steps.append(step)

    def wanted(self) -> List[Wanted]:
        """All events."""
        return [it for step in self.steps for it in step.wanted]

    def streams(self) -> Dict[int, bytes]:
        """The bytes of both sides."""
        return {side: b"".join(it.data for it in self.steps
                               if it.kind == "feed" and it.side == side)
                for side in (CLIENT, SERVER)}

    def depends_on_order(self) -> bool:
        """Whether what comes depends on which bytes come first."""
        kinds = [it.kind for it in self.steps]
        behind = kinds[kinds.index("close"):] if "close" in kinds else []
        return self.limits != DEFAULT_LIMITS or "feed" in behind


def read_rows(file: str) -> List[Conversation]:
    """The conversations of a file."""
    found: List[Conversation] = []
    for row in rows_of(file):
        with reading(row):
            if row.line.startswith("conversation "):
                if found and not found[-1].end:
                    raise Failure("the conversation before has no end")
                found.append(Conversation(row.place, row.line.partition(" ")[2].strip()))
            elif found[-1].end:
                raise Failure("the conversation has ended")
            else:
                found[-1].take(row)
    return found


def flat(made: str, files: List[str]) -> None:
    """Writes the conversations of files."""
    with open(made, "wb") as it:
        for of in (of for file in files for of in read_rows(file)):
            begins = "greeting 0 0" if of.in_force is None else "login %d %d" % of.in_force
            limits = " ".join(map(str, of.limits))
            it.write(f"conversation {os.path.basename(of.place)}\nbegin {begins} {limits} "
                     f"{0 if of.depends_on_order() else 1}\n".encode())
            for step in of.steps:
                side = 2 if step.side is None else step.side
                it.write(f"{step.kind} {side} {len(step.data) or step.number}\n".encode())
                it.write(step.data)
                for wanted in step.wanted:
                    side = 2 if wanted.side is None else wanted.side
                    it.write(f"line {side} {wanted.text}\n".encode())
            it.write(of.end.encode() + b"\n")


if __name__ == "__main__":
    flat(sys.argv[1], sys.argv[2:])
