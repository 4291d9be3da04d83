"""Faults of a test server, as data: an answer of its table may have a `fault` too.

    {"columns": {"n": "bigint"}, "rows": [[1], [2]],
     "fault": {"rows": 1, "error": 3024, "state": "HY000", "message": "interrupted"}}

| name | what happens |
|---|---|
| `delay` | so many seconds go by before the answer |
| `row_delay` | so many go by before each row |
| `rows`, and `error` with `state` and `message` | behind so many rows the error comes in place of the others |
| `cut`: true | the connection is cut before the answer, or behind so many `rows` |
| `cut`: a number | it is cut behind so many bytes of the answer |
| `last_words`: an error | behind the answer the server says it unasked, and closes the connection |
"""

from __future__ import annotations

import threading
from typing import Any, Mapping, NamedTuple, Optional

import mysql_session as ms


class Failure(NamedTuple):
    """An error."""

    error: int
    state: str
    message: str


def failure_of(given: Mapping[str, Any]) -> Failure:
    """An error as a table has it."""
    return Failure(int(given["error"]), str(given.get("state", "HY000")),
                   str(given.get("message", "")))


def payload_of(failure: Failure, with_state: bool = True) -> bytes:
    """An error's payload. Before a client has logged in, and unasked, it comes without a writer; in
    place of a greeting it has no state."""
    state = b"#" + failure.state.encode() if with_state else b""
    return b"\xff" + failure.error.to_bytes(2, "little") + state + failure.message.encode()


class Cut(Exception):
    """The connection is cut here."""


class Fault(NamedTuple):
    """What goes wrong with an answer."""

    delay: float = 0
    row_delay: float = 0
    rows: Optional[int] = None
    error: Optional[Failure] = None
    cut: bool = False
    bytes: Optional[int] = None
    last_words: Optional[Failure] = None

    @classmethod
    def of(cls, given: Mapping[str, Any]) -> Fault:
        """The fault that a table has. Raises ValueError for what is none."""
        names = {"delay", "row_delay", "rows", "error", "state", "message", "cut", "last_words"}
        if set(given) - names:
            raise ValueError(f"these are no faults: {sorted(set(given) - names)}")
        cut, rows = given.get("cut", False), given.get("rows")
        if rows is not None and not ("error" in given or cut is True):
            raise ValueError("`rows` needs an `error` or a `cut`")
        if "error" in given and rows is None:
            raise ValueError("an error in place of the whole answer is that answer")
        words = given.get("last_words")
        return cls(float(given.get("delay", 0)), float(given.get("row_delay", 0)),
                   None if rows is None else int(rows),
                   failure_of(given) if "error" in given else None, cut is True,
                   None if isinstance(cut, bool) else int(cut),
                   None if words is None else failure_of(words))


NO_FAULT = Fault()


class Patience:
    """Waits, but not beyond the server's end."""

    def __init__(self) -> None:
        self._ended = threading.Event()

    def end(self) -> None:
        """Nobody waits from now on."""
        self._ended.set()

    @property
    def is_over(self) -> bool:
        """Whether the server has ended."""
        return self._ended.is_set()

    def wait(self, seconds: float) -> None:
        """Lets so many seconds go by. Raises Cut where the server ends."""
        if seconds > 0 and self._ended.wait(seconds) or self._ended.is_set():
            raise Cut("the server ends")


def last_words(failure: Failure) -> bytes:
    """The packet of an error that answers nothing: its number is that of a reply's first packet less
    one."""
    return ms.put_packet(payload_of(failure))[0]
