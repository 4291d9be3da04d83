#!/usr/bin/env python3
"""Reads the MySQL connections of a capture file, and prints what both sides said.

    read_capture.py file.pcap
    read_capture.py file.pcap.gz
    tcpdump -i lo -U -w - port 3306 | read_capture.py -

A line for each packet of a connection, as soon as it is whole. It has when its last byte was
captured, the connection's number, whose it is, and what it says. For each connection that has ended
there is a line that sums it up. With --lines events are printed as the library writes them, with
bytes in hexadecimal.

Segments that come twice or in another order are put in order. Where bytes are missing in the
capture, the connection is read up to there. Which end is the server is told by --port, else by who
opened the connection, else by who greets. One whose server doesn't greet as a MySQL server does is
left out.

A connection whose greeting wasn't captured, as of a pool, is read from its first command on, where
--port tells the server. The capabilities that both of its sides have are guessed: those by which
what was said can be read. So its first lines come once a reply with rows is whole. --capabilities
tells them in place of that, as a hexadecimal word. By --lines the greeting and the login of another
connection of that client have them: the bits that both have. MariaDB's own are behind a comma.
Statements that were prepared before the capture aren't known: their executions are Other.

Of what is said in an authentication the length alone is printed, and passwords in statements are
masked. So are the values of a statement that has one, and what the server answers to it. --secrets
prints them.

With --save the bytes of each connection go to NUMBER.client and NUMBER.server in a folder, as replays
and other examples take them.

The status is 0 where all connections were read to their ends, and 1 where not. It is 1 too if a
connection may be one with a MySQL server, but was captured in part. Then its beginning is missing, or
the bytes of one end. It is 2 where the file can't be read as a capture.
"""

from __future__ import annotations

import argparse
import dataclasses
import datetime
import gzip
import io
import os
import re
import sys
import zlib
from typing import (BinaryIO, Dict, Iterator, List, Optional, Sequence, Set, Tuple, Union,
                    cast)

from captures import SECOND, CaptureError, Skipped, segments
from masking import masked
from streams import Connection, Connections, Piece

sys.path.insert(0, os.path.join(os.path.dirname(os.path.abspath(__file__)), os.pardir))

import mysql_session as ms  # noqa: E402  (found by the line above)
from guessing import Guess  # noqa: E402  (which uses it)

# How many bytes of an end are looked at before the other end is known to be no server that greets.
FRONT = 1 << 16

# What a file of gzip begins with.
GZIP = b"\x1f\x8b"

GREETING, ERROR = 0x0A, 0xFF

# The last number of a command, and that of a bulk execution.
LAST_COMMAND, BULK = 0x20, 0xFA

# The ends of connections of which nothing more comes.
ENDS = (ms.Reason.REJECTED, ms.Reason.DENIED, ms.Reason.QUIT, ms.Reason.FAREWELL)

# Why a connection isn't read: no segment of it begins as a command, or no capabilities fit.
NO_GREETING = "its greeting wasn't captured"
NO_GUESS = "its greeting wasn't captured, and nothing could be read without it"

# What a client says that is no command.
NO_COMMANDS = (ms.SecureRequestEvent, ms.LoginEvent, ms.CutOffLoginEvent, ms.AnswerEvent,
               ms.FileDataEvent)

# Fields that aren't printed but with --lines.
HIDDEN = ("capabilities", "mariadb_capabilities", "collation", "max_packet_size", "response",
          "scramble", "status", "state_changes", "columns_follow")


# What is said in an authentication, but for a login and a change of user.
AUTHENTICATION = (ms.AuthSwitchEvent, ms.OldAuthSwitchEvent, ms.AuthMoreEvent, ms.NextFactorEvent,
                  ms.PluginDataEvent, ms.AnswerEvent)
# What a server says of a statement that may have a part of its text and of its values.
ANSWERS = (ms.ColumnEvent, ms.FieldEvent, ms.RowEvent, ms.RawRowEvent, ms.LineEvent)

# Commands about a prepared statement, and the id that stands for the last one.
OF_STATEMENTS = (ms.ExecuteEvent, ms.BulkExecuteEvent, ms.LongDataEvent, ms.FetchEvent,
                 ms.CloseEvent)
OfStatement = Union[ms.ExecuteEvent, ms.BulkExecuteEvent, ms.LongDataEvent, ms.FetchEvent,
                    ms.CloseEvent]
LAST_STATEMENT = 0xFFFFFFFF

COM_CHANGE_USER, COM_REGISTER_SLAVE, EXECUTIONS = 0x11, 0x15, (0x17, 0x18, 0xFA)

# What is shown of a field: a text, or words, or None for how many bytes it has.
Shown = Union[bytes, str, None]
STARS = "*****"
# The fields that have another name in lines.
IN_LINES = {"response": "answer", "values": "parameters", "rows": "sets",
            "unclear_cells": "unclear"}


def greets(front: bytes) -> bool:
    """Whether bytes begin as a server's greeting does, or as its refusal to greet."""
    length, number, first = int.from_bytes(front[:3], "little"), front[3], front[4]
    return length < 1024 and number == 0 and first in (GREETING, ERROR)


def shown_time(time: int) -> str:
    """A time of a capture, in UTC."""
    seconds, rest = divmod(time, SECOND)
    moment = datetime.datetime.fromtimestamp(seconds, datetime.timezone.utc)
    return f"{moment:%Y-%m-%dT%H:%M:%S}.{rest // 1000:06}Z"


def begins_command(front: bytes) -> bool:
    """Whether bytes begin as a command does."""
    return len(front) > 4 and front[3] == 0 and any(front[:3]) and (
        0 < front[4] <= LAST_COMMAND or front[4] == BULK)


def shown_duration(negative: bool, seconds: int, micros: int) -> str:
    """A duration as a server's own client shows it."""
    minutes, rest = divmod(seconds, 60)
    sign, fraction = "-" * negative, f".{micros:06}" * bool(micros)
    return f"{sign}{minutes // 60:02}:{minutes % 60:02}:{rest:02}{fraction}"


def shown_moment(it: ms.DateFields) -> str:
    """A date as a server's own client shows it."""
    fraction = f".{it.microsecond:06}" * bool(it.microsecond)
    time = f" {it.hour:02}:{it.minute:02}:{it.second:02}{fraction}"
    return f"{it.year:04}-{it.month:02}-{it.day:02}" + time * any(it[3:])


def shown(value: object) -> str:
    """A field of an event. NULL, dates and durations are as a server's own client shows them."""
    if value is None:
        return "NULL"
    if isinstance(value, ms.DateFields):
        return shown_moment(value)
    if isinstance(value, ms.TimeFields):
        hours = 24 * value.days + value.hours
        return shown_duration(value.negative, 3600 * hours + 60 * value.minutes + value.seconds,
                              value.microseconds)
    if isinstance(value, datetime.timedelta):
        length = abs(value)
        return shown_duration(value < datetime.timedelta(0), 86400 * length.days + length.seconds,
                              length.microseconds)
    if isinstance(value, bytes):
        try:
            return repr(value.decode())
        except UnicodeDecodeError:
            return "0x" + value.hex()
    if isinstance(value, ms.Column):
        return shown(value.name)
    if isinstance(value, tuple) and not hasattr(value, "_fields"):
        return "[" + ", ".join(map(shown, value)) + "]"
    return str(value)


def shown_field(value: object, hidden: Shown) -> str:
    """A field of which something is hidden."""
    if hidden is None:
        return f"({len(value)} bytes)" if isinstance(value, bytes) else STARS
    return shown(hidden) if isinstance(hidden, bytes) else hidden


def shown_event(event: ms.Event, hidden: Dict[str, Shown]) -> str:
    """An event in a few words: its name, and the fields that say something. Of some that isn't what
    they have; of an event with a field of no name all is hidden."""
    words = [event.side.name.lower(), event.name]
    if "" in hidden:
        return " ".join([*words, STARS])
    for field in dataclasses.fields(event):
        name, value = field.name, getattr(event, field.name)
        if name not in HIDDEN and value not in (None, 0, b"", ()):
            what = shown_field(value, hidden[name]) if name in hidden else shown(value)
            words.append(f"{name}={what}")
    return " ".join(words)


def shown_line(line: str, hidden: Dict[str, Shown]) -> str:
    """The line of an event, of whose fields some are hidden."""
    if "" in hidden:
        return " ".join([*line.split(" ", 2)[:2], STARS])
    for name, what in hidden.items():
        word = IN_LINES.get(name, name)
        found = re.search(rf" {word}=(.*?)(?= \w+=|$)", line)
        if found:
            if what is None:
                value = f"({len(found.group(1)) // 2} bytes)"
            else:
                value = "x" + what.hex() if isinstance(what, bytes) else what
            line = f"{line[:found.start(1)]}{value}{line[found.end(1):]}"
    return line


class Secrets:
    """Finds what isn't shown of the events of a connection."""

    def __init__(self) -> None:
        self._runs = False                  # whether the command that runs has a secret
        self._statements: Set[int] = set()  # those whose values are secrets
        self._last = False                  # whether the one that was prepared last has some

    def of(self, event: ms.Event, machine: ms.Connection) -> Dict[str, Shown]:
        """What is shown of the fields that have secrets; by no name, where all has."""
        if isinstance(event, AUTHENTICATION):
            return {"data": None}
        if event.side == ms.Side.SERVER:
            return self._of_reply(event)
        if isinstance(event, ms.FileDataEvent):
            return {}
        mode = machine.mode
        escapes = not (mode and mode.no_backslash_escapes)
        if isinstance(event, OF_STATEMENTS):
            return self._of_statement(event, escapes)
        text = b""
        if isinstance(event, (ms.QueryEvent, ms.PrepareEvent)):
            text = event.text
        elif isinstance(event, ms.OtherEvent):
            text = event.data
        text, self._runs = masked(text, escapes)
        if isinstance(event, (ms.LoginEvent, ms.ChangeUserEvent)):
            self._statements.clear()
            return {"response": None}
        if isinstance(event, ms.CommandEvent):
            return {"password": None}  # of a replica, which lines have
        if isinstance(event, ms.OtherEvent):
            first = event.data[0] if event.data else 0
            self._runs |= (first == COM_CHANGE_USER
                           or first in EXECUTIONS and bool(self._statements))
            return {"data": None} if self._runs or first == COM_REGISTER_SLAVE else {}
        return {"text": text} if self._runs else {}

    def _of_reply(self, event: ms.Event) -> Dict[str, Shown]:
        """The same of what a server says."""
        if isinstance(event, ms.PreparedEvent):
            self._last = self._runs
            self._statements.discard(event.statement)
            if self._runs:
                self._statements.add(event.statement)
        if self._runs and isinstance(event, ms.ErrorEvent):
            return {"message": STARS}
        return {"": STARS} if self._runs and isinstance(event, ANSWERS) else {}

    def _of_statement(self, event: OfStatement, escapes: bool) -> Dict[str, Shown]:
        """The same of a command about a prepared statement."""
        number = event.statement
        self._runs = self._last if number == LAST_STATEMENT else number in self._statements
        if not self._runs:
            return {}
        if isinstance(event, ms.CloseEvent):
            self._statements.discard(number)
        if isinstance(event, ms.LongDataEvent):
            return {"data": None}
        if isinstance(event, (ms.ExecuteEvent, ms.BulkExecuteEvent)):
            text, is_found = masked(event.text, escapes)
            return {"text": text if is_found else STARS, "values": STARS, "rows": STARS,
                    "rest": STARS, "unclear_cells": STARS}
        return {}


class Server:
    """Finds which end of a connection is the server."""

    def __init__(self, of: Connection, ports: Sequence[int]) -> None:
        opened = None if of.opened is None else of.other(of.opened)
        by_port = [it for it in of.directions if it.port in ports]
        self.end = by_port[0] if len(by_port) == 1 else opened
        self.is_asked = bool(by_port)
        self.is_possible = bool(by_port) or not ports
        self._fronts = {it: b"" for it in of.directions}

    def look(self, piece: Piece) -> Optional[bool]:
        """Looks at the next bytes of an end. Gives whether the server greeted; None where that
        can't be said yet."""
        self._fronts[piece.sender] += piece.data[:FRONT]
        said = {end: front for end, front in self._fronts.items() if len(front) >= 5}
        for end, front in said.items():
            if self.end in (None, end) and greets(front):
                self.end = end
                return True
        is_known = self.end in said or len(said) == 2
        return False if is_known or any(len(it) > FRONT for it in said.values()) else None


class Reading:
    """A connection of a capture, as far as it is read."""

    def __init__(self, of: Connection, ports: Sequence[int],
                 capabilities: Optional[Tuple[int, int]], folder: Optional[str]) -> None:
        self.of = of
        self._capabilities, self._folder = capabilities, folder
        self._is_within = False         # whether its greeting wasn't captured
        self._guess: Optional[Guess] = None
        self._looked_at = 0             # how many of the early pieces the guess has seen
        self._files: Dict[ms.Side, BinaryIO] = {}
        self.why: Optional[str] = None  # why it isn't read any further
        self.user, self.commands, self.rows, self.errors = b"", 0, 0, 0
        self.last = of.began            # when its last piece was captured
        self.machine: Optional[ms.Connection] = None
        self._has_ended = False
        self._secrets = Secrets()
        self._server = Server(of, ports)
        self._early: List[Piece] = []

    @property
    def is_ours(self) -> bool:
        """Whether it is a connection with a MySQL server, or to a port that was asked for."""
        return self.machine is not None or self._server.is_asked

    def take(self, piece: Piece) -> Iterator[Tuple[int, ms.Event]]:
        """Takes the next bytes of an end; gives the events that are whole by them, and when the
        last byte of each was captured."""
        self.last = piece.time
        if self.why is not None or not self._server.is_possible:
            return
        if self.machine is None:
            self._early.append(piece)
            greeted = self._server.look(piece)
            if greeted is None:
                return
            self.machine = ms.Connection() if greeted else self._within()
            if self.machine is None:
                return
        pieces, self._early = self._early or [piece], []
        yield from self._read(self.machine, pieces)

    def take_waiting(self) -> Iterator[Tuple[int, ms.Event]]:
        """Ends the wait for what tells the capabilities; gives the events of what came so far."""
        if not self._is_within or self.machine is not None or self.why is not None:
            return
        self._capabilities = self._guess.words() if self._guess else None
        self.machine = self._within() if self._capabilities else None
        if self.machine is None:
            self.why = NO_GUESS if self._guess else NO_GREETING
            return
        yield from self._read(self.machine, self._early)

    def _read(self, machine: ms.Connection, pieces: Sequence[Piece]
              ) -> Iterator[Tuple[int, ms.Event]]:
        """The events of pieces, and when each came."""
        for piece in pieces:
            for event in self._feed(machine, piece):
                yield piece.time, event

    def _within(self) -> Optional[ms.Connection]:
        """What reads it from a command on; what came before the first one is let go. None where that
        can't be said, or not yet."""
        self._is_within = True
        if self._server.end is None or not (self._capabilities or self._server.is_asked):
            self.why = NO_GREETING
            return None
        while self._early and (self._early[0].sender == self._server.end
                               or not begins_command(self._early[0].data)):
            del self._early[0]
        if self._early and self._capabilities is None:
            self._look_at_early()
        if not self._early or self._capabilities is None:
            return None
        return ms.Connection.after_login(*self._capabilities)

    def _look_at_early(self) -> None:
        """Knows the capabilities, or that none fit, once the early pieces tell them."""
        if self._guess is None:
            self._guess = Guess()
        for piece in self._early[self._looked_at:]:
            side = self._side(piece)
            if self._guess.feed(side, piece.data):
                self._capabilities = self._guess.words()
                self.why = None if self._capabilities else NO_GUESS
                return
        self._looked_at = len(self._early)

    def _side(self, piece: Piece) -> ms.Side:
        """Whose bytes a piece has."""
        return ms.Side.SERVER if piece.sender == self._server.end else ms.Side.CLIENT

    def _save(self, side: ms.Side, data: bytes) -> None:
        """Writes the next bytes of a side to its file."""
        if self._folder is not None:
            if side not in self._files:
                name = f"{self.of.number}.{side.name.lower()}"
                self._files[side] = open(os.path.join(self._folder, name), "wb")
            self._files[side].write(data)

    def close(self) -> None:
        """Ends the files, and frees what a guess holds."""
        for file in self._files.values():
            file.close()
        if self._guess is not None:
            self._guess.close()

    def _feed(self, machine: ms.Connection, piece: Piece) -> Iterator[ms.Event]:
        """Feeds the machine bytes of an end, or that it has ended."""
        side, data = self._side(piece), piece.data
        self._save(side, data)
        try:
            while data and machine.phase is not ms.Phase.OVER:
                room = machine.room(side)
                if room == 0:
                    self.why = f"the {side.name.lower()} is too far ahead"
                    return
                yield from self._counted(machine.feed(side, data[:room]))
                data = data[room:]
            if not piece.data:
                machine.close_side(side)
                yield from self._counted(iter(machine))
        except ms.ConnectionFault as fault:
            self.why = str(fault)

    def _counted(self, events: Iterator[ms.Event]) -> Iterator[ms.Event]:
        """Counts events."""
        for event in events:
            if isinstance(event, (ms.LoginEvent, ms.ChangeUserEvent)):
                self.user = event.user
            self.commands += event.side == ms.Side.CLIENT and not isinstance(event, NO_COMMANDS)
            self.rows += isinstance(event, ms.RowEvent)
            self.errors += isinstance(event, ms.ErrorEvent)
            yield event

    def shown(self, event: ms.Event, lines: bool, secrets: bool) -> str:
        """The event that was taken last: as the library writes it, or in a few words."""
        if self.machine is None:
            return ""
        hidden: Dict[str, Shown] = {} if secrets else self._secrets.of(event, self.machine)
        return (shown_line(self.machine.line(secrets=True), hidden) if lines
                else shown_event(event, hidden))

    def end(self) -> str:
        """The state of the connection, as the library writes it."""
        if self.machine is None:
            return "it has no greeting"
        end = self.machine.finish()
        self._has_ended = end.kind is ms.ConnectionEndKind.WHOLE or end.reason in ENDS
        return self.machine.line()

    @property
    def is_whole(self) -> bool:
        """Whether it was read to its end, which `end` looks for."""
        missing = any(it.missing for it in self.of.directions.values())
        return self._has_ended and self.why is None and not missing

    @property
    def is_unknown(self) -> bool:
        """Whether it may be one with a MySQL server: its beginning or the bytes of an end are missing."""
        ends = [bool(it.next) for it in self.of.directions.values()]
        return self._server.is_possible and (self.of.opened is None or ends.count(True) == 1)

    def summary(self, end: str) -> str:
        """The connection in a line."""
        ends = sorted(self.of.directions, key=lambda it: it == self._server.end)
        words = [" to ".join(map(str, ends))]
        if self.machine is not None:
            words.append(f"user {shown(self.user)}, {self.commands} commands, {self.rows} rows, "
                         f"{self.errors} errors")
            if self._guess is not None and self._capabilities is not None:
                words.append("read by the capabilities {:x},{:x}".format(*self._capabilities))
        for sender, direction in self.of.directions.items():
            if direction.repeated:
                words.append(f"{direction.repeated} bytes of {sender} came again")
            if direction.early:
                words.append(f"{direction.early} segments of {sender} came early")
            if direction.missing:
                words.append(f"{direction.missing} bytes of {sender} are missing")
        words.append(self.why or end.replace("end ", "").lower())
        return "; ".join(words)


class Reader:
    """Reads a capture, and prints what is in it."""

    def __init__(self, ports: Sequence[int], lines: bool, secrets: bool,
                 capabilities: Optional[Tuple[int, int]], folder: Optional[str]) -> None:
        self._ports, self._lines, self._secrets = ports, lines, secrets
        self._capabilities, self._folder = capabilities, folder
        self._readings: Dict[int, Reading] = {}
        self._others = self._unknown = 0
        self.whole = True

    def read(self, file: BinaryIO) -> None:
        """Reads a capture to its end."""
        skipped = Skipped()
        connections = Connections()
        try:
            for piece in connections.read(segments(file, skipped)):
                self._take(piece)
        finally:
            for reading in list(self._readings.values()):
                self._end(reading)
            self._print_rest(skipped)

    def _take(self, piece: Piece) -> None:
        """Prints the events that are whole by the next bytes of an end."""
        number = piece.connection.number
        if number not in self._readings:
            self._readings[number] = Reading(piece.connection, self._ports, self._capabilities,
                                             self._folder)
        reading = self._readings[number]
        self._print(reading, reading.take(piece))
        if piece.connection.ended:
            self._end(reading)

    def _print(self, reading: Reading, events: Iterator[Tuple[int, ms.Event]]) -> None:
        """Prints events as they are taken."""
        for time, event in events:
            line = reading.shown(event, self._lines, self._secrets)
            print(shown_time(time), f"#{reading.of.number}", line, flush=True)

    def _end(self, reading: Reading) -> None:
        """Prints the state of a connection that has ended, or with which the capture ends."""
        del self._readings[reading.of.number]
        self._print(reading, reading.take_waiting())
        reading.close()
        if not reading.is_ours:
            self._others += not reading.is_unknown
            self._unknown += reading.is_unknown
            self.whole = self.whole and not reading.is_unknown
            return
        end = reading.end()
        if self._lines:
            print(shown_time(reading.last), f"#{reading.of.number}", end)
        print(f"connection {reading.of.number}: {reading.summary(end)}", flush=True)
        self.whole = self.whole and reading.is_whole

    def _print_rest(self, skipped: Skipped) -> None:
        """Prints what wasn't read."""
        rest = {"other TCP connections": self._others,
                "TCP connections that were captured in part": self._unknown,
                "frames without TCP": skipped.other, "fragments of IP": skipped.fragments,
                "damaged frames": skipped.damaged}
        told = [f"{count} {what}" for what, count in rest.items() if count]
        if told:
            print("not read: " + ", ".join(told))


def capability_words(text: str) -> Tuple[int, int]:
    """Capabilities, and behind a comma MariaDB's own, as hexadecimal words."""
    word, _, own = text.partition(",")
    return int(word, 16), int(own or "0", 16)


def options() -> argparse.Namespace:
    """What the command line says."""
    parser = argparse.ArgumentParser(description="Reads the MySQL connections of a capture file.")
    parser.add_argument("capture", metavar="FILE", help="a pcap or pcapng file, or - for the input")
    parser.add_argument("--port", type=int, action="append", default=[],
                        help="a port of servers; without any, servers are known by their greeting")
    parser.add_argument("--lines", action="store_true",
                        help="events as the library writes them, with bytes in hexadecimal")
    parser.add_argument("--secrets", action="store_true", help="passwords, too")
    parser.add_argument("--capabilities", metavar="WORD[,WORD]", type=capability_words,
                        help="of connections whose greeting wasn't captured: those of both sides, "
                        "which are guessed else")
    parser.add_argument("--save", metavar="FOLDER", help="where the bytes of connections go")
    return parser.parse_args()


def unpacked(file: io.BufferedReader) -> BinaryIO:
    """A file, or what is in it, where it is one of gzip."""
    return cast(BinaryIO, gzip.open(file)) if file.peek(2)[:2] == GZIP else file


def main() -> int:
    given = options()
    reader = Reader(given.port, given.lines, given.secrets, given.capabilities, given.save)
    try:
        if given.save:
            os.makedirs(given.save, exist_ok=True)
        if given.capture == "-":
            reader.read(unpacked(cast(io.BufferedReader, sys.stdin.buffer)))
        else:
            with open(given.capture, "rb") as file:
                reader.read(unpacked(file))
    except KeyboardInterrupt:
        pass  # the capture was stopped, and what is known of it was printed
    except (OSError, EOFError, zlib.error, CaptureError) as error:
        print(f"read_capture: {error}", file=sys.stderr)
        return 2
    return 0 if reader.whole else 1


if __name__ == "__main__":
    sys.exit(main())
