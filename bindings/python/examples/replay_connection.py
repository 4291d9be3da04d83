#!/usr/bin/env python3
"""Says a recorded connection's commands to another server, and compares the answers.

    replay_connection.py recorded.client recorded.server 127.0.0.1:3306 --user root

The files have the bytes of both sides, as a proxy or a capture has them. The recording's own login
isn't replayed: the connection is logged in anew, with those of the recording's capabilities that
the server offers. Commands are put as they were recorded, with the ids that this server gives its
statements. A file that the server asks for is the recorded one. Where the recording has query
attributes and the server doesn't know them, queries and executions are laid out without them.

Each command is printed with what answers it, and where the recorded answer differs with that too.
Answers are alike where they have the same results: as many rows or affected rows, or the same
error. What would end a connection or the server isn't said. Nor are changes of the user, nor what
servers say among themselves. All of it is told as left out.

The status is 0 where all answers are alike, and 1 where not, or where the recording can't be read
to its end. It is 2 where the replay itself failed. The password is in the environment variable
MYSQL_PASSWORD, if there is one. A server of MySQL that doesn't know it yet wants it by TLS, or
encrypted: the options say how.
"""

from __future__ import annotations

import argparse
import itertools
import os
import pathlib
import socket
import sys
from typing import Dict, Iterable, Iterator, List, NamedTuple, Optional

from client import Client, Gone, Protection, Refused

import mysql_session as ms
from mysql_session import Capability, Command, Side

LIMIT = 1 << 26

# The bit of a status that says that a cursor was opened, whose rows are fetched.
CURSOR = 64

# Capabilities that a login here can't have, and those that it has beside the recorded ones.
WITHOUT = (Capability.COMPRESS | Capability.ZSTD_COMPRESSION_ALGORITHM | Capability.SSL
           | Capability.CONNECT_ATTRS)
NEEDED = (Capability.PROTOCOL_41 | Capability.SECURE_CONNECTION | Capability.PLUGIN_AUTH
          | Capability.CONNECT_WITH_DB)

# Commands by their numbers that aren't said: what ends a connection or a server, another user, and
# what servers say among themselves.
NOT_SAID = (0x01, 0x08, 0x0C, 0x11, 0x12, 0x13, 0x15, 0x1E, 0x20)

# Commands that name a statement by an id.
QUERY, EXECUTE, CLOSE, LAST = 0x03, 0x17, 0x19, 0xFFFFFFFF
ABOUT_A_STATEMENT = (EXECUTE, 0x18, CLOSE, 0x1A, 0x1C, 0xFA)

# What a client says as it logs in.
LOGIN = (ms.LoginEvent, ms.CutOffLoginEvent, ms.SecureRequestEvent, ms.AnswerEvent)

AN_ERROR = (ms.ErrorEvent, ms.DeniedEvent)
AN_OK = (ms.OkEvent, ms.AcceptedEvent)


# ---- What was recorded --------------------------------------------------------------------------


class Answers:
    """What answers a command, in a few words for each result."""

    def __init__(self) -> None:
        self.words: List[str] = []
        self._rows: Optional[int] = None

    def take(self, event: ms.Event) -> None:
        """Takes the next event of the reply."""
        if isinstance(event, ms.ColumnCountEvent):
            self._rows = 0
        elif isinstance(event, (ms.RowEvent, ms.RawRowEvent, ms.FieldEvent)):
            self._rows = (self._rows or 0) + 1
        elif isinstance(event, ms.RowsEndEvent):
            self._add(f"{self._rows or 0} rows")
        elif isinstance(event, ms.ColumnsEndEvent) and event.status & CURSOR:
            self._add("a cursor")
        elif isinstance(event, AN_ERROR):
            self._add(f"error {event.code}")
        elif isinstance(event, AN_OK):
            self._add(f"OK, {event.affected_rows} rows affected")
        elif isinstance(event, ms.PreparedEvent):
            self._add(f"a statement of {event.parameters} parameters and {event.columns} columns")
        elif isinstance(event, ms.LineEvent):
            self._add("a line")
        elif isinstance(event, ms.FileRequestEvent):
            self._add(f"asks for {event.file.decode(errors='replace')}")

    def _add(self, word: str) -> None:
        self.words.append(word)
        self._rows = None

    def __str__(self) -> str:
        return "; ".join(self.words) or "nothing"


class Recorded(NamedTuple):
    """A command of the recording: its event, its payload, the prepared statement that it is about,
    and what answered it."""

    event: ms.Event
    payload: bytes
    statement: Optional[int]
    answers: Answers
    file: List[bytes]
    """What the client sent of a file that the server asked for."""
    given: List[int]
    """The id of the statement that was prepared by it."""


def payloads_of(stream: bytes) -> Iterator[bytes]:
    """The payloads of a stream, by any numbers of their packets."""
    at, held = 0, b""
    while at + 4 <= len(stream):
        length = int.from_bytes(stream[at:at + 3], "little")
        held += stream[at + 4:at + 4 + length]
        at += 4 + length
        if length < 0xFFFFFF:
            yield held
            held = b""


def named_in(payload: bytes) -> Optional[int]:
    """The id of the statement that a command names."""
    is_named = len(payload) >= 5 and payload[0] in ABOUT_A_STATEMENT
    return int.from_bytes(payload[1:5], "little") if is_named else None


class Recording:
    """A recorded connection."""

    def __init__(self, client: bytes, server: bytes) -> None:
        self._connection = ms.Connection(client=LIMIT, server=LIMIT, held=8 * LIMIT)
        self._streams = {Side.CLIENT: client, Side.SERVER: server}
        # Those in force, once the login is read.
        self.capabilities = self.mariadb_capabilities = 0

    def commands(self) -> Iterator[Recorded]:
        """Its commands, each once its reply is known. Raises ConnectionFault."""
        payloads = payloads_of(self._streams[Side.CLIENT])
        command: Optional[Recorded] = None
        last: Optional[int] = None
        for event in self._events():
            payload = next(payloads) if event.side is Side.CLIENT else b""
            if isinstance(event, LOGIN):
                self.capabilities = self._connection.capabilities
                self.mariadb_capabilities = self._connection.mariadb_capabilities
            elif isinstance(event, ms.FileDataEvent) and command is not None:
                command.file.append(payload)
            elif event.side is Side.CLIENT:
                if command is not None:
                    yield command
                named = named_in(payload)
                command = Recorded(event, payload, last if named == LAST else named, Answers(), [],
                                   [])
            elif command is not None:
                command.answers.take(event)
                if isinstance(event, ms.PreparedEvent):
                    last = event.statement
                    command.given.append(last)
        if command is not None:
            yield command

    def _events(self) -> Iterator[ms.Event]:
        """Its events, up to a fault. Of the side whose turn it is as much is fed as there is room
        for."""
        rest = dict(self._streams)
        turn = self._connection.turn
        while turn is not None and rest[turn]:
            size = self._connection.room(turn)
            piece, rest[turn] = rest[turn][:size], rest[turn][size:]
            yield from self._connection.feed(turn, piece)
            turn = self._connection.turn


# ---- What is said again -------------------------------------------------------------------------


class LeftOut(Exception):
    """A command isn't said, for this reason."""


class Replay:
    """Says recorded commands to another server."""

    def __init__(self, client: Client, capabilities: int) -> None:
        self._client = client
        # Attributes of queries change how a query and an execution are laid out.
        self._has_other_layout = bool((capabilities ^ client.connection.capabilities)
                                      & Capability.QUERY_ATTRIBUTES)
        # The ids of statements here, by those that the recording has.
        self._ids: Dict[int, int] = {}

    def say(self, it: Recorded) -> Answers:
        """Says a command; gives what answers it. Raises LeftOut."""
        number = it.payload[0] if it.payload else 0
        if number in NOT_SAID:
            raise LeftOut("it is no command for a replay")
        if isinstance(it.event, ms.PrepareEvent):
            for given in it.given:
                self._ids.pop(given, None)
        if self._has_other_layout and number in (QUERY, EXECUTE):
            return self._answers(it, self._said_anew(it.event))
        return self._answers(it, self._client.ask(self._payload(it, number)))

    def _payload(self, it: Recorded, number: int) -> bytes:
        """A command's payload, with the id that its statement has here."""
        if named_in(it.payload) is None:
            return it.payload
        name = self._id(it)
        self._compare(name, it.event)
        if number == CLOSE:
            self._ids.pop(it.statement or 0, None)
        return it.payload[:1] + name.to_bytes(4, "little") + it.payload[5:]

    def _id(self, it: Recorded) -> int:
        """The id that this server gave the statement that a command is about."""
        if it.statement is None or it.statement not in self._ids:
            raise LeftOut("its statement isn't prepared here")
        return self._ids[it.statement]

    def _compare(self, name: int, event: ms.Event) -> None:
        """Raises LeftOut of an execution with another number of values than this server counted
        parameters: it would run it with other values."""
        statement = self._client.connection.statement(name)
        rows = ([event.values] if isinstance(event, ms.ExecuteEvent)
                else event.rows if isinstance(event, ms.BulkExecuteEvent) else ())
        if statement and any(len(row) != statement.parameters for row in rows):
            raise LeftOut("this server counted another number of parameters")

    def _said_anew(self, event: ms.Event) -> Iterator[ms.Event]:
        """Says a query or an execution by the layout that is in force here, without attributes;
        gives its reply."""
        if isinstance(event, ms.QueryEvent):
            return self._client.ask(Command.query(event.text, self._client.connection.capabilities))
        if not isinstance(event, ms.ExecuteEvent) or event.statement not in self._ids:
            raise LeftOut("it is laid out by capabilities that this server hasn't")
        values = [repr(it) if isinstance(it, float) else it for it in event.values]
        name = self._ids[event.statement]
        self._compare(name, event)
        packets = ms.executions(event.text, [values], name, limit=LIMIT)
        return next(self._client.ask_sets(name, len(values), packets))

    def _answers(self, it: Recorded, reply: Iterator[ms.Event]) -> Answers:
        """What a reply says. A file that it asks for is the recorded one."""
        answers, pieces = Answers(), iter(it.file)
        for event in reply:
            answers.take(event)
            if isinstance(event, ms.FileRequestEvent):
                # No bytes end a file; behind them the next one begins.
                self._client.put_file(itertools.takewhile(bool, pieces))
            if isinstance(event, ms.PreparedEvent) and it.given:
                self._ids[it.given[0]] = event.statement
        return answers


def shown(event: ms.Event) -> str:
    """A command in a few words."""
    text = getattr(event, "text", b"").decode(errors="replace")
    name = f"command {event.number}" if isinstance(event, ms.CommandEvent) else event.name
    return f"{name} {text[:100]}".rstrip()


def replay(commands: Iterable[Recorded], to: Replay) -> int:
    """Says commands, and prints what answers them; gives how many answers differ."""
    different = 0
    for number, it in enumerate(commands):
        if isinstance(it.event, ms.QuitEvent):
            break
        try:
            answers = to.say(it)
        except LeftOut as why:
            print(f"{number} {shown(it.event)}: left out, {why}")
            continue
        if answers.words == it.answers.words:
            print(f"{number} {shown(it.event)}: {answers}")
        else:
            different += 1
            print(f"{number} {shown(it.event)}: {answers}; recorded was {it.answers}")
    return different


def options() -> argparse.Namespace:
    """What the command line says."""
    parser = argparse.ArgumentParser(description="Replays a recorded connection.")
    parser.add_argument("client", metavar="CLIENT", help="the bytes of the client, a file")
    parser.add_argument("server", metavar="SERVER", help="the bytes of the server, a file")
    parser.add_argument("to", metavar="HOST:PORT")
    parser.add_argument("--user", required=True)
    parser.add_argument("--database", default="", help="the schema to begin with")
    Protection.add_options(parser)
    return parser.parse_args()


def run(given: argparse.Namespace) -> int:
    """Replays what the command line says; gives the status to exit with."""
    recording = Recording(*(pathlib.Path(it).read_bytes() for it in (given.client, given.server)))
    fault = None
    commands: List[Recorded] = []
    try:
        commands += recording.commands()
    except ms.ConnectionFault as found:
        fault = found
    host, _, port = given.to.rpartition(":")
    with Client(socket.create_connection((host, int(port))), LIMIT) as client:
        client.log_in(given.user, os.environ.get("MYSQL_PASSWORD", ""), given.database,
                      recording.capabilities & ~int(WITHOUT) | int(NEEDED),
                      recording.mariadb_capabilities, Protection.of_options(given, host))
        different = replay(commands, Replay(client, recording.capabilities))
    print(f"{len(commands)} commands, {different} answers differ")
    if fault is not None:
        print(f"the recording can't be read further: {fault}")
    return 1 if different or fault else 0


def main() -> int:
    try:
        return run(options())
    except (OSError, ValueError, ImportError, Gone, Refused, ms.MySQLSessionError) as error:
        print(f"replay_connection: {error}", file=sys.stderr)
        return 2


if __name__ == "__main__":
    sys.exit(main())
