#!/usr/bin/env python3
"""Plays the server of a recorded connection to clients, without a server.

    replay_server.py recorded.client recorded.server --port 3399

    with test_server.serving(replay_server.Recorded(client, server)) as port:
        ...

The files have the bytes of both sides, as a proxy or a capture has them. A query is answered as it
was recorded, and an execution as that of the same text and the same values. What was asked several
times is answered in the recorded order, for each client from the first answer on. The last one is
then repeated. Answers are laid out by what client and server have agreed on now. What a server tells
of its session's state isn't among them, nor the tables of columns.

Errors that end rows, last words and a reply that is cut off come as they were recorded. More faults
are told by --faults, a file of JSON: queries, and their faults as `faults.py` has them.

    {"SELECT * FROM goods": {"rows": 1, "cut": true}}

Each login is let in, unless the recorded one was refused. Left out are files that a server asks for,
rows of cursors, dumps, and what was said on the connection behind them. What drivers ask by themselves,
SET, USE and transactions are answered as `test_server.py` does, where they weren't recorded. Any other
query is error 1064, and is printed on standard error.
"""

from __future__ import annotations

import argparse
import json
import os
import pathlib
import socket
import sys
from typing import Any, Dict, Iterator, List, Mapping, Optional, Tuple

HERE = os.path.dirname(os.path.abspath(__file__))
sys.path[:0] = [HERE, os.path.join(HERE, os.pardir)]

from faults import NO_FAULT, Failure, Fault  # noqa: E402  (found by the line above)
from test_server import (NO_TABLE, Answer, Done, Reply, Rows, Server, Table, Values,  # noqa: E402
                         Who, normal, text_in)

import mysql_session as ms  # noqa: E402
from mysql_session import Command, Side, Status  # noqa: E402

LIMIT = 1 << 26

# Of a status what isn't told again: that more results follow, and a session's state.
UNTOLD = int(Status.MORE_RESULTS | Status.SESSION_STATE_CHANGED)

# What is asked: a text, and the values of an execution.
Asked = Tuple[str, Optional[Values]]


class Replied:
    """A recorded reply, as its events come."""

    def __init__(self) -> None:
        self._results: List[Answer] = []
        self._columns: List[ms.Column] = []
        self._rows: Optional[List[Tuple[ms.Cell, ...]]] = None
        self._fault = NO_FAULT
        self.prepared: Optional[ms.PreparedEvent] = None
        self.is_whole = False
        self.is_left_out = False

    def take(self, event: ms.Event) -> None:
        """Takes the next event."""
        if isinstance(event, ms.PreparedEvent):
            self.prepared = event
        elif isinstance(event, ms.ColumnCountEvent):
            self._columns, self._rows = [], []
        elif isinstance(event, ms.ColumnEvent):
            self._columns.append(event.column)
        elif isinstance(event, ms.RowEvent) and self._rows is not None:
            self._rows.append(event.cells)
        elif isinstance(event, (ms.RowsEndEvent, ms.OkEvent, ms.AcceptedEvent)):
            self._end(event)
        elif isinstance(event, (ms.ErrorEvent, ms.DeniedEvent, ms.RejectedEvent)):
            self._break_off(failure(event))
        elif isinstance(event, ms.FarewellEvent):
            self._fault = self._fault._replace(last_words=failure(event))
        elif isinstance(event, ms.ColumnsEndEvent):
            self.is_left_out |= bool(event.status & Status.CURSOR_EXISTS)
        elif not isinstance(event, ms.ProgressEvent):
            self.is_left_out = True

    def _end(self, event: Any) -> None:
        """A result ends, by rows or without."""
        status = event.status & ~UNTOLD
        if isinstance(event, ms.RowsEndEvent):
            self._results.append(Rows(self._columns, self._rows or [], (), status, event.warnings))
            self.is_left_out |= bool(event.status & Status.CURSOR_EXISTS)
        else:
            self._results.append(Done(event.affected_rows, event.last_insert_id, status,
                                      event.warnings, event.info))
        self._rows = None
        self.is_whole = not event.status & ms.MORE_RESULTS

    def _break_off(self, error: Failure) -> None:
        """An error comes in place of a result, or of rows that have begun."""
        if self._rows:
            self._results.append(Rows(self._columns, self._rows))
            self._fault = self._fault._replace(rows=len(self._rows), error=error)
        else:
            self._results.append(error)
        self._rows, self.is_whole = None, True

    def columns(self) -> Tuple[int, Reply]:
        """Of a prepare that was answered: how many placeholders there are, and the columns."""
        assert self.prepared is not None
        count = self.prepared.parameters
        columns = self._columns[count:]
        return count, Reply([Rows(columns, []) if columns else Done()])

    def reply(self) -> Reply:
        """The reply, cut off where it was."""
        results, fault = list(self._results), self._fault
        if not self.is_whole:
            fault = fault._replace(cut=True, rows=len(self._rows) if self._rows else None)
            if self._rows:
                results.append(Rows(self._columns, self._rows))
        return Reply(results or [Done()], fault)


def failure(event: Any) -> Failure:
    """The error of an event."""
    return Failure(event.code, event.state.decode("latin-1"), event.message.decode(errors="replace"))


def events_of(streams: Mapping[Side, bytes]) -> Iterator[ms.Event]:
    """The events of a recording, up to its end or its first fault."""
    rest = dict(streams)
    with ms.Connection(client=LIMIT, server=LIMIT, held=8 * LIMIT) as connection:
        try:
            turn = connection.turn
            while turn is not None and rest[turn]:
                size = connection.room(turn)
                piece, rest[turn] = rest[turn][:size], rest[turn][size:]
                yield from connection.feed(turn, piece)
                turn = connection.turn
            if turn is Side.CLIENT and connection.rest(Side.SERVER) + rest[Side.SERVER]:
                # Last words are told in place of an answer, so that the client has to ask once more.
                connection.put(Side.CLIENT, Command.ping())
                yield from connection.feed(Side.SERVER, rest[Side.SERVER])
        except ms.MySQLSessionError:
            return


class Recorded(Table):
    """The answers of a recorded server. Raises one of NO_TABLE for faults that are none."""

    def __init__(self, client: bytes, server: bytes,
                 faults: Optional[Mapping[str, Mapping[str, Any]]] = None) -> None:
        super().__init__({})
        self._replies: Dict[Asked, List[Replied]] = {}
        self._prepares: Dict[str, Replied] = {}
        self._login, self._greeting = Replied(), Reply([])
        self._given: Dict[Tuple[int, Asked], int] = {}
        self._faults = {normal(query): Fault.of(it) for query, it in (faults or {}).items()}
        self._read({Side.CLIENT: client, Side.SERVER: server})

    def _read(self, streams: Mapping[Side, bytes]) -> None:
        """Reads the recording."""
        now = self._login
        for event in events_of(streams):
            if isinstance(event, ms.GreetingEvent):
                self.version = event.version.decode(errors="replace")
            elif isinstance(event, ms.RejectedEvent):
                self._greeting = Reply([failure(event)])
            elif event.side is Side.CLIENT:
                now = self._asked(event, now)
            elif not isinstance(event, (ms.AuthSwitchEvent, ms.AuthMoreEvent)):
                now.take(event)

    def _asked(self, event: ms.Event, now: Replied) -> Replied:
        """Where the reply to what a client says goes."""
        if isinstance(event, (ms.LoginEvent, ms.AnswerEvent, ms.LongDataEvent, ms.CloseEvent)):
            return now
        replied = Replied()
        if isinstance(event, ms.PrepareEvent):
            self._prepares[text_in(event.text)] = replied
        elif isinstance(event, ms.QueryEvent):
            self._replies.setdefault((text_in(event.text), None), []).append(replied)
        elif isinstance(event, ms.ExecuteEvent):
            asked = text_in(event.text), event.values
            self._replies.setdefault(asked, []).append(replied)
        return replied

    def answer(self, query: bytes, values: Optional[Values] = None,
               who: Who = Who(0)) -> Optional[Reply]:
        asked = text_in(query), values
        known = [it for it in self._replies.get(asked, ()) if not it.is_left_out]
        if not known:
            return super().answer(query, values, who)
        at = self._given.get((who.client, asked), 0)
        self._given[who.client, asked] = at + 1
        reply = known[min(at, len(known) - 1)].reply()
        return Reply(reply.results, self._faults.get(normal(query), reply.fault))

    def prepared(self, query: bytes, who: Who) -> Tuple[int, Optional[Reply]]:
        known = self._prepares.get(text_in(query))
        if known is None:
            return super().prepared(query, who)
        return known.columns() if known.prepared is not None else (0, known.reply())

    def greeting(self) -> Reply:
        return self._greeting

    def login(self, user: str) -> Reply:
        return self._login.reply() if self._login.is_whole else Reply([Done()])


def main() -> int:
    parser = argparse.ArgumentParser(description="Plays a recorded server to clients.")
    parser.add_argument("client", metavar="CLIENT", help="the bytes of the client, a file")
    parser.add_argument("server", metavar="SERVER", help="the bytes of the server, a file")
    parser.add_argument("--port", type=int, default=0, help="the port (any that is free)")
    parser.add_argument("--clients", type=int, help="how many clients are served (all that come)")
    parser.add_argument("--faults", metavar="FILE", help="queries and their faults, in JSON")
    given = parser.parse_args()
    try:
        faults = json.loads(pathlib.Path(given.faults).read_bytes()) if given.faults else {}
        client, server = (pathlib.Path(it).read_bytes() for it in (given.client, given.server))
        table = Recorded(client, server, faults)
    except (OSError, *NO_TABLE) as error:
        print(f"the recording can't be played: {error!r}", file=sys.stderr)
        return 2
    with socket.create_server(("127.0.0.1", given.port)) as listener:
        print(f"listening on port {listener.getsockname()[1]}", flush=True)
        Server(listener, table).serve(given.clients)
    return 0


if __name__ == "__main__":
    sys.exit(main())
