#!/usr/bin/env python3
"""A server for tests: it answers the queries of real clients by a table.

    test_server.py --port 3399 --clients 1 &
    mariadb -h 127.0.0.1 -P 3399 -u anyone -e 'SELECT * FROM goods'

    test_server.py --answers answers.json

    with test_server.serving({"SELECT 1": {"columns": {"1": "bigint"}, "rows": [[1]]}}) as port:
        ...

The table has a query's text and its answer, in a file of JSON or as a dict:

    {"SELECT id, name FROM goods WHERE id = ?":
         {"columns": {"id": "bigint unsigned", "name": "varchar"},
          "rows": [[1, "tea"], [2, null]], "where": ["id"]},
     "INSERT INTO goods VALUES (?, ?)": {"affected": 1, "id": 3},
     "SELECT * FROM secrets": {"error": 1142, "state": "42000", "message": "SELECT is denied"}}

A query with question marks is prepared and executed; of its rows those are sent that have its
values in the columns that `where` names. In a dict a function of the values may be there instead of
an answer; at the prepare each of them is None. Texts are compared in small letters and with one
blank between their words.

Columns of numbers are of the types tinyint, smallint, mediumint, int, bigint, year, float, double,
decimal and bit. All but the last may be unsigned, and a bit is a number below 256. Columns of texts
are of char, varchar, text, enum, set and json, and those of bytes of binary, varbinary and blob.
Those of times are of date, datetime, timestamp and time.

Several results of one query, as of a CALL, are in a list: {"results": [.., ..]}. An answer may have a fault too, as
`faults.py` has it: a delay, a cut, an error between rows, last words.

    {"SELECT * FROM slow": {"columns": {"n": "bigint"}, "rows": [[1], [2]],
                            "fault": {"row_delay": 2, "rows": 1, "cut": true}}}

Every login is let in, unless the table has an answer to `@login ann`, or to `@login` for all others.
An error in place of the greeting is that of `@greeting`:

    {"@greeting": {"error": 1040, "message": "Too many connections"},
     "@login ann": {"error": 1045, "state": "28000", "message": "Access denied"}}

SET, USE, transactions, pings and the like are answered by OK. What drivers ask by themselves is
answered by `asked.py`, but where the table has it. Any other query is error 1064, and is printed on
standard error.
"""

from __future__ import annotations

import argparse
import contextlib
import datetime
import json
import os
import socket
import sys
import threading
from typing import (Any, Callable, Dict, Iterator, List, Mapping, NamedTuple, Optional, Sequence,
                    Tuple, Union)

HERE = os.path.dirname(os.path.abspath(__file__))
sys.path[:0] = [HERE, os.path.join(HERE, os.pardir)]

import asked  # noqa: E402  (found by the line above)
from faults import (NO_FAULT, Cut, Failure, Fault, Patience, failure_of, last_words,  # noqa: E402
                    payload_of)

import mysql_session as ms  # noqa: E402
from mysql_session import Capability, Column, ColumnFlag, ColumnType, ReplyKind, Side  # noqa: E402

VERSION = "8.0.0-test-server"

PIECE = 1 << 16

CAPABILITIES = int(
    Capability.LONG_PASSWORD | Capability.LONG_FLAG | Capability.CONNECT_WITH_DB
    | Capability.PROTOCOL_41 | Capability.TRANSACTIONS | Capability.SECURE_CONNECTION
    | Capability.MULTI_STATEMENTS | Capability.MULTI_RESULTS | Capability.PS_MULTI_RESULTS
    | Capability.PLUGIN_AUTH | Capability.PLUGIN_AUTH_LENENC_CLIENT_DATA
    | Capability.CONNECT_ATTRS | Capability.DEPRECATE_EOF)

UNSIGNED, BINARY_FLAG = 32, 128
BINARY, TEXT = 63, 45  # the collation of what is no text, and of texts

# Types of columns by their names, their collations, and their lengths in bytes.
TYPES = {"tinyint": (ColumnType.TINY, BINARY, 4), "smallint": (ColumnType.SHORT, BINARY, 6),
         "mediumint": (ColumnType.INT24, BINARY, 9), "int": (ColumnType.LONG, BINARY, 11),
         "bigint": (ColumnType.LONGLONG, BINARY, 20), "year": (ColumnType.YEAR, BINARY, 4),
         "float": (ColumnType.FLOAT, BINARY, 12), "double": (ColumnType.DOUBLE, BINARY, 22),
         "decimal": (ColumnType.NEWDECIMAL, BINARY, 67), "bit": (ColumnType.BIT, BINARY, 8),
         "char": (ColumnType.STRING, TEXT, 1020), "varchar": (ColumnType.VAR_STRING, TEXT, 1020),
         "enum": (ColumnType.STRING, TEXT, 1020), "set": (ColumnType.STRING, TEXT, 1020),
         "text": (ColumnType.BLOB, TEXT, 65535), "json": (ColumnType.JSON, BINARY, 65535),
         "binary": (ColumnType.STRING, BINARY, 255),
         "varbinary": (ColumnType.VAR_STRING, BINARY, 255),
         "blob": (ColumnType.BLOB, BINARY, 65535), "date": (ColumnType.DATE, BINARY, 10),
         "datetime": (ColumnType.DATETIME, BINARY, 26),
         "timestamp": (ColumnType.TIMESTAMP, BINARY, 26), "time": (ColumnType.TIME, BINARY, 17)}

FLOATS = (ColumnType.FLOAT, ColumnType.DOUBLE)

# What servers tell by flags alone, and decimals: of a float as many as it wants, and microseconds.
FLAGS = {"enum": ColumnFlag.ENUM, "set": ColumnFlag.SET}
DECIMALS = {**dict.fromkeys(FLOATS, 31),
            **dict.fromkeys((ColumnType.DATETIME, ColumnType.TIMESTAMP, ColumnType.TIME), 6)}

DONE = ("set ", "use ", "begin", "start transaction", "commit", "rollback")

# Commands by their numbers that are answered by OK.
PING, SET_OPTION, RESET_CONNECTION, STATISTICS = 0x0E, 0x1B, 0x1F, 0x09
OK_COMMANDS = (PING, SET_OPTION, RESET_CONNECTION)


class Rows(NamedTuple):
    """Rows under columns; the names of those columns that an execution's values are compared with;
    the status and the warnings behind them."""

    columns: Sequence[Column]
    rows: Sequence[Sequence[ms.Parameter]]
    where: Sequence[str] = ()
    status: int = ms.AUTOCOMMIT
    warnings: int = 0


class Done(NamedTuple):
    """An answer without rows."""

    affected: int = 0
    id: int = 0
    status: int = ms.AUTOCOMMIT
    warnings: int = 0
    info: bytes = b""


Answer = Union[Rows, Done, Failure]


class Reply(NamedTuple):
    """The results that answer a query, and what goes wrong with them."""

    results: Sequence[Answer]
    fault: Fault = NO_FAULT


Values = Tuple[Any, ...]
# What a table has: an answer as JSON has it, or what makes one of an execution's values.
Given = Union[Mapping[str, Any], Callable[[Values], Mapping[str, Any]]]

GOODS: Dict[str, Any] = {
    "columns": {"id": "bigint unsigned", "name": "varchar", "price": "decimal", "note": "varchar"},
    "rows": [[1, "tea", "2.50", None],
             [2, "coffee", "3.75", "it's strong"],
             [3, "maté \N{HERB}", "12.00", ""]]}

ANSWERS: Dict[str, Given] = {
    "SELECT 1": {"columns": {"1": "bigint"}, "rows": [[1]]},
    "SELECT NULL, 'text', -7": {"columns": {"NULL": "varchar", "text": "varchar", "-7": "bigint"},
                                "rows": [[None, "text", -7]]},
    "SELECT * FROM goods": GOODS,
    "SELECT * FROM goods WHERE id = ?": {**GOODS, "where": ["id"]},
}


# ---- The table ----------------------------------------------------------------------------------


def text_in(query: Union[str, bytes]) -> str:
    """The text of a query, without a `;` and blanks at its end."""
    text = query.decode(errors="replace") if isinstance(query, bytes) else query
    return text.rstrip("; \n")


def normal(query: Union[str, bytes]) -> str:
    """The form in which queries are looked up."""
    return " ".join(text_in(query).split()).lower()


def on_a_line(text: str) -> str:
    """A text for people: on one line, of at most 1000 characters, of which none moves a cursor."""
    shown = "".join(it if it.isprintable() else it.encode("unicode_escape").decode()
                    for it in text[:1000])
    return shown if len(text) <= 1000 else f"{shown} .."


def column(name: str, kind: str) -> Column:
    """A column of a type by its name, as `bigint unsigned`."""
    word, _, more = kind.lower().partition(" ")
    if word not in TYPES or more not in ("", "unsigned"):
        raise ValueError(f"the column {name} is of no type that is known: {kind}")
    number, collation, length = TYPES[word]
    flags = (BINARY_FLAG if collation == BINARY else 0) | (UNSIGNED if more else 0)
    return Column(name.encode(), number, flags | FLAGS.get(word, 0), collation, length,
                  DECIMALS.get(number, 0))


def cell(value: Any, of: Column) -> ms.Parameter:
    """A value of JSON as a value of its column's type."""
    if value is not None and of.type in FLOATS:
        return float(value)
    if value is not None and of.type == ColumnType.BIT:
        return int(value).to_bytes(of.length // 8, "big")
    if not isinstance(value, str):
        found: ms.Parameter = value
        return found
    if of.type == ColumnType.DATE:
        return datetime.date.fromisoformat(value)
    if of.type in (ColumnType.DATETIME, ColumnType.TIMESTAMP):
        return datetime.datetime.fromisoformat(value)
    if of.type == ColumnType.TIME:
        hours, minutes, seconds = value.lstrip("-").split(":")
        length = datetime.timedelta(hours=int(hours), minutes=int(minutes), seconds=float(seconds))
        return -length if value.startswith("-") else length
    return value


def reply_of(given: Mapping[str, Any]) -> Reply:
    """An answer as it is in a table, with its fault."""
    results = [answer_of(it) for it in given.get("results", [given])]
    if not results:
        raise ValueError("an answer has no results")
    return Reply(results, Fault.of(given["fault"]) if "fault" in given else NO_FAULT)


def answer_of(given: Mapping[str, Any]) -> Answer:
    """One result of an answer."""
    if "error" in given:
        return failure_of(given)
    if "columns" not in given:
        return Done(given.get("affected", 0), given.get("id", 0))
    columns = [column(*it) for it in given["columns"].items()]
    rows = [[cell(*it) for it in zip(row, columns)] for row in given["rows"]]
    if any(len(row) != len(columns) for row in given["rows"]):
        raise ValueError("a row has another number of values than there are columns")
    where = given.get("where", ())
    if not set(where) <= set(given["columns"]):
        raise ValueError(f"`where` names a column that isn't there: {where}")
    return Rows(columns, rows, where)


def text_of(value: ms.Parameter) -> bytes:
    """A value's text, as a text row has it."""
    if isinstance(value, datetime.timedelta):
        sign, length = ("-", -value) if value < datetime.timedelta(0) else ("", value)
        hours, rest = divmod(length.days * 86400 + length.seconds, 3600)
        micros = f".{length.microseconds:06}" if length.microseconds else ""
        return f"{sign}{hours:02}:{rest // 60:02}:{rest % 60:02}{micros}".encode()
    if isinstance(value, float):
        return repr(value).replace("e+", "e").encode()
    return value if isinstance(value, bytes) else str(value).encode()


def rows_for(answer: Rows, values: Values) -> List[Sequence[ms.Parameter]]:
    """Those of the rows that an execution with these values asks for."""
    names = [it.name.decode() for it in answer.columns]
    places = [names.index(it) for it in answer.where]
    return [row for row in answer.rows
            if all(value is not None and row[at] is not None and text_of(row[at]) == text_of(value)
                   for at, value in zip(places, values))]


# What is raised of a table that is none.
NO_TABLE = (ValueError, KeyError, TypeError, AttributeError)


class Who(NamedTuple):
    """Who is logged in, by the number of the client."""

    client: int
    user: str = ""
    schema: Optional[str] = None

    def told(self) -> Dict[str, asked.Value]:
        """The values of functions that drivers ask for."""
        here = f"{self.user}@localhost"
        return {"version()": VERSION, "database()": self.schema, "schema()": self.schema,
                "user()": here, "session_user()": here, "system_user()": here,
                "current_user()": f"{self.user}@%", "connection_id()": self.client}


class Table:
    """Queries and their answers. Raises one of NO_TABLE."""

    version = VERSION

    def __init__(self, answers: Mapping[str, Given]) -> None:
        self._answers: Dict[str, Union[Reply, Callable[[Values], Mapping[str, Any]]]] = {
            normal(query): given if callable(given) else reply_of(given)
            for query, given in answers.items()}

    def answer(self, query: bytes, values: Optional[Values] = None,
               who: Who = Who(0)) -> Optional[Reply]:
        """The answer to a query, or to its execution with values; None where none is known."""
        found = self._found(query, values)
        if found is not None:
            return found
        if normal(query).startswith(DONE):
            return Reply([Done()])
        of_driver = asked.answer(text_in(query), {**who.told(), "version()": self.version})
        return None if of_driver is None else reply_of(of_driver)

    def prepared(self, query: bytes, who: Who) -> Tuple[int, Optional[Reply]]:
        """How many placeholders a query has that is prepared, and the answer to its execution, whose
        columns are told. Each value is None there."""
        count = parameters_of(query)
        return count, self.answer(query, (None,) * count, who)

    def greeting(self) -> Reply:
        """What a client is greeted with: an error, or the greeting, which is no result."""
        return self._found(b"@greeting", None) or Reply([])

    def login(self, user: str) -> Reply:
        """The answer to a user's login."""
        return (self._found(f"@login {user}".encode(), None) or self._found(b"@login", None)
                or Reply([Done()]))

    def _found(self, query: bytes, values: Optional[Values]) -> Optional[Reply]:
        """What the table has."""
        found = self._answers.get(normal(query))
        return reply_of(found(values or ())) if callable(found) else found


# ---- A client's connection ----------------------------------------------------------------------


def parameters_of(query: bytes) -> int:
    """How many placeholders a query has: it is bound to so many values and no others."""
    for count in range(1 << 16):
        try:
            ms.bind_text(query, [None] * count)
            return count
        except ms.MySQLSessionError as error:
            if error.code != ms.Code.REFUSED_WRONG_COUNT:
                raise
    raise ValueError("there are too many placeholders")


class Session:
    """A client's connection: what the client says is fed, and what answers it is put."""

    def __init__(self, stream: socket.socket, table: Table, client: int,
                 patience: Optional[Patience] = None) -> None:
        self._stream, self._table, self._who = stream, table, Who(client)
        self._patience = patience or Patience()
        self._connection = ms.Connection()
        self._prepared = 0

    def close(self) -> None:
        """Ends the connection."""
        self._connection.close()
        self._stream.close()

    def serve(self) -> None:
        """Greets the client, and answers it until it goes."""
        # A small packet behind another would else wait for the client's acknowledgement.
        self._stream.setsockopt(socket.IPPROTO_TCP, socket.TCP_NODELAY, 1)
        self._greet()
        while self._connection.reason is None:
            piece = self._stream.recv(min(PIECE, self._connection.room(Side.CLIENT)))
            if not piece:
                return
            for event in self._connection.feed(Side.CLIENT, piece):
                self._answer(event)

    def _greet(self) -> None:
        """Greets the client, or sends it away."""
        scramble = bytes(33 + it % 94 for it in os.urandom(20))
        greeting = ms.put_greeting(self._who.client, self._table.version, CAPABILITIES, scramble[:8],
                                   scramble[8:])
        results, fault = self._table.greeting()
        self._begin(fault)
        for answer in results:
            if isinstance(answer, Failure):
                # What a client knows before the greeting has no SQL state.
                greeting = payload_of(answer, with_state=False)
        self._send_part(self._connection.put(Side.SERVER, greeting).packets, fault)

    def _put(self, payload: bytes) -> None:
        """Sends a payload."""
        self._stream.sendall(self._connection.put(Side.SERVER, payload).packets)

    def _writer(self, kind: ReplyKind = ReplyKind.QUERY) -> ms.ReplyWriter:
        return ms.ReplyWriter(kind, self._connection.capabilities)

    def _send(self, packets: bytes, fault: Fault = NO_FAULT) -> None:
        """Sends a reply, or a part of it. The connection numbers its packets as they follow."""
        put, used = self._connection.put_packets(Side.SERVER, packets)
        assert used == len(packets), "a reply isn't as the client awaits it"
        self._send_part(put, fault)

    def _send_part(self, packets: bytes, fault: Fault) -> None:
        """Sends packets, as far as they go. Raises Cut."""
        self._stream.sendall(packets if fault.bytes is None else packets[:fault.bytes])
        if fault.bytes is not None:
            raise Cut("behind some bytes of the answer")

    def _begin(self, fault: Fault) -> None:
        """What goes wrong before an answer. Raises Cut."""
        self._patience.wait(fault.delay)
        if fault.cut and fault.rows is None:
            raise Cut("before the answer")

    def _end(self, fault: Fault) -> None:
        """What goes wrong behind it. Raises Cut."""
        if fault.last_words is not None:
            self._stream.sendall(last_words(fault.last_words))
            raise Cut("behind the last words")

    def _answer(self, event: ms.Event) -> None:
        """Answers what the client says, where it has an answer."""
        if isinstance(event, (ms.LoginEvent, ms.ChangeUserEvent)):
            self._who = self._who._replace(user=event.user.decode(errors="replace"))
            self._use(event.database)
            print(f"client {self._who.client}: {on_a_line(self._who.user)}", flush=True)
            self._reply(self._table.login(self._who.user))
        elif isinstance(event, ms.QueryEvent):
            self._reply(self._found(event.text))
        elif isinstance(event, ms.PrepareEvent):
            self._prepare(event.text)
        elif isinstance(event, ms.ExecuteEvent):
            # Long data that came before stands among the values.
            self._reply(self._found(event.text, event.values), event.values)
        elif isinstance(event, ms.InitDbEvent):
            self._use(event.schema)
            self._reply(Reply([Done()]))
        elif isinstance(event, ms.ResetStatementEvent):
            self._reply(Reply([Done()]))
        elif isinstance(event, ms.CommandEvent) and event.number in OK_COMMANDS:
            self._reply(Reply([Done()]))
        elif isinstance(event, ms.CommandEvent) and event.number == STATISTICS:
            self._put(b"Answers are canned")
        elif not isinstance(event, (ms.QuitEvent, ms.CloseEvent, ms.LongDataEvent)):
            self._reply(self._unknown(1047, "08S01", f"{event.name} isn't answered"))

    def _use(self, schema: bytes) -> None:
        """Goes on with a schema; no bytes are none."""
        self._who = self._who._replace(schema=schema.decode(errors="replace") or None)

    def _unknown(self, error: int, state: str, why: str) -> Reply:
        """The error of what has no answer, which is printed too: many drivers tell no more of it."""
        print(f"client {self._who.client}: {on_a_line(why)}", file=sys.stderr, flush=True)
        return Reply([Failure(error, state, why)])

    def _found(self, query: bytes, values: Optional[Values] = None) -> Reply:
        """The answer to a query, or to its execution with values."""
        found = self._table.answer(query, values, self._who)
        if found is not None and normal(query).startswith("use "):
            self._use(text_in(query).split(None, 1)[1].strip("` ").encode())
        return found or self._no_answer(query)

    def _no_answer(self, query: bytes) -> Reply:
        """The error of a query that the table doesn't have."""
        return self._unknown(1064, "42000", f"no answer to this query is known: {normal(query)}")

    def _reply(self, reply: Reply, values: Optional[Values] = None) -> None:
        """Answers a query by text, or an execution with these values in binary."""
        results, fault = reply
        self._begin(fault)
        kind = ReplyKind.QUERY if values is None else ReplyKind.EXECUTE
        with self._writer(kind) as writer:
            # It is sent at once: parts of it would wait for one another in the network.
            packets: List[bytes] = []
            for number, answer in enumerate(results):
                for it in self._written(writer, answer, values, fault, number + 1 < len(results)):
                    packets.append(it)
                    if fault.row_delay:
                        self._send(b"".join(packets))
                        packets.clear()
                        self._patience.wait(fault.row_delay)
            self._send(b"".join(packets), fault)
        if fault.cut:
            raise Cut("behind some rows")
        self._end(fault)

    def _written(self, writer: ms.ReplyWriter, answer: Answer, values: Optional[Values],
                 fault: Fault, more: bool) -> Iterator[bytes]:
        """The packets of a result: one, or those of rows, up to the fault among them."""
        if isinstance(answer, Failure):
            yield writer.error(*answer)
        elif isinstance(answer, Done):
            yield writer.ok(*answer, more=more)
        else:
            rows = answer.rows if values is None else rows_for(answer, values)
            yield writer.rows(answer.columns)
            for row in rows[:fault.rows]:
                yield writer.row([it if it is None or values is not None else text_of(it)
                                  for it in row])
            if fault.error is not None:
                yield writer.error(*fault.error)
            elif not fault.cut:
                yield writer.end_rows(answer.status, answer.warnings, more)

    def _prepare(self, query: bytes) -> None:
        """Prepares a statement whose text the table has."""
        count, found = self._table.prepared(query, self._who)
        reply = found or self._no_answer(query)
        [answer, *_] = reply.results
        if isinstance(answer, Failure):
            self._reply(reply)
            return
        self._prepared += 1
        columns = answer.columns if isinstance(answer, Rows) else ()
        with self._writer(ReplyKind.PREPARE) as writer:
            self._send(writer.prepared(self._prepared, [column("?", "varchar")] * count, columns))


# ---- Serving ------------------------------------------------------------------------------------


class Server:
    """Serves the clients of a listening socket, each in its own thread."""

    def __init__(self, listener: socket.socket, table: Table) -> None:
        self._listener, self._table = listener, table
        self._patience = Patience()
        self._streams: Dict[int, socket.socket] = {}
        self._lock = threading.Lock()

    def serve(self, clients: Optional[int] = None) -> None:
        """Serves so many clients, or all that come until the server ends."""
        threads: List[threading.Thread] = []
        while clients is None or len(threads) < clients:
            try:
                stream, _ = self._listener.accept()
            except OSError:
                break
            number = len(threads) + 1
            with self._lock:
                self._streams[number] = stream
            threads.append(threading.Thread(target=self._serve_client, args=(number, stream)))
            threads[-1].start()
        for thread in threads:
            thread.join()

    def end(self) -> None:
        """Ends it, and the connections of its clients."""
        self._patience.end()
        # Wakes the thread that waits for another client.
        with contextlib.suppress(OSError):
            self._listener.shutdown(socket.SHUT_RDWR)
        with self._lock:
            for stream in self._streams.values():
                # Its thread finds that nothing more comes.
                with contextlib.suppress(OSError):
                    stream.shutdown(socket.SHUT_RDWR)

    def _serve_client(self, number: int, stream: socket.socket) -> None:
        """Serves a client, in its thread."""
        session = Session(stream, self._table, number, self._patience)
        try:
            self._patience.wait(0)
            session.serve()
        except Cut:
            pass
        except (OSError, ms.MySQLSessionError) as error:
            if not self._patience.is_over:
                print(f"client {number}: {error}", file=sys.stderr, flush=True)
        finally:
            with self._lock:
                del self._streams[number]
            session.close()


@contextlib.contextmanager
def serving(answers: Union[Table, Mapping[str, Given]]) -> Iterator[int]:
    """Within it, clients are answered by the table; gives the port. At its end the connections of
    clients that are still there are closed."""
    table = answers if isinstance(answers, Table) else Table(answers)
    with socket.create_server(("127.0.0.1", 0)) as listener:
        server = Server(listener, table)
        thread = threading.Thread(target=server.serve)
        thread.start()
        try:
            yield int(listener.getsockname()[1])
        finally:
            server.end()
            thread.join()


def main() -> int:
    parser = argparse.ArgumentParser(description="Answers the queries of clients by a table.")
    parser.add_argument("--port", type=int, default=0, help="the port (any that is free)")
    parser.add_argument("--clients", type=int, help="how many clients are served (all that come)")
    parser.add_argument("--answers", metavar="FILE", help="the table, in JSON (some goods)")
    given = parser.parse_args()
    answers = ANSWERS
    try:
        if given.answers:
            with open(given.answers, encoding="utf-8") as it:
                answers = json.load(it)
        table = Table(answers)
    except (OSError, *NO_TABLE) as error:
        print(f"the answers can't be read: {error!r}", file=sys.stderr)
        return 2
    with socket.create_server(("127.0.0.1", given.port)) as listener:
        print(f"listening on port {listener.getsockname()[1]}", flush=True)
        Server(listener, table).serve(given.clients)
    return 0


if __name__ == "__main__":
    sys.exit(main())
