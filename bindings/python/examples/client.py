"""A client that waits for what it asks: a socket, and `mysql_session.Connection` alone.

A text with values in it has to be written for the session's SQL mode and character set, which any
statement may change. So behind its login a client asks the server for both, and goes by what the
connection knows. That needs a server with CLIENT_SESSION_TRACK. A status isn't enough: behind a
procedure that set the mode a MariaDB tells by it a mode that it isn't in.
"""

from __future__ import annotations

import os
import socket
import sys
from typing import Iterable, Iterator, List, Optional, Sequence, Tuple, Union

sys.path.insert(0, os.path.join(os.path.dirname(os.path.abspath(__file__)), os.pardir))

from logging_in import (Login, Protection, Refused, counted_back, secure_request,  # noqa: E402
                        secured)
from passwords import caching, native  # noqa: E402

import mysql_session as ms  # noqa: E402  (found by the line above)
from mysql_session import Capability, Side  # noqa: E402

__all__ = ["Client", "Gone", "Protection", "Refused", "Result", "Results", "caching", "native"]

PIECE = 1 << 16

# MariaDB's own: bulk executions.
MARIADB_BULK = int(ms.MariadbCapability.STMT_BULK_OPERATIONS)

CAPABILITIES = int(
    Capability.LONG_FLAG | Capability.PROTOCOL_41 | Capability.TRANSACTIONS
    | Capability.SECURE_CONNECTION | Capability.MULTI_RESULTS | Capability.PS_MULTI_RESULTS
    | Capability.PLUGIN_AUTH | Capability.DEPRECATE_EOF | Capability.CONNECT_WITH_DB
    | Capability.SESSION_TRACK)

Result = Union[ms.Ok, ms.Rows, ms.Prepared, ms.ServerError]

OkEvents = (ms.OkEvent, ms.AcceptedEvent)


class Gone(Exception):
    """The server has closed the connection, or said its last words."""


class Results:
    """The results of a reply, as its events come."""

    def __init__(self) -> None:
        self.done: List[Result] = []
        self._columns: List[ms.Column] = []
        self._rows: List[Tuple[ms.Cell, ...]] = []
        self._prepared: Optional[ms.PreparedEvent] = None

    def take(self, event: ms.Event) -> None:
        """Takes the next event."""
        if isinstance(event, ms.ColumnCountEvent):
            self._columns, self._rows = [], []
        elif isinstance(event, ms.PreparedEvent):
            self._prepared = event
        elif isinstance(event, ms.ColumnEvent):
            self._columns.append(event.column)
        elif isinstance(event, ms.RowEvent):
            self._rows.append(event.cells)
        elif isinstance(event, ms.RowsEndEvent):
            self.done.append(ms.Rows(tuple(self._columns), self._rows, True, event.status,
                                     event.warnings, event.info, ()))
        elif isinstance(event, (ms.ErrorEvent, ms.DeniedEvent)):
            self.done.append(ms.ServerError(event.code, event.state, event.message))
        elif isinstance(event, OkEvents):
            self.done.append(ms.Ok(event.affected_rows, event.last_insert_id, event.status,
                                   event.warnings, event.info, ()))

    def whole(self) -> List[Result]:
        """All of them, once the reply is whole."""
        if self._prepared is not None and not self.done:
            of = self._prepared
            self.done.append(ms.Prepared(of.statement, of.warnings,
                                         tuple(self._columns[:of.parameters]),
                                         tuple(self._columns[of.parameters:])))
        return self.done


class Client:
    """A connection to a server. A packet that it sends or takes has a payload of at most `limit`
    bytes."""

    def __init__(self, stream: socket.socket, limit: int = ms.DEFAULT_LIMIT) -> None:
        if stream.family != socket.AF_UNIX:
            # A command behind one without a reply would else wait for its acknowledgement, 40 ms.
            stream.setsockopt(socket.IPPROTO_TCP, socket.TCP_NODELAY, 1)
        self._stream = stream
        self._limit = limit
        # Whether the login's packets count the request for TLS too.
        self._counts_request = False
        self.connection = ms.Connection(client=limit, server=limit, held=4 * limit)

    def __enter__(self) -> Client:
        return self

    def __exit__(self, *_: object) -> None:
        self.close()

    def close(self) -> None:
        """Says goodbye, where a command comes next, and ends the connection."""
        try:
            if self.connection.phase == ms.Phase.COMMAND:
                self._put(ms.Command.quit())
        except OSError:
            pass  # the server has gone before
        self.connection.close()
        self._stream.close()

    def log_in(self, user: str, password: str = "", database: str = "",
               capabilities: int = CAPABILITIES,
               mariadb_capabilities: int = MARIADB_BULK,
               by: Protection = Protection()) -> ms.GreetingEvent:
        """Logs in by mysql_native_password or caching_sha2_password, with those of the capabilities
        that the server has, and asks for the session's mode. Returns the server's greeting.

        Raises Refused where the server refuses. Raises PermissionError where the server asks for
        another plugin, or has no TLS where `by` wants it. It is raised too where the server wants
        the password itself, and `by` has no way for that. Raises ssl.SSLError where the server
        isn't verified.
        """
        login = Login(user, password, database, by,
                      is_local=self._stream.family == socket.AF_UNIX)
        greeting = self._greeted()
        payload = login.payload(greeting, capabilities, mariadb_capabilities, self._limit)
        if by.tls is not None:
            self._begin_tls(greeting, payload, by)
        self._put(payload)
        while self.connection.phase not in (ms.Phase.COMMAND, ms.Phase.OVER):
            said = login.answer(self._next())
            if said is not None:
                self._put(said)
        self._counts_request = False
        self.track_mode()
        return greeting

    def _begin_tls(self, greeting: ms.GreetingEvent, login: bytes, by: Protection) -> None:
        """Asks for TLS, and goes on by it."""
        if by.tls is None or not greeting.capabilities & Capability.SSL:
            raise PermissionError("the server has no TLS")
        self._stream.sendall(secure_request(login))
        self._stream = by.tls.wrap_socket(self._stream, server_hostname=by.host)
        self._counts_request = True

    def track_mode(self) -> None:
        """Asks the server for the session's SQL mode and character set, if it can tell them. Ask behind
        a login, a reset of the connection and a change of the user."""
        if self.connection.capabilities & Capability.SESSION_TRACK:
            self.query(ms.ASK_SESSION_MODE)

    @property
    def mode(self) -> Optional[ms.Mode]:
        """The session's SQL mode; None if it isn't known."""
        return self.connection.mode

    def text(self, query: ms.Text, values: ms.Params) -> bytes:
        """A query with values in it, written for the session's mode and character set, for which the
        server is asked where either isn't known. If the server doesn't tell them, or quotes aren't
        safe in the set, values are in hexadecimal, which each mode and set reads alike.

        Raises ValueError of a query with a backslash if the mode isn't known. A backslash may end a
        string or not, by the mode: `prepare` and `execute` are for such a query.
        """
        session = self.connection.session_mode
        if session.mode is None or session.is_safe_set is None:
            self.track_mode()
            session = self.connection.session_mode
        if session.mode is None and b"\\" in (
                query.encode() if isinstance(query, str) else bytes(query)):
            raise ValueError("the session's mode isn't known, and the query has a backslash")
        return ms.bind_text(query, values, mode=session.mode or ms.Mode(),
                            spelling=session.spelling)

    def ask(self, payload: bytes) -> Iterator[ms.Event]:
        """Sends a command; the events of its reply as they come, to its end."""
        self._put(payload)
        return self._reply()

    def tell(self, payload: bytes) -> None:
        """Sends a command that has no reply."""
        self._put(payload)

    def results(self, payload: bytes) -> List[Result]:
        """Sends a command; the results of its reply."""
        results = Results()
        for event in self.ask(payload):
            results.take(event)
        return results.whole()

    def query(self, text: ms.Text) -> List[Result]:
        """The results of a query."""
        return self.results(ms.Command.query(text, self.connection.capabilities))

    def prepare(self, text: ms.Text) -> ms.Prepared:
        """Prepares a statement. Raises Refused."""
        [result] = self.results(ms.Command.prepare(text))
        if isinstance(result, ms.ServerError):
            raise Refused(result)
        assert isinstance(result, ms.Prepared)
        return result

    def execute(self, text: ms.Text, statement: int, sets: Iterable[Sequence[ms.Parameter]],
                road: ms.Road = ms.Road.EXECUTE,
                mode: Optional[ms.Mode] = None) -> Iterator[List[Result]]:
        """Executes a statement with sets of values, one after another or in bulk; the results of
        each execution. The mode tells only which placeholders the text has. It is the session's by
        default, for which the server is asked if it isn't known.

        Raises MySQLSessionError by CONNECTION_WRONG_COUNT where the server counted another number of
        parameters than the text has placeholders: it would run the execution with other values.
        """
        if mode is None and self.mode is None:
            self.track_mode()
        mode = mode or self.mode or ms.Mode()
        places = ms.place_count(text, mode=mode)
        packets = ms.executions(text, sets, statement, road, self._limit, mode=mode)
        for reply in self.ask_sets(statement, places, packets):
            results = Results()
            for event in reply:
                results.take(event)
            yield results.whole()

    def ask_sets(self, statement: int, places: int,
                 packets: bytes) -> Iterator[Iterator[ms.Event]]:
        """Sends what `executions` makes of a text with so many placeholders, each execution behind
        the reply to the one before. Gives the events of each reply, which are taken before the next
        one is asked for."""
        while packets:
            put, used = self.connection.put_sets(statement, places, packets)
            if not used:
                raise Gone("no command is due: the connection is over, or a reply wasn't taken")
            self._stream.sendall(put)
            packets = packets[used:]
            yield self._reply()

    def put_file(self, pieces: Iterable[bytes]) -> None:
        """Sends the file that a FileRequestEvent asked for: its pieces, of which none is empty."""
        for piece in pieces:
            self._put(piece)
        self._put(b"")

    def _greeted(self) -> ms.GreetingEvent:
        """The server's greeting, which comes first."""
        event = self._next()
        if isinstance(event, ms.RejectedEvent):
            raise Refused(ms.ServerError(event.code, event.state, event.message))
        assert isinstance(event, ms.GreetingEvent)
        return event

    def _put(self, payload: bytes) -> None:
        """Sends a payload."""
        packets = self.connection.put(Side.CLIENT, payload).packets
        self._stream.sendall(secured(packets) if self._counts_request else packets)

    def _received(self) -> bytes:
        """The next bytes of the server: of a login by TLS its next packet."""
        if self._counts_request:
            head = self._exactly(4)
            return counted_back(head + self._exactly(int.from_bytes(head[:3], "little")))
        return self._some(min(PIECE, self.connection.room(Side.SERVER)))

    def _exactly(self, size: int) -> bytes:
        """So many bytes of the server."""
        data = b""
        while len(data) < size:
            data += self._some(size - len(data))
        return data

    def _some(self, most: int) -> bytes:
        """At least one byte of the server, and at most so many."""
        piece = self._stream.recv(most)
        if not piece:
            raise Gone("the server has closed the connection")
        return piece

    def _next(self) -> ms.Event:
        """The server's next event."""
        event = self.connection.next_event()
        while event is None:
            self.connection.feed(Side.SERVER, self._received())
            event = self.connection.next_event()
        if isinstance(event, ms.FarewellEvent):
            raise Gone(f"the server says {event.message.decode(errors='replace')}")
        return event

    def _reply(self) -> Iterator[ms.Event]:
        """The events of a reply. Where it asks for a file, `put_file` has to be called before the
        next one is taken: else there is none."""
        while self.connection.turn is Side.SERVER:
            yield self._next()
