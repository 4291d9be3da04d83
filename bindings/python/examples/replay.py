#!/usr/bin/env python3
"""Sends the parameter sets of a recorded stream to a server again.

The stream is what a client sent about one query, behind its login and before its COM_QUIT. Its sets
are read as they come, and sent by the method that is chosen. What the server answers to each
command is printed, and how the recorded stream ends.

    replay.py captured.bin 127.0.0.1:3306 --user root --database test --query 'SELECT :a'

By text, values are literals, written for the server's SQL mode as the connection tells it. If that
isn't known they are in hexadecimal, which each mode reads alike; a query with a backslash isn't
sent so. The connection is in UTF-8. If the server that the stream was recorded at had
NO_BACKSLASH_ESCAPES or ANSI_QUOTES in its SQL mode, --recorded-mode says so: texts are read by it.

The password is that of the environment variable MYSQL_PASSWORD, if there is one. A server of MySQL
that doesn't know it yet wants it by TLS, or encrypted: the options say how.

The status is 0 where the stream is whole and the server answered no error, 1 where not, and 2 where
the replay itself failed.
"""

from __future__ import annotations

import argparse
import os
import socket
import sys
from typing import Iterator, List, Sequence, Tuple

from client import MARIADB_BULK, Client, Gone, Protection, Refused, Result

import mysql_session as ms

PIECE = 1 << 16

ROADS = {"text": ms.Road.TEXT, "execute": ms.Road.EXECUTE, "bulk": ms.Road.BULK}

Sets = Sequence[Tuple[ms.Content, ...]]


def pieces(path: str) -> Iterator[bytes]:
    """The bytes of a file."""
    with open(path, "rb") as recorded:
        piece = recorded.read(PIECE)
        while piece:
            yield piece
            piece = recorded.read(PIECE)


def shown(result: Result) -> str:
    """A result in a few words."""
    if isinstance(result, ms.Ok):
        return f"OK, {result.affected_rows} rows affected, {result.warnings} warnings"
    if isinstance(result, ms.Rows):
        return f"{len(result.rows)} rows"
    if isinstance(result, ms.ServerError):
        state, message = (it.decode(errors="replace") for it in (result.state, result.message))
        return f"error {result.code} ({state}): {message}"
    return str(result)


class Replay:
    """Sends sets of one query over a connection, and prints what the server answers."""

    def __init__(self, client: Client, query: bytes, road: ms.Road) -> None:
        self._client = client
        self._query = query
        self._road = road
        self._statement = 0 if road == ms.Road.TEXT else client.prepare(query).statement
        self.answers = 0
        self.errors = 0

    def send(self, sets: Sets) -> None:
        """Sends sets, and prints the answer to each command."""
        if self._road == ms.Road.TEXT:
            # One by one: each text is for the mode that is known behind the answer before it.
            for it in sets:
                self._print(self._client.query(self._client.text(self._query, it)))
        elif sets:
            for results in self._client.execute(self._query, self._statement, sets, self._road):
                self._print(results)

    def _print(self, results: List[Result]) -> None:
        """Prints the answer to a command."""
        for result in results:
            print(f"answer {self.answers}: {shown(result)}")
            self.errors += isinstance(result, ms.ServerError)
        self.answers += 1


def replay(recorded: Iterator[bytes], receiver: ms.Receiver, to: Replay) -> ms.End:
    """Sends the sets of a recorded stream as they come; gives how the stream ends."""
    for piece in recorded:
        try:
            receiver.feed(piece)
        except ms.MySQLSessionError:
            break  # a fault, which the end tells
        to.send(receiver.take())
    end = receiver.end()
    to.send(receiver.take())
    return end


def options() -> argparse.Namespace:
    """What the command line says."""
    parser = argparse.ArgumentParser(description="Sends a recorded stream's parameter sets again.")
    parser.add_argument("stream", metavar="STREAM", help="the recorded stream, a file")
    parser.add_argument("server", metavar="HOST:PORT")
    parser.add_argument("--user", required=True)
    parser.add_argument("--database", required=True)
    parser.add_argument("--query", required=True, help="the query that the stream is about")
    parser.add_argument("--statement", type=int, default=1,
                        help="the id that the stream's statement has (1)")
    parser.add_argument("--recorded-mode", metavar="SQL_MODE", default="",
                        help="the sql_mode of the server that it was recorded at (none)")
    parser.add_argument("--road", choices=ROADS, default="text", help="how sets are sent (text)")
    parser.add_argument("--limit", type=int, default=ms.DEFAULT_LIMIT,
                        help="the server's max_allowed_packet (16777216)")
    Protection.add_options(parser)
    return parser.parse_args()


def run(given: argparse.Namespace) -> int:
    """Replays what the command line says; gives the status to exit with."""
    recorded = ms.Mode.of_sql_mode(given.recorded_mode)
    if recorded is None:
        raise ValueError("the recorded mode isn't known")
    host, _, port = given.server.rpartition(":")
    with Client(socket.create_connection((host, int(port))), given.limit) as client:
        greeting = client.log_in(given.user, os.environ.get("MYSQL_PASSWORD", ""), given.database,
                                 by=Protection.of_options(given, host))
        print(f"server {greeting.version.decode()}")
        if given.road == "bulk" and not client.connection.mariadb_capabilities & MARIADB_BULK:
            raise ValueError("the server takes no bulk executions")
        # What a receiver reads has an order and no names.
        query = ms.positional(given.query, mode=recorded)
        to = Replay(client, query, ROADS[given.road])
        with ms.Receiver(given.query, given.statement, given.limit, mode=recorded) as receiver:
            end = replay(pieces(given.stream), receiver, to)
    fault = "" if end.fault is None else f" at payload {end.payload}: {ms.code_text(end.fault)}"
    print(f"the recorded stream ends: {end.kind.name.lower().replace('_', ' ')}{fault}")
    return 0 if end.kind == ms.EndKind.WHOLE and not to.errors else 1


def main() -> int:
    try:
        return run(options())
    except (OSError, ValueError, ImportError, Gone, Refused, ms.MySQLSessionError) as error:
        print(f"replay: {error}", file=sys.stderr)
        return 2


if __name__ == "__main__":
    sys.exit(main())
