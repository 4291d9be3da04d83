#!/usr/bin/env python3
"""A client over the streams of asyncio. `mysql_session.Connection` opens no socket and never waits,
so that nothing of it is other than in `client.py`.

    async_client.py 127.0.0.1:3306 --user root --query 'SELECT 1' --query 'SELECT SLEEP(1)'

Each query has its own connection, and all run at once. The rows are printed as they come, with values
of Python's types. The password is that of the environment variable MYSQL_PASSWORD, if there is one.

A task that is cancelled within a reply leaves the rest of it unread, so `put` refuses the next command:
close such a client.
"""

from __future__ import annotations

import argparse
import asyncio
import os
import sys
from typing import Any, AsyncIterator, List, Optional, Tuple

from client import CAPABILITIES, PIECE, Gone, Result, Results
from logging_in import Login, Protection, Refused, counted_back, secure_request, secured

import mysql_session as ms
from mysql_session import Capability, Command, Side

Row = Tuple[Any, ...]


class AsyncClient:
    """A connection to a server, by the streams of asyncio."""

    def __init__(self, reader: asyncio.StreamReader, writer: asyncio.StreamWriter,
                 limit: int = ms.DEFAULT_LIMIT) -> None:
        self._reader, self._writer, self._limit = reader, writer, limit
        self._counts_request = False
        self.connection = ms.Connection(client=limit, server=limit, held=4 * limit)

    async def __aenter__(self) -> AsyncClient:
        return self

    async def __aexit__(self, *_: object) -> None:
        await self.close()

    async def close(self) -> None:
        """Says goodbye, where a command comes next, and ends the connection."""
        try:
            if self.connection.phase == ms.Phase.COMMAND:
                await self._put(Command.quit())
            self._writer.close()
            await self._writer.wait_closed()
        except OSError:
            pass  # the server has gone before
        self.connection.close()

    async def log_in(self, user: str, password: str = "", database: str = "",
                     by: Protection = Protection()) -> None:
        """Logs in, as `Client.log_in` does, and asks to be told the mode."""
        greeting = await self._next()
        if isinstance(greeting, ms.RejectedEvent):
            raise Refused(ms.ServerError(greeting.code, greeting.state, greeting.message))
        assert isinstance(greeting, ms.GreetingEvent)
        login = Login(user, password, database, by)
        payload = login.payload(greeting, CAPABILITIES, 0, self._limit)
        if by.tls is not None:
            if not greeting.capabilities & Capability.SSL:
                raise PermissionError("the server has no TLS")
            self._writer.write(secure_request(payload))
            # Of Python 3.11 and later.
            await self._writer.start_tls(by.tls, server_hostname=by.host)
            self._counts_request = True
        said: Optional[bytes] = payload
        while self.connection.phase not in (ms.Phase.COMMAND, ms.Phase.OVER):
            if said is not None:
                await self._put(said)
            said = login.answer(await self._next())
        self._counts_request = False
        if self.connection.capabilities & Capability.SESSION_TRACK:
            await self.query(ms.ASK_SESSION_MODE)

    async def query(self, text: ms.Text) -> List[Result]:
        """The results of a query, once all are there."""
        await self._put(Command.query(text, self.connection.capabilities))
        results = Results()
        while self.connection.turn is Side.SERVER:
            results.take(await self._next())
        return results.whole()

    async def rows(self, text: ms.Text, values: ms.Values = ms.Values()) -> AsyncIterator[List[Row]]:
        """The rows of a query as they come, some at a time. Raises Refused for an error, also where
        it ends a result that has begun."""
        await self._put(Command.query(text, self.connection.capabilities))
        while self.connection.turn is Side.SERVER:
            rows = self.connection.take_rows(values)
            if rows:
                yield rows
            # What ended the rows, or None where more has to come.
            event = self._told()
            if event is None:
                self.connection.feed(Side.SERVER, await self._received())
            elif isinstance(event, ms.ErrorEvent):
                raise Refused(ms.ServerError(event.code, event.state, event.message))

    async def _put(self, payload: bytes) -> None:
        """Sends a payload."""
        packets = self.connection.put(Side.CLIENT, payload).packets
        self._writer.write(secured(packets) if self._counts_request else packets)
        await self._writer.drain()

    def _told(self) -> Optional[ms.Event]:
        """The server's next event, where it is there."""
        event = self.connection.next_event()
        if isinstance(event, ms.FarewellEvent):
            raise Gone(f"the server says {event.message.decode(errors='replace')}")
        return event

    async def _next(self) -> ms.Event:
        """The server's next event."""
        event = self._told()
        while event is None:
            self.connection.feed(Side.SERVER, await self._received())
            event = self._told()
        return event

    async def _received(self) -> bytes:
        """The next bytes of the server: of a login by TLS its next packet."""
        try:
            if self._counts_request:
                head = await self._reader.readexactly(4)
                size = int.from_bytes(head[:3], "little")
                return counted_back(head + await self._reader.readexactly(size))
            piece = await self._reader.read(min(PIECE, self.connection.room(Side.SERVER)))
        except asyncio.IncompleteReadError:
            piece = b""
        if not piece:
            raise Gone("the server has closed the connection")
        return piece


# ---- The program --------------------------------------------------------------------------------


async def run_query(given: argparse.Namespace, query: str) -> int:
    """Runs a query on its own connection, and prints its rows; gives how many came."""
    host, _, port = given.server.rpartition(":")
    reader, writer = await asyncio.open_connection(host, int(port))
    count = 0
    async with AsyncClient(reader, writer) as client:
        await client.log_in(given.user, os.environ.get("MYSQL_PASSWORD", ""), given.database,
                            Protection.of_options(given, host))
        async for rows in client.rows(query):
            count += len(rows)
            for row in rows:
                print(f"{query}: {row}")
    return count


async def run(given: argparse.Namespace) -> int:
    """Runs all queries at once; gives the status to exit with."""
    ran = await asyncio.gather(*(run_query(given, it) for it in given.query), return_exceptions=True)
    for query, count in zip(given.query, ran):
        if isinstance(count, BaseException):
            print(f"async_client: {query}: {count}", file=sys.stderr)
        else:
            print(f"{query}: {count} rows")
    return 1 if any(isinstance(it, BaseException) for it in ran) else 0


def main() -> int:
    parser = argparse.ArgumentParser(description="Runs queries at once, each on its own connection.")
    parser.add_argument("server", metavar="HOST:PORT")
    parser.add_argument("--user", required=True)
    parser.add_argument("--database", default="", help="the schema to begin with")
    parser.add_argument("--query", action="append", required=True, help="a query; once for each")
    Protection.add_options(parser)
    return asyncio.run(run(parser.parse_args()))


if __name__ == "__main__":
    sys.exit(main())
