"""Tests of what a peer's bytes cost: `make check`. What comes once is copied once, and eight times
as many bytes take at most twenty times as long."""

from __future__ import annotations

import gc
import time
import unittest
from typing import Any, Callable, List, Optional, Sequence

import mysql_session as ms
from mysql_session import Column, ColumnType, ReplyKind, Side, Values
from test_mysql_session import Case, cut, resident, written
from test_native import PROTOCOL_41, at_rows

OK = b"\0\0\0\2\0\0\0"
OK_PACKET = ms.put_packet(OK, 1)[0]

# The bits of a status that say that a cursor is open.
CURSOR = 0x42

# A row of a query with one cell, and the same of an execution, as the second packet of a reply.
ROW, BINARY_ROW = b"\x017", b"\0\0\7\0\0\0"


def columns_of(size: int) -> bytes:
    """A reply up to its rows, whose column has so long a name."""
    return written([Column(b"n" * size, ColumnType.LONG, 0, 63)], [])[:-9]


def prepared(text: bytes, statement: int = 5, columns: Sequence[Column] = (), parameters: int = 1,
             connection: Optional[ms.Connection] = None) -> ms.Connection:
    """A connection on which a statement is prepared."""
    if connection is None:
        connection = ms.Connection.after_login(PROTOCOL_41)
    connection.feed(Side.CLIENT, ms.put_packet(ms.Command.prepare(text))[0])
    list(connection)
    with ms.ReplyWriter(ReplyKind.PREPARE, PROTOCOL_41) as writer:
        connection.feed(Side.SERVER, writer.prepared(statement, [Column(b"?", 8)] * parameters,
                                                     columns))
    list(connection)
    return connection


def executed(statement: int, flags: int = 0) -> bytes:
    """An execution without parameters, as a packet."""
    return ms.put_packet(b"\x17" + statement.to_bytes(4, "little") + bytes([flags, 1, 0, 0, 0]))[0]


def opened(name: bytes, statement: int = 5) -> ms.Connection:
    """A connection with an open cursor, of one column."""
    columns = [Column(name, ColumnType.LONG, 0, 63)]
    connection = prepared(b"SELECT n", statement, columns, 0)
    connection.feed(Side.CLIENT, executed(statement, 1))
    with ms.ReplyWriter(ReplyKind.EXECUTE, PROTOCOL_41) as writer:
        reply = writer.rows(columns)
    # The packet behind the columns is the last one here, and says that a cursor is open.
    connection.feed(Side.SERVER, reply[:-2] + bytes([CURSOR, 0]))
    list(connection)
    assert connection.turn is Side.CLIENT
    return connection


def fetched(connection: ms.Connection, statement: int = 5) -> None:
    """Has a row of the cursor come next."""
    fetch = ms.put_packet(ms.Command.fetch(statement, 1))[0]
    assert isinstance(next(connection.feed(Side.CLIENT, fetch)), ms.FetchEvent)
    end = bytes([0xFE, 0, 0, CURSOR, 0])
    connection.feed(Side.SERVER, ms.put_packet(BINARY_ROW, 1)[0] + ms.put_packet(end, 2)[0])


class Weight(Case):
    """What comes of a peer costs what it weighs."""

    # So many bytes are weighed against eight times as many.
    FEW = 1 << 17

    def weighs(self, make: Callable[[int], Callable[[], object]], few: int = FEW) -> None:
        """Times what make gives for so many bytes and for eight times as many: the best of three."""
        def seconds(size: int) -> float:
            call, times = make(size), []
            gc.collect()
            gc.disable()
            try:
                for _ in range(3):
                    began = time.process_time()
                    call()
                    times.append(time.process_time() - began)
                return min(times)
            finally:
                gc.enable()

        least = max(seconds(few), 1e-3)
        self.assertLess(seconds(8 * few), 20 * least)

    def rows_of(self, take: Callable[[ms.Connection], object], cell: bytes = b"7") -> None:
        """Weighs rows under a column whose name is as long as all of them."""
        def make(size: int) -> Callable[[], object]:
            count = size // 256
            rows = b"".join(ms.put_packet(b"\1" + cell, (it + 4) % 256)[0] for it in range(count))
            reply = columns_of(size) + rows

            def call() -> None:
                with at_rows(reply) as connection:
                    for _ in range(count):
                        take(connection)

            return call

        self.weighs(make)

    def test_events_of_rows(self) -> None:
        self.rows_of(ms.Connection.next_event)

    def test_columns_of_rows(self) -> None:
        def take(connection: ms.Connection) -> None:
            connection.next_event()
            self.assertEqual(len(connection.columns()), 1)

        self.rows_of(take)

    def test_refused_cells(self) -> None:
        """Each row has a cell that isn't of its column's type, and is taken as an event then."""
        for refused in (ms.Connection.take_rows, ms.Connection.take_table):
            def take(connection: ms.Connection) -> None:
                with self.assertRaises(ms.RowError):
                    refused(connection, Values())
                connection.next_event()

            self.rows_of(take, b"x")

    def test_rows_in_pieces(self) -> None:
        """Rows that come one by one, and are taken as they come."""
        takes: List[Callable[[ms.Connection], Any]] = [
            ms.Connection.take_rows, ms.Connection.take_table,
            lambda connection: connection.take_rows(Values())]
        for take in takes:
            def make(size: int) -> Callable[[], object]:
                front = columns_of(size)

                def call() -> None:
                    with at_rows(front) as connection:
                        for number in range(size // 256):
                            row = ms.put_packet(ROW, (number + 4) % 256)[0]
                            connection.feed(Side.SERVER, row)
                            assert take(connection)

                return call

            self.weighs(make)

    def test_fetches(self) -> None:
        """Rows that come one by one under a statement's columns."""
        takes: List[Callable[[ms.Connection], Any]] = [
            ms.Connection.next_event, ms.Connection.take_table,
            lambda connection: connection.take_rows(Values())]
        for take in takes:
            def make(size: int) -> Callable[[], object]:
                def call() -> None:
                    with opened(b"n" * size) as connection:
                        for _ in range(size // 256):
                            fetched(connection)
                            assert take(connection)
                            list(connection)

                return call

            self.weighs(make)

    def test_texts_of_executions(self) -> None:
        """The text comes once; what answers an execution is fed, or put in either way."""
        ways: List[Callable[[ms.Connection], object]] = [
            lambda it: list(it.feed(Side.SERVER, OK_PACKET)),
            lambda it: it.put(Side.SERVER, OK),
            lambda it: it.put_packets(Side.SERVER, OK_PACKET)]
        packets = ms.executions("SELECT ?", [(1,)], 5)
        for way in ways:
            def make(size: int) -> Callable[[], object]:
                def call() -> None:
                    with prepared(b"SELECT ? -- " + b"x" * size) as connection:
                        for _ in range(size // 256):
                            [event] = connection.feed(Side.CLIENT, packets)
                            assert isinstance(event, ms.ExecuteEvent)
                            statement = connection.statement(5)
                            assert statement and event.text is statement.text
                            way(connection)

                return call

            self.weighs(make)

    def test_other_commands_between(self) -> None:
        """What else is prepared, closed and refused between executions of a long statement."""
        packets = ms.executions("SELECT ?", [(1,)], 5)
        error = ms.put_packet(b"\xff\x28\4#42000no", 1)[0]
        with ms.ReplyWriter(ReplyKind.PREPARE, PROTOCOL_41) as writer:
            small = writer.prepared(6, [], [])
        between = [(ms.Command.prepare("DO 1"), small), (ms.Command.close(6), b""),
                   (ms.Command.prepare("DO ("), error), (ms.Command.query("DO 1"), OK_PACKET),
                   (ms.Command.reset_connection(), error), (b"\0", error), (b"\x17", error),
                   (b"\x19\6\0\0\0more", b""), (ms.Command.reset_statement(5), OK_PACKET)]

        def make(size: int) -> Callable[[], object]:
            def call() -> None:
                with prepared(b"SELECT ? -- " + b"x" * size) as connection:
                    for _ in range(size // 2560):
                        for command, reply in between:
                            list(connection.feed(Side.CLIENT, ms.put_packet(command)[0]))
                            if reply:
                                put, _ = connection.put_packets(Side.SERVER, reply)
                                assert len(put) == len(reply), command
                            [event] = connection.feed(Side.CLIENT, packets)
                            assert isinstance(event, ms.ExecuteEvent)
                            connection.put_packets(Side.SERVER, OK_PACKET)

            return call

        self.weighs(make)

    def test_replies(self) -> None:
        """Rows of a reply that come one by one, and are taken as they come, refused ones too."""
        takes: List[Callable[[ms.ReplyReader], Any]] = [
            ms.ReplyReader.take, ms.ReplyReader.take_values, ms.ReplyReader.take_tables]
        for take in takes:
            def make(size: int) -> Callable[[], object]:
                front = columns_of(size)

                def call() -> None:
                    with ms.ReplyReader(ReplyKind.QUERY, PROTOCOL_41) as reader:
                        reader.feed(front)
                        for number in range(size // 256):
                            is_bad = number % 2 and take is not ms.ReplyReader.take
                            row = b"\1x" if is_bad else ROW
                            reader.feed(ms.put_packet(row, (number + 4) % 256)[0])
                            if is_bad:
                                with self.assertRaises(ms.RowError):
                                    take(reader)
                                reader.take()
                            else:
                                assert take(reader)

                return call

            self.weighs(make)

    def test_packets(self) -> None:
        """Payloads that are asked for behind all pieces, behind each, and of one piece."""
        for step, asks in ((1, False), (7, False), (7, True), (1 << 30, False)):
            def make(size: int) -> Callable[[], object]:
                packets = [ms.put_packet(b"abc", it % 256)[0] for it in range(size // 7)]
                pieces = cut(b"".join(packets), step)

                def call() -> None:
                    with ms.PacketReader() as reader:
                        found = 0
                        for piece in pieces:
                            reader.feed(piece)
                            if asks:
                                found += sum(1 for _ in reader)
                        self.assertEqual(found + sum(1 for _ in reader), len(packets))

                return call

            self.weighs(make, 1 << 13)

    def test_a_long_packet(self) -> None:
        """A payload that comes byte by byte, and is asked for at each."""
        def make(size: int) -> Callable[[], object]:
            pieces = cut(ms.put_packet(bytes(size))[0], 1)

            def call() -> None:
                with ms.PacketReader() as reader:
                    for piece in pieces:
                        reader.feed(piece)
                        last = reader.payload()
                    self.assertEqual(last, bytes(size))

            return call

        self.weighs(make, 1 << 13)

    def test_receivers(self) -> None:
        """Sets that come one by one, and are taken as they come or at the end."""
        query = "INSERT INTO t VALUES (?)"
        for asks in (False, True):
            def make(size: int) -> Callable[[], object]:
                pieces = cut(ms.send(query, [(None,)] * (size // 16), ms.Road.EXECUTE, 5), 16)

                def call() -> None:
                    with ms.Receiver(query, 5) as receiver, ms.Recoder(query, 5) as recoder:
                        for piece in pieces:
                            receiver.feed(piece)
                            recoder.feed(piece)
                            if asks:
                                receiver.take()
                        receiver.take()

                return call

            self.weighs(make, 1 << 15)

    def test_names(self) -> None:
        """Rows by the names of many columns."""
        def make(size: int) -> Callable[[], object]:
            columns = [Column(b"n%d" % it, ColumnType.LONG, 0, 63) for it in range(size // 32)]
            cells = [(None,) * len(columns)]
            rows = ms.ValueRows(tuple(columns), list(cells), True, 0, 0, b"", ())

            def call() -> None:
                self.assertEqual(ms.rows_as_dicts(columns, cells), rows.dicts())

            return call

        self.weighs(make, 1 << 15)

    def test_attributes(self) -> None:
        """Attributes of a login, and parameters of an execution."""
        capabilities = int(ms.Capability.PROTOCOL_41 | ms.Capability.SECURE_CONNECTION
                           | ms.Capability.PLUGIN_AUTH | ms.Capability.CONNECT_ATTRS
                           | ms.Capability.PLUGIN_AUTH_LENENC_CLIENT_DATA)
        greeting = ms.put_greeting(1, "8", capabilities, bytes(8), bytes(12))

        def login(size: int) -> Callable[[], object]:
            count = size // 16
            # Two byte lengths, and each name once.
            attributes = b"".join(b"\7%07d\1b" % it for it in range(count))
            length = b"\xfe" + len(attributes).to_bytes(8, "little")
            payload = (capabilities.to_bytes(4, "little") + bytes(4) + b"\x21" + bytes(23)
                       + b"ann\0\0mysql_native_password\0" + length + attributes)

            def call() -> None:
                with ms.Connection() as connection:
                    connection.put(Side.SERVER, greeting)
                    [event] = connection.feed(Side.CLIENT, ms.put_packet(payload, 1)[0])
                    assert isinstance(event, ms.LoginEvent)
                    self.assertEqual(len(event.attributes), count)

            return call

        def execution(size: int) -> Callable[[], object]:
            count = size // 16
            query = b"SELECT " + b",".join([b"?"] * count)
            packets = ms.executions(query, [(None,) * count], 5)

            def call() -> None:
                with prepared(query, 5, (), count) as connection:
                    [event] = connection.feed(Side.CLIENT, packets)
                    assert isinstance(event, ms.ExecuteEvent)
                    self.assertEqual(event.values, (None,) * count)

            return call

        self.weighs(login, 1 << 15)
        self.weighs(execution, 1 << 15)

    def test_greetings(self) -> None:
        """A greeting is looked at once it is whole."""
        tail = b"\0\1\0\0\x0012345678\0\0\x82\x21\2\0\0\0\x15" + bytes(10) + b"123456789012\0"
        whole = b"\x0a" + b"8" * ((1 << 24) - 1 - len(tail)) + tail
        stream = ms.put_packet(whole + bytes(1000), 0, 1 << 26)[0]
        with ms.Connection(server=1 << 26) as connection:
            connection.feed(Side.SERVER, stream[:-1000])
            began = time.process_time()
            for piece in cut(stream[-1000:-1], 1):
                connection.feed(Side.SERVER, piece)
                self.assertIsNone(connection.next_event())
            # A look takes milliseconds.
            self.assertLess(time.process_time() - began, 1)
            connection.feed(Side.SERVER, stream[-1:])
            event = connection.next_event()
            assert isinstance(event, ms.GreetingEvent)
            self.assertEqual(len(event.version), (1 << 24) - 1 - len(tail))

    def test_digits(self) -> None:
        """A number with more digits than any column has is none."""
        column = [Column(b"n", ColumnType.LONGLONG, 0, 63)]
        for text, is_number in ((b"0" * 4299 + b"7", True), (b"0" * 4300 + b"7", False),
                                (b"-" + b"1" * (1 << 20), False)):
            with ms.ReplyReader(ReplyKind.QUERY, PROTOCOL_41) as reader:
                reader.feed(written(column, [[text]]))
                if is_number:
                    [rows] = reader.take_values()
                    assert isinstance(rows, ms.ValueRows)
                    self.assertEqual(rows.rows, [(7,)])
                else:
                    with self.assertRaises(ms.RowError):
                        reader.take_values()

    def test_wide_tables(self) -> None:
        """A table of a few rows takes no memory for many."""
        columns = [Column(b"n", ColumnType.LONG, 0, 63)] * 20000
        reply = written(columns, [[None] * len(columns)] * 2)
        with at_rows(reply) as connection:
            before = resident()
            table = connection.take_table()
            assert table
            self.assertEqual(table.row_count, 2)
            # Of 256 rows the numbers alone would be 40 MB.
            self.assertLess(resident() - before, 36 << 20)


class Statements(Case):
    """What is kept by a statement's id is that statement's."""

    def names(self, connection: ms.Connection, statement: int = 5) -> List[bytes]:
        """The names of the columns of a row that is fetched, as each call tells them."""
        fetched(connection, statement)
        table = connection.take_table()
        assert table
        list(connection)
        fetched(connection, statement)
        assert isinstance(connection.next_event(), ms.RowEvent)
        columns = connection.columns()
        list(connection)
        self.assertIs(columns, table.columns)
        self.assertEqual(connection.columns(), ())
        return [it.name for it in columns]

    def test_columns(self) -> None:
        """A statement's columns are those that it last had."""
        connection = opened(b"first")
        self.assertEqual(self.names(connection), [b"first"])
        columns = [Column(b"second", ColumnType.LONG, 0, 63)]
        prepared(b"SELECT 2", 6, columns, 0, connection)
        self.assertEqual(self.names(connection), [b"first"])
        self.assertEqual(self.names(connection, 6), [b"second"])
        self.assertEqual(self.names(connection, 0xFFFFFFFF), [b"second"])
        # An execution gives the statement others.
        columns = [Column(b"third", ColumnType.LONG, 0, 63)]
        connection.feed(Side.CLIENT, executed(5))
        connection.feed(Side.SERVER, written(columns, [[7]], ReplyKind.EXECUTE))
        self.assertEqual(connection.columns(), ())
        list(connection)
        self.assertEqual(self.names(connection), [b"third"])
        self.assertEqual(self.names(connection, 6), [b"second"])
        # So does one that is laid out as none, and another prepare by its id.
        connection.feed(Side.CLIENT, ms.put_packet(b"\x17\5\0\0\0\0")[0])
        columns = [Column(b"fourth", ColumnType.LONG, 0, 63)]
        connection.feed(Side.SERVER, written(columns, [[7]], ReplyKind.EXECUTE))
        self.assertIsInstance(next(iter(connection)), ms.OtherEvent)
        list(connection)
        self.assertEqual(self.names(connection), [b"fourth"])
        prepared(b"SELECT 5", 5, [Column(b"fifth", ColumnType.LONG, 0, 63)], 0, connection)
        self.assertEqual(self.names(connection), [b"fifth"])
        self.assertEqual(self.names(connection, 0xFFFFFFFF), [b"fifth"])

    def test_columns_that_are_put(self) -> None:
        """The same where a server's replies are put as packets."""
        connection = opened(b"first")
        self.assertEqual(self.names(connection), [b"first"])
        columns = [Column(b"second", ColumnType.LONG, 0, 63)]
        list(connection.feed(Side.CLIENT, executed(5)))
        reply = written(columns, [[7]], ReplyKind.EXECUTE)
        self.assertEqual(connection.put_packets(Side.SERVER, reply)[1], len(reply))
        self.assertEqual(self.names(connection), [b"second"])
        columns = [Column(b"third", ColumnType.LONG, 0, 63)]
        list(connection.feed(Side.CLIENT, ms.put_packet(ms.Command.prepare("SELECT 3"))[0]))
        with ms.ReplyWriter(ReplyKind.PREPARE, PROTOCOL_41) as writer:
            reply = writer.prepared(5, [], columns)
        # In two parts, of which the second begins with a column.
        for part in (reply[:16], reply[16:]):
            self.assertEqual(connection.put_packets(Side.SERVER, part)[1], len(part))
        self.assertEqual(self.names(connection), [b"third"])
        self.assertEqual(self.names(connection, 0xFFFFFFFF), [b"third"])

    def test_cached_columns(self) -> None:
        """MariaDB's executions without columns give rows under those of the prepare."""
        own = int(ms.MariadbCapability.CACHE_METADATA)
        connection = ms.Connection.after_login(PROTOCOL_41, own)
        for statement in (5, 6):
            columns = [Column(b"of %d" % statement, ColumnType.LONG, 0, 63)]
            prepared(b"SELECT 1", statement, columns, 0, connection)
        end = b"\xfe\0\0\2\0"
        reply = b"".join(ms.put_packet(it, number + 1)[0] for number, it
                         in enumerate((b"\1\0", end, BINARY_ROW, end)))
        found = []
        for statement in (5, 6, 5, 5, 0xFFFFFFFF):
            connection.feed(Side.CLIENT, executed(statement))
            connection.feed(Side.SERVER, reply)
            while not isinstance(connection.next_event(), ms.ColumnsEndEvent):
                pass
            table = connection.take_table()
            assert table
            list(connection)
            found.append(table.columns)
        self.assertEqual([it[0].name for it in found], [b"of 5", b"of 6", b"of 5", b"of 5", b"of 6"])
        self.assertIs(found[0], found[2])
        self.assertIs(found[1], found[4])

    def test_texts(self) -> None:
        """A text is that by which the statement was prepared last."""
        connection = ms.Connection.after_login(PROTOCOL_41)

        def text(statement: int = 5) -> bytes:
            [event] = connection.feed(Side.CLIENT, executed(statement))
            assert isinstance(event, ms.ExecuteEvent)
            connection.put_packets(Side.SERVER, OK_PACKET)
            found = connection.statement(statement)
            assert found
            self.assertEqual(found.text, event.text)
            return event.text

        wanted = {it: bytes([it]) * 1000 for it in range(97, 103)}
        prepared(wanted[97], 5, (), 0, connection)
        self.assertEqual((text(), text(0xFFFFFFFF)), (wanted[97], wanted[97]))
        prepared(wanted[98], 5, (), 0, connection)
        self.assertEqual((text(), text(0xFFFFFFFF)), (wanted[98], wanted[98]))
        prepared(wanted[99], 6, (), 0, connection)
        self.assertEqual([text(it) for it in (5, 6, 0xFFFFFFFF)],
                         [wanted[98], wanted[99], wanted[99]])
        # The reply is put as packets, the command in each way.
        with ms.ReplyWriter(ReplyKind.PREPARE, PROTOCOL_41) as writer:
            reply = writer.prepared(6, [], [])
        command = ms.put_packet(ms.Command.prepare(wanted[100]))[0]
        list(connection.feed(Side.CLIENT, command))
        connection.put_packets(Side.SERVER, reply)
        self.assertEqual((text(6), text(5)), (wanted[100], wanted[98]))
        connection.put_packets(Side.CLIENT, ms.put_packet(ms.Command.prepare(wanted[101]))[0])
        connection.put_packets(Side.SERVER, reply)
        self.assertEqual([text(it) for it in (5, 6, 0xFFFFFFFF)],
                         [wanted[98], wanted[101], wanted[101]])
        connection.put_packets(Side.CLIENT, ms.put_packet(ms.Command.prepare(wanted[102]))[0])
        list(connection.feed(Side.SERVER, reply))
        self.assertEqual([text(it) for it in (5, 6, 0xFFFFFFFF)],
                         [wanted[98], wanted[102], wanted[102]])

    def test_what_goes(self) -> None:
        """A statement that is closed, also by a command that is laid out as none, leaves nothing."""
        size = 1 << 18
        ways = [[ms.Command.close(5)], [ms.Command.close(0xFFFFFFFF)], [b"\x19\5\0\0\0more"],
                [ms.Command.reset_connection()]]
        for way in ways:
            connection = ms.Connection.after_login(PROTOCOL_41)

            def work(statement: int) -> None:
                prepared(b"x" * size, statement, [Column(b"n" * size, 3, 0, 63)], 0, connection)
                connection.feed(Side.CLIENT, executed(statement))
                [event] = connection
                assert isinstance(event, ms.ExecuteEvent)
                connection.put_packets(Side.SERVER, OK_PACKET)
                fetched(connection, statement)
                assert connection.take_table()
                list(connection)
                for it in way:
                    command = it[:1] + statement.to_bytes(4, "little") + it[5:] if it[1:5] == (
                        b"\5\0\0\0") else it
                    list(connection.feed(Side.CLIENT, ms.put_packet(command)[0]))
                    if connection.turn is Side.SERVER:
                        connection.put_packets(Side.SERVER, OK_PACKET)
                self.assertIsNone(connection.statement(statement))

            for statement in range(5):
                work(statement)
            gc.collect()
            before = resident()
            for statement in range(5, 35):
                work(statement)
            gc.collect()
            self.assertLess(resident() - before, 15 * size, way)


if __name__ == "__main__":
    unittest.main()
