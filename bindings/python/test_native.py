"""Tests of what the extension makes by itself: values, converters, columns, events; and of wrong
calls: `make check`."""

from __future__ import annotations

import array
import dataclasses
import datetime
import itertools
import struct
import unittest
import weakref
from decimal import Decimal
from random import Random
from typing import Any, Dict, List, NamedTuple, Optional, Sequence, Tuple

import mysql_session as ms
from mysql_session import Column, ColumnType, DateFields, ReplyKind, Side, Values
from test_mysql_session import RECORDINGS, Case, cut, written
from test_rows import KINDS, TEXTS

PROTOCOL_41 = int(ms.Capability.PROTOCOL_41)
COLUMNS = [column for column, _, _ in KINDS]
WANTED = tuple(value for _, _, value in KINDS)


def reply_of(kind: ReplyKind, count: int = 1) -> bytes:
    """A reply with so many rows of all kinds, by text or in binary."""
    row: List[ms.Parameter] = [TEXTS.get(column.name, value) if kind is ReplyKind.QUERY else value
                               for column, value, _ in KINDS]
    return written(COLUMNS, [row] * count, kind)


def values_in(reply: bytes, values: Optional[Values] = None, kind: ReplyKind = ReplyKind.QUERY,
              step: int = 1 << 30) -> List[Tuple[Any, ...]]:
    """The rows of a reply with values, which is fed in pieces."""
    rows: List[Tuple[Any, ...]] = []
    with ms.ReplyReader(kind, PROTOCOL_41) as reader:
        for piece in cut(reply, step):
            reader.feed(piece)
            for result in reader.take_values(values):
                assert isinstance(result, ms.ValueRows)
                rows += result.rows
        assert reader.end() == ms.End(ms.EndKind.WHOLE)
    return rows


def cells(column: Column, texts: Sequence[ms.Parameter]) -> bytes:
    """A reply with these cells of one column."""
    return written([column], [[it] for it in texts])


def at_rows(reply: bytes) -> ms.Connection:
    """A connection whose next event is the first row of a reply."""
    connection = ms.Connection.after_login(PROTOCOL_41)
    connection.put(Side.CLIENT, ms.Command.query("SELECT .."))
    connection.feed(Side.SERVER, reply)
    while not isinstance(connection.next_event(), ms.ColumnsEndEvent):
        pass
    return connection


class InValues(Case):
    """Rows come as values of their columns' types."""

    def test_kinds(self) -> None:
        for kind, step in itertools.product((ReplyKind.QUERY, ReplyKind.EXECUTE), (1, 50, 1 << 20)):
            found = values_in(reply_of(kind, 3), None, kind, step)
            self.assertEqual(found, [WANTED] * 3)
            self.assertEqual([list(map(type, row)) for row in found], [list(map(type, WANTED))] * 3)
            self.assertEqual([type(row) for row in found], [tuple] * 3)

    def test_numbers(self) -> None:
        large = Column(b"n", ColumnType.LONGLONG, 32, 63)
        texts = ["0", "-1", "+7", "007", "18446744073709551615", "18446744073709551616",
                 "-9223372036854775808", "-9223372036854775809", "9" * 100]
        self.assertEqual(values_in(cells(large, texts)), [(int(it),) for it in texts])
        real = Column(b"d", ColumnType.DOUBLE, 0, 63)
        texts = ["0", "-2.25e3", "-1e-400", "1.7976931348623157e308", "0.1", "-0", "3." * 1,
                 "0." + "1" * 100]
        found = values_in(cells(real, texts))
        self.assertEqual([repr(it) for it, in found], [repr(float(it)) for it in texts])
        price = Column(b"p", ColumnType.NEWDECIMAL, 0, 63)
        texts = ["0.00", "-1.50", "9" * 65, "1E+3"]
        self.assertEqual([repr(it) for it, in values_in(cells(price, texts))],
                         [repr(Decimal(it)) for it in texts])

    def test_dates(self) -> None:
        day, at = Column(b"d", ColumnType.DATE), Column(b"t", ColumnType.DATETIME)
        date, moment = datetime.date, datetime.datetime
        rows: List[Tuple[Column, str, Any]] = [
            (day, "0001-01-01", date(1, 1, 1)), (day, "9999-12-31", date(9999, 12, 31)),
            (day, "2000-02-29", date(2000, 2, 29)), (day, "1900-02-29", DateFields(1900, 2, 29)),
            (day, "0000-00-00", DateFields(0, 0, 0)), (day, "2024-00-31", DateFields(2024, 0, 31)),
            (day, "2024-02-29 00:00:00", date(2024, 2, 29)),
            (at, "2024-02-29", moment(2024, 2, 29)),
            (at, "2024-02-29 23:59:58", moment(2024, 2, 29, 23, 59, 58)),
            (at, "2024-02-29 23:59:58.5", moment(2024, 2, 29, 23, 59, 58, 500000)),
            (at, "2024-02-29 23:59:58.000001", moment(2024, 2, 29, 23, 59, 58, 1)),
            (at, "0000-00-00 00:00:00", DateFields(0, 0, 0)),
        ]
        for column, text, value in rows:
            found = values_in(cells(column, [text]))[0][0]
            self.assertEqual((found, type(found)), (value, type(value)), text)
        # Twice as many days as are kept, each of them twice in turn.
        days = [date(2000, 1, 1) + datetime.timedelta(it) for it in range(2500)] * 2
        self.assertEqual(values_in(cells(day, [str(it) for it in days])), [(it,) for it in days])

    def test_durations(self) -> None:
        column, delta = Column(b"t", ColumnType.TIME), datetime.timedelta
        rows: List[Tuple[str, datetime.timedelta]] = [
            ("00:00:00", delta(0)), ("838:59:59", delta(hours=838, minutes=59, seconds=59)),
            ("-838:59:59.000001", -delta(hours=838, minutes=59, seconds=59, microseconds=1)),
            ("-00:00:00.5", -delta(microseconds=500000)), ("123456789:00:00", delta(hours=123456789)),
            ("01:75:99", delta(hours=1, minutes=75, seconds=99))]
        self.assertEqual(values_in(cells(column, [it for it, _ in rows])), [(it,) for _, it in rows])

    def test_texts(self) -> None:
        """A text is read by the character set of its collation."""
        word = "gr\u00fc\u00df\u20ac"
        for collation, codec in ((45, "utf-8"), (8, "cp1252"), (255, "utf-8"), (54, "utf-16-be"),
                                 (56, "utf-16-le"), (60, "utf-32-be"), (1032, "cp1252")):
            column = Column(b"s", ColumnType.VAR_STRING, 0, collation)
            reply = cells(column, [word.encode(codec)])
            self.assertEqual(values_in(reply), [(word,)], collation)
            with ms.ReplyReader(ReplyKind.QUERY, PROTOCOL_41) as reader:
                reader.feed(reply)
                [rows] = reader.take()
            assert isinstance(rows, ms.Rows)
            self.assertEqual((rows.tuples(), rows.tuples(str)), ([(word,)], [(word,)]))
        for collation, text, codec in ((28, "\u4e2d", "gbk"), (13, "\u65e5", "shift_jis"),
                                       (24, "\u4e2d", "gb2312"), (7, "\u0436", "koi8-r")):
            column = Column(b"s", ColumnType.VAR_STRING, 0, collation)
            self.assertEqual(values_in(cells(column, [text.encode(codec)])), [(text,)])
        binary = Column(b"s", ColumnType.VAR_STRING, 0, 63)
        self.assertEqual(values_in(cells(binary, [b"\xff", b""])), [(b"\xff",), (b"",)])

    def test_refused(self) -> None:
        """A cell that is no value of its type is told; the results stay."""
        rows: List[Tuple[ColumnType, str]] = [
            (ColumnType.LONG, "x"), (ColumnType.LONG, ""), (ColumnType.LONG, "1_0"),
            (ColumnType.DOUBLE, "x"), (ColumnType.DOUBLE, ""), (ColumnType.NEWDECIMAL, "--1"),
            *((kind, text) for kind in (ColumnType.DOUBLE, ColumnType.NEWDECIMAL) for text in
              ("1_0", " 1", "1 ", "\uff11", "Infinity", "-inf", "NaN", "sNaN", "0x10", ".", "1e")),
            (ColumnType.DOUBLE, "1e999"), (ColumnType.DOUBLE, "9" * 400),
            (ColumnType.DATE, "2024-02-3x"), (ColumnType.DATE, "2024-02-29 00:00:01"),
            (ColumnType.DATETIME, "x"), (ColumnType.DATETIME, "2024-02-29 01:02:03."),
            (ColumnType.TIME, "1:2"), (ColumnType.TIME, "-:00:00"), (ColumnType.TIME, "")]
        for kind, text in rows:
            column = Column(b"a", kind, 0, 63)
            reply = written([Column(b"i", ColumnType.LONG, 0, 63), column], [[1, None], [2, text]])
            with ms.ReplyReader(ReplyKind.QUERY, PROTOCOL_41) as reader:
                reader.feed(reply)
                for take in (reader.take_values, reader.take_values, reader.take_tables):
                    with self.assertRaises(ms.RowError, msg=text) as caught:
                        take()
                    self.assertEqual((caught.exception.column, caught.exception.row), ("a", 1))
                [rows_of] = reader.take()
                assert isinstance(rows_of, ms.Rows)
                self.assertEqual(rows_of.rows, [(b"1", None), (b"2", text.encode())])
        name = Column(b"s\xff", ColumnType.VAR_STRING)
        with self.assertRaises(ms.RowError) as caught:
            values_in(cells(name, [b"\xff"]))
        self.assertEqual(caught.exception.column, "s\udcff")

    def test_records(self) -> None:
        @dataclasses.dataclass
        class Record:
            id: int
            name: Optional[str]
            more: int = 5

        class Pair(NamedTuple):
            name: str
            id: int

        columns = [Column(b"id", ColumnType.LONG, 0, 63), Column(b"name", ColumnType.VAR_STRING)]
        with ms.ReplyReader(ReplyKind.QUERY, PROTOCOL_41) as reader:
            reader.feed(written(columns, [[1, "tea"], [2, None]]))
            [rows] = reader.take_values()
        assert isinstance(rows, ms.ValueRows)
        self.assertEqual(rows.dicts(), [{"id": 1, "name": "tea"}, {"id": 2, "name": None}])
        self.assertEqual(rows.records(Record), [Record(1, "tea"), Record(2, None)])
        self.assertEqual(rows.records(Pair), [Pair("tea", 1), Pair(None, 2)])  # type: ignore
        self.assertTrue(ms.ends_reply(rows))
        with self.assertRaises(TypeError):
            rows.records(dict)
        with self.assertRaises(ms.RowError):
            rows._replace(columns=(columns[0], columns[0])).dicts()

    def test_columns_of_rows_that_go_on(self) -> None:
        """Each taking of rows that come piece by piece has the columns, and rows behind others have
        theirs."""
        first = [Column(b"a", ColumnType.LONG, 0, 63)]
        second = [Column(b"b", ColumnType.VAR_STRING), Column(b"c", ColumnType.DATE)]
        with ms.ReplyWriter(ReplyKind.QUERY, PROTOCOL_41) as writer:
            reply = writer.rows(first) + b"".join(writer.row([it]) for it in range(50))
            reply += writer.end_rows(more=True) + writer.rows(second)
            reply += b"".join(writer.row([it, "2024-02-29"]) for it in range(50)) + writer.end_rows()
        for step in (7, 60, 1000):
            found: Dict[Tuple[Column, ...], List[Any]] = {}
            with ms.ReplyReader(ReplyKind.QUERY, PROTOCOL_41) as reader:
                for number, piece in enumerate(cut(reply, step)):
                    reader.feed(piece)
                    if number % 3 == 2:
                        with self.assertRaises(ZeroDivisionError):
                            failing = Values({it: lambda _: 1 // 0 for it in ColumnType})
                            reader.feed(b"")
                            if not any(getattr(it, "rows", 0) for it in reader.take_values(failing)):
                                raise ZeroDivisionError
                    for result in reader.take_values():
                        assert isinstance(result, ms.ValueRows)
                        found.setdefault(result.columns, []).extend(result.rows)
            self.assertEqual(found, {
                tuple(first): [(it,) for it in range(50)],
                tuple(second): [(str(it), datetime.date(2024, 2, 29)) for it in range(50)]}, step)


class Converters(Case):
    """A user's converters make the values of their columns."""

    def test_by_type(self) -> None:
        given: List[Any] = []

        def converter(cell: Any) -> Any:
            given.append(cell)
            return "own", cell

        values = Values({ColumnType.NEWDECIMAL: float, ColumnType.DATE: converter, 3: str})
        for kind, day in ((ReplyKind.QUERY, b"2024-02-29"),
                          (ReplyKind.EXECUTE, datetime.date(2024, 2, 29))):
            given.clear()
            row = dict(zip((it.name for it in COLUMNS), values_in(reply_of(kind), values, kind)[0]))
            self.assertEqual((row[b"price"], row[b"day"], row[b"nothing"]), (2.5, ("own", day), None))
            self.assertEqual(given[0], day)
            self.assertEqual(row[b"at"], WANTED[[it.name for it in COLUMNS].index(b"at")])

    def test_what_it_raises(self) -> None:
        """It comes as it is, and nothing is lost."""
        class Own(ValueError):
            pass

        left = 0

        def converter(cell: Any) -> Any:
            nonlocal left
            left -= 1
            if left == 0:
                raise Own("own")
            return cell

        values = Values({ColumnType.LONG: converter})
        column = Column(b"a", ColumnType.LONG, 0, 63)
        wanted = [(b"%d" % it,) for it in range(20)]
        reply = cells(column, list(range(20)))
        for number in range(1, 21):
            with ms.ReplyReader(ReplyKind.QUERY, PROTOCOL_41) as reader:
                reader.feed(reply)
                left = number
                with self.assertRaisesRegex(Own, "^own$"):
                    reader.take_values(values)
                [rows] = reader.take_values(values)
                assert isinstance(rows, ms.ValueRows)
                self.assertEqual(rows.rows, wanted)
            for by_event in (False, True):
                with at_rows(reply) as connection:
                    left = number
                    with self.assertRaisesRegex(Own, "^own$"):
                        connection.take_rows(values)
                    found = []
                    if by_event:
                        event = connection.next_event()
                        assert isinstance(event, ms.RowEvent)
                        found.append(event.cells)
                    for _ in range(3):
                        found += connection.take_rows(values)
                    self.assertEqual(found, wanted)
                    self.assertIsInstance(connection.next_event(), ms.RowsEndEvent)
            with at_rows(reply) as connection:
                left = number
                with self.assertRaisesRegex(Own, "^own$"):
                    connection.take_table(values)
                found = []
                for _ in range(3):
                    table = connection.take_table(values)
                    found += table.tuples() if table else []
                self.assertEqual(found, wanted)
                self.assertIsInstance(connection.next_event(), ms.RowsEndEvent)

    def test_a_table_that_failed_as_events(self) -> None:
        def converter(cell: Any) -> Any:
            if cell == b"5" and not failed:
                failed.append(cell)
                raise ZeroDivisionError
            return cell

        failed: List[Any] = []
        columns = [Column(b"n", ColumnType.DOUBLE, 0, 63), Column(b"a", ColumnType.LONG, 0, 63)]
        reply = written(columns, [[None if it == 2 else it, it] for it in range(9)])
        with at_rows(reply) as connection:
            with self.assertRaises(ZeroDivisionError):
                connection.take_table(Values({ColumnType.LONG: converter}))
            found = [event.cells for event in connection if isinstance(event, ms.RowEvent)]
        numbers: List[Any] = [float(it) if it != 2 else None for it in range(5)]
        wanted: List[Tuple[Any, ...]] = [(number, b"%d" % it) for it, number in enumerate(numbers)]
        wanted += [(b"%d" % it, b"%d" % it) for it in range(5, 9)]
        self.assertEqual(found, wanted)

    def test_wrong_types(self) -> None:
        wrong: List[Any] = [{3: 5}, {256: str}, {-1: str}, {"a": str}, 5]
        for it in wrong:
            with self.assertRaises((TypeError, OverflowError, ValueError, AttributeError)):
                Values(it)
        with ms.ReplyReader(ReplyKind.QUERY, PROTOCOL_41) as reader, \
                ms.Connection.after_login(PROTOCOL_41) as connection:
            for take in (reader.take_values, reader.take_tables, connection.take_rows,
                         connection.take_table):
                for strange in ({3: str}, 5, "a"):
                    with self.assertRaises((TypeError, AttributeError)):
                        take(strange)  # type: ignore[arg-type]


class Tables(Case):
    """Rows come as columns."""

    def check_columns(self, arrays: Sequence[ms.ColumnValues]) -> None:
        """Those of `reply_of` three times."""
        forms = {b"unsigned": "Q", **{it: "q" for it in (b"id", b"small", b"year", b"nothing")}}
        for (column, _, value), it in zip(KINDS, arrays):
            nulls = [value is None] * 3
            self.assertEqual((it.nulls.format, it.nulls.tolist()), ("?", nulls), column)
            if column.name in forms:
                assert isinstance(it.values, memoryview)
                self.assertEqual((it.values.format, it.values.tolist()),
                                 (forms[column.name], [value or 0] * 3))
            else:
                self.assertEqual(it.values, [value] * 3)

    def test_kinds(self) -> None:
        for kind in (ReplyKind.QUERY, ReplyKind.EXECUTE):
            reply = reply_of(kind, 3)
            with ms.ReplyReader(kind, PROTOCOL_41) as reader:
                reader.feed(reply)
                [table] = reader.take_tables()
                assert isinstance(table, ms.Table)
                self.assertEqual((table.columns, table.row_count, table.ended, table.status),
                                 (tuple(COLUMNS), 3, True, 2))
                self.assertTrue(ms.ends_reply(table))
                self.check_columns(table.arrays)
                self.assertEqual(table.tuples(), [WANTED] * 3)
        with at_rows(reply_of(ReplyKind.QUERY, 3)) as connection:
            table = connection.take_table()
            assert table
            self.check_columns(table.arrays)
            self.assertEqual((table.columns, table.row_count, table.ended), (tuple(COLUMNS), 3, False))
            self.assertIsNone(connection.take_table())
            self.assertEqual(connection.take_rows(), [])
            self.assertIsInstance(connection.next_event(), ms.RowsEndEvent)
            self.assertIsNone(connection.take_table())

    def test_buffers(self) -> None:
        """The numbers lie in memory as arrays do."""
        columns = [Column(b"i", ColumnType.LONG, 0, 63), Column(b"d", ColumnType.DOUBLE, 0, 63)]
        rows: List[List[Any]] = [[it, repr(it / 8)] for it in range(-1000, 2000)]
        with ms.ReplyReader(ReplyKind.QUERY, PROTOCOL_41) as reader:
            reader.feed(written(columns, rows))
            [table] = reader.take_tables()
        assert isinstance(table, ms.Table)
        whole, real = (it.values for it in table.arrays)
        self.assertEqual(array.array("q", bytes(whole)).tolist(), [it for it, _ in rows])
        self.assertEqual(array.array("d", bytes(real)).tolist(), [it / 8 for it, _ in rows])
        self.assertEqual(struct.unpack_from("=qq", whole), (-1000, -999))
        assert isinstance(whole, memoryview) and isinstance(real, memoryview)
        self.assertEqual([(it.nbytes, it.contiguous, it.itemsize) for it in (whole, real)],
                         [(24000, True, 8)] * 2)

    def test_numbers_that_do_not_fit(self) -> None:
        for flags, text in ((0, "9223372036854775808"), (0, "-9223372036854775809"), (0, "x"),
                            (32, "18446744073709551616"), (32, "-1"), (0, "")):
            column = Column(b"a", ColumnType.LONGLONG, flags, 63)
            with at_rows(cells(column, ["1", text])) as connection:
                with self.assertRaises(ms.RowError, msg=text) as caught:
                    connection.take_table()
                self.assertEqual((caught.exception.column, caught.exception.row), ("a", 1))
                table = connection.take_table()
                assert table
                self.assertEqual(table.tuples(), [(1,)])
                self.assertEqual(connection.next_event(), ms.RowEvent((text.encode(),)))

    def test_floats(self) -> None:
        column = Column(b"a", ColumnType.FLOAT, 0, 63)
        texts: List[Optional[str]] = ["1.5", None, "-1e300", "0." + "3" * 99]
        with at_rows(cells(column, texts)) as connection:
            table = connection.take_table()
        assert table
        self.assertEqual(table.tuples(), [(None if it is None else float(it),) for it in texts])

    def test_rows_and_events(self) -> None:
        """Rows are taken as rows, as a table and as events, in turn."""
        column = Column(b"a", ColumnType.LONG, 0, 63)
        packets = cut_packets(cells(column, list(range(9))))
        with at_rows(b"".join(packets[:3])) as connection:
            found: List[Any] = []
            for number, packet in enumerate(packets[3:12]):
                connection.feed(Side.SERVER, packet)
                if number % 3 == 0:
                    found += connection.take_rows(Values())
                elif number % 3 == 1:
                    table = connection.take_table()
                    assert table
                    found += table.tuples()
                else:
                    event = connection.next_event()
                    assert isinstance(event, ms.RowEvent)
                    found.append(event.cells)
        self.assertEqual(found, [(it,) if it % 3 < 2 else (b"%d" % it,) for it in range(9)])

    def test_rows_of_recordings(self) -> None:
        """Rows that are taken as rows have the cells of their events, in all recordings. Until the
        event that ends them is told, turn and phase are those before it."""
        before: List[Any] = []

        def by_events(connection: ms.Connection) -> List[ms.Event]:
            found: List[ms.Event] = []
            before.clear()
            while True:
                turn = connection.turn, connection.phase, connection.reason
                event = connection.next_event()
                if event is None:
                    return found
                found.append(event)
                # The reason of last words is told at once.
                before.append(None if isinstance(event, (ms.FarewellEvent, ms.RowEvent)) else turn)

        def by_rows(connection: ms.Connection) -> List[ms.Event]:
            found: List[ms.Event] = []
            while True:
                found += [ms.RowEvent(it) for it in connection.take_rows()]
                if len(found) < len(before) and before[len(found)]:
                    self.assertEqual((connection.turn, connection.phase, connection.reason),
                                     before[len(found)])
                event = connection.next_event()
                if event is None:
                    return found
                found.append(event)

        rows = 0
        for path in sorted(RECORDINGS.glob("*.client")):
            with ms.Connection() as one, ms.Connection() as other:
                for connection in (one, other):
                    connection.feed(Side.CLIENT, path.read_bytes())
                for piece in cut(path.with_suffix(".server").read_bytes(), 700):
                    both: List[List[ms.Event]] = []
                    for connection, take in ((one, by_events), (other, by_rows)):
                        connection.feed(Side.SERVER, piece)
                        both.append([])
                        try:
                            both[-1] += take(connection)
                        except ms.ConnectionFault as fault:
                            self.assertEqual(repr(fault), repr(connection.fault))
                    self.assertEqual(*both)
                    rows += sum(isinstance(it, ms.RowEvent) for it in both[0])
                self.assertEqual(one.finish(), other.finish())
        self.assertGreater(rows, 100)

    def test_a_row_that_failed_before_more_came(self) -> None:
        """A row that no call could give is an event once more bytes came."""
        column = Column(b"a", ColumnType.LONG, 0, 63)
        packets = cut_packets(cells(column, ["1", "x", "3"]))
        for as_table in (False, True):
            with at_rows(b"".join(packets[:5])) as connection:
                with self.assertRaises(ms.RowError):
                    if as_table:
                        connection.take_table()
                    else:
                        connection.take_rows(Values())
                connection.feed(Side.SERVER, packets[5])
                self.assertEqual(connection.take_rows(Values()), [(1,)])
                self.assertEqual(connection.take_rows(Values()), [])
                self.assertEqual(connection.next_event(), ms.RowEvent((b"x",)))
                self.assertEqual(connection.take_rows(Values()), [(3,)])


class Ends(Case):
    """What ended the rows is told before anything is put."""

    def taken(self, end: bytes, take: Any) -> Tuple[ms.Connection, ms.Event]:
        """A connection whose rows, 7 alone, a payload ends, and the event of that."""
        column = Column(b"a", ColumnType.LONG, 0, 63)
        packets = cut_packets(cells(column, ["7"]))
        connection = at_rows(b"".join(packets[:4]) + ms.put_packet(end, len(packets[:4]) + 1)[0])
        rows = take(connection)
        self.assertIn(rows.tuples() if isinstance(rows, ms.Table) else rows, ([(7,)], [(b"7",)]))
        self.assertEqual((connection.turn, connection.phase), (Side.SERVER, ms.Phase.REPLY))
        for side, payload in (Side.CLIENT, b"\x0e"), (Side.SERVER, b"\0\0\0\2\0\0\0"):
            self.refuses(ms.Code.CONNECTION_NOT_ITS_TURN, lambda: connection.put(side, payload))
            self.assertEqual(connection.put_packets(side, ms.put_packet(payload)[0]), (b"", 0))
        with self.assertRaisesRegex(ms.MySQLSessionError, "`next_event`"):
            connection.put(Side.CLIENT, b"\x0e")
        event = connection.next_event()
        assert event is not None
        return connection, event

    TAKES: Sequence[Any] = (lambda it: it.take_rows(), lambda it: it.take_rows(Values()),
                            lambda it: it.take_table())

    def test_an_error(self) -> None:
        """A result that breaks off: error 3024, as a server sends it between rows."""
        for take in self.TAKES:
            connection, event = self.taken(b"\xff\xd0\x0b#HY000Query execution was interrupted", take)
            self.assertEqual(event, ms.ErrorEvent(3024, b"HY000", b"Query execution was interrupted"))
            self.assertEqual((connection.turn, connection.phase), (Side.CLIENT, ms.Phase.COMMAND))
            self.assertEqual(connection.put(Side.CLIENT, ms.Command.ping()).packets, b"\1\0\0\0\x0e")
            connection.close()

    def test_the_end(self) -> None:
        """Two warnings, and a status: that of a transaction, and that more results follow."""
        for take in self.TAKES:
            for status, turn in (3, Side.CLIENT), (11, Side.SERVER):
                connection, event = self.taken(b"\xfe\2\0" + bytes([status, 0]), take)
                assert isinstance(event, ms.RowsEndEvent)
                self.assertEqual((event.warnings, event.status), (2, status))
                self.assertEqual(connection.turn, turn)
                connection.close()

    def test_behind_rows_that_failed(self) -> None:
        """Rows that a failed call had read count as untold too, and `finish` says so."""
        column = Column(b"a", ColumnType.LONG, 0, 63)
        for take in self.TAKES[1:]:
            with at_rows(cells(column, ["7", "x"])) as connection:
                with self.assertRaises(ms.RowError):
                    take(connection)
                told = []
                for _ in range(3):
                    self.assertEqual((connection.turn, connection.phase),
                                     (Side.SERVER, ms.Phase.REPLY))
                    self.refuses(ms.Code.CONNECTION_NOT_ITS_TURN,
                                 lambda: connection.put(Side.CLIENT, ms.Command.ping()))
                    told.append(connection.next_event())
                self.assertEqual([type(it) for it in told], [ms.RowEvent, ms.RowEvent, ms.RowsEndEvent])
                self.assertEqual(connection.turn, Side.CLIENT)
            with at_rows(cells(column, ["7"])) as connection:
                take(connection)
                self.assertEqual(connection.finish().kind, ms.ConnectionEndKind.UNREAD)
                self.assertIsInstance(connection.next_event(), ms.RowsEndEvent)
                self.assertEqual(connection.finish().kind, ms.ConnectionEndKind.WHOLE)


def cut_packets(stream: bytes) -> List[bytes]:
    """The packets of a stream."""
    packets, at = [], 0
    while at < len(stream):
        length = 4 + int.from_bytes(stream[at:at + 3], "little")
        packets.append(stream[at:at + length])
        at += length
    return packets


class Events(Case):
    """Events are what their dataclasses say, though no __init__ of these made them."""

    def test_as_made_by_hand(self) -> None:
        reply = cells(Column(b"a", ColumnType.LONG, 0, 63), [7])
        with ms.Connection.after_login(PROTOCOL_41) as connection:
            query = connection.put(Side.CLIENT, ms.Command.query("SELECT 1")).event
            events = [query, *connection.feed(Side.SERVER, reply)]
        for event in events:
            made = type(event)(*(getattr(event, it.name) for it in dataclasses.fields(event)))
            self.assertEqual((event, hash(event), repr(event), vars(event)),
                             (made, hash(made), repr(made), vars(made)))
            self.assertEqual(dataclasses.replace(event), event)
            self.assertEqual(dataclasses.asdict(event), dataclasses.asdict(made))
            with self.assertRaises(dataclasses.FrozenInstanceError):
                event.side = Side.CLIENT  # type: ignore[misc]
            weakref.ref(event)

    def test_iterators(self) -> None:
        with ms.Connection.after_login(PROTOCOL_41) as connection:
            events = connection.feed(Side.CLIENT, ms.put_packet(b"\x0e")[0])
            self.assertIs(iter(events), events)
            self.assertEqual(list(events), [ms.CommandEvent(14, {})])
            connection.feed(Side.SERVER, ms.put_packet(b"\0\0\0\2\0\0\0", 1)[0])
            self.assertEqual(list(events), [])
            self.assertEqual([it.name for it in connection], ["Ok"])
        with self.assertRaises(ms.MySQLSessionError):
            next(iter(connection))

    def test_texts_of_statements(self) -> None:
        """An execution has the text that its statement has then."""
        texts = ["SELECT ?, '%s'" % (letter * 1000) for letter in "abc"]
        with ms.Connection.after_login(PROTOCOL_41) as connection:
            for text in (texts[0], texts[1], texts[2], texts[0][:400], texts[1]):
                for number in (5, 6):
                    connection.put(Side.CLIENT, ms.Command.prepare(text + str(number)))
                    with ms.ReplyWriter(ReplyKind.PREPARE, PROTOCOL_41) as writer:
                        packets = writer.prepared(number, [Column(b"?", 8)], [])
                    if number == 5:
                        self.assertEqual(connection.put_packets(Side.SERVER, packets)[1], len(packets))
                    else:
                        list(connection.feed(Side.SERVER, packets))
                for number, _ in itertools.product((5, 6), range(3)):
                    packets = ms.executions("SELECT ?", [(number,)], number)
                    [event] = connection.feed(Side.CLIENT, packets)
                    assert isinstance(event, ms.ExecuteEvent)
                    self.assertEqual((event.text, event.values),
                                     ((text + str(number)).encode(), (number,)))
                    connection.put(Side.SERVER, b"\0\0\0\2\0\0\0")
                connection.put(Side.CLIENT, ms.Command.close(5))


class Misuse(Case):
    """Wrong calls raise, and change nothing."""

    def test_types_of_the_extension(self) -> None:
        made: List[Any] = [ms.Receiver("SELECT ?"), ms.ParameterSets(), ms.Recoder("SELECT ?"),
                           ms.ReplyReader(ReplyKind.QUERY, 0), ms.ReplyWriter(ReplyKind.QUERY, 0),
                           ms.PacketReader(), ms.Connection(), Values()]
        natives = [it._native for it in made]
        natives.append(ms.Connection()._native.events())
        for native in natives:
            kind = type(native)
            for call in (kind, lambda: kind.__new__(kind), lambda: object.__new__(kind)):
                with self.assertRaises(TypeError):
                    call()
            with self.assertRaises(TypeError):
                type("Below", (kind,), {})
            strange: List[Any] = [None, 5, -1, 2**70, "a", b"a", 1.5, [], (), {}, object(), kind]
            for name in dir(native):
                if name.startswith("_"):
                    continue
                method = getattr(native, name)
                for arguments in [(), *((it,) for it in strange),
                                  *itertools.product(strange, repeat=2)]:
                    try:
                        method(*arguments)
                    except (TypeError, ValueError, OverflowError, ms.MySQLSessionError,
                            ms.RowError, RuntimeError):
                        pass

    def test_functions_of_the_extension(self) -> None:
        strange: List[Any] = [None, 5, -1, 2**70, "a", b"a", 1.5, [], (), {}, object(), (1,), [()]]
        random = Random(1)
        for name in dir(ms._native):
            call = getattr(ms._native, name)
            if name.startswith("_") or not callable(call):
                continue
            for count in range(10):
                for _ in range(60):
                    try:
                        call(*(random.choice(strange) for _ in range(count)))
                    except (TypeError, ValueError, OverflowError, KeyError, RuntimeError,
                            ms.MySQLSessionError, ms.RowError, IndexError):
                        pass

    def test_handed_over_once(self) -> None:
        with self.assertRaises(RuntimeError):
            ms._native.setup({})

    def test_wrong_arguments_take_nothing_back(self) -> None:
        """What the call before gave is given, also where the next one is refused for its types."""
        with ms.Recoder("SELECT ?") as recoder, ms.ReplyWriter(ReplyKind.QUERY, PROTOCOL_41) as writer, \
                ms.Connection.after_login(PROTOCOL_41) as connection:
            self.assertTrue(recoder.feed(ms.send("SELECT ?", [(1,)], ms.Road.TEXT)))
            with self.assertRaises(TypeError):
                recoder.feed("text")  # type: ignore[arg-type]
            self.assertEqual(recoder.rest(), b"")
            self.assertTrue(writer.rows([Column(b"a", ColumnType.LONG)]))
            with self.assertRaises(OverflowError):
                writer.end_rows(1 << 16)
            with self.assertRaises(TypeError):
                writer.row([object()])  # type: ignore[list-item]
            self.assertEqual(writer.rest(), b"")
            connection.put(Side.CLIENT, b"\x0e")
            with self.assertRaises(TypeError):
                connection.put(Side.SERVER, "text")  # type: ignore[arg-type]
            self.assertEqual(connection.unsent(Side.CLIENT), b"")
            with self.assertRaises(TypeError):
                connection.put_packets(Side.SERVER, 5)  # type: ignore[arg-type]
            self.assertEqual(connection.unsent(Side.CLIENT), b"")

    def test_released_views(self) -> None:
        view = memoryview(bytearray(5))
        view.release()
        with ms.PacketReader() as reader, self.assertRaises(ValueError):
            reader.feed(view)

    def test_views_in_steps(self) -> None:
        packet = ms.put_packet(b"abc")[0]
        with ms.PacketReader() as reader:
            reader.feed(memoryview(bytes(it for byte in packet for it in (byte, 0)))[::2])
            self.assertEqual(reader.payload(), b"abc")

    def test_bytes_that_change(self) -> None:
        """A bytearray may change as soon as the call returns."""
        reply = bytearray(reply_of(ReplyKind.QUERY, 3000))
        with ms.ReplyReader(ReplyKind.QUERY, PROTOCOL_41) as reader, ms.PacketReader() as packets:
            wanted = bytes(reply)
            reader.feed(reply)
            packets.restart(1)
            packets.feed(reply)
            reply[:] = bytes(len(reply))
            [rows] = reader.take_values()
            assert isinstance(rows, ms.ValueRows)
            self.assertEqual(rows.rows, [WANTED] * 3000)
            self.assertEqual(b"".join(ms.put_packet(it, (1 + number) % 256)[0]
                                      for number, it in enumerate(packets)), wanted)

    def test_sets_that_change(self) -> None:
        """A set's values may do what they like while they are read."""
        sets = ms.ParameterSets()

        class Number(int):
            pass

        class Strange(Sequence):  # type: ignore[type-arg]
            def __len__(self) -> int:
                return 2

            def __getitem__(self, at: Any) -> Any:
                sets.add((5, 6))
                if at > 1:
                    raise IndexError
                return Number(at)

        sets.add(Strange())
        self.assertEqual(len(sets), 4)
        values: List[Any] = [1]

        def growing() -> Any:
            for it in values:
                if len(values) < 40:
                    values.append(b"x" * len(values))
                yield it

        sets.add(growing())  # type: ignore[arg-type]
        self.assertEqual(len(sets), 5)
        sets.close()


if __name__ == "__main__":
    unittest.main()
