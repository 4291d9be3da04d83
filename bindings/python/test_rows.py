"""Tests of rows as values of Python's types: `make check`."""

from __future__ import annotations

import dataclasses
import datetime
import unittest
from decimal import Decimal
from typing import Any, List, NamedTuple, Optional, Sequence, Tuple, Union

import mysql_session as ms
from mysql_session import Column, ColumnType, DateFields, ReplyKind, TimeFields

PROTOCOL_41 = int(ms.Capability.PROTOCOL_41)
BINARY = 63

# A column, what a server is given for its cell, and what the cell is read as.
KINDS: Sequence[Tuple[Column, ms.Parameter, Any]] = [
    (Column(b"id", ColumnType.LONGLONG, charset=BINARY), 7, 7),
    (Column(b"small", ColumnType.TINY, charset=BINARY), -8, -8),
    (Column(b"unsigned", ColumnType.LONGLONG, 32, BINARY), 2**64 - 1, 2**64 - 1),
    (Column(b"year", ColumnType.YEAR, 32, BINARY), 2024, 2024),
    (Column(b"price", ColumnType.NEWDECIMAL, charset=BINARY), "2.50", Decimal("2.50")),
    (Column(b"name", ColumnType.VAR_STRING), "maté", "maté"),
    (Column(b"kind", ColumnType.ENUM), "tea", "tea"),
    (Column(b"data", ColumnType.BLOB, charset=BINARY), b"\0\xff", b"\0\xff"),
    (Column(b"bits", ColumnType.BIT, charset=BINARY), b"\1", b"\1"),
    (Column(b"more", ColumnType.JSON, charset=BINARY), '{"a": 1}', '{"a": 1}'),
    (Column(b"at", ColumnType.DATETIME, charset=BINARY),
     datetime.datetime(2024, 2, 29, 13, 14, 15, 60),
     datetime.datetime(2024, 2, 29, 13, 14, 15, 60)),
    (Column(b"midnight", ColumnType.TIMESTAMP, charset=BINARY),
     datetime.datetime(2024, 2, 29), datetime.datetime(2024, 2, 29)),
    (Column(b"day", ColumnType.DATE, charset=BINARY), datetime.date(2024, 2, 29),
     datetime.date(2024, 2, 29)),
    (Column(b"took", ColumnType.TIME, charset=BINARY), datetime.timedelta(days=2, seconds=3),
     datetime.timedelta(days=2, seconds=3)),
    (Column(b"back", ColumnType.TIME, charset=BINARY),
     -datetime.timedelta(seconds=3, microseconds=5),
     -datetime.timedelta(seconds=3, microseconds=5)),
    (Column(b"nothing", ColumnType.LONG, charset=BINARY), None, None),
    (Column(b"no_day", ColumnType.DATE, charset=BINARY), DateFields(0, 0, 0), DateFields(0, 0, 0)),
]

# What a text row has in place of it, where that isn't the parameter's own text.
TEXTS = {b"at": "2024-02-29 13:14:15.000060", b"midnight": "2024-02-29 00:00:00",
         b"day": "2024-02-29", b"took": "48:00:03", b"back": "-00:00:03.000005",
         b"no_day": "0000-00-00"}


def read(kind: ReplyKind, columns: Sequence[Column], row: Sequence[ms.Parameter]) -> ms.Rows:
    """A row, as a server sends it."""
    with ms.ReplyWriter(kind, PROTOCOL_41) as writer:
        reply = writer.rows(columns) + writer.row(row) + writer.end_rows()
    [rows], _ = ms.read_reply(kind, PROTOCOL_41, reply)
    assert isinstance(rows, ms.Rows)
    return rows


def both() -> List[ms.Rows]:
    """The row of all kinds, by text and in binary."""
    columns = [column for column, _, _ in KINDS]
    texts: List[ms.Parameter] = [TEXTS.get(column.name, value) for column, value, _ in KINDS]
    return [read(ReplyKind.QUERY, columns, texts),
            read(ReplyKind.EXECUTE, columns, [value for _, value, _ in KINDS])]


@dataclasses.dataclass
class Good:
    """Some of the columns."""

    name: str
    id: int
    price: Decimal
    nothing: Optional[int]
    day: datetime.date
    anything: int = 5
    small: int = 0
    more: Any = None
    made: int = dataclasses.field(default=0, init=False)


class Pair(NamedTuple):
    """Two of them."""

    at: datetime.datetime
    took: Union[None, datetime.timedelta] = None


class AsValues(unittest.TestCase):
    """Rows of queries and of executions give the same values."""

    def test_dicts(self) -> None:
        wanted = {column.name.decode(): value for column, _, value in KINDS}
        for rows in both():
            found = rows.dicts()
            self.assertEqual(found, [wanted])
            self.assertEqual({name: type(it) for name, it in found[0].items()},
                             {name: type(it) for name, it in wanted.items()})

    def test_tuples(self) -> None:
        for rows in both():
            self.assertEqual(rows.tuples(), [tuple(value for _, _, value in KINDS)])
        rows = read(ReplyKind.QUERY, [KINDS[0][0], KINDS[4][0], KINDS[5][0]], [7, "2.50", None])
        self.assertEqual(rows.tuples(str, float, Optional[str]), [("7", 2.5, None)])
        self.assertEqual(rows.tuples(int, Decimal, Any), [(7, Decimal("2.50"), None)])
        with self.assertRaises(ValueError):
            rows.tuples(int)

    def test_records(self) -> None:
        for rows in both():
            self.assertEqual(rows.rows_as(Good), [Good("maté", 7, Decimal("2.50"), None,
                                                       datetime.date(2024, 2, 29), 5, -8,
                                                       '{"a": 1}')])
            self.assertEqual(rows.rows_as(Pair), [
                Pair(datetime.datetime(2024, 2, 29, 13, 14, 15, 60),
                     datetime.timedelta(days=2, seconds=3))])

    def test_floats(self) -> None:
        """A float of a binary row is one of a text row."""
        columns = [Column(b"f", ColumnType.FLOAT), Column(b"d", ColumnType.DOUBLE)]
        rows: List[Tuple[ms.Cell, ...]] = [(b"1.5", b"-2.25e3"), (1.5, -2250.0)]
        for cells in rows:
            self.assertEqual(ms.rows_as_tuples(columns, [cells]), [(1.5, -2250.0)])
            self.assertEqual(ms.rows_as_dicts(columns, [cells]), [{"f": 1.5, "d": -2250.0}])

    def test_texts_of_numbers(self) -> None:
        """Numbers with points and exponents, also long ones, and of columns of texts."""
        column = Column(b"s", ColumnType.VAR_STRING)
        for text in ("7", "-7.", "+.5", "0.25", "1e20", "-1.5E-7", "00" * 50 + "1.5", "1" * 300):
            found = ms.rows_as_tuples([column, column], [(text.encode(), text.encode())], float,
                                      Decimal)
            self.assertEqual(found, [(float(text), Decimal(text))])
        self.assertEqual(ms.rows_as_tuples([column], [(7,), (1.5,)], float), [(7.0,), (1.5,)])

    def test_durations(self) -> None:
        """Those that timedelta lacks stay as they are."""
        columns = [Column(b"t", ColumnType.TIME)]
        strange = TimeFields(True, 0)
        self.assertEqual(ms.rows_as_tuples(columns, [(strange,)]), [(strange,)])
        with self.assertRaises(ms.RowError):
            ms.rows_as_tuples(columns, [(strange,)], datetime.timedelta)

    def test_connection(self) -> None:
        """A connection's rows, by the columns that it tells."""
        with ms.Connection.after_login(PROTOCOL_41) as connection:
            connection.put(ms.Side.CLIENT, ms.Command.query("SELECT .."))
            with ms.ReplyWriter(ReplyKind.QUERY, PROTOCOL_41) as writer:
                reply = writer.rows([KINDS[0][0], KINDS[5][0]]) + writer.row([7, "tea"])
            found = [ms.rows_as_dicts(connection.columns(), [event.cells])
                     for event in connection.feed(ms.Side.SERVER, reply)
                     if isinstance(event, ms.RowEvent)]
        self.assertEqual(found, [[{"id": 7, "name": "tea"}]])

    def refuses(self, why: str, column: Optional[str], row: Optional[int], call: Any) -> None:
        """A call is refused about this column and this row."""
        with self.assertRaises(ms.RowError) as caught:
            call()
        error = caught.exception
        self.assertIn(why, str(error))
        self.assertEqual((error.column, error.row), (column, row))

    def test_refusals(self) -> None:
        number, name = KINDS[0][0], KINDS[5][0]
        self.refuses("no column", "took", None, lambda: ms.rows_as(Need, [number], []))
        self.refuses("several columns", "id", None, lambda: ms.rows_as_dicts([number, number], []))
        self.refuses("it is NULL", "id", 1, lambda: ms.rows_as(
            Number, [name, number], [(b"x", b"1"), (b"y", None)]))
        self.refuses("row 0: it has 2 cells, and there are 1 columns", None, 0,
                     lambda: ms.rows_as(Number, [number], [(b"1", b"2")]))
        # Without columns, as those of an event that is no row.
        self.refuses("row 1: it has 1 cells", None, 1, lambda: ms.rows_as_dicts([], [(), (b"1",)]))
        cells: List[ms.Cell] = [b"", b"1x", b" 1", b"1_0", 1.5, datetime.date(2024, 2, 29)]
        for cell in cells:
            self.refuses("no value of the type", "id", 0,
                         lambda: ms.rows_as(Number, [number], [(cell,)]))
        cases: List[Tuple[Any, ms.Cell]] = [
            (bool, b"2"), (float, b"x"), (Decimal, b"x"), (Decimal, 1.5), (str, b"\xff"), (str, 7),
            *((wanted, text) for wanted in (float, Decimal) for text in
              (b"1_0", b" 1", b"1\n", b"\xef\xbc\x91", b"infinity", b"-Inf", b"NaN", b"NaN1", b"",
               b"." + b"0" * 70 + b"_1", b"1e5x", b"+", b"--1")), (float, b"-1e309"),
            (bytes, 7), (datetime.datetime, b"2024-02-30 00:00:00"), (datetime.datetime, b"x"),
            (datetime.datetime, DateFields(0, 0, 0)), (datetime.date, b"2024-02-29 00:00:01"),
            (datetime.date, 7), (datetime.timedelta, b"1:2"), (datetime.timedelta, 7)]
        for wanted, cell in cases:
            with self.subTest(wanted=wanted, cell=cell):
                self.refuses("no value of the type", "id", 0,
                             lambda: ms.rows_as_tuples([number], [(cell,)], wanted))
        for strange in (list, Union[int, str], Union[int, str, None], object):
            with self.assertRaises(TypeError):
                ms.rows_as_tuples([number], [(b"1",)], strange)
        with self.assertRaises(TypeError):
            ms.rows_as(dict, [number], [])


@dataclasses.dataclass
class Number:
    """One column."""

    id: int


@dataclasses.dataclass
class Need:
    """A column that isn't there."""

    took: datetime.timedelta


if __name__ == "__main__":
    unittest.main()
