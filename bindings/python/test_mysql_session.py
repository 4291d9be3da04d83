"""Tests of mysql_session: `make check`.

Rows of sessions and of replies are run by bindings/testing/sessions.py. Where the environment
variable MYSQL_SESSION_LARGE is set, bytes of 2 and of 4 GiB come out too. That takes 9 GB of
memory, and a minute.
"""

from __future__ import annotations

import array
import contextlib
import datetime
import dis
import gc
import itertools
import os
import pathlib
import pickle
import re
import signal
import struct
import sys
import threading
import time
import unittest
import uuid
from decimal import Decimal
from random import Random
from typing import (Any, Callable, Dict, Generator, Iterable, Iterator, List, Optional, Sequence,
                    Set, Tuple, Type)

import mysql_session as ms
from mysql_session import Code, Column, ColumnType, EndKind, Mode, ReplyKind, Road, Spelling

BINDINGS = pathlib.Path(__file__).resolve().parent.parent
HEADER = BINDINGS / "c" / "mysql_session.h"
RECORDINGS = BINDINGS.parent / "crates" / "connection_conformance" / "data"

PROTOCOL_41 = int(ms.Capability.PROTOCOL_41)
LARGE = 17 << 20
LARGE_LIMIT = 1 << 26  # a byte takes two digits in a text


def cut(data: bytes, size: int) -> List[bytes]:
    """The bytes in pieces of this size."""
    return [data[at:at + size] for at in range(0, len(data), size)]


def received(query: ms.Text, stream: Iterable[bytes], statement: int = 1,
             limit: int = ms.DEFAULT_LIMIT) -> Tuple[List[Tuple[ms.Content, ...]], ms.End]:
    """The sets that a stream without a fault carries, and how it ends."""
    sets: List[Tuple[ms.Content, ...]] = []
    with ms.Receiver(query, statement, limit) as receiver:
        for piece in stream:
            receiver.feed(piece)
            sets += receiver
        end = receiver.end()
        return sets + receiver.take(), end


def recording(name: str) -> Tuple[bytes, bytes, List[str]]:
    """A recorded connection: what both sides said, and the lines that it reads as."""
    client, server = ((RECORDINGS / f"{name}.{side}").read_bytes() for side in ("client", "server"))
    return client, server, (RECORDINGS / f"{name}.events").read_text().splitlines()


class Case(unittest.TestCase):
    """A test that looks at errors by their codes, and at calls of other threads."""

    def refuses(self, code: Code, call: Callable[[], object], **where: int) -> None:
        """The call is refused by this code, at this position and no other."""
        with self.assertRaises(ms.MySQLSessionError) as caught:
            call()
        error = caught.exception
        found = {name: getattr(error, name) for name in ("set", "place", "payload", "result", "row")
                 if getattr(error, name) is not None}
        self.assertEqual((error.code, found), (code, where))
        self.assertIs(type(error.code), Code)
        self.assertEqual(error.text, ms.code_text(code))
        self.assertIn(error.text, str(error))

    def in_thread(self, call: Callable[[], object]) -> Optional[BaseException]:
        """What a call in its own thread raises."""
        raised: List[BaseException] = []

        def run() -> None:
            try:
                call()
            except BaseException as error:  # handed on to the test
                raised.append(error)

        thread = threading.Thread(target=run)
        thread.start()
        thread.join()
        return raised[0] if raised else None


def written(columns: Sequence[Column], rows: Iterable[Sequence[ms.Parameter]],
            kind: ReplyKind = ReplyKind.QUERY) -> bytes:
    """A reply with these rows."""
    with ms.ReplyWriter(kind, PROTOCOL_41) as writer:
        reply = writer.rows(columns)
        for row in rows:
            reply += writer.row(row)
        return reply + writer.end_rows()


class Interface(Case):
    """The module's numbers, calls and layouts are those of the header."""

    def setUp(self) -> None:
        self.header = re.sub(r"/\*.*?\*/", " ", HEADER.read_text(), flags=re.S)

    def numbers(self, name: str) -> Dict[str, int]:
        """The names of an enum without the prefix, and their numbers."""
        found = re.search(rf"enum {name} {{(.*?)}};", self.header, re.S)
        assert found
        pairs = re.findall(r"MYSQL_SESSION_(\w+) = (\w+)", found.group(1))
        return {word: int(number, 0) for word, number in pairs}

    def test_abi(self) -> None:
        found = re.search(r"#define MYSQL_SESSION_ABI (\d+)", self.header)
        assert found
        self.assertEqual(int(found.group(1)), ms.ABI)

    def test_version(self) -> None:
        found = re.findall(r"#define MYSQL_SESSION_VERSION\w* (\S+)", self.header)
        self.assertEqual(found, [f'"{ms.__version__}"', *ms.__version__.split(".")])
        self.assertIn(ms.__build__, ("proved", "unproved", "unknown"))
        self.assertEqual(ms.library_version(), ms.__version__)
        self.assertIn(ms.__build__, ("unknown", "proved" if ms.is_proved() else "unproved"))

    def test_numbers(self) -> None:
        self.assertEqual(self.numbers("mysql_session_code"), {it.name: int(it) for it in Code})
        self.assertEqual(self.numbers("mysql_session_road"), {it.name: int(it) for it in Road})
        for name, kinds, prefix in [("mysql_session_end_kind", EndKind, "END_"),
                                    ("mysql_session_reply_kind", ReplyKind, "REPLY_TO_"),
                                    ("mysql_session_phase", ms.Phase, "PHASE_"),
                                    ("mysql_session_reason", ms.Reason, "REASON_"),
                                    ("mysql_session_connection_end_kind", ms.ConnectionEndKind,
                                     "CONNECTION_")]:
            self.assertEqual(self.numbers(name), {prefix + it.name: int(it) for it in kinds})
        sides = {**{it.name: int(it) for it in ms.Side}, "NOBODY": 2}
        self.assertEqual(self.numbers("mysql_session_side"), sides)
        bulk = {it.name: it.value for it in ms.BulkKind}
        self.assertEqual(self.numbers("mysql_session_bulk_kind"), bulk)
        flags = {"NO_BACKSLASH_ESCAPES": ms._flags(Mode(no_backslash_escapes=True)),
                 "ANSI_QUOTES": ms._flags(Mode(ansi_quotes=True)),
                 "HEXADECIMAL": ms._flags(Mode(), Spelling.HEXADECIMAL),
                 "UNKNOWN_MODE": ms._UNKNOWN_MODE}
        self.assertEqual(self.numbers("mysql_session_flag"), flags)
        self.assertEqual((ms._flags(Mode()), ms._flags(Mode(True, True), Spelling.HEXADECIMAL)),
                         (0, 7))

    def test_numbers_of_the_protocol(self) -> None:
        types = {"TYPE_" + it.name: int(it) for it in ms.ColumnType}
        self.assertEqual(self.numbers("mysql_session_column_type"), types)
        capabilities = {"CLIENT_" + it.name: int(it) for it in ms.Capability}
        del capabilities["CLIENT_REMEMBER_OPTIONS"]  # a name of C has no number above 2**31 - 1
        factors = "MULTI_FACTOR_AUTHENTICATION"
        capabilities[factors] = capabilities.pop("CLIENT_" + factors)
        self.assertEqual(self.numbers("mysql_session_capability"), capabilities)
        named: Dict[str, Dict[str, int]] = {
            "status": {"SERVER_STATUS_" + it.name: int(it) for it in ms.Status},
            "column_flag": {it.name + "_FLAG": int(it) for it in ms.ColumnFlag},
            "state_type": {"SESSION_TRACK_" + it.name: int(it) for it in ms.StateType},
            "collation": {"COLLATION_" + it.name: int(it) for it in ms.Collation}}
        of_servers = ("QUERY_WAS_SLOW", "PS_OUT_PARAMS", "SESSION_STATE_CHANGED", "MORE_RESULTS")
        for word in of_servers:
            wanted = "SERVER_" + word + "_EXISTS" * (word == "MORE_RESULTS")
            named["status"][wanted] = named["status"].pop("SERVER_STATUS_" + word)
        for name, numbers in named.items():
            self.assertEqual(self.numbers("mysql_session_" + name), numbers)
        cursors = {"CURSOR_TYPE_NO_CURSOR": int(ms.Cursor.NO_CURSOR),
                   **{f"CURSOR_TYPE_{it.name}": int(it) for it in ms.Cursor if it}}
        self.assertEqual(self.numbers("mysql_session_cursor"), cursors)
        of_mariadb = {"MARIADB_CLIENT_" + it.name: int(it) for it in ms.MariadbCapability}
        self.assertEqual(self.numbers("mysql_session_mariadb_capability"), of_mariadb)

    def test_kinds_of_events(self) -> None:
        """Each kind of the header has a class of its name, or is a command by its number."""
        commands = {"FieldList", "CreateDb", "DropDb", "Refresh", "Shutdown", "Statistics",
                    "ProcessInfo", "ProcessKill", "Debug", "Ping", "BinlogDump", "TableDump",
                    "RegisterReplica", "SetOption", "BinlogDumpGtid", "ResetConnection", "Clone"}
        names = {number: "".join(it.capitalize() for it in word.split("_"))
                 for word, number in self.numbers("mysql_session_event_kind").items()}
        named = {number: name[len("Event"):] for number, name in names.items()}
        del named[0]
        classes = {number: it.__name__[:-len("Event")] for number, it in ms._EVENTS.items() if number}
        self.assertEqual({number: name for number, name in named.items() if name not in commands},
                         classes)

    def test_how_columns_are_read(self) -> None:
        """Rows are read alike by `take_values` and by `Rows.tuples`, by any type of their
        column."""
        texts = [b"7", b"1.50", b"2024-02-29", b"2024-02-29 01:02:03", b"-01:02:03", b"x"]
        for kind, charset in itertools.product(ColumnType, (45, 63, 8)):
            column = Column(b"c", kind, 0, charset)
            reply = written([column], [[text] for text in texts])
            for place, text in enumerate(texts):
                with ms.ReplyReader(ReplyKind.QUERY, PROTOCOL_41) as reader:
                    reader.feed(written([column], [[text]]))
                    wanted: Any = None
                    try:
                        wanted = ms.rows_as_tuples([column], [(text,)])
                    except ms.RowError as error:
                        with self.assertRaisesRegex(ms.RowError, re.escape(str(error))):
                            reader.take_values()
                    else:
                        [rows] = reader.take_values()
                        assert isinstance(rows, ms.ValueRows)
                        self.assertEqual((rows.rows, list(map(type, rows.rows[0]))),
                                         (wanted, list(map(type, wanted[0]))), (kind, place))
            self.assertTrue(reply)

    def test_passwords(self) -> None:
        """A str is no response of a login: it would be the password's own text."""
        strange: Any = "secret"
        with self.assertRaisesRegex(TypeError, "bytes are wanted"):
            ms.put_login("ann", PROTOCOL_41, strange)
        with self.assertRaisesRegex(TypeError, "bytes are wanted"):
            ms.Command.change_user("ann", PROTOCOL_41, strange)

    def test_wrong_types(self) -> None:
        """A str is no stream, and a word is no method; nothing is taken of either."""
        with ms.Receiver("SELECT ?") as receiver, ms.Recoder("SELECT ?") as recoder, \
                ms.ReplyReader(ReplyKind.QUERY, 0) as reply, ms.PacketReader() as packets:
            for it in (receiver, recoder, reply, packets):
                with self.assertRaisesRegex(TypeError, "bytes are wanted, not a str"):
                    it.feed("abc")  # type: ignore[arg-type]
            self.assertEqual(receiver.end().kind, EndKind.WHOLE)
            self.assertIsNone(packets.payload())
        for call in (lambda: ms.read_greeting("abc"), lambda: ms.read_login("abc", 0)):
            with self.assertRaisesRegex(TypeError, "bytes are wanted, not a str"):
                call()  # type: ignore[arg-type]
        with self.assertRaisesRegex(TypeError, "a number is wanted.*not 'text'"):
            ms.send("SELECT ?", [(1,)], "text")  # type: ignore[arg-type]

    def test_texts(self) -> None:
        texts = {ms.code_text(code) for code in Code}
        self.assertEqual(len(texts), len(Code))
        self.assertFalse({"", "no such code"} & texts)
        self.assertEqual(ms.code_text(Code.MEMORY), "a growth of memory was refused")
        self.assertEqual(ms.code_text(99), "no such code")
        self.assertEqual(ms.code_text(2**32 - 1), "no such code")


# Values, and what a stream carries of them.
VALUES: List[Tuple[ms.Parameter, ms.Content]] = [
    (None, None), (True, 1), (False, 0), (0, 0), (-1, -1), (-2**63, -2**63),
    (2**63 - 1, 2**63 - 1), (2**63, 2**63), (2**64 - 1, 2**64 - 1),
    ("", b""), ("it's", b"it's"), ("mat\u00e9 \U0001f33f", "mat\u00e9 \U0001f33f".encode()),
    (bytes(range(256)), bytes(range(256))), (bytearray(b"a\0"), b"a\0"),
    (memoryview(b"a b c")[::2], b"abc"),
    (datetime.date(2024, 2, 29), b"2024-02-29"),
    (datetime.datetime(2024, 2, 29, 23, 59, 58), b"2024-02-29 23:59:58"),
    (datetime.datetime(1, 1, 1, 0, 0, 0, 7), b"0001-01-01 00:00:00.000007"),
    (datetime.timedelta(0), b"000:00:00"),
    (datetime.timedelta(days=1, hours=2, minutes=3, seconds=4, microseconds=5),
     b"026:03:04.000005"),
    (-datetime.timedelta(days=1, seconds=1), b"-024:00:01"),
    (ms.DateFields(0, 0, 0), b"0000-00-00"), (ms.DateFields(2024, 0, 31), b"2024-00-31"),
    (ms.TimeFields(True, 0, 0, 0, 1), b"-000:00:01"),
    (datetime.time(23, 59, 58, 7), b"023:59:58.000007"), (datetime.time(), b"000:00:00"),
    (Decimal("-2.50"), b"-2.50"), (Decimal("0E-7"), b"0E-7"), (Decimal("1E+3"), b"1E+3"),
    (uuid.UUID("3e11fa47-71ca-11e1-9e33-c80aa9429562"), b"3e11fa47-71ca-11e1-9e33-c80aa9429562"),
    (memoryview(array.array("h", [1, -1])), b"\1\0\xff\xff"),
]


class Small(int):
    """A number that says it is smaller than any other, and larger."""

    def __lt__(self, other: object) -> bool:
        return True

    __le__ = __gt__ = __ge__ = __lt__

    def __int__(self) -> int:
        return 0

    __index__ = __int__


class Sets(Case):
    """Sets are sent by each method, and come back."""

    def test_each_value(self) -> None:
        query = "INSERT INTO t VALUES (?, ?)"
        for road in Road:
            for value, content in VALUES:
                sets = [(value, 1), (value, None), (None, 2)]
                wanted = [(content, 1), (content, None), (None, 2)]
                stream = ms.send(query, sets, road, 7)
                for size in (1, len(stream)):
                    found = received(query, cut(stream, size), 7)
                    self.assertEqual(found, (wanted, ms.End(EndKind.WHOLE)), (road, value, size))

    def test_all_values(self) -> None:
        query = "SELECT " + ", ".join(["?"] * len(VALUES))
        values, contents = [it[0] for it in VALUES], tuple(it[1] for it in VALUES)
        for road in Road:
            stream = ms.send(query, [values] * 3, road, limit=2000)
            self.assertEqual(received(query, cut(stream, 1), limit=2000),
                             ([contents] * 3, ms.End(EndKind.WHOLE)), road)

    def test_streams(self) -> None:
        prepare = "09000000" + b"\x16SELECT ?".hex()
        rows: List[Tuple[Road, int, List[Tuple[ms.Parameter]], str]] = [
            (Road.TEXT, 1000, [(1,)], "09000000" + b"\x03SELECT 1".hex()),
            (Road.TEXT, 13, [(None,)], ""),
            (Road.TEXT, 1000, [("x' OR :b",)], "13000000" + b"\x03SELECT 'x\\' OR :b'".hex()),
            (Road.EXECUTE, 1000, [], prepare),
            (Road.EXECUTE, 1000, [(None,)], prepare + "0e000000170100000000010000000101" "0600"),
            (Road.EXECUTE, 26, [(1,), (10,)], prepare
             + "1600000017010000000001000000000108000100000000000000"
             + "1600000017010000000001000000000108000a00000000000000"),
            (Road.BULK, 30, [(1,), (2,)], prepare
             + "12000000fa0100000080000800" "000100000000000000"
             + "10000000fa010000000000" "000200000000000000"),
        ]
        for road, limit, sets, wanted in rows:
            if wanted:
                found = ms.send("SELECT ?", sets, road, limit=limit).hex()
                self.assertEqual(found, wanted, (road, sets))
            else:
                self.refuses(Code.REFUSED_PACKET_TOO_LARGE,
                             lambda: ms.send("SELECT ?", sets, road, limit=limit), set=0)

    def test_no_values(self) -> None:
        for road in (Road.TEXT, Road.EXECUTE):
            stream = ms.send("SELECT 1", [(), ()], road)
            self.assertEqual(received("SELECT 1", [stream])[0], [(), ()])

    def test_large_value(self) -> None:
        value = bytes(range(256)) * (LARGE // 256)
        for road in Road:
            stream = ms.send("INSERT INTO t VALUES (?)", [(value,)], road, limit=LARGE_LIMIT)
            sets, end = received("INSERT INTO t VALUES (?)", cut(stream, 1 << 20),
                                 limit=LARGE_LIMIT)
            self.assertEqual(end, ms.End(EndKind.WHOLE))
            self.assertEqual([len(it) for it in sets], [1])
            self.assertTrue(sets[0][0] == value, road)

    def test_put_together(self) -> None:
        with ms.ParameterSets() as sets:
            self.assertEqual(len(sets), 0)
            sets.add((1, "a"))
            sets.add([None, b""])
            self.assertEqual(len(sets), 2)
            for wrong in ("ab", b"ab", {"a": 1, "b": 2}, {1, 2}, frozenset((1, 2)),
                          {"a": 1}.keys(), [1, 2j], [1, object()], [[1]]):
                with self.assertRaises(TypeError):
                    sets.add(wrong)  # type: ignore[arg-type]
            for large in (2**64, -2**63 - 1, Small(2**70), Small(-2**70)):
                with self.assertRaises(OverflowError):
                    sets.add((large,))
            with self.assertRaises(OverflowError):
                sets.add((ms.DateFields(65536, 1, 1),))
            with self.assertRaises(OverflowError):
                sets.add((ms.TimeFields(False, 2**32),))
            for strange in (datetime.datetime.now(datetime.timezone.utc),
                            datetime.time(1, tzinfo=datetime.timezone.utc), Decimal("NaN"),
                            Decimal("sNaN"), Decimal("-Infinity")):
                with self.assertRaises(ValueError):
                    sets.add((strange,))
            self.assertEqual(len(sets), 2)
            stream = ms.send("SELECT ?, ?", sets, Road.TEXT)
            self.assertEqual(received("SELECT ?, ?", [stream])[0], [(1, b"a"), (None, b"")])
            sets.clear()
            self.assertEqual(ms.send("SELECT ?, ?", sets, Road.TEXT), b"")

    def test_sets_by_name(self) -> None:
        """A set by the names of the query is what it is in their order."""
        query = "SELECT :a, ':c', :b_2 + :a, :: :é /* :d */, `:e`, :9, \":f\", :b_2x"
        names = ("a", "b_2", "a", "b_2x")
        self.assertEqual(ms.names_of(query), names)
        self.assertEqual(ms.names_of("SELECT :aB, :_"), ("a", "_"))
        self.assertEqual(ms.names_of("SELECT ?"), ())
        self.assertEqual(ms.names_of("SELECT ':a'"), ())
        self.assertEqual(ms.names_of('SELECT ":a"', mode=ANSI_QUOTES), ())
        self.refuses(Code.MIXED, lambda: ms.names_of("SELECT ?, :a"))
        rows: List[Dict[str, ms.Parameter]] = [
            {"a": 1, "b_2": "it's", "b_2x": None, "more": 5}, {"b_2x": b"x", "a": 2, "b_2": "y"}]
        in_order = [[row[name] for name in names] for row in rows]
        asked = ms.positional(query)
        for road in Road:
            wanted = ms.send(asked, in_order, road)
            self.assertEqual(ms.send(query, rows, road), wanted)
            self.assertEqual(ms.send(query, iter(rows), road), wanted)
            if road != Road.TEXT:
                self.assertEqual(ms.executions(query, rows, 5, road),
                                 ms.executions(asked, in_order, 5, road))
        self.assertEqual(ms.bind_text(query, rows[0]), ms.bind_text(asked, in_order[0]))
        with self.assertRaises(KeyError):
            ms.send(query, [rows[0], {"a": 1}], Road.EXECUTE)
        with self.assertRaises(TypeError):
            ms.send("SELECT ?", rows, Road.EXECUTE)
        mixed: List[Any] = [rows[0], in_order[1]]
        with self.assertRaises(TypeError):
            ms.send(query, mixed, Road.EXECUTE)
        self.refuses(Code.REFUSED_PARAMS, lambda: ms.send(query, in_order, Road.EXECUTE), set=0)
        self.assertEqual(ms.send(query, iter([]), Road.EXECUTE), ms.send(asked, [], Road.EXECUTE))

    def test_names(self) -> None:
        """Sets are positional: of a query with names its form with question marks is sent."""
        query = "SELECT :b, ':c', :a_1 + :b"
        self.assertEqual(ms.positional(query), b"SELECT ?, ':c', ? + ?")
        self.assertEqual(ms.positional("SELECT ?"), b"SELECT ?")
        self.refuses(Code.MIXED, lambda: ms.positional("SELECT ?, :a"))
        self.refuses(Code.REFUSED_PARAMS, lambda: ms.send(query, [(1, 2, 1)], Road.EXECUTE), set=0)
        stream = ms.send(ms.positional(query), [(1, 2, 1)], Road.EXECUTE)
        self.assertEqual(received(query, [stream])[0], [(1, 2, 1)])

    def test_generators(self) -> None:
        stream = ms.send("SELECT ?", ((it,) for it in range(1000)), Road.BULK)
        self.assertEqual(received("SELECT ?", [stream])[0], [(it,) for it in range(1000)])

    def test_texts(self) -> None:
        self.assertEqual(ms.bind_text("SELECT ?, ?", [1, "it's"]), b"SELECT 1, 'it\\'s'")
        self.assertEqual(ms.bind_text("SELECT 1", []), b"SELECT 1")
        self.assertEqual(ms.literal(None), b"NULL")
        self.assertEqual(ms.literal("it's"), b"'it\\'s'")
        self.assertEqual(ms.literal(2**64 - 1), b"18446744073709551615")
        self.assertEqual(ms.literal(datetime.date(2024, 2, 29)), b"'2024-02-29'")


DEFAULT, NO_ESCAPES, ANSI_QUOTES, BOTH = Mode(), Mode(True), Mode(False, True), Mode(True, True)
MODES = (DEFAULT, NO_ESCAPES, ANSI_QUOTES, BOTH)


def query_packet(query: bytes) -> bytes:
    """The packet of a text query."""
    return (len(query) + 1).to_bytes(3, "little") + b"\0\x03" + query


class Modes(Case):
    """Texts by the mode of a server, and byte strings in hexadecimal."""

    def test_texts(self) -> None:
        quoted = {DEFAULT: rb"'\'\\'", ANSI_QUOTES: rb"'\'\\'",
                  NO_ESCAPES: rb"'''\'", BOTH: rb"'''\'"}
        for mode, wanted in quoted.items():
            self.assertEqual(ms.literal("'\\", mode=mode), wanted, mode)
            self.assertEqual(ms.bind_text("SELECT ?", ["'\\"], mode=mode), b"SELECT " + wanted)
        rows: List[Tuple[ms.Parameter, bytes]] = [
            ("'\\", b"_utf8mb4 0x275C"), ("", b"''"), (b"\xff", b"_binary 0xFF"), (None, b"NULL"), (-7, b"-7"),
            (datetime.date(2024, 2, 29), b"'2024-02-29'"),
            (datetime.timedelta(0), b"'000:00:00'")]
        for mode in MODES:
            for value, wanted in rows:
                found = ms.bind_text("SELECT ?", [value], mode=mode, spelling=Spelling.HEXADECIMAL)
                self.assertEqual(found, b"SELECT " + wanted, mode)
                found = ms.literal(value, mode=mode, spelling=Spelling.HEXADECIMAL)
                self.assertEqual(found, wanted, mode)

    def test_placeholders(self) -> None:
        for query, modes in [(r"SELECT '\', ?", (NO_ESCAPES, BOTH)),
                             (r'SELECT "a\", ?', (NO_ESCAPES, ANSI_QUOTES, BOTH))]:
            wanted = query.replace("?", "1").encode()
            named = query.replace("?", ":a")
            for mode in MODES:
                text = lambda: ms.bind_text(query, [1], mode=mode)
                if mode in modes:
                    self.assertEqual(text(), wanted, mode)
                    self.assertEqual(ms.positional(named, mode=mode), query.encode(), mode)
                else:
                    self.refuses(Code.REFUSED_WRONG_COUNT, text, set=0)
                    self.assertEqual(ms.positional(named, mode=mode), named.encode(), mode)

    def test_digests(self) -> None:
        """Digests are as their rows say, which tests in Rust read as well."""
        rows, count = BINDINGS / "testing" / "rows" / "digests.txt", 0
        for number, line in enumerate(rows.read_text(encoding="utf-8").splitlines(), 1):
            if line and not line.startswith("#"):
                mode, text, wanted = (it.replace("<LF>", "\n") for it in line.split(" | "))
                found = ms.digest(text, mode=Mode(**{it: True for it in [mode] if it != "-"}))
                self.assertEqual(found, wanted.encode(), f"row {number}")
                count += 1
        self.assertGreater(count, 25)
        text = r""" "a" '\' b"""
        self.assertEqual([ms.digest(text, mode=mode) for mode in MODES],
                         [b"? ?", b"? ? b", b'"a" ?', b'"a" ? b'])

    def test_one_backslash(self) -> None:
        """A backslash alone is a text of one mode, and none of the other."""
        stream = query_packet(rb"SELECT '\'")
        for mode in MODES:
            with ms.Receiver("SELECT ?", mode=mode) as receiver:
                feed = lambda: receiver.feed(stream)
                recode = lambda: ms.recode("SELECT ?", stream, mode=mode)
                if mode.no_backslash_escapes:
                    feed()
                    self.assertEqual(receiver.take(), [(b"\\",)], mode)
                    self.assertEqual(recode(), ms.send("SELECT ?", [(b"\\",)], Road.EXECUTE), mode)
                else:
                    self.refuses(Code.FAULT_TEXT_MISMATCH, feed)
                    self.refuses(Code.FAULT_TEXT_MISMATCH, recode, payload=0)

    def test_received(self) -> None:
        """What is sent in a mode is received in it, and recoded as executions."""
        contents: List[Tuple[ms.Content, ...]] = [
            (it,) for it in (b"", b"'\\", b"' OR 1=1 -- ", b"\\' OR 1=1 -- ", b'"`?:a/*',
                             "\u00e9\U0001f33f'\0\x1a\n".encode(), bytes(range(256)))]
        executions = ms.send("SELECT ?", contents, Road.EXECUTE)
        for mode, road, spelling in itertools.product(MODES, Road, Spelling):
            stream = ms.send("SELECT ?", contents, road, mode=mode, spelling=spelling)
            with ms.Receiver("SELECT ?", mode=mode, spelling=spelling) as receiver:
                for piece in cut(stream, 1):
                    receiver.feed(piece)
                self.assertEqual(receiver.take(), contents, (mode, road, spelling))
                self.assertEqual(receiver.end(), ms.End(EndKind.WHOLE))
            self.assertEqual(ms.recode("SELECT ?", stream, mode=mode, spelling=spelling),
                             executions)

    def test_other_mode(self) -> None:
        """A value may end its literal at a server in another mode; in hexadecimal it can't."""
        for mode, other, value in [(DEFAULT, NO_ESCAPES, "' OR 1=1 -- "),
                                   (NO_ESCAPES, DEFAULT, "\\' OR 1=1 -- ")]:
            stream = ms.send("SELECT ?", [(value,)], Road.TEXT, mode=mode)
            with ms.Receiver("SELECT ?", mode=other) as receiver:
                self.refuses(Code.FAULT_TEXT_MISMATCH, lambda: receiver.feed(stream))
        streams = {ms.send("SELECT ?", [("' \\",)], Road.TEXT, mode=mode,
                           spelling=Spelling.HEXADECIMAL) for mode in MODES}
        self.assertEqual(streams, {query_packet(b"SELECT _utf8mb4 0x27205C")})

    def test_default(self) -> None:
        """Calls without a mode mean the default, and quotes."""
        self.assertEqual((Mode(), Mode(no_backslash_escapes=False, ansi_quotes=False)),
                         (DEFAULT, DEFAULT))
        for road in Road:
            self.assertEqual(ms.send("SELECT ?", [("'\\",)], road),
                             ms.send("SELECT ?", [("'\\",)], road, mode=DEFAULT,
                                     spelling=Spelling.QUOTED), road)
        self.assertEqual(ms.literal("'\\"), ms.literal("'\\", mode=DEFAULT))
        with self.assertRaises(ValueError):
            ms.literal("", spelling=1)  # type: ignore[arg-type]

    def test_of(self) -> None:
        for bit in (1 << it for it in range(16)):
            self.assertEqual(Mode.of(bit), Mode(bit == 0x200, bit == 0x8000), bit)
            self.assertEqual(Mode.of(0xFFFF - bit), Mode(bit != 0x200, bit != 0x8000), bit)
        self.assertEqual(Mode.of(0), DEFAULT)
        for status in (-1, 1 << 16):
            with self.assertRaises(OverflowError):
                Mode.of(status)

    def test_of_sql_mode(self) -> None:
        rows: Dict[str, Optional[Mode]] = {
                "": DEFAULT, "STRICT_TRANS_TABLES,NO_ENGINE_SUBSTITUTION": DEFAULT,
                "NO_BACKSLASH_ESCAPES": NO_ESCAPES,
                "STRICT_ALL_TABLES,no_backslash_escapes": NO_ESCAPES,
                "ANSI_QUOTES,NO_BACKSLASH_ESCAPES": BOTH, "Ansi": ANSI_QUOTES, "DB2": ANSI_QUOTES,
                "MAXDB": ANSI_QUOTES, "MSSQL": None, "ORACLE": ANSI_QUOTES,
                "POSTGRESQL": ANSI_QUOTES, " Ansi_Quotes ,": ANSI_QUOTES, "ANSI_QUOTES,XNO_BACKSLASH_ESCAPES": None}
        for value, mode in rows.items():
            self.assertEqual(Mode.of_sql_mode(value), mode, value)
            self.assertEqual(Mode.of_sql_mode(value.encode()), mode, value)

    def test_session(self) -> None:
        """Behind a result that tells both, by what ReplyReader reads of it, and where it can't."""
        told = b"\0\x27\x08sql_mode\0\x14character_set_client\x07utf8mb4"
        asked = ms.SessionMode().behind_text(ms.ASK_SESSION_MODE)
        self.assertEqual((asked.mode, asked.spelling), (None, Spelling.HEXADECIMAL))
        capabilities = int(ms.Capability.PROTOCOL_41 | ms.Capability.SESSION_TRACK)
        wanted: Dict[bytes, Tuple[Optional[Mode], Optional[bool]]] = {
            told: (DEFAULT, True), told[:9]: (None, None), told + b"\7": (None, None)}
        for states, known in wanted.items():
            payload = b"\0\0\0\2\x40\0\0\0" + bytes([len(states)]) + states
            [result], end = ms.read_reply(
                ms.ReplyKind.QUERY, capabilities,
                len(payload).to_bytes(3, "little") + b"\1" + payload)
            self.assertEqual(end.kind, ms.EndKind.WHOLE)
            assert isinstance(result, ms.Ok)
            session = asked.behind_ok(result)
            self.assertEqual((session.mode, session.is_safe_set), known, states)
        long = ms.State(ms.StateType.SYSTEM_VARIABLES, b"\x08sql_mode\xfd\0\0\1" + b"," * 65536)
        ok = ms.Ok(0, 0, int(ms.Status.SESSION_STATE_CHANGED), 0, b"", (long,))
        self.assertEqual(asked.behind_ok(ok).mode, DEFAULT)
        with self.assertRaises(TypeError):
            asked.behind_text(1)  # type: ignore[arg-type]

    def test_collations(self) -> None:
        hide = {1, 13, 28, 84, 86, 87, 88, 95, 96, 248, 249, 250}
        hide |= {1024 + it for it in hide}
        found = {it for it in range(1 << 16) if not ms.is_safe_to_quote(it)}
        self.assertEqual(found, hide)


class Refusals(Case):
    """Errors by code."""

    def test_sending(self) -> None:
        text, execute, bulk = Road.TEXT, Road.EXECUTE, Road.BULK
        rows: List[Tuple[Code, str, List[Sequence[ms.Parameter]], int, int, Dict[str, int]]] = [
            (Code.LIMIT_TOO_SMALL, "SELECT ?", [], text, 3, {}),
            (Code.MIXED, "SELECT ?, :a", [(1, 1)], text, 1000, {}),
            (Code.NO_SUCH_ROAD, "SELECT ?", [(1,)], 3, 1000, {}),
            (Code.REFUSED_NOT_ALONE, "SELECT ?, 1-?", [(1, 1)], text, 1000, {"place": 1}),
            (Code.REFUSED_TOO_MANY_PLACES, "?," * 65536, [], execute, 1 << 20, {}),
            (Code.REFUSED_PREPARE_TOO_LARGE, "SELECT ?", [], execute, 12, {}),
            (Code.REFUSED_NO_PLACES, "SELECT 1", [], bulk, 1000, {}),
            (Code.REFUSED_PARAMS, "SELECT :a", [(1,)], text, 1000, {"set": 0}),
            (Code.REFUSED_WRONG_COUNT, "SELECT ?", [(1,), (1, 2)], text, 1000, {"set": 1}),
            (Code.REFUSED_PACKET_TOO_LARGE, "SELECT ?", [(1,), (10,)], text, 13, {"set": 1}),
            (Code.REFUSED_MIXED_KINDS, "SELECT ?, ?", [(1, 1), (1, "a")], bulk, 1000,
             {"set": 1, "place": 1}),
            (Code.REFUSED_ROW_TOO_LARGE, "SELECT ?", [("x",), ("x" * 100,)], bulk, 31, {"set": 1}),
            *((Code.REFUSED_FLOAT, "SELECT ?, ?", [(1, 1), (1, 2.5)], road, 1000,
               {"set": 1, "place": 1}) for road in Road),
        ]
        for code, query, sets, road, limit, where in rows:
            self.refuses(code, lambda: ms.send(query, sets, road, 1, limit),  # type: ignore
                         **where)

    def test_texts(self) -> None:
        self.refuses(Code.MIXED, lambda: ms.bind_text("SELECT ?, :a", [1, 2]))
        self.refuses(Code.REFUSED_NOT_ALONE, lambda: ms.bind_text("SELECT 1-?", [1]), place=0)
        self.refuses(Code.REFUSED_WRONG_COUNT, lambda: ms.bind_text("SELECT ?", []), set=0)
        self.refuses(Code.REFUSED_FLOAT, lambda: ms.bind_text("DO ?, ?", [1, 2.5]), set=0, place=1)
        self.refuses(Code.REFUSED_FLOAT, lambda: ms.literal(2.5))

    def test_receivers(self) -> None:
        self.refuses(Code.LIMIT_TOO_SMALL, lambda: ms.Receiver("SELECT ?", limit=3))
        self.refuses(Code.MIXED, lambda: ms.Receiver("SELECT ?, :a"))
        receiver = ms.Receiver("SELECT ?")
        self.assertEqual(receiver.end(), ms.End(EndKind.WHOLE))
        self.refuses(Code.OTHER_KIND, lambda: receiver.feed(b""))
        receiver.close()
        receiver.close()
        self.refuses(Code.EMPTY_HANDLE, lambda: receiver.feed(b""))
        self.refuses(Code.EMPTY_HANDLE, receiver.end)

    def test_numbers(self) -> None:
        calls: List[Callable[[], object]] = [
            lambda: ms.Receiver("SELECT ?", 2**32), lambda: ms.Receiver("SELECT ?", -1),
            lambda: ms.Receiver("SELECT ?", limit=2**64),
            lambda: ms.ReplyReader(ReplyKind.QUERY, 2**32),
            lambda: ms.put_packet(b"", 256), lambda: ms.put_packet(b"", limit=-1),
            lambda: ms.register_replica(1, port=65536), lambda: ms.code_text(-1),
        ]
        for call in calls:
            with self.assertRaises(OverflowError):
                call()

    def test_error(self) -> None:
        error = ms.MySQLSessionError(Code.REFUSED_FLOAT, {"set": 3, "place": 0})
        self.assertEqual((error.code, error.set, error.place, error.payload), (206, 3, 0, None))
        self.assertTrue(str(error).endswith("(code 206, set 3, place 0)"), str(error))
        again = pickle.loads(pickle.dumps(error))
        self.assertEqual((again.code, again.set, str(again)), (206, 3, str(error)))


class Receivers(Case):
    """Streams that aren't whole, and faults."""

    def test_fault(self) -> None:
        stream = ms.send("SELECT ?", [(1,), (2,)], Road.TEXT) + b"\x01\0\0\0\x0e"
        with ms.Receiver("SELECT ?") as receiver:
            for _ in range(2):
                self.refuses(Code.FAULT_OTHER_COMMAND, lambda: receiver.feed(stream))
            for _ in range(2):
                self.assertEqual(receiver.end(),
                                 ms.End(EndKind.FAULT, Code.FAULT_OTHER_COMMAND, 2))
            self.assertEqual(list(receiver), [(1,), (2,)])
            self.assertEqual(list(receiver), [])

    def test_statement(self) -> None:
        stream = ms.send("SELECT ?", [(1,)], Road.EXECUTE, 5)
        with ms.Receiver("SELECT ?", 6) as receiver:
            self.refuses(Code.FAULT_WRONG_ID, lambda: receiver.feed(stream))

    def test_fronts(self) -> None:
        stream = ms.send("SELECT ?", [(1,), (2,)], Road.TEXT)
        for length in range(len(stream)):
            sets, end = received("SELECT ?", [stream[:length]])
            whole = length // 13
            self.assertEqual(sets, [(1,), (2,)][:whole])
            self.assertEqual(end.kind, EndKind.UNFINISHED_PACKET if length % 13 else EndKind.WHOLE)

    def test_waiting_pieces(self) -> None:
        value = b"x" * LARGE
        stream = ms.send("SELECT ?", [(value,)], Road.EXECUTE, limit=LARGE_LIMIT)
        execution = len(ms.send("SELECT ?", [(b"",)], Road.EXECUTE)) - 13
        sets, end = received("SELECT ?", [stream[:1 - execution]], limit=LARGE_LIMIT)
        self.assertEqual((sets, end), ([], ms.End(EndKind.WAITING_PIECES)))

    def test_taking(self) -> None:
        """Sets are taken as they come, and at the end those that weren't."""
        stream = ms.send("SELECT ?", [(1,), (2,), (3,)], Road.TEXT)
        with ms.Receiver("SELECT ?") as receiver:
            receiver.feed(stream[:13])
            self.assertEqual(receiver.take(), [(1,)])
            self.assertEqual(receiver.take(), [])
            receiver.feed(stream[13:])
            receiver.end()
            self.assertEqual(receiver.take(), [(2,), (3,)])
            self.assertEqual(receiver.take(), [])


class Recoding(Case):
    """Streams as executions."""

    QUERY = "INSERT INTO t VALUES (?, ?)"

    def test_one_form(self) -> None:
        sets: List[Sequence[ms.Parameter]] = [(1, "it's"), (None, b""), (-2, None)]
        wanted = ms.send(self.QUERY, [(1, b"it's"), (None, b""), (-2, None)], Road.EXECUTE, 4)
        for road in Road:
            stream = ms.send(self.QUERY, sets, road, 4)
            self.assertEqual(ms.recode(self.QUERY, stream, 4), wanted, road)
            with ms.Recoder(self.QUERY, 4) as recoder:
                pieces = [recoder.feed(it) for it in cut(stream, 1)]
                self.assertEqual(b"".join(pieces) + recoder.end(), wanted, road)

    def test_no_sets(self) -> None:
        with ms.Recoder("SELECT ?") as recoder:
            self.assertEqual(recoder.end(), ms.send("SELECT ?", [], Road.EXECUTE))
            self.refuses(Code.EMPTY_HANDLE, lambda: recoder.feed(b""))

    def test_refusals(self) -> None:
        stream = ms.send("SELECT ?", [(1,)], Road.TEXT)
        self.refuses(Code.FAULT_TEXT_MISMATCH, lambda: ms.recode("select ?", stream), payload=0)
        self.refuses(Code.MIXED, lambda: ms.Recoder("?, :a"))
        self.refuses(Code.REFUSED_PREPARE_TOO_LARGE, lambda: ms.Recoder("SELECT ?", limit=12))
        self.refuses(Code.REFUSED_PACKET_TOO_LARGE,
                     lambda: ms.recode("SELECT ?", stream, limit=13), set=0)
        with ms.Recoder("SELECT ?") as recoder:
            self.assertEqual(recoder.feed(stream[:-1]), b"")
            with self.assertRaises(ms.MySQLSessionError) as caught:
                recoder.end()
            self.assertEqual((caught.exception.code, caught.exception.end),
                             (Code.UNFINISHED, EndKind.UNFINISHED_PACKET))


# ---- Replies ------------------------------------------------------------------------------------


class Replies(Case):
    """Replies that are read."""

    def joined(self, results: List[ms.Result]) -> List[ms.Result]:
        """The results, with the rows of one result set together."""
        whole: List[ms.Result] = []
        for result in results:
            last = whole[-1] if whole else None
            if isinstance(result, ms.Rows) and isinstance(last, ms.Rows) and not last.ended:
                result = result._replace(rows=last.rows + result.rows)
                whole.pop()
            whole.append(result)
        return whole

    def test_kind(self) -> None:
        self.refuses(Code.NO_SUCH_KIND, lambda: ms.ReplyReader(3, 0))  # type: ignore[arg-type]

    def test_ends(self) -> None:
        more = bytes.fromhex("070000010000000a000000")
        with ms.ReplyReader(ReplyKind.QUERY, PROTOCOL_41) as reader:
            reader.feed(more)
            results = reader.take()
            self.assertEqual(results, [ms.Ok(0, 0, 10, 0, b"", ())])
            self.assertFalse(ms.ends_reply(results[-1]))
            reader.feed(bytes.fromhex("0700000200050002000000"))
            results = reader.take()
            self.assertEqual(results, [ms.Ok(5, 0, 2, 0, b"", ())])
            self.assertTrue(ms.ends_reply(results[-1]))
            self.assertEqual(reader.end(), ms.End(EndKind.WHOLE))
            self.assertEqual(reader.take(), [])


def read_back(kind: ReplyKind, packets: Iterable[bytes], capabilities: int = PROTOCOL_41,
              first: int = 1, limit: int = ms.DEFAULT_LIMIT) -> List[ms.Result]:
    """The results of a whole reply."""
    results, end = ms.read_reply(kind, capabilities, b"".join(packets), first, limit)
    assert end == ms.End(EndKind.WHOLE), end
    return results


class Writing(Case):
    """Replies that are written, and read back."""

    COLUMNS = [Column(b"id", ColumnType.LONGLONG, 33, 63, 20),
               Column(b"name", ColumnType.VAR_STRING, 0, 45, 1020),
               Column(b"price", ColumnType.NEWDECIMAL, 128, 63, 12, 2)]

    def test_ok(self) -> None:
        with ms.ReplyWriter(ReplyKind.QUERY, PROTOCOL_41) as writer:
            self.refuses(Code.WRITE_NO_RESULTS, writer.end)
            first = writer.ok(1, 2, 3, 4, "two", more=True)
            second = writer.ok()
            writer.end()
        self.assertEqual(second.hex(), "0700000200000002000000")
        self.assertEqual(read_back(ReplyKind.QUERY, [first, second]),
                         [ms.Ok(1, 2, 11, 4, b"two", ()), ms.Ok(0, 0, 2, 0, b"", ())])

    def test_error(self) -> None:
        with ms.ReplyWriter(ReplyKind.QUERY, PROTOCOL_41, first=3) as writer:
            packet = writer.error(1064, "42000", "no such query")
            writer.end()
            self.refuses(Code.WRITE_AFTER_END, writer.ok, result=1)
        self.assertEqual(packet.hex(), "16000003ff2804" + b"#42000no such query".hex())
        with ms.ReplyWriter(ReplyKind.QUERY, PROTOCOL_41) as writer:
            self.refuses(Code.BAD_PACKET, lambda: writer.error(1064, "4200", ""))

    def test_text_rows(self) -> None:
        for capabilities in (PROTOCOL_41, PROTOCOL_41 | int(ms.Capability.DEPRECATE_EOF)):
            with ms.ReplyWriter(ReplyKind.QUERY, capabilities) as writer:
                packets = [writer.rows(self.COLUMNS), writer.row((1, "tea", "2.50")),
                           writer.row((2**64 - 1, None, b"")), writer.end_rows(34, 1)]
                writer.end()
            wanted = ms.Rows(tuple(self.COLUMNS), [(b"1", b"tea", b"2.50"),
                                                   (b"18446744073709551615", None, b"")],
                             True, 34, 1, b"", ())
            self.assertEqual(read_back(ReplyKind.QUERY, packets, capabilities), [wanted])

    def test_binary_rows(self) -> None:
        kinds = [ColumnType.TINY, ColumnType.LONGLONG, ColumnType.DATE, ColumnType.DATETIME,
                 ColumnType.TIME, ColumnType.BLOB]
        columns = [Column(b"c", kind, 0, 63) for kind in kinds]
        rows: List[Sequence[ms.Parameter]] = [
            (-128, 2**63 - 1, datetime.date(2024, 2, 29), datetime.datetime(2024, 2, 29, 1, 2, 3),
             datetime.timedelta(days=-1, microseconds=7), b"\0"),
            (None,) * 6,
            (127, -2**63, ms.DateFields(0, 0, 0), ms.DateFields(2024, 2, 30, 1, 1, 1, 1),
             ms.TimeFields(True, 0, 0, 60), b""),
            (0, 0, datetime.datetime(2024, 2, 29, 12), datetime.datetime(2024, 2, 29),
             ms.TimeFields(False, 1, 24), b"x" * 300),
            (None, None, ms.DateFields(1, 1, 1, 0, 0, 0, 2**32 - 1), ms.DateFields(65535, 1, 1),
             ms.TimeFields(False, 999999999, 255, 255, 255, 2**32 - 1), None),
            (None, None, None, datetime.datetime.max, datetime.timedelta.max, None),
            (None, None, None, datetime.datetime.min, datetime.timedelta.min, None),
            (None, None, None, None, ms.TimeFields(True, 999999999, 23), None),
            (None, None, None, None, ms.TimeFields(True, 2**32 - 1, 1), None),
        ]
        with ms.ReplyWriter(ReplyKind.EXECUTE, PROTOCOL_41) as writer:
            packets = [writer.rows(columns)] + [writer.row(it) for it in rows]
            packets.append(writer.end_rows())
        found = read_back(ReplyKind.EXECUTE, packets)
        assert isinstance(found[0], ms.Rows)
        self.assertEqual(found[0].columns, tuple(columns))
        self.assertEqual(found[0].rows, [tuple(it) for it in rows])
        self.assertEqual([[type(cell) for cell in row] for row in found[0].rows],
                         [[type(cell) for cell in row] for row in rows])

    def test_prepared(self) -> None:
        with ms.ReplyWriter(ReplyKind.PREPARE, PROTOCOL_41) as writer:
            packets = writer.prepared(7, self.COLUMNS[:1], self.COLUMNS[1:], 2)
            writer.end()
        self.assertEqual(read_back(ReplyKind.PREPARE, [packets]),
                         [ms.Prepared(7, 2, tuple(self.COLUMNS[:1]), tuple(self.COLUMNS[1:]))])

    def test_order(self) -> None:
        with ms.ReplyWriter(ReplyKind.QUERY, PROTOCOL_41) as writer:
            self.refuses(Code.WRITE_NOT_BEGUN, lambda: writer.row((1,)), result=0)
            self.refuses(Code.WRITE_NOT_BEGUN, writer.end_rows, result=0)
            self.refuses(Code.WRITE_NO_COLUMNS, lambda: writer.rows([]), result=0)
            writer.rows(self.COLUMNS)
            self.refuses(Code.WRITE_CELL_COUNT, lambda: writer.row((1, 2)), result=0, row=0)
            writer.row((1, 2, 3))
            self.refuses(Code.WRITE_CELL_COUNT, lambda: writer.row((1,)), result=0, row=1)
            self.refuses(Code.WRITE_NOT_ENDED, writer.end, result=0)
            self.refuses(Code.WRITE_NOT_ENDED, writer.ok, result=0)
            self.refuses(Code.WRITE_STATUS, lambda: writer.end_rows(4), result=0)
            writer.end_rows()
            writer.end()

    def test_floats(self) -> None:
        """A float is a cell of its column's width, in the reply to an execution alone."""
        columns = [Column(b"f", ColumnType.FLOAT), Column(b"d", ColumnType.DOUBLE)]
        rows: List[Tuple[ms.Parameter, ...]] = [
            (1.5, -2.25), (0.1, 0.1), (float("inf"), float("-inf")), (None, -0.0)]
        with ms.ReplyReader(ReplyKind.EXECUTE, PROTOCOL_41) as reader:
            reader.feed(written(columns, rows, ReplyKind.EXECUTE))
            [read] = reader.take()
        assert isinstance(read, ms.Rows)
        near = struct.unpack("<f", struct.pack("<f", 0.1))[0]
        self.assertEqual(list(map(repr, read.rows)), list(map(repr, [
            (1.5, -2.25), (near, 0.1), (float("inf"), float("-inf")), (None, -0.0)])))
        with ms.ReplyWriter(ReplyKind.EXECUTE, PROTOCOL_41) as writer:
            writer.rows(columns)
            for large in (1e39, -1e39):
                with self.assertRaises(OverflowError):
                    writer.row((large, 1.5))
            self.refuses(Code.WRITE_NOT_ENDED, lambda: writer.rows(columns[::-1]), result=0)
            self.assertTrue(writer.row((1e38, 1e39)))
        with ms.ReplyWriter(ReplyKind.QUERY, PROTOCOL_41) as writer:
            writer.rows(columns)
            self.refuses(Code.WRITE_NO_FORM, lambda: writer.row((1.5, None)), result=0, row=0,
                         place=0)

    def test_refusals(self) -> None:
        with ms.ReplyWriter(ReplyKind.PREPARE, PROTOCOL_41) as writer:
            self.refuses(Code.WRITE_WRONG_KIND, writer.ok, result=0)
        with ms.ReplyWriter(ReplyKind.EXECUTE, PROTOCOL_41) as writer:
            self.refuses(Code.NO_SUCH_KIND, lambda: writer.rows([Column(b"", 100)]))
            writer.rows([Column(b"a", ColumnType.TINY), Column(b"b", ColumnType.TINY)])
            writer.row((1, -128))
            self.refuses(Code.WRITE_NO_FORM, lambda: writer.row((1, 128)), result=0, row=1, place=1)
        with ms.ReplyWriter(ReplyKind.QUERY, PROTOCOL_41, limit=40) as writer:
            column = Column(b"a", ColumnType.BLOB)
            self.refuses(Code.WRITE_PACKET_TOO_LARGE,
                         lambda: writer.rows([column._replace(name=b"a" * 41)]), payload=1)
            packets = writer.rows([column])
            self.refuses(Code.WRITE_PACKET_TOO_LARGE, lambda: writer.row(("a" * 40,)), payload=3)
            packets += writer.row(("a" * 39,)) + writer.end_rows()
        self.assertEqual(read_back(ReplyKind.QUERY, [packets], limit=40),
                         [ms.Rows((column,), [(b"a" * 39,)], True, 2, 0, b"", ())])
        progress = PROTOCOL_41 | int(ms.Capability.PROGRESS_OBSOLETE)
        with ms.ReplyWriter(ReplyKind.QUERY, progress) as writer:
            self.refuses(Code.WRITE_READS_AS_REPORT, lambda: writer.error(65535, "HY000", ""),
                         result=0)

    def test_large_cell(self) -> None:
        value = b"x" * LARGE
        with ms.ReplyWriter(ReplyKind.QUERY, PROTOCOL_41, limit=LARGE_LIMIT) as writer:
            packets = [writer.rows([Column(b"a", ColumnType.LONG_BLOB)]), writer.row((value,)),
                       writer.end_rows()]
        found = read_back(ReplyKind.QUERY, packets, limit=LARGE_LIMIT)
        assert isinstance(found[0], ms.Rows)
        self.assertTrue(found[0].rows == [(value,)])


# ---- Packets, logging in, replication -----------------------------------------------------------


class Packets(Case):
    """Payloads that are framed, and streams that are cut."""

    def test_there_and_back(self) -> None:
        payloads = [b"", b"a", b"\x03SELECT 1", b"x" * 300]
        stream, number = b"", 254
        for payload in payloads:
            packet, number = ms.put_packet(payload, number)
            stream += packet
        self.assertEqual(number, 2)
        for size in (1, 3, len(stream)):
            found = []
            with ms.PacketReader(254) as reader:
                self.assertIsNone(reader.payload())
                for piece in cut(stream, size):
                    reader.feed(piece)
                    found += list(reader)
            self.assertEqual(found, payloads, size)

    def test_large(self) -> None:
        for length in (0xFFFFFE, 0xFFFFFF, LARGE):
            payload = b"x" * length
            packets, number = ms.put_packet(payload, 0, LARGE_LIMIT)
            chunks = length // 0xFFFFFF + 1
            self.assertEqual((number, len(packets)), (chunks, length + 4 * chunks))
            with ms.PacketReader(0, LARGE_LIMIT) as reader:
                reader.feed(packets)
                self.assertTrue(reader.payload() == payload)
                self.assertIsNone(reader.payload())

    def test_commands(self) -> None:
        """Commands that were sent at once, each from the number 0 on."""
        stream = ms.put_packet(b"\x0e")[0] * 2
        with ms.PacketReader() as reader:
            reader.feed(stream)
            found = []
            for payload in reader:
                found.append(payload)
                reader.restart()
            self.assertEqual(found, [b"\x0e", b"\x0e"])

    def test_other_numbers(self) -> None:
        """Packets between which the other side sends some."""
        with ms.PacketReader() as reader:
            for number in (0, 2, 255, 0):
                reader.restart(number)
                packet, _ = ms.put_packet(b"abc", number)
                reader.feed(packet[:6])
                self.assertIsNone(reader.payload())
                for first in (0, 1):
                    self.refuses(Code.UNFINISHED, lambda: reader.restart(first))
                reader.feed(packet[6:])
                self.assertEqual(reader.payload(), b"abc")

    def test_faults(self) -> None:
        with ms.PacketReader() as reader:
            reader.feed(ms.put_packet(b"a")[0] + ms.put_packet(b"b", 2)[0])
            self.assertEqual(reader.payload(), b"a")
            for _ in range(2):
                self.refuses(Code.FAULT_OUT_OF_SYNC, reader.payload)
        with ms.PacketReader(limit=3) as reader:
            reader.feed(ms.put_packet(b"abcd")[0])
            self.refuses(Code.FAULT_TOO_LARGE, reader.payload)
        self.refuses(Code.FAULT_TOO_LARGE, lambda: ms.put_packet(b"abcd", limit=3))


# What MariaDB 10.11 greets with, and what its command line client answers.
GREETING = bytes.fromhex(
    "0a352e352e352d31302e31312e31392d4d6172696144422d302b646562313275310004000000677c582651464b26"
    "00fef7080200ff81150000000000001d00000079526d4d77312d2c36682e48006d7973716c5f6e61746976655f70"
    "617373776f726400")
LOGIN = bytes.fromhex(
    "8ca2bf000000100021000000000000000000000000000000000000001d000000726f6f74000074657374006d7973"
    "716c5f6e61746976655f70617373776f7264007f035f6f73054c696e75780c5f636c69656e745f6e616d650a6c69"
    "626d617269616462045f7069640531343335350f5f636c69656e745f76657273696f6e06332e332e3230095f706c"
    "6174666f726d067838365f36340c70726f6772616d5f6e616d65056d7973716c0c5f7365727665725f686f737409"
    "3132372e302e302e31")


class LoggingIn(Case):
    """Greetings and logins."""

    def test_recorded(self) -> None:
        greeting = ms.read_greeting(GREETING)
        self.assertEqual(greeting, ms.Greeting(
            4, b"5.5.5-10.11.19-MariaDB-0+deb12u1", 0x81FFF7FE, 0x1D, 2, 8, b"g|X&QFK&",
            b"yRmMw1-,6h.H", b"mysql_native_password"))
        self.assertEqual(ms.read_login(LOGIN), ms.Login(
            b"root", b"", b"test", b"mysql_native_password", 0xBFA28C, 0x1D, 33))

    def test_offered(self) -> None:
        """Of capabilities that weren't offered a client leaves out what belongs to them."""
        login = bytes.fromhex("85a2bf00" "00000010" "21") + bytes(23) + (
            b"anyone\0\0mysql_native_password\0")
        self.refuses(Code.BAD_PACKET, lambda: ms.read_login(login))
        self.assertEqual(ms.read_login(login, 0x000FA20D), ms.Login(
            b"anyone", b"", b"", b"mysql_native_password", 0x000FA205, 0, 33))

    def test_greeting(self) -> None:
        capabilities = PROTOCOL_41 | int(ms.Capability.SECURE_CONNECTION
                                         | ms.Capability.PLUGIN_AUTH)
        payload = ms.put_greeting(7, "8.0.0-test", capabilities, b"12345678", b"abcdefghijkl",
                                  mariadb_capabilities=4)
        self.assertEqual(payload.hex(), (
            b"\x0a8.0.0-test\0\x07\0\0\0" b"12345678\0\0\x82\x2d\x02\0\x08\0\x15" + bytes(6)
            + b"\x04\0\0\0abcdefghijkl\0mysql_native_password\0").hex())
        self.assertEqual(
            ms.read_greeting(payload),
            ms.Greeting(7, b"8.0.0-test", capabilities, 4, 2, 45, b"12345678", b"abcdefghijkl",
                        b"mysql_native_password"))

    def test_login(self) -> None:
        capabilities = PROTOCOL_41 | int(ms.Capability.SECURE_CONNECTION)
        login = ms.put_login("root", capabilities, b"\x01" * 20, "test", mariadb_capabilities=4,
                             max_packet_size=1000)
        flags = capabilities | int(ms.Capability.CONNECT_WITH_DB | ms.Capability.PLUGIN_AUTH)
        self.assertEqual(login.hex(), (
            flags.to_bytes(4, "little") + b"\xe8\x03\0\0\x2d" + bytes(19) + b"\x04\0\0\0root\0\x14"
            + b"\x01" * 20 + b"test\0mysql_native_password\0").hex())
        self.assertEqual(ms.read_login(login),
                         ms.Login(b"root", b"\x01" * 20, b"test", b"mysql_native_password", flags,
                                  4, 45))
        bare = ms.read_login(ms.put_login("root", flags, plugin=""))
        self.assertEqual(bare, ms.Login(b"root", b"", b"", b"", capabilities, 0, 45))

    def test_refusals(self) -> None:
        for payload in (b"", b"\x0a", b"\xff" * 10):
            self.refuses(Code.BAD_PACKET, lambda: ms.read_greeting(payload))
            self.refuses(Code.BAD_PACKET, lambda: ms.read_login(payload))
        self.refuses(Code.BAD_PACKET, lambda: ms.put_greeting(1, "8.0", 0, b"1234567", b"a" * 12))
        self.refuses(Code.BAD_PACKET, lambda: ms.put_greeting(1, "8.0", 0, b"12345678", b"a" * 11))
        self.refuses(Code.BAD_PACKET, lambda: ms.put_greeting(1, "8\0", 0, b"a" * 8, b"a" * 12))
        self.refuses(Code.BAD_PACKET, lambda: ms.put_login("a\0b", PROTOCOL_41))
        self.refuses(Code.BAD_PACKET, lambda: ms.put_login(
            "a", int(ms.Capability.SECURE_CONNECTION), b"a" * 256))


class Replication(Case):
    """What a replica asks for."""

    def test_commands(self) -> None:
        self.assertEqual(ms.register_replica(2, "host", "user", "secret", 3306).hex(), (
            b"\x15\x02\0\0\0\x04host\x04user\x06secret\xea\x0c" + bytes(8)).hex())
        self.assertEqual(ms.binlog_dump(2, "bin.000001", 4, 1).hex(),
                         b"\x12\x04\0\0\0\x01\0\x02\0\0\0bin.000001".hex())
        gtids = "3e11fa47-71ca-11e1-9e33-c80aa9429562:1-5"
        self.assertEqual(
            ms.binlog_dump_gtid(2, gtids, "bin.000001").hex(),
            "1e0400020000000a000000" + b"bin.000001".hex() + "0400000000000000" "30000000"
            "0100000000000000" "3e11fa4771ca11e19e33c80aa9429562" "0100000000000000"
            "0100000000000000" "0600000000000000")
        self.assertEqual(ms.binlog_dump_gtid(2, "").hex(),
                         "1e000002000000" "00000000" "0400000000000000" "08000000"
                         "0000000000000000")

    def test_refusals(self) -> None:
        self.refuses(Code.BAD_PACKET, lambda: ms.register_replica(2, "h" * 256))
        self.refuses(Code.BAD_PACKET, lambda: ms.binlog_dump_gtid(2, "no such text"))

    def test_gtids(self) -> None:
        """Sets as MySQL 9.7 prints them, and in the forms that its GTID_SUBTRACT takes; what that
        refuses is refused."""
        one, other = "3e11fa47-71ca-11e1-9e33-c80aa9429562", "4e11fa47-71ca-11e1-9e33-c80aa9429562"
        rows = [("", ""), (" ", ""), (",", ""), ("@", ""), ("@:mytag", ""), ("@:1-5,", "@:1-5"),
                (",@:1", "@:1-1"), ("@:1,,@:3", "@:1-1:3-3"), (" @ : 1 - 5 ", "@:1-5"),
                ("@:TAG:1", "@:tag:1-1"), ("@: tag :1", "@:tag:1-1"), ("@:1:mytag", "@:1-1"),
                ("@:1-22069:mytag:1-3", "@:1-22069,@:mytag:1-3"),
                ("@:mytag:1-3:5:other:7", "@:mytag:1-3:5-5,@:other:7-7"),
                ("@:tag:1:tag:5", "@:tag:1-1:5-5"), ("@:tag:tag2:1", "@:tag2:1-1"),
                ("@:3:1:1-2", "@:1-3"), ("%:1,@:2,%:2", "@:2-2,%:1-2"), ("@:1,\n%:2-3:t:1\n",
                "@:1-1,%:2-3,%:t:1-1"), ("@:01", "@:1-1"), (f"@:{'a' * 32}:1", f"@:{'a' * 32}:1-1")]
        for text, wanted in rows:
            for source in (one, one.upper(), one.replace("-", "")):
                found, plain = ("".join({"@": of, "%": other}.get(it, it) for it in text)
                                for of, text in ((source, text), (one, wanted)))
                self.assertEqual(ms.binlog_dump_gtid(2, found), ms.binlog_dump_gtid(2, plain), text)
        for wrong in ("@:", "@::1", "@:1:", "@:tag:", "@:tag::1", "@:t ag:1", "@:1a:1", "@:+1", "@:0",
                      "@:1 2", "@:1;%:1", f"@:{'a' * 33}:1", ":1", "x:1", "@:tag:0-1"):
            text = "".join({"@": one, "%": other}.get(it, it) for it in wrong)
            self.refuses(Code.BAD_PACKET, lambda: ms.binlog_dump_gtid(2, text))


# ---- Objects ------------------------------------------------------------------------------------


def resident() -> int:
    """How many bytes of the process are in memory."""
    pages = int(pathlib.Path("/proc/self/statm").read_text().split()[1])
    return pages * os.sysconf("SC_PAGE_SIZE")


class Objects(Case):
    """What an object holds is freed, in the thread that made it."""

    def test_close(self) -> None:
        makers: List[Callable[[], Any]] = [
            lambda: ms.Receiver("SELECT ?"), ms.ParameterSets, lambda: ms.Recoder("SELECT ?"),
            lambda: ms.ReplyReader(ReplyKind.QUERY, 0),
            lambda: ms.ReplyWriter(ReplyKind.QUERY, 0), ms.PacketReader, ms.Connection,
        ]
        for make in makers:
            with make() as made:
                self.assertTrue(made._native.is_open())
            self.assertFalse(made._native.is_open())
            for name, call in CALLS[type(made)].items():
                if name in ("__init__", "__enter__", "__exit__", "close"):
                    continue
                if (type(made), name) != (ms.PacketReader, "__iter__"):  # which asks for none yet
                    self.refuses(Code.EMPTY_HANDLE, lambda: call(made))

    def test_collected_in_other_thread(self) -> None:
        """What is collected in another thread is freed by its own one, with the next object."""
        def grown() -> int:
            before = resident()
            for _ in range(20):
                kept = [ms.PacketReader(limit=1 << 24)]
                kept[0].feed(b"\0\0\x20\0" + bytes((1 << 21) - 1))
                self.assertIsNone(kept[0].payload())
                self.assertIsNone(self.in_thread(kept.clear))
            ms.ParameterSets().close()
            return resident() - before

        grown()
        self.assertLess(min(grown() for _ in range(3)), 20 << 20)

    def test_threads(self) -> None:
        """Threads with objects of their own, at once."""
        query = "INSERT INTO t VALUES (?, ?)"
        raised: List[Optional[BaseException]] = []

        def work(seed: int) -> None:
            sets = [(seed * it, str(it)) for it in range(500)]
            for road in Road:
                stream = ms.send(query, sets, road)
                found, _ = received(query, cut(stream, 1000))
                self.assertEqual(found, [(number, text.encode()) for number, text in sets])

        threads = [threading.Thread(
            target=lambda it=it: raised.append(self.in_thread(lambda: work(it))))
            for it in range(1, 5)]
        for thread in threads:
            thread.start()
        for thread in threads:
            thread.join()
        self.assertEqual(raised, [None] * 4)


# ---- Whole connections --------------------------------------------------------------------------

NAMES = sorted(it.stem for it in RECORDINGS.glob("*.client"))
# A side, and how many bytes of its stream come next.
Piece = Tuple[ms.Side, int]


class Connections(Case):
    """Recorded connections are read to the lines beside them, however they come."""

    def lines(self, client: bytes, server: bytes, pieces: Iterable[Piece]) -> List[str]:
        """The lines of a connection that comes in these pieces, and of its end."""
        at = {ms.Side.CLIENT: 0, ms.Side.SERVER: 0}
        streams = {ms.Side.CLIENT: client, ms.Side.SERVER: server}
        found: List[str] = []
        with ms.Connection(client=1 << 26, server=1 << 26, held=1 << 30) as connection:
            def take(events: Iterable[ms.Event]) -> None:
                for event in events:
                    line = connection.line(secrets=True)
                    self.assertEqual(line.split()[0], event.side.name.lower())
                    self.assertTrue(event and event.name and repr(event))
                    found.append(line)

            fault = None
            try:
                for side, count in pieces:
                    piece = streams[side][at[side]:at[side] + count]
                    at[side] += len(piece)
                    take(connection.feed(side, piece))
                for side in ms.Side:
                    take(connection.feed(side, streams[side][at[side]:]))
                    connection.close_side(side)
                take(connection)
            except ms.ConnectionFault as raised:
                fault = raised
            self.assertEqual(str(fault), str(connection.fault))
            end = connection.finish()
            if fault is not None:
                self.assertEqual(end, ms.ConnectionEnd(ms.ConnectionEndKind.FAULT, None, fault.side,
                                                       Code(fault.code), fault.byte))
            return [*found, connection.line()]

    def test_whole(self) -> None:
        self.assertGreater(len(NAMES), 60)
        for name in NAMES:
            client, server, wanted = recording(name)
            for first in ms.Side:
                with self.subTest(name=name, first=first):
                    self.assertEqual(self.lines(client, server, [(first, 1 << 30)]), wanted)

    def test_random_pieces(self) -> None:
        for name in NAMES:
            client, server, wanted = recording(name)
            random = Random(name)
            most = (len(client) + len(server)) // 30 + 2
            pieces = [(random.choice(list(ms.Side)), random.randrange(most)) for _ in range(100)]
            with self.subTest(name=name):
                self.assertEqual(self.lines(client, server, pieces), wanted)

    def test_byte_by_byte(self) -> None:
        for name in NAMES:
            client, server, wanted = recording(name)
            if len(client) + len(server) < 3000:
                pieces = [(ms.Side.SERVER, 1)] * len(server) + [(ms.Side.CLIENT, 1)] * len(client)
                Random(name).shuffle(pieces)
                with self.subTest(name=name):
                    self.assertEqual(self.lines(client, server, pieces), wanted)

    def test_changed(self) -> None:
        """A changed byte is read as an event, or refused as a fault."""
        for name in NAMES:
            client, server, _ = recording(name)
            random = Random(name)
            for _ in range(10 if len(client) + len(server) < 10000 else 0):
                streams = [bytearray(client), bytearray(server)]
                changed = random.choice([it for it in streams if it])
                changed[random.randrange(len(changed))] ^= 1 << random.randrange(8)
                found = self.lines(bytes(streams[0]), bytes(streams[1]), [(ms.Side.CLIENT, 1 << 30)])
                self.assertTrue(found[-1].startswith("end "))

    def events(self, name: str) -> List[ms.Event]:
        """The events of a recording."""
        client, server, _ = recording(name)
        with ms.Connection() as connection:
            return [*connection.feed(ms.Side.CLIENT, client), *connection.feed(ms.Side.SERVER, server)]

    def test_executions(self) -> None:
        """An execution has the text that was prepared, and as many values as that has
        placeholders."""
        for name in ("php-execute", "c-direct", "java-results-deprecate-eof-binary"):
            executions = [it for it in self.events(name) if isinstance(it, ms.ExecuteEvent)]
            self.assertTrue(executions)
            for execution in executions:
                self.assertEqual(len(execution.values), execution.text.count(b"?"), execution)

    def test_bulk_executions(self) -> None:
        bulk = [it for it in self.events("c-bulk") if isinstance(it, ms.BulkExecuteEvent)]
        values = {type(value) for it in bulk for row in it.rows for value in row}
        self.assertIn(ms.BulkKind, values)
        self.assertIn(bytes, values)
        for execution in bulk:
            self.assertEqual({len(row) for row in execution.rows}, {execution.text.count(b"?")})

    def test_login(self) -> None:
        greeting, login = self.events("php-execute")[:2]
        self.assertIsInstance(greeting, ms.GreetingEvent)
        assert isinstance(login, ms.LoginEvent)
        self.assertTrue(login.user)
        for key, value in login.attributes:
            self.assertIsInstance(value, bytes)
            self.assertTrue(key)

    def test_rows(self) -> None:
        """Rows have cells as replies have them, and their columns."""
        client, server, _ = recording("pymysql-results")
        columns: List[Column] = []
        count = 0
        with ms.Connection() as connection:
            connection.feed(ms.Side.CLIENT, client)
            for event in connection.feed(ms.Side.SERVER, server):
                if isinstance(event, ms.ColumnCountEvent):
                    columns = []
                if isinstance(event, ms.ColumnEvent):
                    columns.append(event.column)
                if isinstance(event, ms.RowEvent):
                    count += 1
                    self.assertEqual(list(connection.columns()), columns)
                    self.assertEqual(len(event.cells), len(columns))
        self.assertGreater(count, 100)

    def test_standing(self) -> None:
        client, server, _ = recording("php-execute")
        with ms.Connection(client=1000000, server=2000000, held=4000000) as connection:
            self.assertEqual((connection.turn, connection.phase, connection.reason),
                             (ms.Side.SERVER, ms.Phase.GREETING, None))
            self.assertEqual([connection.room(it) for it in ms.Side], [1000004, 2000004])
            self.assertEqual((connection.held, connection.fault), (0, None))
            self.assertIsNone(connection.statement(1))
            self.assertEqual(connection.capabilities, 0)
            connection.feed(ms.Side.SERVER, server)
            self.assertEqual(connection.rest(ms.Side.SERVER), server)
            self.assertEqual(connection.held, len(server))
            for event in connection.feed(ms.Side.CLIENT, client):
                if isinstance(event, ms.PreparedEvent):
                    statement = connection.statement(event.statement)
                    assert statement
                    self.assertEqual(statement.parameters, event.parameters)
                    self.assertEqual(connection.statement(2**32 - 1), statement)
            self.assertEqual((connection.turn, connection.phase, connection.reason),
                             (None, ms.Phase.OVER, ms.Reason.QUIT))
            self.assertTrue(connection.capabilities & PROTOCOL_41)
            self.assertEqual(connection.finish(),
                             ms.ConnectionEnd(ms.ConnectionEndKind.OVER, ms.Reason.QUIT))
            self.assertEqual(connection.line(), "end Over Quit")

    def line_for_people(self, client: bytes, server: bytes = b"") -> str:
        """The last line with texts of what comes of these sides behind a login."""
        with ms.Connection.after_login(PROTOCOL_41) as connection:
            lines = [""]
            for side, piece in (ms.Side.CLIENT, client), (ms.Side.SERVER, server):
                for _ in connection.feed(side, piece):
                    lines.append(connection.line(texts=True))
                    self.assertEqual(connection.line(texts=True, secrets=True), lines[-1])
            return lines[-1]

    def test_lines_with_texts(self) -> None:
        """Lines for people, by the escapes of the header."""
        self.assertEqual(self.line_for_people(b"\x0a\0\0\0\x03DO '\"\n\x1b\xc3\xa9"),
                         'client Query attributes=() text="DO \'\\"\\n\\x1b\u00e9"')
        self.assertEqual(self.line_for_people(b"\x04\0\0\0\x03DO\xff"),
                         "client Query attributes=() text=x444fff")
        # U+009B begins a sequence for a terminal.
        self.assertEqual(self.line_for_people(b"\x05\0\0\0\x03DO\xc2\x9b"),
                         "client Query attributes=() text=x444fc29b")
        # MySQL: "Column Definition", "Binary Protocol Value": VARCHAR, TIME, DATETIME and DATE.
        columns = b"".join(bytes([0x17, 0, 0, number]) + b"\3def\0\0\0\1a\0\x0c\x3f\0\0\0\0\0"
                           + bytes([kind, 0, 0, 0, 0, 0])
                           for number, kind in ((2, 0xFD), (3, 0x0B), (4, 0x0C), (5, 0x0A)))
        self.assertEqual(
            self.line_for_people(
                b"\x09\0\0\0\x16SELECT 1\x0a\0\0\0\x17\1\0\0\0\0\1\0\0\0",
                b"\x0c\0\0\1\0\1\0\0\0\0\0\0\0\0\0\0\1\0\0\1\4" + columns
                + b"\5\0\0\6\xfe\0\0\2\0\x0d\0\0\7\0\4\x08\1\0\0\0\0\1\2\3\0\0"),
            'server Row cells=(NULL "-01:02:03" "0000-00-00 00:00:00" "0000-00-00")')

    def test_refusals(self) -> None:
        with ms.Connection(client=10, server=10, held=100) as connection:
            self.refuses(Code.OUT_OF_RANGE, connection.line)
            connection.feed(ms.Side.CLIENT, bytes(14))
            self.refuses(Code.CONNECTION_HELD, lambda: connection.feed(ms.Side.CLIENT, b"x"))
            connection.close_side(ms.Side.CLIENT)
            self.refuses(Code.CONNECTION_CLOSED, lambda: connection.feed(ms.Side.CLIENT, b"x"))
            self.assertEqual(list(connection.feed(ms.Side.SERVER, b"\x01\0\0\x07")), [])
            for _ in range(2):
                with self.assertRaises(ms.ConnectionFault) as caught:
                    list(connection.feed(ms.Side.SERVER, b"x"))
                fault = caught.exception
                self.assertEqual((fault.code, fault.side, fault.byte),
                                 (Code.CONNECTION_OUT_OF_SYNC, ms.Side.SERVER, 0))
            self.assertRegex(str(fault), r"^server, byte 0: connection: .* \(code 511\)$")
            with self.assertRaises(ValueError):
                connection.feed(2, b"")  # type: ignore[arg-type]
        with self.assertRaises(OverflowError):
            ms.Connection(client=-1)


# ---- Calls of other threads, and within other calls ---------------------------------------------

TWO = "INSERT INTO t VALUES (?, ?)"
ROWS = [(1, b"tea"), (None, b"x" * 300), (3, None), (4, b"")]
SESSION_TRACK = PROTOCOL_41 | int(ms.Capability.SESSION_TRACK)


def written_reply() -> List[bytes]:
    """Rows in four packets, and an OK packet behind them."""
    columns = [Column(b"id", ColumnType.LONGLONG), Column(b"name", ColumnType.VAR_STRING)]
    with ms.ReplyWriter(ReplyKind.EXECUTE, PROTOCOL_41) as writer:
        packets = [writer.rows(columns)]
        packets += [writer.row(it) for it in ROWS]
        return packets + [writer.end_rows(more=True), writer.ok(5, info="done")]


# What an object does step by step: it is handed out between, and what it gave comes at the end.
Steps = Generator[ms._Object, None, object]


def receiver_steps() -> Steps:
    stream = ms.send(TWO, ROWS, Road.TEXT)
    found: List[object] = []
    with ms.Receiver(TWO) as receiver:
        for piece in cut(stream, 50):
            yield receiver
            receiver.feed(piece)
            yield receiver
            found += receiver.take()
        yield receiver
        found.append(receiver.end())
        yield receiver
        return found + receiver.take()


def sets_steps() -> Steps:
    with ms.ParameterSets([(1, 2)]) as sets:
        yield sets
        sets.add((3, "x"))
        yield sets
        return len(sets), ms.send(TWO, sets, Road.EXECUTE)


def recoder_steps() -> Steps:
    found = b""
    with ms.Recoder(TWO) as recoder:
        for piece in cut(ms.send(TWO, ROWS, Road.TEXT), 50):
            yield recoder
            found += recoder.feed(piece)
        yield recoder
        return found + recoder.end() + recoder.rest()


def reply_steps() -> Steps:
    found: List[object] = []
    with ms.ReplyReader(ReplyKind.EXECUTE, PROTOCOL_41) as reader:
        for piece in written_reply():
            yield reader
            reader.feed(piece)
            yield reader
            found += reader.take()
        yield reader
        found.append(reader.end())
        yield reader
        return found + reader.take()


def writer_steps() -> Steps:
    with ms.ReplyWriter(ReplyKind.QUERY, PROTOCOL_41) as writer:
        yield writer
        found = writer.rows([Column(b"a", ColumnType.LONG)])
        yield writer
        found += writer.row((1,))
        yield writer
        found += writer.end_rows() + writer.rest()
        writer.end()
        return found


def packet_steps() -> Steps:
    found: List[bytes] = []
    with ms.PacketReader() as reader:
        for size in (0, 1, 70, 300):
            packet, _ = ms.put_packet(b"x" * size)
            for piece in cut(packet, 64):
                yield reader
                reader.feed(piece)
                yield reader
                found += reader
            reader.restart()
        return found


def connection_steps() -> Steps:
    found: List[object] = []
    client, server, _ = recording("statements")
    with ms.Connection() as connection:
        for side, stream in ((ms.Side.CLIENT, client), (ms.Side.SERVER, server)):
            for piece in cut(stream, 200):
                yield connection
                found += connection.feed(side, piece)
        yield connection
        found.append(connection.finish())
    with ms.Connection.after_login(PROTOCOL_41) as connection:
        found.append(connection.put(ms.Side.CLIENT, ms.Command.prepare(TWO)))
        yield connection
        with ms.ReplyWriter(ReplyKind.PREPARE, PROTOCOL_41) as writer:
            packets = writer.prepared(1, [Column(b"?", 8)] * 2, [])
        found.append(connection.put_packets(ms.Side.SERVER, packets))
        yield connection
        packets = ms.executions(TWO, ROWS, 1)
        found.append(connection.put_packets(ms.Side.CLIENT, packets))
        yield connection
        found.append(connection.unsent(ms.Side.CLIENT))
        found.append(connection.finish())
        yield connection
        return found + [connection.line()]


STEPS: Dict[Type[ms._Object], Callable[[], Steps]] = {
    ms.Receiver: receiver_steps, ms.ParameterSets: sets_steps, ms.Recoder: recoder_steps,
    ms.ReplyReader: reply_steps, ms.ReplyWriter: writer_steps, ms.PacketReader: packet_steps,
    ms.Connection: connection_steps,
}

# Each call of each class, with arguments by which it changes something where it may.
CALLS: Dict[Type[ms._Object], Dict[str, Callable[[Any], object]]] = {
    ms.Receiver: {
        "__init__": lambda it: it.__init__(TWO), "__iter__": iter, "end": ms.Receiver.end,
        "feed": lambda it: it.feed(b"\x01\0\0\0\x0e"), "take": ms.Receiver.take},
    ms.ParameterSets: {
        "__init__": lambda it: it.__init__([(5, 6)]), "__len__": len,
        "add": lambda it: it.add((7, 8)), "clear": ms.ParameterSets.clear},
    ms.Recoder: {
        "__init__": lambda it: it.__init__(TWO), "end": ms.Recoder.end, "rest": ms.Recoder.rest,
        "feed": lambda it: it.feed(b"\x01\0\0\0\x0e")},
    ms.ReplyReader: {
        "__init__": lambda it: it.__init__(ReplyKind.QUERY, 0), "end": ms.ReplyReader.end,
        "feed": lambda it: it.feed(b"\x01\0\0\0\x0e"), "take": ms.ReplyReader.take,
        "take_values": ms.ReplyReader.take_values, "take_tables": ms.ReplyReader.take_tables},
    ms.ReplyWriter: {
        "__init__": lambda it: it.__init__(ReplyKind.QUERY, 0), "ok": ms.ReplyWriter.ok,
        "error": lambda it: it.error(1, "", ""), "end": ms.ReplyWriter.end,
        "rows": lambda it: it.rows([Column(b"b", ColumnType.LONG)]),
        "row": lambda it: it.row((1,)), "end_rows": ms.ReplyWriter.end_rows,
        "prepared": lambda it: it.prepared(1, [], []), "rest": ms.ReplyWriter.rest},
    ms.PacketReader: {
        "__init__": lambda it: it.__init__(), "__iter__": iter,
        "feed": lambda it: it.feed(b"\x01\0\0\0\x0e"), "payload": ms.PacketReader.payload,
        "restart": lambda it: it.restart(7)},
    ms.Connection: {
        "__init__": lambda it: it.__init__(), "__iter__": lambda it: next(iter(it), None),
        "feed": lambda it: it.feed(ms.Side.SERVER, b"x"), "next_event": ms.Connection.next_event,
        "take_rows": ms.Connection.take_rows, "take_table": ms.Connection.take_table,
        "line": ms.Connection.line, "columns": ms.Connection.columns,
        "statement": lambda it: it.statement(1), "rest": lambda it: it.rest(ms.Side.CLIENT),
        "room": lambda it: it.room(ms.Side.CLIENT), "held": lambda it: it.held,
        "turn": lambda it: it.turn, "phase": lambda it: it.phase, "reason": lambda it: it.reason,
        "capabilities": lambda it: it.capabilities, "fault": lambda it: it.fault,
        "mariadb_capabilities": lambda it: it.mariadb_capabilities,
        "mode": lambda it: it.mode, "spelling": lambda it: it.spelling,
        "session_mode": lambda it: it.session_mode,
        "close_side": lambda it: it.close_side(ms.Side.SERVER), "finish": ms.Connection.finish,
        "put": lambda it: it.put(ms.Side.CLIENT, b"\x0e"),
        "put_packets": lambda it: it.put_packets(ms.Side.CLIENT, b"\x01\0\0\0\x0e"),
        "put_sets": lambda it: it.put_sets(1, 0, b""),
        "put_execution": lambda it: it.put_execution(1, []),
        "unsent": lambda it: it.unsent(ms.Side.CLIENT)},
}
for given in CALLS.values():
    given["close"] = lambda it: it.close()
    given["__enter__"] = lambda it: it.__enter__()
    given["__exit__"] = lambda it: it.__exit__(None, None, None)


def through(steps: Steps, between: Callable[[Any], object] = lambda it: None) -> object:
    """Goes through an object's steps, with a call between them; gives what they gave."""
    while True:
        try:
            between(next(steps))
        except StopIteration as ended:
            return ended.value


@contextlib.contextmanager
def collecting(call: Callable[[], object]) -> Iterator[None]:
    """Within it, a call is made by the collector, also while a call of the extension runs. Up to
    Python 3.11 that begins as objects are made."""
    def collect(phase: str, _: object) -> None:
        if phase == "start":
            call()

    before = gc.get_threshold()
    gc.callbacks.append(collect)
    gc.set_threshold(1)
    try:
        yield
    finally:
        gc.set_threshold(*before)
        gc.callbacks.remove(collect)


class OneCall(Case):
    """An object does one call at a time, in the thread that made it."""

    def refuses_all(self, made: Any) -> None:
        """Each call of the object is refused, here."""
        for name, call in CALLS[type(made)].items():
            with self.assertRaises(RuntimeError, msg=name):
                call(made)

    def test_each_call_is_listed(self) -> None:
        plain = {"__init__", "__enter__", "__exit__"}
        for kind, calls in CALLS.items():
            found: Set[str] = {it for it in dir(kind) if not it.startswith("_")} | plain
            # What makes another object is no call of this one.
            found -= {it for it in found if isinstance(vars(kind).get(it), classmethod)}
            found |= {it for it in ("__iter__", "__len__") if hasattr(kind, it)}
            self.assertEqual(set(calls), found, kind)
        kinds = {it for it in vars(ms).values()
                 if isinstance(it, type) and issubclass(it, ms._Object)}
        self.assertEqual(set(CALLS), kinds - {ms._Object})
        self.assertEqual(set(STEPS), set(CALLS))

    def test_other_thread(self) -> None:
        """Each call of another thread raises RuntimeError, and changes nothing."""
        for kind, steps in STEPS.items():
            wanted = through(steps())

            def refused(made: Any) -> None:
                self.assertIs(type(made), kind)
                self.assertIsNone(self.in_thread(lambda: self.refuses_all(made)))

            self.assertEqual(through(steps(), refused), wanted, kind)

    def test_functions_in_other_thread(self) -> None:
        """Sets of another thread aren't sent."""
        with ms.ParameterSets([(1, 2)]) as sets:
            raised = self.in_thread(lambda: ms.send(TWO, sets, Road.TEXT))
            self.assertIsInstance(raised, RuntimeError)

    def test_made_once(self) -> None:
        for kind, steps in STEPS.items():
            def refused(made: Any) -> None:
                with self.assertRaises(RuntimeError):
                    CALLS[kind]["__init__"](made)

            self.assertEqual(through(steps(), refused), through(steps()), kind)

    def is_busy(self, made: Any) -> bool:
        """Whether a call of the object runs."""
        try:
            made._native.check()
        except RuntimeError:
            return True
        return False

    @unittest.skipIf(sys.version_info >= (3, 12), "the collector runs between calls")
    def test_within_another_call(self) -> None:
        """Where the collector runs within a call, as a finalizer may, each other one is refused."""
        for kind, steps in STEPS.items():
            wanted, seen = through(steps()), 0
            held: List[Any] = []

            def between() -> None:
                nonlocal seen
                for made in list(held):
                    if self.is_busy(made):
                        seen += 1
                        self.refuses_all(made)

            with collecting(between):
                found = through(steps(), lambda made: held.__setitem__(slice(None), [made]))
            self.assertEqual(found, wanted, kind)
            if kind in (ms.ReplyReader, ms.Connection):
                self.assertGreater(seen, 0, kind)

    def test_within_values(self) -> None:
        """While a row's values are asked for, each other call is refused."""
        with ms.ReplyWriter(ReplyKind.QUERY, PROTOCOL_41) as writer:
            packets = writer.rows([Column(b"a", ColumnType.LONG)])

            def values() -> Iterator[int]:
                self.refuses_all(writer)
                yield 7

            packets += writer.row(values()) + writer.end_rows()  # type: ignore[arg-type]
        self.assertEqual(packets, written([Column(b"a", ColumnType.LONG)], [[7]]))

    def test_within_a_converter(self) -> None:
        """While a converter runs, each other call is refused."""
        column = Column(b"a", ColumnType.LONG)
        called = 0

        def converter(cell: object) -> object:
            nonlocal called
            called += 1
            self.refuses_all(made[0])
            return cell

        values = ms.Values({ColumnType.LONG: converter})
        made: List[Any] = []
        with ms.ReplyReader(ReplyKind.QUERY, PROTOCOL_41) as reader:
            made[:] = [reader]
            reader.feed(written([column], [[7], [8]]))
            [rows] = reader.take_values(values)
            assert isinstance(rows, ms.ValueRows)
            self.assertEqual(rows.rows, [(b"7",), (b"8",)])
        for take in (ms.Connection.take_rows, ms.Connection.take_table):
            with ms.Connection.after_login(PROTOCOL_41) as connection:
                made[:] = [connection]
                connection.put(ms.Side.CLIENT, ms.Command.query("SELECT .."))
                connection.feed(ms.Side.SERVER, written([column], [[7], [8]]))
                while not isinstance(connection.next_event(), ms.ColumnsEndEvent):
                    pass
                self.assertTrue(take(connection, values))
                self.assertIsInstance(connection.next_event(), ms.RowsEndEvent)
        self.assertEqual(called, 6)

    def test_feed_in_other_thread(self) -> None:
        """Another thread feeds while large payloads are read."""
        packets, _ = ms.put_packet(b"x" * LARGE, 0, LARGE_LIMIT)
        raised: List[Optional[BaseException]] = []
        done = threading.Event()

        def feed() -> None:
            while not done.is_set():
                try:
                    reader.feed(b"y")
                    raised.append(None)
                except BaseException as error:  # handed on to the test
                    raised.append(error)

        with ms.PacketReader(0, LARGE_LIMIT) as reader:
            thread = threading.Thread(target=feed)
            thread.start()
            found = []
            for _ in range(4):
                reader.feed(packets)
                found.append(reader.payload())
                reader.restart()
            while not raised:
                time.sleep(0.001)
            done.set()
            thread.join()
        self.assertTrue(found == [b"x" * LARGE] * 4)
        self.assertEqual({type(it) for it in raised}, {RuntimeError})

    def test_signals(self) -> None:
        """A handler of a signal reads on too: each payload comes once, here or there."""
        stream = b"".join(ms.put_packet(b"%d" % it, it % 256)[0] for it in range(60000))
        found: List[bytes] = []
        refused = 0

        def handle(*_: object) -> None:
            nonlocal refused
            try:
                reader.feed(b"")
                found.append(reader.payload() or b"")
            except RuntimeError:
                refused += 1

        before = signal.signal(signal.SIGALRM, handle)
        try:
            with ms.PacketReader() as reader:
                reader.feed(stream)
                signal.setitimer(signal.ITIMER_REAL, 0.0005, 0.0005)
                for payload in reader:
                    found.append(payload)
                signal.setitimer(signal.ITIMER_REAL, 0)
        finally:
            signal.setitimer(signal.ITIMER_REAL, 0)
            signal.signal(signal.SIGALRM, before)
        self.assertEqual(sorted(map(int, filter(None, found))), list(range(60000)))
        self.assertGreater(refused, 0)


# ---- Nothing is lost ----------------------------------------------------------------------------


try:
    import _testcapi
except ImportError:  # Debian: libpython3-testsuite
    _testcapi = None


class Failing:
    """Has a call fail at a position of a number, by one of two ways. An interrupt comes as a call
    of the extension returns, or where Python looks for one. Or a growth of memory is refused.
    """

    # Of 3.13 a trace function that raises breaks the interpreter, of 3.12 refused memory does, also
    # where no extension is called.
    WAYS = [*(["interrupted"] if (3, 11) <= sys.version_info < (3, 13) else []),
            *(["no memory"] if _testcapi and sys.version_info < (3, 12) else [])]
    # So many growths of memory are refused in turn.
    MOST = 150

    def __init__(self, way: str, number: int) -> None:
        self.way, self.left, self.failed = way, number, False

    def is_last(self) -> bool:
        """Whether no greater number fails."""
        return not self.failed if self.way == "interrupted" else self.number > self.MOST

    @property
    def number(self) -> int:
        """The number of the position."""
        return self.left if self.way == "no memory" else 0

    def trace(self, frame: Any, event: str, _: object) -> Any:
        """Interrupts at a position at which Python may handle a signal, in the module's own code.
        These are behind a call, as a function begins, and where a loop goes on."""
        if frame.f_code.co_filename != ms.__file__:
            return None
        frame.f_trace_opcodes = True
        if event == "opcode":
            done = dis.opname[frame.f_code.co_code[self.before.get(frame, 0)]]
            self.before[frame] = frame.f_lasti
            if done.startswith(("CALL", "RESUME", "JUMP_BACKWARD")):
                self.left -= 1
                if self.left == -1:
                    self.failed = True
                    raise KeyboardInterrupt
        return self.trace

    def run(self, call: Callable[[], Any]) -> Any:
        """What a call gives; None where it fails."""
        if self.failed:
            return call()
        self.before: Dict[Any, int] = {}
        try:
            if self.way == "interrupted":
                sys.settrace(self.trace)
            else:
                _testcapi.set_nomemory(self.left, self.left + 1)
            return call()
        except (KeyboardInterrupt, MemoryError):
            self.failed = True
            return None
        finally:
            if self.way == "interrupted":
                sys.settrace(None)
            else:
                _testcapi.remove_mem_hooks()


class Kept(Case):
    """What can't be given is given by the next call, once."""

    def each(self, test: Callable[[Failing], None]) -> None:
        """Runs a test with each of its calls failing in each way."""
        for way in Failing.WAYS:
            for number in itertools.count():
                failing = Failing(way, number)
                with self.subTest(way=way, number=number):
                    test(failing)
                if failing.is_last():
                    break

    def test_sets(self) -> None:
        stream = ms.send(TWO, ROWS, Road.TEXT)
        front = len(ms.send(TWO, ROWS[:2], Road.TEXT))

        def test(failing: Failing) -> None:
            for ends in (False, True):
                with ms.Receiver(TWO) as receiver:
                    receiver.feed(stream[:front])
                    found = failing.run(receiver.take) or []
                    receiver.feed(stream[front:])
                    if ends:
                        failing.run(receiver.end)
                        receiver.end()
                    for _ in range(3):
                        found += failing.run(receiver.take) or []
                    self.assertEqual(found, ROWS)

        self.each(test)

    def test_events(self) -> None:
        client, server, _ = recording("statements")
        with ms.Connection() as connection:
            connection.feed(ms.Side.CLIENT, client)
            wanted = list(connection.feed(ms.Side.SERVER, server))

        def test(failing: Failing) -> None:
            with ms.Connection() as connection:
                connection.feed(ms.Side.CLIENT, client)
                connection.feed(ms.Side.SERVER, server)
                # The test's own list doesn't grow, for which memory may be refused too.
                found: List[Optional[ms.Event]] = [None] * len(wanted)
                count = 0

                def take() -> None:
                    nonlocal count
                    for event in connection:
                        found[count] = event
                        count += 1

                failing.run(take)
                take()
                self.assertEqual(found, wanted)

        self.each(test)

    def test_results(self) -> None:
        packets = written_reply()
        wanted, end = ms.read_reply(ReplyKind.EXECUTE, PROTOCOL_41, b"".join(packets))

        def test(failing: Failing) -> None:
            for ends in (False, True):
                with ms.ReplyReader(ReplyKind.EXECUTE, PROTOCOL_41) as reader:
                    found = []
                    for packet in packets:
                        reader.feed(packet)
                        found += failing.run(reader.take) or []
                    if ends:
                        self.assertIn(failing.run(reader.end), (None, end))
                        self.assertEqual(reader.end(), end)
                    for _ in range(3):
                        found += failing.run(reader.take) or []
                    self.assertEqual(Replies().joined(found), wanted)

        self.each(test)

    def test_untaken_results(self) -> None:
        """Results that no call took before the end, and those of a take that failed before it."""
        packets = written_reply()
        wanted, end = ms.read_reply(ReplyKind.EXECUTE, PROTOCOL_41, b"".join(packets))

        def test(failing: Failing) -> None:
            for front in (0, 3):
                with ms.ReplyReader(ReplyKind.EXECUTE, PROTOCOL_41) as reader:
                    reader.feed(b"".join(packets[:front]))
                    found = failing.run(reader.take) or []
                    reader.feed(b"".join(packets[front:]))
                    failing.run(reader.end)
                    self.assertEqual(reader.end(), end)
                    for _ in range(2):
                        found += failing.run(reader.take) or []
                    self.assertEqual(Replies().joined(found), wanted)

        self.each(test)

    def test_payloads(self) -> None:
        wanted = [b"", b"a", b"x" * 300, b"", b"end"]
        stream, number = b"", 0
        for payload in wanted:
            packet, number = ms.put_packet(payload, number)
            stream += packet

        def test(failing: Failing) -> None:
            with ms.PacketReader() as reader:
                found = []
                for piece in cut(stream, 100):
                    reader.feed(piece)
                    found.append(failing.run(reader.payload))
                    found += list(reader)
                self.assertEqual([it for it in found if it is not None], wanted)
                self.assertIsNone(reader.payload())

        self.each(test)

    def test_recoded(self) -> None:
        pieces = [ms.send(TWO, [row], Road.TEXT) for row in ROWS]
        wanted = ms.send(TWO, ROWS, Road.EXECUTE)

        def test(failing: Failing) -> None:
            for asks in (False, True):
                with ms.Recoder(TWO) as recoder:
                    found = b""
                    for piece in pieces:
                        given = failing.run(lambda: recoder.feed(piece))
                        if given is None:
                            # Each piece has a set: so the piece was taken, or nothing was.
                            given = recoder.rest() or recoder.feed(piece)
                        found += given
                    if asks:
                        found += recoder.rest()
                    found += recoder.end()
                    self.assertEqual(found, wanted)
                    self.assertEqual(recoder.rest(), b"")

        self.each(test)

    def test_written(self) -> None:
        columns = [Column(b"id", ColumnType.LONGLONG), Column(b"name", ColumnType.VAR_STRING)]
        steps: List[Callable[[ms.ReplyWriter], bytes]] = [
            lambda it: it.rows(columns),
            *(lambda it, row=row: it.row(row) for row in ROWS),  # type: ignore[misc]
            lambda it: it.end_rows(more=True), lambda it: it.ok(5, info="done")]
        wanted = b"".join(written_reply())

        def test(failing: Failing) -> None:
            with ms.ReplyWriter(ReplyKind.EXECUTE, PROTOCOL_41) as writer:
                found = b""
                for step in steps:
                    given = failing.run(lambda: step(writer))
                    # Each step writes something: so it was done, or nothing was.
                    found += (writer.rest() or step(writer)) if given is None else given
                found += writer.rest()
                writer.end()
                self.assertEqual((found, writer.rest()), (wanted, b""))

        self.each(test)

    def test_columns(self) -> None:
        """Columns of a call that was refused aren't those of the next one."""
        good, bad = Column(b"a", ColumnType.LONG), Column(b"b", 100)
        for kind in (ReplyKind.QUERY, ReplyKind.EXECUTE):
            with ms.ReplyWriter(kind, PROTOCOL_41) as writer, \
                    ms.ReplyWriter(kind, PROTOCOL_41) as other:
                self.refuses(Code.NO_SUCH_KIND, lambda: writer.rows([good, bad]))
                self.assertEqual(writer.rows([good]), other.rows([good]))
        with ms.ReplyWriter(ReplyKind.PREPARE, PROTOCOL_41) as writer:
            self.refuses(Code.NO_SUCH_KIND, lambda: writer.prepared(1, [good], [good, bad]))
            packets = writer.prepared(1, [good], [])
        self.assertEqual(read_back(ReplyKind.PREPARE, [packets]),
                         [ms.Prepared(1, 0, (good,), ())])

    def test_no_class_but_bytes(self) -> None:
        """The library reads as many bytes as there are, not as many as a class of bytes says."""
        class Long(bytes):
            def __len__(self) -> int:
                return 1 << 40

        class Text(str):
            def encode(self, *_: object) -> bytes:  # type: ignore[override]
                return Long(b"SELECT ?")

        stream = ms.send("SELECT ?", [(1,)], Road.TEXT)
        self.assertEqual(ms.send(Text("SELECT ?"), [(1,)], Road.TEXT), stream)
        self.assertEqual(received(Long(b"SELECT ?"), [Long(stream)])[0], [(1,)])
        self.assertEqual(ms.bind_text("SELECT ?", (Long(b"a"),)), b"SELECT 'a'")


class States(Case):
    """Changes of the session's state."""

    def reply(self, changes: bytes) -> bytes:
        """An OK packet that tells these changes."""
        length = b"\xfd" + len(changes).to_bytes(3, "little")
        return ms.put_packet(b"\0\0\0\x02\x40\0\0\0" + length + changes, 1)[0]

    def states(self, changes: bytes) -> Tuple[ms.State, ...]:
        (result,) = read_back(ReplyKind.QUERY, [self.reply(changes)], SESSION_TRACK)
        assert isinstance(result, ms.Ok)
        return result.states

    def test_in_their_order(self) -> None:
        many = [ms.State(it % 4, b"\x02%02d" % (it % 100)) for it in range(2000)]
        changes = b"".join(bytes([it.type, len(it.data)]) + it.data for it in many)
        self.assertEqual(self.states(changes), tuple(many))
        self.assertEqual(self.states(changes + b"\x00\xfc\x2c\x01" + b"x" * 300),
                         (*many, ms.State(0, b"x" * 300)))

    def test_unreadable(self) -> None:
        """None is shown where one of them can't be read."""
        self.assertEqual(self.states(b"\x01\0\x01\x05a"), ())

    def test_time(self) -> None:
        """Twenty times as many take less than a hundred times as long."""
        def seconds(count: int) -> float:
            reply = self.reply(b"\x01\0" * count)
            with ms.ReplyReader(ReplyKind.QUERY, SESSION_TRACK) as reader:
                reader.feed(reply)
                began = time.process_time()
                (result,) = reader.take()
                ended = time.process_time()
            assert isinstance(result, ms.Ok)
            self.assertEqual(len(result.states), count)
            return ended - began

        few = min(seconds(10000) for _ in range(3))
        self.assertLess(seconds(200000), 100 * few)


# ---- Bytes of 2 and 4 GiB -----------------------------------------------------------------------


@unittest.skipUnless(os.environ.get("MYSQL_SESSION_LARGE"), "MYSQL_SESSION_LARGE isn't set")
class Large(Case):
    """More bytes than a C int counts come out whole."""

    def test_packets(self) -> None:
        """A payload is framed and cut again."""
        for length in ((1 << 31) + 5, (1 << 32) + 5):
            packets, number = ms.put_packet(bytes(length), 0, 1 << 33)
            chunks = length // 0xFFFFFF + 1
            self.assertEqual((len(packets), number), (length + 4 * chunks, chunks % 256))
            if length > 1 << 32:
                continue  # three times as many bytes would stand in memory
            with ms.PacketReader(0, 1 << 33) as reader:
                reader.feed(packets)
                del packets
                payload = reader.payload()
            assert payload is not None
            self.assertEqual((len(payload), payload.count(0)), (length, length))
            del payload
            gc.collect()


if __name__ == "__main__":
    unittest.main()
