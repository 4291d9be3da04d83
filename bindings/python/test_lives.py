"""Tests of the extension's life with the collector, threads, interpreters, refused memory and
interrupts, and of how long it takes: `make check`.

Where the environment variable MYSQL_SESSION_INTERRUPTS has a number, so many interrupts come at
random moments, in place of some hundred. MYSQL_SESSION_SEED has the seed of an earlier run, which it
prints; the moments are never quite the same.
"""

from __future__ import annotations

import datetime
import gc
import os
import signal
import sys
import threading
import time
import unittest
import weakref
from decimal import Decimal
from random import Random
from typing import Any, Callable, List, Optional

import mysql_session as ms
from mysql_session import Column, ColumnType, ReplyKind, Side, Values
from test_mysql_session import Case, Failing, cut, resident, written
from test_native import PROTOCOL_41, WANTED, at_rows, cells, reply_of, values_in


class Memory(Case):
    """Memory is collected, and doesn't grow."""

    def test_cycles(self) -> None:
        class Converter:
            kept: Any = None

            def __call__(self, cell: Any) -> Any:
                if cell == b"7":
                    raise ZeroDivisionError
                return self

        def reader(converter: Converter) -> None:
            made = ms.ReplyReader(ReplyKind.QUERY, PROTOCOL_41)
            values = Values({ColumnType.LONG: converter})
            made.feed(cells(Column(b"a", ColumnType.LONG, 0, 63), [5]))
            converter.kept = made, values, made.take_values(values)

        def rows(converter: Converter) -> None:
            made = at_rows(cells(Column(b"a", ColumnType.LONG, 0, 63), [5, 6, 7]))
            values = Values({ColumnType.LONG: converter})
            with self.assertRaises(ZeroDivisionError):
                made.take_rows(values)
            converter.kept = made, values, iter(made)

        def table(converter: Converter) -> None:
            made = at_rows(cells(Column(b"a", ColumnType.LONG, 0, 63), [5, 6, 7]))
            with self.assertRaises(ZeroDivisionError):
                made.take_table(Values({ColumnType.LONG: converter}))
            converter.kept = made

        for make in (reader, rows, table):
            converter = Converter()
            make(converter)
            gone = weakref.ref(converter)
            del converter
            gc.collect()
            self.assertIsNone(gone(), make)

    def test_references(self) -> None:
        """Types and constants are held as often as before."""
        watched: List[Any] = [type(ms.Connection()._native), type(Values()._native), ms._native,
                              type(ms.ReplyReader(ReplyKind.QUERY, 0)._native), ms.RowEvent, Column,
                              ms.OkEvent, ms.Table, datetime.date, Decimal, type(iter(ms.Connection()))]
        reply = reply_of(ReplyKind.QUERY, 3)

        def work() -> None:
            values_in(reply)
            with at_rows(reply) as connection:
                connection.take_rows(Values({3: int}))
                list(connection)
            with at_rows(reply) as connection:
                connection.take_table()
            ms.send("SELECT ?", [(1,)], ms.Road.BULK)

        work()
        gc.collect()
        before = [sys.getrefcount(it) for it in watched]
        for _ in range(200):
            work()
        gc.collect()
        after = [sys.getrefcount(it) for it in watched]
        self.assertTrue(all(abs(one - other) < 20 for one, other in zip(before, after)),
                        (before, after))

    def test_flat(self) -> None:
        """However often it is done, what is done takes the same memory; also where it fails."""
        reply, binary = reply_of(ReplyKind.QUERY, 30), reply_of(ReplyKind.EXECUTE, 30)
        bad = cells(Column(b"a", ColumnType.LONG, 0, 63), [1, "x"])
        sets = [(it, "x" * it, b"y", datetime.datetime.now(), None) for it in range(30)]
        query = "INSERT INTO t VALUES (?, ?, ?, ?, ?)"

        def work() -> None:
            values_in(reply)
            values_in(binary, Values({ColumnType.NEWDECIMAL: float}), ReplyKind.EXECUTE, 1000)
            for kind, stream in ((ReplyKind.QUERY, reply), (ReplyKind.EXECUTE, binary)):
                with ms.ReplyReader(kind, PROTOCOL_41) as reader:
                    reader.feed(stream)
                    reader.take_tables()
            for take in (ms.Connection.take_rows, ms.Connection.take_table):
                with at_rows(reply) as connection:
                    take(connection, Values())
                    list(connection)
                with at_rows(bad) as connection:
                    with self.assertRaises(ms.RowError):
                        take(connection, Values())
                    take(connection, Values())
                    list(connection)
            with ms.ReplyReader(ReplyKind.QUERY, PROTOCOL_41) as reader:
                reader.feed(bad)
                for refused in (reader.take_values, reader.take_tables):
                    with self.assertRaises(ms.RowError):
                        refused()
            stream = ms.send(query, sets, ms.Road.EXECUTE)
            with ms.Receiver(query) as receiver:
                receiver.feed(stream)
                receiver.take()
            ms.recode(query, stream)
            for wrong in ([(1, object())], [(1,), "a"], 5, [(2**70,)]):
                with self.assertRaises((TypeError, OverflowError)):
                    ms.ParameterSets(wrong)  # type: ignore[arg-type]

        for _ in range(30):
            work()
        gc.collect()
        grown = []
        for _ in range(4):
            before = resident()
            for _ in range(60):
                work()
            gc.collect()
            grown.append(resident() - before)
        self.assertLess(min(grown), 200000, grown)

    def test_threads_that_end(self) -> None:
        """What a thread's objects have goes with them."""
        reply = reply_of(ReplyKind.QUERY, 500)

        def work() -> None:
            values_in(reply)
            with at_rows(reply) as connection:
                connection.take_rows()

        def rounds() -> int:
            before = resident()
            for _ in range(60):
                self.assertIsNone(self.in_thread(work))
            gc.collect()
            return resident() - before

        rounds()
        self.assertLess(min(rounds() for _ in range(4)), 500000)

    @unittest.skipUnless("no memory" in Failing.WAYS, "there is no _testcapi")
    def test_refused(self) -> None:
        """Refused memory raises, and what wasn't given is given by the next call."""
        reply = reply_of(ReplyKind.QUERY, 4)
        takes: List[Callable[[Any, Any], Any]] = [ms.Connection.take_rows, ms.Connection.take_table]
        failed = 0
        for number in range(400):
            values = Values({ColumnType.VAR_STRING: str})
            with ms.ReplyReader(ReplyKind.QUERY, PROTOCOL_41) as reader:
                reader.feed(reply)
                failing = Failing("no memory", number)
                take = (reader.take_values, reader.take_tables)[number % 2]
                results = failing.run(take) or take()
                failed += failing.failed
                [rows] = results
                found = rows.tuples() if isinstance(rows, ms.Table) else rows.rows
                self.assertEqual(found, [WANTED] * 4)
            for take in takes:
                with at_rows(reply) as connection:
                    failing = Failing("no memory", number)
                    found = []
                    for _ in range(3):
                        given = failing.run(lambda: take(connection, values)) or []
                        found += given.tuples() if isinstance(given, ms.Table) else given
                    failed += failing.failed
                    wanted = tuple(str(it.encode()) if it == "mat\u00e9" else it for it in WANTED)
                    self.assertEqual(found, [wanted] * 4, (take, number))
                    self.assertIsInstance(connection.next_event(), ms.RowsEndEvent)
        self.assertGreater(failed, 300)


class Threads(Case):
    """Threads run beside one another, and interpreters too."""

    def test_at_once(self) -> None:
        reply = reply_of(ReplyKind.QUERY, 4000)
        found: List[int] = []

        def work() -> None:
            for step in (65536, 1 << 20):
                rows = values_in(reply, None, ReplyKind.QUERY, step)
                self.assertEqual(rows[-1], WANTED)
                found.append(len(rows))

        threads = [threading.Thread(target=lambda: raised.append(self.in_thread(work)))
                   for _ in range(4)]
        raised: List[Optional[BaseException]] = []
        for thread in threads:
            thread.start()
        for thread in threads:
            thread.join()
        self.assertEqual((raised, found), ([None] * 4, [4000] * 8))

    def test_one_object(self) -> None:
        """Another thread's calls are refused, also while a piece is read."""
        reply = reply_of(ReplyKind.QUERY, 20000)
        refused: List[str] = []
        done = threading.Event()

        def poke() -> None:
            while not done.is_set():
                for call in (lambda: reader.feed(b"x"), reader.take, reader.end, reader.close):
                    try:
                        call()
                        refused.append("given")
                    except RuntimeError as error:
                        refused.append(str(error))

        with ms.ReplyReader(ReplyKind.QUERY, PROTOCOL_41) as reader:
            thread = threading.Thread(target=poke)
            thread.start()
            reader.feed(reply)
            [rows] = reader.take_values()
            done.set()
            thread.join()
        assert isinstance(rows, ms.ValueRows)
        self.assertEqual(len(rows.rows), 20000)
        self.assertEqual(set(refused), {"an object of mysql_session stays in the thread that made it"})

    def test_interpreters(self) -> None:
        """Each interpreter has its own module."""
        names = ("_interpreters", "_xxsubinterpreters")
        found = [it for it in (__import__(name) for name in names if is_there(name))]
        if not found:
            self.skipTest("this Python has no module of interpreters")
        interpreters = found[0]
        program = (f"import sys\nsys.path[:] = {sys.path!r}\nimport mysql_session as ms\n"
                   "reader = ms.ReplyReader(0, 0x200)\n"
                   "reader.feed(b'\\x07\\0\\0\\1\\0\\0\\0\\2\\0\\0\\0')\n"
                   "[ok] = reader.take()\nassert ok.status == 2, ok\n"
                   "assert ms.literal('it') == b\"'it'\"\n")
        for _ in range(3):
            interpreter = interpreters.create()
            said = interpreters.run_string(interpreter, program)
            self.assertIsNone(said)
            interpreters.destroy(interpreter)
        self.assertEqual(values_in(reply_of(ReplyKind.QUERY)), [WANTED])


def is_there(name: str) -> bool:
    """Whether there is a module."""
    try:
        __import__(name)
    except ImportError:
        return False
    return True


class Stop(Exception):
    """What a signal's handler raises."""


@unittest.skipIf(sys.version_info < (3, 11), "signals are handled between a call and its result")
class Interrupted(Case):
    """Interrupts come at random moments, by a timer whose signal's handler raises."""

    SEED = int(os.environ.get("MYSQL_SESSION_SEED") or Random().randrange(1 << 32))

    @classmethod
    def setUpClass(cls) -> None:
        print(f"{cls.__name__}: MYSQL_SESSION_SEED={cls.SEED}", file=sys.stderr)

    def setUp(self) -> None:
        def handle(*_: object) -> None:
            raise Stop

        self.random, self.stops = Random(self.SEED), 0
        self.before = signal.signal(signal.SIGALRM, handle)

    def tearDown(self) -> None:
        signal.setitimer(signal.ITIMER_REAL, 0)
        signal.signal(signal.SIGALRM, self.before)

    def interrupted(self, call: Callable[[], Any], most: float) -> Any:
        """What a call gives, by as many calls as it takes: an interrupt comes within `most` seconds.
        """
        given, left = None, 3
        while True:
            try:
                try:
                    # Not each time: else a call that is slow, and begins anew, never ends.
                    left -= 1
                    if left >= 0:
                        signal.setitimer(signal.ITIMER_REAL, self.random.random() * most + 1e-6)
                    given = call()
                    break
                except Stop:
                    self.stops += 1
                    if given is not None:
                        break
            except Stop:
                self.stops += 1
        while True:
            try:
                signal.setitimer(signal.ITIMER_REAL, 0)
                return given
            except Stop:
                self.stops += 1


class Interrupts(Interrupted):
    """Interrupts at random moments: nothing is lost, and nothing comes twice."""

    COUNT = int(os.environ.get("MYSQL_SESSION_INTERRUPTS", "300"))

    def rounds(self, work: Callable[[float], None], most: float) -> None:
        """Has work be done until so many interrupts came."""
        self.stops, began = 0, time.monotonic()
        while self.stops < self.COUNT and time.monotonic() - began < 20 + self.COUNT / 20:
            work(most * self.random.random())
        self.assertGreater(self.stops, self.COUNT // 20)

    def test_events(self) -> None:
        reply = cells(Column(b"a", ColumnType.LONG, 0, 63), list(range(200)))
        with at_rows(reply) as connection:
            wanted = list(connection)

        def work(most: float) -> None:
            with at_rows(reply) as connection:
                found = []
                while len(found) < len(wanted):
                    found.append(self.interrupted(connection.next_event, most))
                self.assertEqual(found, wanted)
                self.assertIsNone(connection.next_event())

        self.rounds(work, 0.00002)

    def test_rows(self) -> None:
        count = 3000
        reply = cells(Column(b"a", ColumnType.LONG, 0, 63), list(range(count)))
        values = Values({ColumnType.LONG: int})

        def work(most: float) -> None:
            for make in (None, Values(), values):
                with at_rows(reply) as connection:
                    found: List[Any] = []
                    while len(found) < count:
                        found += self.interrupted(lambda: connection.take_rows(make), most)
                    self.assertEqual([int(it) for it, in found], list(range(count)))
                    self.assertEqual(connection.take_rows(), [])
                with at_rows(reply) as connection:
                    found = []
                    while len(found) < count:
                        table = self.interrupted(lambda: connection.take_table(make) or (), most)
                        found += table.tuples()
                    self.assertEqual([int(it) for it, in found], list(range(count)))
                    self.assertIsNone(connection.take_table())

        self.rounds(work, 0.003)

    def test_results(self) -> None:
        count = 3000
        reply = cells(Column(b"a", ColumnType.LONG, 0, 63), list(range(count)))
        pieces = cut(reply, len(reply) // 3)
        values = Values({ColumnType.LONG: int})

        def work(most: float) -> None:
            with ms.ReplyReader(ReplyKind.QUERY, PROTOCOL_41) as reader:
                found: List[Any] = []
                for piece in pieces:
                    reader.feed(piece)
                    take = self.random.choice((reader.take, lambda: reader.take_values(values),
                                               reader.take_values, reader.take_tables))
                    for rows in self.interrupted(take, most):
                        found += rows.tuples() if isinstance(rows, ms.Table) else rows.rows
                self.assertEqual([int(it) for it, in found], list(range(count)))
                self.assertEqual(reader.take(), [])

        self.rounds(work, 0.002)

    def test_puts(self) -> None:
        ping, ok = ms.put_packet(b"\x0e")[0], ms.put_packet(b"\0\0\0\2\0\0\0", 1)[0]

        def put(connection: ms.Connection, side: Side, payload: bytes, most: float) -> bytes:
            """The packets of a payload, which is put once."""
            def once() -> bytes:
                try:
                    return connection.put(side, payload).packets
                except ms.MySQLSessionError:
                    # An interrupted call had put it.
                    return connection.unsent(side)

            packets: bytes = self.interrupted(once, most)
            return packets

        def work(most: float) -> None:
            with ms.Connection.after_login(PROTOCOL_41) as connection:
                for _ in range(50):
                    self.assertEqual(put(connection, Side.CLIENT, b"\x0e", most), ping)
                    self.assertEqual(put(connection, Side.SERVER, b"\0\0\0\2\0\0\0", most), ok)
                self.assertEqual([connection.unsent(it) for it in Side], [b"", b""])

        self.rounds(work, 0.00002)

    def test_payloads(self) -> None:
        wanted = [b"%d" % it for it in range(256)]
        stream = b"".join(ms.put_packet(it, number)[0] for number, it in enumerate(wanted))

        def work(most: float) -> None:
            with ms.PacketReader() as reader:
                reader.feed(stream)
                found = [self.interrupted(reader.payload, most) for _ in wanted]
                self.assertEqual(found, wanted)
                self.assertIsNone(reader.payload())

        self.rounds(work, 0.00001)


class EachCall(Interrupted):
    """Calls that give what their object has, twenty thousand in all. An interrupt comes at a random
    moment of each, which is made again then. They give what calls give that nothing interrupts."""

    COUNT = 2000

    def each(self, call: Callable[[int], Any],
             before: Callable[[int], object] = lambda number: None) -> List[Any]:
        """What so many calls give by their numbers, before each of which something is done."""
        given = []
        for number in range(self.COUNT):
            before(number)
            most = self.random.choice((5e-6, 1e-5, 2e-5, 4e-5))
            given.append(self.interrupted(lambda: call(number), most))
        self.assertGreater(self.stops, self.COUNT // 50)
        return given

    def writes(self, write: Callable[[int], bytes], rest: Callable[[int], bytes]) -> List[bytes]:
        """The same of calls that each write something. What an interrupted one wrote is the rest:
        where that is nothing, it is made again."""
        begun = -1

        def once(number: int) -> bytes:
            nonlocal begun
            found = rest(number) if begun == number else b""
            begun = number
            return found or write(number)

        return self.each(once)

    def test_sets(self) -> None:
        query, sets = "INSERT INTO t VALUES (?)", [(it,) for it in range(self.COUNT)]
        with ms.Receiver(query) as receiver:
            receiver.feed(ms.send(query, (), ms.Road.EXECUTE))
            found = self.each(lambda number: receiver.take(), lambda number: receiver.feed(
                ms.executions(query, [sets[number]], 1)))
            self.assertEqual([it for taken in found for it in taken], sets)
            self.assertEqual(receiver.take(), [])

    def test_results(self) -> None:
        column = Column(b"a", ColumnType.LONG, 0, 63)
        reply = cells(column, list(range(self.COUNT)))
        pieces = cut(reply, -(-len(reply) // self.COUNT))
        for takes in ([ms.ReplyReader.take], [ms.ReplyReader.take_values, ms.ReplyReader.take_tables]):
            with ms.ReplyReader(ReplyKind.QUERY, PROTOCOL_41) as reader:
                def feed(number: int) -> None:
                    if number < len(pieces):
                        reader.feed(pieces[number])

                rows: List[Any] = []
                for results in self.each(lambda number: takes[number % len(takes)](reader), feed):
                    for it in results:
                        rows += it.tuples() if isinstance(it, ms.Table) else it.rows
                self.assertEqual([int(it) for it, in rows], list(range(self.COUNT)))
                self.assertEqual(reader.take(), [])
                self.assertEqual(reader.end(), ms.End(ms.EndKind.WHOLE))

    def test_events(self) -> None:
        reply = cells(Column(b"a", ColumnType.LONG, 0, 63), list(range(2 * self.COUNT)))
        with at_rows(reply) as connection:
            found = self.each(lambda number: connection.next_event())
            self.assertEqual([int(it.cells[0]) for it in found], list(range(self.COUNT)))
            self.assertEqual(len(list(connection)), self.COUNT + 1)

    def test_rows(self) -> None:
        front = cells(Column(b"a", ColumnType.LONG, 0, 63), [])[:-9]
        with at_rows(front) as connection:
            def feed(number: int) -> None:
                text = b"%d" % number
                row = bytes([len(text)]) + text
                connection.feed(Side.SERVER, ms.put_packet(row, (number + 4) % 256)[0])

            found = self.each(lambda number: connection.take_rows(), feed)
            self.assertEqual([int(it) for rows in found for it, in rows], list(range(self.COUNT)))
            self.assertEqual(connection.take_rows(), [])

    def test_payloads(self) -> None:
        wanted = [b"%d" % it for it in range(self.COUNT)]
        with ms.PacketReader() as reader:
            for number, it in enumerate(wanted):
                reader.feed(ms.put_packet(it, number % 256)[0])
            self.assertEqual(self.each(lambda number: reader.payload()), wanted)
            self.assertIsNone(reader.payload())

    def test_puts(self) -> None:
        """A ping and its answer in turn, as payloads and as packets."""
        payloads = b"\x0e", b"\0\0\0\2\0\0\0"
        packets = [ms.put_packet(it, number)[0] for number, it in enumerate(payloads)]
        with ms.Connection.after_login(PROTOCOL_41) as connection:
            writes: List[Callable[[int], bytes]] = [
                lambda number: connection.put(Side(number % 2), payloads[number % 2]).packets,
                lambda number: connection.put_packets(Side(number % 2), packets[number % 2])[0]]
            for write in writes:
                found = self.writes(write, lambda number: connection.unsent(Side(number % 2)))
                self.assertEqual(found, packets * (self.COUNT // 2))
                self.assertEqual([connection.unsent(it) for it in Side], [b"", b""])

    def test_recoded(self) -> None:
        query, sets = "INSERT INTO t VALUES (?)", [(it,) for it in range(self.COUNT)]
        pieces = [ms.send(query, sets[:1], ms.Road.EXECUTE, 1),
                  *(ms.executions(query, [it], 1) for it in sets[1:])]
        with ms.Recoder(query) as recoder:
            found = self.writes(lambda number: recoder.feed(pieces[number]),
                                lambda number: recoder.rest())
            self.assertEqual(found, pieces)
            self.assertEqual(recoder.rest() + recoder.end(), b"")

    def test_replies(self) -> None:
        """What writes results, one after another."""
        columns = [Column(b"a", ColumnType.LONG, 0, 63)]

        def write(writer: ms.ReplyWriter, number: int) -> bytes:
            if number % 4 == 0:
                return writer.ok(number, more=True)
            if number % 4 == 1:
                return writer.rows(columns)
            return writer.row([number]) if number % 4 == 2 else writer.end_rows(more=True)

        with ms.ReplyWriter(ReplyKind.QUERY, PROTOCOL_41) as writer:
            wanted = [write(writer, number) for number in range(self.COUNT)]
        with ms.ReplyWriter(ReplyKind.QUERY, PROTOCOL_41) as writer:
            found = self.writes(lambda number: write(writer, number), lambda number: writer.rest())
            self.assertEqual(found, wanted)
            self.assertEqual(writer.rest(), b"")


class Linear(Case):
    """Twenty times as much takes less than a hundred times as long."""

    def grows(self, work: Callable[[int], Callable[[], object]], few: int) -> None:
        """Times what work makes for so many, and for twenty times as many."""
        def seconds(count: int) -> float:
            call = work(count)
            began = time.process_time()
            call()
            return time.process_time() - began

        least = min(seconds(few) for _ in range(3))
        self.assertLess(min(seconds(20 * few) for _ in range(2)), 100 * max(least, 1e-4))

    def test_pieces_of_packets(self) -> None:
        """A payload that comes byte by byte, asked for at its end, and one that is asked for always."""
        for asks in (False, True):
            def work(count: int) -> Callable[[], object]:
                packet = ms.put_packet(bytes(count))[0]

                def call() -> None:
                    with ms.PacketReader() as reader:
                        for it in cut(packet, 1):
                            reader.feed(it)
                            if asks and reader.payload() is not None:
                                return
                        self.assertEqual(reader.payload(), bytes(count))

                return call

            self.grows(work, 5000)

    def test_columns_of_rows_that_go_on(self) -> None:
        """Rows under many columns, taken at each piece."""
        columns = [Column(b"c", ColumnType.TINY, 0, 63)] * 3000

        def work(count: int) -> Callable[[], object]:
            reply = written(columns, [[None] * len(columns)] * 3)
            pieces = [reply[:-100]] + [b""] * count

            def call() -> None:
                with ms.ReplyReader(ReplyKind.QUERY, PROTOCOL_41) as reader:
                    for it in pieces:
                        reader.feed(it)
                        reader.take_values()

            return call

        self.grows(work, 20)

    def test_executions_of_a_long_statement(self) -> None:
        def work(count: int) -> Callable[[], object]:
            connection = ms.Connection.after_login(PROTOCOL_41)
            connection.put(Side.CLIENT, ms.Command.prepare("SELECT ? -- " + "x" * (1 << 22)))
            with ms.ReplyWriter(ReplyKind.PREPARE, PROTOCOL_41) as writer:
                connection.put_packets(Side.SERVER, writer.prepared(5, [Column(b"?", 8)], []))
            packets = ms.executions("SELECT ?", [(1,)], 5)
            ok = ms.put_packet(b"\0\0\0\2\0\0\0", 1)[0]

            def call() -> None:
                for _ in range(count):
                    [event] = connection.feed(Side.CLIENT, packets)
                    list(connection.feed(Side.SERVER, ok))
                    assert isinstance(event, ms.ExecuteEvent)
                    self.assertEqual(len(event.text), (1 << 22) + 12)

            return call

        # An execution takes microseconds, and its text would take a millisecond.
        call = work(1000)
        began = time.process_time()
        call()
        self.assertLess(time.process_time() - began, 0.5)


if __name__ == "__main__":
    unittest.main()
