"""Tests of putting payloads on connections: `make check`. Random scripts through a client, a server
and an auditor are in bindings/testing/three_machines.py."""

from __future__ import annotations

import contextlib
import datetime
import itertools
from fractions import Fraction
from typing import Callable, Dict, Iterator, List, Tuple

import mysql_session as ms
from mysql_session import Capability, Code, Column, ColumnType, Command, ReplyKind, Road, Side
from test_mysql_session import Case, Failing

PROTOCOL_41 = int(Capability.PROTOCOL_41)
CAPABILITIES = int(Capability.PROTOCOL_41 | Capability.SECURE_CONNECTION | Capability.PLUGIN_AUTH
                   | Capability.DEPRECATE_EOF | Capability.CONNECT_WITH_DB)
INSERT = "INSERT INTO t VALUES (?, ?)"


class Talk:
    """A client and a server, each of which puts what it says and reads what the other put, and an
    auditor, which reads both."""

    def __init__(self, case: Case, made: Callable[[], ms.Connection] = ms.Connection) -> None:
        self.case = case
        self.ends = {side: made() for side in Side}
        self.auditor = made()
        self.lines: List[str] = []

    def __enter__(self) -> Talk:
        return self

    def __exit__(self, *_: object) -> None:
        for it in (*self.ends.values(), self.auditor):
            it.close()

    def say(self, side: Side, payload: bytes) -> ms.Event:
        """A side puts a payload, which the others read as what was put."""
        end = self.ends[side]
        packets, event = end.put(side, payload)
        self.lines.append(end.line(secrets=True))
        for reader in (self.ends[Side(1 - side)], self.auditor):
            reader.feed(side, packets)
            self.case.assertEqual(reader.next_event(), event)
            self.case.assertEqual(reader.line(secrets=True), self.lines[-1])
            self.case.assertIsNone(reader.next_event())
        return event

    def send(self, side: Side, packets: bytes) -> Tuple[List[ms.Event], int]:
        """A side puts packets, as far as it is its turn; gives what the others read of it."""
        put, used = self.ends[side].put_packets(side, packets)
        events = [list(it.feed(side, put)) for it in (self.ends[Side(1 - side)], self.auditor)]
        self.case.assertEqual(events[0], events[1])
        return events[0], used

    def names(self, side: Side, packets: bytes) -> List[str]:
        """Those of what a side puts, which is taken whole."""
        events, used = self.send(side, packets)
        self.case.assertEqual(used, len(packets))
        return [it.name for it in events]

    def finish(self) -> str:
        """The line of the end, which is the same for all."""
        for it in (*self.ends.values(), self.auditor):
            it.finish()
        lines = {it.line() for it in (*self.ends.values(), self.auditor)}
        self.case.assertEqual(len(lines), 1)
        return lines.pop()


def behind_login(capabilities: int = CAPABILITIES) -> Callable[[], ms.Connection]:
    """What makes connections behind a login."""
    return lambda: ms.Connection.after_login(capabilities)


def framed(*payloads: bytes, first: int = 0) -> bytes:
    """Payloads as packets that follow one another."""
    packets = b""
    for payload in payloads:
        made, first = ms.put_packet(payload, first)
        packets += made
    return packets


OK = b"\0\0\0\2\0\0\0"


class Putting(Case):
    """A client, a server and an auditor agree on what is put."""

    def test_from_the_greeting(self) -> None:
        """A login, a query and its rows, and the end."""
        with Talk(self) as talk:
            greeting = talk.say(Side.SERVER, ms.put_greeting(
                7, "8.0.0-test", CAPABILITIES, b"12345678", b"123456789012"))
            assert isinstance(greeting, ms.GreetingEvent)
            self.assertEqual((greeting.connection, greeting.version), (7, b"8.0.0-test"))
            self.assertEqual(greeting.scramble, b"12345678123456789012")
            login = talk.say(Side.CLIENT, ms.put_login("ann", CAPABILITIES, b"answer", "shop"))
            assert isinstance(login, ms.LoginEvent)
            self.assertEqual((login.user, login.database, login.response),
                             (b"ann", b"shop", b"answer"))
            self.assertIsInstance(talk.say(Side.SERVER, OK), ms.AcceptedEvent)
            query = talk.say(Side.CLIENT, Command.query("SELECT n FROM t"))
            self.assertEqual(query, ms.QueryEvent(b"SELECT n FROM t", ()))
            with ms.ReplyWriter(ReplyKind.QUERY, CAPABILITIES) as writer:
                reply = (writer.rows([Column(b"n", ColumnType.LONGLONG)]) + writer.row((1,))
                         + writer.row((None,)) + writer.end_rows())
            self.assertEqual(talk.names(Side.SERVER, reply),
                             ["ColumnCount", "Column", "Row", "Row", "RowsEnd"])
            self.assertIsInstance(talk.say(Side.CLIENT, Command.quit()), ms.QuitEvent)
            self.assertEqual(talk.finish(), "end Over Quit")
        self.assertEqual(talk.lines[1].split(" ", 2)[:2], ["client", "Login"])

    def test_commands(self) -> None:
        """Each command is read by its fields."""
        cases: List[Tuple[bytes, ms.Event]] = [
            (Command.init_db("shop"), ms.InitDbEvent(b"shop")),
            (Command.query("SELECT 'ŷ'"), ms.QueryEvent("SELECT 'ŷ'".encode(), ())),
            (Command.statistics(), ms.CommandEvent(0x09, {})),
            (Command.process_kill(70000), ms.CommandEvent(0x0c, {"connection": 70000})),
            (Command.ping(), ms.CommandEvent(0x0e, {})),
            (Command.prepare("SELECT ?"), ms.PrepareEvent(b"SELECT ?")),
            (Command.long_data(7, 2, b"data"), ms.LongDataEvent(7, 2, b"data")),
            (Command.close(7), ms.CloseEvent(7)),
            (Command.reset_statement(7), ms.ResetStatementEvent(7)),
            (Command.set_option(1), ms.CommandEvent(0x1b, {"option": 1})),
            (Command.fetch(7, 100), ms.FetchEvent(7, 100)),
            (Command.reset_connection(), ms.CommandEvent(0x1f, {})),
            (Command.quit(), ms.QuitEvent())]
        for payload, wanted in cases:
            with self.subTest(wanted=wanted), ms.Connection.after_login(CAPABILITIES) as it:
                packets, event = it.put(Side.CLIENT, payload)
                self.assertEqual(event, wanted)
                self.assertEqual(packets, ms.put_packet(payload)[0])

    def test_query_attributes(self) -> None:
        """Where they are in force a query says that it has none."""
        capabilities = CAPABILITIES | Capability.QUERY_ATTRIBUTES
        with ms.Connection.after_login(capabilities) as it:
            payload = Command.query("SELECT 1", it.capabilities)
            self.assertEqual(payload, b"\x03\0\x01SELECT 1")
            self.assertEqual(it.put(Side.CLIENT, payload).event, ms.QueryEvent(b"SELECT 1", ()))

    def test_attributes(self) -> None:
        """Attributes of a query and of an execution, laid out as MySQL's pages of COM_QUERY and
        COM_STMT_EXECUTE have it."""
        given: Dict[str, ms.Parameter] = {"trace": "a1", "level": 2, "none": None}
        wanted = ((b"trace", b"a1"), (b"level", 2), (b"none", None))
        types = b"\xfd\0\5trace\x08\0\5level\x06\0\4none"
        capabilities = CAPABILITIES | Capability.QUERY_ATTRIBUTES
        query = Command.query("SELECT 1", capabilities, given)
        self.assertEqual(query, b"\x03\3\1\4\1" + types + b"\2a1" + b"\2" + bytes(7) + b"SELECT 1")
        with Talk(self, behind_login(capabilities)) as talk:
            self.assertEqual(talk.say(Side.CLIENT, query), ms.QueryEvent(b"SELECT 1", wanted))
        for values, cursor in ((), 0), ((7, "x"), 1), (tuple(range(300)), 0):
            with Talk(self, behind_login(capabilities)) as talk:
                self.prepared(talk, "DO " + ", ".join("?" * len(values)), len(values))
                for attributes in {}, given:
                    event = talk.say(Side.CLIENT, Command.execute(
                        5, values, cursor=ms.Cursor(cursor), capabilities=capabilities,
                        attributes=attributes))
                    assert isinstance(event, ms.ExecuteEvent)
                    found = tuple(it.encode() if isinstance(it, str) else it for it in values)
                    self.assertEqual((event.values, event.attributes, event.cursor),
                                     (found, wanted if attributes else (), cursor))
                    talk.say(Side.SERVER, OK)
        execution = Command.execute(5, [7], capabilities=capabilities, attributes={"a": "b"})
        self.assertEqual(execution, b"\x17\5\0\0\0\x08\1\0\0\0\2\0\1\x08\0\0\xfd\0\1a\7"
                         + bytes(7) + b"\1b")
        for call in (lambda: Command.query("SELECT 1", CAPABILITIES, given),
                     lambda: Command.execute(5, attributes=given)):
            with self.assertRaises(ValueError):
                call()

    def test_cursor(self) -> None:
        """An execution asks for a cursor by its flags; without one they are 0."""
        self.assertEqual(Command.execute(5)[5], 0)
        self.assertEqual(Command.execute(5, [1], cursor=ms.Cursor.READ_ONLY)[5], 1)
        with Talk(self, behind_login()) as talk:
            self.prepared(talk)
            event = talk.say(Side.CLIENT, Command.execute(5, [1, 2], cursor=ms.Cursor.READ_ONLY))
            assert isinstance(event, ms.ExecuteEvent)
            self.assertEqual((event.values, event.cursor), ((1, 2), ms.Cursor.READ_ONLY))
        with self.assertRaises((ValueError, OverflowError)):
            Command.execute(5, cursor=256)  # type: ignore[arg-type]

    def test_login(self) -> None:
        """A login with a collation, and with attributes of the program."""
        capabilities = CAPABILITIES | Capability.CONNECT_ATTRS
        given: Dict[str, ms.Text] = {"_client_name": "own", "program_name": "x" * 300}
        wanted = ((b"_client_name", b"own"), (b"program_name", b"x" * 300))
        with Talk(self) as talk:
            talk.say(Side.SERVER, ms.put_greeting(7, "8.0.0", capabilities, b"12345678",
                                                  b"123456789012"))
            login = talk.say(Side.CLIENT, ms.put_login(
                "ann", capabilities, b"answer", "shop", collation=ms.Collation.UTF8MB4_BIN,
                attributes=given))
            assert isinstance(login, ms.LoginEvent)
            self.assertEqual((login.collation, login.attributes, login.database, login.response),
                             (46, wanted, b"shop", b"answer"))
            talk.say(Side.SERVER, OK)
            event = talk.say(Side.CLIENT, Command.change_user("ben", capabilities, collation=255,
                                                              attributes=given))
            assert isinstance(event, ms.ChangeUserEvent)
            self.assertEqual((event.user, event.collation, event.attributes), (b"ben", 255, wanted))
        plain = ms.put_login("ann", capabilities, b"answer")
        self.assertEqual((plain[8], plain[2] & 0x10), (45, 0))
        self.assertEqual(ms.put_login("ann", capabilities, b"answer", attributes={"a": "b"})[-5:],
                         b"\4\1a\1b")
        for call in (lambda: ms.put_login("ann", CAPABILITIES, attributes=given),
                     lambda: Command.change_user("ann", CAPABILITIES, attributes=given)):
            with self.assertRaises(ValueError):
                call()
        with self.assertRaises(OverflowError):
            ms.put_login("ann", CAPABILITIES, collation=309)

    def test_change_user(self) -> None:
        for other in (0, Capability.CONNECT_ATTRS, Capability.SECURE_CONNECTION,
                      Capability.PLUGIN_AUTH):
            capabilities = CAPABILITIES ^ other
            with self.subTest(other=other), Talk(self, behind_login(capabilities)) as talk:
                event = talk.say(Side.CLIENT, Command.change_user(
                    "ben", capabilities, b"answer", "shop", "dialog", 63))
                assert isinstance(event, ms.ChangeUserEvent)
                self.assertEqual((event.user, event.database, event.response, event.collation),
                                 (b"ben", b"shop", b"answer", 63))
                has_plugin = capabilities & Capability.PLUGIN_AUTH
                self.assertEqual(event.plugin, b"dialog" if has_plugin else b"")
                self.assertIsInstance(talk.say(Side.SERVER, OK), ms.AcceptedEvent)
        for user, response in (("a\0b", b""), ("a", b"\0")):
            with self.assertRaises(ValueError):
                Command.change_user(user, PROTOCOL_41, response)
        with self.assertRaises(OverflowError):
            Command.change_user("a", CAPABILITIES, bytes(256))

    def prepared(self, talk: Talk, query: str = INSERT, parameters: int = 2) -> None:
        """The query is prepared as the statement 5."""
        talk.say(Side.CLIENT, Command.prepare(query))
        with ms.ReplyWriter(ReplyKind.PREPARE, CAPABILITIES) as writer:
            packets = writer.prepared(5, [Column(b"?", ColumnType.LONGLONG)] * parameters, [])
        self.assertEqual(talk.names(Side.SERVER, packets), ["Prepared"] + ["Column"] * parameters)

    def test_executions(self) -> None:
        """Those of several sets are put one after another, behind the reply to the one before."""
        sets: List[Tuple[ms.Parameter, ...]] = [(1, "tea"), (None, b"\0\xff"), (3, None)]
        with Talk(self, behind_login()) as talk:
            self.prepared(talk)
            packets, values = ms.executions(INSERT, sets, 5), []
            while packets:
                [event], used = talk.send(Side.CLIENT, packets)
                assert isinstance(event, ms.ExecuteEvent)
                values.append(event.values)
                self.assertEqual(talk.send(Side.CLIENT, packets[used:]), ([], 0))
                talk.say(Side.SERVER, OK)
                packets = packets[used:]
            self.assertEqual(values, [(1, b"tea"), (None, b"\0\xff"), (3, None)])

    def test_floats(self) -> None:
        """An execution has floats among its values, and each other kind of them."""
        values: List[ms.Parameter] = [
            1.5, float("inf"), None, -7, 2**63, "tea", b"\0\xff",
            datetime.datetime(2024, 2, 29, 1, 2, 3, 4), -datetime.timedelta(hours=30)]
        with Talk(self, behind_login()) as talk:
            query = f"DO {', '.join('?' * len(values))}"
            self.prepared(talk, query, len(values))
            event = talk.say(Side.CLIENT, Command.execute(5, values))
            assert isinstance(event, ms.ExecuteEvent)
            wanted = [it.encode() if isinstance(it, str) else it for it in values]
            self.assertEqual(list(event.values), wanted)
            self.assertEqual((event.statement, event.text), (5, query.encode()))
        with Talk(self, behind_login()) as talk:
            self.prepared(talk, "DO 1", 0)
            event = talk.say(Side.CLIENT, Command.execute(5))
            assert isinstance(event, ms.ExecuteEvent)
            self.assertEqual(list(event.values), [])
        self.refuses(Code.REFUSED_TOO_MANY_PLACES, lambda: Command.execute(5, [1.5] * 65536))
        for strange in (Fraction(1, 2), object(), [1.5]):
            with self.assertRaises(TypeError):
                Command.execute(5, [strange])  # type: ignore[list-item]

    def test_long_data(self) -> None:
        """Long data is put with its execution."""
        long = b"x" * 20000000
        with Talk(self, lambda: ms.Connection.after_login(
                CAPABILITIES, client=1 << 25, held=1 << 27)) as talk:
            self.prepared(talk)
            packets = ms.executions(INSERT, [(1, long)], 5, limit=1 << 25)
            events, used = talk.send(Side.CLIENT, packets)
            self.assertEqual({type(it) for it in events[:-1]}, {ms.LongDataEvent})
            assert isinstance(events[-1], ms.ExecuteEvent)
            self.assertTrue(events[-1].values == (1, long))
            self.assertEqual(used, len(packets))

    def test_bulk(self) -> None:
        """A bulk execution is put as any other command."""
        rows = [(it, b"%d" % it) for it in range(100)]
        with Talk(self, lambda: ms.Connection.after_login(CAPABILITIES, 4)) as talk:
            self.prepared(talk)
            packets = ms.executions(INSERT, rows, 5, Road.BULK)
            [event], used = talk.send(Side.CLIENT, packets)
            assert isinstance(event, ms.BulkExecuteEvent)
            self.assertEqual(event.rows, tuple(rows))
            self.assertEqual(used, len(packets))

    def test_executions_behind_a_prepare(self) -> None:
        """What `executions` makes is what `send` makes behind its prepare."""
        for query in (INSERT, "SELECT ?, ? -- " + "x" * 0xFFFFFF):
            stream = ms.send(query, [(1, 2)], Road.EXECUTE, 5, 1 << 26)
            found = ms.executions(query, [(1, 2)], 5, limit=1 << 26)
            prepare, _ = ms.put_packet(Command.prepare(query), 0, 1 << 26)
            self.assertTrue(stream == prepare + found)
        with self.assertRaises(ValueError):
            ms.executions(INSERT, [(1, 2)], 5, Road.TEXT)

    def test_after_login(self) -> None:
        with ms.Connection.after_login(CAPABILITIES, 4, client=10, server=20, held=50) as it:
            self.assertEqual((it.turn, it.phase), (Side.CLIENT, ms.Phase.COMMAND))
            self.assertEqual((it.capabilities, it.mariadb_capabilities), (CAPABILITIES, 4))
            self.assertEqual([it.room(side) for side in Side], [14, 24])
        with self.assertRaises(OverflowError):
            ms.Connection.after_login(1 << 32)

    def test_client_of_mysql(self) -> None:
        """A client of MySQL has none of MariaDB's own capabilities, by any bytes there."""
        greeting = ms.put_greeting(7, "8.0.0", CAPABILITIES | 1, b"12345678", b"123456789012")
        for bit, found in (0, 4), (1, 0):
            with ms.Connection() as it:
                it.put(Side.SERVER, greeting)
                capabilities = CAPABILITIES & ~1 | bit
                login = ms.put_login("root", capabilities, b"", mariadb_capabilities=4)
                _, event = it.put(Side.CLIENT, login)
                assert isinstance(event, ms.LoginEvent)
                self.assertEqual(event.mariadb_capabilities, found)
                self.assertEqual(ms.read_login(login).mariadb_capabilities, found)

    def test_proxy(self) -> None:
        """A proxy between a client and a server reads of the one and puts to the other, by
        its own numbers."""
        with Talk(self) as talk, ms.Connection() as proxy:
            greeting = ms.put_greeting(7, "8.0.0", CAPABILITIES, b"12345678", b"123456789012")
            packets, event = talk.ends[Side.SERVER].put(Side.SERVER, greeting)
            self.assertEqual(proxy.put(Side.SERVER, greeting), (packets, event))
            self.assertEqual(proxy.turn, Side.CLIENT)
            for secrets in (False, True):
                self.assertEqual(proxy.line(secrets=secrets),
                                 talk.ends[Side.SERVER].line(secrets=secrets))


class Refusals(Case):
    """What isn't put changes nothing, and is refused by the first cause against it."""

    @contextlib.contextmanager
    def unchanged(self, connection: ms.Connection) -> Iterator[None]:
        """Within it, nothing of the state of the connection changes, nor the line that was told."""
        def stands() -> object:
            return connection._standing(), connection.line(secrets=True)

        before = stands()
        yield
        self.assertEqual(stands(), before)

    def test_turns(self) -> None:
        with ms.Connection.after_login(CAPABILITIES) as it:
            it.put(Side.CLIENT, Command.query("SELECT 1"))
            with self.unchanged(it):
                self.refuses(Code.CONNECTION_NOT_ITS_TURN,
                             lambda: it.put(Side.CLIENT, Command.ping()))
                self.assertEqual(it.put_packets(Side.CLIENT, framed(Command.ping())), (b"", 0))
            it.put(Side.SERVER, OK)
            with self.unchanged(it):
                self.refuses(Code.CONNECTION_NOT_ITS_TURN, lambda: it.put(Side.SERVER, OK))
            it.feed(Side.CLIENT, b"\x01")
            self.refuses(Code.CONNECTION_NOT_ITS_TURN,
                         lambda: it.put(Side.CLIENT, Command.ping()))

    def test_counts(self) -> None:
        """Executions of another number of values than the server counted parameters."""
        skipped = "DELETE FROM t WHERE id = ? /*!80000 AND k = ? */"
        self.assertEqual(ms.place_count("SELECT ?, '?', ? /* ? */"), 2)
        self.assertEqual(ms.place_count("SELECT :a, :b, :a"), 3)
        self.refuses(Code.MIXED, lambda: ms.place_count("SELECT ?, :a"))
        packets = ms.executions("SELECT ?, ?", [(5, 7)], 9)
        with ms.Connection.after_login(CAPABILITIES) as it:
            it.put(Side.CLIENT, Command.prepare(skipped))
            with self.unchanged(it):
                self.refuses(Code.CONNECTION_UNKNOWN_STATEMENT, lambda: it.put_sets(9, 2, packets))
            # As a MariaDB counts them.
            with ms.ReplyWriter(ReplyKind.PREPARE, CAPABILITIES) as writer:
                it.put_packets(Side.SERVER,
                               writer.prepared(9, [Column(b"?", ColumnType.VAR_STRING)], []))
            with self.unchanged(it):
                self.refuses(Code.CONNECTION_WRONG_COUNT, lambda: it.put_sets(9, 2, packets))
                self.refuses(Code.CONNECTION_WRONG_COUNT, lambda: it.put_execution(9, (5, 7)))
            one = framed(Command.execute(9, (1.5,)))
            self.assertEqual(it.put_execution(9, (1.5,)), one)
            with self.unchanged(it):
                self.assertEqual(it.put_sets(9, 1, one), (b"", 0))
                self.refuses(Code.CONNECTION_NOT_ITS_TURN, lambda: it.put_execution(9, (1.5,)))
                self.refuses(Code.CONNECTION_WRONG_COUNT, lambda: it.put_sets(9, 2, packets))

    def test_ended(self) -> None:
        """Behind the end of a side's stream, of the connection, and behind a fault."""
        with ms.Connection.after_login(CAPABILITIES) as it:
            it.close_side(Side.CLIENT)
            self.refuses(Code.CONNECTION_NOT_ITS_TURN, lambda: it.put(Side.CLIENT, b"\x0e"))
        with ms.Connection.after_login(CAPABILITIES) as it:
            it.put(Side.CLIENT, Command.quit())
            for side in Side:
                self.refuses(Code.CONNECTION_NOT_ITS_TURN, lambda: it.put(side, b"\x0e"))
        with ms.Connection.after_login(CAPABILITIES) as it:
            with self.assertRaises(ms.ConnectionFault):
                list(it.feed(Side.CLIENT, b"\x01\0\0\x07\x0e"))
            self.refuses(Code.CONNECTION_NOT_ITS_TURN, lambda: it.put(Side.CLIENT, b"\x0e"))

    def test_faults(self) -> None:
        with ms.Connection() as it:
            self.refuses(Code.CONNECTION_OLD_PROTOCOL, lambda: it.put(Side.SERVER, b"\x09old"))
            self.refuses(Code.CONNECTION_BAD_GREETING, lambda: it.put(Side.SERVER, b"\x0a"))
            it.put(Side.SERVER, ms.put_greeting(7, "8", CAPABILITIES, b"12345678", b"123456789012"))
            with self.unchanged(it):
                self.refuses(Code.CONNECTION_BAD_LOGIN, lambda: it.put(Side.CLIENT, b"\0\x02"))
        with ms.Connection.after_login(CAPABILITIES) as it:
            it.put(Side.CLIENT, Command.query("SELECT 1"))
            with self.unchanged(it):
                self.refuses(Code.REPLY_BAD_OK, lambda: it.put(Side.SERVER, b"\0"))
                self.refuses(Code.REPLY_BAD_COUNT, lambda: it.put(Side.SERVER, b"\x01\x01"))
            self.assertEqual(it.put(Side.SERVER, OK).packets, framed(OK, first=1))

    def test_limits(self) -> None:
        with ms.Connection.after_login(CAPABILITIES, client=10, server=10, held=60) as it:
            self.refuses(Code.CONNECTION_TOO_LARGE, lambda: it.put(Side.CLIENT, b"\x03" * 11))
            it.put(Side.CLIENT, b"\x03" * 10)
            self.refuses(Code.CONNECTION_TOO_LARGE, lambda: it.put(Side.SERVER, bytes(11)))
        with ms.Connection.after_login(CAPABILITIES, client=99, server=99, held=210) as it:
            self.refuses(Code.CONNECTION_KEPT,
                         lambda: it.put(Side.CLIENT, Command.prepare("x" * 98)))
            it.put(Side.CLIENT, Command.query("x" * 98))
        prepare = Command.prepare("SELECT 1")
        with ms.Connection.after_login(CAPABILITIES, client=99, server=99, held=198) as it:
            self.refuses(Code.CONNECTION_KEPT, lambda: it.put(Side.CLIENT, prepare))
        # Where it isn't told how much is held, there is room for what is kept.
        for longest in (99, 1 << 26, 1 << 61):
            with ms.Connection.after_login(CAPABILITIES, client=longest, server=longest) as it:
                it.put(Side.CLIENT, prepare)
        with self.assertRaises(OverflowError):
            ms.Connection(client=-1)

    def test_packets(self) -> None:
        """A refusal behind a payload that was put comes with what is left."""
        with ms.Connection.after_login(CAPABILITIES) as it:
            query = framed(Command.query("SELECT 1"))
            self.assertEqual(it.put_packets(Side.CLIENT, query), (query, len(query)))
            count, column = b"\x01", b"\x03def\0\0\0\x01n\0\x0c\x3f\0\0\0\0\0\xfd\x80\0\0\0\0"
            packets = framed(count, column, b"\x07", b"\x017")
            good = framed(count, column, first=1)
            self.assertEqual(it.put_packets(Side.SERVER, packets), (good, len(good)))
            for _ in range(2):
                self.refuses(Code.REPLY_BAD_ROW,
                             lambda: it.put_packets(Side.SERVER, packets[len(good):]))
            row = framed(b"\x017", first=3)
            # What is cut off at the end is left, and the numbers are made anew.
            self.assertEqual(it.put_packets(Side.SERVER, framed(b"\x017", first=9) + row[:5]),
                             (row, len(row)))
            self.assertEqual(it.unsent(Side.SERVER), b"")

    def test_wrong_types(self) -> None:
        with ms.Connection() as it:
            for call in (it.put, it.put_packets):
                with self.assertRaises(TypeError):
                    call(Side.SERVER, "text")  # type: ignore[arg-type]
                with self.assertRaises(ValueError):
                    call(2, b"")  # type: ignore[arg-type]
            with self.assertRaises(OverflowError):
                Command.close(1 << 32)


class Kept(Case):
    """What can't be given isn't lost, and what the library lets go of isn't read."""

    def test_packets(self) -> None:
        """Where a put is ended on its way, its packets come with the next, or it wasn't made."""
        wanted = framed(Command.close(1)) + framed(Command.close(2)) + framed(Command.ping())
        for way in Failing.WAYS:
            for number in itertools.count():
                failing = Failing(way, number)
                with ms.Connection.after_login(CAPABILITIES) as it:
                    sent = b""
                    for statement in (1, 2):
                        put = failing.run(lambda: it.put(Side.CLIENT, Command.close(statement)))
                        sent += put.packets if put else b""
                    failed = failing.failed
                    left = it.unsent(Side.CLIENT) if number % 2 else b""
                    sent += left + it.put(Side.CLIENT, Command.ping()).packets
                    if failed and not left and len(sent) < len(wanted):
                        # It was ended before the payload was put.
                        self.assertIn(sent, (wanted[9:], wanted[:9] + wanted[18:]))
                    else:
                        self.assertEqual(sent, wanted)
                if failing.is_last():
                    break

    def test_many_packets(self) -> None:
        """Where putting packets is ended on its way, `unsent` tells how many were taken."""
        packets = framed(Command.close(1)) + framed(Command.close(2)) + framed(Command.ping())
        for way in Failing.WAYS:
            for number in itertools.count():
                failing = Failing(way, number)
                with ms.Connection.after_login(CAPABILITIES) as it:
                    given = failing.run(lambda: it.put_packets(Side.CLIENT, packets))
                    sent = given[0] if given else it.unsent(Side.CLIENT)
                    self.assertIn(sent, (b"", packets))
                    self.assertEqual(it.phase == ms.Phase.REPLY, sent == packets)
                if not failing.failed:
                    self.assertEqual(given, (packets, len(packets)))
                if failing.is_last():
                    break

    def test_event_before_a_put(self) -> None:
        """Nothing is put before an event that couldn't be given."""
        text = b"x" * 10000
        query = ms.QueryEvent(text, ())
        for way, number in itertools.product(Failing.WAYS, range(8)):
            with ms.Connection.after_login(CAPABILITIES) as it:
                it.feed(Side.CLIENT, framed(b"\x03" + text))
                failing = Failing(way, number)
                given = failing.run(it.next_event)
                if given is None:
                    self.assertEqual((it.turn, it.phase), (Side.CLIENT, ms.Phase.COMMAND))
                    for side, payload in (Side.SERVER, OK), (Side.CLIENT, Command.ping()):
                        self.refuses(Code.CONNECTION_NOT_ITS_TURN, lambda: it.put(side, payload))
                        self.assertEqual(it.put_packets(side, framed(payload)), (b"", 0))
                    given = it.next_event()
                self.assertEqual(given, query)
                self.assertEqual((it.turn, it.phase), (Side.SERVER, ms.Phase.REPLY))
                it.put(Side.SERVER, OK)
                self.assertIsNone(it.next_event())

    def test_event_behind_the_end(self) -> None:
        for way, number in itertools.product(Failing.WAYS, range(8)):
            with ms.Connection.after_login(CAPABILITIES) as it:
                it.feed(Side.CLIENT, framed(b"\x03" + b"x" * 10000))
                given = Failing(way, number).run(it.next_event)
                Failing(way, number).run(it.finish)
                it.finish()
                if given is None:
                    given = it.next_event()
                self.assertEqual(given, ms.QueryEvent(b"x" * 10000, ()))

    def test_event_of_a_closed_connection(self) -> None:
        """Nothing of it is read any more."""
        for way in Failing.WAYS:
            with ms.Connection.after_login(CAPABILITIES) as it:
                it.feed(Side.CLIENT, framed(b"\x03" + b"x" * 10000))
                self.assertIsNone(Failing(way, 1).run(it.next_event))
            self.refuses(Code.EMPTY_HANDLE, it.next_event)


if __name__ == "__main__":
    import unittest
    unittest.main()
