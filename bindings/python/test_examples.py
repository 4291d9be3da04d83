"""Tests of the examples: `make check`. The client, the replay of a stream and that of a connection
speak to the test server."""

from __future__ import annotations

import contextlib
import datetime
import io
import json
import os
import pathlib
import shutil
import socket
import subprocess
import sys
import tempfile
import threading
import unittest
from typing import Any, Dict, Iterator, List, Mapping, Sequence, Tuple
from unittest import mock

EXAMPLES = pathlib.Path(__file__).resolve().parent / "examples"
sys.path.insert(0, str(EXAMPLES))

import client  # noqa: E402  (found by the line above)
import replay_connection  # noqa: E402
import test_server  # noqa: E402

import mysql_session as ms  # noqa: E402
from mysql_session import Command, Side  # noqa: E402

GOODS_BY_ID = "SELECT * FROM goods WHERE id = ?"


@contextlib.contextmanager
def server(clients: int) -> Iterator[int]:
    """The test server for so many clients, by its port. It ends by itself behind the last."""
    command = [sys.executable, str(EXAMPLES / "test_server.py"), "--clients", str(clients)]
    with subprocess.Popen(command, stdout=subprocess.PIPE) as process:
        try:
            assert process.stdout is not None
            yield int(process.stdout.readline().split()[-1])
            process.stdout.read()
            if process.wait(30):
                raise AssertionError(f"the server ended with {process.returncode}")
        finally:
            process.kill()


def replay(port: int, stream: bytes, query: str,
           *options: str) -> "subprocess.CompletedProcess[str]":
    """Replays a stream to the server."""
    with tempfile.TemporaryDirectory() as folder:
        path = os.path.join(folder, "stream.bin")
        pathlib.Path(path).write_bytes(stream)
        command = [sys.executable, str(EXAMPLES / "replay.py"), path, f"127.0.0.1:{port}", "--user",
                   "anyone", "--database", "shop", "--query", query, *options]
        return subprocess.run(command, stdout=subprocess.PIPE, stderr=subprocess.PIPE, timeout=60,
                              universal_newlines=True)


class Examples(unittest.TestCase):
    def check(self, port: int, stream: bytes, query: str, options: Sequence[str],
              lines: List[str], status: int = 0) -> None:
        """What a replay prints behind the server's version, and its status."""
        done = replay(port, stream, query, *options)
        self.assertEqual(done.stderr, "")
        self.assertEqual(done.stdout.splitlines(), ["server 8.0.0-test-server", *lines])
        self.assertEqual(done.returncode, status)

    def test_executions(self) -> None:
        stream = ms.send(GOODS_BY_ID, [(2,), (9,), ("3",), (None,)], ms.Road.EXECUTE, 7)
        options = ["--road", "execute", "--statement", "7"]
        rows = ["answer 0: 1 rows", "answer 1: 0 rows", "answer 2: 1 rows", "answer 3: 0 rows"]
        with server(2) as port:
            self.check(port, stream, GOODS_BY_ID, options,
                       rows + ["the recorded stream ends: whole"])
            self.check(port, stream[:-1], GOODS_BY_ID, options,
                       rows[:3] + ["the recorded stream ends: unfinished packet"], 1)

    def test_texts(self) -> None:
        stream = ms.send("SELECT ?", [(1,), (2,)], ms.Road.TEXT)
        error = "answer 1: error 1064 (42000): no answer to this query is known: select 2"
        with server(1) as port:
            self.check(port, stream, "SELECT ?", [],
                       ["answer 0: 1 rows", error, "the recorded stream ends: whole"], 1)

    def test_recorded_mode(self) -> None:
        """What was recorded at a server in another mode is read by it. The test server tells no mode, so
        that the text is another one."""
        mode = ms.Mode(no_backslash_escapes=True)
        stream = ms.send("SELECT ?", [("\\",)], ms.Road.TEXT, mode=mode)
        self.assertEqual(stream[4:], b"\x03SELECT '\\'")
        error = "answer 0: error 1064 (42000): no answer to this query is known: select _utf8mb4 0x5c"
        with server(2) as port:
            self.check(port, stream, "SELECT ?", ["--recorded-mode", "NO_BACKSLASH_ESCAPES"],
                       [error, "the recorded stream ends: whole"], 1)
            self.check(port, stream, "SELECT ?", [],
                       ["the recorded stream ends: fault at payload 0: "
                        + ms.code_text(ms.Code.FAULT_TEXT_MISMATCH)], 1)

    def test_set(self) -> None:
        stream = ms.send("SET @a = ?", [("a",), (None,)], ms.Road.TEXT)
        ok = "OK, 0 rows affected, 0 warnings"
        with server(1) as port:
            self.check(port, stream, "SET @a = ?", [],
                       [f"answer 0: {ok}", f"answer 1: {ok}", "the recorded stream ends: whole"])

    def test_failures(self) -> None:
        stream = ms.send("SELECT ?", [(1,)], ms.Road.TEXT)
        with server(3) as port:
            done = replay(port, stream + b"\x01\0\0\0\x0e", "SELECT ?")
            self.assertEqual(done.stderr, "")
            self.assertIn("answer 0: 1 rows\nthe recorded stream ends: fault at payload 1: "
                          + ms.code_text(ms.Code.FAULT_OTHER_COMMAND), done.stdout)
            self.assertEqual(done.returncode, 1)
            done = replay(port, stream, "SELECT ?", "--road", "execute")
            self.assertIn("replay: error 1064 (42000)", done.stderr)
            self.assertEqual(done.returncode, 2)
            done = replay(port, stream, "SELECT ?", "--road", "bulk")
            self.assertIn("the server takes no bulk executions", done.stderr)
            self.assertEqual(done.returncode, 2)


    def test_password(self) -> None:
        """The password is that of the environment: a server that refuses it tells what it was sent."""
        def refuse() -> None:
            stream, _ = listener.accept()
            with stream, ms.Connection() as it:
                stream.sendall(it.put(Side.SERVER, ms.put_greeting(
                    1, "8.0.0", int(test_server.CAPABILITIES), b"12345678", b"123456789012")).packets)
                login = None
                while not isinstance(login, ms.LoginEvent):
                    it.feed(Side.CLIENT, stream.recv(1000))
                    login = it.next_event()
                refusal = b"\xff\x15\x04#28000" + login.response.hex().encode()
                stream.sendall(it.put(Side.SERVER, refusal).packets)

        with socket.create_server(("127.0.0.1", 0)) as listener, \
                mock.patch.dict(os.environ, {"MYSQL_PASSWORD": "secret"}):
            thread = threading.Thread(target=refuse)
            thread.start()
            done = replay(listener.getsockname()[1], b"", "SELECT ?")
            thread.join()
        wanted = client.native(b"secret", b"12345678123456789012").hex()
        self.assertEqual((done.stderr, done.returncode),
                         (f"replay: error 1045 (28000): {wanted}\n", 2))


# ---- The test server and the client -------------------------------------------------------------

TIMES = {"columns": {"id": "bigint unsigned", "day": "date", "at": "datetime", "took": "time",
                     "more": "json", "small": "tinyint", "data": "blob"},
         "rows": [[1, "2024-02-29", "2024-02-29T13:14:15.000060", "-30:00:01.5", '{"a": 1}', -1,
                   "x"],
                  [2, None, None, None, None, None, None]]}
FIRST = {"id": 1, "day": datetime.date(2024, 2, 29),
         "at": datetime.datetime(2024, 2, 29, 13, 14, 15, 60),
         "took": -datetime.timedelta(hours=30, seconds=1.5), "more": '{"a": 1}', "small": -1,
         "data": b"x"}
TIMES_BY_ID, SUM, INSERT = ("SELECT * FROM times WHERE id = ?", "SELECT ? + ?",
                            "INSERT INTO times (id, data) VALUES (?, ?)")


def added(values: Tuple[Any, ...]) -> Mapping[str, Any]:
    """The answer to a sum."""
    if None in values:
        return {"columns": {"sum": "bigint"}, "rows": []}
    return {"columns": {"sum": "bigint"}, "rows": [[sum(map(int, values))]]}


# What asks by text and by an execution, and for the server's version and level of isolation.
CONNECTOR_J = "/usr/share/java/mariadb-java-client.jar"
JAVA = """import java.sql.*;
public class It {
    public static void main(String[] words) throws Exception {
        for (String more : new String[] { "", "&useServerPrepStmts=true" }) {
            String url = "jdbc:mariadb://127.0.0.1:" + words[0] + "/shop?user=ann&password=x" + more;
            try (Connection it = DriverManager.getConnection(url)) {
                ResultSet rows = it.prepareStatement("SELECT * FROM times").executeQuery();
                rows.next();
                System.out.println(rows.getDate("day"));
                if (it.getTransactionIsolation() != Connection.TRANSACTION_REPEATABLE_READ)
                    throw new Exception("another level");
                System.out.println(it.getMetaData().getDatabaseProductVersion());
            }
        }
    }
}
"""
# Two rows under columns of each type, of which the second one has NULLs; and how drivers print them.
KINDS: List[Tuple[str, str, Any]] = [
    ("id", "int", 1), ("tiny", "tinyint", -1), ("tiny_u", "tinyint unsigned", 255),
    ("small", "smallint", -300), ("medium", "mediumint", -70000), ("big", "bigint", -5000000000),
    ("big_u", "bigint unsigned", 2**64 - 1), ("year", "year", 2024), ("f", "float", 1.5),
    ("d", "double", -0.1), ("price", "decimal", "2.50"), ("bits", "bit", 65), ("c", "char", "tea"),
    ("v", "varchar", "mat\u00e9"), ("long", "text", "a text"), ("color", "enum", "red"),
    ("some", "set", "a,b"), ("b", "binary", "bin"), ("vb", "varbinary", "var"),
    ("data", "blob", "data"), ("more", "json", '{"a": 1}'), ("day", "date", "2024-02-29"),
    ("at", "datetime", "2024-02-29T13:14:15.000060"),
    ("changed", "timestamp", "2024-02-29T01:02:03.500000"), ("took", "time", "-30:00:01.500000")]
OF_KINDS = {"columns": {name: kind for name, kind, _ in KINDS},
            "rows": [[value for _, _, value in KINDS], [2] + [None] * (len(KINDS) - 1)]}
KINDS_BY_ID = "SELECT * FROM kinds WHERE id = ?"
CLIENTS = pathlib.Path(__file__).resolve().parent.parent / "testing" / "clients"
GO_DRIVER = "/usr/share/gocode/src/github.com/go-sql-driver/mysql"

ANSWERS: Dict[str, test_server.Given] = {
    "SELECT * FROM kinds": OF_KINDS, KINDS_BY_ID: {**OF_KINDS, "where": ["id"]},
    "SELECT * FROM times": TIMES, TIMES_BY_ID: {**TIMES, "where": ["id"]}, SUM: added,
    INSERT: lambda values: {"affected": 1, "id": len(values[1] or b"")},
    "SELECT * FROM secrets": {"error": 1142, "state": "42000", "message": "SELECT is denied"}}


@contextlib.contextmanager
def connected(answers: Mapping[str, test_server.Given]) -> Iterator[client.Client]:
    """A client of the test server, which answers by this table."""
    out = io.StringIO()
    with contextlib.redirect_stdout(out), contextlib.redirect_stderr(out), \
            test_server.serving(answers) as port:
        with client.Client(socket.create_connection(("127.0.0.1", port))) as it:
            it.log_in("anyone", "secret", "shop")
            yield it


class TestMode(unittest.TestCase):
    def test_texts(self) -> None:
        """Of a server that tells neither the mode nor the character set, neither is known."""
        query, value = "SELECT id FROM goods WHERE name = ?", ["\\' OR 1=1 -- "]
        with connected({}) as it:
            self.assertIsNone(it.mode)
            self.assertEqual(it.text(query, value), query.replace("?", "").encode()
                             + b"_utf8mb4 0x5C27204F5220313D31202D2D20")
            with self.assertRaises(ValueError):
                it.text(r"SELECT '\', ?", [1])


class TestServer(unittest.TestCase):
    def dicts(self, results: Sequence[client.Result]) -> List[Dict[str, Any]]:
        """The rows of the one result that there is."""
        [rows] = results
        assert isinstance(rows, ms.Rows), rows
        return rows.dicts()

    def test_queries(self) -> None:
        with connected(ANSWERS) as it:
            nothing = dict.fromkeys(FIRST)
            self.assertEqual(self.dicts(it.query("SELECT *\n FROM times;")),
                             [FIRST, {**nothing, "id": 2}])
            self.assertEqual(it.query("SELECT * FROM secrets"),
                             [ms.ServerError(1142, b"42000", b"SELECT is denied")])
            [error] = it.query("SELECT 2")
            assert isinstance(error, ms.ServerError)
            self.assertEqual(error.code, 1064)
            for command in (Command.ping(), Command.init_db("other"), Command.query("SET @a = 1"),
                            Command.reset_connection(),
                            Command.change_user("ben", it.connection.capabilities)):
                [done] = it.results(command)
                self.assertIsInstance(done, ms.Ok)
            [line] = it.ask(Command.statistics())
            self.assertEqual(line, ms.LineEvent(b"Answers are canned"))
            [refused] = it.results(Command.process_kill(7))
            assert isinstance(refused, ms.ServerError)
            self.assertEqual(refused.code, 1047)

    def test_statements(self) -> None:
        with connected(ANSWERS) as it:
            by_id = it.prepare(TIMES_BY_ID)
            self.assertEqual((len(by_id.params), len(by_id.columns)), (1, len(FIRST)))
            found = [self.dicts(results) for results in
                     it.execute(TIMES_BY_ID, by_id.statement, [(1,), ("1",), (3,), (None,)])]
            self.assertEqual(found, [[FIRST], [FIRST], [], []])
            adds = it.prepare(SUM)
            [results] = it.execute(SUM, adds.statement, [(2, 3)])
            self.assertEqual(self.dicts(results), [{"sum": 5}])
            it.tell(Command.close(adds.statement))
            [done] = it.results(Command.reset_statement(by_id.statement))
            self.assertIsInstance(done, ms.Ok)
            with self.assertRaisesRegex(client.Refused, "^error 1064 .42000.: no answer"):
                it.prepare("SELECT ?")

    def test_drivers(self) -> None:
        """What drivers ask by themselves is answered, and what the table has is its answer."""
        rows: List[Tuple[str, Dict[str, Any]]] = [
            ("select version()", {"version()": "8.0.0-test-server"}),
            ("SELECT DATABASE(), current_user() AS who, CONNECTION_ID()",
             {"DATABASE()": "shop", "who": "anyone@%", "CONNECTION_ID()": 1}),
            # Of Connector/J, of Django, of the `mariadb` client.
            ("SELECT @@max_allowed_packet,@@system_time_zone,@@time_zone,"
             "@@auto_increment_increment",
             {"@@max_allowed_packet": 1 << 24, "@@system_time_zone": "UTC", "@@time_zone": "SYSTEM",
              "@@auto_increment_increment": 1}),
            ("/* a driver */SELECT  @@session.sql_mode AS sql_mode, @@tx_isolation AS `level`;",
             {"sql_mode": "", "level": "REPEATABLE-READ"}),
            ("SELECT VERSION(),\n@@sql_mode, CONVERT_TZ('2001-01-01 01:00:00', 'UTC', 'UTC') IS NOT "
             "NULL", {"VERSION()": "8.0.0-test-server", "@@sql_mode": "",
                      "CONVERT_TZ('2001-01-01 01:00:00', 'UTC', 'UTC') IS NOT NULL": 1}),
            ("select @@version_comment limit 1", {"@@version_comment": "canned answers"}),
            ("SELECT @@autocommit", {"@@autocommit": 0}),
            ("SHOW VARIABLES LIKE 'lower_case%'",
             {"Variable_name": "lower_case_table_names", "Value": "0"}),
            ("SHOW SESSION VARIABLES WHERE Variable_name IN ('time_zone', 'nothing')",
             {"Variable_name": "time_zone", "Value": "SYSTEM"})]
        table: Dict[str, test_server.Given] = {
            "select @@autocommit": {"columns": {"@@autocommit": "int"}, "rows": [[0]]}}
        with connected(table) as it:
            for query, wanted in rows:
                with self.subTest(query=query):
                    self.assertEqual(self.dicts(it.query(query)), [wanted])
            self.assertEqual(self.dicts(it.query("SHOW WARNINGS")), [])
            statement = it.prepare("SELECT @@sql_mode").statement
            [results] = it.execute("SELECT @@sql_mode", statement, [()])
            self.assertEqual(self.dicts(results), [{"@@sql_mode": ""}])
            for command in (Command.init_db("first"), Command.query("USE `second`")):
                [done] = it.results(command)
                self.assertIsInstance(done, ms.Ok)
                self.assertIn(self.dicts(it.query("SELECT SCHEMA()")),
                              ([{"SCHEMA()": "first"}], [{"SCHEMA()": "second"}]))
            self.assertEqual(self.dicts(it.query("SELECT SCHEMA()")), [{"SCHEMA()": "second"}])

    def test_without_answer(self) -> None:
        """What has no answer is printed, each on one line."""
        refused = ["SELECT @@nothing", "select version(), sleep()", "SELECT\n\x1b[2J", "SHOW TABLES",
                   "SELECT /*! 1, */ version()", "SELECT '" + "x" * 2000 + "'"]
        with contextlib.redirect_stderr(io.StringIO()) as said, \
                contextlib.redirect_stdout(io.StringIO()), test_server.serving(ANSWERS) as port, \
                client.Client(socket.create_connection(("127.0.0.1", port))) as it:
            it.log_in("anyone")
            for query in refused:
                [error] = it.query(query)
                assert isinstance(error, ms.ServerError)
                self.assertEqual(error.code, 1064)
            with self.assertRaises(client.Refused):
                it.prepare("SELECT ?")
            it.results(Command.process_kill(7))
        lines = said.getvalue().splitlines()
        no_answer = "client 1: no answer to this query is known: "
        self.assertEqual(lines[:5] + lines[6:], [
            no_answer + "select @@nothing", no_answer + "select version(), sleep()",
            no_answer + r"select \x1b[2j", no_answer + "show tables",
            no_answer + "select /*! 1, */ version()", no_answer + "select ?",
            "client 1: Command isn't answered"])
        self.assertEqual((len(lines[5]), lines[5][-3:]), (1013, " .."))

    def test_packets_go_at_once(self) -> None:
        """Neither end waits for an acknowledgement before it sends a small packet."""
        def is_set(stream: socket.socket) -> bool:
            return bool(stream.getsockopt(socket.IPPROTO_TCP, socket.TCP_NODELAY))

        found = []

        class Watched(test_server.Session):
            def close(self) -> None:
                found.append(is_set(self._stream))
                super().close()

        with mock.patch.object(test_server, "Session", Watched), connected({}) as it:
            self.assertTrue(is_set(it._stream))
        self.assertEqual(found, [True])

    def test_mode_of_executions(self) -> None:
        """The session's mode tells which placeholders an executed text has; the server is asked for
        it if it isn't known."""
        with connected(ANSWERS) as it:
            statement = it.prepare(TIMES_BY_ID).statement
            with mock.patch.object(ms, "executions", wraps=ms.executions) as made, \
                    mock.patch.object(it, "track_mode") as asked:
                list(it.execute(TIMES_BY_ID, statement, [(1,)]))
                self.assertEqual((made.call_args[1]["mode"], asked.call_count), (ms.Mode(), 1))
                quoting = ms.Mode(ansi_quotes=True)
                with mock.patch.object(client.Client, "mode", quoting):
                    list(it.execute(TIMES_BY_ID, statement, [(1,)]))
                self.assertEqual(made.call_args[1]["mode"], quoting)
                list(it.execute(TIMES_BY_ID, statement, [(1,)], mode=quoting))
                self.assertEqual((made.call_args[1]["mode"], asked.call_count), (quoting, 1))

    def test_long_data(self) -> None:
        with connected(ANSWERS) as it:
            statement = it.prepare(INSERT).statement
            for _ in range(3):
                it.tell(Command.long_data(statement, 1, b"x" * 100000))
            # The execution has no value of its own for it.
            [event] = it.ask(b"\x17" + statement.to_bytes(4, "little") + b"\0\1\0\0\0\0\1"
                             b"\x08\0\xfc\0" + (7).to_bytes(8, "little"))
            assert isinstance(event, ms.OkEvent)
            self.assertEqual((event.affected_rows, event.last_insert_id), (1, 300000))

    def test_tables(self) -> None:
        """What is no table is refused before any client comes."""
        tables: List[Any] = [
            {"a": 1}, {"a": {"columns": {"a": "strange"}, "rows": []}},
            {"a": {"columns": {"a": "int"}, "rows": [[1, 2]]}}, {"a": {"columns": {"a": "int"}}},
            {"a": {"columns": {"a": "date"}, "rows": [["x"]]}},
            {"a": {"columns": {"a": "int"}, "rows": [[1]], "where": ["b"]}}, []]
        for answers in tables:
            with self.subTest(answers=answers), self.assertRaises(test_server.NO_TABLE):
                test_server.Table(answers)
        with tempfile.TemporaryDirectory() as folder:
            path = os.path.join(folder, "answers.json")
            pathlib.Path(path).write_text(json.dumps(tables[0]), encoding="utf-8")
            done = subprocess.run([sys.executable, str(EXAMPLES / "test_server.py"), "--answers",
                                   path], stdout=subprocess.PIPE, stderr=subprocess.PIPE,
                                  universal_newlines=True, timeout=60)
        self.assertEqual((done.returncode, done.stdout), (2, ""))
        self.assertIn("the answers can't be read", done.stderr)

    def test_mariadb(self) -> None:
        """The `mariadb` client, where there is one."""
        name = shutil.which("mariadb")
        if name is None:
            self.skipTest("there is no mariadb")
        with contextlib.redirect_stdout(io.StringIO()), test_server.serving(ANSWERS) as port:
            words = [name, "--no-defaults", "--skip-ssl", "-h", "127.0.0.1", "-P", str(port), "-u",
                     "anyone", "--batch", "--skip-column-names", "-e",
                     "SELECT * FROM times; SELECT 2"]
            done = subprocess.run(words, stdout=subprocess.PIPE, stderr=subprocess.PIPE, timeout=60,
                                  universal_newlines=True)
        self.assertEqual(done.stdout.splitlines(), [
            "1\t2024-02-29\t2024-02-29 13:14:15.000060\t-30:00:01.500000\t{\"a\": 1}\t-1\tx",
            "2" + 6 * "\tNULL"])
        self.assertIn("ERROR 1064 (42000)", done.stderr)

    def test_pymysql(self) -> None:
        """PyMySQL, where there is a Python that has it."""
        program = ("import pymysql, sys\nit = pymysql.connect(host='127.0.0.1', "
                   "port=int(sys.argv[1]), user='anyone')\ncursor = it.cursor()\n"
                   "cursor.execute('SELECT * FROM times')\nprint(cursor.fetchall()[0])\nit.ping()\n")
        looks = [sys.executable, "/usr/bin/python3"]
        found = [it for it in looks if os.path.exists(it) and not subprocess.run(
            [it, "-c", "import pymysql"], stderr=subprocess.DEVNULL).returncode]
        if not found:
            self.skipTest("there is no PyMySQL")
        with contextlib.redirect_stdout(io.StringIO()), test_server.serving(ANSWERS) as port:
            done = subprocess.run([found[0], "-c", program, str(port)], stdout=subprocess.PIPE,
                                  stderr=subprocess.PIPE, timeout=60, universal_newlines=True)
        wanted = tuple(it for it in FIRST.values())
        self.assertEqual((done.stderr, done.stdout), ("", f"{wanted}\n"))

    def test_sqlalchemy(self) -> None:
        """SQLAlchemy over PyMySQL, where there is a Python that has both."""
        program = ("import sqlalchemy, sys\nfrom sqlalchemy import text\n"
                   "url = f'mysql+pymysql://ann:x@127.0.0.1:{sys.argv[1]}/shop'\n"
                   "with sqlalchemy.create_engine(url).connect() as it:\n"
                   "    print(it.execute(text('SELECT * FROM times')).fetchall()[0])\n"
                   "    print(it.dialect.server_version_info)\n")
        found = [it for it in (sys.executable, "/usr/bin/python3")
                 if os.path.exists(it) and not subprocess.run(
                     [it, "-c", "import pymysql, sqlalchemy"], stderr=subprocess.DEVNULL).returncode]
        if not found:
            self.skipTest("there is no SQLAlchemy with PyMySQL")
        with contextlib.redirect_stdout(io.StringIO()), test_server.serving(ANSWERS) as port:
            done = subprocess.run([found[0], "-c", program, str(port)], stdout=subprocess.PIPE,
                                  stderr=subprocess.PIPE, timeout=300, universal_newlines=True)
        wanted = f"{tuple(FIRST.values())}\n(8, 0, 0)\n"
        self.assertEqual((done.stderr, done.stdout), ("", wanted))

    def test_connector_j(self) -> None:
        """Connector/J, by text and by executions, where there is a Java that has it."""
        if shutil.which("javac") is None or not os.path.exists(CONNECTOR_J):
            self.skipTest("there is no Java with Connector/J")
        with tempfile.TemporaryDirectory() as folder:
            pathlib.Path(folder, "It.java").write_text(JAVA, encoding="utf-8")
            subprocess.run(["javac", "It.java"], cwd=folder, check=True, timeout=300)
            with contextlib.redirect_stdout(io.StringIO()), test_server.serving(ANSWERS) as port:
                done = subprocess.run(["java", "-cp", f".:{CONNECTOR_J}", "It", str(port)],
                                      cwd=folder, stdout=subprocess.PIPE, stderr=subprocess.PIPE,
                                      timeout=300, universal_newlines=True)
        self.assertEqual((done.stderr, done.stdout), ("", "2024-02-29\n8.0.0-test-server\n" * 2))

    def test_kinds(self) -> None:
        """Columns of each type, by text and by an execution: a row's values are the same."""
        with connected(ANSWERS) as it:
            by_text = self.dicts(it.query("SELECT * FROM kinds"))
            statement = it.prepare(KINDS_BY_ID).statement
            executed = [self.dicts(results) for results in
                        it.execute(KINDS_BY_ID, statement, [(1,), (2,)])]
        self.assertEqual([[it] for it in by_text], executed)
        first, second = by_text
        self.assertEqual([first["f"], first["d"], first["bits"], first["big_u"], first["at"]],
                         [1.5, -0.1, b"A", 2**64 - 1,
                          datetime.datetime(2024, 2, 29, 13, 14, 15, 60)])
        self.assertEqual(second, {**dict.fromkeys(first), "id": 2})

    def drivers_kinds(self, *words: str, **changes: str) -> None:
        """A driver's program prints each row by text, and then by an execution of each."""
        own = {name: changes.get(name, str(value)) for name, _, value in KINDS}
        own["at"], own["changed"] = own["at"].replace("T", " "), own["changed"].replace("T", " ")
        first = "|".join(own.values())
        rows = [first, "2" + "|NULL" * (len(KINDS) - 1)]
        with contextlib.redirect_stdout(io.StringIO()), test_server.serving(ANSWERS) as port:
            done = subprocess.run([*words, str(port)], stdout=subprocess.PIPE, encoding="utf-8",
                                  stderr=subprocess.PIPE, timeout=300)
        self.assertEqual((done.stderr, done.stdout.splitlines()), ("", rows * 2))

    def test_kinds_by_go(self) -> None:
        """go-sql-driver, where it is."""
        if shutil.which("go") is None or not os.path.exists(GO_DRIVER):
            self.skipTest("there is no go-sql-driver")
        with tempfile.TemporaryDirectory() as folder, mock.patch.dict(os.environ, {
                "GO111MODULE": "off", "GOPATH": "/usr/share/gocode", "GOCACHE": folder}):
            made = os.path.join(folder, "kinds")
            subprocess.run(["go", "build", "-o", made, "kinds.go"], cwd=CLIENTS, check=True,
                           timeout=300)
            self.drivers_kinds(made, bits="A")

    def test_kinds_by_php(self) -> None:
        """PHP's mysqli, where it is."""
        looks = ["php", "-r", "exit(extension_loaded('mysqli') ? 0 : 1);"]
        if shutil.which("php") is None or subprocess.run(looks).returncode:
            self.skipTest("there is no mysqli")
        self.drivers_kinds("php", str(CLIENTS / "kinds.php"))

    def test_kinds_by_java(self) -> None:
        """Connector/J, where it is."""
        if shutil.which("javac") is None or not os.path.exists(CONNECTOR_J):
            self.skipTest("there is no Java with Connector/J")
        self.drivers_kinds("java", "-cp", CONNECTOR_J, str(CLIENTS / "Kinds.java"),
                           at="2024-02-29 13:14:15.00006", changed="2024-02-29 01:02:03.5")

    def test_refused_login(self) -> None:
        """A client that finds no server that greets, and one that is sent away."""
        for greeting, error in ((b"", client.Gone), (b"\xff\x10\x04#08004busy", client.Refused)):
            with socket.create_server(("127.0.0.1", 0)) as listener:
                with client.Client(socket.create_connection(listener.getsockname())) as it:
                    stream, _ = listener.accept()
                    with stream:
                        stream.sendall(ms.put_packet(greeting)[0] if greeting else b"")
                        stream.shutdown(socket.SHUT_WR)
                        with self.assertRaises(error):
                            it.log_in("anyone")


# ---- The replay of a connection -----------------------------------------------------------------


class Recorder:
    """Records a connection that is put together here."""

    def __init__(self) -> None:
        self._connection = ms.Connection()
        self.streams = {side: b"" for side in Side}

    def say(self, side: Side, *payloads: bytes) -> None:
        """A side says payloads."""
        for payload in payloads:
            self.streams[side] += self._connection.put(side, payload).packets

    def send(self, side: Side, packets: bytes) -> None:
        """A side says what is framed."""
        self.streams[side] += self._connection.put_packets(side, packets)[0]

    def reply(self, *results: Tuple[Any, ...], kind: ms.ReplyKind = ms.ReplyKind.QUERY) -> None:
        """The server answers by calls of a writer."""
        with ms.ReplyWriter(kind, self._connection.capabilities) as writer:
            for name, *given in results:
                self.send(Side.SERVER, getattr(writer, name)(*given))


def recorded() -> Recorder:
    """A connection with a query, an execution, a refusal and a file."""
    it = Recorder()
    it.say(Side.SERVER, ms.put_greeting(7, "8.0.0", int(test_server.CAPABILITIES), b"12345678",
                                        b"123456789012"))
    it.say(Side.CLIENT, ms.put_login("ann", int(client.CAPABILITIES)))
    it.reply(("ok",))
    it.say(Side.CLIENT, Command.query("SELECT * FROM times"))
    it.reply(("rows", [test_server.column("n", "int")]), ("row", (1,)), ("row", (2,)),
             ("end_rows",))
    it.say(Side.CLIENT, Command.prepare(TIMES_BY_ID))
    it.reply(("prepared", 500, [test_server.column("?", "int")], [test_server.column("n", "int")]),
             kind=ms.ReplyKind.PREPARE)
    it.send(Side.CLIENT, ms.executions(TIMES_BY_ID, [(1,)], 500))
    it.reply(("rows", [test_server.column("n", "int")]), ("row", (1,)), ("end_rows",),
             kind=ms.ReplyKind.EXECUTE)
    it.say(Side.CLIENT, Command.query("SELECT * FROM secrets"))
    it.reply(("ok", 5))
    it.say(Side.CLIENT, Command.process_kill(8))
    it.reply(("ok",))
    it.say(Side.CLIENT, Command.close(500), Command.reset_statement(500))
    it.reply(("error", 1243, "HY000", "no such statement"))
    it.say(Side.CLIENT, Command.quit())
    return it


def recorded_of_two(text: str) -> Recorder:
    """A connection to a server that counts two parameters of a text, and an execution of it."""
    it = Recorder()
    it.say(Side.SERVER, ms.put_greeting(7, "8.0.0", int(test_server.CAPABILITIES), b"12345678",
                                        b"123456789012"))
    it.say(Side.CLIENT, ms.put_login("ann", int(client.CAPABILITIES)))
    it.reply(("ok",))
    it.say(Side.CLIENT, Command.prepare(text))
    it.reply(("prepared", 500, [test_server.column("?", "int")] * 2, []),
             kind=ms.ReplyKind.PREPARE)
    it.say(Side.CLIENT, Command.execute(500, (5, 7)))
    it.reply(("ok", 1), kind=ms.ReplyKind.EXECUTE)
    it.say(Side.CLIENT, Command.quit())
    return it


class ReplayOfAConnection(unittest.TestCase):
    LINES = ["0 Query SELECT * FROM times: 2 rows",
             f"1 Prepare {TIMES_BY_ID}: a statement of 1 parameters and 7 columns; recorded was "
             "a statement of 1 parameters and 1 columns",
             f"2 Execute {TIMES_BY_ID}: 1 rows",
             "3 Query SELECT * FROM secrets: error 1142; recorded was OK, 5 rows affected",
             "4 command 12: left out, it is no command for a replay",
             "5 Close: nothing",
             "6 ResetStatement: left out, its statement isn't prepared here",
             "8 commands, 2 answers differ"]

    def replay(self, streams: Mapping[Side, bytes]) -> Tuple[int, List[str]]:
        """The status of a replay, and what it prints."""
        with tempfile.TemporaryDirectory() as folder:
            paths = [os.path.join(folder, it.name) for it in Side]
            for side, path in zip(Side, paths):
                pathlib.Path(path).write_bytes(streams[side])
            with contextlib.redirect_stdout(io.StringIO()) as out, \
                    test_server.serving(ANSWERS) as port:
                command = [sys.executable, str(EXAMPLES / "replay_connection.py"), *paths,
                           f"127.0.0.1:{port}", "--user", "anyone"]
                done = subprocess.run(command, stdout=subprocess.PIPE, stderr=subprocess.PIPE,
                                      universal_newlines=True, timeout=60)
        self.assertEqual(done.stderr, "")
        self.assertIn("client 1: anyone", out.getvalue())
        return done.returncode, done.stdout.splitlines()

    def test_counts(self) -> None:
        """An execution isn't said to a server that counts another number of parameters."""
        status, lines = self.replay(recorded_of_two(TIMES_BY_ID).streams)
        self.assertEqual(status, 1)
        self.assertEqual(lines[1:], [
            f"1 Execute {TIMES_BY_ID}: left out, this server counted another number of parameters",
            "3 commands, 1 answers differ"])

    def test_answers(self) -> None:
        self.assertEqual(self.replay(recorded().streams), (1, self.LINES))

    def test_fault(self) -> None:
        """A recording with a fault is replayed up to there."""
        streams = recorded().streams
        streams[Side.CLIENT] = streams[Side.CLIENT].replace(
            ms.put_packet(Command.process_kill(8))[0], b"\1\0\0\7\x0e")
        status, lines = self.replay(streams)
        self.assertEqual((status, lines[:3]), (1, self.LINES[:3]))
        self.assertRegex(lines[-1], "^the recording can't be read further: client, byte [0-9]+: ")

    def test_recordings(self) -> None:
        """All recordings are read to their ends or to their faults."""
        folder = EXAMPLES.parent.parent.parent / "crates" / "connection_conformance" / "data"
        for path in sorted(folder.glob("*.client")):
            server = path.with_suffix(".server").read_bytes()
            recording = replay_connection.Recording(path.read_bytes(), server)
            commands: List[replay_connection.Recorded] = []
            with contextlib.suppress(ms.ConnectionFault):
                commands += recording.commands()
            events = path.with_suffix(".events").read_text().splitlines()
            prepared = sum(it.startswith("server Prepared") for it in events)
            self.assertEqual(sum(len(it.given) for it in commands), prepared, path)


if __name__ == "__main__":
    unittest.main()
