"""Tests of the test server's faults, and of recordings that it plays: `make check`."""

from __future__ import annotations

import contextlib
import io
import json
import os
import pathlib
import socket
import subprocess
import sys
import tempfile
import threading
import time
import unittest
from typing import Any, Dict, Iterator, List, Mapping, Optional, Union

EXAMPLES = pathlib.Path(__file__).resolve().parent / "examples"
sys.path.insert(0, str(EXAMPLES))

import client  # noqa: E402  (found by the line above)
import faults  # noqa: E402
import replay_connection  # noqa: E402
import replay_server  # noqa: E402
import test_server  # noqa: E402
from test_examples import ANSWERS, Recorder, recorded  # noqa: E402

import mysql_session as ms  # noqa: E402
from mysql_session import Command, Side  # noqa: E402

ROWS: Dict[str, Any] = {"columns": {"n": "bigint"}, "rows": [[1], [2], [3]]}
INTERRUPTED = {"error": 3024, "state": "HY000", "message": "interrupted"}
IDLE = {"error": 4031, "state": "HY000", "message": "inactive for too long"}


@contextlib.contextmanager
def quiet(table: Union[test_server.Table, Mapping[str, test_server.Given]]) -> Iterator[int]:
    """The port of a test server whose words aren't shown."""
    with contextlib.redirect_stdout(io.StringIO()), contextlib.redirect_stderr(io.StringIO()), \
            test_server.serving(table) as port:
        yield port


@contextlib.contextmanager
def connected(port: int, user: str = "anyone") -> Iterator[client.Client]:
    """A client that is logged in."""
    stream = socket.create_connection(("127.0.0.1", port))
    stream.settimeout(30)
    with client.Client(stream) as it:
        it.log_in(user)
        yield it


class Faults(unittest.TestCase):
    """Each fault, as a client finds it: what came before it, and how it ends."""

    def rows_before(self, fault: Mapping[str, Any], by_execution: bool = False) -> Any:
        """How many rows a client had, and what ended them."""
        with quiet({"SELECT n": {**ROWS, "fault": fault}}) as port, connected(port) as it:
            payload = Command.query("SELECT n")
            if by_execution:
                payload = Command.execute(it.prepare("SELECT n").statement)
            count = 0
            try:
                for event in it.ask(payload):
                    count += isinstance(event, ms.RowEvent)
                    if isinstance(event, ms.ErrorEvent):
                        return count, event.code
                    if isinstance(event, ms.RowsEndEvent):
                        return count, "end"
            except (client.Gone, OSError):
                pass
            return count, "cut"

    def test_in_rows(self) -> None:
        for by_execution in (False, True):
            rows: List[Any] = [
                ({}, 3, "end"), ({"rows": 2, **INTERRUPTED}, 2, 3024),
                ({"rows": 0, **INTERRUPTED}, 0, 3024), ({"cut": True}, 0, "cut"),
                ({"rows": 1, "cut": True}, 1, "cut"), ({"cut": 0}, 0, "cut"),
                ({"cut": 3}, 0, "cut"), ({"row_delay": 0.01}, 3, "end"),
                ({"row_delay": 0.01, "rows": 2, "cut": True}, 2, "cut")]
            for fault, count, end in rows:
                with self.subTest(fault=fault, by_execution=by_execution):
                    self.assertEqual(self.rows_before(fault, by_execution), (count, end))

    def test_cut_within(self) -> None:
        """Behind each count of bytes: as many rows as were whole, and never the end. The reply has 5
        bytes of a count, 27 of a column, and 6 of each row."""
        for size in range(5 + 27, 5 + 27 + 3 * 6 + 1):
            self.assertEqual(self.rows_before({"cut": size}), ((size - 32) // 6, "cut"))

    def test_delays(self) -> None:
        for fault, least in ({"delay": 0.3}, 0.3), ({"row_delay": 0.1}, 0.4):
            began = time.monotonic()
            self.assertEqual(self.rows_before(fault), (3, "end"))
            self.assertGreaterEqual(time.monotonic() - began, least)

    def test_last_words(self) -> None:
        """They come behind the answer, unasked. A client finds them in place of the next answer."""
        with quiet({"DO 1": {"affected": 2, "fault": {"last_words": IDLE}}}) as port, \
                connected(port) as it:
            [done] = it.query("DO 1")
            assert isinstance(done, ms.Ok)
            self.assertEqual(done.affected_rows, 2)
            with self.assertRaisesRegex(client.Gone, "inactive for too long"):
                it.query("DO 1")
            self.assertEqual(it.connection.reason, ms.Reason.FAREWELL)

    def test_logins(self) -> None:
        denied = {"error": 1045, "state": "28000", "message": "Access denied"}
        table: Dict[str, test_server.Given] = {
            "@login ann": denied, "@login ben": {"fault": {"cut": True}},
            "@login": {"fault": {"delay": 0.2}}, "SELECT n": ROWS}
        with quiet(table) as port:
            with self.assertRaisesRegex(client.Refused, r"^error 1045 \(28000\): Access denied$"):
                with connected(port, "ann"):
                    pass
            with self.assertRaises((client.Gone, OSError)):
                with connected(port, "ben"):
                    pass
            began = time.monotonic()
            with connected(port, "cid") as it:
                self.assertGreaterEqual(time.monotonic() - began, 0.2)
                with self.assertRaises((client.Gone, OSError)):
                    it.results(Command.change_user("ben", it.connection.capabilities))

    def test_greetings(self) -> None:
        rows: List[Any] = [
            ({"error": 1040, "message": "Too many connections"}, client.Refused, "1040"),
            ({"fault": {"cut": True}}, (client.Gone, OSError), ""),
            ({"fault": {"cut": 20}}, (client.Gone, OSError), "")]
        for given, kind, text in rows:
            with quiet({"@greeting": given}) as port, self.assertRaisesRegex(kind, text):
                with connected(port):
                    pass

    def test_several_results(self) -> None:
        table = {"CALL p()": {"results": [ROWS, {"columns": {"m": "varchar"}, "rows": [["x"]]},
                                          {"affected": 1}]}}
        with quiet(table) as port, connected(port) as it:
            first, second, done = it.query("CALL p()")
            assert isinstance(first, ms.Rows) and isinstance(second, ms.Rows)
            assert isinstance(done, ms.Ok)
            self.assertEqual((len(first.rows), second.rows, done.affected_rows),
                             (3, [(b"x",)], 1))

    def test_no_faults(self) -> None:
        for wrong in ({"delays": 1}, {"rows": 1}, INTERRUPTED, {"cut": "x"}, {"delay": "x"},
                      {"rows": 1, "error": "x"}, {"last_words": {}}, {"rows": 1, "cut": 5}):
            with self.subTest(wrong=wrong), self.assertRaises(test_server.NO_TABLE):
                test_server.Table({"a": {"fault": wrong}})
        with self.assertRaises(test_server.NO_TABLE):
            test_server.Table({"a": {"results": []}})

    def test_end(self) -> None:
        """The server ends though clients are connected: idle, within a delay, before a login."""
        began = time.monotonic()
        with quiet({"SELECT n": {**ROWS, "fault": {"delay": 60}}}) as port:
            idle, waiting, silent = (socket.create_connection(("127.0.0.1", port))
                                     for _ in range(3))
            with client.Client(idle) as one, client.Client(waiting) as other:
                one.log_in("ann")
                other.log_in("ann")
                found: List[Any] = []

                def ask() -> None:
                    try:
                        waiting.sendall(b"\x09\0\0\0\x03SELECT n")
                        found.append(waiting.recv(1000))
                    except OSError as error:
                        found.append(error)

                thread = threading.Thread(target=ask)
                thread.start()
                time.sleep(0.2)
        # The clients are closed above; the server didn't wait for its delay.
        thread.join(10)
        self.assertLess(time.monotonic() - began, 20)
        silent.close()

    def test_end_within(self) -> None:
        """It ends its own side: a client that is still there finds the end of the stream."""
        with quiet({}) as port:
            stream = socket.create_connection(("127.0.0.1", port))
            it = client.Client(stream)
            it.log_in("ann")
        stream.settimeout(10)
        self.assertEqual(stream.recv(1000), b"")
        it.close()


def played(table: Recorder, more: Optional[Mapping[str, Any]] = None) -> replay_server.Recorded:
    """The recording's answers, with more faults."""
    return replay_server.Recorded(table.streams[Side.CLIENT], table.streams[Side.SERVER], more)


def in_words(answer: test_server.Answer) -> str:
    """A result as `replay_connection` has it."""
    if isinstance(answer, test_server.Rows):
        return f"{len(answer.rows)} rows"
    if isinstance(answer, test_server.Done):
        return f"OK, {answer.affected} rows affected"
    return f"error {answer.error}"


class Recordings(unittest.TestCase):
    """A recording is played to a client as it was recorded."""

    def test_answers(self) -> None:
        with quiet(played(recorded())) as port, connected(port) as it:
            [rows] = it.query("SELECT * FROM times")
            assert isinstance(rows, ms.Rows)
            self.assertEqual(([it.name for it in rows.columns], rows.rows), ([b"n"], [(b"1",), (b"2",)]))
            [done] = it.query("SELECT * FROM secrets")
            assert isinstance(done, ms.Ok)
            self.assertEqual(done.affected_rows, 5)
            text = "SELECT * FROM times WHERE id = ?"
            statement = it.prepare(text)
            self.assertEqual((len(statement.params), [it.name for it in statement.columns]),
                             (1, [b"n"]))
            found = [results[0] for results in it.execute(text, statement.statement, [(1,), (2,)])]
            assert isinstance(found[0], ms.Rows) and isinstance(found[1], ms.ServerError)
            self.assertEqual((found[0].rows, found[1].code), ([(1,)], 1064))
            [error] = it.query("SELECT 5")
            assert isinstance(error, ms.ServerError)
            self.assertEqual(error.code, 1064)

    def record(self, *replies: Any, end: bytes = b"") -> Recorder:
        """A recording of one query, which was answered so."""
        it = Recorder()
        it.say(Side.SERVER, ms.put_greeting(7, "9.7.4", int(test_server.CAPABILITIES), b"12345678",
                                            b"123456789012"))
        it.say(Side.CLIENT, ms.put_login("ann", int(client.CAPABILITIES)))
        it.reply(("ok",))
        for reply in replies:
            it.say(Side.CLIENT, Command.query("SELECT n"))
            it.reply(*reply)
        it.streams[Side.SERVER] += end
        return it

    COLUMNS = ("rows", [test_server.column("n", "int")])

    def test_order(self) -> None:
        """What was asked several times is answered in order, to each client from the beginning."""
        recording = self.record(*([self.COLUMNS, ("row", (it,)), ("end_rows", 3, 2)]
                                  for it in range(3)))
        with quiet(played(recording)) as port:
            for _ in range(2):
                with connected(port) as it:
                    found = []
                    for _ in range(4):
                        [rows] = it.query("SELECT n")
                        assert isinstance(rows, ms.Rows)
                        found.append((rows.rows, rows.status, rows.warnings))
                self.assertEqual(found, [([(b"%d" % it,)], 3, 2) for it in (0, 1, 2, 2)])

    def test_recorded_faults(self) -> None:
        broken = self.record([self.COLUMNS, ("row", (1,)), ("error", 3024, "HY000", "interrupted")])
        whole = self.record([self.COLUMNS, ("row", (1,)), ("row", (2,)), ("end_rows",)])
        words = self.record([("ok", 4)], end=ms.put_packet(
            b"\xff\xbf\x0f#HY000inactive for too long")[0])
        cut = self.record([self.COLUMNS, ("row", (1,)), ("row", (2,)), ("end_rows",)])
        cut.streams[Side.SERVER] = cut.streams[Side.SERVER][:-12]
        none = self.record([("ok",)])
        none.streams[Side.SERVER] = none.streams[Side.SERVER][:-5]
        rows: List[Any] = [
            (broken, None, ["ColumnCount", "Column", "Row", "Error"]),
            (whole, None, ["ColumnCount", "Column", "Row", "Row", "RowsEnd"]),
            (whole, {"select N": {"rows": 1, "cut": True}}, ["ColumnCount", "Column", "Row", "gone"]),
            (whole, {"SELECT n": {"rows": 1, **INTERRUPTED}}, ["ColumnCount", "Column", "Row", "Error"]),
            (words, None, ["Ok", "gone"]), (cut, None, ["ColumnCount", "Column", "Row", "gone"]),
            (none, None, ["gone"])]
        for recording, more, wanted in rows:
            with quiet(played(recording, more)) as port, connected(port) as it:
                found: List[str] = []
                try:
                    found += (event.name for event in it.ask(Command.query("SELECT n")))
                    if "Error" not in found:
                        it.query("SELECT n")
                except (client.Gone, OSError):
                    found.append("gone")
                if wanted[-1] != "gone":
                    found = [it for it in found if it != "gone"]
                self.assertEqual(found, wanted)

    def test_refused(self) -> None:
        """A recorded login that was refused, and a greeting that was an error."""
        it = Recorder()
        it.say(Side.SERVER, ms.put_greeting(7, "9.7.4", int(test_server.CAPABILITIES), b"12345678",
                                            b"123456789012"))
        it.say(Side.CLIENT, ms.put_login("ann", int(client.CAPABILITIES)))
        it.say(Side.SERVER, b"\xff\x15\x04#28000denied")
        busy = Recorder()
        busy.say(Side.SERVER, b"\xff\x10\x04Too many connections")
        for recording, text in (it, r"1045 \(28000\): denied"), (busy, "1040"):
            with quiet(played(recording)) as port, self.assertRaisesRegex(client.Refused, text):
                with connected(port):
                    pass

    def test_all_recordings(self) -> None:
        """Each recording can be played, and its first query is answered as it was recorded."""
        folder = EXAMPLES.parent.parent.parent / "crates" / "connection_conformance" / "data"
        answered = 0
        for path in sorted(folder.glob("*.client")):
            streams = path.read_bytes(), path.with_suffix(".server").read_bytes()
            table, asked = replay_server.Recorded(*streams), set()
            with contextlib.suppress(ms.ConnectionFault):
                for it in replay_connection.Recording(*streams).commands():
                    if not isinstance(it.event, ms.QueryEvent) or it.event.text in asked:
                        continue
                    asked.add(it.event.text)
                    found = table.answer(it.event.text)
                    if found is None:
                        # Files that a server asks for are left out.
                        self.assertIn("asks for", str(it.answers), path)
                    elif it.answers.words and found.fault == faults.NO_FAULT:
                        self.assertEqual([in_words(it) for it in found.results], it.answers.words, path)
                        answered += 1
        self.assertGreater(answered, 200)

    def test_program(self) -> None:
        it = self.record([self.COLUMNS, ("row", (1,)), ("end_rows",)])
        with tempfile.TemporaryDirectory() as room:
            paths = [os.path.join(room, side.name) for side in Side]
            for side, path in zip(Side, paths):
                pathlib.Path(path).write_bytes(it.streams[side])
            told = os.path.join(room, "faults.json")
            pathlib.Path(told).write_text(json.dumps({"SELECT n": {"rows": 0, **INTERRUPTED}}))
            words = [sys.executable, str(EXAMPLES / "replay_server.py"), *paths, "--clients", "1",
                     "--faults", told]
            with subprocess.Popen(words, stdout=subprocess.PIPE) as process:
                assert process.stdout is not None
                port = int(process.stdout.readline().split()[-1])
                with connected(port) as one:
                    [error] = one.query("SELECT n")[-1:]
                process.stdout.read()
                self.assertEqual(process.wait(30), 0)
            assert isinstance(error, ms.ServerError)
            self.assertEqual(error.code, 3024)
            pathlib.Path(told).write_text(json.dumps({"SELECT n": {"row": 0}}))
            done = subprocess.run(words, stdout=subprocess.PIPE, stderr=subprocess.PIPE, timeout=60)
        self.assertEqual((done.returncode, done.stdout), (2, b""))
        self.assertIn(b"can't be played", done.stderr)


if __name__ == "__main__":
    unittest.main()
