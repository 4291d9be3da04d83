"""The clients in Rust, at servers that say what they are told here.

    told.py EXAMPLES

EXAMPLES is the folder of the built examples. The replication reader reads a log of a server in
ANSI_QUOTES, and the blocking client prints dates and durations of executions as a server's texts.
"""

import datetime
import os
import socket
import subprocess
import sys
import threading

HERE = os.path.dirname(os.path.abspath(__file__))
sys.dont_write_bytecode = True
sys.path[:0] = [os.path.dirname(HERE), os.path.join(os.path.dirname(HERE), "python", "examples")]

import client  # noqa: E402  (found by the line above)

import mysql_session as ms  # noqa: E402
from mysql_session import Capability, Column, ColumnType, Side  # noqa: E402
from testing.support import compare  # noqa: E402

CAPABILITIES = int(Capability.LONG_PASSWORD | Capability.PROTOCOL_41 | Capability.TRANSACTIONS
                   | Capability.SECURE_CONNECTION | Capability.PLUGIN_AUTH
                   | Capability.DEPRECATE_EOF)
SCRAMBLE = b"12345678123456789012"
STATUS = int(ms.Status.AUTOCOMMIT | ms.Status.ANSI_QUOTES)
OK = b"\0\0\0" + STATUS.to_bytes(2, "little") + b"\0\0"
# The same with the session's mode and character set, as a server tells them that is asked.
MODE = b"\x08sql_mode\x0bANSI_QUOTES\x14character_set_client\x07utf8mb4"
OK_WITH_MODE = (b"\0\0\0" + (STATUS | ms.Status.SESSION_STATE_CHANGED).to_bytes(2, "little")
                + b"\0\0\0" + bytes([len(MODE) + 2, ms.StateType.SYSTEM_VARIABLES, len(MODE)]) + MODE)
REGISTER, DUMP, DUMP_GTID = 0x15, 0x12, 0x1e
BINARY = 63


class Server:
    """A server for one client, in a thread. `said` has what it heard, `asked` the questions for the
    mode."""

    CAPABILITIES = CAPABILITIES

    def __init__(self):
        self.said, self.asked, self.connection = [], [], ms.Connection()
        self._listener = socket.create_server(("127.0.0.1", 0))
        self.address = "127.0.0.1:%d" % self._listener.getsockname()[1]
        self._thread = threading.Thread(target=self._serve)
        self._thread.start()

    def run(self, program, *words):
        """Runs a client of the server, and returns what it prints."""
        environment = {**os.environ, "MYSQL_PASSWORD": "secret"}
        ran = subprocess.run([program, self.address, "ann", *words], env=environment, timeout=60,
                             stdin=subprocess.DEVNULL, stdout=subprocess.PIPE,
                             stderr=subprocess.STDOUT, text=True, encoding="utf-8")
        self._thread.join()
        self._listener.close()
        compare((ran.returncode, ran.stdout[:200]), (0, ran.stdout[:200]))
        return ran.stdout

    def put(self, payload):
        """Says a payload."""
        self.stream.sendall(self.connection.put(Side.SERVER, payload).packets)

    def put_reply(self, packets):
        """Says what a writer wrote."""
        self.stream.sendall(self.connection.put_packets(Side.SERVER, packets)[0])

    def _serve(self):
        self.connection = ms.Connection()
        self.stream, _ = self._listener.accept()
        with self.stream:
            self.put(ms.put_greeting(7, "5.5.5-10.11.0-MariaDB", self.CAPABILITIES,
                                     SCRAMBLE[:8], SCRAMBLE[8:], status=STATUS))
            while self.connection.reason is None:
                piece = self.stream.recv(1 << 16)
                if not piece:
                    break
                for event in self.connection.feed(Side.CLIENT, piece):
                    self._answer(event)

    def _answer(self, event):
        if isinstance(event, ms.LoginEvent):
            compare(event.response, client.native(b"secret", SCRAMBLE))
            self.put(OK)
        elif not isinstance(event, (ms.QuitEvent, ms.CloseEvent)):
            self.answer(event)


class Log(Server):
    """A MariaDB with a binary log of three events."""

    CAPABILITIES = CAPABILITIES & ~int(Capability.LONG_PASSWORD)

    def answer(self, event):
        """Answers what a replica says."""
        if isinstance(event, ms.QueryEvent):
            self.said.append(event.text)
            self.put(OK)
        elif event.number == REGISTER:
            self.put(OK)
        elif event.number in (DUMP, DUMP_GTID):
            self.said.append(event.number)
            events = [self.event(kind, place) for place, kind in enumerate((4, 15, 2))]
            self.put(events[0])
            # For the connection this is the end. What follows goes on in another form.
            packets, number = b"", 2
            for payload in (*events[1:], b"\xfe\0\0" + STATUS.to_bytes(2, "little")):
                packet, number = ms.put_packet(payload, number)
                packets += packet
            self.stream.sendall(packets)

    @staticmethod
    def event(kind, place):
        """An event of this type, by its number."""
        return b"\0" + b"".join(it.to_bytes(size, "little") for it, size in
                                ((9, 4), (kind, 1), (1, 4), (19, 4), (4 + 19 * place, 4), (0, 2)))


class MySQLLog(Log):
    """The same of a MySQL."""

    CAPABILITIES = CAPABILITIES


class Times(Server):
    """A server that executes a statement whose row has dates and durations. It tells the mode."""

    CAPABILITIES = CAPABILITIES | int(Capability.SESSION_TRACK)
    COLUMNS = [Column(b"day", ColumnType.DATE, charset=BINARY),
               Column(b"at", ColumnType.DATETIME, charset=BINARY),
               Column(b"late", ColumnType.DATETIME, charset=BINARY, decimals=3),
               Column(b"none", ColumnType.TIMESTAMP, charset=BINARY, decimals=6),
               Column(b"any", ColumnType.DATETIME, charset=BINARY, decimals=31),
               Column(b"took", ColumnType.TIME, charset=BINARY),
               Column(b"back", ColumnType.TIME, charset=BINARY, decimals=2)]
    MIDNIGHT = datetime.datetime(2024, 2, 29)
    ROW = [MIDNIGHT.date(), MIDNIGHT, MIDNIGHT.replace(microsecond=500000), MIDNIGHT,
           MIDNIGHT.replace(microsecond=7), datetime.timedelta(days=34, hours=22, minutes=59),
           -datetime.timedelta(hours=30, seconds=1.5)]

    def answer(self, event):
        """Answers the question for the mode, the statement and its execution."""
        if isinstance(event, ms.QueryEvent):
            self.asked.append(event.text)
            self.put(OK_WITH_MODE)
            return
        kind = (ms.ReplyKind.PREPARE if isinstance(event, ms.PrepareEvent)
                else ms.ReplyKind.EXECUTE)
        self.said.append(event.text)
        with ms.ReplyWriter(kind, self.connection.capabilities) as it:
            if kind == ms.ReplyKind.PREPARE:
                self.put_reply(it.prepared(1, [Column(b"?", ColumnType.LONG)], self.COLUMNS))
            else:
                self.put_reply(it.rows(self.COLUMNS) + it.row(self.ROW) + it.end_rows())


def test_log(program):
    """The reader's lines, and the queries before them: they are alike in each mode."""
    line = "%s: time 9, type %d, server 1, size 19, next position %d, flags 0\n"
    wanted = [line % it for it in (("ROTATE_EVENT", 4, 4), ("FORMAT_DESCRIPTION_EVENT", 15, 23),
                                   ("QUERY_EVENT", 2, 42))]
    for words, count in (((), 3), (("--events", "2"), 2), (("--events", "0"), 0)):
        server = Log()
        compare(server.run(program, "--gtid", "0-1-42", *words),
                "".join(wanted[:count]) + f"{count} events\n")
        compare(server.said, [b"SET @master_binlog_checksum = @@global.binlog_checksum",
                              b"SET @mariadb_slave_capability = 4",
                              b"SET @slave_connect_state = _utf8mb4 0x302D312D3432", DUMP])
    source = "3e11fa47-71ca-11e1-9e33-c80aa9429562"
    for words, command in ((("--gtid", f"{source}:1-5:tag:1-3"), DUMP_GTID), (("--first",), DUMP),
                           (("--file", "binlog.000001", "--position", "4"), DUMP)):
        server = MySQLLog()
        compare(server.run(program, *words), "".join(wanted) + "3 events\n")
        compare(server.said, [b"SET @master_binlog_checksum = @@global.binlog_checksum",
                              b"SET @source_binlog_checksum = @@global.binlog_checksum", command])


def test_times(program):
    """The row of an execution. In ANSI_QUOTES, which is told, the statement has one placeholder,
    else none."""
    query, server = r'SELECT "a\", ?', Times()
    said = server.run(program, "shop", query, "1")
    compare(said, "day\tat\tlate\tnone\tany\ttook\tback\n2024-02-29\t2024-02-29 00:00:00\t"
            "2024-02-29 00:00:00.500\t2024-02-29 00:00:00.000000\t2024-02-29 00:00:00.000007\t"
            "838:59:00\t-30:00:01.50\n1 row\n")
    compare(server.said, [query.encode()] * 2)
    # Once: behind the login.
    compare(server.asked, [ms.ASK_SESSION_MODE])


def main():
    test_log(os.path.join(sys.argv[1], "replication_reader"))
    test_times(os.path.join(sys.argv[1], "blocking_client"))


if __name__ == "__main__":
    main()
