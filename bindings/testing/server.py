"""The examples of the bindings, differential tests and odd commands, against servers of their own.

`bindings/test --server` calls `test_servers`. It takes each server that `tools/servers` has set up,
and this machine's MariaDB where there is none of these. A step says whose rule it shows: that of
MySQL and MariaDB, or that of MariaDB alone; it runs at the servers of those. Everything that is
started here is stopped by its process id, in any case.
"""

import contextlib
import csv
import functools
import os
import pwd
import re
import resource
import socket
import subprocess
import sys
import time
from typing import NamedTuple

from .audit_clients import check_defaults
from .audited import test_audited
from .auditing import has_tls
from .by_hand import Client as ByHand
from .proxied import test_proxied
from .replayed import test_replayed
from .support import (BINDINGS, BOTH, C99, Failure, MARIADB, MARIADBS, MYSQL, ROOT, archive_in,
                      compare, has, python_environment, run, rust_environment, tell)

SERVER_PACKAGES = {"mariadb": "mariadb-client", "mariadb_config": "libmariadb-dev"}
SERVERS = os.path.join(ROOT, "tools", "servers")

USER, DATABASE = "tester", "bindings"
# As many commands look for a way past the audit.
COMMANDS = 3000
WAIT_SECONDS = 60
FIRST_SECONDS = 240
# More than a batch holds, so that several requests are sent.
ROWS = 12345
RECORDINGS = os.path.join(ROOT, "crates", "connection_conformance", "data")
# The parts of the differential tests, how much of each, and whose rules they show.
DIFFERENTIAL = {"parameters": (3000, BOTH), "injection": (3000, BOTH), "types": (3000, BOTH),
                "bytes": (10000, BOTH), "sessions": (2000, BOTH), "commands": (2000, BOTH)}
# Recorded connections that need no more than a server.
WHOLE_RECORDINGS = ("c-direct", "perl-execute", "java-bulk", "ruby-text", "php-pdo-text",
                    "go-long-data", "load_data_by_execution", "types_in_force")
# A table of the test server.
TABLE = """{
    "SELECT * FROM times": {
        "columns": {"id": "bigint", "day": "date", "at": "datetime", "took": "time"},
        "rows": [[1, "2024-02-29", "2024-02-29T13:14:15.000060", "-30:00:01.5"],
                 [2, null, null, null]]},
    "SELECT * FROM secrets": {"error": 1142, "state": "42000", "message": "SELECT is denied"}
}"""
# The address space that the loader may take, whatever the file's size.
LOADER_BYTES = 32 << 20


def free_port():
    """Returns a port that nothing listens at."""
    with socket.socket() as it:
        it.bind(("127.0.0.1", 0))
        return it.getsockname()[1]


def greets(port):
    """Returns whether a server greets at the port."""
    with socket.socket() as it:
        it.settimeout(2)
        try:
            it.connect(("127.0.0.1", port))
            return it.recv(5)[4:] == b"\x0a"
        except OSError:
            return False


def wait_for(what, is_there, process, log):
    """Waits until something is there. A process that ends before that has failed."""
    end = time.monotonic() + WAIT_SECONDS
    while not is_there():
        if process.poll() is not None or time.monotonic() > end:
            with open(log, encoding="utf-8", errors="replace") as it:
                raise Failure(f"{what} isn't there\n{it.read()[-3000:]}")
        time.sleep(0.05)


class Started:
    """A process that runs within a `with`; what it prints goes to a file."""

    def __init__(self, words, log, **how):
        self.log = log
        with open(log, "wb") as out:
            self.process = subprocess.Popen(words, stdout=out, stderr=subprocess.STDOUT,
                                            **{"stdin": subprocess.DEVNULL, **how})

    def __enter__(self):
        return self

    def __exit__(self, *_):
        self.process.terminate()
        try:
            self.process.wait(WAIT_SECONDS)
        except subprocess.TimeoutExpired:
            self.process.kill()
            self.process.wait()

    def said(self):
        """Returns what it has printed."""
        with open(self.log, encoding="utf-8", errors="replace") as it:
            return it.read()

    def wait_until(self, is_said, what="what it is to print"):
        """Waits until this holds of what it has printed."""
        wait_for(what, lambda: is_said(self.said()), self.process, self.log)

    def wait_for(self, pattern):
        """Waits until it has printed what matches, and returns the match."""
        self.wait_until(lambda said: re.search(pattern, said, re.M), f"a line {pattern}")
        return re.search(pattern, self.said(), re.M)


class Kind(NamedTuple):
    """A server that is there: its name, whose it is, and what runs a program of it that sees a
    folder."""

    name: str
    product: str
    entered: object


def servers_there():
    """The servers that `tools/servers` has set up, or this machine's MariaDB. Servers that only
    root can run are named, and left out for another."""
    names = re.findall(r"^(\S+): (?!not set up)", run([SERVERS, "list"]), re.M)
    if names and os.geteuid() != 0:
        print(f"left out: {', '.join(names)}, which root can run", flush=True)
    elif names:
        enter = lambda name: lambda room: [SERVERS, "run", name, room]
        return [Kind(it, MYSQL if it.startswith("mysql") else MARIADB, enter(it)) for it in names]
    if has("mariadbd", "mariadb-install-db"):
        return [Kind("this machine's MariaDB", MARIADB, lambda room: [])]
    raise Failure("no server is there: run tools/servers start, or apt-get install mariadb-server")


def own_words(kind, user, room):
    """How a server's tables are made, and how it is started with them."""
    data = f"--datadir={room}/data"
    if kind.product == MYSQL:
        return (["mysqld", "--no-defaults", data, user, "--initialize-insecure"],
                ["mysqld", "--mysqlx=OFF", "--performance-schema=OFF"])
    return (["mariadb-install-db", "--no-defaults", data, user, "--skip-test-db", "--force",
             "--auth-root-authentication-method=normal"], ["mariadbd"])


@contextlib.contextmanager
def running(kind, room, *options):
    """Runs a server in its own folder, with binary logging and a user without a password; by
    itself without TLS."""
    os.makedirs(room, exist_ok=True)
    first, enter = os.path.join(room, "first.sql"), kind.entered(room)
    with open(first, "w", encoding="utf-8") as it:
        it.write(f"CREATE USER {USER}@'127.0.0.1';\nGRANT ALL ON *.* TO {USER}@'127.0.0.1' WITH "
                 f"GRANT OPTION;\n"
                 f"CREATE DATABASE {DATABASE};\n")
    user = f"--user={pwd.getpwuid(os.geteuid()).pw_name}"
    tables, (program, *more) = own_words(kind, user, room)
    run([*enter, *tables], timeout=FIRST_SECONDS)
    port = free_port()
    without_tls = ["--tls-version="] if kind.product == MYSQL else ["--skip-ssl"]
    if any(it.startswith("--ssl") for it in options):
        without_tls = []
    words = [*enter, program, "--no-defaults", f"--datadir={room}/data", user, *more,
             f"--socket={room}/socket", f"--port={port}", "--bind-address=127.0.0.1",
             "--skip-name-resolve", f"--pid-file={room}/pid", f"--log-bin={room}/data/binlog",
             "--binlog-format=ROW", "--server-id=1", "--character-set-server=utf8mb4",
             "--innodb-buffer-pool-size=64M", "--local-infile=1", f"--init-file={first}",
             *without_tls, *options]
    with Started(words, os.path.join(room, "server.log")) as server:
        wait_for("the server", lambda: greets(port), server.process, server.log)
        yield port


class Tests:
    """The examples against the server at a port. What is built is for all servers."""

    def __init__(self, room, library, port, kind, built):
        self.room, self.library, self.port, self.kind = room, library, port, kind
        self.built, self.python = built, python_environment(library)

    def run(self, report, name, products, test, *given):
        """Runs a step that shows a rule of this server, or of clients alone, and says whose."""
        if self.kind.product in products or not products:
            of = f"a rule of {' and '.join(products)}" if products else "a rule of clients"
            report.run(f"{self.kind.name}: {name}, {of}", test, *given)

    # What is run.

    @property
    def version(self):
        """The version that the server greets with."""
        with ByHand(self.port, USER, DATABASE) as it:
            return it.version

    def sql(self, text, port=None, options=("--skip-ssl",), **how):
        """Returns the rows that the `mariadb` client prints, each a list of its cells."""
        words = ["mariadb", "--no-defaults", "--host=127.0.0.1", f"--user={USER}",
                 f"--port={port or self.port}", "--batch", "--skip-column-names", *options,
                 "--default-character-set=utf8mb4", DATABASE, f"--execute={text}"]
        return [line.split("\t") for line in run(words, **how).splitlines()]

    def pymysql(self, text, port):
        """Runs a program over PyMySQL's connection `it`, and returns what it prints."""
        program = (f"import pymysql\nit = pymysql.connect(host='127.0.0.1', port={port}, "
                   f"user='{USER}', database='{DATABASE}', charset='utf8mb4', autocommit=True)\n"
                   f"cursor = it.cursor()\n{text}\nit.close()\n")
        return run([pymysql_python(), "-c", program])

    def file(self, name):
        """Returns the path of a file of the test's own."""
        return os.path.join(self.room, name)

    def rust_example(self, name):
        """Returns the file of an example in Rust, which is built."""
        folder = os.path.join(BINDINGS, "rust")
        run(["cargo", "build", "--offline", "--quiet", "--example", name], cwd=folder,
            env=rust_environment(self.library, self.built))
        return os.path.join(self.built, "target", "debug", "examples", name)

    def c_client(self):
        """Returns the file of the client by MariaDB's own library, which is built."""
        made = os.path.join(self.built, "prepared_client")
        if not os.path.exists(made):
            source = os.path.join(BINDINGS, "c", "tests", "server", "prepared_client.c")
            run([*C99, "-isystem", "/usr/include/mariadb", source, "-lmariadb", "-o", made])
        return made

    def rows_of(self, table, columns, port=None):
        """Returns a table's rows by their first column, cells as hexadecimal digits, NULL as -."""
        cells = ", ".join(f"IFNULL(HEX(CAST(`{it}` AS CHAR)), '-')" for it in columns)
        return self.sql(f"SELECT {cells} FROM {table} ORDER BY `{columns[0]}`", port)

    # The bulk loader.

    def loader(self):
        """Returns the loader's file, which is built."""
        made = os.path.join(self.built, "bulk_load")
        if not os.path.exists(made):
            source = os.path.join(BINDINGS, "c", "examples", "bulk_load.c")
            run([*C99, "-O2", source, archive_in(self.library), "-o", made])
        return made

    def load(self, table, name, **how):
        """Runs the loader, and returns what it prints."""
        return run([self.loader(), "127.0.0.1", str(self.port), USER, DATABASE, table,
                    self.file(name)], **how)

    def bulk_load(self):
        """What the table holds is what the file says."""
        self.sql("CREATE TABLE loaded (id INT PRIMARY KEY, `na``me?` VARCHAR(99), note TEXT)")
        rows = [csv_row(number) for number in range(ROWS)]
        write_csv(self.file("rows.csv"), ["id", "na`me?", "note"], rows)
        said = self.load("loaded", "rows.csv")
        if not re.fullmatch(rf"{ROWS} rows in [0-9.]+ seconds, [0-9]+ rows per second\n", said):
            raise Failure(f"it prints {said}")
        found = self.sql("SELECT IFNULL(HEX(id), '-'), IFNULL(HEX(`na``me?`), '-'), "
                         "IFNULL(HEX(note), '-') FROM loaded ORDER BY id")
        compare(found, [[f"{number:X}", hex_of(name), hex_of(note)] for number, name, note in rows])

    def bulk_load_refused(self):
        """A row of another width, or that the server refuses, is told, and nothing is loaded."""
        self.sql("CREATE TABLE refused (id INT PRIMARY KEY, name VARCHAR(9) NOT NULL)")
        lines = "id,name\r\n" + "".join(f"{it},x\r\n" for it in range(6000))
        cases = {'0,"a\nb"\n7,x,y\n': "line 6004: 3 fields in place of 2",
                 "7000,x\n7001,\n": "the server refuses: Column 'name' cannot be null",
                 '7000,"x\n': "line 6002: the quotes of a field aren't closed",
                 '7000,x"y"\n': "line 6002: a quote stands inside a field without quotes",
                 '7000,"x"y\n': "line 6002: neither a comma nor a line break stands behind a field",
                 f"7000,{'x' * (17 << 20)}\n": "the row of line 6002: "}
        for text, why in cases.items():
            with open(self.file("bad.csv"), "w", encoding="utf-8", newline="") as it:
                it.write(lines + text)
            said = self.load("refused", "bad.csv", status=1)
            if why not in said:
                raise Failure(f"it prints {said} and not {why}")
            compare(self.sql("SELECT COUNT(*) FROM refused"), [["0"]])

    def bulk_load_memory(self):
        """A file of ten times the size takes no more memory."""
        self.sql("CREATE TABLE many (id INT PRIMARY KEY, name VARCHAR(99), note TEXT)")
        rows = [csv_row(number) for number in range(20 * ROWS)]
        write_csv(self.file("many.csv"), ["id", "name", "note"], rows)
        words = [self.loader(), "127.0.0.1", str(self.port), USER, DATABASE, "many",
                 self.file("many.csv")]
        before = resource.getrlimit(resource.RLIMIT_AS)
        limit = lambda: resource.setrlimit(resource.RLIMIT_AS, (LOADER_BYTES, before[1]))
        print("  " + run(words, preexec_fn=limit).strip(), flush=True)
        compare(self.sql("SELECT COUNT(*) FROM many"), [[str(len(rows))]])

    def bulk_load_valgrind(self):
        """No read past a buffer, no leak."""
        self.sql("CREATE TABLE watched (id INT PRIMARY KEY, name VARCHAR(99), note TEXT)")
        rows = [csv_row(number) for number in range(300)]
        write_csv(self.file("watched.csv"), ["id", "name", "note"], rows)
        run(["valgrind", "--quiet", "--error-exitcode=9", "--leak-check=full", self.loader(),
             "127.0.0.1", str(self.port), USER, DATABASE, "watched", self.file("watched.csv")])
        compare(self.sql("SELECT COUNT(*) FROM watched"), [["300"]])

    # The auditing proxy.

    @property
    def audit(self):
        """The file of `mysql-audit`, which is built before."""
        program = os.path.join(self.built, "target", "release", "mysql-audit")
        if not os.path.exists(program):
            raise Failure("the audit isn't built")
        return program

    @contextlib.contextmanager
    def proxy(self, log, *options):
        """Runs the proxy, and gives it with the port that it listens at."""
        words = [self.audit, "127.0.0.1:0", f"127.0.0.1:{self.port}", "--on-fault", "pass", *options]
        with Started(words, self.file(log)) as it:
            yield it, int(it.wait_for(r"^listening at .*:([0-9]+)$")[1])

    def proxy_statements(self):
        """Prepared statements: executions, long data and a bulk by MariaDB's own library, and
        executions and a bulk by this one."""
        self.sql("CREATE TABLE prepared (id INT, name VARCHAR(99))")
        query = "INSERT INTO prepared VALUES (?, ?)"
        stream = text_query("INSERT INTO prepared VALUES (6, NULL)")
        with self.proxy("proxy_statements.log") as (proxy, port):
            run([self.c_client(), "127.0.0.1", str(port), USER, DATABASE, "insert", "prepared"])
            for road in ("execute", "bulk"):
                self.replay(stream, query, "--road", road, port=port)
            proxy.wait_until(lambda said: said.count(" end by=") == 3)
            found = re.findall(r"execute statement=[0-9]+: (.*) -> (.*) \([^()]* bytes\)$",
                               proxy.said(), re.M)
        wanted = [*((f"[{it}]", "1 row affected") for it in ("1, 'it\\'s'", "NULL, ''",
                                                            "3, 'long data'")),
                  ("[[4, 'bulk'], [5, '']]", "2 rows affected"),
                  ("[6, NULL]", "1 row affected"), ("[[6, NULL]]", "1 row affected")]
        compare(found, [(f"{query} {values}", result) for values, result in wanted])
        compare(self.sql("SELECT IFNULL(id, '-'), HEX(name) FROM prepared"),
                [["1", hex_of("it's")], ["-", ""], ["3", hex_of("long data")],
                 ["4", hex_of("bulk")], ["5", ""], ["6", "NULL"], ["6", "NULL"]])

    def proxy_rows(self):
        """Rows that are read through the proxy are those of the server."""
        query = "SELECT seq, REPEAT('x', seq) FROM seq_1_to_2000"
        with self.proxy("proxy_rows.log") as (_, port):
            compare(self.sql(query, port), self.sql(query))

    # The capture reader.

    def captured(self):
        """What tcpdump captures of a client is read, while it is captured and from its file."""
        reader = os.path.join(BINDINGS, "python", "examples", "read_capture.py")
        capture, live = self.file("captured.pcap"), self.file("captured.txt")
        words = ["tcpdump", "-i", "lo", "-U", "-w", "-", "port", str(self.port)]
        with contextlib.ExitStack() as stack:
            pipe = {"stdout": subprocess.PIPE}
            tcpdump = stack.enter_context(subprocess.Popen(words, stderr=subprocess.PIPE, **pipe))
            tee = stack.enter_context(subprocess.Popen(["tee", capture], stdin=tcpdump.stdout,
                                                       **pipe))
            reading = stack.enter_context(Started([sys.executable, reader, "-"], live,
                                                  stdin=tee.stdout, env=self.python))
            tcpdump.stderr.readline()
            self.pymysql("cursor.execute('SELECT 1, %s', ('captured',))\ntry:\n"
                         "    cursor.execute('SELECT captured')\n"
                         "except pymysql.err.OperationalError:\n    pass", self.port)
            reading.wait_for(r"over quit$")
            tcpdump.terminate()
            reading.process.wait(WAIT_SECONDS)
        said = run([sys.executable, reader, capture], env=self.python)
        compare(reading.said(), said)
        texts = re.findall(r" #1 (client Query|server Row|server Error) (.*)$", said, re.M)
        wanted = [("client Query", "text=\"SELECT 1, 'captured'\""),
                  ("server Row", "cells=['1', 'captured']"),
                  ("client Query", "text='SELECT captured'")]
        compare([it for it in texts if "captured" in it[1]][:3], wanted)

    # The replay tool.

    def replay(self, stream, query, *words, port=None, **how):
        """Runs the replay tool over a stream, and returns what it prints."""
        with open(self.file("stream"), "wb") as it:
            it.write(stream)
        return run(["python3", os.path.join(BINDINGS, "python", "examples", "replay.py"),
                    self.file("stream"), f"127.0.0.1:{port or self.port}", "--user", USER,
                    "--database", DATABASE, "--query", query, *words], env=self.python, **how)

    def roads(self):
        """The methods that the server takes."""
        return ("text", "execute", "bulk") if self.kind.product == MARIADB else ("text", "execute")

    def replays(self):
        """By each method the table holds what the stream carries."""
        query = "INSERT INTO replayed VALUES (?, ?)"
        stream = b"".join(text_query(query.replace("?, ?", it)) for it in
                          ("1, 'it\\'s'", "2, NULL", "3, 0x6d617465", "4, ''"))
        self.sql("CREATE TABLE replayed (id INT PRIMARY KEY, name VARCHAR(99))")
        for road in self.roads():
            self.sql("TRUNCATE replayed")
            said = self.replay(stream, query, "--road", road)
            if not said.endswith("the recorded stream ends: whole\n"):
                raise Failure(f"by {road} it prints {said}")
            compare(self.sql("SELECT id, IFNULL(HEX(name), '-') FROM replayed ORDER BY id"),
                    [["1", hex_of("it's")], ["2", "-"], ["3", hex_of("mate")], ["4", ""]])

    def replay_faults(self):
        """A stream that is cut off, one with a fault, and sets that the server refuses."""
        with open(os.path.join(ROOT, "crates", "mysql_session_program", "data", "captured.bin"),
                  "rb") as it:
            captured = it.read()
        said = self.replay(captured, "SELECT ?", "--road", "execute", status=1)
        if not said.endswith("answer 3: 1 rows\nthe recorded stream ends: unfinished packet\n"):
            raise Failure(f"it prints {said}")
        said = self.replay(text_query("SELECT 1") + text_query("SELECT x"), "SELECT ?", status=1)
        if "payload 1" not in said or "answer 0: 1 rows" not in said:
            raise Failure(f"it prints {said}")
        query = "INSERT INTO replayed_once VALUES (?)"
        self.sql("CREATE TABLE replayed_once (id INT PRIMARY KEY)")
        once = text_query(query.replace("?", "1"))
        if "error 1062 (23000)" not in self.replay(once + once, query, status=1):
            raise Failure("the second row is refused, and it isn't told")
        compare(self.sql("SELECT * FROM replayed_once"), [["1"]])

    # The replay of a connection.

    def replay_connection(self, name, **how):
        """Replays a recorded connection, and returns what it prints."""
        files = [os.path.join(RECORDINGS, f"{name}.{side}") for side in ("client", "server")]
        return run(["python3", os.path.join(BINDINGS, "python", "examples", "replay_connection.py"),
                    *files, f"127.0.0.1:{self.port}", "--user", USER, "--database", DATABASE],
                   env=self.python, **how)

    def replays_of_connections(self):
        """Recorded connections that make what they use are answered here as there."""
        for name in WHOLE_RECORDINGS:
            said = self.replay_connection(name)
            if not said.endswith(" commands, 0 answers differ\n") or ": left out" in said:
                raise Failure(f"of {name} it prints {said}")

    def replay_of_files(self):
        """Files that the server asks for are the recorded ones; a table that isn't there is told."""
        said = self.replay_connection("infile_pipelined", status=1)
        if "error 1146; recorded was asks for x; OK, 1 rows affected" not in said:
            raise Failure(f"it prints {said}")
        self.sql("CREATE TABLE bag (n INT, s TEXT)")
        said = self.replay_connection("infile_pipelined")
        if "asks for x; OK, 1 rows affected\n" not in said:
            raise Failure(f"it prints {said}")
        compare(self.sql("SELECT n, s FROM bag"), [["1", "one"]])
        self.sql("TRUNCATE bag")
        self.replay_connection("multi_and_infile")
        compare(self.sql("SELECT n, s FROM bag"), [["8", "eight"], ["9", "nine"]])

    # The replication reader.

    def read_log(self, *words):
        """Runs the replication reader, and returns the events' names and next positions."""
        said = run([self.rust_example("replication_reader"), f"127.0.0.1:{self.port}", USER,
                    *words])
        found = re.findall(r"^(.*): time .* next position ([0-9]+), flags [0-9]+$", said, re.M)
        if not said.endswith(f"{len(found)} events\n"):
            raise Failure(f"it prints {said}")
        return [(name, int(position)) for name, position in found]

    def replication(self):
        """The events of a file that is closed are those that the server shows of it."""
        self.sql("FLUSH BINARY LOGS; CREATE TABLE logged (id INT PRIMARY KEY, name TEXT); "
                 "INSERT INTO logged VALUES (1, 'one'), (2, 'two'); UPDATE logged SET id = 3 WHERE "
                 "id = 1; DELETE FROM logged; FLUSH BINARY LOGS")
        *_, file, _ = [name for name, *_ in self.sql("SHOW BINARY LOGS")]
        shown = [(int(it[4]), it[2]) for it in self.sql(f"SHOW BINLOG EVENTS IN '{file}'")]
        # Rows with the query's text are sent to those replicas alone that ask for them. MariaDB 11
        # tells no position within a transaction.
        wanted = [position for position, kind in shown if position and kind != "Annotate_rows"]
        found = self.read_log("--file", file, "--position", "4")
        positions = [position for _, position in found if position != 0]
        compare(positions[:len(wanted)], wanted)
        names = [name for name, _ in found]
        for name in ("ROTATE_EVENT", "FORMAT_DESCRIPTION_EVENT", "GTID_EVENT (MariaDB)",
                     "QUERY_EVENT", "TABLE_MAP_EVENT", "WRITE_ROWS_EVENT_V1",
                     "UPDATE_ROWS_EVENT_V1", "DELETE_ROWS_EVENT_V1", "XID_EVENT"):
            if name not in names:
                raise Failure(f"no event is {name}: {names}")
        middle = wanted[len(wanted) // 2]
        rest = self.read_log("--file", file, "--position", str(middle))
        behind = [it for it in wanted if it > middle]
        # The description of the format is sent first, from wherever the log is read.
        positions = [position for _, position in rest if position > middle]
        compare(positions[:len(behind)], behind)

    def replication_by_gtid(self):
        """Behind a position of global transaction identifiers come those that came later."""
        [[position]] = self.sql("SELECT @@gtid_binlog_pos")
        self.sql("CREATE TABLE later (id INT); INSERT INTO later VALUES (1); DROP TABLE later")
        names = [name for name, _ in self.read_log("--gtid", position)]
        compare(names.count("GTID_EVENT (MariaDB)"), 3)
        compare(names.count("WRITE_ROWS_EVENT_V1"), 1)
        few = self.read_log("--gtid", position, "--events", "2")
        compare([name for name, _ in few], names[:2])

    def replication_by_tags(self):
        """At a MySQL the same, behind the set that it prints, in which transactions have tags."""
        self.sql("CREATE TABLE before_it (id INT); SET gtid_next = 'AUTOMATIC:mytag'; "
                 "INSERT INTO before_it VALUES (1); INSERT INTO before_it VALUES (2)")
        [[done]] = self.sql("SELECT @@global.gtid_executed")
        if ":mytag:1-2" not in done:
            raise Failure(f"it prints {done}")
        self.sql("INSERT INTO before_it VALUES (3); SET gtid_next = 'AUTOMATIC:other'; "
                 "INSERT INTO before_it VALUES (4)")
        names = [name for name, _ in self.read_log("--gtid", done)]
        compare([name for name in names if "GTID" in name and "PREVIOUS" not in name],
                ["GTID_LOG_EVENT (MySQL)", "GTID_TAGGED_LOG_EVENT"])
        compare(names.count("WRITE_ROWS_EVENT"), 2)

    # The test server.

    @contextlib.contextmanager
    def canned(self, log, *options):
        """Runs the test server, and gives it with the port that it listens at."""
        words = ["python3", os.path.join(BINDINGS, "python", "examples", "test_server.py"),
                 *options]
        with Started(words, self.file(log), env=self.python) as it:
            yield it, int(it.wait_for(r"^listening on port ([0-9]+)$")[1])

    def test_server_clients(self):
        """The `mariadb` client and PyMySQL read what it answers."""
        with self.canned("canned.log") as (server, port):
            compare(self.sql("SELECT 1", port), [["1"]])
            compare(self.sql("SELECT NULL, 'text', -7; SET NAMES utf8mb4; SELECT 1", port),
                    [["NULL", "text", "-7"], ["1"]])
            compare(self.sql("SELECT * FROM goods", port),
                    [["1", "tea", "2.50", "NULL"], ["2", "coffee", "3.75", "it's strong"],
                     ["3", "maté \N{HERB}", "12.00", ""]])
            said = self.pymysql("cursor.execute('SELECT * FROM goods')\nprint(cursor.fetchall())\n"
                                "try:\n    cursor.execute('SELECT 2')\n"
                                "except pymysql.err.ProgrammingError as error:\n"
                                "    print(error.args[0])\nit.ping()", port)
            compare(said, "((1, 'tea', Decimal('2.50'), None), (2, 'coffee', Decimal('3.75'), "
                    "\"it's strong\"), (3, 'maté \N{HERB}', Decimal('12.00'), ''))\n1064\n")
            if server.said().count(f": {USER}\n") != 4:
                raise Failure(f"it prints {server.said()}")

    def test_server_table(self):
        """They read dates and errors of a table in a file too."""
        with open(self.file("answers.json"), "w", encoding="utf-8") as it:
            it.write(TABLE)
        with self.canned("canned_table.log", "--answers", self.file("answers.json")) as (_, port):
            compare(self.sql("SELECT * FROM times", port),
                    [["1", "2024-02-29", "2024-02-29 13:14:15.000060", "-30:00:01.500000"],
                     ["2", "NULL", "NULL", "NULL"]])
            said = self.pymysql("cursor.execute('SELECT * FROM times')\nprint(cursor.fetchone())\n"
                                "try:\n    cursor.execute('SELECT * FROM secrets')\n"
                                "except pymysql.err.OperationalError as error:\n"
                                "    print(error.args)", port)
            compare(said, "(1, datetime.date(2024, 2, 29), datetime.datetime(2024, 2, 29, 13, 14, "
                    "15, 60), datetime.timedelta(days=-2, seconds=64798, microseconds=500000))\n"
                    "(1142, 'SELECT is denied')\n")

    def test_server_statements(self):
        """MariaDB's own library reads the rows of executions."""
        with self.canned("canned_statements.log") as (_, port):
            said = run([self.c_client(), "127.0.0.1", str(port), USER, DATABASE, "goods"])
            compare(said, "2\tcoffee\t3.75\tit's strong\n1\ttea\t2.50\tNULL\n")


    # Differential tests, and modes.

    def differential(self, part, count):
        """What the library makes and tells, beside what the server does."""
        print("  " + run(["python3", os.path.join(BINDINGS, "testing", "differential.py"),
                          str(self.port), USER, DATABASE, "--part", part, "--count", str(count)],
                         env=self.python).strip().replace("\n", "\n  "), flush=True)

    def clients_by_defaults(self, running):
        """Clients log in by their defaults through the audit's sample, before a server with TLS."""
        room = self.file("by_defaults")
        os.mkdir(room)
        key, certificate = os.path.join(room, "server.key"), os.path.join(room, "server.pem")
        run(["openssl", "req", "-x509", "-newkey", "rsa:2048", "-nodes", "-keyout", key, "-out",
             certificate, "-days", "2", "-subj", "/CN=localhost"])
        with running(room, f"--ssl-key={key}", f"--ssl-cert={certificate}") as port:
            check_defaults(self.audit, self.kind.entered(room), room, port,
                           self.kind.product == MYSQL, USER, DATABASE)

    def evasions(self):
        """No statement of an odd client passes the audit unseen."""
        tell(run(["python3", os.path.join(BINDINGS, "testing", "evasions.py"), self.audit,
                  str(self.port), "--user", USER, "--commands", str(COMMANDS),
                  *([] if has_tls() else ["--without-tls"])]))

    def examples_in_ansi_quotes(self):
        """At a server in ANSI_QUOTES the replay, the loader and the replication reader do what they do
        elsewhere."""
        self.sql("CREATE TABLE quoting (name VARCHAR(99)); SET GLOBAL sql_mode = 'ANSI_QUOTES'")
        try:
            query, names = "INSERT INTO quoting VALUES (?)", ["it's", '"', "\\"]
            stream = b"".join(text_query(query.replace("?", it)) for it in
                              ("'it\\'s'", "'\"'", "'\\\\'"))
            for road in ("text", "execute", "bulk"):
                self.replay(stream, query, "--road", road, "--recorded-mode", "ANSI_QUOTES")
            with open(self.file("quoting.csv"), "w", encoding="utf-8") as it:
                it.write("name\nit's\n\"\"\"\"\n\\\n")
            self.load("quoting", "quoting.csv")
            compare(self.sql("SELECT HEX(name) FROM quoting"), [[hex_of(it)] for it in names * 4])
            [[position]] = self.sql("SELECT @@gtid_binlog_pos")
            self.sql("INSERT INTO quoting VALUES ('logged')")
            events = [name for name, _ in self.read_log("--gtid", position)]
            compare(events.count("WRITE_ROWS_EVENT_V1"), 1)
        finally:
            self.sql("SET GLOBAL sql_mode = DEFAULT")

    def odd_commands(self):
        """What the server runs of odd commands is told, and is on its page."""
        run(["python3", os.path.join(BINDINGS, "testing", "executions.py"), USER, DATABASE,
             str(self.port), "--check", os.path.join(ROOT, "docs", "SERVERS.md")], env=self.python)

    def proxy_of_a_mode(self):
        """The proxy follows a session that changes to ANSI_QUOTES."""
        self.sql(r"CREATE TABLE quoted (`a\` INT)")
        with self.proxy("proxy_quotes.log") as (proxy, port):
            with ByHand(port, USER, DATABASE) as it:
                it.query(b"SET sql_mode = 'ANSI_QUOTES'")
                it.execute(it.prepare(rb'SELECT "a\", ? FROM quoted'), [1])
                it.quit()
            proxy.wait_for(r"^.* #1 .* execute statement=.*$")
            if r'SELECT "a\", ? FROM quoted [1] -> 0 rows' not in proxy.said():
                raise Failure(f"it prints {proxy.said()}")

    def examples_of_a_mode(self):
        """At a server in NO_BACKSLASH_ESCAPES the examples take its mode."""
        self.sql("CREATE TABLE escapeless (name VARCHAR(99)); "
                 "SET GLOBAL sql_mode = 'NO_BACKSLASH_ESCAPES'")
        try:
            query, names = "INSERT INTO escapeless VALUES (?)", ["it's", "\\", "' OR 1=1 -- "]
            escaped = [it.replace("\\", "\\\\").replace("'", "\\'") for it in names]
            doubled = [it.replace("'", "''") for it in names]
            for texts, words in ((escaped, []), (doubled, ["--recorded-mode",
                                                           "NO_BACKSLASH_ESCAPES"])):
                self.sql("TRUNCATE escapeless")
                self.replay(b"".join(text_query(query.replace("?", f"'{it}'")) for it in texts),
                            query, *words)
                compare(self.sql("SELECT HEX(name) FROM escapeless"),
                        [[hex_of(it)] for it in names])
            with self.proxy("proxy_modes.log") as (proxy, port):
                self.replay(text_query("SELECT '\\', 1"), "SELECT '\\', ?", "--road", "execute",
                            "--recorded-mode", "NO_BACKSLASH_ESCAPES", port=port)
                proxy.wait_for(r"^.* #1 .* execute statement=.*: SELECT '\\', \? \[1\] -> 1 row")
            [[position]] = self.sql("SELECT @@gtid_binlog_pos")
            self.sql("INSERT INTO escapeless VALUES ('logged')")
            events = [name for name, _ in self.read_log("--gtid", position)]
            compare(events.count("WRITE_ROWS_EVENT_V1"), 1)
        finally:
            self.sql("SET GLOBAL sql_mode = DEFAULT")


# ---- Rows, streams and what is compared -------------------------------------------------------


def csv_row(number):
    """Returns a row: a number, a name and a note, of which each may be anything that CSV has."""
    notes = [None, "", 'a "quoted" word', "two\nlines", "a\r\nb", "comma, comma", "NULL",
             "ŷ \N{HERB}", " blanks ", "\\'?"]
    return number, f"name {number}", notes[number % len(notes)]


def write_csv(file, names, rows):
    """Writes a file as RFC 4180 has it; NULL is a field with nothing in it."""
    quoted = lambda it: "" if it is None else '"' + it.replace('"', '""') + '"'
    with open(file, "w", encoding="utf-8", newline="") as it:
        csv.writer(it).writerow(names)
        for number, name, note in rows:
            it.write(f"{number},{name},{quoted(note)}\r\n")


def hex_of(text):
    """Returns a text as the server's HEX does, and None as -."""
    return "-" if text is None else text.encode().hex().upper()


def text_query(query):
    """Returns the packet of a text query, put together by hand."""
    payload = b"\x03" + query.encode()
    return len(payload).to_bytes(3, "little") + b"\0" + payload


def pymysql_python():
    """Returns the first interpreter that has PyMySQL."""
    for it in (sys.executable, "/usr/bin/python3"):
        ran = subprocess.run([it, "-c", "import pymysql"], stderr=subprocess.DEVNULL)
        if ran.returncode == 0:
            return it
    raise Failure("no Python has PyMySQL: apt-get install python3-pymysql")


# The steps, and whose rules they show. Those of clients that read what the test server answers show
# no server's rule, and run once.
STEPS = ((Tests.bulk_load, MARIADBS), (Tests.bulk_load_refused, MARIADBS),
         (Tests.bulk_load_memory, MARIADBS), (Tests.bulk_load_valgrind, MARIADBS),
         (Tests.proxy_statements, MARIADBS), (Tests.proxy_rows, MARIADBS), (Tests.replays, BOTH),
         (Tests.replay_faults, BOTH), (Tests.replays_of_connections, MARIADBS),
         (Tests.replay_of_files, BOTH), (Tests.replication, MARIADBS),
         (Tests.replication_by_gtid, MARIADBS), (Tests.replication_by_tags, (MYSQL,)),
         (Tests.test_server_clients, ()),
         (Tests.test_server_table, ()), (Tests.test_server_statements, ()),
         (Tests.evasions, BOTH),
         (Tests.proxy_of_a_mode, BOTH), (Tests.examples_of_a_mode, MARIADBS),
         (Tests.examples_in_ansi_quotes, MARIADBS))


def test_server(report, room, library, kind, is_first):
    """Runs the steps that show a rule of a server, and those of clients at the first one."""
    with contextlib.ExitStack() as stack:
        port = report.run(f"{kind.name} is started",
                          lambda: stack.enter_context(running(kind, room)))
        if not port:
            return
        it = Tests(room, library, port, kind, os.path.dirname(room))
        if it.version:
            print(f"  {kind.name}: {it.version}", flush=True)
        for step, products in STEPS:
            if products or is_first:
                it.run(report, step.__name__.replace("_", " "), products, step, it)
        for part, (count, products) in DIFFERENTIAL.items():
            it.run(report, f"differential tests, {part}", products, it.differential, part, count)
        test_longer(report, kind, it)


def test_longer(report, kind, tests):
    """Runs the longer tests: odd commands, captures, the examples in Rust and clients of the
    proxy."""
    tests.run(report, "odd commands", BOTH, tests.odd_commands)
    if has("tcpdump") and os.geteuid() == 0:
        tests.run(report, "captured by tcpdump", MARIADBS, tests.captured)
    else:
        print(f"left out: {kind.name}: captured by tcpdump, which root can run (apt-get install "
              "tcpdump)", flush=True)
    test_replayed(report, tests)
    test_proxied(report, tests, functools.partial(running, kind))
    if has("openssl") and has_tls():
        tests.run(report, "clients by their defaults", BOTH, tests.clients_by_defaults,
                  functools.partial(running, kind))
    else:
        print(f"left out: {kind.name}: clients by their defaults (apt-get install openssl "
              "librust-openssl-dev)", flush=True)


def test_servers(report, room, library, load, rate):
    """Runs the tests at each server that is there. So many seconds of load on the audit, at this
    rate, are for the last MariaDB of them."""
    kinds = report.run("a server is there", servers_there) or []
    print("servers: " + ", ".join(it.name for it in kinds), flush=True)
    for kind in kinds:
        test_server(report, os.path.join(room, re.sub(r"\W", "_", kind.name)), library, kind,
                    kind is kinds[0])
    program = os.path.join(room, "target", "release", "mysql-audit")
    for kind in [it for it in kinds if it.product == MARIADB][-1:]:
        if os.path.exists(program):
            print(f"the audit under load, and beside pt-query-digest: at {kind.name}", flush=True)
            test_audited(report, room, functools.partial(running, kind), program, load, rate)
