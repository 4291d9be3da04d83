"""Real clients through the auditing proxy: what it prints is compared with what they did.

`bindings/test --server` calls `test_proxied`. Each client of `clients/` does the same by its own
library. It sends queries with their values in the text, and prepared executions with values of each
kind where it has them. It has a query refused, a row of more than a packet's chunk, and a file. It
kills its own connection, and has a login refused. What the proxy has to print is known from the
client's program. It is known a second time from the server's general log, which has each command of
each connection. A client that this machine doesn't have is named with its Debian package.
"""

import concurrent.futures
import contextlib
import json
import os
import re
import subprocess
import time
from typing import NamedTuple, Sequence

from .by_hand import Client as ByHand, Closed
from .support import BINDINGS, BOTH, Failure, MARIADBS, compare, has, run

CLIENTS = os.path.join(BINDINGS, "testing", "clients")
DEBIANS_PYTHON = "/usr/bin/python3"
JAR = "/usr/share/java/mariadb-java-client.jar"
GO_DRIVER = "/usr/share/gocode/src/github.com/go-sql-driver/mysql"
WAIT_SECONDS = 60
PIPELINED, AT_ONCE, QUERIES = 2000, 20, 50

TABLE = ("CREATE OR REPLACE TABLE audited (id INT, i BIGINT, u BIGINT UNSIGNED, d DOUBLE, "
         "s VARCHAR(99), b VARBINARY(99), n INT, day DATE, moment DATETIME(6), span TIME(6))")
# The row of values of each kind, as the table has it.
ROW = ["2", "-7", "9223372036854775808", "1.5", "mat\u00e9 \u2618", "FF0027", "-", "2024-02-29"]

# What clients do, as the proxy has to tell it: a kind, the text, values, and the reply's results. A
# text that ends in dots is the front of one.
FIRST = "INSERT INTO audited (id, s) VALUES (1, 'it''s')"
ESCAPED = FIRST.replace("''s", "\\'s")
ONE_ROW = "SELECT id, s FROM audited WHERE id = 1"
NOT_THERE = "SELECT * FROM audited_not_there"
INSERT = "INSERT INTO audited VALUES (?, ?, ?, ?, ?, ?, ?, ?, ?, ?)"
SELECT = "SELECT s FROM audited WHERE id = ?"
BIG = "SELECT REPEAT('x', 17000000) AS audited"
KILL = "KILL CONNECTION_ID() /* audited */"
BULK = "INSERT INTO audited (id, s) VALUES (?, ?)"


class Client(NamedTuple):
    """A client: its program, how it is looked for, its package, and what it does between the query
    that is refused and the big row."""

    name: str
    words: Sequence[str]
    looks: Sequence[str]
    package: str
    does: Sequence[tuple]
    first: str = FIRST
    kind: str = "query"


VALUES = {"id": 2, "i": -7, "u": "9223372036854775808", "d": 1.5, "s": "mat\u00e9 \u2618",
          "b": {"hex": "ff0027"}, "n": None, "day": "2024-02-29",
          "moment": "2024-02-29 12:30:01.000005", "span": "-30:01:00"}


def inserted(**own):
    """The execution with values of each kind, of which some have forms of the client's own."""
    return "execute", INSERT, list({**VALUES, **own}.values()), ["affected 1"]


SELECTED = [("execute", SELECT, [2], ["rows 1"]), ("execute", SELECT, [9], ["rows 0"])]
BY_TEXT = [("query", "INSERT INTO audited VALUES (2, -7, ...", None, ["affected 1"]),
           ("query", "SELECT s, u FROM audited WHERE id = 2", None, ["rows 1"])]

ALL = [
    Client("PyMySQL", [DEBIANS_PYTHON, "by_pymysql.py"], [DEBIANS_PYTHON, "-c", "import pymysql"],
           "python3-pymysql", BY_TEXT, ESCAPED),
    Client("MySQLdb", [DEBIANS_PYTHON, "by_mysqldb.py"], [DEBIANS_PYTHON, "-c", "import MySQLdb"],
           "python3-mysqldb", BY_TEXT, ESCAPED),
    Client("Connector/J", ["java", "-cp", JAR, "ByJava.java"],
           ["sh", "-c", f"test -e {JAR} && javac -version"], "default-jdk-headless libmariadb-java",
           [inserted(span="12:30:01"), *SELECTED,
            ("bulk execute", BULK, [[11, "bulk"], [12, None], [13, "bulk"]], ["affected 3"])]),
    Client("go-sql-driver", ["go", "run", "by_go.go"], ["test", "-e", GO_DRIVER],
           "golang-github-go-sql-driver-mysql-dev",
           [inserted(u=2**63, day="2024-02-29 00:00:00"), *SELECTED]),
    Client("mysqli", ["php", "-d", "mysqli.allow_local_infile=On", "by_mysqli.php"],
           ["php", "-r", "exit(extension_loaded('mysqli') ? 0 : 1);"], "php-mysql",
           [inserted(), *SELECTED,
            ("execute", "INSERT INTO audited (id, s) VALUES (3, ?)", ["long data"],
             ["affected 1"])]),
    Client("node-mysql", ["node", "by_node.js"], ["node", "-e", "require('mysql')"], "node-mysql",
           BY_TEXT[:1], ESCAPED),
    Client("DBD::MariaDB", ["perl", "by_perl.pl"], ["perl", "-MDBD::MariaDB", "-e", "1"],
           "libdbd-mariadb-perl", [inserted(), *SELECTED], kind="execute"),
    Client("mysql2", ["ruby", "by_ruby.rb"], ["ruby", "-rmysql2", "-e", "1"], "ruby-mysql2",
           [inserted(), *SELECTED]),
]


def done_by(client, file):
    """Returns all that a client does, as the proxy has to tell it."""
    values = [] if client.kind == "execute" else None
    asked = lambda text, *results: (client.kind, text, values, list(results))
    refused = asked(NOT_THERE, "error 1146")
    if client.kind == "execute":
        refused = ("prepare", NOT_THERE, None, ["error 1146"])
    load = f"LOAD DATA LOCAL INFILE '{file}' INTO TABLE audited (s)"
    return [asked(client.first, "affected 1"), asked(ONE_ROW, "rows 1"), refused, *client.does,
            asked(BIG, "rows 1"), asked(load, ["file", file, 14], "affected 3"),
            asked(KILL, "error 1927"), ("login", "audited_nobody", None, ["error 1045"])]


# ---- What the proxy printed ---------------------------------------------------------------------


def result_in(result):
    """Returns a result of the proxy's JSON in a word."""
    for name in ("rows", "affected", "error", "statement"):
        if name in result:
            return f"{name} {result[name]}"
    return ["file", result["file"], result["bytes"]]


def text_in(record):
    """Returns the text of a line of the proxy's JSON."""
    text = record.get("text", "")
    return bytes.fromhex(text["hex"]).decode(errors="replace") if isinstance(text, dict) else text


def done_in(record):
    """Returns what a line of the proxy's JSON tells."""
    text = record["user"] if record["kind"] == "login" else text_in(record)
    return record["kind"], text, record.get("values"), list(map(result_in, record["results"]))


def is_told(done, found):
    """Returns whether what was found is what was done."""
    (kind, text, *rest), (known_kind, known, *known_rest) = done, found
    same = known.startswith(text[:-3]) if text.endswith("...") else known == text
    return same and (kind, *rest) == (known_kind, *known_rest)


def is_audited(record):
    """Returns whether a record is of what the client's program itself does."""
    kind, text = record["kind"], text_in(record)
    if kind == "prepare":
        return "audited" in text and "error" in record["results"][0]
    if kind == "login":
        return record["user"] == "audited_nobody"
    is_statement = kind in ("query", "execute", "bulk execute")
    return is_statement and "audited" in text or kind in ("unread", "cut")


# The server's general log by the kinds of the proxy's lines. It doesn't have pings.
LOGGED = {"login": "Connect", "query": "Query", "prepare": "Prepare", "execute": "Execute",
          "bulk execute": "Execute", "init db": "Init DB", "change user": "Change user",
          "statistics": "Statistics", "reset": "Reset stmt", "fetch": "Fetch",
          "field list": "Field List", "set option": "Set option"}
# What has no reply, and so no line.
WITHOUT_LINE = ("Close stmt", "Long Data", "Quit")


def logged_by(records):
    """Returns what the general log has to have of a connection's lines: kinds, and texts where they
    are the client's own. Of texts what isn't ASCII is a question mark."""
    found = []
    for record in records:
        kind = record["kind"]
        # A prepare that is refused isn't logged, nor what a server that was killed didn't read.
        refused = kind == "prepare" and "error" in record["results"][0]
        if kind in LOGGED and not refused and record["whole"]:
            text = text_in(record) if kind in ("query", "prepare") else ""
            found.append((LOGGED[kind], in_ascii(text)))
    return found


def in_ascii(text):
    """Returns a text in which a question mark replaces other characters than ASCII's. The log has
    bytes that aren't UTF-8 by their digits."""
    return re.sub(r"[^ -~]+|(?:\\x[0-9A-F]{2})+", "?", text).strip()


class Audits:
    """Clients through the proxy, against a server."""

    def __init__(self, tests):
        self.tests = tests
        self.environment = {**os.environ, "NODE_PATH": "/usr/share/nodejs",
                            "GOPATH": "/usr/share/gocode", "GO111MODULE": "off",
                            "GOCACHE": tests.file("go-cache"), "PYTHONDONTWRITEBYTECODE": "1"}
        self.loaded = tests.file("loaded.txt")
        with open(self.loaded, "w", encoding="utf-8") as it:
            it.write("one\ntwo\nthree\n")

    def has(self, client):
        """Returns whether the machine has a client."""
        return has(client.words[0]) and subprocess.run(
            client.looks, env=self.environment, stdout=subprocess.DEVNULL,
            stderr=subprocess.DEVNULL).returncode == 0

    @contextlib.contextmanager
    def proxy(self, *options):
        """Runs the proxy. Gives its port, and a call that waits until so many connections have
        ended, and returns its lines."""
        with self.tests.proxy("proxied.log", "--json", *options) as (process, port):
            def lines(count):
                process.wait_until(lambda said: said.count('"kind":"end"') >= count)
                return [json.loads(it) for it in process.said().splitlines() if it[:1] == "{"]
            yield port, lines

    def client(self, client, *options):
        """A client does what it does; the proxy tells it, and so does the server's log."""
        tests = self.tests
        tests.sql(TABLE + "; TRUNCATE mysql.general_log")
        with self.proxy(*options) as (port, lines):
            words = [*client.words, "127.0.0.1", str(port), "tester", "bindings", self.loaded]
            compare(run(words, cwd=CLIENTS, env=self.environment), "done\n")
            records = lines(3)
        found = [done_in(it) for it in records if is_audited(it)]
        wanted = done_by(client, self.loaded)
        for one, other in zip(wanted, found):
            if not is_told(one, other):
                raise Failure(f"{other}\nin place of {one}")
        compare(len(found), len(wanted))
        self.compare_log(records)
        cells = [f"IFNULL({it}, '-')" for it in ("id", "i", "u", "d", "s", "HEX(b)", "n", "day")]
        compare(tests.sql(f"SELECT {', '.join(cells)} FROM audited WHERE id = 2"), [ROW])

    def compare_log(self, records):
        """The server's general log has what the lines tell, connection by connection."""
        threads = {it["connection"]: it["thread"] for it in records if it["kind"] == "login"}
        for connection, thread in threads.items():
            told = logged_by(it for it in records if it["connection"] == connection)
            rows = self.tests.sql("SELECT command_type, HEX(argument) FROM mysql.general_log "
                                  f"WHERE thread_id = {thread}")
            texts = [(kind, bytes.fromhex(text).decode(errors="replace")) for kind, text in rows]
            logged = [(kind, in_ascii(text) if kind in ("Query", "Prepare") else "")
                      for kind, text in texts
                      if kind not in WITHOUT_LINE and not text.startswith("Access denied")]
            compare(told, logged)

    # Further tests.

    def command_line(self):
        """The `mariadb` client: several statements, one of which is refused, and SQL's PREPARE."""
        with self.proxy() as (port, lines):
            self.tests.sql(TABLE, port)
            texts = [FIRST, ONE_ROW, "PREPARE audited FROM 'SELECT ?'", "SET @audited = 1",
                     "EXECUTE audited USING @audited", BIG.replace("17000000", "1000000")]
            self.tests.sql("; ".join(texts), port)
            records = lines(2)
        found = [done_in(it) for it in records if is_audited(it)]
        results = [["affected 1"], ["rows 1"], ["affected 0"], ["affected 0"], ["rows 1"],
                   ["rows 1"]]
        compare(found[1:], [("query", text, None, result)
                            for text, result in zip(texts, results)])

    def error_in_rows(self):
        """An error in the place of a row: the rows before it are counted."""
        query = "SELECT IF(seq < 5, 'audited', (SELECT 1 UNION SELECT 2)) FROM seq_1_to_9"
        with self.proxy() as (port, lines):
            self.tests.sql(query, port, status=1)
            records = lines(1)
        found = [done_in(it)[3] for it in records if it.get("text") == query]
        compare(found, [["rows 4", "error 1242"]])

    def killed(self):
        """A connection that another one kills within a query and between two."""
        with self.proxy() as (port, lines):
            words = ["mariadb", "--no-defaults", "--skip-ssl", "--host=127.0.0.1", "--user=tester",
                     f"--port={port}", "bindings", "--execute=SELECT SLEEP(50) AS audited"]
            with subprocess.Popen(words, stderr=subprocess.DEVNULL, stdout=subprocess.DEVNULL):
                self.kill_one("INFO LIKE 'SELECT SLEEP%'")
            with self.raw(port) as connection:
                self.kill_one("COMMAND = 'Sleep' AND USER = 'tester'")
                with contextlib.suppress(Closed):
                    connection.receive()
                    raise Failure("the server says something to a connection that is killed")
            records = lines(2)
        slept = [it for it in records if it.get("text") == "SELECT SLEEP(50) AS audited"]
        compare([(it["whole"], it["results"]) for it in slept], [(False, [])])
        ends = [(it["by"], it["text"]) for it in records if it["kind"] == "end"]
        compare(ends, [("server", "unfinished"), ("server", "without quit")])

    def kill_one(self, condition):
        """Kills the connection of which this holds."""
        found, end = [], time.monotonic() + WAIT_SECONDS
        while not found:
            if time.monotonic() > end:
                raise Failure(f"no connection has {condition}")
            found = self.tests.sql("SELECT ID FROM information_schema.PROCESSLIST WHERE "
                                   f"ID <> CONNECTION_ID() AND {condition}")
        self.tests.sql(f"KILL {found[0][0]}")

    @contextlib.contextmanager
    def raw(self, port):
        """A connection without the library, which has logged in."""
        with ByHand(port, "tester", "bindings") as client:
            yield client

    def compressed(self):
        """A client that compresses its packets."""
        self.unreadable("compression begins", "--skip-ssl", "--compress")

    def encrypted(self, running):
        """A client that goes over to TLS, with its own server."""
        room = self.tests.file("tls")
        os.mkdir(room)
        key, certificate = os.path.join(room, "key.pem"), os.path.join(room, "certificate.pem")
        run(["openssl", "req", "-x509", "-newkey", "rsa:2048", "-nodes", "-keyout", key, "-out",
             certificate, "-days", "2", "-subj", "/CN=localhost"])
        with running(room, f"--ssl-key={key}", f"--ssl-cert={certificate}") as port:
            plain, self.tests.port = self.tests.port, port
            try:
                self.unreadable("TLS begins", "--ssl")
            finally:
                self.tests.port = plain

    def unreadable(self, why, *options):
        """A client whose packets can't be read is passed on, or cut, or goes on in plain packets
        where the server doesn't offer anything else."""
        sql, query = self.tests.sql, "SELECT 'audited'"
        for words, kind in (([], "unread"), (["--on-fault", "cut"], "cut"), (["--plain"], None)):
            with self.proxy(*words) as (port, lines):
                status = 1 if kind == "cut" else 0
                rows = sql(query, port, options, status=status)
                records = lines(1)
            if kind != "cut":
                compare(rows, [["audited"]])
            compare([(it["kind"], it["text"]) for it in records if it["kind"] in ("cut", "unread")],
                    [(kind, why)] if kind else [])
            texts = [it.get("text") for it in records]
            compare(query in texts, kind is None)

    def at_once(self):
        """Many clients at once, each with its own queries."""
        texts = [[f"SELECT {client}, {number}" for number in range(QUERIES)]
                 for client in range(AT_ONCE)]
        with self.proxy() as (port, lines):
            with concurrent.futures.ThreadPoolExecutor(AT_ONCE) as pool:
                rows = list(pool.map(lambda it: self.tests.sql("; ".join(it), port), texts))
            records = lines(AT_ONCE)
        compare(rows, [[[str(client), str(number)] for number in range(QUERIES)]
                       for client in range(AT_ONCE)])
        told = {}
        for record in records:
            if record["kind"] == "query" and record["text"].startswith("SELECT "):
                told.setdefault(record["connection"], []).append(record["text"])
        found = sorted(it[-QUERIES:] for it in told.values())
        compare(found, sorted(texts))

    def pipelined(self):
        """Many commands at once, more than there is room for: all are told, in their order."""
        texts = [f"SELECT {number}, '{'x' * 100}'" for number in range(PIPELINED)]
        payloads = [b"\x03" + text.encode() for text in texts]
        for options in ([], ["--strict"]):
            with self.proxy("--longest", "4096", *options) as (port, lines):
                with self.raw(port) as connection:
                    self.send_and_count(connection, payloads)
                records = lines(1)
            found = [(it["text"], it["results"]) for it in records if it["kind"] == "query"]
            compare(found, [(text, [{"rows": 1}]) for text in texts])

    def send_and_count(self, connection, payloads):
        """Sends commands while their replies are read, each of which has a row."""
        process = os.fork()
        if process == 0:
            connection.send_all(payloads)
            os._exit(0)
        for _ in payloads:
            [found] = connection.read_answers()
            compare(len(found.rows), 1)
        os.waitpid(process, 0)


def test_proxied(report, tests, running):
    """Runs all clients that the machine has, and names those that it doesn't have. By `running` a
    further server is run."""
    it = Audits(tests)
    tests.sql("SET GLOBAL log_output = 'TABLE', GLOBAL general_log = 1, "
              "GLOBAL max_allowed_packet = 67108864")
    try:
        for client in ALL:
            if it.has(client):
                tests.run(report, f"the proxy with {client.name}", MARIADBS, it.client, client)
            else:
                print(f"left out: the proxy with {client.name} (apt-get install {client.package})",
                      flush=True)
        for options in (["--strict"], ["--plain"], ["--on-fault", "cut"]):
            tests.run(report, f"the proxy with PyMySQL, {' '.join(options)}", MARIADBS, it.client,
                      ALL[0], *options)
        of_both = (it.killed, it.pipelined, it.at_once, it.compressed)
        for test in (it.command_line, it.error_in_rows, *of_both):
            tests.run(report, f"the proxy, {test.__name__.replace('_', ' ')}",
                      BOTH if test in of_both else MARIADBS, test)
        if has("openssl"):
            tests.run(report, "the proxy, encrypted", BOTH, it.encrypted, running)
        else:
            print("left out: the proxy, encrypted (apt-get install openssl)", flush=True)
    finally:
        tests.sql("SET GLOBAL general_log = 0, GLOBAL log_output = DEFAULT")
