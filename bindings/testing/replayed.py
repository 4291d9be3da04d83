"""The client in Rust, and recorded connections that are replayed, against a server.

`bindings/test --server` calls `test_replayed`.
"""

import hashlib
import os

from .recorder import Recorder
from .support import BOTH, Failure, MARIADBS, ROOT, compare, run

RECORDINGS = os.path.join(ROOT, "crates", "connection_conformance", "data")
# Recordings of clients that made their tables themselves: any server replies to them alike.
REPLAYED = ["c-bulk", "c-direct", "go-long-data", "java-bulk", "perl-execute", "ruby-text"]
USER, DATABASE = "tester", "bindings"
LONG = 9_000_000


class Tests:
    """The examples against the server of other tests."""

    def __init__(self, tests):
        self.tests, self.port = tests, tests.port
        self.rust, self.sql, self.file = tests.rust_example, tests.sql, tests.file

    # What is run.

    def client(self, *words, user=USER, database=DATABASE, port=None, password=None, status=0):
        """Runs the client, and returns what it prints."""
        known = {} if password is None else {"MYSQL_PASSWORD_SHA1": password}
        return run([self.rust("blocking_client"), f"127.0.0.1:{port or self.port}", user, database,
                    *words], status=status, env={**os.environ, **known})

    def replay(self, name, *words, status=0):
        """Replays a recorded connection, and returns what is printed."""
        return run([self.rust("replay_connection"), name + ".client", name + ".server",
                    f"127.0.0.1:{self.port}", USER, *words], status=status)

    def record(self, name):
        """Records one connection to the server, within a `with`."""
        return Recorder(self.port, self.file(name))

    # The client.

    def client_by_text(self):
        """A query without values is a text: its cells are texts."""
        compare(self.client("SELECT 1 AS one, 'it''s' AS text, NULL AS nothing, 1.50 AS price"),
                "one\ttext\tnothing\tprice\n1\tit's\tNULL\t1.50\n1 row\n")
        compare(self.client("SELECT 1 FROM DUAL WHERE FALSE"), "0 rows\n")
        compare(self.client("DO 1"), "OK, 0 rows affected\n")

    def client_by_text_with_values(self):
        """Texts are for the session's mode, also behind a trigger that set another one. The server
        takes it back, and its status goes on telling it."""
        self.sql("CREATE TABLE trapped (id INT AUTO_INCREMENT PRIMARY KEY, s VARCHAR(99)); "
                 "CREATE TRIGGER sets_the_mode BEFORE INSERT ON trapped FOR EACH ROW "
                 "SET sql_mode = 'NO_BACKSLASH_ESCAPES'")
        values = ["it's", "\\'), (1) -- ", "'), (1) -- ", "\\"]
        words = [it for value in values for it in ("--", value)][1:]
        said = self.client("--text", "INSERT INTO trapped (s) VALUES (?)", *words)
        compare(said, "".join(f"OK, 1 row affected, the last id is {it}\n" for it in range(1, 5)))
        compare(self.sql("SELECT HEX(s) FROM trapped ORDER BY id"),
                [[it.encode().hex().upper()] for it in values])

    def client_by_execution(self):
        """A query with values is executed with each set; its cells are values of their types."""
        self.sql("CREATE TABLE blocking (id INT AUTO_INCREMENT PRIMARY KEY, name VARCHAR(99), "
                 "amount BIGINT UNSIGNED, price DECIMAL(9,2), half FLOAT, tenth DOUBLE, "
                 "day DATE, moment DATETIME(6), span TIME(6))")
        insert = ("INSERT INTO blocking (name, amount, price, half, tenth, day, moment, span) "
                  "VALUES (?, ?, ?, 0.5, 0.1, '2024-02-29', '2024-02-29 12:30:01.000005', "
                  "'-30:00:01')")
        said = self.client(insert, "it's", "7", "2.5", "--", "", "NULL", "-1", "--",
                           "mat\u00e9 \u2618 ?", "9223372036854775807", "0.005")
        compare(said, "".join(f"OK, 1 row affected, the last id is {it}\n" for it in (1, 2, 3)))
        compare(self.sql("SELECT id, HEX(name), IFNULL(amount, '-'), price FROM blocking"),
                [["1", "69742773", "7", "2.50"], ["2", "", "-", "-1.00"],
                 ["3", "mat\u00e9 \u2618 ?".encode().hex().upper(), "9223372036854775807",
                  "0.01"]])
        behind = "0.5\t0.1\t2024-02-29\t2024-02-29 12:30:01.000005\t-30:00:01.000000"
        names = "id\tname\tamount\tprice\thalf\ttenth\tday\tmoment\tspan\n"
        said = self.client("SELECT * FROM blocking WHERE id > ? AND id < ?", "1", "3", "--", "3",
                           "9", "--", "0", "2")
        compare(said, f"{names}2\t\tNULL\t-1.00\t{behind}\n1 row\n0 rows\n"
                      f"{names}1\tit's\t7\t2.50\t{behind}\n1 row\n")

    def client_of_long_values(self):
        """A value of many bytes, and a row of more than a packet's chunk."""
        said = self.client(f"SELECT REPEAT('x', {LONG}) AS x, REPEAT('y', {LONG}) AS y")
        compare(said.split("\n"), ["x\ty", "x" * LONG + "\t" + "y" * LONG, "1 row", ""])
        said = self.client("SELECT LENGTH(?), REPEAT(?, ?)", "y" * 100_000, "z", str(LONG))
        compare(said.split("\n")[1], f"100000\t{'z' * LONG}")

    def client_by_procedure(self):
        """A command that has several results."""
        self.client("CREATE PROCEDURE blocking_twice(n INT) BEGIN SELECT n; SELECT n + 1; END")
        wanted = "n\n7\n1 row\nn + 1\n8\n1 row\nOK, 0 rows affected\n"
        compare(self.client("CALL blocking_twice(7)"), wanted)
        compare(self.client("CALL blocking_twice(?)", "7"), wanted)

    def client_refused(self):
        """Errors of queries, of prepares and of logins are told."""
        said = self.client("SELECT nowhere", status=1)
        if not said.startswith("error 1054 (42S22): Unknown column 'nowhere'"):
            raise Failure(f"it prints {said}")
        said = self.client("SELECT ?, nowhere", "1", status=1)
        if not said.startswith("error 1054 (42S22): Unknown column 'nowhere'"):
            raise Failure(f"it prints {said}")
        self.sql("CREATE TABLE blocking_once (id INT PRIMARY KEY)")
        said = self.client("INSERT INTO blocking_once VALUES (?)", "1", "--", "1", "--", "2",
                           status=1)
        if "error 1062 (23000)" not in said or said.count("OK, 1 row affected\n") != 2:
            raise Failure(f"it prints {said}")
        compare(self.client("DO 1", database="nowhere", status=1),
                "error 1049 (42000): Unknown database 'nowhere'\n")
        said = self.client("LOAD DATA LOCAL INFILE '/etc/hostname' INTO TABLE blocking_once",
                           status=1)
        if not said.startswith("error "):
            raise Failure(f"it prints {said}")

    def client_killed(self):
        """A server that ends the connection is told."""
        said = self.client("KILL CONNECTION_ID()", status=1)
        if not said.startswith("error 1927 (70100): Connection was killed\n"):
            raise Failure(f"it prints {said}")

    def client_with_password(self):
        """A password by its digest, and a wrong one; a plugin that the client hasn't."""
        self.sql("CREATE USER secretive@'127.0.0.1' IDENTIFIED BY 'it\\'s'; "
                 "CREATE USER unknown@'127.0.0.1' IDENTIFIED VIA mysql_old_password USING "
                 "'0123456789abcdef'")
        try:
            self.logs_in_with_password()
        finally:
            # A server treats users that it hasn't as one that it has, by this plugin too.
            self.sql("DROP USER secretive@'127.0.0.1', unknown@'127.0.0.1'")

    def logs_in_with_password(self):
        """The logins of client_with_password."""
        digest = hashlib.sha1(b"it's").hexdigest()
        whole = {"user": "secretive", "database": ""}
        compare(self.client("SELECT CURRENT_USER() AS it", password=digest, **whole),
                "it\nsecretive@127.0.0.1\n1 row\n")
        for password in (None, "0" * 40):
            said = self.client("DO 1", password=password, status=1, **whole)
            if not said.startswith("error 1045 (28000): Access denied for user 'secretive'"):
                raise Failure(f"it prints {said}")
        compare(self.client("DO 1", password="it's", status=1, **whole),
                "the password's digest isn't of 40 digits\n")
        said = self.client("DO 1", user="unknown", database="", status=1)
        if "the server asks for more" not in said and not said.startswith("error "):
            raise Failure(f"it prints {said}")

    # The replay.

    def replays_recordings(self):
        """Clients that made their own tables get the same replies again."""
        for name in REPLAYED:
            said = self.replay(os.path.join(RECORDINGS, name), "--database", DATABASE)
            if ", 0 replies differ, 0 left out, and " not in said:
                raise Failure(f"{name}: it prints {said}")

    def replays_other_ids(self):
        """Statements whose ids are others here, long data and a bulk."""
        self.sql("CREATE TABLE replayed_again (id INT, name VARCHAR(99))")
        with self.record("executions") as recorder:
            run([self.tests.c_client(), "127.0.0.1", str(recorder.port), USER, DATABASE, "insert",
                 "replayed_again"])
        query = "SELECT IFNULL(id, '-'), HEX(name) FROM replayed_again"
        once = self.sql(query)
        # Ids that the recorded server gave, and this one doesn't.
        for side in ("client", "server"):
            with open(self.file("executions." + side), "rb") as it:
                stream = it.read()
            with open(self.file("others." + side), "wb") as it:
                it.write(with_other_ids(stream, side))
        said = self.replay(self.file("others"))
        if ", 0 replies differ, 0 left out, and the recording ends: Over Quit" not in said:
            raise Failure(f"it prints {said}")
        compare(self.sql(query), once + once)

    def replay_tells_what_differs(self):
        """Counts of rows and errors that are others than when they were recorded."""
        self.sql("CREATE TABLE replayed_rows (id INT); INSERT INTO replayed_rows VALUES (1), (2)")
        query = "SELECT * FROM replayed_rows WHERE id > ?"
        with self.record("rows") as recorder:
            self.client(query, "0", "--", "1", port=recorder.port)
        # The first asks the server to track the mode.
        same = "6 commands put, 0 replies differ, 0 left out, and the recording ends: Over Quit\n"
        compare(self.replay(self.file("rows")), same)
        self.sql("INSERT INTO replayed_rows VALUES (1)")
        compare(self.replay(self.file("rows"), status=1),
                f"command 3, Execute {query}:\n    recorded: 2 rows\n    here: 3 rows\n"
                + same.replace("0 replies", "1 replies"))
        self.sql("DROP TABLE replayed_rows")
        said = self.replay(self.file("rows"), status=1)
        if "recorded: 2 rows\n    here: error 1243" not in said or "3 replies differ" not in said:
            raise Failure(f"it prints {said}")

    def replay_sends_the_file(self):
        """The bytes of a file are those of the recording, and what ends a connection isn't put."""
        self.sql("CREATE TABLE replayed_file (name VARCHAR(99))")
        with open(self.file("names.txt"), "w", encoding="utf-8") as it:
            it.write("".join(f"name {number}\n" for number in range(10_000)))
        load = f"LOAD DATA LOCAL INFILE '{self.file('names.txt')}' INTO TABLE replayed_file"
        with self.record("file") as recorder:
            self.sql(load, recorder.port, options=("--skip-ssl", "--local-infile"))
        os.remove(self.file("names.txt"))
        said = self.replay(self.file("file"))
        if ", 0 replies differ, 0 left out, " not in said:
            raise Failure(f"it prints {said}")
        compare(self.sql("SELECT COUNT(*), COUNT(DISTINCT name) FROM replayed_file"),
                [["20000", "10000"]])

    def replay_without_commands(self):
        """A recording without a command, and one that isn't there."""
        said = self.replay(os.path.join(RECORDINGS, "too_many"))
        compare(said, "no command was recorded: Over Rejected\n")
        said = self.replay(self.file("nowhere"), status=2)
        if "nowhere.client: No such file" not in said:
            raise Failure(f"it prints {said}")


def with_other_ids(stream, side):
    """Returns a stream of MariaDB's own library with other ids of statements. They are in what the
    client says about them, and in the server's replies to a prepare."""
    changed, at = b"", 0
    while at < len(stream):
        end = at + 4 + int.from_bytes(stream[at:at + 3], "little")
        packet = bytearray(stream[at:end])
        is_about = packet[4:5] in (b"\x17", b"\x18", b"\x19", b"\x1a", b"\xfa")
        is_reply = len(packet) == 16 and packet[3:5] == b"\x01\x00"
        if (side == "client" and packet[3] == 0 and is_about) or (side == "server" and is_reply):
            packet[6] ^= 0x55
        changed, at = changed + packet, end
    return changed


def test_replayed(report, tests):
    """Runs the client and the replay in Rust against a server."""
    it = Tests(tests)
    of_both = (it.client_by_text, it.client_by_text_with_values, it.client_by_execution,
               it.client_of_long_values, it.client_by_procedure, it.client_refused,
               it.replay_tells_what_differs, it.replay_sends_the_file, it.replay_without_commands)
    for test in (*of_both, it.client_killed, it.client_with_password, it.replays_recordings,
                 it.replays_other_ids):
        tests.run(report, "in Rust, " + test.__name__.replace("_", " "),
                  BOTH if test in of_both else MARIADBS, test)
