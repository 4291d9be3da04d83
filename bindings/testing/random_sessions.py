"""Random sessions: the part `sessions` of `differential.py`.

A session is steps at a server, by the client of the examples. Behind each step the server is asked
for its SQL mode and its client's character set. These are compared with what the connection tells.
Ordinary steps are what programs send. Tricks change either where a connection may not see it:
behind an error, in a routine, in dynamic SQL, behind a reset. In some sessions the server's own
defaults are others.

Whether the character set is safe is compared where a connection tells it, as `spelling`. In a safe
one a text with a hostile value has to answer what its execution does.
"""

import os
import random
import socket
import sys
from typing import NamedTuple

TESTING = os.path.dirname(os.path.abspath(__file__))
sys.path.append(os.path.join(os.path.dirname(TESTING), "python", "examples"))

from by_hand import Client as ByHand
from client import CAPABILITIES, Client, Gone
from mysql_session import (Capability, Command, Mode, MySQLSessionError, Rows, ServerError, Side,
                           Spelling)

STEPS = 12  # of a session
KNOWN = 80  # of a hundred ordinary steps
MOST_TOLD = 8
MOST_TRIES = 200
# By these a byte of a quote or a backslash may be the second of a character.
UNSAFE = {"big5", "sjis", "gbk", "cp932", "gb18030"}
ASKED = b"SELECT @@sql_mode, @@character_set_client"
SCAN = b"SELECT s FROM scanned WHERE s = ?"
HOSTILE = (b"\\' OR 1=1 -- ", b"' OR 1=1 -- ", b"it's", b"\\", b"\\\\'", b"'")

SET_UP = """DROP TABLE IF EXISTS scanned, changed, triggered
CREATE TABLE scanned (id INT, s VARCHAR(99))
INSERT INTO scanned VALUES (1, 'one'), (2, 'two')
CREATE TABLE changed (id INT PRIMARY KEY, s VARCHAR(99))
CREATE TABLE triggered (n INT)
DROP PROCEDURE IF EXISTS without_rows
CREATE PROCEDURE without_rows() SET @x = 1
DROP PROCEDURE IF EXISTS with_rows
CREATE PROCEDURE with_rows() BEGIN SELECT 1; SELECT 2; END
DROP PROCEDURE IF EXISTS to_default
CREATE PROCEDURE to_default() SET sql_mode = ''
DROP PROCEDURE IF EXISTS to_no_backslash
CREATE PROCEDURE to_no_backslash() BEGIN SET sql_mode = 'NO_BACKSLASH_ESCAPES'; END
DROP PROCEDURE IF EXISTS rows_by_no_backslash
CREATE PROCEDURE rows_by_no_backslash() BEGIN SELECT 1; SET sql_mode = 'NO_BACKSLASH_ESCAPES'; SELECT 2; END
DROP PROCEDURE IF EXISTS rows_by_big5
CREATE PROCEDURE rows_by_big5() BEGIN SELECT 1; SET NAMES big5; SELECT 2; END
DROP PROCEDURE IF EXISTS fails_in_ansi
CREATE PROCEDURE fails_in_ansi() BEGIN SET sql_mode = 'ANSI_QUOTES'; SIGNAL SQLSTATE '45000'; END
DROP PROCEDURE IF EXISTS ends_tracking
CREATE PROCEDURE ends_tracking() SET session_track_system_variables = ''
DROP FUNCTION IF EXISTS to_ansi
CREATE FUNCTION to_ansi() RETURNS INT NO SQL BEGIN SET sql_mode = 'ANSI_QUOTES'; RETURN 1; END
DROP TRIGGER IF EXISTS changes
CREATE TRIGGER changes BEFORE INSERT ON triggered FOR EACH ROW SET sql_mode = IF(NEW.n = 1, 'NO_BACKSLASH_ESCAPES', '')"""

# A step is a text, or what begins with one of these: a text that is prepared and executed, and
# commands without a text. `ask` is what a client does that wants to know, `use` names the database.
EXECUTED, RESET, USER, ASK, USE = "execute ", "reset", "change user", "ask", "use"
ORDINARY = """SELECT 1
select s from scanned where id = 1
SELECT * FROM nowhere
/* a */ SELECT 'it''s'
SELECT /*!40001 SQL_NO_CACHE */ 1
(SELECT 1)
INSERT INTO changed VALUES (1, 'a')
INSERT INTO changed VALUES (2, 'a''b')
UPDATE changed SET s = 'b' WHERE id = 1
DELETE FROM changed
REPLACE INTO changed VALUES (1, 'c')
WITH it AS (SELECT 1) SELECT * FROM it
SHOW TABLES
SHOW VARIABLES LIKE 'sql_mode'
SHOW NOTHING
EXPLAIN SELECT 1
DESCRIBE changed
use
USE nowhere
CREATE TABLE IF NOT EXISTS made (id INT)
CREATE TABLE changed (id INT)
ALTER TABLE changed COMMENT 'a'
DROP TABLE IF EXISTS made
TRUNCATE changed
START TRANSACTION
BEGIN
COMMIT
ROLLBACK
SAVEPOINT a
RELEASE SAVEPOINT nowhere
SET autocommit = 1
SET @x = 1, @y = 'a'
SET time_zone = '+01:00'
SET SESSION TRANSACTION ISOLATION LEVEL READ COMMITTED
SET sql_mode = 'STRICT_ALL_TABLES'
SET NAMES utf8mb4
CALL without_rows()
CALL with_rows()
CALL nowhere()
DO 1
LOCK TABLES changed WRITE, scanned READ
UNLOCK TABLES
ANALYZE TABLE changed
execute SELECT s FROM scanned WHERE id = 1
execute INSERT INTO changed VALUES (3, 'a')
execute UPDATE changed SET s = 'b'
execute SELECT COUNT(*) FROM scanned""".splitlines()

TRICKS = """SET sql_mode = ''
SET sql_mode = 'NO_BACKSLASH_ESCAPES'
SET sql_mode = 'ANSI_QUOTES'
SET @@sql_mode = 'ANSI_QUOTES'
SET @@sql_mode = ''
SET @@session.sql_mode = 'ANSI'
SET @@SESSION.`sql_mode` = 'NO_BACKSLASH_ESCAPES'
SET sql_mode = DEFAULT
SET SESSION sql_mode = @@sql_mode
set @a = 1, sql_mode = 'ANSI,NO_BACKSLASH_ESCAPES'
SET \u017fql_mode = 'ANSI_QUOTES'
SET NAMES gbk
SET NAMES utf8mb4
SET NAMES DEFAULT
SET CHARACTER SET sjis
SET CHARSET latin1
SET character_set_client = big5
SET @@character_set_client = gbk
SET @@session.character_set_client = cp932
SET session_track_system_variables = ''
SET session_track_system_variables = 'sql_mode'
SET session_track_system_variables = 'character_set_client'
SET session_track_system_variables = '*'
SET \u017fession_track_system_variables = '', sql_mode = 'ANSI_QUOTES'
CALL to_default()
CALL to_no_backslash()
CALL rows_by_no_backslash()
CALL rows_by_big5()
CALL fails_in_ansi()
CALL ends_tracking()
SELECT to_ansi()
DO to_ansi()
INSERT INTO triggered VALUES (1)
INSERT INTO triggered VALUES (2)
SET @a = CONCAT('SET @@sql', '_mode = ANSI_QUOTES')
SET @a = CONCAT('SET @@cha', 'racter_set_client = gbk')
PREPARE a FROM @a
EXECUTE a
EXECUTE IMMEDIATE 'SET @@sql_mode = ANSI_QUOTES'
SELECT 1 AS statement
SELECT 1
DO 1
SET @a = 1
SET autocommit = 1
/*!50000 SET @@sql_mode = ( */ SELECT 'ANSI_QUOTES' /*!50000 ) */
/*M!100000 SET @@sql_mode = ( */ SELECT 'ANSI_QUOTES' /*M!100000 ) */
/*!40000 set */ statement sql_mode = '' FOR SELECT 1
SELECT /*+ SET_VAR(sql_mode = 'ANSI_QUOTES') */ 1
SET STATEMENT sql_mode = 'NO_BACKSLASH_ESCAPES' FOR DO 1
SET STATEMENT session_track_system_variables = '' FOR SET sql_mode = 'NO_BACKSLASH_ESCAPES'
SET STATEMENT session_track_system_variables = '' FOR SET sql_mode = ''
SET sql_mode = 'NO_BACKSLASH_ESCAPES', GLOBAL gtid_mode = 'OFF_PERMISSIVE'
SET sql_mode = 'NO_BACKSLASH_ESCAPES', GLOBAL replicate_do_table = 'a'
SET character_set_client = gbk, GLOBAL gtid_mode = 'OFF_PERMISSIVE'
SET NAMES big5, GLOBAL replicate_do_table = 'a'
/*!50000 SET sql_mode = ( */ SELECT 'ANSI_QUOTES' /*!50000 ) */ , GLOBAL gtid_mode = 'OFF_PERMISSIVE'
SELECT 1; SET sql_mode = 'NO_BACKSLASH_ESCAPES'
SELECT 1; SET @@sql_mode = 'ANSI_QUOTES'
SELECT 1; /*!50000 SET @@sql_mode = ansi */
SET sql_mode = 'NO_BACKSLASH_ESCAPES'; SELECT 1; SET sql_mode = ''
SET @a = 1; SET @@character_set_client = gbk
SELECT '\\'; SET @@character_set_client = gbk -- '
SET @x = CONCAT('SET @@sql', '_mode = ANSI_QUOTES'); PREPARE a FROM @x; EXECUTE a
BEGIN NOT ATOMIC SET sql_mode = 'ANSI_QUOTES'; END
SET SESSION AUTHORIZATION a
SET PASSWORD FOR nobody = 'a'
SET RESOURCE GROUP nowhere
SET TRANSACTION READ ONLY
execute SET sql_mode = 'NO_BACKSLASH_ESCAPES'
execute SET @@sql_mode = ''
execute SET session_track_system_variables = ''
execute SET NAMES gbk
execute SELECT to_ansi()
execute DO 1
execute CALL to_no_backslash()
execute CALL rows_by_no_backslash()
reset
change user
ask
ask
ask""".splitlines()
# A connection doesn't read a long text again behind an execution.
LONG = f"/* {'a' * 1024} */"
TRICKS += [f"execute SELECT 1 {LONG}", f"execute SET @@sql_mode = 'ANSI_QUOTES' {LONG}",
           f"execute {LONG} SET NAMES gbk"]
# The server's own defaults, in some sessions.
DEFAULTS = ("SET GLOBAL sql_mode = 'ANSI_QUOTES'", "SET GLOBAL sql_mode = 'NO_BACKSLASH_ESCAPES'",
            "SET GLOBAL character_set_client = gbk",
            "SET GLOBAL session_track_system_variables = ''")
DEFAULT_VARIABLES = ("sql_mode", "character_set_client", "session_track_system_variables")


class Script(NamedTuple):
    """What a session does, and how it logs in."""

    steps: tuple
    default: str
    more: int
    fewer: int
    is_ordinary: bool


class Told(NamedTuple):
    """What is told wrong: the step's position, what of it, and in words."""

    at: int
    name: str
    words: str


class Session:
    """A script at a server."""

    def __init__(self, where, script):
        self.script, self.user, self.database = script, *where[1:]
        self.client = Client(socket.create_connection(("127.0.0.1", where[0])))
        self.client.log_in(self.user, database=self.database,
                           capabilities=(CAPABILITIES | script.more) & ~script.fewer)
        self.known = 0

    def __enter__(self):
        return self

    def __exit__(self, *_):
        self.client.close()

    def do(self, step):
        """A step."""
        if step == ASK:
            self.client.track_mode()
        elif step == USE:
            self.client.query(f"USE {self.database}")
        elif step in (RESET, USER):
            in_force = self.client.connection.capabilities
            payload = Command.reset_connection() if step == RESET else (
                Command.change_user(self.user, in_force, b"", self.database))
            self.finish(payload)
        elif step.startswith(EXECUTED):
            text = step[len(EXECUTED):]
            [prepared] = self.client.results(Command.prepare(text))
            if not isinstance(prepared, ServerError):
                for _ in self.client.execute(text, prepared.statement, [[]]):
                    pass
                self.client.tell(Command.close(prepared.statement))
        else:
            self.client.query(step)

    def finish(self, payload):
        """Sends a reset or a change of user, and answers what the server asks for without a
        password."""
        client = self.client
        client.tell(payload)
        while client.connection.turn is Side.SERVER:
            event = client._next()
            if type(event).__name__ in ("AuthSwitchEvent",):
                client._put(b"")
        if self.script.is_ordinary:
            client.track_mode()

    def told(self):
        """The mode that the connection tells, or None. Then whether it says that the character set
        is safe, or None if it says nothing of it."""
        connection = self.client.connection
        spelling = getattr(connection, "spelling", None)
        return connection.mode, None if spelling is None else spelling is Spelling.QUOTED

    def wrong(self, at, source):
        """What the connection tells wrong behind a step, or None."""
        mode, is_safe = self.told()
        self.known += mode is not None and is_safe is not False
        [found] = self.client.query(ASKED)
        names, charset = (it.decode() for it in found.rows[0])
        of = names.split(",")
        real = Mode("NO_BACKSLASH_ESCAPES" in of, "ANSI_QUOTES" in of)
        words = f"the server is in sql_mode={names!r}, {charset}"
        if mode is not None and (mode != real or "MSSQL" in of):
            return Told(at, "the mode", f"{mode}, and {words}")
        if is_safe and charset in UNSAFE:
            return Told(at, "the character set", f"it as safe, and {words}")
        # At the end, since such a text asks for what isn't known.
        if charset not in UNSAFE and at == len(self.script.steps) - 1:
            return self.hostile(at, source.choice(HOSTILE), words)
        return None

    def hostile(self, at, value, words):
        """Whether a text with a hostile value answers otherwise than its execution."""
        try:
            [by_text] = self.client.query(self.client.text(SCAN, [value]))
        except MySQLSessionError as error:
            return Told(at, "a text is refused", f"{error}, and {words}")
        statement = self.client.prepare(SCAN).statement
        [[executed]] = self.client.execute(SCAN, statement, [[value]])
        self.client.tell(Command.close(statement))
        rows = [it.rows if isinstance(it, Rows) else it for it in (by_text, executed)]
        if rows[0] == rows[1]:
            return None
        return Told(at, "a value becomes code", f"for {value!r} {rows[0]!r:.200} by text, "
                    f"{rows[1]!r:.200} by execution, and {words}")


def played(where, script, seed):
    """How many steps of a script were told right, how many knew it, and what was told wrong."""
    source = random.Random(f"{seed} hostile {script}")
    with Session(where, script) as session:
        for at, step in enumerate(script.steps):
            try:
                session.do(step)
                wrong = session.wrong(at, source)
            except (MySQLSessionError, Gone) as error:
                wrong = Told(at, "the connection ends", f"{error!r}")
            if wrong:
                return at, session.known, wrong
        return len(script.steps), session.known, None


class Server:
    """The server's own defaults, which some sessions change."""

    def __init__(self, where):
        self.client = ByHand(*where)
        for text in SET_UP.splitlines():
            self.client.query(text.encode())
        [found] = self.client.query(b"SELECT " + b", ".join(
            b"@@GLOBAL." + it.encode() for it in DEFAULT_VARIABLES))
        self.defaults = dict(zip(DEFAULT_VARIABLES, found.rows[0]))

    def play(self, where, script, seed):
        """Plays a script under its default, which is set back."""
        try:
            if script.default:
                self.client.query(script.default.encode())
            return played(where, script, seed)
        finally:
            self.client.query(b"DROP TABLE IF EXISTS made")
            for name, value in self.defaults.items() if script.default else ():
                self.client.query(b"SET GLOBAL " + name.encode() + b" = '" + (value or b"") + b"'")


def random_script(source, number):
    """A random script; each fourth is of ordinary steps alone."""
    if number % 4 == 0:
        return Script(tuple(source.choice(ORDINARY) for _ in range(STEPS)), "", 0, 0, True)
    steps = tuple(source.choice(TRICKS if source.randrange(4) else ORDINARY) for _ in range(STEPS))
    default = source.choice(DEFAULTS) if source.randrange(8) == 0 else ""
    more = int(Capability.MULTI_STATEMENTS) if source.randrange(2) else 0
    fewer = int(Capability.SESSION_TRACK) if source.randrange(8) == 0 else 0
    return Script(steps, default, more, fewer, False)


def smaller(server, where, seed, script, wrong):
    """The script with as few steps as tell the same wrong."""
    script, tries = script._replace(steps=script.steps[:wrong.at + 1]), 0
    for plain in ({"default": ""}, {"more": 0}, {"fewer": 0}):
        less = script._replace(**plain)
        found = server.play(where, less, seed)[2]
        if found and found.name == wrong.name:
            script, wrong = less._replace(steps=less.steps[:found.at + 1]), found
    at = len(script.steps) - 2
    while at >= 0 and tries < MOST_TRIES:
        less = script._replace(steps=script.steps[:at] + script.steps[at + 1:])
        found, tries = server.play(where, less, seed)[2], tries + 1
        if found and found.name == wrong.name:
            script, wrong = less._replace(steps=less.steps[:found.at + 1]), found
            at = min(at, len(script.steps) - 1)
        at -= 1
    return script, wrong


def script_in_words(script):
    """A script in words."""
    login = [name for name, it in (("with multi statements", script.more),
                                   ("without tracking", script.fewer)) if it]
    return "; ".join([*([f"[{script.default}]"] if script.default else []),
                      " ".join(["log in", *login]), *script.steps])


def tell_wrong(server, where, seed, found, tally):
    """Prints a line for each kind of finding: its count, and the shortest scripts that end by
    another step."""
    for name, cases in found.items():
        tally.failed["sessions", f"{name} is told wrong"] += len(cases)
        ends, shown = set(), 0
        for script, wrong in sorted(cases, key=lambda it: it[1].at):
            end = script.steps[wrong.at]
            if end in ends or shown == MOST_TOLD:
                continue
            script, wrong = smaller(server, where, seed, script, wrong)
            ends.add(end)
            begin = f"FAILED sessions: {name}: {len(cases)}" if not shown else "   another"
            shown += 1
            print(f"{begin}: {script_in_words(script)}: it tells {wrong.words}", flush=True)


def run_sessions(where, seed, count, tally):
    """Plays scripts of so many steps, and tells what is found."""
    server, found, done, number = Server(where), {}, 0, 0
    ordinary, known = 0, 0
    while done < count:
        script = random_script(random.Random(f"{seed} sessions {number}"), number)
        right, knew, wrong = server.play(where, script, seed)
        kind = "ordinary steps" if script.is_ordinary else "steps with tricks"
        tally.counts["sessions", kind] += right
        done, number = done + right + bool(wrong), number + 1
        if script.is_ordinary:
            ordinary, known = ordinary + right, known + knew
        if wrong:
            found.setdefault(wrong.name, []).append((script, wrong))
    print(f"sessions: known behind {known} of {ordinary} ordinary steps", flush=True)
    if known * 100 < KNOWN * ordinary:
        tally.fail("sessions", f"known behind less than {KNOWN} of 100 ordinary steps")
    tell_wrong(server, where, seed, found, tally)
