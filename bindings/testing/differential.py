"""Differential tests: what the library makes of a query, and tells of a session, beside what a
server does.

    differential.py PORT USER DATABASE [--part PART ..] [--count N] [--seed N]
                    [--spelling NAME ..]

The user has no password. The server may be of MySQL or of MariaDB; some parts change its global
variables, and set them back. Everything random is by the seed. The parts are

- `parameters`: texts of all kinds of tokens, in four modes. A prepare counts as many parameters as
  the library finds placeholders. Otherwise the server refuses the text, or the library refuses it
  by NOT_ALONE, or the library finds none.
- `injection`: such texts with a hostile value in each placeholder, in each spelling. The server
  answers the text as the prepared execution of the same values, or as SECURITY.md says of servers.
  If it counts other parameters, or refuses to prepare, it answers as with a harmless value: no
  column, result or error more. Values that aren't UTF-8 are executed as BLOBs.
- `types`: queries that want texts, numbers, dates or JSON of their values, or keep them in columns.
  The server answers the text as the execution. MySQL takes a parameter's type from what is beside
  it, so there only texts are wanted.
- `bytes`: values of all bytes come back from a text. For another mode, or character set, one ends
  its literal, which shows that the test sees it.
- `commands`: what a connection tells of random commands is what the server ran: values, texts and
  replies. `random_commands.py` says how it is seen.
- `odd commands`: the same with commands that no client library lays out so. It runs only where it
  is named: its findings are known, and docs/SERVERS.md has most of them.
- `sessions`: what a connection tells of random sessions is what the server says, or not known. That
  is the SQL mode, and whether the character set is safe for quotes. Both are known behind eight of
  ten ordinary steps.

The count is that of texts, of pairs of text and value, of queries, and of values in each mode and
spelling. Of sessions it is that of steps, and of commands their own. Without one each part takes
its own. Executions are laid out by hand.

A line tells each kind of finding, how many there were, and the smallest input. The last line is
`N passed, M failed`. The status is 1 if any failed.
"""

import argparse
import collections
import contextlib
import os
import random
import sys
from typing import NamedTuple

TESTING = os.path.dirname(os.path.abspath(__file__))
sys.dont_write_bytecode = True
sys.path[:0] = [TESTING, os.path.join(os.path.dirname(TESTING), "python")]

from by_hand import (BLOB, Client, MULTI_STATEMENTS, PREPARE, QUERY, Refused, VAR_STRING, closing,
                     execution)
from random_queries import (COLUMNS, CONDITIONS, KEPT, Maker, NUMERIC, ODD_NAMES, OF_DATES, OF_JSON,
                            Place, TABLE, TEXTUAL, TOKENS, any_bytes, harmless_value, hostile_value,
                            is_utf8, random_text, written)
from mysql_session import (Code, Mode, MySQLSessionError, Receiver, Spelling, bind_text,
                           is_safe_to_quote, positional)

MODES = {"": Mode(), "NO_BACKSLASH_ESCAPES": Mode(no_backslash_escapes=True),
         "ANSI_QUOTES": Mode(ansi_quotes=True),
         "NO_BACKSLASH_ESCAPES,ANSI_QUOTES": Mode(True, True)}
SPELLINGS = {"quoted": Spelling.QUOTED, "hexadecimal": Spelling.HEXADECIMAL}
COUNTS = {"parameters": 4000, "injection": 4000, "types": 4000, "bytes": 10000, "sessions": 2000,
          "commands": 2000, "odd commands": 2000}
# What no run wants that doesn't name it.
BY_NAME = ("odd commands",)
AT_ONCE = 128
MOST_PLACEHOLDERS = 99
# Of pairs of text and value so many follow one another of which only the first needn't be executed.
VALUES_OF_TEXT = 4
# Of each kind of finding so many are made smaller, each by so many tries.
MADE_SMALLER, MOST_TRIES, TRIED_AT_ONCE = 12, 600, 32
# Findings whose smallest inputs have the same of these are told once.
TELLING = (b"/*+", b"/*M!", b"/*m!", b"/*!", b"/*", b"*/", b"--", b"#", b"$", b"[", b"\\", b"'",
           b'"', b"`", b"\0", b"\xa0", b";")
SYNTAX_ERROR, NOT_CONVERTED = 1064, 3854
# A number that no text has by itself.
MARK = 7171717171717171
# By so many a hundred of the queries have to be answered with rows, else the test asks nothing.
ANSWERED = 70


class Verdict(NamedTuple):
    """What came of a case: in a word or two, and whether it failed."""

    name: str
    failed: bool = False


CODE = Verdict("a value becomes code", True)


# ---- The server ---------------------------------------------------------------------------------


class Reply(NamedTuple):
    """The results of a command, and the number of the error that ends them, or None. Of a result
    there are the number of its columns, of the rows that it changed, and its rows."""

    results: list
    error: object

    def shape(self):
        """What no value may change."""
        return [columns for columns, _, _ in self.results], self.error

    def is_same(self, other):
        """Whether another reply is the same; its floats are numbers that this one has as texts."""
        return self.shape() == other.shape() and all(
            changed == of_other and len(rows) == len(others) and all(map(are_same, rows, others))
            for (_, changed, rows), (_, of_other, others) in zip(self.results, other.results))


def are_same(cells, others):
    """Whether the cells of two rows are the same."""
    return len(cells) == len(others) and all(map(is_same_cell, cells, others))


def is_same_cell(cell, other):
    """Whether two cells are the same: bytes, or a text and the float that it says."""
    if cell is None or not isinstance(other, float):
        return cell == other
    with contextlib.suppress(ValueError):
        return float(cell) == other
    return False


def is_mariadb(version):
    """Whether a server that greets with this version is MariaDB's."""
    return "MariaDB" in version


def set_up(client):
    """Makes the table that is read."""
    odd = b"".join(b", `" + it.replace(b"`", b"``") + b"` VARCHAR(9)" for it in ODD_NAMES)
    client.query(b"DROP TABLE IF EXISTS " + TABLE.encode())
    client.query(b"CREATE TABLE " + TABLE.encode() + b" (" + COLUMNS.encode() + odd + b")")
    names = b", ".join(b"'%d'" % it for it in range(len(ODD_NAMES)))
    for row in (b"1, 1, 1.5, 1.5, 2024, 'anna', 'anna', '2024-02-29', '2024-02-29 13:14:15', "
                b"'one', '{\"a\": 1}'",
                b"2, 49, 49, 49, 1999, 'ANNA', 'A', '1999-12-31', '1999-12-31', '1', '[1, 2]'",
                b"49, -3, -3, 0, 2000, 'it''s', '''', NULL, NULL, 'it''s', 'null'",
                b"50, 42, 42, 1e1, 2049, '', '', '2024-02-09', '2024-02-09', '', '\"a\"'",
                b"51, NULL, NULL, NULL, NULL, NULL, NULL, NULL, NULL, NULL, NULL"):
        client.query(b"INSERT INTO " + TABLE.encode() + b" VALUES (" + row + b", " + names + b")")


class Sessions:
    """Connections to the server, one for each mode, strict and not."""

    def __init__(self, where):
        self.clients, self.modes, self.left = {}, {}, {}
        for name, mode in MODES.items():
            for strict in ("", "STRICT_ALL_TABLES"):
                client = Client(*where, more=MULTI_STATEMENTS)
                session = f"{name},{strict}".strip(",")
                client.query(b"SET sql_mode = '" + session.encode() + b"'")
                client.query(b"SET NAMES utf8mb4")
                client.query(b"CREATE TEMPORARY TABLE " + KEPT.encode() + b" (" + COLUMNS.encode() +
                             b")")
                self.clients[session], self.modes[session], self.left[session] = client, mode, []
        self.version = client.version

    def prepare(self, session, texts):
        """For each text its statement, or the number of the error by which it is refused. The
        statements before are closed."""
        client, found = self.clients[session], []
        client.send_all([closing(it) for it in self.left[session]] +
                        [bytes([PREPARE]) + it for it in texts])
        for _ in texts:
            try:
                found.append(client.read_prepared())
            except Refused as error:
                found.append(error.number)
        self.left[session] = [it for it in found if not isinstance(it, int)]
        return found

    def ask(self, session, commands):
        """The replies to commands, which are sent at once."""
        self.clients[session].send_all(commands)
        return [self._read(session, it[0] != QUERY) for it in commands]

    def _read(self, session, binary):
        """A reply."""
        results, error = self.clients[session].read_results(binary)
        return Reply([(it.columns, it.affected, it.rows) for it in results], error)


# ---- What is told -------------------------------------------------------------------------------


class Tally:
    """Counts verdicts, and keeps the smallest cases of each kind of finding."""

    def __init__(self):
        self.counts, self.failed = collections.Counter(), collections.Counter()
        self.kept = {}

    def note(self, part, case, verdict, size):
        """Counts a case."""
        if not verdict.failed:
            self.counts[part, verdict.name] += 1
            return
        self.failed[part, verdict.name] += 1
        kept = self.kept.setdefault((part, verdict.name), [])
        kept.append((size, len(kept), case))
        kept.sort(key=lambda it: it[:2])
        del kept[MADE_SMALLER:]

    def fail(self, part, name):
        """Counts a failure of a whole part."""
        self.failed[part, name] += 1
        print(f"FAILED {part}: {name}", flush=True)

    def passed(self, part):
        """How many of a part passed."""
        return sum(count for (of, _), count in self.counts.items() if of == part)

    def tell_part(self, part):
        """Prints the sums of a part."""
        kinds = sorted((count, kind) for (of, kind), count in self.counts.items() if of == part)
        failed = sum(count for (of, _), count in self.failed.items() if of == part)
        words = [f"{count} {kind}" for count, kind in reversed(kinds)]
        print(f"{part}: {self.passed(part) + failed}: " + ", ".join(
            words + ([f"{failed} failed"] if failed else [])), flush=True)

    def tell_findings(self, part, trial):
        """Prints a line for each kind of finding, with its smallest input."""
        for (of, name), kept in self.kept.items():
            if of != part:
                continue
            shrunk, told = [made_smaller(trial, case, name) for _, _, case in kept], set()
            for case in sorted(shrunk, key=trial.size):
                tokens = frozenset(it for it in TELLING if it in b"".join(
                    it for it in case.parts if isinstance(it, bytes)))
                begin = "   another" if told else f"FAILED {part}: {name}: {self.failed[of, name]}"
                if tokens not in told:
                    print(f"{begin}: {trial.told(case)}", flush=True)
                told.add(tokens)

    def tell(self):
        """Prints the sums, and returns whether nothing failed."""
        failed = sum(self.failed.values())
        print(f"{sum(self.counts.values())} passed, {failed} failed")
        return not failed


def made_smaller(trial, case, name):
    """A case with the same verdict that can't be made smaller, unless too many were tried."""
    tried, at, left = 0, 0, list(trial.smaller(case))
    while at < len(left) and tried < MOST_TRIES:
        some = left[at:at + TRIED_AT_ONCE]
        verdicts = trial.judge(some)
        tried, at = tried + len(some), at + len(some)
        less = [one for one, it in zip(some, verdicts) if it == Verdict(name, True)]
        if less:
            case, at = less[0], 0
            left = list(trial.smaller(case))
    return case


def smaller_lists(parts):
    """A list without some of its parts, the longest pieces first."""
    for size in (16, 8, 4, 2, 1):
        for at in range(0, len(parts) - size + 1):
            yield parts[:at] + parts[at + size:]


def smaller_bytes(data):
    """Bytes without some of them."""
    if data not in (b"", b" ", b"1"):
        yield from (b"", b" ", b"1")
    for at in range(len(data) if 1 < len(data) < 40 else 0):
        yield data[:at] + data[at + 1:]


def by_sessions(cases):
    """The cases of each session."""
    found = {}
    for case in cases:
        found.setdefault(case.session, []).append(case)
    return found


# ---- Texts of all kinds of tokens ---------------------------------------------------------------


def bound(text, values, mode, spelling=Spelling.QUOTED):
    """The text with values in it, or the code by which the library refuses it."""
    try:
        return bind_text(text, values, mode=mode, spelling=spelling)
    except MySQLSessionError as error:
        return error.code


def placeholders(text, mode, guess=1):
    """How many placeholders the library finds, or the code by which it refuses the text."""
    for count in (guess, *range(MOST_PLACEHOLDERS + 1)):
        found = bound(text, [1] * count, mode)
        if found != Code.REFUSED_WRONG_COUNT:
            return count if isinstance(found, bytes) else found
    raise ValueError(f"more than {MOST_PLACEHOLDERS} placeholders: {text!r}")


def asked_text(parts, mode):
    """The text as it is prepared: with question marks in place of names; None if it has both."""
    try:
        return positional(b"".join(parts), mode=mode)
    except MySQLSessionError:
        return None


class Text(NamedTuple):
    """A random text, and in which session it is asked."""

    parts: tuple
    session: str


class Parameters:
    """The part of this name."""

    def __init__(self, sessions, words):
        self.sessions, self.seed = sessions, words.seed
        self.names = list(MODES)

    def cases(self, numbers):
        """Random cases of these numbers."""
        for number in numbers:
            session, source = self.names[number % 4], random.Random(f"{self.seed} texts {number}")
            yield Text(random_text(source, self.sessions.modes[session]), session)

    def judge(self, cases):
        """The verdicts of cases."""
        found = {}
        for session, some in by_sessions(cases).items():
            mode = self.sessions.modes[session]
            texts = [asked_text(it.parts, mode) for it in some]
            told = iter(self.sessions.prepare(session, [it for it in texts if it is not None]))
            for case, text in zip(some, texts):
                found[case] = Verdict("question marks and names") if text is None else (
                    self.verdict(text, mode, next(told)))
        return [found[it] for it in cases]

    @staticmethod
    def verdict(text, mode, told):
        """What comes of a text and what the server says to it."""
        if isinstance(told, int):
            return Verdict("refused by the server")
        ours = placeholders(text, mode, told.places)
        if ours == Code.REFUSED_NOT_ALONE:
            return Verdict("refused by the library" if told.places else
                           "refused by the library, none at the server")
        if ours == told.places:
            return Verdict("of the same number" if ours else "without a placeholder")
        if ours == 0:
            return Verdict("without a placeholder, some at the server")
        more = "more" if told.places > ours else "fewer"
        return Verdict(f"the server counts {more} parameters than the library placeholders", True)

    @staticmethod
    def smaller(case):
        """Smaller cases."""
        for parts in smaller_lists(case.parts):
            yield case._replace(parts=parts)
        for at, part in enumerate(case.parts):
            for less in smaller_bytes(part):
                if len(less) < len(part):
                    yield case._replace(parts=case.parts[:at] + (less,) + case.parts[at + 1:])

    @staticmethod
    def size(case):
        """How long a case is."""
        return sum(map(len, case.parts))

    def told(self, case):
        """A case in words."""
        mode = self.sessions.modes[case.session]
        text = asked_text(case.parts, mode)
        [found] = self.sessions.prepare(case.session, [text])
        return (f"{text!r} in sql_mode={case.session!r}: {placeholders(text, mode)} placeholders, "
                f"{found.places} parameters")


class Pair(NamedTuple):
    """A text and a value for each of its placeholders."""

    parts: tuple
    session: str
    spelling: Spelling
    value: bytes
    count: int


class Injection:
    """The part of this name."""

    def __init__(self, sessions, words):
        self.sessions, self.seed = sessions, words.seed
        self.names, self.spellings = list(MODES), [SPELLINGS[it] for it in words.spelling]

    def cases(self, numbers):
        """Random cases of texts that the library takes; most are of those that are executed."""
        texts = [self.text(it) for it in range(numbers[0], numbers[-1] + 1, VALUES_OF_TEXT)]
        found = {}
        for session, some in by_sessions(texts).items():
            asked = [asked_text(it.parts, self.sessions.modes[session]) for it in some]
            found.update(zip(some, self.sessions.prepare(session, asked)))
        executed = [it for it in texts if not isinstance(found[it], int)]
        for number in numbers:
            source = random.Random(f"{self.seed} values {number}")
            among = texts if number % VALUES_OF_TEXT == 0 else executed or texts
            yield among[number % len(among)]._replace(
                value=hostile_value(source), spelling=source.choice(self.spellings))

    def text(self, number):
        """A random text that the library takes, without a value."""
        session = self.names[number // VALUES_OF_TEXT % 4]
        mode, count, tried = self.sessions.modes[session], 0, 0
        while not 0 < count <= MOST_PLACEHOLDERS:
            parts = random_text(random.Random(f"{self.seed} pairs {number} {tried}"), mode)
            text = asked_text(parts, mode)
            count, tried = 0 if text is None else placeholders(text, mode), tried + 1
        return Pair(parts, session, Spelling.QUOTED, b"", count)

    def judge(self, cases):
        """The verdicts of cases."""
        found = {}
        for session, some in by_sessions(cases).items():
            mode = self.sessions.modes[session]
            texts = [asked_text(it.parts, mode) for it in some]
            asked, commands = [], []
            for case, text, told in zip(some, texts, self.sessions.prepare(session, texts)):
                is_executed = not isinstance(told, int) and told.places == case.count
                other = self.execution(case, told) if is_executed else (
                    self.query(case, text, harmless_value(case.value)))
                asked.append((case, text, is_executed))
                commands += [self.query(case, text, case.value), other]
            replies = iter(self.sessions.ask(session, commands))
            for case, text, is_executed in asked:
                by_text, other = next(replies), next(replies)
                found[case] = self.verdict(is_executed, by_text, other)
                if is_executed and found[case].failed:
                    found[case] = self.looked_at_again(case, text, found[case], by_text, other)
        return [found[it] for it in cases]

    def looked_at_again(self, case, text, verdict, by_text, executed):
        """A verdict, unless a text differs from its execution by what SECURITY.md says of servers:

        - a semicolon ends a statement where several are sent, also within a comment that is run;
        - what isn't UTF-8 is bare digits in quotes' stead, a number where one is wanted;
        - MySQL refuses such a literal beside a text, for any bytes;
        - MySQL gives a parameter the type and the collation of its neighbours, within a call none.
        """
        mode, is_text = self.sessions.modes[case.session], is_utf8(case.value)
        in_digits = case._replace(spelling=Spelling.HEXADECIMAL)
        harmless, digits = self.sessions.ask(case.session, [
            self.query(case, text, harmless_value(case.value)),
            self.query(in_digits, text, case.value)])
        if by_text.shape() == harmless.shape() and b";" in text and (
                not by_text.results or Reply(by_text.results[:1], None).is_same(executed)):
            return Verdict("as with a harmless value, by a semicolon of the query")
        if verdict == CODE:
            return verdict
        if not is_text and by_text.error == harmless.error == NOT_CONVERTED:
            return Verdict("refused, as each literal that isn't UTF-8")
        texts, executions = {"": by_text}, {"": executed}
        if not is_text:
            texts[", in hexadecimal"] = digits
        if not is_mariadb(self.sessions.version):
            alone = b"CONCAT(?)" if is_text else b"CAST(? AS BINARY)"
            [told] = self.sessions.prepare(case.session, [
                bound(text, [MARK] * case.count, mode).replace(b"%d" % MARK, alone)])
            if not isinstance(told, int) and told.places == case.count:
                [executions[", without a neighbour"]] = self.sessions.ask(case.session, [
                    self.execution(case, told)])
        for told, reply in texts.items():
            for more, other in executions.items():
                if reply.is_same(other):
                    return Verdict(f"same answer{told}{more}")
        return verdict

    def query(self, case, text, value):
        """The command that sends a case's text with a value in each placeholder."""
        mode = self.sessions.modes[case.session]
        return bytes([QUERY]) + bound(text, [value] * case.count, mode, case.spelling)

    @staticmethod
    def execution(case, told):
        """The execution of a case. Bytes that aren't UTF-8 go as such."""
        return execution(told.number, [case.value] * told.places,
                         VAR_STRING if is_utf8(case.value) else BLOB)

    @staticmethod
    def verdict(is_executed, by_text, other):
        """What comes of what a text and the other command are answered."""
        if is_executed and by_text.is_same(other):
            return Verdict("same error" if other.error else "same answer")
        if not is_executed and by_text.shape() == other.shape():
            return Verdict("as with a harmless value")
        errors = (by_text.error, other.error)
        if errors == (None, None) and by_text.shape() != other.shape() or SYNTAX_ERROR in errors:
            return CODE
        of = "by execution" if is_executed else "with a harmless value"
        if errors != (None, None):
            return Verdict(f"error {errors[0]}, {errors[1]} {of}".replace("None", "none"), True)
        return Verdict(f"another answer than {of}", True)

    def smaller(self, case):
        """Smaller cases that the library takes."""
        mode = self.sessions.modes[case.session]
        for less in Parameters.smaller(case):
            text = asked_text(less.parts, mode)
            count = 0 if text is None else placeholders(text, mode)
            if 0 < count <= MOST_PLACEHOLDERS:
                yield less._replace(count=count)
        for at in range(len(case.value) if len(case.value) > 1 else 0):
            yield case._replace(value=case.value[:at] + case.value[at + 1:])

    @staticmethod
    def size(case):
        """How long a case is."""
        return sum(map(len, case.parts)) + len(case.value)

    def told(self, case):
        """A case in words."""
        mode = self.sessions.modes[case.session]
        text = asked_text(case.parts, mode)
        [told] = self.sessions.prepare(case.session, [text])
        query, executed = self.query(case, text, case.value), "is refused"
        [reply] = self.sessions.ask(case.session, [query])
        if not isinstance(told, int):
            [executed] = self.sessions.ask(case.session, [self.execution(case, told)])
            executed = f"answers {short(executed)}"
        return (f"{text!r} with {case.value!r} in sql_mode={case.session!r}, "
                f"{case.spelling.name.lower()}: {query[1:]!r} answers {short(reply)}, "
                f"its execution {executed}")


def short(reply):
    """A reply in few words."""
    rows = "; ".join(f"{columns} columns, {rows!r:.200}" for columns, _, rows in reply.results)
    return rows + (f" error {reply.error}" if reply.error else "")


# ---- Queries whose placeholders want types ------------------------------------------------------


KEPT_ROWS = (b"SELECT HEX(CONCAT_WS(',', n, m, f, y, d, t, e)), HEX(s), HEX(b), HEX(j), " +
             b", ".join(b"%c IS NULL" % it for it in b"nmfydte") + b" FROM " + KEPT.encode())
NONE_KEPT = b"DELETE FROM " + KEPT.encode()


class Query(NamedTuple):
    """A query with its values: in which session it is asked, and by which spelling."""

    parts: tuple
    session: str
    spelling: Spelling
    is_named: bool
    keeps: bool


class Types:
    """The part of this name."""

    def __init__(self, sessions, words):
        self.sessions, self.seed = sessions, words.seed
        self.ways = [(session, SPELLINGS[it]) for session in sessions.modes
                     for it in words.spelling]
        self.templates = [(TOKENS, CONDITIONS)] * 2
        if is_mariadb(sessions.version):
            self.templates += [(it, it) for it in (NUMERIC, NUMERIC, TEXTUAL, OF_DATES, OF_JSON)]

    def cases(self, numbers):
        """Random queries with values, of these numbers."""
        for number in numbers:
            session, spelling = self.ways[number % len(self.ways)]
            source = random.Random(f"{self.seed} types {number}")
            maker = Maker(source, self.sessions.modes[session])
            keeps = is_mariadb(self.sessions.version) and source.randrange(4) == 0
            parts = maker.insert() if keeps else maker.select(*source.choice(self.templates))
            yield Query(parts, session, spelling, source.randrange(4) == 0, keeps)

    def judge(self, cases):
        """The verdicts of cases."""
        found = {}
        for session, some in by_sessions(cases).items():
            told = self.sessions.prepare(session, [written(it.parts)[0] for it in some])
            commands = [self.commands(*it) for it in zip(some, told)]
            replies = iter(self.sessions.ask(session, [
                it for one in commands if not isinstance(one, str) for it in one]))
            for case, of_case in zip(some, commands):
                found[case] = self.verdict([next(replies) for _ in of_case]) if not (
                    isinstance(of_case, str)) else Verdict(of_case, True)
        return [found[it] for it in cases]

    def text(self, case):
        """The text with its values, or the code by which the library refuses it."""
        mode, (text, values) = self.sessions.modes[case.session], written(case.parts, case.is_named)
        if case.is_named:
            text = asked_text((text,), mode)
        return Code.MIXED if text is None else bound(text, values, mode, case.spelling)

    def commands(self, case, told):
        """What is sent of a case: the execution and the text, and what looks at what each keeps,
        and removes it. Or why there is nothing to send."""
        values, text = written(case.parts)[1], self.text(case)
        if not isinstance(text, bytes):
            return f"the library refuses by {text.name}"
        if isinstance(told, int):
            return [bytes([PREPARE]) + written(case.parts)[0], bytes([QUERY]) + text]
        if told.places != len(values):
            return "the server counts other parameters"
        looks = [bytes([QUERY]) + it for it in (KEPT_ROWS, NONE_KEPT)] if case.keeps else []
        return [execution(told.number, values), *looks, bytes([QUERY]) + text, *looks]

    @staticmethod
    def verdict(replies):
        """What comes of the replies to the execution and to the text, each with its looks."""
        half = len(replies) // 2
        executed, by_text = replies[:half], replies[half:]
        if all(map(Reply.is_same, by_text, executed)):
            return Verdict("same error" if executed[0].error else "same answer")
        if by_text[0].is_same(executed[0]):
            return Verdict("another row is kept", True)
        if by_text[0].error or executed[0].error:
            return Verdict(f"error {by_text[0].error} by text, {executed[0].error} by execution"
                           .replace("None", "none"), True)
        return Verdict("another answer than by execution", True)

    @staticmethod
    def smaller(case):
        """Smaller cases."""
        for parts in smaller_lists(case.parts):
            yield case._replace(parts=parts)
        for at, part in enumerate(case.parts):
            is_place = isinstance(part, Place)
            data = part.value if is_place else part
            for less in smaller_bytes(data) if isinstance(data, bytes) else [b"1"]:
                made = part._replace(value=less) if is_place else less
                if data != b"1" and (is_place or len(less) < len(data)):
                    yield case._replace(parts=case.parts[:at] + (made,) + case.parts[at + 1:])

    @staticmethod
    def size(case):
        """How long a case is."""
        query, values = written(case.parts)
        return len(query) + sum(len(repr(it)) for it in values)

    def told(self, case):
        """A case in words."""
        query, values = written(case.parts)
        [told] = self.sessions.prepare(case.session, [query])
        asked = (f"{query!r} with {values} in sql_mode={case.session!r}, "
                 f"{case.spelling.name.lower()}")
        commands = self.commands(case, told)
        if isinstance(commands, str):
            return asked
        replies = [short(it) for it in self.sessions.ask(case.session, commands)]
        half = len(replies) // 2
        return (f"{asked}: {self.text(case)!r} answers {replies[half:]}, the execution "
                f"{replies[:half]}")


# ---- Values of all bytes ------------------------------------------------------------------------

VALUES_AT_ONCE = 100
SECRET = b"SELECT s FROM secrets WHERE s = ?"


class Bytes:
    """The part of this name."""

    def __init__(self, where, words, tally):
        self.client, self.words, self.tally = Client(*where), words, tally
        for text in (b"DROP TABLE IF EXISTS secrets, named",
                     b"CREATE TABLE secrets (s VARCHAR(99))",
                     b"INSERT INTO secrets VALUES ('one'), ('two'), ('three')",
                     b"CREATE TABLE named (`a\\` INT)", b"INSERT INTO named VALUES (5)"):
            self.client.query(text)

    def rows(self, text):
        """The rows of a text."""
        [found] = self.client.query(text)
        return found.rows

    def check(self, found, wanted, *what):
        """Counts whether two are the same."""
        if found == wanted:
            self.tally.counts["bytes", "as wanted"] += 1
        else:
            self.tally.fail("bytes", f"{found!r:.300} in place of {wanted!r:.300}: {what!r:.500}")

    def all(self, count):
        """All of the part."""
        for name, mode in MODES.items():
            self.rows(b"SET sql_mode = '" + name.encode() + b"'")
            [[told]] = self.rows(b"SELECT @@sql_mode")
            self.check(Mode.of_sql_mode(told), mode, told)
            self.texts_are_read(mode)
            self.other_mode_ends_a_literal(mode)
            for spelling in self.words.spelling:
                self.values_come_back(mode, SPELLINGS[spelling], count)
        self.rows(b"SET sql_mode = ''")
        self.other_character_set()
        self.modes_by_name()

    def values_come_back(self, mode, spelling, count):
        """What the server reads is what was sent."""
        source, query = random.Random(f"{self.words.seed} {mode} {spelling}"), b"SELECT "
        query += b", ".join([b"HEX(?)"] * VALUES_AT_ONCE)
        for _ in range(0, count, VALUES_AT_ONCE):
            sent = [any_bytes(source) for _ in range(VALUES_AT_ONCE)]
            [found] = self.rows(bind_text(query, sent, mode=mode, spelling=spelling))
            for value, came in zip(sent, found):
                if bytes.fromhex(came.decode()) == value:
                    self.tally.counts["bytes", f"came back, {spelling.name.lower()}"] += 1
                else:
                    self.check(came, value, mode, spelling)

    def texts_are_read(self, mode):
        """Texts of which each shows one rule: what they are, and what the server answers."""
        quotes = b"'''\\'" if mode.no_backslash_escapes else b"'\\'\\\\'"
        rows = [(b"SELECT ?", b"'\\", Spelling.QUOTED, b"SELECT " + quotes, [b"'\\"]),
                (b"SELECT ?", b"'\\", Spelling.HEXADECIMAL, b"SELECT _utf8mb4 0x275C", [b"'\\"]),
                (b"SELECT ?", b"", Spelling.HEXADECIMAL, b"SELECT ''", [b""])]
        if mode.no_backslash_escapes:
            rows += [(b"SELECT '\\', ?", 1, Spelling.QUOTED, b"SELECT '\\', 1", [b"\\", b"1"])]
            with Receiver(b"SELECT ?", mode=mode) as receiver:
                receiver.feed(b"\x0b\0\0\0\x03SELECT '\\'")
                self.check(receiver.take(), [(b"\\",)], mode)
        if mode.ansi_quotes:
            rows += [(b'SELECT "a\\", ? FROM named', 1, Spelling.QUOTED,
                      b'SELECT "a\\", 1 FROM named', [b"5", b"1"])]
        for query, value, spelling, text, wanted in rows:
            made = bind_text(query, [value], mode=mode, spelling=spelling)
            self.check((made, self.rows(made)), (text, [wanted]), mode, query)

    def secrets(self, value, mode, spelling=Spelling.QUOTED):
        """How many secrets a value finds."""
        return len(self.rows(bind_text(SECRET, [value], mode=mode, spelling=spelling)))

    def other_mode_ends_a_literal(self, mode):
        """By another mode a value ends its literal: all rows come. By the right one, and in
        hexadecimal by each, none does."""
        value = b"' OR 1=1 -- " if mode.no_backslash_escapes else b"\\' OR 1=1 -- "
        other = Mode(not mode.no_backslash_escapes, mode.ansi_quotes)
        self.check(self.secrets(value, other), 3, mode)
        self.check(self.secrets(value, mode), 0, mode)
        for any_mode in MODES.values():
            self.check(self.secrets(value, any_mode, Spelling.HEXADECIMAL), 0, mode, any_mode)

    def other_character_set(self):
        """In gbk the last byte of a character in UTF-8 and a backslash are a character."""
        value = "\u20ac' OR 1=1 -- "
        self.check([is_safe_to_quote(it) for it in (45, 28)], [True, False])
        self.rows(b"SET NAMES gbk")
        self.check(self.secrets(value, Mode()), 3)
        self.check(self.secrets(value, Mode(), Spelling.HEXADECIMAL), 0)
        self.rows(b"SET NAMES utf8mb4")
        self.check(self.secrets(value, Mode()), 0)

    def modes_by_name(self):
        """The mode that the variable tells is the one by which the server reads; none is told of
        one in which brackets are quotes."""
        for name in ("ANSI", "ORACLE", "MSSQL", "TRADITIONAL", "DB2", "ANSI,NO_BACKSLASH_ESCAPES"):
            try:
                self.rows(b"SET sql_mode = '" + name.encode() + b"'")
            except Refused:
                continue
            [[told, read]] = self.rows(b"SELECT @@sql_mode, LENGTH('\\\\')")
            try:
                self.rows(b'SELECT "x"')
                is_ansi = False
            except Refused:
                is_ansi = True
            wanted = None if name == "MSSQL" else Mode(read == b"2", is_ansi)
            self.check(Mode.of_sql_mode(told), wanted, name, told)


# ---- All parts ----------------------------------------------------------------------------------


def run_cases(trial, part, tally, count):
    """Judges so many random cases, and tells what is found."""
    for start in range(0, count, AT_ONCE):
        cases = list(trial.cases(range(start, min(start + AT_ONCE, count))))
        for case, verdict in zip(cases, trial.judge(cases)):
            tally.note(part, case, verdict, trial.size(case))
    tally.tell_part(part)
    tally.tell_findings(part, trial)


def run_part(part, where, words, tally):
    """Runs a part."""
    count = COUNTS[part] if words.count is None else words.count
    if part == "sessions":
        from random_sessions import run_sessions
        run_sessions(where, words.seed, count, tally)
        tally.tell_part(part)
    elif part in ("commands", "odd commands"):
        from random_commands import run_commands
        run_commands(part, where, words.seed, count, tally)
    elif part == "bytes":
        Bytes(where, words, tally).all(count)
        tally.tell_part(part)
    else:
        sessions = Sessions(where)
        kind = {"parameters": Parameters, "injection": Injection, "types": Types}[part]
        run_cases(kind(sessions, words), part, tally, count)
        answered = tally.counts[part, "same answer"]
        if part == "types" and answered * 100 < ANSWERED * tally.passed(part):
            tally.fail(part, "too few queries are answered")


def words_of():
    """Returns the program's words."""
    parser = argparse.ArgumentParser(description=__doc__,
                                     formatter_class=argparse.RawDescriptionHelpFormatter)
    parser.add_argument("port", type=int)
    parser.add_argument("user")
    parser.add_argument("database")
    parser.add_argument("--part", choices=COUNTS, nargs="+",
                        default=[it for it in COUNTS if it not in BY_NAME])
    parser.add_argument("--count", type=int, metavar="N")
    parser.add_argument("--seed", default="0")
    parser.add_argument("--spelling", choices=SPELLINGS, nargs="+", default=list(SPELLINGS))
    return parser.parse_args()


def main():
    words, tally = words_of(), Tally()
    where = words.port, words.user, words.database
    with Client(*where) as client:
        set_up(client)
        print(f"server {client.version}", flush=True)
    for part in words.part:
        run_part(part, where, words, tally)
    return 0 if tally.tell() else 1


if __name__ == "__main__":
    sys.exit(main())
