"""Rows of sessions: parameter sets sent, bound and recoded, streams audited, replies read, modes of
servers.

    sessions.py [FILE ..]

Without a FILE it runs those of rows/sessions. Of replies it runs those that crates/conformance
reads too (crates/conformance/data/replies.txt). They come without their reports, for which C has no
call. Rows are written as rows.py says, and a file's head says what its rows are. Bytes are read in
one piece, byte by byte and, where they are few, in pieces of each size; a fault has to stay.
"""

import json
import os
import re
import sys

sys.path.insert(0, os.path.join(os.path.dirname(os.path.dirname(os.path.abspath(__file__))),
                                "python"))
sys.dont_write_bytecode = True

import mysql_session as ms
from mysql_session import Code, EndKind, Mode, Road, Spelling
from reply_lines import camel, reply_lines, shown
from rows import Failure, Field, Report, compare, rows_of, words_for
from streams import framed, pieces_of

MODES = {"default": Mode(), "no-backslash-escapes": Mode(no_backslash_escapes=True),
         "ansi-quotes": Mode(ansi_quotes=True), "both": Mode(True, True)}
SPELLINGS = {"quoted": Spelling.QUOTED, "hexadecimal": Spelling.HEXADECIMAL}
ROADS = {"text": Road.TEXT, "execute": Road.EXECUTE, "bulk": Road.BULK}
ENDS = {EndKind.WHOLE: "whole", EndKind.UNFINISHED_PACKET: "unfinished packet",
        EndKind.WAITING_PIECES: "waiting pieces"}
KINDS = {"text": ms.ReplyKind.QUERY, "binary": ms.ReplyKind.EXECUTE,
         "prepare": ms.ReplyKind.PREPARE}

SHORT = 100  # Up to how many bytes come in pieces of each size.
MOST_PIECES = 20000  # Longer streams come in larger pieces than bytes.
LIMIT = 1 << 24


# ---- Values -------------------------------------------------------------------------------------


def value_of(member):
    """Returns the value of a member of a set in JSON."""
    if not isinstance(member, dict):
        return member
    (name, what), = member.items()
    if name == "bytes":
        return Field(what).data
    return ms.DateFields(*what) if name == "date" else ms.TimeFields(bool(what[0]), *what[1:])


def sets_of(field, query):
    """Returns the sets of a field; values by names in the order of a query's placeholders."""
    names = [it.decode() for it in re.findall(rb":([a-z_][a-z0-9_]*)", query)]
    sets = []
    for given in json.loads(field.written):
        values = [given[it] for it in names] if isinstance(given, dict) else given
        sets.append([value_of(it) for it in values])
    return sets


# ---- What is found ------------------------------------------------------------------------------


def set_lines(sets):
    """Returns sets as rows have them, a line each."""
    lines = []
    for number, contents in enumerate(sets):
        words = ["null" if it is None else shown(it) if isinstance(it, bytes) else str(it)
                 for it in contents]
        lines.append(" ".join([f"set {number}:", *words]))
    return lines


def end_line(end):
    """Returns how a stream ends, as rows have it."""
    if end.kind == EndKind.FAULT:
        return f"end: fault {end.payload} {camel(end.fault, 'FAULT_')}"
    return "end: " + ENDS[end.kind]


def refusal_of(error):
    """Returns why a call is refused, as rows have it."""
    if error.code == Code.UNFINISHED:
        name = "".join(it.capitalize() for it in ENDS[error.end].split())
        return f"refused: Unfinished({name})"
    if error.code.name.startswith("FAULT_"):
        return f"refused: Stream({error.payload}, {camel(error.code, 'FAULT_')})"
    name = camel(error.code, "REFUSED_" if error.code.name.startswith("REFUSED_") else "")
    where = [str(it) for it in (error.set, error.place) if it is not None]
    return f"refused: {name}" + (f"({', '.join(where)})" if where else "")


def sizes_of(data):
    """Returns the sizes of pieces in which bytes are read."""
    if len(data) <= SHORT:
        return range(1, max(1, len(data)) + 1)
    return {len(data), len(data) // MOST_PIECES + 1}


def check_reading(read, stream, lines, front_ends):
    """Compares what bytes say, by a call that reads them in pieces, with lines. The last line may
    be about their prefixes. Those end in one of two ways: within a packet, and behind one."""
    stages = {}
    if lines[-1].startswith("prefixes:"):
        stages = {int(it.partition(":")[0]): int(it.partition(":")[2])
                  for it in lines[-1].split()[1:]}
        lines = lines[:-1]
    for size in sizes_of(stream):
        compare(read(stream, size), of_calls(lines), f"in pieces of {size}")
    for length in range(len(stream)) if stages else ():
        standing = max((count for whole, count in stages.items() if whole <= length), default=0)
        wanted = of_calls(lines[:standing]) + [front_ends[length in stages]]
        for size in sizes_of(stream[:length]):
            compare(read(stream[:length], size), wanted,
                    f"its front of {length} bytes, in pieces of {size}")


def of_calls(lines):
    """Returns lines but for those of reports of progress, for which C has no call."""
    return [it for it in lines if not it.startswith("report:")]


def feed_staying(reader, data, size, taken=None):
    """Feeds a reader in pieces; the first fault has to be answered to each piece from then on. Where
    there is a list, empty pieces come behind each, and what is there is taken into it."""
    fault = None
    for piece in pieces_of(data, size):
        for fed in [piece] + [b""] * (0 if taken is None else 1 + size % 2):
            try:
                reader.feed(fed)
                if fault is not None:
                    raise Failure(f"{fault.name} doesn't stay")
            except ms.MySQLSessionError as error:
                if fault not in (None, error.code):
                    raise Failure(f"{fault.name} becomes {error.code}") from error
                fault = error.code
            if taken is not None and not fed:
                taken += reader.take()


def read_twice(make, lines_of, data, size):
    """Returns what bytes say, by a reader from which it is taken at the end. Of one from which it
    is taken before the first piece and behind each the same has to come."""
    with make() as reader:
        feed_staying(reader, data, size)
        end = reader.end()
        lines = lines_of(reader.take(), end)
    with make() as reader:
        taken = reader.take()
        feed_staying(reader, data, size, taken)
        end = reader.end()
        compare(lines_of(taken + reader.take(), end), lines, f"taken behind pieces of {size}")
    return lines


# ---- Streams of commands ------------------------------------------------------------------------


def check_audit(query, statement, limit, stream, lines, mode=Mode(), spelling=Spelling.QUOTED):
    """Compares what a stream says with lines, the last of which may be about its prefixes."""
    def read(data, size):
        return read_twice(lambda: ms.Receiver(query, statement, limit, mode=mode, spelling=spelling),
                          lambda sets, end: set_lines(sets) + [end_line(end)], data, size)

    check_reading(read, stream, lines, ["end: unfinished packet", "end: whole"])


def run_audit(query, statement, limit, stream, *lines):
    """Reads a stream of commands."""
    check_audit(query.data, statement.number, limit.number, stream.data,
                [it.written for it in lines])


def run_send(road, query, statement, limit, sets, wanted, *lines):
    """Sends sets, and reads them back where lines say so."""
    query, statement, limit = query.data, statement.number, limit.number
    road, sets = ROADS[road.text], sets_of(sets, query)
    refused = wanted.written if wanted.text.startswith("refused:") else None
    try:
        # A query of names is sent as the one with question marks that is prepared.
        text = ms.positional(query) if b":" in query else query
        stream = ms.send(text, sets, road, statement, limit)
    except ms.MySQLSessionError as error:
        compare(refusal_of(error), refused)
        return
    if refused:
        raise Failure(f"it isn't {refused}")
    compare(stream, wanted.data)
    if lines:
        check_audit(query, statement, limit, stream, [it.written for it in lines])


def run_bind(query, sets, wanted):
    """Binds the set of a field."""
    query = query.data
    refused = wanted.text.startswith("refused:")
    try:
        found = ms.bind_text(query, *sets_of(sets, query))
    except ms.MySQLSessionError as error:
        # Only one set is bound, which isn't counted.
        compare(f"refused: {camel(error.code, 'REFUSED_')}"
                + (f"({error.place})" if error.place is not None else ""), wanted.written)
        return
    compare(found, None if refused else wanted.data)


def recoded(query, statement, limit, stream, size):
    """Returns the executions of a stream in pieces of this size, or why there are none."""
    try:
        with ms.Recoder(query, statement, limit) as recoder:
            found = [recoder.feed(it) for it in pieces_of(stream, size)]
            return b"".join(found) + recoder.end()
    except ms.MySQLSessionError as error:
        return refusal_of(error)


def run_recode(query, statement, limit, stream, wanted, *lines):
    """Recodes a stream as executions."""
    query, statement, limit = query.data, statement.number, limit.number
    stream, refused = stream.data, wanted.text.startswith("refused:")
    for size in sizes_of(stream):
        compare(recoded(query, statement, limit, stream, size),
                wanted.written if refused else wanted.data, f"in pieces of {size}")
    if lines:
        check_audit(query, statement, limit, wanted.data, [it.written for it in lines])


# ---- Modes of servers ---------------------------------------------------------------------------


def some_of(field, named):
    """Returns what the words of a field name, all of them for `any`."""
    words = field.words
    return list(named.values()) if words == ["any"] else [named[it] for it in words]


def run_text(modes, spellings, query, values, wanted, *lines):
    """Writes a set as a text in each of these modes and spellings, and reads it back."""
    query = query.data
    values = [value_of(it) for it in json.loads(values.written)]
    refused = wanted.text.startswith("refused:")
    for mode in some_of(modes, MODES):
        for spelling in some_of(spellings, SPELLINGS):
            try:
                text = ms.bind_text(query, values, mode=mode, spelling=spelling)
            except ms.MySQLSessionError as error:
                compare(refusal_of(error), wanted.written)
                continue
            compare(text, None if refused else wanted.data)
            stream = ms.send(query, [values], Road.TEXT, mode=mode, spelling=spelling)
            compare(stream, framed([b"\x03" + text]))
            said = [it.written for it in lines]
            check_audit(query, 1, LIMIT, stream, [*said, "end: whole"], mode, spelling)
            # By a prepared statement the same is carried.
            executed = ms.send(query, [values], Road.EXECUTE, mode=mode)
            check_audit(query, 1, LIMIT, executed, [*said, "end: whole"], mode)


def run_read(modes, spellings, query, text, *lines):
    """Reads a text in each of these modes and spellings."""
    for mode in some_of(modes, MODES):
        for spelling in some_of(spellings, SPELLINGS):
            check_audit(query.data, 1, LIMIT, framed([b"\x03" + text.data]),
                        [it.written for it in lines], mode, spelling)


def run_prepare(modes, query, wanted):
    """Looks for the placeholders of a query in each of these modes."""
    for mode in some_of(modes, MODES):
        try:
            found = shown(ms.positional(query.data, mode=mode))
        except ms.MySQLSessionError as error:
            found = refusal_of(error)
        refused = wanted.text.startswith("refused:")
        compare(found, wanted.written if refused else shown(wanted.data))


def run_status(statuses, mode):
    """Tells a server's mode by its status."""
    for status in statuses.words:
        compare(Mode.of(int(status, 16)), MODES[mode.text])


def run_sql_mode(value, mode):
    """Tells a server's mode by its variable."""
    compare(Mode.of_sql_mode(value.data), None if mode.text == "unknown" else MODES[mode.text])


def run_collation(numbers, wanted):
    """Says of collations whether texts may be quoted in them."""
    for number in numbers.words:
        compare("safe" if ms.is_safe_to_quote(int(number)) else "unsafe", wanted.text)


def changes_of(variables):
    """Returns variables as the OK packet has them that tells them; values have no blanks."""
    pairs = [it.partition("=")[::2] for it in variables]
    told = b"".join(bytes([len(it)]) + it.encode() for pair in pairs for it in pair)
    return bytes([ms.StateType.SYSTEM_VARIABLES, len(told)]) + told if told else b""


def run_session(before, statement, told, after):
    """Goes on with what is known of a session behind a statement and the OK packets of its reply.
    Each packet is told by an event and by a result."""
    session = known_of(*before.words).behind_text(statement.data)
    by_results = session
    for packet in told.parts(";") if told.text != "nothing" else ():
        status, *variables = packet.words
        changes = changes_of(variables)
        session = session.behind_ok(ms.OkEvent(0, 0, int(status, 16), 0, b"", changes))
        states = ((ms.State(changes[0], changes[2:]),) if changes else ())
        by_results = by_results.behind_ok(ms.Ok(0, 0, int(status, 16), 0, b"", states))
    wanted = known_of(*after.words)
    for found in (session, by_results):
        compare((found.mode, found.is_safe_set), (wanted.mode, wanted.is_safe_set))
        compare(found.spelling, wanted.spelling)


def known_of(mode, charset):
    """Returns what is known of a session by the words of its mode and its character set."""
    return ms.SessionMode(MODES.get(mode), {"safe": True, "unsafe": False}.get(charset))


# ---- Replies ------------------------------------------------------------------------------------


def run_reply(kind, capabilities, first, limit, stream, *lines):
    """Reads a reply."""
    flags = sum(int(it, 16) for it in capabilities.words)
    given = KINDS[kind.text], flags, first.number, limit.number

    def read(data, size):
        return read_twice(lambda: ms.ReplyReader(*given), reply_lines, data, size)

    check_reading(read, stream.data, [it.written for it in lines], ["end: unfinished"] * 2)


def run_payloads(kind, capabilities, first, limit, payloads, columns, *lines):
    """Reads a reply, which is listed by its payloads: how many columns it has, and its rows."""
    kind, number = KINDS[kind.text], first.number
    flags = sum(int(it, 16) for it in capabilities.words)
    listed = []
    for part in payloads.parts(";"):
        times, _, payload = part.text.rpartition(" x ")
        listed += [Field(payload, part.names).data] * int(times or 1)
    stream = framed(listed, number)
    for size in {len(stream), len(stream) // MOST_PIECES + 1}:
        with ms.ReplyReader(kind, flags, number, limit.number) as reader:
            feed_staying(reader, stream, size)
            end = reader.end()
            result, = reader.take()
        compare(f"columns {len(result.columns)}", columns.written)
        compare({it.type for it in result.columns}, {ms.ColumnType.LONGLONG})
        found = [" ".join(["row:", f"{len(row)} x null"]) if set(row) == {None} else str(row)
                 for row in result.rows]
        found.append(f"end of rows: status {result.status:04x}" if result.ended else "goes on")
        found.append("end: whole" if end.kind == EndKind.WHOLE else "end: unfinished")
        compare(found, [it.written for it in lines])


# ---- Files --------------------------------------------------------------------------------------

RUNS = {"audit": run_audit, "send": run_send, "bind": run_bind, "recode": run_recode,
        "reply": run_reply, "payloads": run_payloads, "text": run_text, "read": run_read,
        "prepare": run_prepare, "status": run_status, "sql_mode": run_sql_mode,
        "collation": run_collation, "session": run_session}


def run_row(row):
    """Runs a row."""
    RUNS[row.head](*row.fields)


def main():
    words = words_for(__doc__, "crates/conformance/data/replies.txt",
                      "bindings/testing/rows/sessions/*.txt")
    report = Report()
    for file in words.parse_args().files:
        for row in rows_of(file):
            report.run(row.place, run_row, row)
    return report.end()


if __name__ == "__main__":
    sys.exit(main())
