"""Rows of packets, each a payload by itself: of logging in, replies, what replicas say, cells.

    packets.py [FILE ..]

Without a FILE it runs those of rows/packets. rows.py says how rows are written. The head of a file
names the pages that its rows are of.

    at greeting | SIDE BYTES | ..          how the rows behind it begin: with a new connection, or
    at CAPABILITIES MARIADB | SIDE BYTES   behind a login with these in force (hexadecimal numbers);
                                           each further field is a payload that was said before
    SIDE | BYTES | LINE                    that side's next payload is this event
    SIDE | BYTES | LINE | CODE RANGE .. CODE RANGE ..
                                           and its prefixes of these lengths are refused by the
                                           code, or laid out as no command (`Other`); all others
                                           are read
    SIDE | BYTES | refused CODE            the payload itself is refused

    read CALL NUMBER .. | BYTES | FIELDS   what read_greeting or read_login finds, every field; a
                                           last field CODE RANGE ..: its prefixes that are refused
    put CALL | FIELDS | BYTES              what put_greeting, put_login, register_replica,
                                           binlog_dump or binlog_dump_gtid makes; or `refused CODE`
    write KIND CAPABILITIES | CALL FIELDS | .. | BYTES
                                           what a ReplyWriter makes of calls, its packets one behind
                                           the other; or `refused CODE` of the last call
    cells | TYPE VALUE | .. | BYTES        a binary row, written and read; TYPE is the number of a
                                           column's type, with `u` behind it where it has no sign
    cells | TYPE VALUE | .. | refused CODE PLACE
    texts | VALUE | .. | BYTES             a text row, written, read and written again
    executed | VALUE | .. | BYTES          the execution of the statement 1 by which values are sent

A LINE is what `Connection.line` gives, without the side; a text in double quotes and x(BYTES) mean
bytes there. FIELDS are words NAME=NUMBER, NAME=BYTES (without blanks). A RANGE is FIRST-LAST,
or a length. Of values, numbers are whole ones, and bytes are texts in quotes and names. `-` is
NULL, and `N * VALUE` a value N times. d(year,month,day,hour,minute,second,microsecond) is a date,
and t(sign,days,hours,minutes,seconds,microseconds) a duration.

Each payload of a connection is put, which has to give its packets as they are framed. It is fed
whole and byte by byte, where the same event has to come with its last byte and nothing before. And
each of its prefixes is put, framed as if it were whole.
"""

import datetime
import functools
import os
import re
import sys

sys.path.insert(0, os.path.join(os.path.dirname(os.path.dirname(os.path.abspath(__file__))),
                                "python"))
sys.dont_write_bytecode = True

import mysql_session as ms
from rows import Field, Report, compare, refusal, rows_of, words_for
from streams import framed, payloads_of

SIDES = {"client": ms.Side.CLIENT, "server": ms.Side.SERVER}
BYTES_OF_LINE = re.compile(r"x\(((?:\"[^\"]*\"|[^)\"])*)\)|(\"[^\"]*\")")
FIELD_OF_CALL = re.compile(r"(\w+)=(\"[^\"]*\"|\S*)")
UNSIGNED = 32
# PROTOCOL_41 and DEPRECATE_EOF.
CAPABILITIES = 0x1000200


def line_of(field):
    """A line, in which bytes are written as a line has them."""
    return BYTES_OF_LINE.sub(lambda it: "x" + Field(it[1] or it[2] or "", field.names).data.hex(),
                             field.text)


def fields_of(field):
    """The fields of a call: numbers and bytes by their names."""
    found = {}
    for name, value in FIELD_OF_CALL.findall(field.text):
        number = re.fullmatch(r"0x[0-9a-f]+|[0-9]+", value)
        found[name] = int(value, 0) if number else Field(value, field.names).data
    return found


def ranges_of(words, word="BAD_PACKET"):
    """The lengths that ranges have, each with the word before its range."""
    found = {}
    for it in words:
        first, _, last = it.partition("-")
        if first.isdigit():
            found.update(dict.fromkeys(range(int(first), int(last or first) + 1), word))
        else:
            word = it
    return found


def code_of(error):
    """The name of an error's code."""
    return ms.Code(error.code).name if error else "nothing"


# ---- Payloads of connections ------------------------------------------------------------------


class State:
    """The state of a connection where a row begins."""

    def __init__(self, row):
        self.row = row

    @functools.cached_property
    def said(self):
        """The payloads that were said before, each with its side."""
        sides = [it.text.partition(" ") for it in self.row.fields]
        return [(SIDES[side], Field(payload, field.names).data)
                for (side, _, payload), field in zip(sides, self.row.fields)]

    def connection(self):
        """A connection without a word."""
        how = self.row.head.split()[1:]
        if how == ["greeting"]:
            return ms.Connection()
        return ms.Connection.after_login(*(int(word, 16) for word in how))

    def put(self):
        """A connection on which the payloads before were put, and their packets."""
        connection, packets = self.connection(), []
        for side, payload in self.said:
            packets.append((side, connection.put(side, payload).packets))
        return connection, packets

    def fed(self):
        """A connection to which they were fed."""
        connection = self.connection()
        for side, packets in self.put()[1]:
            for _ in connection.feed(side, packets):
                pass
        return connection

    def line_of(self, side, payload):
        """The event that a payload is, and its packets."""
        connection, _ = self.put()
        packets = connection.put(side, payload).packets
        return connection.line(secrets=True), packets

    def check_fed(self, side, packets, wanted):
        """Feeds packets whole, and byte by byte."""
        connection = self.fed()
        found = [connection.line(secrets=True) for _ in connection.feed(side, packets)]
        compare(found, [wanted], "fed whole")
        connection = self.fed()
        for at in range(len(packets)):
            lines = [connection.line(secrets=True)
                     for _ in connection.feed(side, packets[at:at + 1])]
            compare(lines, [wanted] if at + 1 == len(packets) else [], f"fed by its byte {at}")

    def code_of_front(self, side, front):
        """The code by which a prefix is refused, or `Other` where it is laid out as no command."""
        connection, _ = self.put()
        found = code_of(refusal(connection.put, side, front))
        return "Other" if found == "nothing" and " Other " in connection.line() else found

    def check(self, name, payload, line, *ranges):
        """Checks what a payload says."""
        side, payload = SIDES[name], payload.data
        if line.text.startswith("refused "):
            connection, _ = self.put()
            compare(code_of(refusal(connection.put, side, payload)), line.text.split()[1])
            return
        found, packets = self.line_of(side, payload)
        compare(found, f"{name} {line_of(line)}", "its event")
        compare(packets, framed([payload], packets[3]), "its packets")
        self.check_fed(side, packets, found)
        check_fronts(payload, ranges, lambda it: self.code_of_front(side, it))


def check_fronts(payload, ranges, code_of_front):
    """Checks that the prefixes of these lengths are refused by their codes, and no others."""
    codes = ranges_of(ranges[0].text.split() if ranges else [])
    for length in range(len(payload)):
        compare(code_of_front(payload[:length]), codes.get(length, "nothing"),
                f"the front of {length} bytes")


# ---- Calls ------------------------------------------------------------------------------------


def check_read(words, payload, fields, *ranges):
    """Checks what a call finds in a payload."""
    call, numbers = getattr(ms, "read_" + words[0]), [int(word, 16) for word in words[1:]]
    payload = payload.data
    if fields.text.startswith("refused "):
        compare(code_of(refusal(call, payload, *numbers)), fields.text.split()[1])
        return
    compare(call(payload, *numbers)._asdict(), fields_of(fields))
    check_fronts(payload, ranges, lambda it: code_of(refusal(call, it, *numbers)))


def check_made(wanted, call, *given, made=b"", **named):
    """Checks what a call makes behind what was made, or by which code it is refused."""
    if wanted.text.startswith("refused "):
        error = refusal(call, *given, **named)
        found = [code_of(error), str(error and error.place)]
        compare(found[:len(wanted.words) - 1], wanted.words[1:])
        return
    compare(made + call(*given, **named), wanted.data, "made")


def check_put(words, fields, wanted):
    """Checks what a call makes."""
    name = "put_" + words[0] if words[0] in ("greeting", "login") else words[0]
    check_made(wanted, getattr(ms, name), **fields_of(fields))


def columns_of(fields):
    """The columns that fields describe: as many of one form as `count` says."""
    fields = dict(fields)
    count = fields.pop("count", 1)
    return [ms.Column(fields.pop("name", b""), fields.pop("type", 0), **fields)] * count


def called(writer, field):
    """What a call of a writer makes."""
    call, fields = field.text.split()[0], fields_of(field)
    if call == "rows":
        return writer.rows(columns_of(fields))
    if call == "prepared":
        statement, warnings = fields.pop("statement"), fields.pop("warnings", 0)
        params, columns = fields.pop("params", 0), fields.pop("columns", 0)
        return writer.prepared(statement, columns_of({**fields, "count": params}),
                               columns_of({**fields, "count": columns}), warnings)
    return getattr(writer, call)(**fields)


def check_write(words, *fields):
    """Checks what a writer of a reply makes."""
    *before, last, wanted = fields
    with ms.ReplyWriter(ms.ReplyKind[words[0].upper()], int(words[1], 16)) as writer:
        made = b"".join(called(writer, it) for it in before)
        check_made(wanted, called, writer, last, made=made)


# ---- Cells ------------------------------------------------------------------------------------


def value_of(field):
    """The value that a field is."""
    text = field.text
    if text == "-":
        return None
    if text.startswith('"') or text in field.names:
        return field.data
    if text[:2] in ("d(", "t("):
        first, *others = [int(it) for it in text[2:-1].split(",")]
        if text[0] == "d":
            return ms.DateFields(first, *others)
        return ms.TimeFields(bool(first), *others)
    return int(text)


def column_of(kind):
    """A column of a type."""
    flags = UNSIGNED if kind.endswith("u") else 0
    return ms.Column(b"", int(kind.rstrip("u")), flags)


def fields_in(value):
    """A value as it was given: a date or a duration by its fields."""
    if isinstance(value, datetime.datetime):
        return ms.DateFields(*value.timetuple()[:6], value.microsecond)
    if isinstance(value, datetime.date):
        return ms.DateFields(value.year, value.month, value.day)
    if isinstance(value, datetime.timedelta):
        is_negative = value < datetime.timedelta(0)
        length = -value if is_negative else value
        return ms.TimeFields(is_negative, length.days, length.seconds // 3600,
                             length.seconds // 60 % 60, length.seconds % 60, length.microseconds)
    return value


def rows_of_one(writer, columns, values, wanted):
    """The reply of this row, which has to be written as wanted."""
    reply, row = writer.rows(columns), writer.row(values)
    compare(row[4:], wanted.data, "written")
    return reply + row + writer.end_rows()


def check_cells(_, *fields):
    """Checks a binary row."""
    *cells, wanted = fields
    pairs = [it.text.partition(" ") for it in cells]
    columns = [column_of(kind) for kind, _, _ in pairs]
    values = [value_of(Field(it, wanted.names)) for _, _, it in pairs]
    with ms.ReplyWriter(ms.ReplyKind.EXECUTE, CAPABILITIES) as writer:
        if wanted.text.startswith("refused "):
            writer.rows(columns)
            check_made(wanted, writer.row, values)
            return
        reply = rows_of_one(writer, columns, values, wanted)
    [rows], _ = ms.read_reply(ms.ReplyKind.EXECUTE, CAPABILITIES, reply)
    compare([fields_in(it) for it in rows.rows[0]],
            [it[:len(fields_in(it))] if isinstance(it, tuple) else it for it in values])


def check_texts(_, *fields):
    """Checks a text row: what is read of it is texts, which are written the same."""
    *cells, wanted = fields
    columns, values = [ms.Column(b"", 253)] * len(cells), [value_of(it) for it in cells]
    for _ in range(2):
        with ms.ReplyWriter(ms.ReplyKind.QUERY, CAPABILITIES) as writer:
            reply = rows_of_one(writer, columns, values, wanted)
        [rows], _ = ms.read_reply(ms.ReplyKind.QUERY, CAPABILITIES, reply)
        values = rows.rows[0]
    compare({type(it) for it in values} - {bytes, type(None)}, set())


def check_executed(_, *fields):
    """Checks the execution by which values are sent, behind the prepare."""
    *given, wanted = fields
    values = []
    for field in given:
        times, _, value = field.text.rpartition(" * ")
        values += [value_of(Field(value, field.names))] * int(times or 1)
    stream = ms.send("?" * len(values), [values], ms.Road.EXECUTE)
    _, (payload, _) = payloads_of(stream)
    compare(payload, wanted.data)


# ---- Files ------------------------------------------------------------------------------------


KINDS = {"read": check_read, "put": check_put, "write": check_write, "cells": check_cells,
         "texts": check_texts, "executed": check_executed}


def check(row, state):
    """Checks a row."""
    if row.head in SIDES:
        state.check(row.head, *row.fields)
    else:
        kind, *words = row.head.split()
        KINDS[kind](words, *row.fields)


def main():
    report = Report()
    for file in words_for(__doc__, "bindings/testing/rows/packets/*.txt").parse_args().files:
        state = None
        for row in rows_of(file):
            if row.head.startswith("at "):
                state = State(row)
            else:
                report.run(row.place, check, row, state)
    return report.end()


if __name__ == "__main__":
    sys.exit(main())
