"""Rows of values: cells, literals, texts of queries, modes of servers, packets of streams.

    values.py [FILE ..]

Without a FILE it runs those of rows/values. rows.py says how rows are written, and a file's head
what its rows are.
"""

import ctypes
import datetime
import enum
import math
import os
import struct
import sys

sys.path.insert(0, os.path.join(os.path.dirname(os.path.dirname(os.path.abspath(__file__))),
                                "python"))
sys.dont_write_bytecode = True

from mysql_session import (Code, Column, ColumnType, DateFields, EndKind, Mode, MySQLSessionError,
                           PacketReader, Receiver, ReplyKind, ReplyReader, ReplyWriter, Road,
                           Spelling, TimeFields, bind_text, is_safe_to_quote, literal, positional,
                           put_packet, send)
from rows import Field, Report, compare, refusal, rows_of, words_for
from streams import framed, pieces_of

PROTOCOL_41, DEPRECATE_EOF = 0x200, 0x1000000
CAPABILITIES = PROTOCOL_41 | DEPRECATE_EOF
UNSIGNED = 0x20
# Streams up to this length are read in pieces of each size, and up to that one byte by byte.
SHORT, LONG = 64, 100000
PIECE = 4095


def code_of(call, *given, **named):
    """The code by which a call is refused; OK where it isn't."""
    error = refusal(call, *given, **named)
    return error.code if error else Code.OK


# ---- Cells as the library shows them ------------------------------------------------------------


class _Kind(enum.IntEnum):
    """Kinds of values, as mysql_session_kind and mysql_session_value_kind have them."""

    NULL = 0
    INT = 1
    UINT = 2
    BYTES = 3
    FLOAT = 4
    DOUBLE = 5
    DATE = 6
    TIME = 7


class _Value(ctypes.Structure):
    """A value, as mysql_session_value has it."""

    _fields_ = [("kind", ctypes.c_uint32), ("negative", ctypes.c_bool),
                *((it, ctypes.c_uint8) for it in ("month", "day", "hour", "minute", "second")),
                ("year", ctypes.c_uint16), ("days", ctypes.c_uint32), ("micros", ctypes.c_uint32),
                ("int_value", ctypes.c_int64), ("uint_value", ctypes.c_uint64),
                ("bytes", ctypes.c_void_p), ("len", ctypes.c_size_t)]


class Raw:
    """The cells of the only row of a reply, by the shared object itself."""

    def __init__(self):
        folder = os.environ.get("MYSQL_SESSION_LIBRARY") or os.path.join(
            os.path.dirname(os.path.dirname(os.path.abspath(__file__))), "out")
        self.library = ctypes.CDLL(os.path.join(folder, "libmysql_session.so"))
        self.library.mysql_session_free.restype = None

    def call(self, name, *given):
        """Makes a call that has to be done."""
        compare(getattr(self.library, "mysql_session_" + name)(*given), 0, name)

    def cells(self, reply_kind, reply, count):
        """The cells, and the reply is freed behind them."""
        at, cell = ctypes.c_void_p(), _Value()
        handle = ctypes.byref(at)
        try:
            self.call("reply_new", handle, int(reply_kind), CAPABILITIES, 1, ctypes.c_size_t(1 << 24))
            self.call("reply_feed", handle, reply, ctypes.c_size_t(len(reply)))
            self.call("reply_take", handle)
            for place in range(count):
                places = (ctypes.c_size_t(it) for it in (0, 0, place))
                self.call("reply_cell", handle, *places, ctypes.byref(cell))
                yield shown(cell)
        finally:
            self.library.mysql_session_free(handle)


RAW = Raw()


def fields_in(cell):
    """The fields of a date or a duration that the module gives."""
    if isinstance(cell, datetime.datetime):
        return (cell.year, cell.month, cell.day, cell.hour, cell.minute, cell.second,
                cell.microsecond)
    if isinstance(cell, datetime.date):
        return cell.year, cell.month, cell.day, 0, 0, 0, 0
    if isinstance(cell, datetime.timedelta):
        is_negative = cell < datetime.timedelta(0)
        length = -cell if is_negative else cell
        return (is_negative, length.days, length.seconds // 3600, length.seconds // 60 % 60,
                length.seconds % 60, length.microseconds)
    return tuple(cell)


def is_given_as(value, cell):
    """Whether the module gives a value so."""
    kind, *given = value
    if kind == _Kind.NULL:
        return cell is None
    if kind in (_Kind.DATE, _Kind.TIME):
        return fields_in(cell) == tuple(given)
    if kind in (_Kind.FLOAT, _Kind.DOUBLE):
        words, numbers = ("<I", "<f") if kind == _Kind.FLOAT else ("<Q", "<d")
        number = struct.unpack(numbers, struct.pack(words, given[0]))[0]
        return type(cell) is float and (cell == number or math.isnan(cell) and math.isnan(number))
    return cell == given[0]


# ---- Fields -----------------------------------------------------------------------------------


def value_of(field):
    """A value: `null`, `int N`, `uint N`, `bytes ..`, `date` with seven numbers, `time` with a sign
    and five, `float` and `double` with their bits."""
    kind, *given = field.words
    if kind == "null":
        return (_Kind.NULL,)
    if kind == "bytes":
        return (_Kind.BYTES, behind_word(field).data)
    if kind == "time":
        return (_Kind.TIME, given[0] == "-", *map(int, given[1:]))
    return (_Kind[kind.upper()], *(int(it, 0) for it in given))


def behind_word(field):
    """What a field has behind its first word."""
    return Field(field.text.partition(" ")[2], field.names)


def parameter_of(value):
    """A value as a parameter."""
    kind, *given = value
    if kind == _Kind.NULL:
        return None
    if kind == _Kind.DATE:
        return DateFields(*given)
    return TimeFields(*given) if kind == _Kind.TIME else given[0]


def mode_of(field):
    """A mode by the names of its flags; `-` where it has none."""
    return Mode(**{it: True for it in field.words if it != "-"})


# ---- Packets ----------------------------------------------------------------------------------


ENDS = {"whole": Code.OK, "unfinished": Code.UNFINISHED, "too large": Code.FAULT_TOO_LARGE,
        "out of sync": Code.FAULT_OUT_OF_SYNC}


def end_of(field):
    """The code of an end."""
    return ENDS[field.text[5:] if field.text.startswith("end: ") else field.text]


def payloads_in(number, limit, pieces):
    """The payloads of a stream in pieces, and the code of its end, at which a fault stays."""
    found = []
    with PacketReader(number, limit) as reader:
        for piece in pieces:
            reader.feed(piece)
            try:
                found.extend(reader)
            except MySQLSessionError as error:
                reader.feed(b"\x00\x00\x00\x00")
                compare(code_of(reader.payload), error.code, "a fault stays")
                return found, error.code
        return found, code_of(reader.restart)


def check_packets(number, limit, stream, *wanted):
    """`packets | number | limit | stream | payload: .. | .. | end: whole`."""
    number, limit, stream = number.number, limit.number, stream.data
    payloads, end = [behind_word(it).data for it in wanted[:-1]], end_of(wanted[-1])
    ways = {"whole": [stream], f"in pieces of {PIECE}": pieces_of(stream, PIECE)}
    for size in range(1, len(stream)) if len(stream) <= SHORT else ():
        ways[f"in pieces of {size}"] = pieces_of(stream, size)
        ways[f"in two pieces, cut at {size}"] = [stream[:size], b"", stream[size:]]
    if SHORT < len(stream) <= LONG:
        ways["byte by byte"] = pieces_of(stream, 1)
    if not stream:
        ways["in no piece"] = []
    for way, pieces in ways.items():
        compare(payloads_in(number, limit, pieces), (payloads, end), way)


def check_put(number, limit, payload, *wanted):
    """`put | number | limit | payload | stream | number of what follows`, or `too large`."""
    number, limit, payload = number.number, limit.number, payload.data
    if len(wanted) == 1:
        compare(code_of(put_packet, payload, number, limit), end_of(wanted[0]), "refused")
        return
    compare(put_packet(payload, number, limit), (wanted[0].data, wanted[1].number), "packets")


# ---- Cells ------------------------------------------------------------------------------------


def column(kind, flags):
    """The definition of a column."""
    return (b"\x03def" + 5 * b"\x00" + b"\x0c\x3f\x00" + bytes(4)
            + bytes([kind]) + flags.to_bytes(2, "little") + bytes(3))


END_OF_ROWS = bytes.fromhex("fe 00 00 02 00 00 00")


def reply_of(kinds, row):
    """The stream of a reply with these columns and a row."""
    return framed([bytes([len(kinds)]), *(column(*it) for it in kinds), row, END_OF_ROWS], 1)


def shown(cell):
    """A cell as a value."""
    if cell.kind == _Kind.NULL:
        return (_Kind.NULL,)
    if cell.kind == _Kind.INT:
        return (_Kind.INT, cell.int_value)
    if cell.kind == _Kind.BYTES:
        return (_Kind.BYTES, ctypes.string_at(cell.bytes, cell.len) if cell.len else b"")
    if cell.kind == _Kind.DATE:
        return (_Kind.DATE, cell.year, cell.month, cell.day, cell.hour, cell.minute, cell.second,
                cell.micros)
    if cell.kind == _Kind.TIME:
        return (_Kind.TIME, cell.negative, cell.days, cell.hour, cell.minute, cell.second,
                cell.micros)
    return (_Kind(cell.kind), cell.uint_value)


def cells_in(reply_kind, kinds, row):
    """The cells of the only row of a reply; the code of the fault where it can't be read."""
    with ReplyReader(reply_kind, CAPABILITIES) as reader:
        code = code_of(reader.feed, reply_of(kinds, row))
        if code:
            return code
        compare(reader.end().kind, EndKind.WHOLE, "the reply ends")
        [rows] = reader.take()
        found = list(RAW.cells(reply_kind, reply_of(kinds, row), len(kinds)))
        given = [is_given_as(*it) for it in zip(found, rows.rows[0])]
        compare(given, [True] * len(kinds), f"{rows.rows[0]} for {found}")
        return found


# Stands behind each cell, as one of its own.
BEHIND = (ColumnType.TINY, 0)
DOT = (_Kind.INT, 0x2e)


def check_binary(kind, flags, cell, wanted):
    """`binary | type | flags | cell | value`, of which no prefix is a cell; or `.. | refused`. Of a
    long cell some prefixes are tried."""
    kind, flags, cell = ColumnType[kind.text], int(flags.text, 16), cell.data
    if wanted.text == "refused":
        compare(cells_in(ReplyKind.EXECUTE, [(kind, flags)], b"\x00\x00" + cell),
                Code.REPLY_BAD_ROW, "in a row")
        compare(contents_in(kind, flags, cell), Code.FAULT_BAD_TYPE, "in an execution")
        return
    row, value = b"\x00\x00" + cell + b".", value_of(wanted)
    compare(cells_in(ReplyKind.EXECUTE, [(kind, flags), BEHIND], row), [value, DOT], "in a row")
    compare(contents_in(kind, flags, cell), content_of(value), "in an execution")
    for length in range(len(cell)) if len(cell) <= SHORT else (0, 1, 2, 3, 4, len(cell) - 1):
        front = b"\x00\x00" + cell[:length]
        compare(cells_in(ReplyKind.EXECUTE, [(kind, flags)], front), Code.REPLY_BAD_ROW,
                f"cut at {length}")


def contents_in(kind, flags, cell):
    """What an execution carries of this cell, with a TINY of 46 behind it; or a fault's code."""
    types = bytes([kind, 0x80 if flags & UNSIGNED else 0, ColumnType.TINY, 0])
    head = bytes.fromhex("17 01 00 00 00 00 01 00 00 00 00 01")
    with Receiver("SELECT ?, ?") as receiver:
        stream = framed([b"\x16SELECT ?, ?"]) + framed([head + types + cell + b"."])
        code = code_of(receiver.feed, stream)
        if code:
            return code
        [[found, behind]] = receiver.take()
        compare(behind, 0x2e, "the parameter behind it")
        return found


def content_of(value):
    """What a value means: dates and times are the bytes of their texts; a float is refused."""
    kind, *given = value
    if kind in (_Kind.FLOAT, _Kind.DOUBLE):
        return Code.FAULT_FLOAT
    if kind == _Kind.DATE:
        text = "{:04}-{:02}-{:02}".format(*given[:3])
        return (text + time_behind(" {:02}:{:02}:{:02}".format(*given[3:6]), given[3:])).encode()
    if kind == _Kind.TIME:
        negative, days, hours, minutes, seconds, micros = given
        sign = "-" if negative and any(given[1:]) else ""
        text = f"{sign}{24 * days + hours:03}:{minutes:02}:{seconds:02}"
        return (text + (f".{micros:06}" if micros else "")).encode()
    return given[0] if given else None


def time_behind(text, fields):
    """The time of a date, where it has one."""
    if not any(fields):
        return ""
    return text + (f".{fields[3]:06}" if fields[3] else "")


SENT_AS = {_Kind.INT: ColumnType.LONGLONG, _Kind.UINT: ColumnType.LONGLONG,
           _Kind.BYTES: ColumnType.VAR_STRING, _Kind.DATE: ColumnType.DATETIME,
           _Kind.TIME: ColumnType.TIME}


def check_written(value, cell):
    """`written | value | cell`: as the cell of a row, and of an execution."""
    value, cell = value_of(value), cell.data
    with ReplyWriter(ReplyKind.EXECUTE, CAPABILITIES) as writer:
        flags = UNSIGNED if value[0] == _Kind.UINT else 0
        writer.rows([Column(b"", SENT_AS[value[0]], flags)])
        row = writer.row([parameter_of(value)])
    compare(row[4:], b"\x00\x00" + cell, "in a row")
    stream = send("SELECT ?", [[parameter_of(value)]], Road.EXECUTE)
    # Behind the prepare of 13 bytes and a header: the command, its bitmap, the flag and the type.
    compare(stream[13 + 4 + 10 + 1 + 1 + 2:], cell, "in an execution")


def check_text(cell, wanted):
    """`text | cell | value`, or `text | cell | refused`."""
    # Between two others: what begins with fe, fb or ff would be no row.
    kinds, row = 3 * [(ColumnType.VAR_STRING, 0)], b"\x01." + cell.data
    dot = (_Kind.BYTES, b".")
    if wanted.text == "refused":
        for behind in (b"", b"..", b"\x01."):
            compare(cells_in(ReplyKind.QUERY, kinds, row + behind), Code.REPLY_BAD_ROW, "in a row")
    else:
        compare(cells_in(ReplyKind.QUERY, kinds, row + b"\x01."), [dot, value_of(wanted), dot],
                "in a row")


# ---- Literals, texts and modes ----------------------------------------------------------------


def check_literal(value, mode, text, *hexadecimal):
    """`literal | value | mode | text`, and `.. | text in hexadecimal` where that is another one."""
    value, mode = value_of(value), mode_of(mode)
    texts = {Spelling.QUOTED: text.data}
    texts[Spelling.HEXADECIMAL] = hexadecimal[0].data if hexadecimal else text.data
    for spelling, wanted in texts.items():
        found = literal(parameter_of(value), mode=mode, spelling=spelling)
        compare(found, wanted, spelling.name.lower())
        compare(content_read(found, mode, spelling), content_of(value), "read back")


def content_read(text, mode, spelling):
    """The content of a literal, or the code of a fault."""
    with Receiver("SELECT ?", mode=mode, spelling=spelling) as receiver:
        code = code_of(receiver.feed, framed([b"\x03SELECT " + text]))
        if code:
            return code
        [[found]] = receiver.take()
        return found


def check_read(text, mode, wanted, *hexadecimal):
    """`read | text | mode | value`, or `none` where the text is no literal; and `.. | value` by
    hexadecimal, where that is another one."""
    answers = {Spelling.QUOTED: wanted}
    answers[Spelling.HEXADECIMAL] = hexadecimal[0] if hexadecimal else wanted
    for spelling, answer in answers.items():
        found = content_read(text.data, mode_of(mode), spelling)
        none = answer.text == "none"
        compare(found, Code.FAULT_TEXT_MISMATCH if none else content_of(value_of(answer)),
                f"read, {spelling.name.lower()}")


def check_status(bits, mode):
    """`status | bits | mode`."""
    compare(Mode.of(int(bits.text, 16)), mode_of(mode), "mode")


def check_sql_mode(value, mode):
    """`sql_mode | the variable's value | mode`."""
    wanted = None if mode.text == "unknown" else mode_of(mode)
    compare(Mode.of_sql_mode(value.data), wanted, "mode")


def check_collations(answer, ids):
    """`collations | safe or unsafe | ids`."""
    for number in ids.words:
        compare(is_safe_to_quote(int(number)), answer.text == "safe", number)


def check_marked(query, mode, wanted):
    """`marked | query | mode | query with marks`, or `mixed`."""
    query, mode = query.data, mode_of(mode)
    if wanted.text == "mixed":
        compare(code_of(positional, query, mode=mode), Code.MIXED, "refused")
    else:
        compare(positional(query, mode=mode), wanted.data, "marked")


def check_bind(query, mode, *rest):
    """`bind | query | mode | value | .. | text`, or `.. | refused: NAME`, and the position behind
    it where one is told."""
    query, mode, values, wanted = query.data, mode_of(mode), rest[:-1], rest[-1]
    values = [parameter_of(value_of(it)) for it in values]
    if wanted.words[0] == "refused:":
        error = refusal(bind_text, query, values, mode=mode)
        told = [Code(error.code).name, str(error.place)] if error else []
        compare(told[:len(wanted.words) - 1], wanted.words[1:], "refused")
    else:
        compare(bind_text(query, values, mode=mode), wanted.data, "bound")


# ---- Files ------------------------------------------------------------------------------------


KINDS = {"packets": check_packets, "put": check_put, "binary": check_binary, "text": check_text,
         "written": check_written, "literal": check_literal, "read": check_read,
         "status": check_status, "sql_mode": check_sql_mode, "collations": check_collations,
         "marked": check_marked, "bind": check_bind}


def main():
    report = Report()
    for file in words_for(__doc__, "bindings/testing/rows/values/*.txt").parse_args().files:
        for row in rows_of(file):
            report.run(row.place, lambda: KINDS[row.head](*row.fields))
    return report.end()


if __name__ == "__main__":
    sys.exit(main())
