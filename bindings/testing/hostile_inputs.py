"""The worst inputs that are known for each reader; `costs` measures what the library takes for them.

A row has a reader, a name, what the input is, and a function that makes it of so many items. Its
`power` says how many: 2^power and one for the smaller input, 8 times as many for the greater one.
One more than a power of two is the worst of lists that double as they grow.

An input is the words of a reader, as `costs.c` and `costs_python.py` say them, and its streams. How
many things are shown of it may be known too: then a row fails where there are others. What comes
before it, as a prepare, is read before the measure begins, and doesn't count.
"""

from typing import Callable, List, NamedTuple, Optional, Sequence

from streams import packets_of

PROTOCOL_41, CONNECT_WITH_DB, SECURE, PLUGIN_AUTH = 0x200, 0x8, 0x8000, 0x80000
CONNECT_ATTRS, SESSION_TRACK, DEPRECATE_EOF = 0x100000, 0x800000, 0x1000000
OPTIONAL_METADATA, ATTRIBUTES = 0x2000000, 0x8000000
PROGRESS = 0x20000000
BOTH = PROTOCOL_41 | DEPRECATE_EOF
MARIADB_BULK = 4
MORE_RESULTS, STATE_CHANGED = 0x8, 0x4000
TINY, NULL, DATE, VAR_STRING = 1, 6, 10, 253
LAST_PLACE = 65534
WIDE = 1024
LOGIN = PROTOCOL_41 | SECURE | PLUGIN_AUTH | CONNECT_ATTRS | DEPRECATE_EOF
PLUGIN = b"mysql_native_password\0"
OK_PAYLOAD = b"\0\0\0\2\0\0\0"


class Input(NamedTuple):
    """An input: the words of its reader, its streams, how many things are shown, what comes before."""
    words: List[object]
    streams: List[bytes]
    shown: Optional[int] = None
    front: Sequence[bytes] = ()

    @property
    def fed(self) -> int:
        """How many bytes it has."""
        return sum(len(it) for it in self.streams)


class Row(NamedTuple):
    """A row: its reader, its name, the input in words, how many items there are, what makes it."""
    reader: str
    name: str
    what: str
    power: int
    make: Callable[[int], Input]


ROWS: List[Row] = []
PYTHON_ROWS: List[Row] = []


def row(reader, name, what, power, rows=None):
    """Makes a row of a function that makes an input of so many items."""
    def made(make):
        (ROWS if rows is None else rows).append(Row(reader, name, what, power, make))
        return make
    return made


def sizes_of(given, less):
    """How many items the inputs of a row have, 2^less times fewer than it says."""
    power = max(given.power - less, 0)
    return 2**power + 1, 2**(power + 3) + 1


# ---- Bytes --------------------------------------------------------------------------------------


def little(number, size):
    """A number as bytes."""
    return number.to_bytes(size, "little")


def counted(number):
    """A length-encoded number."""
    if number < 251:
        return bytes([number])
    return b"\xfc" + little(number, 2) if number < 65536 else b"\xfd" + little(number, 3)


def text(data):
    """Bytes behind their length."""
    return counted(len(data)) + data


def framed(payload, number=0):
    """A payload as packets."""
    return packets_of(payload, number)[0]


def repeated(payload, count, number):
    """A payload of one chunk so many times, numbered on from a number."""
    head = little(len(payload), 3)
    block = b"".join(head + bytes([(number + at) % 256]) + payload for at in range(256))
    return (block * (count // 256 + 1))[:count * (len(payload) + 4)]


def column(name=b"", kind=VAR_STRING):
    """The payload of a column."""
    return (text(b"def") + b"\0\0\0" + text(name) + b"\0\x0c" + little(63, 2) + bytes(4)
            + bytes([kind]) + bytes(5))


def execution(places, types=True, kind=NULL, statement=1):
    """The payload of an execution whose values are all NULL."""
    nulls = b"\xff" * ((places + 7) // 8)
    bound = (b"\1" + little(kind, 2) * places if types else b"\0") if places else b""
    return b"\x17" + little(statement, 4) + b"\0" + little(1, 4) + nulls + bound


def long_data(place, data, statement=1):
    """The payload of long data."""
    return b"\x18" + little(statement, 4) + little(place, 2) + data


def prepared(statement, columns, places):
    """The payload that answers a prepare."""
    return b"\0" + little(statement, 4) + little(columns, 2) + little(places, 2) + bytes(3)


def changed(changes):
    """The payload of an OK packet with changes of the session's state."""
    return b"\0\0\0" + little(STATE_CHANGED | 2, 2) + b"\0\0" + b"\0" + text(changes)


def names(count, size=4):
    """Names of some bytes, all different."""
    digits = b"0123456789abcdefghijklmnopqrstuv"
    return [bytes(digits[at >> 5 * place & 31] for place in range(size)) for at in range(count)]


def pairs(keys):
    """The attributes of a login that have these names and no values, after their length."""
    return text(b"".join(text(it) + b"\0" for it in keys))


def high_names(count):
    """Names that are alike but for the highest bits of eight bytes."""
    return [little(at << 44, 8) for at in range(count)]


def greeting():
    """The payload of a greeting."""
    return (b"\x0a5\0" + little(1, 4) + b"a" * 8 + b"\0" + little(LOGIN & 0xFFFF, 2) + b"\x2d"
            + little(2, 2) + little(LOGIN >> 16, 2) + b"\x15" + bytes(10) + b"b" * 12 + b"\0"
            + PLUGIN)


def login(attributes):
    """The payload of a login."""
    return (little(LOGIN, 4) + little(1 << 24, 4) + b"\x2d" + bytes(23) + b"u\0" + b"\0" + PLUGIN
            + attributes)


def change_of_user(attributes):
    """The payload of a change of user."""
    return b"\x11u\0" + b"\0" + b"\0" + little(45, 2) + PLUGIN + attributes


def question_marks(count):
    """A query of so many placeholders."""
    return b",".join([b"?"] * count)


# ---- Packets ------------------------------------------------------------------------------------


@row("packets", "empty payloads", "packets of 4 bytes", 15)
def empty_payloads(n):
    return Input([], [repeated(b"", n, 0)], n)


@row("packets", "one payload", "a payload in pieces of 64 KiB", 17)
def one_payload(n):
    return Input([], [framed(bytes(n))], 1)


@row("packets", "byte by byte", "a payload in pieces of a byte", 16)
def byte_by_byte(n):
    return Input([1], [framed(bytes(n))], 1)


# ---- Streams of commands ------------------------------------------------------------------------


def commands(stream, shown=None, query=b"?", front=b"", end=0):
    """An input of a receiver or a recoder of a query."""
    return Input([0, end], [stream], shown, [query, front])


# How a stream ends where long data waits.
WAITING = 2
PREPARED = framed(b"\x16?")


@row("receiver", "texts of one number", "query `?`, texts `1`, each of 6 bytes", 14)
def texts_of_one_number(n):
    return commands(framed(b"\x031") * n, 2 * n)


@row("receiver", "texts of one string", "query `?`, texts `''`, each of 7 bytes", 14)
def texts_of_one_string(n):
    return commands(framed(b"\x03''") * n, 2 * n)


@row("receiver", "texts of 1024 numbers", "query `?,?, ..`, texts `1,1, ..`", 5)
def texts_of_many_numbers(n):
    stream = framed(b"\x03" + b",".join([b"1"] * WIDE)) * n
    return commands(stream, n * (1 + WIDE), question_marks(WIDE))


@row("receiver", "executions of 1024 NULLs", "executions without types, each of 143 bytes", 7)
def executions_of_nulls(n):
    query = question_marks(WIDE)
    front = framed(b"\x16" + query) + framed(execution(WIDE))
    return commands(framed(execution(WIDE, False)) * n, n * (1 + WIDE), query, front)


@row("receiver", "executions of one NULL", "executions without types, each of 16 bytes", 13)
def executions_of_one_null(n):
    return commands(framed(execution(1, False)) * n, 2 * n, b"?", PREPARED + framed(execution(1)))


@row("receiver", "executions of no value", "query `1`, executions of 14 bytes", 13)
def executions_of_no_value(n):
    return commands(framed(execution(0)) * n, n, b"1", framed(b"\x161"))


@row("receiver", "long data of one place", "packets of 12 bytes, each with one for place 0", 13)
def long_data_of_one_place(n):
    return commands(framed(long_data(0, b"x")) * n, 0, b"?", PREPARED, WAITING)


@row("receiver", "long data of the last place", "the prepare of a query `?,?, ..`, long data of its "
     "last place", 12)
def long_data_of_the_last_place(n):
    query = question_marks(n)
    return commands(framed(b"\x16" + query) + framed(long_data(n - 1, b"x")), 0, query, b"", WAITING)


@row("receiver", "long data of each place", "a packet of 12 bytes for each place, the last one first",
     12)
def long_data_of_each_place(n):
    query = question_marks(n)
    data = b"".join(framed(long_data(at, b"x")) for at in reversed(range(n)))
    return commands(data, 0, query, framed(b"\x16" + query), WAITING)


def bulk(rows):
    """The payload of a bulk execution of rows of one NULL."""
    return b"\xfa" + little(1, 4) + b"\x80\0" + little(TINY, 2) + b"\1" * rows


@row("receiver", "a bulk execution of NULLs", "query `?`, rows of one byte in one packet", 14)
def bulk_of_nulls(n):
    return commands(framed(bulk(n)), 2 * n, b"?", PREPARED)


@row("recoder", "texts of one number", "query `?`, texts `1`, each of 6 bytes", 13)
def recoded_texts(n):
    return texts_of_one_number(n)._replace(shown=None)


@row("recoder", "executions of 1024 NULLs", "executions without types, each of 143 bytes", 6)
def recoded_executions(n):
    return executions_of_nulls(n)._replace(shown=None)


@row("recoder", "a bulk execution of NULLs", "query `?`, rows of one byte in one packet", 14)
def recoded_bulk(n):
    return bulk_of_nulls(n)._replace(shown=None)


# ---- Replies ------------------------------------------------------------------------------------

QUERY, EXECUTE, PREPARE = 0, 1, 2
END_OF_ROWS = b"\xfe\0\0\2\0\0\0"


def column_packets(columns, number=1):
    """The packets of a result set up to its rows, and the number of the next one."""
    made = []
    for payload in [counted(len(columns)), *columns]:
        packets, number = packets_of(payload, number)
        made.append(packets)
    return b"".join(made), number


def row_packets(payload, count, number):
    """The packets of a row so many times, and of what ends them."""
    return repeated(payload, count, number) + framed(END_OF_ROWS, (number + count) % 256)


def result_set(columns, count, row_payload):
    """The packets of a result set: its columns' payloads, and a row so many times."""
    front, number = column_packets(columns)
    return front + row_packets(row_payload, count, number)


def columns_alone(n):
    """The packets of a result set of so many columns without names, and no rows."""
    front = framed(counted(n), 1) + repeated(column(), n, 2)
    return front + framed(END_OF_ROWS, (2 + n) % 256)


@row("reply", "columns without names", "columns of 26 bytes", 12)
def columns_of_a_reply(n):
    return Input([0, QUERY, BOTH, 0], [columns_alone(n)], 1 + n)


@row("reply", "columns of a statement", "the reply to a prepare, columns of 26 bytes", 12)
def columns_of_a_statement(n):
    stream = framed(prepared(1, n, 0), 1) + repeated(column(), n, 2)
    return Input([0, PREPARE, BOTH, 0], [stream], 1 + n)


@row("reply", "rows of one NULL", "rows of 5 bytes", 14)
def rows_of_one_null(n):
    return Input([0, QUERY, BOTH, 0], [result_set([column()], n, b"\xfb")], 2 + n)


@row("reply", "rows of one byte", "rows of 6 bytes", 14)
def rows_of_one_byte(n):
    return Input([0, QUERY, BOTH, 0], [result_set([column()], n, b"\1a")], 2 + n)


def nulls(columns):
    """The payload of a binary row of NULLs."""
    return b"\0" + b"\xff" * ((columns + 9) // 8)


@row("reply", "binary rows of 1024 NULLs", "rows of 134 bytes", 7)
def binary_rows_of_nulls(n):
    front, number = column_packets([column()] * WIDE)
    return Input([0, EXECUTE, BOTH, 0], [row_packets(nulls(WIDE), n, number)],
                 1 + WIDE * (n + 1), [front])


@row("reply", "OK packets", "results of 11 bytes", 13)
def ok_packets(n):
    more = b"\0\0\0" + little(MORE_RESULTS, 2) + b"\0\0"
    return Input([0, QUERY, BOTH, 0],
                 [repeated(more, n, 1) + framed(OK_PAYLOAD, (1 + n) % 256)], n + 1)


@row("reply", "changes of the session's state", "an OK packet with changes of 2 bytes", 16)
def changes_of_state(n):
    return Input([0, QUERY, BOTH | SESSION_TRACK, 0], [framed(changed(b"\1\0" * n), 1)], 1 + n)


@row("reply", "rows under a long name", "a column whose name is half of the input, rows of 5 bytes, "
     "each taken as it comes", 13)
def rows_under_a_long_name(n):
    return Input([5, QUERY, BOTH, 1], [result_set([column(b"n" * (5 * n))], n, b"\xfb")])


@row("reply", "progress reports", "reports of 14 bytes", 13)
def progress_reports(n):
    report = b"\xff\xff\xff\1\1\1\0\0\0\0"
    return Input([0, QUERY, BOTH | PROGRESS, 0],
                 [repeated(report, n, 1) + framed(OK_PAYLOAD, (1 + n) % 256)], 1)


# ---- Connections --------------------------------------------------------------------------------


def after_login(client, server, shown=None, capabilities=BOTH, piece=0, ahead=0, front=()):
    """An input of a connection after its login."""
    return Input([piece, capabilities, MARIADB_BULK, ahead], [client, server], shown, front)


PING, OK = framed(b"\x0e"), framed(OK_PAYLOAD, 1)
# Where a statement's columns don't follow.
SHORT = BOTH | OPTIONAL_METADATA


@row("connection", "pings", "a ping and its OK, 16 bytes", 13)
def pings(n):
    return after_login(PING * n, OK * n, 2 * n)


@row("connection", "pings, byte by byte", "a ping and its OK in pieces of a byte", 12)
def pings_byte_by_byte(n):
    return after_login(PING * n, OK * n, 2 * n, piece=1)


@row("connection", "pings that wait", "all pings, and then all OKs", 13)
def pings_that_wait(n):
    return after_login(PING * n, OK * n, 2 * n, ahead=1)


@row("connection", "a payload that isn't whole", "a command's first bytes, in pieces of 64 KiB", 17)
def not_whole(n):
    return after_login(framed(bytes(n + 1))[:n], b"", 0)


def whole_connection(attributes, n):
    """A greeting and a login with attributes."""
    server = framed(greeting(), 0) + framed(OK_PAYLOAD, 2)
    return Input([0, 0, 0, 0], [framed(login(attributes), 1), server], n)


@row("connection", "a login's attributes", "names of 4 bytes without values, 6 bytes each", 12)
def login_attributes(n):
    return whole_connection(pairs(names(n)), 3 + n)


@row("connection", "a login's attributes by high bits", "names of 8 bytes that differ in their highest "
     "bits", 12)
def login_high_attributes(n):
    return whole_connection(pairs(high_names(n)), 3 + n)


@row("connection", "a login's attributes of one name", "an empty name, 2 bytes each", 14)
def login_one_attribute(n):
    return whole_connection(pairs([b""] * n), None)


@row("connection", "a change of user's attributes", "names of 4 bytes without values, 6 bytes each",
     13)
def change_attributes(n):
    return after_login(framed(change_of_user(pairs(names(n)))), OK, 2 + n,
                       capabilities=BOTH | CONNECT_ATTRS | PLUGIN_AUTH | SECURE)


def statements(ids):
    """Statements of one byte of text by these ids."""
    return after_login(framed(b"\x16S") * len(ids),
                       b"".join(framed(prepared(it, 0, 0), 1) for it in ids), 2 * len(ids))


@row("connection", "statements", "prepares of one byte, by ids in order, 22 bytes each", 12)
def statements_in_order(n):
    return statements(range(1, n + 1))


@row("connection", "statements by high ids", "prepares of one byte, by ids that are multiples of 2^14", 12)
def statements_by_high_ids(n):
    return statements([at << 14 for at in range(1, n + 1)])


@row("connection", "long data of the last place", "a prepare, its answer of 65535 places, long data "
     "of place 65534: 35 bytes", 3)
def connection_long_data(n):
    client = b"".join(framed(b"\x16S") + framed(long_data(LAST_PLACE, b"x", at))
                      for at in range(1, n + 1))
    server = b"".join(framed(prepared(at, 0, LAST_PLACE + 1) + b"\0", 1)
                      for at in range(1, n + 1))
    return after_login(client, server, 3 * n, capabilities=SHORT)


@row("connection", "long data of the last place, reset", "long data of place 65534, a reset of the "
     "statement, its OK: 32 bytes", 6)
def connection_long_data_reset(n):
    reset = framed(b"\x1a" + little(1, 4))
    client = framed(b"\x16S") + (framed(long_data(LAST_PLACE, b"x")) + reset) * n
    server = framed(prepared(1, 0, LAST_PLACE + 1) + b"\0", 1) + OK * n
    return after_login(client, server, 2 + 3 * n, capabilities=SHORT)


@row("connection", "long data of each place", "long data of 12 bytes, the last place first", 12)
def connection_long_data_each(n):
    client = framed(b"\x16S") + b"".join(framed(long_data(at, b"x")) for at in reversed(range(n)))
    return after_login(client, framed(prepared(1, 0, n) + b"\0", 1), 2 + n, capabilities=SHORT)


@row("connection", "columns", "columns of 26 bytes without names", 12)
def connection_columns(n):
    return after_login(framed(b"\x03S"), columns_alone(n), 3 + n)


@row("connection", "columns of a statement", "columns of 26 bytes, which the statement keeps", 12)
def connection_statement_columns(n):
    server = framed(prepared(1, n, 0), 1) + repeated(column(), n, 2)
    return after_login(framed(b"\x16S"), server, 2 + n)


@row("connection", "rows of dates under a long name", "a column whose name is half of the input, "
     "binary rows of 11 bytes", 12)
def connection_long_name(n):
    rows = result_set([column(b"n" * (11 * n), DATE)], n, b"\0\0\4\xe8\7\1\1")
    server = framed(prepared(1, 0, 0), 1) + rows
    return after_login(framed(b"\x16S") + framed(execution(0)), server)


@row("connection", "types of an execution", "an execution of NULLs with their types", 12)
def connection_types(n):
    server = framed(prepared(1, 0, n) + b"\0", 1) + OK
    return after_login(framed(b"\x16S") + framed(execution(n)), server, 4 + n, capabilities=SHORT)


@row("connection", "an execution of NULLs", "an execution without types", 12)
def connection_execution(n):
    front = [framed(b"\x16S") + framed(execution(n)), framed(prepared(1, 0, n) + b"\0", 1) + OK]
    return after_login(framed(execution(n, False)), OK, 2 + n, capabilities=SHORT, front=front)


@row("connection", "executions of 1024 NULLs", "executions without types and their OKs, 154 bytes", 7)
def connection_executions(n):
    front = [framed(b"\x16S") + framed(execution(WIDE)),
             framed(prepared(1, 0, WIDE) + b"\0", 1) + OK]
    return after_login(framed(execution(WIDE, False)) * n, OK * n, n * (2 + WIDE),
                       capabilities=SHORT, front=front)


@row("connection", "a bulk execution of NULLs", "rows of one byte in one packet", 14)
def connection_bulk(n):
    server = framed(prepared(1, 0, 1) + b"\0", 1) + OK
    return after_login(PREPARED + framed(bulk(n)), server, 4 + n, capabilities=SHORT)


@row("connection", "attributes of a query", "attributes that are NULL and have no name", 13)
def connection_query_attributes(n):
    nulls = b"\xff" * ((n + 7) // 8)
    payload = b"\x03" + counted(n) + b"\1" + nulls + b"\1" + (little(NULL, 2) + b"\0") * n + b"S"
    return after_login(framed(payload), OK, 2 + n, capabilities=BOTH | ATTRIBUTES)


@row("connection", "changes of the session's state", "an OK packet with changes of 2 bytes", 16)
def connection_changes(n):
    return after_login(framed(b"\x03S"), framed(changed(b"\1\0" * n), 1), 2,
                       capabilities=BOTH | SESSION_TRACK)


@row("connection", "a long sql_mode", "an OK packet that tells `ANSI,ANSI, ..`", 14)
def connection_mode(n):
    change = b"\0" + text(text(b"sql_mode") + text(b",".join([b"ANSI"] * n)))
    return after_login(framed(b"\x03S"), framed(changed(change), 1), 2,
                       capabilities=BOTH | SESSION_TRACK)


@row("connection", "rows of one NULL", "rows of 5 bytes", 14)
def connection_rows(n):
    return after_login(framed(b"\x03S"), result_set([column()], n, b"\xfb"), 4 + 2 * n)


def behind_columns(n, rows):
    """An input of so many binary rows of NULLs of so many columns, which come before it."""
    columns, number = column_packets([column()] * n)
    front = [framed(b"\x16S") + framed(execution(0)), framed(prepared(1, 0, 0), 1) + columns]
    return after_login(b"", row_packets(nulls(n), rows, number), 1 + rows * (n + 1), front=front)


@row("connection", "a binary row of NULLs", "a row of an eighth of a byte for each column", 12)
def connection_binary_row(n):
    return behind_columns(n, 1)


@row("connection", "binary rows of 1024 NULLs", "rows of 134 bytes", 7)
def connection_binary_rows(n):
    return behind_columns(WIDE, n)


@row("connection", "a text like words of a SET", "a query `SET statemencharactecharsesql_modnam..`",
     12)
def connection_nearly_setting(n):
    return after_login(framed(b"\x03SET " + b"statemencharactecharsesql_modnam" * n), OK, 2)


@row("connection", "answers to a server", "authentication data of 2 bytes, and an answer of none", 12)
def connection_answers(n):
    change = framed(change_of_user(b""))
    server = b"".join(framed(b"\1\2", (1 + 2 * at) % 256) for at in range(n))
    client = change + b"".join(framed(b"", (2 + 2 * at) % 256) for at in range(n))
    return after_login(client, server + framed(OK_PAYLOAD, (1 + 2 * n) % 256), 2 + 2 * n,
                       capabilities=BOTH | PLUGIN_AUTH | SECURE)


@row("lines", "an execution of NULLs", "an execution without types, as a line", 12)
def lines_of_execution(n):
    return connection_execution(n)


@row("lines", "a bulk execution of NULLs", "rows of one byte in one packet, as a line", 14)
def lines_of_bulk(n):
    return connection_bulk(n)


@row("lines", "a query of bytes", "a text of bytes that aren't UTF-8, as a line", 17)
def lines_of_bytes(n):
    return after_login(framed(b"\x03" + b"\xff" * n), OK, 2)


@row("lines", "changes of the session's state", "an OK packet with changes of 2 bytes, as a line", 16)
def lines_of_changes(n):
    return connection_changes(n)


# ---- Single payloads and texts -------------------------------------------------------------------


@row("login", "attributes", "names of 4 bytes without values, 6 bytes each", 12)
def read_attributes(n):
    return Input([], [login(pairs(names(n)))], 1)


@row("login", "attributes by high bits", "names of 8 bytes that differ in their highest bits", 12)
def read_high_attributes(n):
    return Input([], [login(pairs(high_names(n)))], 1)


@row("login", "attributes of one name", "an empty name, 2 bytes each", 14)
def read_one_attribute(n):
    return Input([], [login(pairs([b""] * n))], 1)


@row("query", "placeholders", "a query `?,?, ..`", 15)
def query_of_placeholders(n):
    return Input([], [question_marks(n)], 1)


@row("query", "named placeholders", "a query `:n0000,:n1000, ..`, all names different", 13)
def query_of_names(n):
    return Input([], [b",".join(b":n" + it for it in names(n))], 1)


@row("query", "one named placeholder", "a query `:a,:a, ..`", 15)
def query_of_one_name(n):
    return Input([], [b",".join([b":a"] * n)], 1)


@row("query", "comments", "a query `/**//**/ ..`", 15)
def query_of_comments(n):
    return Input([], [b"/**/" * n], 1)


@row("query", "open comments", "a query `/*!/*! .. ?`, no comment ended", 15)
def query_of_open_comments(n):
    return Input([], [b"/*!" * n + b"?"], 1)


@row("bind", "empty values", "a query `?,?, ..`, each value empty", 13)
def bound_empty_values(n):
    return Input([0, n, 0], [question_marks(n), b""], 3 * n - 1)


@row("bind", "a value of quotes", "query `?`, a value of quotes, as a string", 17)
def bound_quotes(n):
    return Input([0, 1, 0], [b"?", b"'" * n], 2 * n + 2)


@row("bind", "a value of slashes", "query `/*! ? */`, a value `*/*/ ..`", 16)
def bound_in_comment(n):
    return Input([0, 1, 0], [b"/*! ? */", b"*/" * n])


@row("bind", "a value in hexadecimal", "query `?`, a value of letters, by hexadecimal digits", 17)
def bound_hexadecimal(n):
    return Input([0, 1, 4], [b"?", b"a" * n], 2 * n + 11)


@row("mode", "a long sql_mode", "a variable's value `ANSI,ANSI, ..`", 14)
def mode_of_many_names(n):
    return Input([], [b",".join([b"ANSI"] * n)], 1)


# ---- Python -------------------------------------------------------------------------------------


def python_row(reader, name, what, power):
    """A row of the module for Python."""
    return row("python " + reader, name, what, power, PYTHON_ROWS)


def again(reader, of, power):
    """A row of the module for Python by the input of a row of the library for C."""
    found, = (it for it in ROWS if it.make is of)
    PYTHON_ROWS.append(Row("python " + reader, found.name, found.what, power, of))


@python_row("packets", "feeds that aren't taken", "pieces of 100 bytes, then all payloads", 8)
def feeds_not_taken(n):
    return Input([100, 0], [repeated(bytes(96), n, 0)], n)


@python_row("packets", "empty payloads", "packets of 4 bytes", 12)
def python_empty_payloads(n):
    return Input([0, 1], [repeated(b"", n, 0)], n)


@python_row("packets", "byte by byte", "a payload in pieces of a byte", 12)
def python_byte_by_byte(n):
    return Input([1, 1], [framed(bytes(n))], 1)


again("receiver", texts_of_one_number, 10)
again("receiver", executions_of_nulls, 5)
again("receiver", bulk_of_nulls, 12)
again("reply", rows_of_one_null, 11)
again("reply", binary_rows_of_nulls, 6)
again("reply", changes_of_state, 12)
again("reply", ok_packets, 10)
again("reply", rows_under_a_long_name, 9)
again("values", rows_of_one_null, 11)
again("values", binary_rows_of_nulls, 6)
again("connection", pings, 8)
again("connection", login_attributes, 10)
again("connection", statements_in_order, 8)
again("connection", connection_columns, 8)
again("connection", connection_execution, 12)
again("connection", connection_bulk, 12)
again("connection", connection_query_attributes, 10)
again("connection", connection_changes, 12)
again("connection", connection_rows, 9)
again("connection", connection_binary_row, 12)
again("connection", connection_long_name, 7)


@python_row("connection", "executions of a long text", "a text half as long as the executions and OKs",
            7)
def python_executions(n):
    client = framed(b"\x16" + b"S" * (14 * n)) + framed(execution(0)) * n
    return after_login(client, framed(prepared(1, 0, 0), 1) + OK * n)


@python_row("kept", "executions of a long text", "a text half as long as the executions and OKs", 7)
def python_kept_executions(n):
    return python_executions(n)


@python_row("kept", "rows of one NULL", "rows of 5 bytes", 9)
def python_kept_rows(n):
    return connection_rows(n)


@python_row("names", "named placeholders", "`names_of` a query whose names are all different", 10)
def python_names(n):
    return query_of_names(n)


@python_row("bind", "named placeholders", "`bind_text` by a query whose names are all different", 10)
def python_bind_names(n):
    return query_of_names(n)
