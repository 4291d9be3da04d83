"""Writes the inputs of all workloads, the same for every side: inputs.py FOLDER [SETS ROWS]

SETS and ROWS are those of the benchmark where they aren't named; tools/guard counts over fewer."""
import os
import struct
import sys

OUT = sys.argv[1]
SETS, ROWS = map(int, sys.argv[2:]) if len(sys.argv) > 2 else (10_000, 1_000_000)
CELL_ROWS = 1_000
BEFORE, BETWEEN, AFTER = b"INSERT INTO people (id, name, note, age) VALUES (", b", ", b")"
QUERY = BEFORE + BETWEEN.join([b"?"] * 4) + AFTER
# Of both sides, logged in: long passwords, the protocol of 4.1, transactions, its passwords, plugins.
CAPABILITIES = 0x8a201
LONG = b"SELECT " + b", ".join(b"column%d" % i for i in range(800)) + b" FROM people WHERE id = ? AND name = ? AND note = ? AND age = ?"
ESCAPED = [(b"\\", b"\\\\"), (b"\0", b"\\0"), (b"\n", b"\\n"), (b"\r", b"\\r"), (b"\x1a", b"\\Z"), (b"'", b"\\'"), (b'"', b'\\"')]


def values(i):
    note = "note %d: it's a \"test\" of \u00e9scapes\n" % i
    return [1_000_000 + i * 37, b"user%d" % i, note.encode(), None if i % 4 == 0 else 18 + i % 80]


def counted(text):
    size = len(text)
    if size < 251:
        return bytes([size]) + text
    return (b"\xfc" + struct.pack("<H", size) if size < 65536 else b"\xfe" + struct.pack("<Q", size)) + text


def escaped(text):
    for byte, pair in ESCAPED:
        text = text.replace(byte, pair)
    return text


def literal(value):
    return b"NULL" if value is None else b"%d" % value if isinstance(value, int) else b"'" + escaped(value) + b"'"


def kind(value):
    return 6 if value is None else 8 if isinstance(value, int) else 253


def cell(value):
    return b"" if value is None else struct.pack("<q", value) if isinstance(value, int) else counted(value)


def packet(number, payload):
    return struct.pack("<I", len(payload))[:3] + bytes([number & 255]) + payload


def text_command(one):
    return packet(0, b"\3" + BEFORE + BETWEEN.join(map(literal, one)) + AFTER)


def null_bits(one, offset):
    return bytes([sum(1 << (k + offset) for k, value in enumerate(one) if value is None)])


def execution(one):
    types = b"".join(bytes([kind(value), 0]) for value in one)
    return packet(0, b"\x17" + struct.pack("<IBI", 1, 0, 1) + null_bits(one, 0) + b"\1" + types + b"".join(map(cell, one)))


def bulk_request(sets):
    types = b"\x08\0\xfd\0\xfd\0\x08\0"
    cells = (b"\1" if value is None else b"\0" + cell(value) for one in sets for value in one)
    return packet(0, b"\xfa" + struct.pack("<IH", 1, 0x80) + types + b"".join(cells))


def column(name, number):
    texts = [b"def", b"test", b"people", b"people", name, name]
    return b"".join(map(counted, texts)) + b"\x0c" + struct.pack("<HIBHB", 45, 80, number, 0, 0) + b"\0\0"


def row(i):
    return [1_000_000 + i, b"user%d" % i, b"note %d of a row" % i, None if i % 4 == 0 else 18 + i % 80]


def text_row(one):
    return b"".join(b"\xfb" if value is None else counted(b"%d" % value if isinstance(value, int) else value) for value in one)


def binary_row(one):
    return b"\0" + null_bits(one, 2) + b"".join(map(cell, one))


def reply(rows, form):
    end = b"\xfe\0\0\2\0"
    yield b"\4"
    for name, number in (b"id", 8), (b"name", 253), (b"note", 253), (b"age", 8):
        yield column(name, number)
    yield end
    for i in range(rows):
        yield form(row(i))
    yield end


def write(name, *parts):
    with open(os.path.join(OUT, name), "wb") as file:
        for part in parts:
            file.write(part)


def write_sets(name, sets):
    write(name, *(bytes([kind(value)]) + cell(value) for one in sets for value in one))


def write_reply(name, rows, form):
    write(name, *(packet(1 + i, payload) for i, payload in enumerate(reply(rows, form))))


def one_row(i):
    """A row of as many bytes as every other."""
    return [1_000_000 + i, b"user%07d" % i, b"note %07d of a row" % i, 18 + i % 80]


def one_reply(i, form):
    payloads = [*reply(0, form)]
    payloads.insert(-1, form(one_row(i)))
    return b"".join(packet(1 + k, payload) for k, payload in enumerate(payloads))


def greeting():
    data = bytes(range(65, 85))
    low, high = CAPABILITIES & 0xffff, CAPABILITIES >> 16
    head = b"\x0a8.0.36\0" + struct.pack("<I", 7) + data[:8] + b"\0"
    return head + struct.pack("<HBHHB", low, 45, 2, high, 21) + bytes(10) + data[8:] + b"\0mysql_native_password\0"


def response():
    return struct.pack("<IIB", CAPABILITIES, 1 << 24, 45) + bytes(23) + b"user\0\x14" + bytes(range(20)) + b"mysql_native_password\0"


def prepared(count):
    """The reply to a prepare of a statement of four columns."""
    end = b"\xfe\0\0\2\0"
    columns = [column(name, 253) for name in (b"id", b"name", b"note", b"age")]
    payloads = [b"\0" + struct.pack("<IHHBH", 1, 4, count, 0, 0), *[column(b"?", 253)] * count, end, *columns, end]
    return b"".join(packet(1 + i, payload) for i, payload in enumerate(payloads))


def with_name(name):
    return [[1_000_000 + i * 37, name(i), b"", None] for i in range(SETS // 10)]


def noise(i):
    return bytes((i * 31 + k * k * 7 + k) & 255 for k in range(1000))


os.makedirs(OUT, exist_ok=True)
every = [values(i) for i in range(SETS)]
write("query", QUERY)
write("long", LONG)
write_sets("sets", every)
# Two sets, each of more bytes than a chunk has room for, so that their texts go as long data.
write_sets("sets-long-data", [[1, b"nine MB." * 1_125_000, b"nine MB." * 1_125_000, 2]] * 2)
write_sets("plain", with_name(lambda i: b"abcdefgh %d " % i * 70))
write_sets("quotes", with_name(lambda i: b"'\\\"\n" * 250))
write_sets("binary", with_name(noise))
write_sets("digits", [[b"%d" % one[0]] for one in every])
write_sets("numbers", [[one[0]] for one in every])
# Workloads over sets: the name, the road, the query, the sets, how many there are, and how many times all of them are sent.
WORKS = """
send-text text query sets 10000 100
send-text-listed text query sets 10000 100
send-text-apart text query sets 10000 100
send-text-kept text query sets 10000 100
send-text-one text query sets 1 1000000
send-text-long text long sets 10000 10
send-text-plain text query plain 1000 100
send-text-plain-listed text query plain 1000 100
send-text-quotes text query quotes 1000 100
send-text-binary text query binary 1000 100
send-execute execute query sets 10000 100
send-execute-listed execute query sets 10000 100
send-execute-kept execute query sets 10000 100
send-execute-one execute query sets 1 1000000
send-execute-plain execute query plain 1000 100
send-execute-plain-listed execute query plain 1000 100
send-execute-plain-kept execute query plain 1000 100
send-bulk bulk query sets 10000 100
send-bulk-plain bulk query plain 1000 100
send-values-text text query sets 10000 100
send-values-execute execute query sets 10000 100
send-values-bulk bulk query sets 10000 100
"""
write("works", WORKS.lstrip().encode())
write("prepare", packet(0, b"\x16" + QUERY))
write("texts", *map(text_command, every))
write("executes", *map(execution, every))
write("bulks", bulk_request(every))
# Whole connections: what logs in, and the replies to the commands above, each of as many bytes.
write("login-client", packet(1, response()))
write("login-server", packet(0, greeting()), packet(2, b"\0\0\0\2\0\0\0"))
write("prepared", prepared(4))
write("replies-text", *(one_reply(i, text_row) for i in range(SETS)))
write("replies-binary", *(one_reply(i, binary_row) for i in range(SETS)))
write_reply("reply-text", ROWS, text_row)
write_reply("reply-binary", ROWS, binary_row)
write_reply("cells-text", CELL_ROWS, text_row)
write_reply("cells-binary", CELL_ROWS, binary_row)
