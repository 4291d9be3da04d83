"""Commands that no client library lays out so, with what is sent before and behind each.

`executions.py` sends them to servers. Payloads and values are laid out by hand.
"""

import struct
from typing import NamedTuple

from by_hand import (BULK_EXECUTE, CHANGE_USER, CLOSE, CONNECT_ATTRS, EXECUTE, FETCH, LONG_DATA,
                     MARIADB_BULK, QUERY, QUERY_ATTRIBUTES, RESET_STATEMENT, lenenc)

STRING, BIGINT, DECIMAL = b"\xfd\0", b"\x08\0", b"\xf6\0"
# The statement's id in payloads; the server gives another, which is sent in its place.
ID = b"\x01\0\0\0"
# What is asked behind commands that have no reply: what comes before its answer answers them.
WITHOUT_REPLY = (LONG_DATA, CLOSE)
ASKED = bytes([QUERY]) + b"SELECT 'asked'"
OF_STATEMENTS = (EXECUTE, LONG_DATA, CLOSE, RESET_STATEMENT, FETCH, BULK_EXECUTE)
ONE, TWO, THREE = (b"SELECT " + b", ".join([b"CONCAT(?)"] * it) for it in (1, 2, 3))
INTO = b"INSERT INTO seen VALUES (?, ?)"
# The text of queries that have attributes.
RAN = b"SELECT 77"
SEEN = b"SELECT a, b FROM seen"
# Without transactions: rows stay that were run before one that is refused.
SEEN_TABLE = (b"CREATE TEMPORARY TABLE seen (a VARCHAR(99), b VARCHAR(99) DEFAULT 'by default') "
              b"ENGINE=MyISAM")
# A change of user names the plugin that the server has; both names are as long.
PLUGIN, PLUGIN_OF_MYSQL = b"mysql_native_password\0", b"caching_sha2_password\0"


class Trial(NamedTuple):
    """A command that is tried: what is sent before it, its payload, and what is asked behind it."""

    command: str
    field: str
    payload: bytes
    before: tuple = ()
    behind: tuple = ()
    prepared: object = ONE
    more: int = 0
    extended: int = 0


# ---- Payloads -----------------------------------------------------------------------------------


def text(value):
    """A cell of a string."""
    return lenenc(value)


def execution(types=STRING, cells=text(b"a"), bitmap=b"\0", flags=0, iterations=1, bound=b"\1",
              number=ID, rest=b""):
    """An execution, any field of which may be odd."""
    return (bytes([EXECUTE]) + number + bytes([flags]) + struct.pack("<I", iterations) + bitmap +
            bound + types + cells + rest)


def bulk(flags=0x80, types=STRING * 2, rows=b"\0\1a\0\1b", number=ID):
    """A bulk execution."""
    return bytes([BULK_EXECUTE]) + number + struct.pack("<H", flags) + types + rows


def long_data(data, place=0, number=ID):
    """Long data for a parameter."""
    return bytes([LONG_DATA]) + number + struct.pack("<H", place) + data


# Types whose cells have a length of their own; all others have a length before them.
SIZES = {0: 1, 1: 1, 2: 2, 13: 2, 3: 4, 4: 4, 9: 4, 5: 8, 8: 8, 6: 0}
DATES = (7, 10, 12)
FLOATS = {4: "<f", 5: "<d"}
NAMES = {0: "DECIMAL", 1: "TINY", 2: "SHORT", 3: "LONG", 4: "FLOAT", 5: "DOUBLE", 6: "NULL",
         7: "TIMESTAMP", 8: "LONGLONG", 9: "INT24", 10: "DATE", 11: "TIME", 12: "DATETIME",
         13: "YEAR", 14: "NEWDATE", 15: "VARCHAR", 16: "BIT", 17: "TIMESTAMP2", 18: "DATETIME2",
         19: "TIME2", 20: "TYPED_ARRAY", 242: "VECTOR", 243: "INVALID", 244: "BOOL", 245: "JSON",
         246: "NEWDECIMAL", 247: "ENUM", 248: "SET", 249: "TINY_BLOB", 250: "MEDIUM_BLOB",
         251: "LONG_BLOB", 252: "BLOB", 253: "VAR_STRING", 254: "STRING", 255: "GEOMETRY"}
MOMENT = struct.pack("<HBBBBBI", 2024, 2, 29, 13, 14, 15, 60)
SPAN = struct.pack("<IBBBI", 1, 2, 3, 4, 60)


def executions():
    """Trials of executions but for their cells."""
    trial = lambda field, payload, **how: Trial("17 Execute", field, payload, **how)
    in_force = (execution(),)
    for iterations in (1, 0, 2, 255, 2**32 - 1):
        yield trial(f"iteration count {iterations}", execution(iterations=iterations))
    for flags in (1, 2, 3, 4, 8, 0x10, 0x20, 0x40, 0x80, 0xFF):
        yield trial(f"flags {flags:02x}", execution(flags=flags))
    yield trial("a byte behind the last value", execution(rest=b"!"))
    yield trial("many bytes behind the last value", execution(rest=b"!" * 20))
    yield trial("a byte behind, without types", execution(types=b"", bound=b"\0", rest=b"!"),
                before=in_force)
    yield trial("a byte behind, no places", execution(b"", b"", b"", bound=b"", rest=b"!"),
                prepared=b"SELECT 'none'")
    yield trial("types and a value, no places", execution(), prepared=b"SELECT 'none'")
    yield trial("a text that the payload cuts off", execution(cells=b"\3xyz"[:3]))
    yield trial("a text of which only its length is there", execution(cells=b"\3"))
    yield trial("no cells", execution(cells=b""))
    yield trial("a number that is cut off", execution(BIGINT, b"\1\0\0"))
    yield trial("one type of two", execution(bitmap=b"\0", cells=b""), prepared=TWO)
    yield trial("no types", execution(types=b"", cells=b""))
    for size, what in ((10, "nothing behind the iteration count"), (11, "the bitmap alone"),
                       (7, "a cut iteration count"), (5, "no flags"), (4, "a cut id"),
                       (1, "no id")):
        yield trial(what, execution()[:size])
    for bound in (0, 2, 0x80, 0xFF):
        yield trial(f"bound {bound:02x}, with types", execution(bound=bytes([bound])))
        yield trial(f"bound {bound:02x}, with types, types in force",
                    execution(bound=bytes([bound])), before=in_force)
    yield trial("bound 0, without types, none in force", execution(b"", bound=b"\0"))
    yield trial("bound 0, without types, types in force", execution(b"", bound=b"\0"),
                before=in_force)
    yield trial("NULL by the bitmap, and a cell", execution(bitmap=b"\1"))
    yield trial("bits of no places in the bitmap", execution(bitmap=b"\xfe"))
    for second in (0x01, 0x40, 0x7F, 0x80, 0xFF):
        yield trial(f"second byte of a text's type {second:02x}",
                    execution(bytes([0xFD, second])))
        yield trial(f"second byte of a number's type {second:02x}",
                    execution(bytes([0x08, second]), b"\xff" * 8))
    for number in (0, 2, 2**32 - 2, 2**32 - 1):
        yield trial(f"statement {number:x}", execution(number=struct.pack("<I", number)))
    yield trial("statement ffffffff, none prepared", execution(number=b"\xff" * 4), prepared=None)


def cells():
    """Trials of cells; a text follows each, so that it shows how far the cell was read."""
    trial = lambda field, kind, cell, **how: Trial(
        "17 Execute, a cell", field, execution(bytes([kind, 0]) + STRING, cell + text(b"x")),
        prepared=TWO, **how)
    for kind in (*range(22), 100, *range(241, 256)):
        cell = b"\1\0\0\0\0\0\0\0"[:SIZES[kind]] if kind in SIZES else b"\1" + b"7"
        if kind in FLOATS:
            cell = struct.pack(FLOATS[kind], 1.5)
        if kind in DATES:
            cell = b"\4" + MOMENT[:4]
        if kind == 11:
            cell = b"\x08\0" + SPAN[:7]
        yield trial(f"type {kind} ({NAMES.get(kind, 'no name')})", kind, cell)
    for first, count in ((0xFB, 0), (0xFB, 8), (0xFC, 2), (0xFD, 3), (0xFE, 8), (0xFF, 0),
                         (0xFF, 8)):
        yield trial(f"text, length byte {first:02x} and {count} more", 253,
                    bytes([first]) + (b"\1".ljust(count, b"\0") + b"a" if count else b""))
    three = b"\0\0\0\0\1\2\3\4\x08ABCDEFG\0"
    for first in (0xFB, 0xFF):
        yield Trial("17 Execute, a cell", f"text, length byte {first:02x}, a number and a text",
                    execution(STRING + BIGINT + STRING, bytes([first]) + three), prepared=THREE)
    for kind in DATES:
        for length in (*range(14), 0xFB, 0xFF):
            yield trial(f"type {kind} ({NAMES[kind]}), length {length}", kind,
                        bytes([length]) + MOMENT.ljust(14, b"\0")[:min(length, 14)])
    for length in (*range(15), 0xFB, 0xFF):
        yield trial(f"type 11 (TIME), length {length}", 11,
                    bytes([length]) + (b"\1" + SPAN).ljust(15, b"\0")[:min(length, 15)])
    for sign in (0, 1, 2, 0x7F, 0x80, 0xFF):
        yield trial(f"type 11 (TIME), length 8, sign byte {sign:02x}", 11,
                    b"\x08" + bytes([sign]) + SPAN[:7])
        yield trial(f"type 11 (TIME), length 12, sign byte {sign:02x}", 11,
                    b"\x0c" + bytes([sign]) + SPAN)


def long_data_trials():
    """Trials of long data; an execution shows what waited."""
    trial = lambda field, payload, *behind, **how: Trial("18 LongData", field, payload,
                                                         behind=behind, **how)
    yield trial("of a place", long_data(b"ab"), execution(cells=b""))
    yield trial("in two pieces", long_data(b"cd"), execution(cells=b""), before=(long_data(b"ab"),))
    yield trial("of no bytes", long_data(b""), execution(cells=b""))
    yield trial("of a place that is NULL by the bitmap", long_data(b"ab"),
                execution(cells=b"", bitmap=b"\1"))
    yield trial("of a place that has a cell", long_data(b"ab"), execution())
    yield trial("of the second place", long_data(b"ab", 1), execution(STRING * 2), prepared=TWO)
    yield trial("of an unknown statement", long_data(b"ab", 0, b"\2\0\0\0"), execution())
    yield trial("of statement ffffffff", long_data(b"ab", 0, b"\xff" * 4), execution(cells=b""))
    yield trial("of a place that isn't there", long_data(b"ab", 1), execution(), execution())
    yield trial("of a place that isn't there, then a reset", long_data(b"ab", 65535),
                b"\x1a" + ID, execution())
    yield trial("without its bytes", long_data(b"")[:7], execution())
    yield trial("with a cut place", long_data(b"")[:6], execution())
    yield trial("without a place", long_data(b"")[:5], execution())
    yield trial("with a cut id", long_data(b"")[:3], execution())
    yield trial("then a reset", long_data(b"ab"), b"\x1a" + ID, execution())
    yield trial("then two executions", long_data(b"ab"), execution(cells=b""), execution())
    yield trial("of a place that was a decimal", long_data(b"ab"), execution(cells=b""),
                before=(execution(DECIMAL, text(b"5")),))
    yield trial("of a place that is a decimal now", long_data(b"7"), execution(DECIMAL, b""),
                before=(execution(),))
    yield trial("of a place that is a decimal", long_data(b"7"), execution(DECIMAL, b""))


def bulk_trials():
    """Trials of bulk executions, with MariaDB's capability and without."""
    without = lambda field, payload, *behind, **how: Trial(
        "fa BulkExecute, not agreed", field, payload, behind=behind, **{"prepared": TWO, **how})
    of_two = b"\0" + b"\1" + STRING * 2 + b"\1x\1y"
    carried = bytes([EXECUTE]) + ID + b"\0\1\0\0\0" + of_two
    for flags in (0x80, 0, 0x40, 0xC0):
        yield without(f"flags {flags:02x}, long data waits", bulk(flags), carried,
                      before=(long_data(b"ab"),))
        yield without(f"flags {flags:02x}, then without types", bulk(flags, BIGINT * 2),
                      execution(b"", b"\1x\1y", bound=b"\0"), before=(carried,))
    trial = lambda field, payload, **how: Trial(
        "fa BulkExecute", field, payload,
        **{"prepared": INTO, "behind": (bytes([QUERY]) + SEEN,), "extended": MARIADB_BULK, **how})
    for flags in (0x80, 0xC0, 0x81, 0x82, 0x84, 0x88, 0x90, 0xA0, 0x180, 0x8080, 0xFFFF):
        yield trial(f"flags {flags:02x}", bulk(flags))
    yield trial("flags 00, no types in force", bulk(0, b""))
    yield trial("flags 00, types in force", bulk(0, b""), before=(bulk(),))
    yield trial("flags 40, types in force", bulk(0x40, b""), before=(bulk(),))
    yield trial("two rows", bulk(rows=b"\0\1a\0\1b\0\1c\0\1d"))
    yield trial("no rows", bulk(rows=b""))
    yield trial("half a row", bulk(rows=b"\0\1a"))
    yield trial("a row and a half", bulk(rows=b"\0\1a\0\1b\0\1c"))
    yield trial("a row and a byte", bulk(rows=b"\0\1a\0\1b\0"))
    yield trial("a row and an indicator of NULL", bulk(rows=b"\0\1a\0\1b\1"))
    yield trial("a cell that is cut off", bulk(rows=b"\0\1a\0\3b"))
    for indicator in range(6):
        yield trial(f"indicator {indicator}", bulk(rows=b"\0\1a" + bytes([indicator])
                                                   + (b"\1b" if indicator in (0, 4, 5) else b"")))
    yield trial("indicator ff", bulk(rows=b"\0\1a\xff\1b"))
    yield trial("type 9 (INT24)", bulk(types=b"\x09\0" + STRING, rows=b"\0\1\0\0\0\0\1b"))
    yield trial("length byte fb", bulk(rows=b"\0\xfb\0\1b"))
    yield trial("long data waits", bulk(), before=(long_data(b"ab"),))
    yield trial("of a query for rows", bulk(), prepared=TWO, behind=())
    yield trial("of a statement without places", bulk(types=b"", rows=b""),
                prepared=b"INSERT INTO seen VALUES ('n', 'n')")
    yield trial("statement 2", bulk(number=b"\2\0\0\0"))
    yield trial("statement ffffffff", bulk(number=b"\xff" * 4))
    yield trial("no flags", bulk()[:5])
    yield trial("a cut id", bulk()[:3])
    yield trial("one type of two", bulk(types=STRING, rows=b""))


def cell_of_kind(kind):
    """A cell of a type, as the protocol has it; length-encoded of one that has no name."""
    if kind in FLOATS:
        return struct.pack(FLOATS[kind], 1.5)
    if kind in SIZES and kind:
        return b"\1\0\0\0\0\0\0\0"[:SIZES[kind]]
    if kind in DATES:
        return b"\4" + MOMENT[:4]
    return b"\x08\0" + SPAN[:7] if kind == 11 else text(b"7")


def attributes():
    """Trials of attributes of a query and of an execution, which only MySQL has."""
    def query(field, kinds=b"\xfd\0", cells=text(b"7"), bound=b"\1", sets=b"\1", head=None):
        front = b"\1" + sets + b"\0" + bound + kinds + text(b"n") + cells
        return Trial("03 Query, attributes", field, bytes([QUERY]) + (
            front if head is None else head) + RAN, prepared=None,
            more=QUERY_ATTRIBUTES)
    for kind in (*range(22), 100, 128, 200, *range(240, 256)):
        yield query(f"type {kind} ({NAMES.get(kind, 'no name')})", bytes([kind, 0]),
                    cell_of_kind(kind))
    for kind in (6, 9, 13):
        yield query(f"type {kind} ({NAMES[kind]}), a length before it", bytes([kind, 0]))
    for second in (0x01, 0x40, 0x7F, 0x80, 0xFF):
        yield query(f"second byte {second:02x}", bytes([0xFD, second]))
    for bound in (0, 2, 0x80, 0xFF):
        yield query(f"bound {bound:02x}", bound=bytes([bound]))
    for sets in (0, 2, 0xFA):
        yield query(f"{sets} sets", sets=bytes([sets]))
    for field, head in (("none", b"\0\1"), ("none, 0 sets", b"\0\0"),
                        ("NULL", b"\1\1\1\1\xfd\0\1n"),
                        ("a cell past the end", b"\1\1\0\1\xfd\0\1n\x7f")):
        yield query(field, head=head)
    for kind in (6, 9, 13, 14, 18, 100, 243):
        yield execution_with_attribute(f"an attribute of type {kind}", bytes([kind, 0]), text(b"7"))
    yield execution_with_attribute("an attribute's second byte 40", b"\xfd\x40", text(b"7"))
    for count in (0, 1, 3):
        yield execution_with_attribute(f"{count} parameters told", count=bytes([count]))


def execution_with_attribute(field, kind=b"\xfd\0", cell=text(b"7"), count=b"\2"):
    """A trial of an execution of a text and an attribute."""
    types = STRING + b"\0" + kind + text(b"n")
    return Trial("17 Execute, attributes", field, execution(types, text(b"ran") + cell, flags=8,
                                                           bitmap=count + b"\0"),
                 more=QUERY_ATTRIBUTES)


def changes_of_user():
    """Trials of changes of user; the server is asked who it is then."""
    who = bytes([QUERY]) + b"SELECT USER(), DATABASE()"
    trial = lambda field, payload, **how: Trial("11 ChangeUser", field,
                                                bytes([CHANGE_USER]) + payload, behind=(who,),
                                                prepared=None, **how)
    user, base, last = b"tester\0\0", b"mysql\0\x2d\0", b"mysql_native_password\0"
    for name, more in (("", 0), (", attributes agreed", CONNECT_ATTRS)):
        end = b"\0" if more else b""
        yield trial("as it is" + name, user + base + last + end, more=more)
        yield trial("a byte behind" + name, user + base + last + end + b"!", more=more)
        yield trial("many bytes behind" + name, user + base + last + end + b"!" * 30, more=more)
        yield trial("no attributes" + name, user + base + last, more=more)
        yield trial("no end of the plugin" + name, user + base + last[:-1], more=more)
        yield trial("no plugin" + name, user + base, more=more)
        yield trial("a cut character set" + name, user + base[:-1], more=more)
        yield trial("no character set" + name, user + base[:-2], more=more)
        yield trial("no end of the database" + name, user + base[:-3], more=more)
        yield trial("no database" + name, user, more=more)
        yield trial("an answer that is cut off" + name, b"tester\0\x14abc", more=more)
        yield trial("no length of the answer" + name, b"tester\0", more=more)
        yield trial("no end of the user" + name, b"tester", more=more)
    yield trial("attributes of more bytes than are there", user + base + last + b"\x20\1a\1b",
                more=CONNECT_ATTRS)
    yield trial("an attribute", user + base + last + b"\4\1a\1b", more=CONNECT_ATTRS)
    yield trial("an attribute and a byte", user + base + last + b"\4\1a\1b!", more=CONNECT_ATTRS)
    yield trial("nothing", b"")


PLAIN = (
    ("02 InitDb", (("a schema", b"\x02mysql"), ("no schema", b"\x02"),
                   ("a zero behind", b"\x02mysql\0"))),
    ("03 Query", (("no text", b"\x03"), ("a zero behind", b"\x03SELECT 'q'\0"),
                  ("a zero and more behind", b"\x03SELECT 'q'\0!"))),
    ("04 FieldList", (("a table", b"\x04seen\0"), ("no end of the table", b"\x04seen"),
                      ("nothing", b"\x04"))),
    ("05 CreateDb", (("a schema", b"\x05odd"),)),
    ("06 DropDb", (("a schema", b"\x06odd"),)),
    ("07 Refresh", (("nothing", b"\x07"), ("no bits", b"\x07\0"), ("a byte behind", b"\x07\0!"))),
    ("09 Statistics", (("a byte behind", b"\x09!"),)),
    ("0a ProcessInfo", (("a byte behind", b"\x0a!"),)),
    ("0c ProcessKill", (("nothing", b"\x0c"), ("a cut id", b"\x0c\xff\xff"),
                        ("an unknown id", b"\x0c\xff\xff\xff\x7f"),
                        ("a byte behind", b"\x0c\xff\xff\xff\x7f!"))),
    ("0d Debug", (("a byte behind", b"\x0d!"),)),
    ("0e Ping", (("a byte behind", b"\x0e!"), ("many bytes behind", b"\x0e" + b"!" * 30))),
    ("13 TableDump", (("as it is", b"\x13\5mysql\4user"), ("nothing", b"\x13"))),
    ("15 RegisterSlave", (("nothing", b"\x15"), ("a cut id", b"\x15\1\0"),
                          ("as it is", b"\x15\7\0\0\0\0\0\0\0\0" + b"\0" * 8),
                          ("a byte behind", b"\x15\7\0\0\0\0\0\0\0\0" + b"\0" * 8 + b"!"))),
    ("16 Prepare", (("no text", b"\x16"), ("a zero behind", b"\x16SELECT 'q'\0"))),
    ("1a ResetStatement", (("as it is", b"\x1a" + ID), ("an unknown id", b"\x1a\2\0\0\0"),
                           ("a byte behind", b"\x1a" + ID + b"!"), ("a cut id", b"\x1a\1\0"),
                           ("nothing", b"\x1a"), ("id ffffffff", b"\x1a" + b"\xff" * 4))),
    ("1b SetOption", (("0", b"\x1b\0\0"), ("1", b"\x1b\1\0"), ("2", b"\x1b\2\0"),
                      ("a cut option", b"\x1b\0"), ("nothing", b"\x1b"),
                      ("a byte behind", b"\x1b\0\0!"))),
    ("1c Fetch", (("no cursor", b"\x1c" + ID + b"\1\0\0\0"),
                  ("an unknown id", b"\x1c\2\0\0\0\1\0\0\0"), ("a cut count", b"\x1c" + ID + b"\1"),
                  ("no count", b"\x1c" + ID), ("nothing", b"\x1c"),
                  ("a byte behind", b"\x1c" + ID + b"\1\0\0\0!"))),
    ("20 Clone", (("as it is", b"\x20"),)),
) + tuple((f"{it:02x}", (("nothing", bytes([it])), ("bytes behind", bytes([it]) + b"abc")))
          for it in (0x00, 0x0B, 0x0F, 0x10, 0x14, 0x1D, 0x21, 0x50, 0xFB, 0xFF))


def plain_commands():
    """Trials of the other commands. A shutdown and a dump that is well laid out aren't tried."""
    for command, ways in PLAIN:
        for field, payload in ways:
            yield Trial(command, field, payload)
    for field, payload in (("as it is", b"\x19" + ID), ("a byte behind", b"\x19" + ID + b"!"),
                           ("a cut id", b"\x19\1\0"), ("nothing", b"\x19"),
                           ("an unknown id", b"\x19\2\0\0\0"),
                           ("id ffffffff", b"\x19" + b"\xff" * 4)):
        yield Trial("19 Close", field, payload, behind=(execution(),))
    for field, payload in (("as it is", b"\x1f"), ("a byte behind", b"\x1f!")):
        yield Trial("1f ResetConnection", field, payload, behind=(execution(),))
    yield Trial("01 Quit", "a byte behind", b"\x01!")


def all_trials():
    """All trials, in the order of the page."""
    for trials in (executions, cells, long_data_trials, bulk_trials, attributes, changes_of_user,
                   plain_commands):
        yield from trials()
