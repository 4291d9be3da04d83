"""Payloads of random connections, laid out by hand as the protocol's public documentation has them.

A `Composer` says what a client and a server may say next, by the phase of their connection and what
was said before. (MySQL: Client/Server Protocol, "Connection Phase" and "Command Phase"; MariaDB:
Client/Server Protocol.)
"""

import struct

# Capabilities.
PLUGIN_LENGTH, SECURE, ATTRIBUTES, PLUGIN, DATABASE = 1 << 21, 1 << 15, 1 << 20, 1 << 19, 1 << 3
MYSQL, TLS, COMPRESSION, STATES, NO_EOF = 1, 1 << 11, (1 << 5) | (1 << 26), 1 << 23, 1 << 24
METADATA, QUERY_ATTRIBUTES, FACTORS, PROGRESS = 1 << 25, 1 << 27, 1 << 28, 1 << 29
PROTOCOL = 1 << 9
# MariaDB's own.
MARIADB_PROGRESS, BULK, EXTENDED, CACHED = 1, 4, 8, 16

# Bits of a status.
STATUSES, MORE, CURSOR, STATE_CHANGED = (1, 2, 16, 32, 128, 256, 512, 1024, 4096), 8, 64, 0x4000

# Types, and how many bytes a number of each has.
WHOLE = {1: 1, 2: 2, 3: 4, 8: 8, 9: 4, 13: 2}
FLOAT, DOUBLE, NULL = 4, 5, 6
DATES, TIME = (7, 10, 12), 11
COUNTED = (0, 15, 16, 245, 246, 247, 248, 249, 250, 251, 252, 253, 254, 255)
TYPES = (*WHOLE, FLOAT, DOUBLE, *DATES, TIME, *COUNTED)
UNSIGNED = 32

LAST = 0xFFFFFFFF

TEXT, BINARY, PREPARE, PLAIN, LINE, FIELDS, FETCH = range(7)


def number(value, size):
    """Returns a number of so many bytes."""
    return value.to_bytes(size, "little")


def counted(data):
    """Returns bytes behind their length."""
    size = len(data)
    if size < 251:
        return bytes([size]) + data
    return b"\xfc" + number(size, 2) + data if size < 65536 else b"\xfd" + number(size, 3) + data


def length_encoded(value):
    """Returns a number in one of the forms that a length has."""
    for first, size, most in ((b"", 1, 250), (b"\xfc", 2, 0xFFFF), (b"\xfd", 3, 0xFFFFFF)):
        if value <= most:
            return first + number(value, size)
    return b"\xfe" + number(value, 8)


def bitmap(bits, first=0):
    """Returns a bitmap of these truths, the first of which is at this bit."""
    return number(sum(1 << (first + at) for at, bit in enumerate(bits) if bit),
                  (len(bits) + first + 7) // 8)


class Statement:
    """What the composer knows of a prepared statement."""

    def __init__(self, count, columns):
        self.count, self.columns = count, columns
        # The types of its parameters, once an execution had them, and the places with long data.
        self.types, self.long = None, set()


class Values:
    """Random values."""

    def __init__(self, at):
        self.at = at

    def chance(self, share):
        """Returns true in this share of the cases."""
        return self.at.random() < share

    def some(self, most=24):
        """Returns some bytes."""
        return bytes(self.at.randrange(256) for _ in range(self.at.randrange(most + 1)))

    def word(self, most=8):
        """Returns a word."""
        return bytes(self.at.choice(b"abcdefghijklmnopqrstuvwxyz_? ")
                     for _ in range(self.at.randrange(1, most + 1)))

    def text(self):
        """Returns a text, which now and then is a long one."""
        if self.chance(0.03):
            return self.word() * self.at.randrange(2000)
        return b" ".join(self.word() for _ in range(self.at.randrange(6)))

    def whole(self, size):
        """Returns the bytes of a number, of which the ends of the range are more likely."""
        return number(self.at.choice((0, 1, self.at.randrange(1 << 8 * size), (1 << 8 * size) - 1,
                                      1 << 8 * size - 1)), size)

    def cell(self, kind):
        """Returns a cell of a binary row of this type."""
        at = self.at
        if kind in WHOLE:
            return self.whole(WHOLE[kind])
        if kind in (FLOAT, DOUBLE):
            form = "<f" if kind == FLOAT else "<d"
            return self.whole(struct.calcsize(form)) if self.chance(0.2) else struct.pack(
                form, at.choice((0.0, -1.5, 3.25e7, float("inf"), at.uniform(-1e6, 1e6))))
        if kind in DATES:
            size = at.choice((0, 4, 7, 11))
            fields = struct.pack("<HBBBBBI", at.randrange(10000), at.randrange(13),
                                 at.randrange(32), at.randrange(24), at.randrange(60),
                                 at.randrange(60), at.randrange(1000000))
            return bytes([size]) + fields[:size]
        if kind == TIME:
            size = at.choice((0, 8, 12))
            fields = struct.pack("<BIBBBI", at.randrange(2), at.randrange(40), at.randrange(24),
                                 at.randrange(60), at.randrange(60), at.randrange(1000000))
            return bytes([size]) + fields[:size]
        return b"" if kind == NULL else counted(self.some() if self.chance(0.9) else self.text())


class Composer(Values):
    """Says what a connection's sides may say next. `phase`, `capabilities` and `mariadb` are those
    of the connection, which whoever drives it sets."""

    def __init__(self, at):
        super().__init__(at)
        self.capabilities = self.mariadb = self.offered = 0
        self.statements = {}
        self.last = None

    def has(self, capability):
        """Returns whether a capability is in force."""
        return bool(self.capabilities & capability)

    def has_own(self, capability):
        """Returns whether a capability of MariaDB's own is in force."""
        return bool(self.mariadb & capability)

    def forget(self):
        """What is known of statements isn't sure any more."""
        self.statements, self.last = {}, None

    # Logging in.

    def random_capabilities(self):
        """Returns the words of a server's capabilities."""
        word = PROTOCOL | SECURE
        for flag, share in ((MYSQL, 0.5), (DATABASE, 0.8), (PLUGIN, 0.8), (ATTRIBUTES, 0.6),
                            (PLUGIN_LENGTH, 0.6), (STATES, 0.5), (NO_EOF, 0.6), (METADATA, 0.3),
                            (QUERY_ATTRIBUTES, 0.3), (FACTORS, 0.2), (PROGRESS, 0.2), (TLS, 0.1),
                            (COMPRESSION, 0.03)):
            word |= flag if self.chance(share) else 0
        own = sum(flag for flag, share in ((MARIADB_PROGRESS, 0.3), (BULK, 0.8), (EXTENDED, 0.4),
                                           (CACHED, 0.5)) if self.chance(share))
        return word, 0 if word & MYSQL else own

    def greeting(self):
        """The server's first payload."""
        if self.chance(0.03):
            return b"\xff" + number(1040, 2) + self.at.choice((b"", b"#08004")) + b"Too many"
        word, own = self.random_capabilities()
        self.offered = word
        plugin = self.plugin() + b"\0" if word & PLUGIN else b""
        return (b"\x0a" + self.word() + b"\0" + self.whole(4) + b"12345678\0" + number(word, 4)[:2]
                + b"\x2d\x02\0" + number(word, 4)[2:] + b"\x15" + bytes(6) + number(own, 4)
                + b"123456789012\0" + plugin)

    def plugin(self):
        """The name of an authentication plugin."""
        return self.at.choice((b"mysql_native_password", b"caching_sha2_password", b"dialog",
                               b"sha256_password", b"client_ed25519", b"mysql_old_password",
                               self.word().replace(b" ", b"")))

    def response(self):
        """The client's answer to a greeting."""
        at, offered = self.at, self.offered
        word = PROTOCOL | SECURE | (offered & at.getrandbits(32) if self.chance(0.3) else offered)
        word |= at.choice((0, 1 << 4, 1 << 17))
        if self.chance(0.8):
            word &= ~TLS
        fixed = (number(word, 4) + number(1 << 24, 4) + bytes([at.choice((33, 45, 63))]) + bytes(19)
                 + (bytes(4) if word & MYSQL else number(at.choice((31, at.randrange(32))), 4)))
        both = word & offered
        if both & TLS:
            return fixed
        answer = self.some(20)
        if self.chance(0.1):
            return fixed + b"cut off"
        return (fixed + self.word() + b"\0"
                + (counted(answer) if both & PLUGIN_LENGTH else bytes([len(answer)]) + answer)
                + (self.word() + b"\0" if both & DATABASE else b"")
                + (self.plugin() + b"\0" if both & PLUGIN else b"")
                + (self.attributes() if both & ATTRIBUTES else b""))

    def attributes(self):
        """The attributes of a connection."""
        return counted(b"".join(counted(self.word()) + counted(self.some(9))
                                for _ in range(self.at.randrange(4))))

    def authentication(self):
        """What the server says behind a login."""
        way = self.at.randrange(9)
        if way == 0:
            return b"\xfe" + self.plugin() + b"\0" + self.some(21)
        if way == 1:
            return b"\x01" + self.at.choice((b"\x03", b"\x04", self.some(9)))
        if way == 2:
            return b"\x02" + self.plugin() + b"\0" + self.some(9)
        if way == 3:
            return self.at.choice((b"\xfe", b"\x03asked: " + self.some(9)))
        return self.error() if way == 4 and self.chance(0.5) else self.ok()

    # Commands.

    def command(self):
        """A command."""
        ways = ((self.query, 14), (self.prepare, 8), (self.execute, 16), (self.bulk, 5),
                (self.long_data, 5), (self.fetch, 3), (self.about_statement, 3), (self.plain, 6),
                (self.field_list, 2), (self.change_user, 1), (self.reset, 0.7), (self.rare, 0.3))
        (way,) = self.at.choices([it for it, _ in ways], [share for _, share in ways])
        return way()

    def query(self):
        """A query, with attributes where these are in force."""
        return b"\x03" + self.query_attributes() + self.text()

    def query_attributes(self):
        """What comes before a query's text."""
        if not self.has(QUERY_ATTRIBUTES):
            return b""
        types = self.types(self.at.choice((0, 0, 1, 3)))
        nulls = [self.chance(0.2) for _ in types]
        front = length_encoded(len(types)) + b"\x01"
        return front + (bitmap(nulls) + b"\x01" + b"".join(
            bytes(it) + counted(self.word()) for it in types) + self.cells(types, nulls)
            if types else b"")

    def types(self, count):
        """Types of parameters: each has a number, and whether it has no sign."""
        return [(self.at.choice(TYPES), self.at.choice((0, 0x80))) for _ in range(count)]

    def cells(self, types, nulls, without=()):
        """The cells of values of these types, without those that are NULL and those positions."""
        return b"".join(self.cell(kind) for place, (kind, _) in enumerate(types)
                        if not nulls[place] and place not in without)

    def some_statement(self):
        """A statement's id, which mostly is known, and what is known of it."""
        if not self.statements or self.chance(0.03):
            return self.at.choice((7, LAST)), None
        if self.last is not None and self.chance(0.2):
            return LAST, self.statements.get(self.last)
        return self.at.choice(list(self.statements.items()))

    def prepare(self):
        """A statement is prepared."""
        self.last = None
        return b"\x16" + self.text()

    def execute(self):
        """An execution."""
        if not self.statements and self.chance(0.9):
            return self.prepare()
        name, statement = self.some_statement()
        flags = self.at.choice((0, 0, 0, 1))
        front = b"\x17" + number(name, 4)
        if statement is None:
            return front + bytes([flags]) + number(1, 4)
        further = self.types(self.at.choice((0, 0, 2))) if self.has(QUERY_ATTRIBUTES) else []
        flags |= 8 if further else 0
        bound = statement.types is None or bool(further) or self.chance(0.3)
        types = self.types(statement.count) if bound else statement.types
        nulls = [self.chance(0.2) for _ in (*types, *further)]
        body = self.bindings(statement, types, further, nulls, bound)
        if self.has(QUERY_ATTRIBUTES) and (flags & 8 or statement.count):
            body = length_encoded(len(types) + len(further)) + body
        statement.types, statement.long = types, set()
        return front + bytes([flags]) + number(1, 4) + body

    def bindings(self, statement, types, further, nulls, bound):
        """The bitmap of an execution, its types and its values."""
        if not nulls:
            return b""
        name = counted(self.word()) if self.has(QUERY_ATTRIBUTES) else b""
        named = b"".join(bytes(it) + name for it in (*types, *further)) if bound else b""
        return (bitmap(nulls) + bytes([bound]) + named
                + self.cells(types, nulls, statement.long)
                + self.cells(further, nulls[len(types):]))

    def bulk(self):
        """A bulk execution."""
        name, statement = self.some_statement()
        if statement is None or not statement.count or not self.has_own(BULK):
            return self.execute() if self.statements else self.query()
        bound = statement.types is None or self.chance(0.5)
        types = self.types(statement.count) if bound else statement.types
        flags = (0x80 if bound else 0) | self.at.choice((0, 0x40))
        rows = b"".join(self.indicated(kind) for _ in range(self.at.randrange(1, 6))
                        for kind, _ in types)
        if not statement.long:
            statement.types = types
        return (b"\xfa" + number(name, 4) + number(flags, 2)
                + (b"".join(map(bytes, types)) if bound else b"") + rows)

    def indicated(self, kind):
        """A value of a bulk execution: NULL, a default, none, or a cell."""
        way = self.at.randrange(8)
        return bytes([way]) if way in (1, 2, 3) else b"\0" + self.cell(kind)

    def long_data(self):
        """A piece of a parameter."""
        name, statement = self.some_statement()
        place = self.at.randrange((statement.count if statement else 0) + 1)
        if statement and place == statement.count and self.chance(0.9):
            place = 0
        if statement and place < statement.count:
            statement.long.add(place)
        return b"\x18" + number(name, 4) + number(place, 2) + self.some()

    def fetch(self):
        """Rows of a cursor are asked for."""
        return b"\x1c" + number(self.some_statement()[0], 4) + self.whole(4)

    def about_statement(self):
        """A statement is closed or reset."""
        name, statement = self.some_statement()
        if self.chance(0.5):
            if statement:
                statement.long = set()
            return b"\x1a" + number(name, 4)
        known = self.last if name == LAST else name
        self.statements.pop(known, None)
        self.last = None if self.last == known else self.last
        return b"\x19" + number(name, 4)

    def plain(self):
        """A command of few fields."""
        return self.at.choice((b"\x0e", b"\x02" + self.word(), b"\x09", b"\x0a", b"\x0d",
                               b"\x05" + self.word(), b"\x06" + self.word(),
                               b"\x07" + self.some(1), b"\x0c" + self.whole(4),
                               b"\x1b" + self.whole(2), b"\x08", b"\x15" + self.replica(),
                               self.some(9)))

    def replica(self):
        """What registers a replica."""
        return (self.whole(4) + b"".join(counted(self.word()) for _ in range(3)) + self.whole(2)
                + bytes(4) + self.whole(4))

    def field_list(self):
        """The columns of a table are asked for."""
        return b"\x04" + self.word() + b"\0" + self.text()

    def change_user(self):
        """Another user logs in."""
        self.forget()
        answer = self.some(20)
        answer = bytes([len(answer)]) + answer if self.has(SECURE) else b"answer\0"
        return (b"\x11" + self.word() + b"\0" + answer + self.word() + b"\0" + number(45, 2)
                + (self.plugin() + b"\0" if self.has(PLUGIN) else b"")
                + (self.attributes() if self.has(ATTRIBUTES) else b""))

    def reset(self):
        """The session begins anew."""
        return b"\x1f"

    def rare(self):
        """What ends a connection."""
        gtid = bytes(2) + self.whole(4) + number(3, 4) + b"log" + self.whole(8) + number(8, 4)
        return self.at.choice((b"\x01", b"\x12" + self.whole(4) + bytes(2) + self.whole(4) + b"log",
                               b"\x1e" + gtid + bytes(8), b"\x13\x02db\x01t", b"\x20"))

    # Replies.

    def statement_of(self, payload):
        """What is known of the statement that a command is about, by its id."""
        name = int.from_bytes(payload[1:5], "little")
        return self.statements.get(self.last if name == LAST else name)

    def status(self, flags=0):
        """A status with these flags."""
        for flag in self.at.sample(STATUSES, 2):
            flags |= flag
        return number(flags, 2)

    def ok(self, first=b"\0", flags=0):
        """An OK packet."""
        numbers = b"".join(length_encoded(self.at.choice((0, 7, 300, 70000, 1 << 40)))
                           for _ in range(2))
        info, states = self.at.choice((b"", b"", self.word())), b""
        if self.has(STATES) and self.chance(0.3):
            flags |= STATE_CHANGED
            states = counted(b"\x01" + counted(counted(self.word())))
        behind = counted(info) + states if info or states else b""
        return first + numbers + self.status(flags) + self.whole(2) + behind

    def end_of_columns(self, flags=0):
        """An EOF packet."""
        return b"\xfe" + self.whole(2) + self.status(flags)

    def end(self, flags=0):
        """What ends rows."""
        return self.ok(b"\xfe", flags) if self.has(NO_EOF) else self.end_of_columns(flags)

    def error(self, code=None):
        """An error."""
        code = code or self.at.choice((1064, 1064, 1213, 1295, 1835))
        return b"\xff" + number(code, 2) + b"#42000" + self.text()

    def progress(self):
        """A report of progress."""
        return b"\xff\xff\xff\x01\x01\x03" + self.whole(3) + counted(self.word())

    def column(self):
        """A column: its payload, its type and its flags."""
        kind, flags = self.at.choice(TYPES), self.at.choice((0, UNSIGNED, 1))
        names = b"".join(counted(self.word()) for _ in range(5))
        own = counted(self.at.choice((b"", b"\0" + counted(b"json")))) if self.has_own(EXTENDED) \
            else b""
        fields = number(self.at.choice((33, 45, 63)), 2) + self.whole(4) + bytes([kind])
        return (b"\x03def" + names + own + b"\x0c" + fields + number(flags, 2)
                + bytes([self.at.randrange(32), 0, 0]), kind)

    def row(self, kinds, is_binary):
        """A row under columns of these types; where none are known any bytes."""
        if kinds is None:
            return b"\0" + self.some()
        nulls = [self.chance(0.2) for _ in kinds]
        if is_binary:
            return b"\0" + bitmap(nulls, 2) + self.cells([(it, 0) for it in kinds], nulls)
        return b"".join(b"\xfb" if null else counted(self.some()) for null in nulls)

    def columns(self, count):
        """So many columns, with the packet behind them: payloads, and types."""
        made = [self.column() for _ in range(count)]
        behind = [] if self.has(NO_EOF) or not made else [self.end_of_columns()]
        return [it for it, _ in made] + behind, [kind for _, kind in made]

    def reply(self, command):
        """The payloads of a reply to a command, the client's file among them."""
        first = command[0] if command else 0
        payloads = self.reply_of(REPLIES.get(first, PLAIN), command)
        reports = self.has(PROGRESS) or self.has_own(MARIADB_PROGRESS)
        if reports and first not in LINES and self.chance(0.3):
            payloads.insert(0, self.progress())
        return payloads

    def reply_of(self, kind, command):
        """A reply of this kind."""
        if self.chance(0.1):
            return [self.refusal(command)]
        if kind == PREPARE:
            return self.prepared()
        if kind == PLAIN:
            if command[:1] == b"\x1f":
                self.forget()
            return [self.ok() if self.chance(0.9) else self.end()]
        if kind == LINE:
            return [b"Uptime: " + self.text()]
        if kind == FIELDS:
            made = [self.column()[0] + self.at.choice((b"\xfb", counted(self.word())))
                    for _ in range(self.at.randrange(4))]
            return [*made, self.end()]
        if kind == FETCH:
            return self.fetched(self.statement_of(command))
        return self.results(kind == BINARY, command)

    def refusal(self, command):
        """An error in place of a reply."""
        error = self.error()
        if command[:1] in (b"\x17", b"\xfa"):
            statement = self.statement_of(command)
            if statement:
                # What a refusal leaves of the types depends on its code; the next execution has
                # them.
                statement.types = None
        return error

    def prepared(self):
        """A prepared statement."""
        name = self.at.randrange(1, 6)
        parameters, columns = (self.at.choice((0, 1, 2, 5)) for _ in range(2))
        front = b"\0" + number(name, 4) + number(columns, 2) + number(parameters, 2) + bytes(3)
        first, _ = self.columns(parameters)
        second, kinds = self.columns(columns)
        follow = self.chance(0.8)
        if self.has(METADATA):
            front += bytes([follow])
            if not follow:
                ends = 0 if self.has(NO_EOF) else bool(parameters) + bool(columns)
                first, second, kinds = [], [self.end_of_columns() for _ in range(ends)], None
        self.statements[name] = Statement(parameters, kinds if columns else None)
        self.last = name
        return [front, *first, *second]

    def fetched(self, statement):
        """Rows of a cursor."""
        kinds = statement.columns if statement else None
        rows = [] if kinds is None and not self.has(METADATA) else [
            self.row(kinds, True) for _ in range(self.at.randrange(4))]
        return [*rows, self.end(CURSOR)]

    def results(self, is_binary, command):
        """Results, of which several may follow one another."""
        statement = self.statement_of(command) if is_binary else None
        kinds = statement.columns if statement else None
        payloads = []
        for more in [MORE] * self.at.choice((0, 0, 0, 1, 2)) + [0]:
            made, kinds = self.result(is_binary, kinds, more)
            payloads += made
        if self.chance(0.05) and len(payloads) > 1 and payloads[-1][:1] == b"\xfe":
            # An error in place of what ends rows.
            payloads[-1] = self.error()
        if statement:
            statement.columns = kinds
        return payloads

    def result(self, is_binary, kinds, more):
        """A result: its payloads, and the types of the columns in force then."""
        way = self.at.randrange(10)
        if way < 3:
            return [self.ok(flags=more)], kinds
        if way == 3:
            data = [self.some() or b"x" for _ in range(self.at.randrange(3))]
            return [b"\xfb" + self.word(), *data, b"", self.ok(flags=more)], kinds
        if self.chance(0.2) and (self.has(METADATA)
                                 or self.has_own(CACHED) and is_binary and kinds):
            return self.without_columns(is_binary, kinds, more), kinds
        count = self.at.randrange(1, 5)
        columns, kinds = self.columns(count)
        if is_binary and not self.has(NO_EOF) and self.chance(0.1):
            # Behind the columns of a cursor no rows come.
            return [self.count(count, True), *columns[:-1], self.end_of_columns(CURSOR | more)], \
                kinds
        rows = [self.row(kinds, is_binary) for _ in range(self.at.randrange(5))]
        return [self.count(count, True), *columns, *rows, self.end(more)], kinds

    def without_columns(self, is_binary, kinds, more):
        """Rows whose columns don't follow."""
        known = kinds if is_binary and kinds else None
        count = len(known) if known else self.at.randrange(1, 5)
        if is_binary and kinds and count != len(kinds):
            known = None
        behind = [] if self.has(NO_EOF) else [self.end_of_columns()]
        rows = [self.row(known, is_binary) for _ in range(self.at.randrange(5))]
        return [self.count(count, False), *behind, *rows, self.end(more)]

    def count(self, count, follow):
        """How many columns a result has."""
        if self.has(METADATA):
            return bytes([follow, count])
        return bytes([count, follow]) if self.has_own(CACHED) else bytes([count])


REPLIES = {0x03: TEXT, 0x04: FIELDS, 0x09: LINE, 0x0A: TEXT, 0x12: LINE, 0x13: LINE, 0x16: PREPARE,
           0x17: BINARY, 0x1C: FETCH, 0x1E: LINE, 0x20: LINE, 0xFA: BINARY}
LINES = (0x09, 0x12, 0x13, 0x1E, 0x20)
