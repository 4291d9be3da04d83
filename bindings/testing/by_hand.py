"""A client without the library: what it sends and reads goes by the protocol's pages alone.

Programs that hold the library against a server share it. It logs in with an empty password, keeps
the bytes of both sides, and reads answers of text queries, of executions and of other commands.
"""

import contextlib
import datetime
import socket
import struct
from typing import NamedTuple

CONNECT_WITH_DB, PROTOCOL_41, TRANSACTIONS = 1 << 3, 1 << 9, 1 << 13
SECURE_CONNECTION, MULTI_STATEMENTS, MULTI_RESULTS = 1 << 15, 1 << 16, 1 << 17
PS_MULTI_RESULTS = 1 << 18
PLUGIN_AUTH, CONNECT_ATTRS = 1 << 19, 1 << 20
QUERY_ATTRIBUTES = 1 << 27
# Without DEPRECATE_EOF; and without LONG_PASSWORD, by which a client has no extended capabilities.
CAPABILITIES = (CONNECT_WITH_DB | PROTOCOL_41 | TRANSACTIONS | SECURE_CONNECTION | MULTI_RESULTS
                | PS_MULTI_RESULTS | PLUGIN_AUTH)
MARIADB_BULK = 1 << 2
UTF8MB4 = 45
LONGEST = 1 << 24
SECONDS = 60

QUERY, CHANGE_USER, PREPARE, EXECUTE, LONG_DATA, CLOSE = 0x03, 0x11, 0x16, 0x17, 0x18, 0x19
RESET_STATEMENT, FETCH, RESET_CONNECTION, BULK_EXECUTE = 0x1A, 0x1C, 0x1F, 0xFA
OK, NULL, EOF, ERROR = 0x00, 0xFB, 0xFE, 0xFF
MORE_RESULTS, CURSOR = 0x08, 0x40
LAST_STATEMENT = 0xFFFFFFFF
NEW_PARAMETERS = b"\x01"

# Types of values, and of columns; numbers of a fixed size by their formats.
TINY, SHORT, LONG, FLOAT, DOUBLE, LONGLONG, INT24, YEAR = 1, 2, 3, 4, 5, 8, 9, 13
TIMESTAMP, DATE, TIME, DATETIME, BLOB, VAR_STRING = 7, 10, 11, 12, 252, 253
UNSIGNED = 0x80
NUMBERS = {TINY: "b", SHORT: "h", YEAR: "h", LONG: "i", INT24: "i", LONGLONG: "q"}
FLOATS = {FLOAT: "f", DOUBLE: "d"}


class Refused(Exception):
    """What a server refused: its number, its SQL state and its message."""

    def __init__(self, payload):
        self.number = int.from_bytes(payload[1:3], "little")
        self.message = payload[9 if payload[3:4] == b"#" else 3:].decode(errors="replace")
        super().__init__(f"{self.number}: {self.message}")


class Closed(Exception):
    """The server closed the connection."""


class Answer(NamedTuple):
    """One result: rows, or how many were changed; the status; and how many columns there are."""

    rows: list
    affected: int
    status: int
    columns: int = 0


class Statement(NamedTuple):
    """A statement that was prepared."""

    number: int
    places: int
    columns: int


def lenenc(data):
    """Bytes with their length before them."""
    if len(data) < NULL:
        return bytes([len(data)]) + data
    size, mark = (2, 0xFC) if len(data) < 1 << 16 else (3, 0xFD)
    return bytes([mark]) + len(data).to_bytes(size, "little") + data


def number_at(data, at):
    """A length-encoded number, and where what follows begins."""
    first = data[at]
    size = {0xFC: 2, 0xFD: 3, 0xFE: 8}.get(first, 0)
    if size:
        return int.from_bytes(data[at + 1:at + 1 + size], "little"), at + 1 + size
    return first, at + 1


def bytes_at(data, at):
    """Length-encoded bytes, and where what follows begins."""
    length, at = number_at(data, at)
    return data[at:at + length], at + length


def text_row(payload):
    """The cells of a row of a text query; None for NULL."""
    cells, at = [], 0
    while at < len(payload):
        if payload[at] == NULL:
            cells.append(None)
            at += 1
        else:
            cell, at = bytes_at(payload, at)
            cells.append(cell)
    return cells


def binary_row(payload, types):
    """The cells of a row of an execution: bytes, whole numbers as text, floats, or the bytes of a
    date or time."""
    bitmap = payload[1:1 + (len(types) + 9) // 8]
    cells, at = [], 1 + len(bitmap)
    for place, (kind, unsigned) in enumerate(types, 2):
        form = NUMBERS.get(kind) or FLOATS.get(kind)
        if bitmap[place // 8] >> place % 8 & 1:
            cells.append(None)
        elif form:
            form = "<" + (form.upper() if unsigned and kind in NUMBERS else form)
            [cell] = struct.unpack_from(form, payload, at)
            cells.append(b"%d" % cell if kind in NUMBERS else cell)
            at += struct.calcsize(form)
        else:
            cell, at = bytes_at(payload, at)
            cells.append(cell)
    return cells


def cell_of(value, of_bytes=VAR_STRING):
    """The type of a value and its cell, as an execution has them; no cell for None. Bytes have the
    type that is named."""
    if value is None:
        return VAR_STRING, 0, b""
    if isinstance(value, int):
        flag = UNSIGNED if value >= 1 << 63 else 0
        return LONGLONG, flag, (value % (1 << 64)).to_bytes(8, "little")
    if isinstance(value, datetime.datetime):
        day = struct.pack("<HBBBBBI", value.year, value.month, value.day, value.hour, value.minute,
                          value.second, value.microsecond)
        return DATETIME, 0, lenenc(day)
    if isinstance(value, datetime.date):
        return DATE, 0, lenenc(struct.pack("<HBB", value.year, value.month, value.day))
    return of_bytes, 0, lenenc(value)


def execution(statement, values, of_bytes=VAR_STRING):
    """The payload of an execution with these values; bytes have the type that is named."""
    head = struct.pack("<BIBI", EXECUTE, statement, 0, 1)
    if not values:
        return head
    bitmap = bytearray((len(values) + 7) // 8)
    types, cells = b"", b""
    for place, value in enumerate(values):
        kind, flag, cell = cell_of(value, of_bytes)
        types += bytes([kind, flag])
        cells += cell
        if value is None:
            bitmap[place // 8] |= 1 << place % 8
    return head + bytes(bitmap) + NEW_PARAMETERS + types + cells


def closing(statement):
    """The payload that closes a statement."""
    return struct.pack("<BI", CLOSE, statement.number)


class Client:
    """A connection that is logged in; within a `with` it is closed."""

    def __init__(self, port, user, database, more=0, fewer=0, extended=0):
        # What both sides said, while `keeps` is true.
        self.sent, self.received = bytearray(), bytearray()
        self.keeps = True
        self._socket = socket.create_connection(("127.0.0.1", port), SECONDS)
        self._socket.setsockopt(socket.IPPROTO_TCP, socket.TCP_NODELAY, 1)
        # What was read and isn't taken, and where that begins.
        self._unread, self._at = b"", 0
        # The number of the packet that was read last; the columns of the cursor that is open.
        self.number, self.columns = 0, []
        greeting = self._read_greeting()
        self.capabilities = (CAPABILITIES | more) & ~fewer & greeting[0]
        self.extended = extended & greeting[1]
        self.status = 0
        self._log_in(user, database)

    def __enter__(self):
        return self

    def __exit__(self, *_):
        self._socket.close()

    # Packets.

    def wait_at_most(self, seconds):
        """How long an answer is waited for."""
        self._socket.settimeout(seconds)

    def send(self, payload, number=0):
        """Sends a payload as one packet."""
        packet = len(payload).to_bytes(3, "little") + bytes([number]) + payload
        if self.keeps:
            self.sent += packet
        self._socket.sendall(packet)

    def send_all(self, payloads):
        """Sends commands one behind the other, without a wait for their replies."""
        packets = b"".join(len(it).to_bytes(3, "little") + b"\0" + it for it in payloads)
        if self.keeps:
            self.sent += packets
        self._socket.sendall(packets)

    def receive(self):
        """The next payload, of one packet."""
        head = self._take(4)
        self.number = head[3]
        return self._take(int.from_bytes(head[:3], "little"))

    def _take(self, count):
        """The next bytes."""
        while len(self._unread) - self._at < count:
            piece = self._socket.recv(1 << 16)
            if not piece:
                raise Closed("the server closed the connection")
            if self.keeps:
                self.received += piece
            self._unread, self._at = self._unread[self._at:] + piece, 0
        self._at += count
        return self._unread[self._at - count:self._at]

    # Logging in.

    def _read_greeting(self):
        """The capabilities that the server has, and MariaDB's extended ones."""
        payload = self.receive()
        if payload[0] == ERROR:
            raise Refused(payload)
        at = payload.index(0, 1) + 1
        self.thread = int.from_bytes(payload[at:at + 4], "little")
        self.version = payload[1:at - 1].decode()
        low, high = payload[at + 13:at + 15], payload[at + 18:at + 20]
        return int.from_bytes(low + high, "little"), int.from_bytes(payload[at + 27:at + 31],
                                                                    "little")

    def _log_in(self, user, database):
        """Logs in with an empty password."""
        login = struct.pack("<IIB19xI", self.capabilities, LONGEST, UTF8MB4, self.extended)
        login += user.encode() + b"\0\0" + database.encode() + b"\0mysql_native_password\0"
        if self.capabilities & CONNECT_ATTRS:
            login += b"\0"
        self.send(login, 1)
        self.finish_authentication()
        self.keeps = False

    def finish_authentication(self):
        """Answers the server with an empty password until it accepts. Raises Refused."""
        payload = self.receive()
        while payload[0] != OK:
            if payload[0] == ERROR:
                raise Refused(payload)
            self.send(b"", (self.number + 1) % 256)
            payload = self.receive()

    # Commands.

    def answers(self, payload, binary=False):
        """Sends a command, and gives its results. Raises Refused."""
        self.send(payload)
        return self.read_answers(binary)

    def read_answers(self, binary=False):
        """The results of a reply. Raises Refused."""
        found = [self._read_answer(binary)]
        while found[-1].status & MORE_RESULTS:
            found.append(self._read_answer(binary))
        self.status = found[-1].status
        return found

    def read_results(self, binary=False):
        """The results of a reply, and the number of the error that ends it, or None."""
        found = []
        try:
            found.append(self._read_answer(binary))
            while found[-1].status & MORE_RESULTS:
                found.append(self._read_answer(binary))
        except Refused as error:
            return found, error.number
        return found, None

    def _read_answer(self, binary):
        """One result."""
        first = self.receive()
        if first[0] == ERROR:
            raise Refused(first)
        if first[0] == OK:
            affected, at = number_at(first, 1)
            _, at = number_at(first, at)
            return Answer([], affected, int.from_bytes(first[at:at + 2], "little"))
        if first[0] == EOF and len(first) < 9:
            return Answer([], 0, int.from_bytes(first[3:5], "little"))
        types = [self._read_column() for _ in range(number_at(first, 0)[0])]
        status = int.from_bytes(self.receive()[3:5], "little")
        if status & CURSOR:
            self.columns = types
            return Answer([], 0, status, len(types))
        return self._read_rows(types, binary)

    def _read_rows(self, types, binary):
        """The rows of a result, up to their end."""
        rows, payload = [], self.receive()
        while payload[0] != EOF or len(payload) > 64:
            if payload[0] == ERROR:
                raise Refused(payload)
            rows.append(binary_row(payload, types) if binary else text_row(payload))
            payload = self.receive()
        return Answer(rows, 0, int.from_bytes(payload[3:5], "little"), len(types))

    def _read_column(self):
        """The type of a column, and whether it is unsigned."""
        payload, at = self.receive(), 0
        for _ in range(6):
            _, at = bytes_at(payload, at)
        flags = int.from_bytes(payload[at + 8:at + 10], "little")
        return payload[at + 7], bool(flags & 32)

    def query(self, text):
        """The results of a text query, which has no attributes. Raises Refused."""
        front = b"\0\1" if self.capabilities & QUERY_ATTRIBUTES else b""
        return self.answers(bytes([QUERY]) + front + text)

    def prepare(self, text):
        """Prepares a statement. Raises Refused."""
        self.send(bytes([PREPARE]) + text)
        return self.read_prepared()

    def read_prepared(self):
        """The statement of a reply to a prepare. Raises Refused."""
        first = self.receive()
        if first[0] == ERROR:
            raise Refused(first)
        number, columns, places = struct.unpack_from("<IHH", first, 1)
        for count in (places, columns):
            for _ in range(count + 1 if count else 0):
                self.receive()
        return Statement(number, places, columns)

    def execute(self, statement, values):
        """The results of an execution. Raises Refused."""
        return self.answers(execution(statement.number, values), True)

    def fetch(self, statement, count):
        """Rows of the cursor that was opened last. Raises Refused."""
        self.send(struct.pack("<BII", FETCH, statement, count))
        return self._read_rows(self.columns, True).rows

    def close_statement(self, statement):
        """Closes a statement."""
        self.send(closing(statement))

    def quit(self):
        """Ends the connection, once the server has closed it too."""
        with contextlib.suppress(OSError, Closed):
            self.send(b"\x01")
            while True:
                self._take(1)
