"""MySQL and MariaDB connections, and parameter sets of queries, as bytes and back.

The library of `bindings/c/mysql_session.h` by an extension module, for CPython 3.8 and later.
Parameter sets of a query as a stream of commands, and back:

    sets = [(1, "it's"), (None, datetime.date(2024, 2, 29))]
    stream = send("INSERT INTO t VALUES (?, ?)", sets, Road.EXECUTE, statement=7)
    with Receiver("INSERT INTO t VALUES (?, ?)", statement=7) as receiver:
        receiver.feed(stream)
        for values in receiver:
            print(values)  # (1, b"it's"), then (None, b'2024-02-29')
        print(receiver.end())

And whole connections, read as events and put:

    connection = Connection.after_login(capabilities)
    stream.sendall(connection.put(Side.CLIENT, Command.query("SELECT name FROM goods")).packets)
    for event in connection.feed(Side.SERVER, stream.recv(65536)):
        print(event)

The rows of a reply come as values too, made in C, each as its column says:

    reader = ReplyReader(ReplyKind.QUERY, capabilities)
    reader.feed(reply)
    for result in reader.take_values(Values({ColumnType.NEWDECIMAL: float})):
        print(result)

The extension is _native.abi3.so in the folder that the environment variable MYSQL_SESSION_LIBRARY
names. Else it is beside this file, as a wheel has it, else where `bindings/build` puts it.
`__build__` says whether the library in it was proved before it was compiled.

Texts (queries, names, messages) are str, which goes as UTF-8, or bytes; what comes out is bytes.

A limit is the max_allowed_packet of the side that packets go to, at least 4. `send` and `Recoder`
count a packet's header in it (a payload has at most `limit - 4` bytes), all other calls the payload
alone. `DEFAULT_LIMIT` is that of most servers.

An object stays in the thread that made it, and does one call at a time. A call in another thread
raises RuntimeError and changes nothing. So does one that a signal's handler or a finalizer makes
while another call of the object runs. Objects of different threads share nothing. A call lets other
threads run while it reads a large piece, from 128 KiB on. What goes in is copied first where it may
change, as a bytearray, and what comes out is a copy.

Nothing is lost if a call can't give what it has. MySQLSessionError by `Code.MEMORY`, MemoryError, a
converter's error or KeyboardInterrupt may end it on the way. Then `take`, `payload` and
`next_event` give the same at the next call. What `Recoder` and `ReplyWriter` wrote comes with what
they write next, or by `rest`. What was put on a `Connection` comes with what is put next, or by
`unsent`. That holds from Python 3.11 on also for an interrupt that comes as a call returns: what
the caller hasn't got counts as not given. Before 3.11 such an interrupt may lose what was given.
Only a `Connection` that reads an event and is refused memory by the library has failed: that is its
fault from then on.

An interrupt may come as any call returns. So one of `feed` or `ParameterSets.add` leaves open
whether the call took its argument. `Connection.room` and `len` of the sets tell; a receiver, a
recoder or a reader doesn't, and is begun anew. An interrupt behind `next` of a connection's events
loses that event: `for` and `next_event` lose none.

What a peer sends costs what it weighs: time and memory grow with its bytes, however they are cut
up. Columns of rows, and texts and columns of statements, are copied once. Events, rows and tables
of theirs have the same objects. A call that raises shows what it couldn't give anew at the next
call. So where a cell ends `take_values`, take the results by `take`.

What an object holds is freed by `close`, at the end of `with`, or when it is collected. Where that
happens in another thread, its own thread frees it when it makes its next object. Where that thread
has ended nobody does: `close` what a thread leaves. A closed object's calls raise
`MySQLSessionError` with `Code.EMPTY_HANDLE`.

Texts of values (`Road.TEXT`, `bind_text`, `literal`) are safe for a server in the `Mode` that the
call is given. The connection is in UTF-8 or another character set that `is_safe_to_quote`. For any
other a value may end its literal. Without a mode that is a server whose SQL mode has neither
NO_BACKSLASH_ESCAPES nor ANSI_QUOTES: take the session's mode, by `Connection.mode`.
`Spelling.HEXADECIMAL` is safe in each character set, and executions at each server.

Numbers that are too large for their field raise OverflowError.
"""

from __future__ import annotations

import contextlib
import dataclasses
import datetime
import decimal
import enum
import importlib.machinery
import importlib.util
import itertools
import math
import os
import re
import sys
import typing
from typing import (TYPE_CHECKING, Any, Callable, Dict, Iterable, Iterator, List, Mapping,
                    NamedTuple, Optional, Sequence, Tuple, Type, TypeVar, Union)

if TYPE_CHECKING:
    import uuid  # which takes longer to import than all else here

__all__ = [
    "ABI", "AcceptedEvent", "AnswerEvent", "ASK_SESSION_MODE", "AuthMoreEvent", "AuthSwitchEvent",
    "AUTOCOMMIT", "bind_text", "binlog_dump", "binlog_dump_gtid", "Bound", "BulkExecuteEvent", "BulkKind",
    "Capability", "Cell", "ChangeUserEvent", "CloseEvent", "Code", "code_text", "Collation",
    "Column", "ColumnCountEvent", "ColumnEvent", "ColumnFlag", "ColumnsEndEvent", "ColumnType",
    "ColumnValues", "Command", "CommandEvent", "Connection", "ConnectionEnd", "ConnectionEndKind",
    "ConnectionFault", "Content", "Cursor", "CutOffLoginEvent", "DateFields", "DEFAULT_LIMIT",
    "DeniedEvent", "digest", "End", "EndKind", "ends_reply", "ErrorEvent", "Event", "ExecuteEvent",
    "executions", "FarewellEvent", "FetchEvent", "FieldEvent", "File", "FileDataEvent",
    "FileRequestEvent", "Greeting", "GreetingEvent", "InitDbEvent", "is_proved", "is_safe_to_quote",
    "library_version", "LineEvent", "literal", "Login", "LoginEvent", "LongDataEvent",
    "MariadbCapability", "Mode", "MORE_RESULTS", "MySQLSessionError", "Named", "names_of",
    "NextFactorEvent", "Ok", "OkEvent", "OldAuthSwitchEvent", "OtherEvent", "PacketReader",
    "Parameter", "ParameterSets", "Params", "Phase", "place_count", "PluginDataEvent", "positional",
    "Prepared",
    "PreparedEvent", "PrepareEvent", "ProgressEvent", "Put", "put_greeting", "put_login",
    "put_packet", "QueryEvent", "QuitEvent", "RawRowEvent", "RawRows", "read_greeting",
    "read_login", "read_reply", "Reason", "Receiver", "recode", "Recoder", "register_replica",
    "RejectedEvent", "ReplyKind", "ReplyReader", "ReplyWriter", "ResetStatementEvent", "Result", "Road", "RowError",
    "RowEvent", "Rows", "rows_as", "rows_as_dicts", "rows_as_tuples", "RowsEndEvent",
    "SecureRequestEvent", "send", "ServerError", "SessionMode", "Side", "Spelling", "State",
    "Statement", "StateType", "Status", "Table", "Text", "TimeFields", "ValueRows", "Values",
]

__version__ = "0.1.0"

# The number of the interface that this module calls.
ABI = 11

# The max_allowed_packet that most servers have.
DEFAULT_LIMIT = 1 << 24

# The bit of a status that says that another result follows.
MORE_RESULTS = 8

# The bit of a status that each statement is committed as it ends.
AUTOCOMMIT = 2


# ---- Codes, roads and kinds ---------------------------------------------------------------------


class _Numbers(enum.IntEnum):
    """Numbers that `print` tells by their names, as Python before 3.11 does by itself."""

    __str__ = enum.Enum.__str__


class _Flags(enum.IntFlag):
    """The same of flags."""

    __str__ = enum.Flag.__str__


class Code(_Numbers):
    """What a call of the library answers. The header says which call answers which code."""

    OK = 0
    MEMORY = 1
    EMPTY_HANDLE = 2
    OTHER_KIND = 3
    OUT_OF_RANGE = 4
    LIMIT_TOO_SMALL = 5
    MIXED = 6
    NO_SUCH_ROAD = 7
    NO_SUCH_KIND = 8
    BAD_PACKET = 9
    UNFINISHED = 10
    NO_SUCH_MODE = 11
    FAULT_TOO_LARGE = 100
    FAULT_OUT_OF_SYNC = 101
    FAULT_EMPTY_COMMAND = 102
    FAULT_OTHER_COMMAND = 103
    FAULT_TEXT_MISMATCH = 104
    FAULT_NOT_ALONE = 105
    FAULT_PREPARE_MISMATCH = 106
    FAULT_TOO_MANY_PLACES = 107
    FAULT_NOT_PREPARED = 108
    FAULT_WRONG_ID = 109
    FAULT_BAD_EXECUTE = 110
    FAULT_NO_TYPES = 111
    FAULT_BAD_TYPE = 112
    FAULT_FLOAT = 113
    FAULT_BAD_PLACE = 114
    FAULT_BAD_BULK = 115
    FAULT_INDICATOR = 116
    FAULT_NO_ROWS = 117
    FAULT_PIECES_BEFORE_BULK = 118
    REFUSED_NOT_ALONE = 200
    REFUSED_TOO_MANY_PLACES = 201
    REFUSED_PREPARE_TOO_LARGE = 202
    REFUSED_NO_PLACES = 203
    REFUSED_PARAMS = 204
    REFUSED_WRONG_COUNT = 205
    REFUSED_FLOAT = 206
    REFUSED_PACKET_TOO_LARGE = 207
    REFUSED_MIXED_KINDS = 208
    REFUSED_ROW_TOO_LARGE = 209
    REPLY_TOO_LARGE = 300
    REPLY_OUT_OF_SYNC = 301
    REPLY_BAD_HEADER = 302
    REPLY_BAD_COUNT = 303
    REPLY_BAD_COLUMN = 304
    REPLY_BAD_OK = 305
    REPLY_BAD_ERROR = 306
    REPLY_BAD_ROW = 307
    REPLY_BAD_TERMINATOR = 308
    REPLY_BAD_PREPARE = 309
    REPLY_AFTER_END = 310
    WRITE_NO_RESULTS = 400
    WRITE_AFTER_END = 401
    WRITE_NOT_ENDED = 402
    WRITE_NOT_BEGUN = 403
    WRITE_WRONG_KIND = 404
    WRITE_NO_COLUMNS = 405
    WRITE_TOO_MANY_COLUMNS = 406
    WRITE_STATUS = 407
    WRITE_READS_AS_REPORT = 408
    WRITE_CELL_COUNT = 409
    WRITE_NO_FORM = 410
    WRITE_PACKET_TOO_LARGE = 411
    CONNECTION_CLOSED = 500
    CONNECTION_HELD = 501
    CONNECTION_TOO_LARGE = 510
    CONNECTION_OUT_OF_SYNC = 511
    CONNECTION_OLD_PROTOCOL = 512
    CONNECTION_BAD_GREETING = 513
    CONNECTION_BAD_LOGIN = 514
    CONNECTION_BAD_SWITCH = 515
    CONNECTION_UNASKED = 516
    CONNECTION_KEPT = 517
    CONNECTION_AFTER_QUIT = 518
    CONNECTION_NOT_DUE = 519
    CONNECTION_NOT_ITS_TURN = 520
    CONNECTION_UNKNOWN_STATEMENT = 521
    CONNECTION_WRONG_COUNT = 522


class Road(_Numbers):
    """How parameter sets are sent."""

    TEXT = 0
    """A text query for each set, in which values are literals. Safe for a server in the mode that
    `send` is given, over a connection in UTF-8 or another character set that `is_safe_to_quote`;
    for any other a value may end its literal."""
    EXECUTE = 1
    """One prepare, and an execution for each set. Safe for any server."""
    BULK = 2
    """One prepare, and the fewest of MariaDB's bulk executions. Safe for any MariaDB server."""


class Spelling(_Numbers):
    """How byte strings are spelled where values are written as literals: str and bytes. Numbers and
    NULL are spelled as ever, and dates and durations are in quotes."""

    QUOTED = 0
    """UTF-8 between single quotes, by the mode of the server, and other bytes as 0x and digits,
    which are a number where a server wants one."""
    HEXADECIMAL = 4
    """`_utf8mb4 0x` and two digits for each byte of UTF-8, `_binary 0x` and digits for other bytes,
    and '' for no bytes. They are the same in each mode and each character set, and a text or a
    string of bytes also where a number is wanted."""


class EndKind(_Numbers):
    """How a stream ends."""

    WHOLE = 0
    UNFINISHED_PACKET = 1
    """A packet isn't whole, or a reply lacks packets."""
    WAITING_PIECES = 2
    """Long data waits for an execution."""
    FAULT = 3


class ReplyKind(_Numbers):
    """The kind of command that a reply answers."""

    QUERY = 0
    EXECUTE = 1
    PREPARE = 2


class Capability(_Flags):
    """What client and server can do (MySQL: Client/Server Protocol, "Capabilities Flags")."""

    LONG_PASSWORD = 1
    """MariaDB calls it CLIENT_MYSQL: where it is clear MariaDB's own capabilities count."""
    FOUND_ROWS = 2
    LONG_FLAG = 4
    CONNECT_WITH_DB = 8
    NO_SCHEMA = 0x10
    COMPRESS = 0x20
    ODBC = 0x40
    LOCAL_FILES = 0x80
    IGNORE_SPACE = 0x100
    PROTOCOL_41 = 0x200
    INTERACTIVE = 0x400
    SSL = 0x800
    IGNORE_SIGPIPE = 0x1000
    TRANSACTIONS = 0x2000
    RESERVED = 0x4000
    SECURE_CONNECTION = 0x8000
    MULTI_STATEMENTS = 0x10000
    MULTI_RESULTS = 0x20000
    PS_MULTI_RESULTS = 0x40000
    PLUGIN_AUTH = 0x80000
    CONNECT_ATTRS = 0x100000
    PLUGIN_AUTH_LENENC_CLIENT_DATA = 0x200000
    CAN_HANDLE_EXPIRED_PASSWORDS = 0x400000
    SESSION_TRACK = 0x800000
    DEPRECATE_EOF = 0x1000000
    OPTIONAL_RESULTSET_METADATA = 0x2000000
    ZSTD_COMPRESSION_ALGORITHM = 0x4000000
    QUERY_ATTRIBUTES = 0x8000000
    MULTI_FACTOR_AUTHENTICATION = 0x10000000
    PROGRESS_OBSOLETE = 0x20000000
    SSL_VERIFY_SERVER_CERT = 0x40000000
    REMEMBER_OPTIONS = 0x80000000


class MariadbCapability(_Flags):
    """MariaDB's own capabilities, in a word of their own (MariaDB: "Connecting", 'Capabilities')."""

    PROGRESS = 1
    COM_MULTI = 2
    STMT_BULK_OPERATIONS = 4
    EXTENDED_METADATA = 8
    CACHE_METADATA = 0x10
    BULK_UNIT_RESULTS = 0x20


class ColumnType(_Numbers):
    """Types of columns (MySQL: Client/Server Protocol, "Field Types")."""

    DECIMAL = 0
    TINY = 1
    SHORT = 2
    LONG = 3
    FLOAT = 4
    DOUBLE = 5
    NULL = 6
    TIMESTAMP = 7
    LONGLONG = 8
    INT24 = 9
    DATE = 10
    TIME = 11
    DATETIME = 12
    YEAR = 13
    NEWDATE = 14
    VARCHAR = 15
    BIT = 16
    TIMESTAMP2 = 17
    DATETIME2 = 18
    TIME2 = 19
    TYPED_ARRAY = 20
    VECTOR = 242
    UNKNOWN = 243
    JSON = 245
    NEWDECIMAL = 246
    ENUM = 247
    SET = 248
    TINY_BLOB = 249
    MEDIUM_BLOB = 250
    LONG_BLOB = 251
    BLOB = 252
    VAR_STRING = 253
    STRING = 254
    GEOMETRY = 255


class Status(_Flags):
    """Bits of a server's status (MySQL: Client/Server Protocol, "Status Flags")."""

    IN_TRANS = 1
    AUTOCOMMIT = 2
    MORE_RESULTS = 8
    NO_GOOD_INDEX_USED = 0x10
    NO_INDEX_USED = 0x20
    CURSOR_EXISTS = 0x40
    LAST_ROW_SENT = 0x80
    DB_DROPPED = 0x100
    NO_BACKSLASH_ESCAPES = 0x200
    METADATA_CHANGED = 0x400
    QUERY_WAS_SLOW = 0x800
    PS_OUT_PARAMS = 0x1000
    IN_TRANS_READONLY = 0x2000
    SESSION_STATE_CHANGED = 0x4000
    ANSI_QUOTES = 0x8000
    """MariaDB's alone."""


class ColumnFlag(_Flags):
    """Flags of a column (MySQL: Client/Server Protocol, "Column Definition Flags")."""

    NOT_NULL = 1
    PRI_KEY = 2
    UNIQUE_KEY = 4
    MULTIPLE_KEY = 8
    BLOB = 0x10
    UNSIGNED = 0x20
    ZEROFILL = 0x40
    BINARY = 0x80
    ENUM = 0x100
    AUTO_INCREMENT = 0x200
    TIMESTAMP = 0x400
    SET = 0x800
    NO_DEFAULT_VALUE = 0x1000
    ON_UPDATE_NOW = 0x2000
    PART_KEY = 0x4000
    NUM = 0x8000


class Cursor(_Flags):
    """Cursors that an execution asks for (MySQL: Client/Server Protocol, "COM_STMT_EXECUTE")."""

    NO_CURSOR = 0
    READ_ONLY = 1
    FOR_UPDATE = 2
    SCROLLABLE = 4


class StateType(_Numbers):
    """What of a session changed (MySQL: Client/Server Protocol, "OK_Packet", 'Session State
    Information')."""

    SYSTEM_VARIABLES = 0
    SCHEMA = 1
    STATE_CHANGE = 2
    GTIDS = 3
    TRANSACTION_CHARACTERISTICS = 4
    TRANSACTION_STATE = 5


class Collation(_Numbers):
    """Some collations by their ids. A server lists all that it has in
    information_schema.COLLATIONS."""

    LATIN1_SWEDISH_CI = 8
    ASCII_GENERAL_CI = 11
    UTF8MB3_GENERAL_CI = 33
    UTF8MB4_GENERAL_CI = 45
    UTF8MB4_BIN = 46
    BINARY = 63
    UTF8MB3_BIN = 83
    UTF8MB4_UNICODE_CI = 224
    UTF8MB4_0900_AI_CI = 255


# ---- Modes --------------------------------------------------------------------------------------

# The library's flags; a spelling is the third.
_NO_BACKSLASH_ESCAPES, _ANSI_QUOTES, _UNKNOWN_MODE = 1, 2, 8


@dataclasses.dataclass(frozen=True)
class Mode:
    """The SQL mode of a server, as far as it changes how a text is read. The default has neither.

    Two modes change where a string ends. What is made for a server in one of them may be something
    else in another. A value may end its literal there, and what follows the quote is read as SQL.
    So take the session's mode, by `Connection.mode` or `SessionMode` (MySQL Reference Manual, "Server
    SQL Modes").
    """

    no_backslash_escapes: bool = False
    """A backslash in a string is a byte like any other."""
    ansi_quotes: bool = False
    """Double quotes are those of identifiers, as backticks are."""

    @classmethod
    def of(cls, status: int) -> Mode:
        """The mode that the status of a server tells, as its greeting and its OK and EOF packets
        have it. See MySQL: Client/Server Protocol, "Status Flags", and MariaDB: "OK_Packet".

        MySQL tells NO_BACKSLASH_ESCAPES in its status and not ANSI_QUOTES, for which the bit is
        MariaDB's. Behind a procedure that changed the mode a status may tell another one than the
        server is in: better go by `Connection.mode`. A packet with MariaDB's bit, which has no name
        in MySQL's protocol, is refused by `ReplyReader`.
        """
        return cls._told(_native.mode_of_status(status))

    @classmethod
    def of_sql_mode(cls, value: Text) -> Optional[Mode]:
        """The mode that the value of the variable sql_mode tells (MySQL Reference Manual, "Server
        SQL Modes"; MariaDB: "SQL_MODE"). Names are between commas, their letters in any case, and
        blanks around them don't count.

        ANSI_QUOTES is also told by each name that includes it. These are ANSI, and
        DB2, MAXDB, ORACLE and POSTGRESQL, which MariaDB has, and MySQL before 8.0. Other names of
        both manuals say nothing of how a text is read.

        None where a name is in neither manual, or is MSSQL, in which [ and ] quote names: the mode
        isn't known. Take `Spelling.HEXADECIMAL`, or an execution.
        """
        return cls._known(_native.mode_of_sql_mode(value))

    @classmethod
    def _known(cls, flags: int) -> Optional[Mode]:
        """The mode that the library's flags tell, where it is known."""
        return None if flags & _UNKNOWN_MODE else cls._told(flags)

    @classmethod
    def _told(cls, flags: int) -> Mode:
        """The mode that the library's flags tell."""
        return cls(bool(flags & _NO_BACKSLASH_ESCAPES), bool(flags & _ANSI_QUOTES))


def _flags(mode: Mode, spelling: Spelling = Spelling.QUOTED) -> int:
    """The library's flags of a mode and a spelling."""
    return (_NO_BACKSLASH_ESCAPES * bool(mode.no_backslash_escapes)
            | _ANSI_QUOTES * bool(mode.ansi_quotes) | Spelling(spelling))


ASK_SESSION_MODE = (b"SET session_track_system_variables = '*', sql_mode = @@sql_mode, "
                    b"character_set_client = @@character_set_client")
"""The text that asks a server for the mode and the character set of its session, any number of
times. Its OK packet tells both where both sides have `Capability.SESSION_TRACK`."""


@dataclasses.dataclass(frozen=True)
class SessionMode:
    """What is known of a session's SQL mode and character set, by what was said so far.

    A `Connection` keeps it. A program that has none goes on with it by itself, behind each statement
    and each OK packet. Of a new one nothing is known. Take it behind a login, a change of user and a
    reset, and ask by `ASK_SESSION_MODE`.

    Nothing is concluded from a status, a login or silence. A procedure's mode remains in the status
    of MariaDB. MySQL's has no bit of ANSI_QUOTES. And `init_connect` changes both behind a login. See
    MySQL: Reference Manual, "Server SQL Modes", "Server Tracking of Client Session State".
    """

    mode: Optional[Mode] = None
    """The mode, where it is known. Where it isn't, a query with a backslash may have other
    placeholders than it seems: take an execution for it."""
    is_safe_set: Optional[bool] = None
    """Whether quotes are safe in the session's character set, where it is known."""
    counts: bool = False
    """Whether what the next OK packet tells counts."""

    @property
    def spelling(self) -> Spelling:
        """How byte strings are spelled in a text for the session. They are in quotes only where the
        mode is known, and quotes are known to be safe in its character set."""
        is_safe = self.mode is not None and self.is_safe_set is True
        return Spelling.QUOTED if is_safe else Spelling.HEXADECIMAL

    def behind_text(self, text: Text) -> SessionMode:
        """Behind a statement that is sent as this text, or that is executed as it was prepared of it.
        Call it for each, before its reply is looked at, whether it is answered or refused.

        What was known stays behind one statement that begins with a word as SELECT, INSERT, COMMIT or
        CALL. Behind a SET the mode or the character set that it names isn't known, and behind all else
        neither is. A prepare, a close, a ping and the like change nothing.
        """
        return self._of(*_native.known_behind_text(*self._fields(), text))

    def behind_ok(self, ok: Union[_OkBase, Ok, Rows, ValueRows, Table, RawRows]) -> SessionMode:
        """Behind an OK packet of the reply to that statement: a result that is one, or whose rows one
        ended, or an event.

        What it tells of `sql_mode` and `character_set_client` is known then. It isn't where further
        results follow, where the text has the word STATEMENT, or where it can't be read.
        """
        changes = ok.state_changes if isinstance(ok, _OkBase) else _changes_of(ok)
        return self._of(*_native.known_behind_ok(*self._fields(), ok.status, changes))

    @classmethod
    def _of(cls, flags: int, set_known: bool, counts: bool) -> SessionMode:
        """What the library's fields tell."""
        is_safe_set = not flags & Spelling.HEXADECIMAL if set_known else None
        return cls(Mode._known(flags), is_safe_set, counts)

    def _fields(self) -> Tuple[int, bool, bool]:
        """The library's fields."""
        flags = _UNKNOWN_MODE if self.mode is None else _flags(self.mode)
        if self.is_safe_set is not True:
            flags |= Spelling.HEXADECIMAL
        return flags, self.is_safe_set is not None, self.counts


def _changes_of(result: Union[Ok, Rows, ValueRows, Table, RawRows]) -> bytes:
    """The changes of the session's state that a result's packet tells, as the packet has them. Where
    it tells some that can't be read, bytes that can't."""
    states = () if isinstance(result, RawRows) else result.states
    if not states and result.status & Status.SESSION_STATE_CHANGED:
        return b"\xff"
    return b"".join(bytes([it.type]) + _with_length(it.data) for it in states)


def _with_length(data: bytes) -> bytes:
    """Bytes behind their length (MySQL: Client/Server Protocol, "Length-Encoded Integer Type")."""
    count = len(data)
    if count < 0xfb:
        return bytes([count]) + data
    size, first = (2, b"\xfc") if count < 1 << 16 else (3, b"\xfd") if count < 1 << 24 else (
        8, b"\xfe")
    return first + count.to_bytes(size, "little") + data


def is_safe_to_quote(collation: int) -> bool:
    """Whether literals in quotes are safe in a text that a server reads in this collation. It is
    told by its id (MySQL Reference Manual and MariaDB, "Supported Character Sets and Collations").

    In some character sets a quote, a backslash or a backtick can be the second byte of a character.
    A server that reads a text so may take the byte before a quote and the quote for one character,
    and the string goes on. There take `Spelling.HEXADECIMAL`, or an execution. False for collations
    of big5, sjis, gbk, cp932 and gb18030, for gb2312_bin, and for MariaDB's of these without
    padding, whose ids are greater by 1024.
    """
    return bool(_native.is_safe_to_quote(collation))


# ---- Values -------------------------------------------------------------------------------------


class DateFields(NamedTuple):
    """A date by its fields, of which none is checked: also those that no calendar has, as month 0.

    The years go to 65535, the microseconds to 2**32 - 1, all others to 255.
    """

    year: int
    month: int
    day: int
    hour: int = 0
    minute: int = 0
    second: int = 0
    microsecond: int = 0


class TimeFields(NamedTuple):
    """A duration by its fields, of which none is checked: also those that timedelta lacks.

    The days and the microseconds go to 2**32 - 1, the hours, minutes and seconds to 255.
    """

    negative: bool
    days: int
    hours: int = 0
    minutes: int = 0
    seconds: int = 0
    microseconds: int = 0


Text = Union[str, bytes]
"""A text that goes in: str goes as UTF-8."""

Parameter = Union[None, bool, int, float, decimal.Decimal, str, bytes, bytearray, memoryview,
                  "uuid.UUID", datetime.datetime, datetime.date, datetime.time, datetime.timedelta,
                  DateFields, TimeFields]
"""A value of a set. `Command.execute` and `ReplyWriter.row` take a float; what sends sets, and what
writes texts, refuses it by REFUSED_FLOAT. There give its text, as repr has it.

A Decimal and a UUID go as the text that `str` makes of them. A server stores that text in a column of
DECIMAL or UUID whole. It compares a text with a number as floats: where more than 15 digits count,
write `CAST(? AS DECIMAL(20, 2))`. A time of day goes as a TIME, and so does a timedelta."""

Content = Union[None, int, bytes]
"""A value that a stream carries: dates, durations and texts are the bytes of their text."""

Cell = Union[None, int, float, bytes, datetime.datetime, datetime.date, datetime.timedelta,
             DateFields, TimeFields]
"""A value of a row. A text row has bytes and None alone, a binary row has each kind: a date or a
duration as that of `datetime` where there is one of the same fields, else by its fields."""


# ---- The extension ------------------------------------------------------------------------------


def _folder() -> str:
    """The folder of the extension."""
    named = os.environ.get("MYSQL_SESSION_LIBRARY")
    if named:
        return named
    here = os.path.dirname(os.path.abspath(__file__))
    # In the repository alone, where what compiles the extension stands beside this file.
    is_built_aside = (not os.path.exists(os.path.join(here, "_native.abi3.so"))
                      and os.path.exists(os.path.join(here, "make_native.py")))
    return os.path.join(os.path.dirname(here), "out") if is_built_aside else here


def _build_word() -> str:
    """Whether the library was proved before it was compiled: `proved`, `unproved`, or `unknown`
    where its folder doesn't say."""
    try:
        with open(os.path.join(_folder(), "mysql_session.build"), encoding="utf-8") as it:
            return it.readline().strip()
    except OSError:
        return "unknown"


def _loaded() -> Any:
    """The extension, where its interface is the one that this module calls."""
    if sys.implementation.name != "cpython" or "t" in getattr(sys, "abiflags", ""):
        raise ImportError("mysql_session is for CPython with its lock: a Python of free threads has"
                          " no stable interface that an extension could be built for")
    path, name = os.path.join(_folder(), "_native.abi3.so"), f"{__name__}._native"
    loader = importlib.machinery.ExtensionFileLoader(name, path)
    try:
        spec = importlib.util.spec_from_file_location(name, path, loader=loader)
        assert spec
        native = importlib.util.module_from_spec(spec)
        loader.exec_module(native)
    except ImportError as error:
        raise ImportError(f"the library of mysql_session can't be loaded: {error}. Run "
                          "bindings/build, which makes it, or have MYSQL_SESSION_LIBRARY name the "
                          "folder that has _native.abi3.so.") from error
    found = getattr(native, "abi", lambda: "none")()
    if found != ABI:
        raise ImportError(f"{path} has the interface {found}, not {ABI}: run bindings/build again")
    return native


_native = _loaded()
__build__ = _build_word()

# The fields that say where a call was refused, by its code; a fault of a stream has its payload.
_WHERE: Dict[int, Tuple[str, ...]] = {
    Code.UNFINISHED: ("end",),
    Code.REFUSED_NOT_ALONE: ("place",),
    Code.REFUSED_PARAMS: ("set",),
    Code.REFUSED_WRONG_COUNT: ("set",),
    Code.REFUSED_FLOAT: ("set", "place"),
    Code.REFUSED_PACKET_TOO_LARGE: ("set",),
    Code.REFUSED_MIXED_KINDS: ("set", "place"),
    Code.REFUSED_ROW_TOO_LARGE: ("set",),
    Code.WRITE_AFTER_END: ("result",),
    Code.WRITE_NOT_ENDED: ("result",),
    Code.WRITE_NOT_BEGUN: ("result",),
    Code.WRITE_WRONG_KIND: ("result",),
    Code.WRITE_NO_COLUMNS: ("result",),
    Code.WRITE_TOO_MANY_COLUMNS: ("result",),
    Code.WRITE_STATUS: ("result",),
    Code.WRITE_READS_AS_REPORT: ("result",),
    Code.WRITE_CELL_COUNT: ("result", "row"),
    Code.WRITE_NO_FORM: ("result", "row", "place"),
    Code.WRITE_PACKET_TOO_LARGE: ("payload",),
    **{code: ("payload",) for code in Code
       if Code.FAULT_TOO_LARGE <= code <= Code.FAULT_PIECES_BEFORE_BULK},
}


# What a code means here, where the library's text is about more languages.
_MEANING: Dict[int, str] = {Code.EMPTY_HANDLE: "it is closed: ",
                            Code.CONNECTION_HELD: "`room` says how many bytes are taken: ",
                            Code.CONNECTION_NOT_ITS_TURN: "take the events that are left by "
                            "`next_event`, until `turn` is that side, or close the connection: "}


def is_proved() -> bool:
    """Whether the library says of itself that it was proved before it was compiled."""
    return bool(_native.build() == 1)


def library_version() -> str:
    """The version that the library says it has: that of this module, `__version__`."""
    return str(_native.version())


def code_text(code: int) -> str:
    """The library's text of a code; of a number that is no code "no such code"."""
    return str(_native.code_text(code))


class MySQLSessionError(Exception):
    """A call of the library answered a code that isn't OK.

    `code` is the code, `text` what the library says of it. The code may be about a set, a place of
    it, a payload, a result or a row, all counted from 0. Then the attribute of that name has its
    number; else it is None. Of UNFINISHED `end` is how the stream ends.
    """

    def __init__(self, code: int, where: Optional[Mapping[str, int]] = None) -> None:
        super().__init__(code, where)
        self.code = _known(code)
        self.text = code_text(code)
        self._where = dict(where or {})
        self.set = self._where.get("set")
        self.place = self._where.get("place")
        self.payload = self._where.get("payload")
        self.result = self._where.get("result")
        self.row = self._where.get("row")
        self.end = EndKind(self._where["end"]) if "end" in self._where else None

    def __str__(self) -> str:
        spot = "".join(f", {name} {number}" for name, number in self._where.items())
        return f"{_MEANING.get(self.code, '')}{self.text} (code {int(self.code)}{spot})"


def _known(code: int) -> int:
    """The code by its name, where it has one."""
    try:
        return Code(code)
    except ValueError:
        return code


def _refused(code: int, where: Optional[Mapping[str, int]]) -> MySQLSessionError:
    """The error of a code, with the fields of where that belong to it. The extension raises it."""
    return MySQLSessionError(code, {it: where[it] for it in _WHERE.get(code, ())} if where else {})


def _fitting(number: int, bits: int) -> int:
    """The number, where it is one of so many bits without a sign."""
    if not isinstance(number, int):
        raise TypeError(f"a number is wanted, or a name of a number as Road.TEXT, not {number!r}")
    # A subclass may compare as it likes.
    value = int.__index__(number)
    if not 0 <= value < 1 << bits:
        raise OverflowError(f"{value} is no number of {bits} bits without a sign")
    return value


_SIZE_BITS = 64


def _as_bytes(text: Union[str, bytes, bytearray, memoryview]) -> bytes:
    """A text or bytes as bytes, of no class but bytes itself."""
    if type(text) is bytes:
        return text
    if isinstance(text, str):
        return str.encode(text, "utf-8")
    return memoryview(text).tobytes()


def _received(data: Union[bytes, bytearray, memoryview]) -> bytes:
    """What came of a stream, as bytes: never a str, for a stream has no character set."""
    if isinstance(data, str):
        raise TypeError("bytes are wanted, not a str")
    return _as_bytes(data)


# ---- Objects ------------------------------------------------------------------------------------


_Self = TypeVar("_Self", bound="_Object")


class _Object:
    """An object of the library. It stays in the thread that made it, and is freed by `close`, at
    the end of `with`, or when it is collected.

    A call that gives what it takes back where it fails is made within `try`. From Python 3.11 on
    no signal is handled between the end of that and the caller's next step."""

    def __init__(self, native: Any) -> None:
        if hasattr(self, "_native"):
            raise RuntimeError("an object of mysql_session is made once")
        self._native = native

    def close(self) -> None:
        """Frees what the object holds. A second call does nothing."""
        self._native.close()

    def __enter__(self: _Self) -> _Self:
        self._native.check()
        return self

    def __exit__(self, kind: Optional[Type[BaseException]], error: Optional[BaseException],
                 traceback: Any) -> None:
        self.close()


class End(NamedTuple):
    """How a stream ends."""

    kind: EndKind
    fault: Optional[Code] = None
    """Of FAULT what is wrong."""
    payload: Optional[int] = None
    """Of FAULT which payload is, from 0."""


def _end_of(kind: int, fault: int, payload: int) -> End:
    """How a stream ends, as it is shown."""
    if kind == EndKind.FAULT:
        return End(EndKind.FAULT, Code(fault), payload)
    return End(EndKind(kind))


# ---- Receivers ----------------------------------------------------------------------------------


class Receiver(_Object):
    """Reads the parameter sets that a stream of commands about one query carries.

    The statement is the id that the stream's executions name. The mode is that of the server which
    the stream was sent to. For one in another mode texts, and the query's placeholders, may be
    others than this receiver reads. By `Spelling.HEXADECIMAL` it reads literals behind `_utf8mb4`
    and `_binary` too. Raises MySQLSessionError: LIMIT_TOO_SMALL, MIXED (names and question marks as
    placeholders), MEMORY.
    """

    def __init__(self, query: Text, statement: int = 1, limit: int = DEFAULT_LIMIT, *,
                 mode: Mode = Mode(), spelling: Spelling = Spelling.QUOTED) -> None:
        super().__init__(_native.receiver(query, statement, limit, _flags(mode, spelling)))

    def feed(self, piece: Union[bytes, bytearray, memoryview]) -> None:
        """Takes the next piece of the stream, of any length.

        Raises MySQLSessionError with the stream's fault, from the first on at each call. The sets
        before the fault are there, and `end` says where it is.
        """
        self._native.feed(piece)

    def take(self) -> List[Tuple[Content, ...]]:
        """The sets that were read since the last call, in their order.

        Where MemoryError or KeyboardInterrupt ends the call, the next one gives them. They are let
        go by the next `feed`, or with the receiver.
        """
        try:
            sets: List[Tuple[Content, ...]] = self._native.take()
        except BaseException:
            self._native.ungive()
            raise
        return sets

    def __iter__(self) -> Iterator[Tuple[Content, ...]]:
        """The sets as `take` gives them."""
        return iter(self.take())

    def end(self) -> End:
        """Ends the stream, and says how it ends. The sets that weren't taken stay."""
        return _end_of(*self._native.end())


# ---- Parameter sets -----------------------------------------------------------------------------

class ParameterSets(_Object):
    """Parameter sets that are put together for `send`.

    A set is a sequence with a value for each placeholder, in their order: see `Parameter`. A bool
    is 0 or 1. An int below 2**63 is signed, and one of 2**63 and more has no sign: `Road.BULK`
    refuses the two for one placeholder. A float has 64 bits. A str is its UTF-8. A datetime and a
    time have to be naive, and a Decimal has to be finite: else ValueError.
    """

    def __init__(self, sets: Iterable[Sequence[Parameter]] = ()) -> None:
        super().__init__(_native.sets())
        self._native.extend(sets)

    def add(self, values: Sequence[Parameter]) -> None:
        """Puts a set behind the others.

        Raises TypeError for what is no sequence of parameters, as a set of Python's, which has no
        order. Raises OverflowError for an int of more than 64 bits. The sets stay as they were then.
        """
        self._native.add(values)

    def clear(self) -> None:
        """Lets go of all sets."""
        self._native.clear()

    def __len__(self) -> int:
        return int(self._native.count())


Params = Union[Sequence[Parameter], Mapping[str, Parameter]]
"""A parameter set: values in the order of the query's question marks, or by its names."""

# A name as placeholders have it, wherever it stands.
_NAME = re.compile(rb":([a-z_][a-z0-9_]*)")


def names_of(query: Text, *, mode: Mode = Mode()) -> Tuple[str, ...]:
    """The names of a query's placeholders at a server in this mode. There is one for each, in
    their order; none where they are question marks.

    Raises MySQLSessionError: MIXED, REFUSED_TOO_MANY_PLACES.
    """
    # Two texts of which the second has a question mark in the place of each name.
    text, asked = _as_bytes(query), positional(query, mode=mode)
    names, longer = [], 0
    if text != asked:
        for found in _NAME.finditer(text):
            if asked[found.start() - longer:found.start() - longer + 1] == b"?":
                names.append(found.group(1).decode())
                longer += len(found.group(0)) - 1
    return tuple(names)


def _in_order(query: Text, sets: Iterable[Params],
              mode: Mode) -> Tuple[Text, Iterable[Any]]:
    """A query and its sets; where these have names, its form with question marks, and their values
    in its order."""
    whole: Any = sets
    if isinstance(sets, (list, tuple)):
        begin = list(sets[:1])
    else:
        given = iter(sets)
        begin = [*itertools.islice(given, 1)]
        whole = itertools.chain(begin, given)
    names = names_of(query, mode=mode) if begin and isinstance(begin[0], Mapping) else ()
    if not names:
        return query, whole
    return positional(query, mode=mode), ([it[name] for name in names] for it in whole)


def send(query: Text, sets: Union[ParameterSets, Iterable[Params]], road: Road,
         statement: int = 1, limit: int = DEFAULT_LIMIT, *, mode: Mode = Mode(),
         spelling: Spelling = Spelling.QUOTED) -> bytes:
    """The commands that carry these sets to a server, as framed packets.

    By `Road.EXECUTE` and `Road.BULK` the first packet is the prepare. The others name the statement
    by this id: a server answers the prepare with the id that it gives. A receiver of the same
    query, id, limit and mode reads the sets back. The sets stay as they are.

    By `Road.TEXT` values are literals in the query's text. Safe for a server in this mode. By
    `Spelling.QUOTED` the connection is in UTF-8 or another character set that `is_safe_to_quote`.
    By `Spelling.HEXADECIMAL` it is in any in which bytes below 80 that follow one another are
    themselves. For a server in another mode a value may end its literal, and what follows the
    quote is read as SQL. By the other methods it is safe for any server, and the mode says which
    bytes of the query's own text are placeholders.

    The query has question marks as placeholders, or names, and then each set is a dict by these.
    `ParameterSets` have an order alone: where the query has names, send them for its `positional`.

    Raises MySQLSessionError with the first cause against it, by its set and placeholder: MIXED,
    LIMIT_TOO_SMALL, REFUSED_...; KeyError where a name has no value.
    """
    if not isinstance(sets, ParameterSets):
        query, ordered = _in_order(query, sets, mode)
        with ParameterSets(ordered) as made:
            return send(query, made, road, statement, limit, mode=mode, spelling=spelling)
    stream: bytes = _native.send(sets._native, query, road, statement, limit,
                                 _flags(mode, spelling))
    return stream


def place_count(query: Text, *, mode: Mode = Mode()) -> int:
    """How many placeholders a query has at a server in this mode.

    `Connection.put_sets` compares it with the server's number of parameters. Who sends sets without
    a Connection compares it with the number in the reply to the prepare, before the executions are
    sent. A server runs an execution of another number of values too, with other values than were
    meant.

    Raises MySQLSessionError: MIXED.
    """
    count: int = _native.place_count(query, _flags(mode))
    return count


def positional(query: Text, *, mode: Mode = Mode()) -> bytes:
    """The query as it is prepared at a server in this mode: with a question mark in the place of
    each name.

    Raises MySQLSessionError: MIXED, REFUSED_TOO_MANY_PLACES.
    """
    query = _as_bytes(query)
    limit = max(DEFAULT_LIMIT, 2 * len(query) + 4)
    with PacketReader(0, limit) as reader:
        reader.feed(send(query, (), Road.EXECUTE, limit=limit, mode=mode))
        return (reader.payload() or b"")[1:]


def bind_text(query: Text, values: Params, *, mode: Mode = Mode(),
              spelling: Spelling = Spelling.QUOTED) -> bytes:
    """The query with a literal in the place of each placeholder, as a COM_QUERY has it. The values
    are a sequence in the order of its question marks, or a dict by its names.

    Safe for a server in this mode. By `Spelling.QUOTED` the connection is in UTF-8 or another
    character set that `is_safe_to_quote`. By `Spelling.HEXADECIMAL` it is in any in which bytes
    below 80 that follow one another are themselves. For a server in another mode a value may end
    its literal, and what follows the quote is read as SQL.

    Raises MySQLSessionError: MIXED, REFUSED_NOT_ALONE, REFUSED_PARAMS, REFUSED_WRONG_COUNT,
    REFUSED_FLOAT.
    """
    query, [ordered] = _in_order(query, [values], mode)
    with ParameterSets([ordered]) as sets:
        text: bytes = _native.bind_text(sets._native, query, _flags(mode, spelling))
        return text


def literal(value: Parameter, *, mode: Mode = Mode(),
            spelling: Spelling = Spelling.QUOTED) -> bytes:
    """The literal of a value, as it is in the text of a query.

    Safe for the servers that `bind_text` is safe for by the same mode and spelling. Raises
    MySQLSessionError by REFUSED_FLOAT, as a float has none.
    """
    with ParameterSets([(value,)]) as sets:
        text: bytes = _native.value_text(sets._native, _flags(mode, spelling))
        return text


def digest(text: Text, *, mode: Mode = Mode()) -> bytes:
    """The digest of a statement: its text with the values taken out.

    Statements that differ in their values alone have one digest. So it serves to count them, and to
    show one whose values are a secret. It has no byte of the inside of a string.

    Strings, numbers, placeholders, NULL, TRUE and FALSE are `?`, and a number's sign goes with it.
    Values between commas are `?, ...`. Alone in parentheses they are `(...)`, one value `(?)`, and
    such rows between commas `(...) /* , ... */`. Comments and blanks are one space, as there is
    between all else. Words are in lower case. Where servers begin to read the text differently the
    digest ends with `/* ... */`. It has at most three times the bytes of the text and ten.

    The mode is that of the server that reads the text: a string may end elsewhere in another. (MySQL
    Reference Manual, "Performance Schema Statement Digests and Sampling".)
    """
    made: bytes = _native.digest(text, _flags(mode))
    return made


# ---- Recoding -----------------------------------------------------------------------------------


class Recoder(_Object):
    """Writes a stream of commands about one query as executions, as it comes.

    Streams that carry the same sets give the same bytes. The arguments are those of `Receiver`.
    What it writes carries no texts with values: it is for a server in any mode in which the query's
    own text is the same. Raises MySQLSessionError also by REFUSED_TOO_MANY_PLACES and
    REFUSED_PREPARE_TOO_LARGE.
    """

    def __init__(self, query: Text, statement: int = 1, limit: int = DEFAULT_LIMIT, *,
                 mode: Mode = Mode(), spelling: Spelling = Spelling.QUOTED) -> None:
        super().__init__(_native.recoder(query, statement, limit, _flags(mode, spelling)))

    def feed(self, piece: Union[bytes, bytearray, memoryview]) -> bytes:
        """Takes the next piece; gives the executions of the sets that are whole with it, before
        the first of all the prepare.

        Raises MySQLSessionError with the fault and its payload, or REFUSED_PACKET_TOO_LARGE with
        its set, and from then on the same at each call.
        """
        try:
            written: bytes = self._native.feed(piece)
        except BaseException:
            self._native.ungive()
            raise
        return written

    def end(self) -> bytes:
        """Ends the stream; gives the prepare where it carried no set, else nothing. The recoder
        takes nothing more.

        Raises MySQLSessionError by UNFINISHED where the stream isn't whole, and as `feed` did.
        """
        try:
            written: bytes = self._native.end()
        except BaseException:
            self._native.ungive()
            raise
        return written

    def rest(self) -> bytes:
        """What a call made and couldn't give, as MemoryError or KeyboardInterrupt ended it: mostly
        nothing. The next `feed` or `end` gives it too, before its own."""
        try:
            written: bytes = self._native.rest()
        except BaseException:
            self._native.ungive()
            raise
        return written


def recode(query: Text, stream: Union[bytes, bytearray, memoryview], statement: int = 1,
           limit: int = DEFAULT_LIMIT, *, mode: Mode = Mode(),
           spelling: Spelling = Spelling.QUOTED) -> bytes:
    """The executions that carry the sets of a stream which is all at hand. Raises as `Recoder`."""
    with Recoder(query, statement, limit, mode=mode, spelling=spelling) as recoder:
        executions = recoder.feed(stream)
        return executions + recoder.end()


# ---- Replies read -------------------------------------------------------------------------------


_Record = TypeVar("_Record")


class Column(NamedTuple):
    """A column of rows, or of a prepared statement, or a parameter of one."""

    name: bytes
    type: int
    """Mostly a number of `ColumnType`."""
    flags: int = 0
    """Bits of `ColumnFlag`."""
    charset: int = 45
    """The id of its collation, as `Collation` has some."""
    length: int = 0
    decimals: int = 0
    schema: bytes = b""
    table: bytes = b""
    org_table: bytes = b""
    org_name: bytes = b""


class State(NamedTuple):
    """A change of the session's state that an OK packet tells."""

    type: int
    """Of the protocol's Session State Information: 0 a system variable, 1 the schema."""
    data: bytes


class Ok(NamedTuple):
    """An OK packet."""

    affected_rows: int
    last_insert_id: int
    status: int
    warnings: int
    info: bytes
    states: Tuple[State, ...]
    """The changes of the session's state; none where they can't be read."""


class Rows(NamedTuple):
    """Rows, or those of them that came since the last taking."""

    columns: Tuple[Column, ...]
    rows: List[Tuple[Cell, ...]]
    ended: bool
    """Whether the packet that ends the rows came. It gives what follows; else that is 0 or empty,
    and the rows go on in what is taken next, or an error ended them."""
    status: int
    warnings: int
    info: bytes
    states: Tuple[State, ...]

    def rows_as(self, record: Callable[..., _Record]) -> List[_Record]:
        """The rows as records of a dataclass or a NamedTuple, as `rows_as` makes them."""
        return rows_as(record, self.columns, self.rows)

    def dicts(self) -> List[Dict[str, Any]]:
        """The rows by the names of the columns, as `rows_as_dicts` makes them."""
        return rows_as_dicts(self.columns, self.rows)

    def tuples(self, *types: Any) -> List[Tuple[Any, ...]]:
        """The rows with values of these types, or the columns' own, as `rows_as_tuples` makes
        them."""
        return rows_as_tuples(self.columns, self.rows, *types)


class Prepared(NamedTuple):
    """A prepared statement."""

    statement: int
    warnings: int
    params: Tuple[Column, ...]
    columns: Tuple[Column, ...]


class ServerError(NamedTuple):
    """An error that the server answers."""

    code: int
    state: bytes
    """The SQL state, five bytes, or none."""
    message: bytes


class File(NamedTuple):
    """The server asks for a local file."""

    name: bytes


class RawRows(NamedTuple):
    """Rows whose columns the server left out, by MySQL's optional metadata. Their bytes aren't
    shown."""

    count: int  # type: ignore[assignment]
    ended: bool
    status: int
    warnings: int


class ValueRows(NamedTuple):
    """Rows with values, each of its column's type; else as `Rows`."""

    columns: Tuple[Column, ...]
    rows: List[Tuple[Any, ...]]
    ended: bool
    status: int
    warnings: int
    info: bytes
    states: Tuple[State, ...]

    def dicts(self) -> List[Dict[str, Any]]:
        """The rows by the names of the columns. Raises RowError where two have one name."""
        return _records_of(self.columns, self.rows, None)

    def records(self, record: Callable[..., _Record]) -> List[_Record]:
        """The rows as records of a dataclass or a NamedTuple, whose fields are found by the names of
        the columns. The values are taken as they are: `Rows.rows_as` looks at the fields' types.

        Raises RowError where a column of a field isn't there, or there are several of its name.
        """
        return _records_of(self.columns, self.rows, record)


class ColumnValues(NamedTuple):
    """A column of a table."""

    values: Union[memoryview, List[Any]]
    """Of whole numbers a view of the format "q", and "Q" of BIGINT UNSIGNED, of floats one of "d",
    which hold 0 in the place of NULL. They lie in memory as arrays do, so that numpy.frombuffer and
    others take them without a copy. Of all else, and where a converter is, a list."""
    nulls: memoryview
    """Of the format "?": whether the value of a row is NULL."""


class Table(NamedTuple):
    """Rows as columns, or those of them that came since the last taking; else as `Rows`."""

    columns: Tuple[Column, ...]
    row_count: int
    arrays: Tuple[ColumnValues, ...]
    ended: bool
    status: int
    warnings: int
    info: bytes
    states: Tuple[State, ...]

    def tuples(self) -> List[Tuple[Any, ...]]:
        """The rows as tuples."""
        return list(zip(*([None if null else value for value, null in zip(*it)]
                          for it in self.arrays)))


Result = Union[Ok, Rows, Prepared, ServerError, File, RawRows]
"""A result of a reply."""

ValueResult = Union[Ok, ValueRows, Prepared, ServerError, File, RawRows]
"""A result of a reply, as `take_values` gives it."""

TableResult = Union[Ok, Table, Prepared, ServerError, File, RawRows]
"""A result of a reply, as `take_tables` gives it."""


class Values:
    """How cells become values: as their columns' types say, or by converters in place of that.

    They are int, float, Decimal, datetime, date and timedelta, as `rows_as_dicts` has them. Texts
    are str, by the character set of the column's collation, or bytes where that is binary. NULL is
    None.

    A converter is given a cell as `Cell` has it, bytes of a text row or the value of a binary one,
    and never NULL. It is called for each cell of a column of its type (of `ColumnType`). What it
    gives is the value, and what it raises ends the call.
    """

    def __init__(self, converters: Mapping[int, Callable[[Any], Any]] = {}) -> None:
        self._native = _native.values({int(it): made for it, made in converters.items()})


def ends_reply(result: Union[Result, ValueResult, TableResult]) -> bool:
    """Whether a result is the last one of its reply."""
    if isinstance(result, (Rows, ValueRows, Table, RawRows)):
        return result.ended and not result.status & MORE_RESULTS
    return not isinstance(result, Ok) or not result.status & MORE_RESULTS


_FORM_CELLS, _FORM_VALUES, _FORM_COLUMNS = range(3)


class ReplyReader(_Object):
    """Reads a server's reply to one command as it comes.

    The capabilities are those that both sides have. `first` is the number of the reply's first
    packet, mostly 1. A payload has at most `limit` bytes.
    """

    def __init__(self, kind: ReplyKind, capabilities: int, first: int = 1,
                 limit: int = DEFAULT_LIMIT) -> None:
        super().__init__(_native.reply(kind, capabilities, first, limit))

    def feed(self, piece: Union[bytes, bytearray, memoryview]) -> None:
        """Reads the next bytes.

        Raises MySQLSessionError with the reply's fault, from the first on at each call. The
        results before the fault are there, and `end` says where it is.
        """
        self._native.feed(piece)

    def take(self) -> List[Result]:
        """The results so far that weren't taken before: those that are whole, and of rows that
        go on those so far. `ends_reply` says of the last whether the reply is whole.

        All of them are shown before any is let go. Where that ends by MySQLSessionError with
        MEMORY, by MemoryError or by KeyboardInterrupt, the next call gives them, and what came
        since behind them.
        """
        try:
            results: List[Result] = self._native.take(_FORM_CELLS, None)
        except BaseException:
            self._native.ungive()
            raise
        return results

    def take_values(self, values: Optional[Values] = None) -> List[ValueResult]:
        """The same as `take`, but that rows are `ValueRows`. Each cell is a value of its column's
        type, or what a converter of `values` makes of it.

        Raises RowError at the first cell that isn't as its column says, and what a converter raises.
        The results stay then: the next call gives them, as `take` does by their cells.
        """
        native = None if values is None else values._native
        try:
            results: List[ValueResult] = self._native.take(_FORM_VALUES, native)
        except BaseException:
            self._native.ungive()
            raise
        return results

    def take_tables(self, values: Optional[Values] = None) -> List[TableResult]:
        """The same as `take_values`, but that rows are a `Table`, which has a column as an array."""
        native = None if values is None else values._native
        try:
            results: List[TableResult] = self._native.take(_FORM_COLUMNS, native)
        except BaseException:
            self._native.ungive()
            raise
        return results

    def end(self) -> End:
        """Ends the reply, and says how it ends. The results that weren't taken stay.

        Where a `take` failed, its results are shown first, by their cells, and may raise as they did:
        the reply goes on then.
        """
        return _end_of(*self._native.end())


def read_reply(kind: ReplyKind, capabilities: int, reply: Union[bytes, bytearray, memoryview],
               first: int = 1, limit: int = DEFAULT_LIMIT) -> Tuple[List[Result], End]:
    """The results of a reply that is all at hand, those before a fault too, and how it ends."""
    with ReplyReader(kind, capabilities, first, limit) as reader:
        try:
            reader.feed(reply)
        except MySQLSessionError as error:
            if not Code.REPLY_TOO_LARGE <= error.code <= Code.REPLY_AFTER_END:
                raise
        end = reader.end()
        return reader.take(), end


# ---- Rows as values of Python's types -----------------------------------------------------------


class RowError(ValueError):
    """A row isn't what was asked for. `column` is the name of the column that it is about, and
    `row` the number of the row, from 0. Each is None where it is about no single one."""

    def __init__(self, why: str, column: Optional[str], row: Optional[int] = None) -> None:
        super().__init__(why, column, row)
        self.why, self.column, self.row = why, column, row

    def __str__(self) -> str:
        spots = [f"{name} {spot}" for name, spot in (("row", self.row), ("column", self.column))
                 if spot is not None]
        return f"{', '.join(spots)}: {self.why}"


_Reader = Callable[[Any], Any]

# No more digits than Python reads by default, for what older versions take grows by their square.
_WHOLE_TEXT = re.compile(rb"[+-]?[0-9]{1,4300}\Z")
# A number with a point or an exponent, as servers write DECIMAL and DOUBLE.
_REAL_TEXT = re.compile(rb"[+-]?(?:[0-9]+(?:\.[0-9]*)?|\.[0-9]+)(?:[eE][+-]?[0-9]+)?\Z")
_DATE_TEXT = re.compile(rb"([0-9]{4})-([0-9]{2})-([0-9]{2})"
                        rb"(?: ([0-9]{2}):([0-9]{2}):([0-9]{2})(?:\.([0-9]{1,6}))?)?\Z")
_TIME_TEXT = re.compile(rb"(-?)([0-9]{2,9}):([0-9]{2}):([0-9]{2})(?:\.([0-9]{1,6}))?\Z")


def _only(kinds: Any, cell: Any) -> Any:
    """A cell, or what was found in one, where it is of one of these types."""
    if not isinstance(cell, kinds):
        raise ValueError
    return cell


def _whole(cell: Cell) -> int:
    if isinstance(cell, bytes):
        return int(_only(re.Match, _WHOLE_TEXT.match(cell))[0])
    return int(_only(int, cell))


def _truth(cell: Cell) -> bool:
    return bool((0, 1).index(_whole(cell)))


def _float(cell: Cell) -> float:
    if not isinstance(cell, bytes):
        return float(_only((int, float), cell))
    number = float(_only(re.Match, _REAL_TEXT.match(cell))[0])
    if math.isinf(number):
        raise OverflowError
    return number


def _decimal(cell: Cell) -> decimal.Decimal:
    if not isinstance(cell, bytes):
        return decimal.Decimal(_only(int, cell))
    return decimal.Decimal(_only(re.Match, _REAL_TEXT.match(cell))[0].decode())


def _text(cell: Cell) -> str:
    return str(_only(bytes, cell).decode("utf-8"))


def _text_in(codec: bytes) -> _Reader:
    """What reads a text of another character set than UTF-8."""
    return lambda cell: _only(bytes, cell).decode(codec.decode())


def _bytes(cell: Cell) -> bytes:
    return bytes(_only(bytes, cell))


def _date_in(cell: Cell) -> Union[datetime.datetime, DateFields]:
    """The date and time of a cell, by its fields where there is no such day."""
    if isinstance(cell, bytes):
        *fields, digits = _only(re.Match, _DATE_TEXT.match(cell)).groups(b"0")
        cell = DateFields(*map(int, (*fields, digits.ljust(6, b"0"))))
        with contextlib.suppress(ValueError):
            return datetime.datetime(*cell)
    elif type(cell) is datetime.date:
        return datetime.datetime(cell.year, cell.month, cell.day)
    found: Union[datetime.datetime, DateFields] = _only((datetime.datetime, DateFields), cell)
    return found


def _moment(cell: Cell) -> datetime.datetime:
    found: datetime.datetime = _only(datetime.datetime, _date_in(cell))
    return found


def _day_in(cell: Cell) -> Union[datetime.date, DateFields]:
    """The date of a cell without a time of day, by its fields where there is no such day."""
    date = _date_in(cell)
    if isinstance(date, DateFields):
        return date
    if date.time() != datetime.time(0):
        raise ValueError
    return date.date()


def _day(cell: Cell) -> datetime.date:
    found: datetime.date = _only(datetime.date, _day_in(cell))
    return found


def _duration_in(cell: Cell) -> Union[datetime.timedelta, TimeFields]:
    """The duration of a cell, by its fields where timedelta hasn't it."""
    if not isinstance(cell, bytes):
        given: Union[datetime.timedelta, TimeFields] = _only((datetime.timedelta, TimeFields), cell)
        return given
    sign, *fields, digits = _only(re.Match, _TIME_TEXT.match(cell)).groups(b"0")
    hours, minutes, seconds = map(int, fields)
    duration = datetime.timedelta(hours=hours, minutes=minutes, seconds=seconds,
                                  microseconds=int(digits.ljust(6, b"0")))
    return -duration if sign == b"-" else duration


def _duration(cell: Cell) -> datetime.timedelta:
    found: datetime.timedelta = _only(datetime.timedelta, _duration_in(cell))
    return found


# Character sets but UTF-8, by Python's names of them, and the ids of their collations (MySQL
# Reference Manual and MariaDB, "Supported Character Sets and Collations"). Those of which Python
# knows none, and those that aren't here, are read as UTF-8.
_CODEC_COLLATIONS: Dict[str, Iterable[int]] = {
    "big5": (1, 84), "iso8859-2": (2, 9, 21, 27, 77), "cp850": (4, 80),
    "cp1252": (5, 8, 15, 31, 47, 48, 49, 94), "hp-roman8": (6, 72), "koi8-r": (7, 74),
    "euc_jp": (12, 91, 97, 98), "cp932": (13, 88, 95, 96), "cp1251": (14, 23, 50, 51, 52),
    "iso8859-8": (16, 71), "tis-620": (18, 89), "euc_kr": (19, 85), "iso8859-13": (20, 41, 42, 79),
    "koi8-u": (22, 75), "gb2312": (24, 86), "iso8859-7": (25, 70),
    "cp1250": (26, 34, 44, 66, 99), "gbk": (28, 87), "cp1257": (29, 58, 59), "iso8859-9": (30, 78),
    "utf-16-be": (35, 90, *range(128, 152), 159, 54, 55, *range(101, 125)), "utf-16-le": (56, 62),
    "utf-32-be": (60, 61, *range(160, 184)), "cp866": (36, 68), "mac-latin2": (38, 43),
    "mac-roman": (39, 53), "cp852": (40, 81), "cp1256": (57, 67), "gb18030": (248, 249, 250),
}
# MariaDB's collations without padding have ids that are greater by 1024.
_CODECS: Dict[int, bytes] = {collation + more: name.encode() for name, ids
                             in _CODEC_COLLATIONS.items() for collation in ids for more in (0, 1024)}

# The collation of what is no text.
_BINARY_COLLATION = 63


class _How(enum.IntEnum):
    """How the extension reads cells, as its `enum how` has them; behind these by the reader alone,
    and not at all."""

    BYTES = 0
    TEXT = 1
    CODEC = 2
    INT = 3
    FLOAT = 4
    DECIMAL = 5
    DATE = 6
    DATETIME = 7
    TIME = 8
    READER = 9
    AS_IT_IS = 10


# What reads a cell that the extension leaves to Python, as a column says.
_HOW_READERS: Sequence[_Reader] = (_bytes, _text, _text, _whole, _float, _decimal, _day_in, _date_in,
                                   _duration_in)

# How a cell is read as a value of a type, and what reads it where the extension doesn't.
_TYPE_READERS: Dict[Any, Tuple[_How, _Reader]] = {
    bool: (_How.READER, _truth), int: (_How.INT, _whole), float: (_How.FLOAT, _float),
    decimal.Decimal: (_How.DECIMAL, _decimal), str: (_How.CODEC, _text), bytes: (_How.BYTES, _bytes),
    datetime.datetime: (_How.DATETIME, _moment), datetime.date: (_How.DATE, _day),
    datetime.timedelta: (_How.TIME, _duration),
}

# How the cells of a column are read by its type; those that aren't here are texts or bytes.
_COLUMN_HOWS: Dict[int, _How] = {
    **{it: _How.INT for it in (ColumnType.TINY, ColumnType.SHORT, ColumnType.LONG, ColumnType.INT24,
                               ColumnType.LONGLONG, ColumnType.YEAR)},
    **{it: _How.FLOAT for it in (ColumnType.FLOAT, ColumnType.DOUBLE)},
    **{it: _How.DECIMAL for it in (ColumnType.DECIMAL, ColumnType.NEWDECIMAL)},
    **{it: _How.DATETIME for it in (ColumnType.TIMESTAMP, ColumnType.DATETIME,
                                    ColumnType.TIMESTAMP2, ColumnType.DATETIME2)},
    **{it: _How.DATE for it in (ColumnType.DATE, ColumnType.NEWDATE)},
    **{it: _How.TIME for it in (ColumnType.TIME, ColumnType.TIME2)},
    **{it: _How.BYTES for it in (ColumnType.BIT, ColumnType.GEOMETRY, ColumnType.VECTOR)},
    ColumnType.JSON: _How.TEXT,
}

# A place of a row: its number, how it is read, by which codec, by what else, and whether NULL stays.
_Reading = Tuple[int, int, Optional[bytes], _Reader, bool]


def _reading(at: int, wanted: Any, column: Column, is_optional: bool = False) -> _Reading:
    """How a column's cells are read as a value of a type: Any as the column says, Optional[..] with
    None for NULL."""
    codec = _CODECS.get(column.charset)
    text = _text if codec is None else _text_in(codec)
    if wanted is Any:
        plain = _How.BYTES if column.charset == _BINARY_COLLATION else _How.CODEC
        how = _COLUMN_HOWS.get(column.type, plain)
        return at, how, codec, text if how == _How.CODEC else _HOW_READERS[how], True
    if wanted in _TYPE_READERS:
        how, read = _TYPE_READERS[wanted]
        return at, how, codec, text if how == _How.CODEC else read, is_optional
    of, missing = typing.get_args(wanted), type(None)
    if len(of) == 2 and missing in of:
        return _reading(at, of[of[0] is missing], column, True)
    raise TypeError(f"no cell is read as {wanted}")


def _names(columns: Sequence[Column]) -> List[str]:
    """The names of columns."""
    return [it.name.decode("utf-8", "surrogateescape") for it in columns]


def _places(wanted: Iterable[str], names: Sequence[str]) -> List[int]:
    """The places of the columns of these names, each of which one column has."""
    found = {name: at for at, name in enumerate(names)}
    several = {name for at, name in enumerate(names) if found[name] != at}
    places = []
    for name in wanted:
        if name in several or name not in found:
            raise RowError("there are several columns of this name" if name in several
                           else "there is no column of this name", name)
        places.append(found[name])
    return places


def _fields_of(record: Any) -> Dict[str, bool]:
    """The names of a record's fields, and whether each has a value by default."""
    if dataclasses.is_dataclass(record):
        missing = dataclasses.MISSING
        return {it.name: it.default is not missing or it.default_factory is not missing
                for it in dataclasses.fields(record) if it.init}
    if issubclass(record, tuple) and hasattr(record, "_fields"):
        return {it: it in record._field_defaults for it in record._fields}
    raise TypeError(f"{record.__name__} is neither a dataclass nor a NamedTuple")


def _filled(record: Any, names: Iterable[str]) -> List[str]:
    """The fields of a record that columns of these names fill."""
    there = set(names)
    return [name for name, has_default in _fields_of(record).items()
            if not has_default or name in there]


def rows_as(record: Callable[..., _Record], columns: Sequence[Column],
            rows: Iterable[Sequence[Cell]]) -> List[_Record]:
    """Rows as records: those of a dataclass or a NamedTuple, whose fields are found by the names of
    the columns.

    A field is of the type bool, int, float, Decimal, str, bytes, datetime, date or timedelta, or
    Optional of it if it may be NULL. Any is what the column's own type says. Rows of queries and of
    executions give the same values. Columns without a field are passed over; a field with a default
    takes that where there is no such column.

    Raises RowError if a column of a field isn't there, or there are several of its name. It is
    raised too at the first cell that holds no value of its field's type. TypeError is for another
    type.
    """
    names, types = _names(columns), typing.get_type_hints(record)
    fields = _filled(record, names)
    readings = tuple(_reading(at, types[name], columns[at])
                     for at, name in zip(_places(fields, names), fields))
    records: List[_Record] = _native.rows_of(rows, len(columns), names, readings, tuple(fields),
                                             record)
    return records


def rows_as_dicts(columns: Sequence[Column],
                  rows: Iterable[Sequence[Cell]]) -> List[Dict[str, Any]]:
    """Rows as dicts by the names of the columns, with values of their types. These are int, float,
    Decimal, str, bytes (of columns that are no text), datetime, date, timedelta. Dates and
    durations that `datetime` lacks are DateFields and TimeFields, and NULL is None.

    Raises RowError where two columns have one name, and where a cell isn't as its column says. Each
    call reads the columns anew: give it many rows at once.
    """
    names = _names(columns)
    readings = tuple(_reading(at, Any, columns[at]) for at in _places(names, names))
    dicts: List[Dict[str, Any]] = _native.rows_of(rows, len(columns), names, readings, tuple(names),
                                                  None)
    return dicts


def rows_as_tuples(columns: Sequence[Column], rows: Iterable[Sequence[Cell]],
                   *types: Any) -> List[Tuple[Any, ...]]:
    """Rows as tuples with values of these types, one for each column, as `rows_as` takes them;
    without any, of the types that the columns say.

    Raises RowError at the first cell that holds no value of its type, ValueError for another number
    of types.
    """
    if types and len(types) != len(columns):
        raise ValueError(f"there are {len(columns)} columns, and {len(types)} types")
    readings = tuple(_reading(at, types[at] if types else Any, column)
                     for at, column in enumerate(columns))
    tuples: List[Tuple[Any, ...]] = _native.rows_of(rows, len(columns), _names(columns), readings,
                                                    None, None)
    return tuples


def _records_of(columns: Sequence[Column], rows: List[Tuple[Any, ...]], record: Any) -> List[Any]:
    """Rows with values as dicts, or as records of a class."""
    names = _names(columns)
    fields = names if record is None else _filled(record, names)
    readings = tuple((at, _How.AS_IT_IS, None, None, True) for at in _places(fields, names))
    made: List[Any] = _native.rows_of(rows, len(columns), names, readings, tuple(fields), record)
    return made


# ---- Replies written ----------------------------------------------------------------------------


class ReplyWriter(_Object):
    """Writes a server's reply to one command: each call gives the packets of a result, or of a part
    of one.

    The arguments are those of `ReplyReader`. Each call raises MySQLSessionError by WRITE_.. with
    the result, the row and the position, or the payload; nothing is written then. The status of the
    results gets MORE_RESULTS by `more`.
    """

    def __init__(self, kind: ReplyKind, capabilities: int, first: int = 1,
                 limit: int = DEFAULT_LIMIT) -> None:
        super().__init__(_native.writer(kind, capabilities, first, limit))

    def ok(self, affected_rows: int = 0, last_insert_id: int = 0, status: int = AUTOCOMMIT,
           warnings: int = 0, info: Text = b"", more: bool = False) -> bytes:
        """An OK packet."""
        try:
            written: bytes = self._native.ok(affected_rows, last_insert_id, status, warnings, more,
                                              info)
        except BaseException:
            self._native.ungive()
            raise
        return written

    def error(self, code: int, state: Text, message: Text) -> bytes:
        """An error, which ends the reply. The SQL state has five bytes, or none."""
        try:
            written: bytes = self._native.error(code, state, message)
        except BaseException:
            self._native.ungive()
            raise
        return written

    def rows(self, columns: Iterable[Column]) -> bytes:
        """Begins rows under these columns. Their schemas, tables and original names aren't sent."""
        self._native.check()
        described = _described(columns)
        try:
            written: bytes = self._native.rows(described)
        except BaseException:
            self._native.ungive()
            raise
        return written

    def row(self, values: Sequence[Parameter]) -> bytes:
        """A row: a value for each column. In the reply to an execution the value has to be of its
        column's type. A float is rounded to the 32 bits of a FLOAT column. In the reply to a query
        it has no form: give its text. Raises OverflowError for a float that 32 bits haven't."""
        try:
            written: bytes = self._native.row(values)
        except BaseException:
            self._native.ungive()
            raise
        return written

    def end_rows(self, status: int = AUTOCOMMIT, warnings: int = 0, more: bool = False) -> bytes:
        """Ends the rows."""
        try:
            written: bytes = self._native.end_rows(status, warnings, more)
        except BaseException:
            self._native.ungive()
            raise
        return written

    def prepared(self, statement: int, params: Iterable[Column], columns: Iterable[Column],
                 warnings: int = 0) -> bytes:
        """A prepared statement: its id, its parameters and its columns."""
        self._native.check()
        described = _described(params)
        count, described = len(described), described + _described(columns)
        try:
            written: bytes = self._native.prepared(statement, count, warnings, described)
        except BaseException:
            self._native.ungive()
            raise
        return written

    def end(self) -> None:
        """Raises MySQLSessionError where the reply isn't whole: WRITE_NO_RESULTS or
        WRITE_NOT_ENDED."""
        self._native.end()

    def rest(self) -> bytes:
        """What a call wrote and couldn't give, as MemoryError or KeyboardInterrupt ended it: mostly
        nothing. The next call that writes gives it too, before its own."""
        try:
            written: bytes = self._native.rest()
        except BaseException:
            self._native.ungive()
            raise
        return written


def _described(columns: Iterable[Column]) -> Tuple[Tuple[Any, ...], ...]:
    """Columns as the extension takes them, whose fields are checked."""
    return tuple((_fitting(it.type, 8), _fitting(it.flags, 16), _fitting(it.charset, 16),
                  _fitting(it.length, 32), _fitting(it.decimals, 8), _as_bytes(it.name))
                 for it in columns)


# ---- Whole connections --------------------------------------------------------------------------


class Side(_Numbers):
    """A side of a connection."""

    CLIENT = 0
    SERVER = 1


class Phase(_Numbers):
    """What comes next on a connection."""

    GREETING = 0
    RESPONSE = 1
    AUTHENTICATION = 2
    ANSWER = 3
    COMMAND = 4
    REPLY = 5
    FILE_DATA = 6
    OVER = 7


class Reason(_Numbers):
    """Why a connection is over: what follows isn't read here."""

    REJECTED = 0
    SECURE = 1
    """TLS follows."""
    DENIED = 2
    COMPRESSED = 3
    """Compressed packets follow."""
    QUIT = 4
    DUMP = 5
    """A binary log or a table's bytes follow."""
    CLONE = 6
    FAREWELL = 7
    """The server said an error that answers nothing."""


class BulkKind(enum.Enum):
    """What a parameter of a bulk execution holds in place of a value."""

    DEFAULT = 8
    """The column's default."""
    IGNORE = 9
    """Nothing: the column stays as it is."""


class ConnectionEndKind(_Numbers):
    """The state of a connection once both of its streams have ended."""

    OVER = 0
    WHOLE = 1
    UNFINISHED = 2
    FAULT = 3
    UNREAD = 4


class ConnectionEnd(NamedTuple):
    """The state of a connection once both of its streams have ended."""

    kind: ConnectionEndKind
    reason: Optional[Reason] = None
    """Of OVER why."""
    side: Optional[Side] = None
    """Of UNFINISHED and FAULT whose payload it is."""
    fault: Optional[Code] = None
    """Of FAULT what is wrong."""
    byte: Optional[int] = None
    """Of FAULT where the packet begins in its side's stream."""


class ConnectionFault(MySQLSessionError):
    """A connection can't be read further. `side` says whose packet it is, and `byte` with which byte
    of that side's stream it begins."""

    def __init__(self, code: int, side: Side, byte: int) -> None:
        super().__init__(code)
        self.args = (code, side, byte)
        self.side = side
        self.byte = byte

    def __str__(self) -> str:
        return f"{self.side.name.lower()}, byte {self.byte}: {super().__str__()}"


class Statement(NamedTuple):
    """A prepared statement of a connection."""

    text: bytes
    parameters: int


Named = Tuple[Tuple[bytes, Cell], ...]
"""Attributes in their order: each has a name and a value, which of a login is bytes. Two may have
one name."""

Bound = Union[Cell, BulkKind]
"""What a parameter of a bulk execution holds."""


@dataclasses.dataclass(frozen=True)
class Event:
    """What one payload of a connection says; each kind is its own class."""

    side = Side.CLIENT

    @property
    def name(self) -> str:
        """The event's name, as QueryEvent has `Query`."""
        return type(self).__name__[:-len("Event")]


@dataclasses.dataclass(frozen=True)
class _ServersEvent(Event):
    side = Side.SERVER


@dataclasses.dataclass(frozen=True)
class _ErrorBase(_ServersEvent):
    code: int
    state: bytes
    """The SQL state, five bytes, or none."""
    message: bytes


@dataclasses.dataclass(frozen=True)
class _OkBase(_ServersEvent):
    affected_rows: int
    last_insert_id: int
    status: int
    warnings: int
    info: bytes
    state_changes: bytes
    """The changes of the session's state, as the packet has them."""


@dataclasses.dataclass(frozen=True)
class _DataBase(Event):
    data: bytes


@dataclasses.dataclass(frozen=True)
class _ServersDataBase(_ServersEvent):
    data: bytes


@dataclasses.dataclass(frozen=True)
class RejectedEvent(_ErrorBase):
    """The server refuses the connection in place of a greeting."""


@dataclasses.dataclass(frozen=True)
class GreetingEvent(_ServersEvent):
    """The server's first payload."""

    version: bytes
    connection: int
    capabilities: int
    mariadb_capabilities: int
    status: int
    collation: int
    plugin: bytes
    scramble: bytes = b""
    """Both parts of the scramble, mostly 20 bytes, which a password is hashed with."""


@dataclasses.dataclass(frozen=True)
class _RequestBase(Event):
    capabilities: int
    mariadb_capabilities: int
    collation: int
    max_packet_size: int


@dataclasses.dataclass(frozen=True)
class SecureRequestEvent(_RequestBase):
    """The client asks for TLS."""


@dataclasses.dataclass(frozen=True)
class LoginEvent(_RequestBase):
    """The client logs in."""

    user: bytes
    database: bytes
    plugin: bytes
    response: bytes
    attributes: Named


@dataclasses.dataclass(frozen=True)
class CutOffLoginEvent(_RequestBase):
    """A login whose user is cut off."""


@dataclasses.dataclass(frozen=True)
class AcceptedEvent(_OkBase):
    """The user is logged in or changed."""


@dataclasses.dataclass(frozen=True)
class DeniedEvent(_ErrorBase):
    """The user isn't."""


@dataclasses.dataclass(frozen=True)
class _PluginBase(_ServersEvent):
    plugin: bytes
    data: bytes


@dataclasses.dataclass(frozen=True)
class AuthSwitchEvent(_PluginBase):
    """The server asks for another plugin."""


@dataclasses.dataclass(frozen=True)
class OldAuthSwitchEvent(_ServersEvent):
    """The server asks for passwords of old."""


@dataclasses.dataclass(frozen=True)
class AuthMoreEvent(_ServersDataBase):
    """The plugin's data."""


@dataclasses.dataclass(frozen=True)
class NextFactorEvent(_PluginBase):
    """The server asks for one more plugin."""


@dataclasses.dataclass(frozen=True)
class PluginDataEvent(_ServersDataBase):
    """Data of a plugin that writes them without a header."""


@dataclasses.dataclass(frozen=True)
class AnswerEvent(_DataBase):
    """What the client answers to an authentication."""


@dataclasses.dataclass(frozen=True)
class OkEvent(_OkBase):
    """An OK packet, which is a result."""


@dataclasses.dataclass(frozen=True)
class ErrorEvent(_ErrorBase):
    """An error, which ends a reply."""


@dataclasses.dataclass(frozen=True)
class ProgressEvent(_ServersEvent):
    """How far a command has come."""

    stage: int
    stages: int
    progress: int
    """In thousandths of a percent."""
    text: bytes


@dataclasses.dataclass(frozen=True)
class ColumnCountEvent(_ServersEvent):
    """A result set of so many columns, and whether they follow."""

    count: int
    columns_follow: bool


@dataclasses.dataclass(frozen=True)
class ColumnEvent(_ServersEvent):
    """A column of a result set, or a parameter or a column of a prepared statement."""

    column: Column


@dataclasses.dataclass(frozen=True)
class FieldEvent(_ServersEvent):
    """A column of a table, and its default, where it has one."""

    column: Column
    default: Optional[bytes]


@dataclasses.dataclass(frozen=True)
class ColumnsEndEvent(_OkBase):
    """The packet behind columns."""


@dataclasses.dataclass(frozen=True)
class RowEvent(_ServersEvent):
    """A row: bytes by text, values in binary."""

    cells: Tuple[Cell, ...]


@dataclasses.dataclass(frozen=True)
class RawRowEvent(_ServersDataBase):
    """A row whose columns aren't known, as it came."""


@dataclasses.dataclass(frozen=True)
class RowsEndEvent(_OkBase):
    """What ends rows."""


@dataclasses.dataclass(frozen=True)
class FileRequestEvent(_ServersEvent):
    """The server asks for a file of the client's."""

    file: bytes


@dataclasses.dataclass(frozen=True)
class PreparedEvent(_ServersEvent):
    """A prepared statement, and whether its parameters and columns follow."""

    statement: int
    parameters: int
    columns: int
    warnings: int
    columns_follow: bool


@dataclasses.dataclass(frozen=True)
class LineEvent(_ServersEvent):
    """A text, as that of COM_STATISTICS, or the first payload of what goes on in its own form."""

    text: bytes


@dataclasses.dataclass(frozen=True)
class FileDataEvent(_DataBase):
    """Bytes of the client's file. No bytes end it."""


@dataclasses.dataclass(frozen=True)
class FarewellEvent(_ErrorBase):
    """The server's last words."""


@dataclasses.dataclass(frozen=True)
class QuitEvent(Event):
    """The client ends the connection."""


@dataclasses.dataclass(frozen=True)
class InitDbEvent(Event):
    """Another schema by default."""

    schema: bytes


@dataclasses.dataclass(frozen=True)
class QueryEvent(Event):
    """A query."""

    text: bytes
    attributes: Named


@dataclasses.dataclass(frozen=True)
class PrepareEvent(Event):
    """A statement is prepared."""

    text: bytes


@dataclasses.dataclass(frozen=True)
class ExecuteEvent(Event):
    """A prepared statement is executed."""

    statement: int
    text: bytes
    """The text by which it was prepared, mostly the same object for all of its executions."""
    values: Tuple[Cell, ...]
    attributes: Named
    cursor: int
    nameless_flags: int = 0
    """The bits of the flags that have no name, none of a client library's."""
    iterations: int = 1
    """The iteration count: 1 of each client library."""
    rest: bytes = b""
    """The bytes behind the last value, none of a client library's."""
    unclear: Tuple[int, ...] = ()
    """The numbers of the values that servers read each their way, from 0, none of a client library's:
    a server may execute another value than this one. Attributes are counted behind the values."""
    unclear_cells: bytes = b""
    """The bytes of the command from the first such cell on; of long data alone there are none."""


@dataclasses.dataclass(frozen=True)
class BulkExecuteEvent(Event):
    """A prepared statement is executed with many rows."""

    statement: int
    text: bytes
    rows: Tuple[Tuple[Bound, ...], ...]
    rest: bytes = b""
    """The bytes from the first row on that can't be read; servers execute the rows before them."""
    first_unclear: Optional[Tuple[int, int]] = None
    """The row of the first value that servers read each their way, and its number in the row, from 0;
    those behind it are so too. No client library sends one. A server may execute other values."""
    unclear_cells: bytes = b""
    """The bytes of the command from that value's cell on."""


@dataclasses.dataclass(frozen=True)
class LongDataEvent(Event):
    """A piece of a parameter."""

    statement: int
    place: int
    data: bytes


@dataclasses.dataclass(frozen=True)
class _StatementBase(Event):
    statement: int


@dataclasses.dataclass(frozen=True)
class CloseEvent(_StatementBase):
    """A statement goes."""


@dataclasses.dataclass(frozen=True)
class ResetStatementEvent(_StatementBase):
    """A statement's long data and cursor go."""


@dataclasses.dataclass(frozen=True)
class FetchEvent(_StatementBase):
    """Rows of an open cursor."""

    rows: int


@dataclasses.dataclass(frozen=True)
class ChangeUserEvent(Event):
    """Another user logs in."""

    user: bytes
    database: bytes
    plugin: bytes
    response: bytes
    collation: int
    attributes: Named


@dataclasses.dataclass(frozen=True)
class CommandEvent(Event):
    """Any other command, by its number in the protocol, and its fields by their names."""

    number: int
    fields: Mapping[str, Union[int, bytes]]


@dataclasses.dataclass(frozen=True)
class OtherEvent(_DataBase):
    """A payload that is laid out as no command, as it is. Some servers run such a payload; which
    reply follows goes by its first byte."""


class Put(NamedTuple):
    """A payload that was put."""

    packets: bytes
    """Its packets, for the other side."""
    event: Event
    """What it says."""


class _Standing(NamedTuple):
    """The state of a connection, as mysql_session_standing has it."""

    turn: int
    phase: int
    reason: int
    capabilities: int
    mariadb_capabilities: int
    fault: int
    fault_side: int
    fault_byte: int
    client_room: int
    server_room: int
    held: int


class Connection(_Object):
    """A whole connection. It is fed the bytes of both sides, in any pieces and order, and tells
    what was said, each payload as one event. What one side says can be put in place of fed. A
    client puts its commands and feeds what the server sends, and a server does the reverse.

        connection = Connection()
        for event in connection.feed(Side.SERVER, greeting):
            print(event)
        stream.sendall(connection.put(Side.CLIENT, put_login("ann", capabilities)).packets)

    A payload of the client has at most `client` bytes, one of the server `server`. `held` limits
    what is held in all, by default twice as much as both. Of each side as much waits unread as its
    longest payload takes. What is left is for what is kept of statements, columns and long data. It
    counts payloads, not memory (docs/COSTS.md has the measures). Where nothing is left, no statement is prepared and no column is read: CONNECTION_KEPT.

    An event is a copy, and stays as it is. After a fault each call for an event raises it again;
    the events before it were told.
    """

    def __init__(self, *, client: int = DEFAULT_LIMIT, server: int = DEFAULT_LIMIT,
                 held: Optional[int] = None) -> None:
        super().__init__(_native.connection(*self._limits(client, server, held)))

    @classmethod
    def after_login(cls, capabilities: int, mariadb_capabilities: int = 0, *,
                    client: int = DEFAULT_LIMIT, server: int = DEFAULT_LIMIT,
                    held: Optional[int] = None) -> Connection:
        """A connection behind a login that was made elsewhere, as over TLS: a command comes next,
        and the capabilities are those that both sides have."""
        made = cls(client=client, server=server, held=held)
        made._native = _native.connection_after_login(capabilities, mariadb_capabilities,
                                                      *cls._limits(client, server, held))
        return made

    @staticmethod
    def _limits(client: int, server: int, held: Optional[int]) -> List[int]:
        """The three limits, of which the last is twice the others where it isn't given."""
        if held is None:
            held = min(2 * (client + server), (1 << _SIZE_BITS) - 1)
        return [_fitting(it, _SIZE_BITS) for it in (client, server, held)]

    def __repr__(self) -> str:
        try:
            turn, phase, fault = self.turn, self.phase, self.fault
        except (MySQLSessionError, RuntimeError):  # it is closed, or another thread's
            return object.__repr__(self)
        due = phase.name if turn is None else f"{phase.name} of {turn.name}"
        return f"<Connection: {due}>" if fault is None else f"<Connection: {fault}>"

    def feed(self, side: Side, data: Union[bytes, bytearray, memoryview]) -> Iterator[Event]:
        """Takes a piece of a side's stream, and gives the events that are whole then.

        The piece is taken at once, whole. It has at most `room` bytes: feed a long file in pieces.
        Events are read as they are asked for, and those that aren't asked for stay for the next
        call. Behind a fault bytes are taken too, and never read. Raises MySQLSessionError with
        CONNECTION_HELD if the piece is longer than `room`. With CONNECTION_CLOSED it is raised
        after `close`. Nothing of the piece is taken then. The iterator raises ConnectionFault.
        """
        native = self._native
        native.feed(side if type(side) is Side else Side(side), data)
        events: Iterator[Event] = native.events()
        return events

    def __iter__(self) -> Iterator[Event]:
        events: Iterator[Event] = self._native.events()
        return events

    def next_event(self) -> Optional[Event]:
        """The next event, or None where the next payload isn't there whole, or the
        connection is over. Raises ConnectionFault.

        Where it ends by MemoryError or by KeyboardInterrupt, the next call gives the same event.
        """
        try:
            event: Optional[Event] = self._native.next()
        except BaseException:
            self._native.ungive()
            raise
        return event

    def take_rows(self, values: Optional[Values] = None) -> List[Tuple[Any, ...]]:
        """The rows that come next, up to the next other event: with cells as a `RowEvent` has them,
        or with values as `ReplyReader.take_values` gives them. None where the next event is no row.

        What ended the rows is told by `next_event`. It is a RowsEndEvent with the status and the
        warnings, or the ErrorEvent of a result that breaks off. Until it is told `turn` is the
        server's, and `put` is refused by CONNECTION_NOT_ITS_TURN.

        Raises ConnectionFault where that comes first. Raises RowError, with a row counted from those
        of this call, and what a converter raises. The rows before it come by the next call, and that
        row behind them, or by `next_event`. Behind a further `feed` it comes by `next_event` alone.
        """
        native = None if values is None else values._native
        rows: List[Tuple[Any, ...]] = []
        try:
            self._native.rows(rows, native)
        except BaseException:
            self._native.keep(rows, False)
            raise
        return rows

    def take_table(self, values: Optional[Values] = None) -> Optional[Table]:
        """The rows that come next as a table, as `ReplyReader.take_tables` gives them. None where
        the next event is no row. `ended` is false: what ended them is the next event, as that of
        `take_rows`.

        Raises as `take_rows`. The rows before one that is refused come by the next call.
        """
        native = _PLAIN._native if values is None else values._native
        tables: List[Table] = []
        try:
            self._native.table(tables, native)
        except BaseException:
            self._native.keep(tables, True)
            raise
        return tables[0] if tables else None

    def put(self, side: Side, payload: Union[bytes, bytearray, memoryview]) -> Put:
        """Puts a payload of the side whose turn it is, as if its packets had come. Gives these, to
        be sent to the other side, and what the payload says. The other side reads the same event.

        The payload is taken byte by byte as it is. `Command` has those of commands, `put_greeting`
        and `put_login` those of a login. A server's last words, an error that answers nothing,
        can't be put.

        No command is refused for its layout. One that is laid out as none, as an execution of a
        statement that isn't known, is put, and its event is an OtherEvent. A server answers it by
        an error.

        Raises MySQLSessionError, and nothing changes. CONNECTION_NOT_ITS_TURN: it isn't the side's
        turn, or an event isn't told yet. Or the side's stream has ended, bytes of it wait unread or
        the connection has failed.
        CONNECTION_TOO_LARGE: it is past the side's limit. The fault that the payload would be.
        CONNECTION_KEPT: more would be kept than the limit leaves. Or MEMORY.

        Where MemoryError or KeyboardInterrupt ends the call the payload may be put. `unsent` has
        its packets then, and the side's next put gives them before its own.
        """
        side = side if type(side) is Side else Side(side)
        try:
            put: Put = self._native.put(side, payload)
        except BaseException:
            self._native.ungive()
            raise
        return put

    def put_packets(self, side: Side,
                    packets: Union[bytes, bytearray, memoryview]) -> Tuple[bytes, int]:
        """Puts the payloads of packets one after another, while it is the side's turn. Gives
        their packets as they are sent, and how many bytes of `packets` were taken.

        The packets are such as `send` and `ReplyWriter` make. Of several commands the first is
        taken. The next one comes behind its reply, and is put by another call with what is left.
        A packet that is cut off at the end is left.

        Nothing tells of a command that is laid out as none, whose event `put` gives. Such are
        executions of a statement that `statement` doesn't know, or for other capabilities than are
        in force. No count is compared: executions of a query's sets go by `put_sets`.

        Raises MySQLSessionError as `put` does where nothing is taken for it. A refusal behind a
        payload that was put comes at the call with what is left. Where MemoryError or
        KeyboardInterrupt ends the call, `unsent` has as many bytes as were taken.
        """
        side = side if type(side) is Side else Side(side)
        try:
            put: Tuple[bytes, int] = self._native.put_packets(side, packets)
        except BaseException:
            self._native.ungive()
            raise
        return put

    def put_sets(self, statement: int, places: int,
                 packets: Union[bytes, bytearray, memoryview]) -> Tuple[bytes, int]:
        """Puts packets that `executions` made of a query's sets for this statement. The server has to
        have counted as many parameters as the query has placeholders, which `place_count` tells.
        Gives their packets as they are sent, and how many bytes of `packets` were taken. Of several
        executions that is the first, with the long data before it. The next comes behind its reply.

        The bytes of an execution don't tell how many values it has. A server that counted another
        number runs it with other values than were meant. So sets go by this call, and not by
        `put_packets`.

        Raises MySQLSessionError, and nothing changes: CONNECTION_UNKNOWN_STATEMENT where the answer
        to its prepare hasn't come or it is closed, or CONNECTION_WRONG_COUNT. Else it raises as
        `put_packets` does.
        """
        try:
            put: Tuple[bytes, int] = self._native.put_sets(statement, places, packets)
        except BaseException:
            self._native.ungive()
            raise
        return put

    def put_execution(self, statement: int, values: Sequence[Parameter] = ()) -> bytes:
        """Puts the execution of a statement with these values, in the order of its placeholders, if
        the server counted as many parameters. Gives its packets, to be sent. Floats are among the
        values, which `send` refuses.

        It is for a connection without QUERY_ATTRIBUTES. Raises MySQLSessionError by
        REFUSED_TOO_MANY_PLACES, and as `put_sets` does; by CONNECTION_NOT_ITS_TURN where no command
        comes next.
        """
        payload = Command.execute(statement, values)
        packets = put_packet(payload, limit=len(payload))[0]
        put, used = self.put_sets(statement, len(values), packets)
        if not used:
            raise MySQLSessionError(Code.CONNECTION_NOT_ITS_TURN)
        return put

    def unsent(self, side: Side) -> bytes:
        """The packets of what was put of a side and couldn't be given, as MemoryError or
        KeyboardInterrupt ended the call: mostly none. The side's next put gives them too, before
        its own."""
        side = side if type(side) is Side else Side(side)
        try:
            written: bytes = self._native.unsent(side)
        except BaseException:
            self._native.ungive()
            raise
        return written

    def line(self, *, secrets: bool = False, texts: bool = False) -> str:
        """The event that was told or put last as a line of text; behind `finish` how the connection
        ended, as `end Whole`.

        Of data of an authentication, but for a greeting's scramble, it has the length, as
        `(20 bytes)`. So it has of a replica's password. With `secrets` all bytes are there. The
        texts of statements are as they were sent, with passwords in them.

        With `texts` the line is for people. Bytes that are UTF-8 are in double quotes, with the
        escapes of `"`, backslash and control characters of ASCII. Other bytes are in hexadecimal,
        and so are texts with a character from U+0080 to U+009F: the line has no control character.
        NULL is `NULL`, and dates and times are as the server's own client shows them.
        """
        return str(self._native.line(secrets, texts))

    def columns(self) -> Tuple[Column, ...]:
        """The columns of the event that was told last: of a row all, of a column itself; of any
        other event none. So take them with the row: behind it another event is the last. Rows of
        one result have one tuple of them."""
        columns: Tuple[Column, ...] = self._native.columns()
        return columns

    def statement(self, number: int) -> Optional[Statement]:
        """The prepared statement that this id of a command refers to: 0xffffffff for that which
        was prepared last."""
        statement: Optional[Statement] = self._native.statement(number)
        return statement

    def rest(self, side: Side) -> bytes:
        """What of a side's stream is unread. Where the connection is over, it follows in its own
        form: TLS, compressed packets, a dump."""
        rest: bytes = self._native.rest(Side(side))
        return rest

    def room(self, side: Side) -> int:
        """How many bytes of a side `feed` takes now. Where it is 0, take events, or feed the side
        whose turn it is."""
        standing = self._standing()
        is_server = Side(side) is Side.SERVER
        return int(standing.server_room if is_server else standing.client_room)

    @property
    def held(self) -> int:
        """How many bytes are held: the unread ones, and what is kept."""
        return int(self._standing().held)

    @property
    def turn(self) -> Optional[Side]:
        """Whose turn it is: nobody's where the connection is over, or has failed. An event that
        `take_rows` or an interrupted call left is still its side's turn."""
        turn = self._standing().turn
        return None if turn > Side.SERVER else Side(turn)

    @property
    def phase(self) -> Phase:
        """What comes next."""
        return Phase(self._standing().phase)

    @property
    def reason(self) -> Optional[Reason]:
        """Why the connection is over, where it is."""
        standing = self._standing()
        return Reason(standing.reason) if standing.phase == Phase.OVER else None

    @property
    def capabilities(self) -> int:
        """The capabilities in force: those that both sides have."""
        return int(self._standing().capabilities)

    @property
    def mariadb_capabilities(self) -> int:
        """MariaDB's own capabilities in force."""
        return int(self._standing().mariadb_capabilities)

    @property
    def mode(self) -> Optional[Mode]:
        """The session's SQL mode, where it is known: that of `session_mode`."""
        return self.session_mode.mode

    @property
    def spelling(self) -> Spelling:
        """How byte strings are spelled in a text for the session: that of `session_mode`."""
        return self.session_mode.spelling

    @property
    def session_mode(self) -> SessionMode:
        """What is known of the session's SQL mode and character set, by all that was said so far.

        Behind a login, a change of user and a reset of the connection that is nothing: ask by
        `ASK_SESSION_MODE`. See MySQL: Reference Manual, "Server Tracking of Client Session State".
        """
        session = SessionMode._of(*self._native.known())
        if session.mode is None:
            self._standing()  # which a closed connection hasn't
        return session

    @property
    def fault(self) -> Optional[ConnectionFault]:
        """The fault that was found."""
        standing = self._standing()
        if not standing.fault:
            return None
        return ConnectionFault(standing.fault, Side(standing.fault_side), standing.fault_byte)

    def close_side(self, side: Side) -> None:
        """Ends a side's stream: no more comes of it."""
        self._native.close_side(Side(side))

    def finish(self) -> ConnectionEnd:
        """Ends both streams, and says in which state the connection is. Take all events before."""
        number, reason, side, fault, byte = self._native.finish()
        kind = ConnectionEndKind(number)
        if kind == ConnectionEndKind.OVER:
            return ConnectionEnd(kind, reason=Reason(reason))
        if kind == ConnectionEndKind.UNFINISHED:
            return ConnectionEnd(kind, side=Side(side))
        if kind == ConnectionEndKind.FAULT:
            return ConnectionEnd(kind, None, Side(side), Code(fault), byte)
        return ConnectionEnd(kind)

    def _standing(self) -> _Standing:
        """The state of the connection."""
        return _Standing(*self._native.standing())


def _fault(code: int, side: int, byte: int) -> ConnectionFault:
    """A fault that the extension raises."""
    return ConnectionFault(code, Side(side), byte)


# ---- Packets ------------------------------------------------------------------------------------


class PacketReader(_Object):
    """Cuts a stream into payloads.

        reader.feed(piece)
        for payload in reader:
            ...

    `first` is the number of the first packet; a payload has at most `limit` bytes.
    """

    def __init__(self, first: int = 0, limit: int = DEFAULT_LIMIT) -> None:
        super().__init__(_native.packets(first, limit))

    def feed(self, piece: Union[bytes, bytearray, memoryview]) -> None:
        """Takes the next bytes. They are read as payloads are asked for."""
        self._native.feed(piece)

    def payload(self) -> Optional[bytes]:
        """The next payload; None where the bytes so far have no other whole one. Where MemoryError
        or KeyboardInterrupt ends the call, the next one gives it.

        Raises MySQLSessionError: FAULT_TOO_LARGE, FAULT_OUT_OF_SYNC, each from then on.
        """
        try:
            payload: Optional[bytes] = self._native.payload()
        except BaseException:
            self._native.ungive()
            raise
        return payload

    def __iter__(self) -> Iterator[bytes]:
        """The payloads that are whole, each read when it is asked for."""
        self._native.check()
        return iter(self.payload, None)

    def restart(self, number: int = 0) -> None:
        """The next packet has this number: 0 as the first of each command has, or as what the other
        side sent in between makes it. Raises MySQLSessionError by UNFINISHED within a packet, and
        where a payload is whole that `payload` couldn't give."""
        self._native.restart(number)


def put_packet(payload: Union[bytes, bytearray, memoryview], number: int = 0,
               limit: int = DEFAULT_LIMIT) -> Tuple[bytes, int]:
    """A payload as packets, the first of this number, and the number of what follows it.

    Raises MySQLSessionError by FAULT_TOO_LARGE where the payload has more than `limit` bytes.
    """
    packet: Tuple[bytes, int] = _native.packet_put(payload, number, limit)
    return packet


# ---- Logging in ---------------------------------------------------------------------------------


class Greeting(NamedTuple):
    """What a server greets a client with."""

    connection: int
    version: bytes
    capabilities: int
    mariadb_capabilities: int
    status: int
    collation: int
    scramble_1: bytes
    scramble_2: bytes
    plugin: bytes
    protocol: int = 10


class Login(NamedTuple):
    """What a client answers to a greeting."""

    user: bytes
    response: bytes
    database: bytes
    plugin: bytes
    capabilities: int
    mariadb_capabilities: int
    collation: int


def read_greeting(payload: Union[bytes, bytearray, memoryview]) -> Greeting:
    """The greeting in the payload of a server's first packet. Raises MySQLSessionError:
    BAD_PACKET."""
    return Greeting(*_native.greeting_read(payload))


def put_greeting(connection: int, version: Text, capabilities: int, scramble_1: bytes,
                 scramble_2: bytes, plugin: Text = b"mysql_native_password",
                 mariadb_capabilities: int = 0, collation: int = 45,
                 status: int = AUTOCOMMIT) -> bytes:
    """The payload of a server's first packet.

    SECURE_CONNECTION is set, and PLUGIN_AUTH as the plugin is given or not. Raises
    MySQLSessionError by BAD_PACKET where the scrambles haven't 8 and 12 bytes, or a zero byte is in
    the version or the plugin's name.
    """
    payload: bytes = _native.greeting_put(connection, capabilities, mariadb_capabilities, collation,
                                          status, version, scramble_1, scramble_2, plugin)
    return payload


def read_login(payload: Union[bytes, bytearray, memoryview], offered: int = 2**32 - 1) -> Login:
    """The login in the payload of a client's answer to a greeting that offered these capabilities.

    Those that weren't offered don't count: many clients name more, and leave out what belongs to
    them. Raises MySQLSessionError: BAD_PACKET.
    """
    data = _received(payload)
    counted = int.from_bytes(data[:4], "little") & _fitting(offered, 32)
    return Login(*_native.login_read(counted.to_bytes(len(data[:4]), "little") + data[4:]))


def put_login(user: Text, capabilities: int, response: bytes = b"", database: Text = b"",
              plugin: Text = b"mysql_native_password", mariadb_capabilities: int = 0,
              max_packet_size: int = DEFAULT_LIMIT, *,
              collation: int = Collation.UTF8MB4_GENERAL_CI,
              attributes: Optional[Mapping[str, Text]] = None) -> bytes:
    """The payload of a client's answer to a greeting.

    CONNECT_WITH_DB, PLUGIN_AUTH and CONNECT_ATTRS are set as the database, the plugin and the
    attributes are given or not. Attributes tell the server what program logs in, as `program_name`.
    The collation is that of the session's texts: this field takes those up to 255.

    The response is what the plugin makes of the password and the scramble, never the password's own
    text. Of an empty password it is none. docs/LOGGING_IN.md says how it is made.

    Raises MySQLSessionError by BAD_PACKET where a text can't be written whole. Such is one with a
    zero byte, or a response of more than 255 bytes without PLUGIN_AUTH_LENENC_CLIENT_DATA. Raises
    ValueError for attributes where the capabilities have no CONNECT_ATTRS: leave them out then.
    """
    payload: bytes = _native.login_put(capabilities, mariadb_capabilities, max_packet_size, user,
                                       response, database, plugin)
    sent, named = int.from_bytes(payload[:4], "little"), b""
    if attributes:
        named = _connect_attributes(attributes, capabilities)
        sent |= Capability.CONNECT_ATTRS
    # The capabilities, the packet's size, the collation; attributes come last.
    return _number(sent, 4) + payload[4:8] + _number(collation, 1) + payload[9:] + named


# ---- Commands -----------------------------------------------------------------------------------


def _length(count: int) -> bytes:
    """A length-encoded number."""
    for first, size, most in ((b"", 1, 250), (b"\xfc", 2, 0xFFFF), (b"\xfd", 3, 0xFFFFFF)):
        if count <= most:
            return first + count.to_bytes(size, "little")
    return b"\xfe" + count.to_bytes(8, "little")


def _counted(text: Text) -> bytes:
    """A text behind its length, as a length-encoded string has it."""
    data = _as_bytes(text)
    return _length(len(data)) + data


def _ended(text: Text) -> bytes:
    """A text before a zero byte, of which it has none itself."""
    data = _as_bytes(text)
    if 0 in data:
        raise ValueError("a zero byte ends a text here")
    return data + b"\0"


def _number(number: int, size: int) -> bytes:
    """A number of so many bytes."""
    return _fitting(number, 8 * size).to_bytes(size, "little")


def _connect_attributes(attributes: Mapping[str, Text], capabilities: int) -> bytes:
    """The attributes of a login: the length of all, then each name and each text behind theirs."""
    if not capabilities & Capability.CONNECT_ATTRS:
        raise ValueError("the capabilities have no CONNECT_ATTRS, so no attributes are sent")
    return _counted(b"".join(_counted(name) + _counted(text) for name, text in attributes.items()))


def _parameters(statement: int, values: Sequence[Parameter],
                attributes: Mapping[str, Parameter]) -> Tuple[bytes, bytes]:
    """The head of an execution, and its parameters behind their number: which are NULL, their types
    with their names, and their values. A parameter of the statement has no name, an attribute has
    one (MySQL: Client/Server Protocol, "COM_STMT_EXECUTE")."""
    of = [*values, *attributes.values()]
    with ParameterSets([of]) as sets:
        payload: bytes = _native.execution_put(sets._native, statement)
    types = 10 + (len(of) + 7) // 8 + 1
    behind = types + 2 * len(of)
    names = [b""] * len(values) + [_as_bytes(name) for name in attributes]
    named = b"".join(payload[types + 2 * it:types + 2 * it + 2] + _counted(name)
                     for it, name in enumerate(names))
    return payload[:10], _length(len(of)) + payload[10:types] + named + payload[behind:]


class Command:
    """The payloads of commands, as `Connection.put` takes them (MySQL: Client/Server Protocol,
    "Command Phase"). `executions` has the packets of the executions of many sets."""

    @staticmethod
    def quit() -> bytes:
        """Ends the connection: it has no reply."""
        return b"\x01"

    @staticmethod
    def init_db(schema: Text) -> bytes:
        """Makes another schema the default."""
        return b"\x02" + _as_bytes(schema)

    @staticmethod
    def query(text: Text, capabilities: int = 0,
              attributes: Optional[Mapping[str, Parameter]] = None) -> bytes:
        """A query, and its attributes by their names. They need QUERY_ATTRIBUTES in the connection's
        `capabilities`. Where that is in force these have to be given, also without attributes.

        Raises ValueError for attributes where it isn't.
        """
        if not capabilities & Capability.QUERY_ATTRIBUTES:
            return b"\x03" + Command._without(attributes) + _as_bytes(text)
        if not attributes:
            return b"\x03\0\x01" + _as_bytes(text)
        _, named = _parameters(0, (), attributes)
        count = _length(len(attributes))
        return b"\x03" + count + b"\x01" + named[len(count):] + _as_bytes(text)

    @staticmethod
    def _without(attributes: Optional[Mapping[str, Parameter]]) -> bytes:
        """What a command has in the place of attributes where there can be none."""
        if attributes:
            raise ValueError("the capabilities have no QUERY_ATTRIBUTES, so no attributes are sent")
        return b""

    @staticmethod
    def statistics() -> bytes:
        """Asks for a line of statistics."""
        return b"\x09"

    @staticmethod
    def process_kill(connection: int) -> bytes:
        """Ends another connection, by its id."""
        return b"\x0c" + _number(connection, 4)

    @staticmethod
    def ping() -> bytes:
        """Asks whether the server is there."""
        return b"\x0e"

    @staticmethod
    def change_user(user: Text, capabilities: int, response: bytes = b"", database: Text = b"",
                    plugin: Text = b"mysql_native_password", collation: int = 45,
                    attributes: Optional[Mapping[str, Text]] = None) -> bytes:
        """Logs another user in, by the connection's capabilities. The attributes are as those of
        `put_login`.

        The response is what the plugin makes of the password and the scramble, never the password's
        own text. Raises ValueError for a text with a zero byte, and for attributes where the
        capabilities have no CONNECT_ATTRS. Raises OverflowError for a response of more than 255
        bytes.
        """
        response = _received(response)
        length = bool(capabilities & Capability.SECURE_CONNECTION)
        answer = _number(len(response), 1) + response if length else _ended(response)
        named = _ended(plugin) if capabilities & Capability.PLUGIN_AUTH else b""
        sent = b""
        if attributes or capabilities & Capability.CONNECT_ATTRS:
            sent = _connect_attributes(attributes or {}, capabilities)
        return (b"\x11" + _ended(user) + answer + _ended(database) + _number(collation, 2) + named
                + sent)

    @staticmethod
    def prepare(text: Text) -> bytes:
        """Prepares a statement; the reply has its id."""
        return b"\x16" + _as_bytes(text)

    @staticmethod
    def execute(statement: int, values: Sequence[Parameter] = (), *,
                cursor: Cursor = Cursor.NO_CURSOR, capabilities: int = 0,
                attributes: Optional[Mapping[str, Parameter]] = None) -> bytes:
        """Executes a prepared statement with values in the order of its placeholders, floats among
        them. Each value has its own type: BIGINT, DOUBLE, VAR_STRING, DATETIME, TIME or NULL. The
        payload doesn't tell how many values it has: `Connection.put_execution` compares that with
        the server's number of parameters.

        With `Cursor.READ_ONLY` a server that opens a cursor keeps the rows, and `fetch` asks for
        them. Attributes need QUERY_ATTRIBUTES in the connection's `capabilities`. Where that is
        in force these have to be given, also without attributes.

        Raises MySQLSessionError by REFUSED_TOO_MANY_PLACES, and ValueError for attributes where
        QUERY_ATTRIBUTES isn't in force.
        """
        if capabilities & Capability.QUERY_ATTRIBUTES:
            head, parameters = _parameters(statement, values, attributes or {})
        else:
            with ParameterSets([values]) as sets:
                payload: bytes = _native.execution_put(sets._native, statement)
            head, parameters = payload[:10] + Command._without(attributes), payload[10:]
        # Bit 3 of the flags says that the number of parameters is told.
        flags = Cursor(cursor) | (8 if capabilities & Capability.QUERY_ATTRIBUTES else 0)
        return head[:5] + _number(flags, 1) + head[6:] + parameters

    @staticmethod
    def long_data(statement: int, place: int, data: bytes) -> bytes:
        """Sends a piece of the value of a parameter, by its position from 0, for the next
        execution: it has no reply."""
        return b"\x18" + _number(statement, 4) + _number(place, 2) + _received(data)

    @staticmethod
    def close(statement: int) -> bytes:
        """Lets go of a statement: it has no reply."""
        return b"\x19" + _number(statement, 4)

    @staticmethod
    def reset_statement(statement: int) -> bytes:
        """Lets go of a statement's long data and of its cursor."""
        return b"\x1a" + _number(statement, 4)

    @staticmethod
    def set_option(option: int) -> bytes:
        """Turns several statements in a text on, by 0, or off, by 1."""
        return b"\x1b" + _number(option, 2)

    @staticmethod
    def fetch(statement: int, rows: int) -> bytes:
        """Asks for so many rows of a statement's cursor."""
        return b"\x1c" + _number(statement, 4) + _number(rows, 4)

    @staticmethod
    def reset_connection() -> bytes:
        """Begins the session anew: no statement is left."""
        return b"\x1f"


def executions(query: Text, sets: Union[ParameterSets, Iterable[Params]],
               statement: int, road: Road = Road.EXECUTE, limit: int = DEFAULT_LIMIT, *,
               mode: Mode = Mode()) -> bytes:
    """The packets that execute a prepared statement with these sets, as `Connection.put_sets` takes
    them: those of `send` behind its prepare. The statement is the id of the server's reply to that.
    Who has no Connection compares its number of parameters with `place_count` first.

    They are laid out for a connection without QUERY_ATTRIBUTES, those of `Road.BULK` for one with
    `MariadbCapability.STMT_BULK_OPERATIONS`. Raises MySQLSessionError as `send` does, and
    ValueError for `Road.TEXT`, by which nothing is prepared.
    """
    if road == Road.TEXT:
        raise ValueError("a text query executes no prepared statement")
    stream = send(query, sets, road, statement, limit, mode=mode)
    at, length = 0, 0xFFFFFF
    # A packet of the greatest length goes on in the next one.
    while length == 0xFFFFFF:
        length = int.from_bytes(stream[at:at + 3], "little")
        at += 4 + length
    return stream[at:]


# ---- Replication --------------------------------------------------------------------------------


def register_replica(server: int, host: Text = b"", user: Text = b"", password: Text = b"",
                     port: int = 0) -> bytes:
    """The payload of a COM_REGISTER_SLAVE of the replica with this server id.

    Raises MySQLSessionError by BAD_PACKET for a text of more than 255 bytes.
    """
    payload: bytes = _native.register_replica_put(server, host, user, password, port)
    return payload


def binlog_dump(server: int, file: Text, position: int = 4, flags: int = 0) -> bytes:
    """The payload of a COM_BINLOG_DUMP: the binary log from a position of a file on."""
    payload: bytes = _native.binlog_dump_put(server, position, flags, file)
    return payload


def binlog_dump_gtid(server: int, gtids: Text, file: Text = b"", position: int = 4,
                     flags: int = 0) -> bytes:
    """The payload of a COM_BINLOG_DUMP_GTID: the binary log but for these transactions of MySQL's
    global identifiers, as 3e11fa47-71ca-11e1-9e33-c80aa9429562:1-5:tag:1-3. BINLOG_THROUGH_GTID is
    set in the flags where there are any, else cleared.

    They are told as a server prints them in `@@gtid_executed`. What it takes besides is taken too:
    blanks, empty parts, tags in capitals, intervals in any order (MySQL Reference Manual, "GTID
    Sets").
    Raises MySQLSessionError by BAD_PACKET where they are no such text.
    """
    payload: bytes = _native.binlog_dump_gtid_put(server, position, flags, file, _gtid_sets(gtids))
    return payload


_SOURCE = re.compile(rb"([0-9a-f]{8})-?([0-9a-f]{4})-?([0-9a-f]{4})-?([0-9a-f]{4})-?([0-9a-f]{12})\Z")
_INTERVAL = re.compile(rb"([0-9]+)(?:[ \t-\r]*-[ \t-\r]*([0-9]+))?\Z")
_TAG = re.compile(rb"[a-z_][a-z0-9_]{0,31}\Z")


def _gtid_sets(gtids: Text) -> bytes:
    """Sets of identifiers, each with one tag or none, and with its intervals in order, as the library
    takes them. A text that is none is given back as it is: the library refuses it."""
    text = _as_bytes(gtids)
    sets: Dict[Tuple[bytes, bytes], List[Tuple[int, int]]] = {}
    for part in text.split(b","):
        name, *fields = (it.strip().lower() for it in part.split(b":"))
        found = _SOURCE.match(name)
        if not found and (name or fields):
            return text
        source, tag = b"-".join(found.groups()) if found else b"", b""
        for field in fields:
            interval = _INTERVAL.match(field)
            if interval:
                first, last = int(interval[1]), int(interval[2] or interval[1])
                sets.setdefault((source, tag), []).append((first, last))
            elif _TAG.match(field):
                tag = field + b":"
            else:
                return text
    return b",".join(source + b":" + tag + b":".join(b"%d-%d" % it for it in _merged(intervals))
                     for (source, tag), intervals in sorted(sets.items()))


def _merged(intervals: List[Tuple[int, int]]) -> List[Tuple[int, int]]:
    """Intervals in order, of which none touches another."""
    merged: List[Tuple[int, int]] = []
    for first, last in sorted(intervals):
        if merged and first <= merged[-1][1] + 1:
            merged[-1] = merged[-1][0], max(last, merged[-1][1])
        else:
            merged.append((first, last))
    return merged


# ---- What the extension makes -------------------------------------------------------------------

# Events by their kinds in the header; 0 stands for all commands that have no class of their own.
_EVENTS: Dict[int, Type[Event]] = {
    0: CommandEvent, 1: RejectedEvent, 2: GreetingEvent, 3: SecureRequestEvent, 4: LoginEvent,
    5: CutOffLoginEvent, 6: AcceptedEvent, 7: DeniedEvent, 8: AuthSwitchEvent, 9: OldAuthSwitchEvent,
    10: AuthMoreEvent, 11: NextFactorEvent, 12: PluginDataEvent, 13: AnswerEvent, 20: OkEvent,
    21: ErrorEvent, 22: ProgressEvent, 23: ColumnCountEvent, 24: ColumnEvent, 25: FieldEvent,
    26: ColumnsEndEvent, 27: RowEvent, 28: RawRowEvent, 29: RowsEndEvent, 30: FileRequestEvent,
    31: PreparedEvent, 32: LineEvent, 33: FileDataEvent, 34: FarewellEvent, 0x101: QuitEvent,
    0x102: InitDbEvent, 0x103: QueryEvent, 0x111: ChangeUserEvent, 0x116: PrepareEvent,
    0x117: ExecuteEvent, 0x118: LongDataEvent, 0x119: CloseEvent, 0x11a: ResetStatementEvent,
    0x11c: FetchEvent, 0x1fa: BulkExecuteEvent, 0x200: OtherEvent,
}

_native.setup({
    "refused": _refused, "fault": _fault, "row_error": RowError, "column": Column,
    "state_change": State, "ok": Ok, "rows": Rows, "prepared": Prepared, "server_error": ServerError,
    "file": File, "raw_rows": RawRows, "value_rows": ValueRows, "table": Table,
    "column_values": ColumnValues,
    "date_fields": DateFields, "time_fields": TimeFields, "bulk_default": BulkKind.DEFAULT,
    "bulk_ignore": BulkKind.IGNORE, "statement": Statement, "put": Put, "codecs": _CODECS,
    "readers": _HOW_READERS,
    "events": {kind: (it, tuple(field.name for field in dataclasses.fields(it)))
               for kind, it in _EVENTS.items()},
})
_PLAIN = Values()
