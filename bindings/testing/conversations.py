"""Conversations: rows of whole connections, each read in all ways.

    conversations.py [--strange N] [FILE ..]

Without a FILE it reads those of crates/connection_conformance/data, NAME.conversations. They have
payloads of both sides, and of each what event it is. The head of a file says in which form, and
rows.py how rows are written. A conversation is read step by step, whole in several orders, byte by
byte and in prefixes. It is put again by a client and a server. Behind them bytes that no peer sends
are read, which has to give events or a fault. They are prefixes of payloads, payloads with a
changed byte and random ones, N times.
"""

import os
import random
import re
import sys
from typing import Dict, Iterator, List, Optional, Tuple, Union

sys.path.insert(0, os.path.join(os.path.dirname(os.path.dirname(os.path.abspath(__file__))),
                                "python"))
sys.dont_write_bytecode = True

import mysql_session as ms
from conversation_rows import DEFAULT_LIMITS, MODES, SIDES, Conversation, Wanted, read_rows
from mysql_session import Side
from rows import Failure, Report, compare, refusal, words_for
from streams import payloads_of

# Streams longer than this aren't read byte by byte.
SHORT = 5000
# Faults that are of a payload's packets or its time, and not of what it says.
OF_PACKETS = ("OutOfSync", "AfterQuit", "Unasked", "Held", "NotDue")
# Events whose names in lines are others: COM_.. have those of their own.
NAMES = {"Answer": "AuthAnswer", "OldAuthSwitch": "AuthSwitch", "CutOffLogin": "Login",
         "Field": "Column"}
# The first bytes of commands that run no statement, behind which the session goes on.
QUIET = {bytes([it]) for it in (1, 2, 4, 9, 14, 22, 24, 25, 26, 27, 28)}
# The field of a line that is a length where secrets are hidden.
SECRETS = {"Login": "answer", "ChangeUser": "answer", "RegisterSlave": "password",
           **{name: "data" for name in ("AuthAnswer", "AuthSwitch", "AuthMore", "NextFactor",
                                        "PluginData")}}


def connection_of(of: Conversation) -> ms.Connection:
    """A connection as a conversation begins."""
    client, server, held = of.limits
    limits = {"client": client, "server": server, "held": held}
    if of.in_force is None:
        return ms.Connection(**limits)
    return ms.Connection.after_login(*of.in_force, **limits)


# ---- Reading ----------------------------------------------------------------------------------


def mode_of(connection: ms.Connection) -> int:
    """The flags of a connection's mode, as rows have them."""
    mode = connection.mode
    if mode is None:
        return MODES["unknown"]
    return (MODES["NO_BACKSLASH_ESCAPES"] * mode.no_backslash_escapes
            + MODES["ANSI_QUOTES"] * mode.ansi_quotes)


def behind(session: ms.SessionMode, event: ms.Event) -> ms.SessionMode:
    """What is known of a session behind an event, as a program goes on that has no connection."""
    if isinstance(event, ms.QueryEvent):
        return session.behind_text(event.text)
    if isinstance(event, (ms.ExecuteEvent, ms.BulkExecuteEvent)):
        # A connection doesn't read a longer text again.
        is_long = len(event.text) > 1024
        return ms.SessionMode() if is_long else session.behind_text(event.text)
    if isinstance(event, (ms.OkEvent, ms.ColumnsEndEvent, ms.RowsEndEvent)):
        return session.behind_ok(event)
    if isinstance(event, ms.OtherEvent):
        return session if event.data[:1] in QUIET else ms.SessionMode()
    if isinstance(event, ms.ChangeUserEvent):
        return ms.SessionMode()
    if isinstance(event, ms.CommandEvent):
        return session if bytes([event.number]) in QUIET else ms.SessionMode()
    return session


def without_secrets(line: str) -> str:
    """A line in which data of an authentication, and a replica's password, are a length."""
    name = line.split(" ")[1]
    is_secret = name in SECRETS or re.match(r"client Other byte=(17|21) ", line)
    field = SECRETS.get(name, "data")
    return line if not is_secret else re.sub(
        f" {field}=x([0-9a-f]*)", lambda it: f" {field}=({len(it.group(1)) // 2} bytes)", line)


def next_event(connection: ms.Connection) -> Union[ms.Event, str, None]:
    """The next event, or none, or a line of a fault."""
    try:
        return connection.next_event()
    except ms.ConnectionFault as fault:
        return f"fault {fault}"


def line_of(connection: ms.Connection, event: ms.Event) -> str:
    """The line of an event."""
    line = connection.line(secrets=True)
    side, name = line.split(" ")[:2]
    told = NAMES.get(event.name, event.name)
    if SIDES[side] != event.side or (told not in ("Command", name)):
        raise Failure(f"the event {event.side.name} {event.name} has the line {line}")
    if connection.line() != without_secrets(line):
        raise Failure(f"{line} without its secrets is {connection.line()}")
    return line


class Reading:
    """A reading of a conversation: each line has to be the expected one."""

    def __init__(self, of: Conversation):
        self.of, self.connection = of, connection_of(of)
        self.session, self.failed = ms.SessionMode(), False

    def __enter__(self) -> "Reading":
        return self

    def __exit__(self, *_: object) -> None:
        self.connection.close()

    def compare(self, found: object, wanted: object, place: str) -> None:
        """What came by the row at this position has to be that."""
        compare(found, wanted, self.of.title, place)

    def take(self) -> List[str]:
        """The lines that come."""
        found = []
        while not self.failed:
            event = next_event(self.connection)
            if event is None:
                break
            if isinstance(event, str):
                self.failed = True
            else:
                found.append(line_of(self.connection, event))
                self.know(event)
        return found

    def know(self, event: ms.Event) -> None:
        """Behind this event the connection has to know of its session what a program without one
        does."""
        self.session = behind(self.session, event)
        told, own = self.connection.session_mode, self.session
        if (told.mode, told.is_safe_set, told.spelling) != (
                own.mode, own.is_safe_set, own.spelling):
            line = self.connection.line(secrets=True)
            raise Failure(f"behind {line} the connection knows {told}, a program without one {own}")

    def feed(self, side: Side, data: bytes, most: int = 1 << 62) -> List[str]:
        """Feeds bytes, as many at once as there is room for, and returns the lines that come."""
        found = []
        while data and not self.failed:
            count = min(self.connection.room(side), most, len(data))
            if count == 0:
                raise Failure(f"no room for {len(data)} bytes of the {side.name.lower()}")
            self.connection.feed(side, data[:count])
            data = data[count:]
            found += self.take()
        return found

    def compare_lines(self, found: List[str], wanted: List[Wanted], place: str) -> None:
        """The lines that came have to be those; at this position no more are wanted."""
        for line, want in zip(found, wanted):
            if not want.is_line(line):
                self.compare(line, want.text, want.place)
        if len(found) > len(wanted):
            self.compare(found[len(wanted)], "no more", place)
        if len(wanted) > len(found):
            came = f"nothing, but {self.connection.fault}" if self.failed else "nothing"
            self.compare(came, wanted[len(found)].text, wanted[len(found)].place)

    def finish(self, found: List[str], wanted: List[Wanted]) -> None:
        """Both streams end behind lines that came; those and what still comes have to be these."""
        for side in Side:
            self.connection.close_side(side)
        self.compare_lines(found + self.take(), wanted, self.of.end_place)
        self.connection.finish()
        self.compare(self.connection.line(), self.of.end, self.of.end_place)


def read_steps(of: Conversation, most: int = 1 << 62) -> None:
    """Step by step; of each at most so many bytes at once."""
    with Reading(of) as it:
        for step in of.steps:
            found: List[str] = []
            if step.kind == "feed":
                found = it.feed(step.side, step.data, most)
            elif step.kind == "close":
                it.connection.close_side(step.side)
                found = it.take()
            elif step.kind == "held":
                it.compare(it.connection.held, step.number, step.place)
            elif step.kind == "mode":
                it.compare(mode_of(it.connection), step.number, step.place)
            elif step.kind == "spelling":
                it.compare(it.connection.spelling, step.number, step.place)
            elif step.kind == "turn":
                it.compare(it.connection.turn, step.side, step.place)
            it.compare_lines(found, step.wanted, step.place)
        it.finish([], [])


def read_pieces(of: Conversation, first: Side, counts: Tuple[int, int]) -> None:
    """In pieces of both sides by turns, each side's of so many bytes."""
    with Reading(of) as it:
        left, found, side = of.streams(), [], first
        while any(left.values()) and not it.failed:
            count = min(counts[side], it.connection.room(side), len(left[side]))
            it.connection.feed(side, left[side][:count])
            left[side] = left[side][count:]
            found += it.take()
            side = Side(1 - side)
        it.finish(found, of.wanted())


def read_front(of: Conversation, counts: Tuple[int, int]) -> None:
    """A prefix of each stream: its events are a prefix of all."""
    with Reading(of) as it:
        found: List[str] = []
        for side, stream in of.streams().items():
            front = stream[:counts[side]]
            it.connection.feed(side, front[:it.connection.room(side)])
            found += it.take()
        it.compare_lines(found, of.wanted()[:len(found)], of.end_place)
        for side in Side:
            it.connection.close_side(side)
        it.connection.finish()
        if it.connection.line().startswith("end Fault") and not of.end.startswith("end Fault"):
            raise Failure(f"the front of {counts} bytes ends by {it.connection.line()}",
                          of.end_place)


def put_again(of: Conversation) -> int:
    """A client and a server put each payload, and read what the other put; returns how many."""
    payloads = {side: payloads_of(stream) for side, stream in of.streams().items()}
    count = 0
    with Reading(of) as client, Reading(of) as server:
        ends = {Side.CLIENT: client, Side.SERVER: server}
        for want in of.wanted():
            # Last words are of a server that nobody asks.
            if want.text.startswith("Farewell"):
                return count
            side = ends[Side.CLIENT].connection.turn if want.side is None else want.side
            payload, packets = next(payloads[side])
            speaker, listener = ends[side], ends[Side(1 - side)]
            put, event = speaker.connection.put(side, payload)
            speaker.know(event)
            client.compare(put.hex(), packets.hex(), want.place)
            for line in [speaker.connection.line(secrets=True)], listener.feed(side, put):
                client.compare_lines(line, [want], want.place)
            client.compare(client.connection.turn, server.connection.turn, want.place)
            client.compare(client.connection.session_mode, server.connection.session_mode,
                           want.place)
            count += 1
        put_fault(of, ends, payloads)
    return count


def code_of(fault: str) -> ms.Code:
    """The code of a fault's name, as BadReply(BadOk) is REPLY_BAD_OK."""
    within = re.fullmatch(r"BadReply\((\w+)\)", fault)
    name = re.sub("(?<=[a-z])(?=[A-Z])", "_", within[1] if within else fault).upper()
    return ms.Code["REPLY_" + name if within else "CONNECTION_" + name]


def put_fault(of: Conversation, ends: Dict[Side, Reading],
              payloads: Dict[Side, Iterator[Tuple[bytes, bytes]]]) -> None:
    """The payload that is a fault can't be put, for what it is."""
    words = of.end.split(" ")
    if words[1] != "Fault" or words[4] in OF_PACKETS:
        return
    side = SIDES[words[2]]
    found = next(payloads[side], None)
    if found is None or ends[side].connection.turn != side:
        return
    error = refusal(ends[side].connection.put, side, found[0])
    compare(error and error.code, code_of(words[4]), f"{found[0][:99].hex()} is put", of.end_place)


def read_conversation(of: Conversation) -> None:
    """Reads it in all ways."""
    read_steps(of)
    streams = of.streams()
    sizes = [len(streams[side]) for side in Side]
    is_short = sum(sizes) < SHORT
    if is_short:
        read_steps(of, 1)
    put_again(of)
    if of.depends_on_order():
        return
    whole = 1 << 30
    for first in Side:
        read_pieces(of, first, (whole, whole))
        if is_short:
            read_pieces(of, first, (1, 1))
            read_pieces(of, first, (1, whole))
            read_pieces(of, first, (whole, 1))
    numbers = random.Random(of.title)
    for _ in range(16 if is_short else 1):
        read_front(of, tuple(numbers.randrange(size + 1) for size in sizes))


# ---- Bytes that no peer sends -----------------------------------------------------------------


def strange(payload: bytes, at: random.Random) -> bytes:
    """A prefix of a payload, one with a changed byte, or random bytes."""
    kind = at.randrange(3)
    if kind == 0 and payload:
        return payload[:at.randrange(len(payload))]
    if kind == 1 and payload:
        changed = bytearray(payload)
        changed[at.randrange(len(changed))] = at.randrange(256)
        return bytes(changed)
    return bytes(at.randrange(256) for _ in range(at.randrange(40)))


def read_strange(of: Conversation, at: random.Random) -> int:
    """Reads a conversation up to a step, and then strange payloads of whose turn it is; returns how
    many were events."""
    count, steps = 0, [it for it in of.steps if it.kind == "feed"]
    with Reading(of) as it:
        for step in steps[:at.randrange(len(steps) + 1)]:
            it.feed(step.side, step.data)
        for _ in range(20):
            side = it.connection.turn
            if side is None:
                return count
            known = [step.data[4:] for step in steps if step.side == side]
            payload = strange(at.choice(known) if known else b"", at)
            try:
                put, event = it.connection.put(side, payload)
            except ms.MySQLSessionError:
                continue
            it.know(event)
            if not (put and repr(event) and it.connection.line()):
                raise Failure(f"{payload.hex()} has no line", of.place)
            count += 1
        # Random bytes behind them, which nobody put.
        side = at.choice(list(Side))
        it.feed(side, bytes(at.randrange(256) for _ in range(at.randrange(40))))
    return count


# ---- The program ------------------------------------------------------------------------------


def main() -> int:
    """Reads the files."""
    parser = words_for(__doc__, "crates/connection_conformance/data/*.conversations")
    parser.add_argument("--strange", type=int, default=0, metavar="N")
    words, report, count = parser.parse_args(), Report(), 0
    conversations = report.read(words.files, read_rows)
    for it in conversations:
        report.run(it.place, read_conversation, it)
    small = [it for it in conversations if it.limits == DEFAULT_LIMITS
             and sum(map(len, it.streams().values())) < SHORT]
    at = random.Random(1)
    try:
        count = sum(read_strange(at.choice(small), at) for _ in range(words.strange))
    except Failure as error:
        report.fail(error.place or "strange payloads", error)
    events = sum(len(it.wanted()) for it in conversations)
    print(f"{events} events were read; {count} strange payloads are events")
    return report.end()


if __name__ == "__main__":
    sys.exit(main())
