"""Random scripts through a client, a server and an auditor; `bindings/test` runs it.

    three_machines.py RECORDINGS [--events N] [--seed N]

Three connections are a client, a server and who listens to both. The client and the server
put what a script says, and each reads what the other put, in random pieces. The auditor reads both
streams in random pieces and any order. All three have to tell the same lines in the same order. Of
the client they are those that the client put, and of the server those that the server put. And they
have to be in the same state behind each. A payload that is refused has to change nothing. Where its
packets come all the same, a fourth machine has to find the fault by which it was refused.

Each recorded connection of the folder RECORDINGS is read, and put again payload by payload: that
gives the same bytes. A failure names the script's seed, by which --seed says it again.
"""

import argparse
import collections
import glob
import os
import pathlib
import random
import sys

sys.path.insert(0, os.path.join(os.path.dirname(os.path.dirname(os.path.abspath(__file__))),
                                "python"))

import mysql_session as ms  # noqa: E402  (found by the line above)
from composing import LAST, Composer  # noqa: E402
from streams import framed, payloads_of  # noqa: E402

EVENTS = 6000
# A script's own end, where nothing ends the connection before.
LONGEST = 400

# Why a payload isn't put.
REFUSALS = {it for it in ms.Code if 302 <= it <= 309 or 510 <= it <= 517} | {
    ms.Code.CONNECTION_NOT_ITS_TURN}

# How many refusals of a script for the same reason are compared with faults.
COMPARED = 3

CLIENT, SERVER = ms.Side.CLIENT, ms.Side.SERVER
LONG_DATA = b"\x18"
LAST_WORDS = b"\xff\x1d\x04#08S01killed"


class Different(Exception):
    """The machines don't agree."""


def same(what, found, wanted):
    """Fails where two things differ."""
    if found != wanted:
        raise Different(f"{what}: {found!r:.500}\nin place of {wanted!r:.500}")


def standing(connection):
    """Returns the state of a connection, as a tuple."""
    return tuple(connection._standing())


def statements(connection):
    """Returns the statements that a connection has, of those that scripts name."""
    return [connection.statement(it) for it in (1, 2, 3, 4, 5, 7, LAST)]


def last_number(packets, before):
    """Returns the number of the last packet, or the one before where there is none."""
    at = 0
    while at < len(packets):
        before = packets[at + 3]
        at += 4 + int.from_bytes(packets[at:at + 3], "little")
    return before


class Three:
    """A client, a server, and an auditor between them."""

    def __init__(self, make, at):
        self.at = at
        self.make = make
        self.ends = {side: make() for side in (CLIENT, SERVER)}
        self.auditor = make()
        # What was put: each event, its line, and how the connection stands behind it; and of each
        # side's bytes those that the auditor hasn't got.
        self.said, self.audited = [], 0
        self.waiting = {side: b"" for side in (CLIENT, SERVER)}
        self.refused = collections.Counter()
        # All bytes so far, and the number of the packet that was put last.
        self.streams = {side: b"" for side in (CLIENT, SERVER)}
        self.number = -1

    def close(self):
        """Frees the three."""
        for it in (*self.ends.values(), self.auditor):
            it.close()

    def turn(self):
        """Returns whose turn it is."""
        return self.ends[CLIENT].turn

    def say(self, payload):
        """Has the side whose turn it is put a payload. Returns its event, or None of a refused
        one."""
        side = self.turn()
        end = self.ends[side]
        before = standing(end)
        try:
            packets, event = end.put(side, payload)
        except ms.MySQLSessionError as error:
            self.note_refusal(error, end, before)
            if self.refused[error.code] <= COMPARED:
                self.compare_fault(side, payload, error.code)
            return None
        self.heard(side, packets, [(event, end.line(secrets=True))])
        return event

    def compare_fault(self, side, payload, code):
        """The packets of a payload that was refused are a fault, for the same reason."""
        first = 0 if self.ends[side].phase == ms.Phase.COMMAND else (self.number + 1) % 256
        streams = dict(self.streams)
        streams[side] += ms.put_packet(payload, first, 1 << 26)[0]
        found = None
        with self.make() as reader:
            try:
                while reader.turn is not None and streams[reader.turn]:
                    turn = reader.turn
                    size = reader.room(turn)
                    piece, streams[turn] = streams[turn][:size], streams[turn][size:]
                    list(reader.feed(turn, piece))
            except ms.ConnectionFault as fault:
                found = fault
        same("the fault", found and (found.code, found.side, found.byte),
             (code, side, len(self.streams[side])))

    def say_all(self, payloads):
        """Has the side whose turn it is put payloads by one call, as packets. Returns how many were
        put, which of the first one says whether it was refused."""
        side = self.turn()
        end = self.ends[side]
        before = standing(end)
        stream = framed(payloads, self.at.randrange(256))
        try:
            packets, used = end.put_packets(side, stream)
        except ms.MySQLSessionError as error:
            self.note_refusal(error, end, before)
            return 0
        count = sum(1 for _ in payloads_of(stream[:used]))
        same("the bytes that were taken", used, len(framed(payloads[:count])))
        self.heard(side, packets, None, count)
        return count

    def note_refusal(self, error, end, before):
        """A payload was refused: nothing has changed."""
        if error.code not in REFUSALS:
            raise error
        same(f"how it stands behind the refusal {error}", standing(end), before)
        self.refused[error.code] += 1

    def refuse_other_side(self):
        """A payload of the side that isn't due is refused."""
        side = self.turn()
        if side is None:
            return
        for number, end in self.ends.items():
            before = standing(end)
            try:
                end.put(ms.Side(1 - side), b"\x0e")
            except ms.MySQLSessionError as error:
                same("the refusal", error.code, ms.Code.CONNECTION_NOT_ITS_TURN)
            else:
                raise Different(f"a payload of {ms.Side(1 - side)} was put on the end {number}")
            same("how it stands behind the refusal", standing(end), before)

    def pieces(self, data, listener, side):
        """Cuts bytes into random pieces, each of which the listener takes."""
        while data:
            size = self.at.choice((1, 3, 4, 5, len(data), self.at.randrange(len(data)) + 1))
            size = min(size, listener.room(side))
            yield data[:size]
            data = data[size:]

    def heard(self, side, packets, put, count=1):
        """What a side has put is read by the other one, and by and by by the auditor."""
        listener, told = self.ends[ms.Side(1 - side)], []
        for piece in self.pieces(packets, listener, side):
            for event in listener.feed(side, piece):
                told.append((event, listener.line(secrets=True)))
        same("how many events are read", len(told), count)
        if put is not None:
            same("what is read", repr(told), repr(put))
        for event, line in told:
            same("whose event it is", event.side, side)
            self.said.append((repr(event), line))
        same("how the other end stands", standing(listener), standing(self.ends[side]))
        self.waiting[side] += packets
        self.streams[side] += packets
        self.number = last_number(packets, self.number)
        if self.at.random() < 0.6:
            self.audit(self.at.randrange(4))

    def audit(self, times):
        """The auditor gets some more bytes, of either side."""
        for _ in range(times):
            side = self.at.choice((CLIENT, SERVER))
            size = min(self.auditor.room(side), self.at.choice((1, 4, 30, 1000, 1 << 24)))
            piece, self.waiting[side] = self.waiting[side][:size], self.waiting[side][size:]
            self.take(self.auditor.feed(side, piece))

    def take(self, events):
        """The auditor's next events are those that were put."""
        for event in events:
            if self.audited == len(self.said):
                raise Different(f"the auditor tells {event}")
            same("what the auditor reads", (repr(event), self.auditor.line(secrets=True)),
                 self.said[self.audited])
            self.audited += 1
        if self.audited == len(self.said) and not any(self.waiting.values()):
            for end in self.ends.values():
                same("how the auditor stands", standing(self.auditor), standing(end))
                same("the auditor's statements", statements(self.auditor), statements(end))

    def catch_up(self):
        """All bytes come to the auditor."""
        while any(self.waiting.values()):
            # The side that is due can be fed; who is ahead waits.
            turn = self.auditor.turn
            for side in (CLIENT, SERVER) if turn is None else (turn,):
                size = self.auditor.room(side) or len(self.waiting[side])
                piece, self.waiting[side] = self.waiting[side][:size], self.waiting[side][size:]
                self.take(self.auditor.feed(side, piece))
        same("how many events the auditor has read", self.audited, len(self.said))

    def say_last_words(self, payload):
        """The client's stream ends where a payload of it comes next, and the server says last
        words. No payload can be put there, so that its packet is fed to all three."""
        self.catch_up()
        phase, told = self.ends[CLIENT].phase, []
        first = 0 if phase == ms.Phase.COMMAND else (self.number + 1) % 256
        for it in (*self.ends.values(), self.auditor):
            it.close_side(CLIENT)
            it.feed(SERVER, ms.put_packet(payload, first)[0])
            event = it.next_event()
            same("last words", type(event), ms.FarewellEvent)
            told.append((repr(event), it.line(secrets=True), standing(it)))
            same("what is told last", told[-1], told[0])

    def finish(self):
        """The three end alike."""
        self.catch_up()
        ends = [(it.finish(), it.line()) for it in (*self.ends.values(), self.auditor)]
        for end in ends:
            same("the end", end, ends[0])


class Script:
    """A random connection."""

    def __init__(self, seed):
        self.seed, self.at = seed, random.Random(seed)
        self.composer = Composer(self.at)
        # The capabilities behind a login; none of a whole connection.
        self.words = ()
        self.three = Three(self.beginning(), self.at)

    def beginning(self):
        """Returns what makes a machine: at the greeting, or behind a login; with random limits."""
        at = self.at
        client, server = (at.choice((150, 2000, 1 << 20)) for _ in range(2))
        kept = at.choice((100, 1000, 1 << 20, 1 << 20))
        limits = {"client": client, "server": server, "held": client + server + 300 + kept}
        if at.random() < 0.75:
            return lambda: ms.Connection(**limits)
        word, own = self.composer.random_capabilities()
        self.words = word & ~(1 << 11 | 1 << 5 | 1 << 26), own
        return lambda: ms.Connection.after_login(*self.words, **limits)

    def run(self):
        """Runs it to its end, and returns how many events there were."""
        three = self.three
        failures = 0
        while three.turn() is not None and len(three.said) < LONGEST and failures < 30:
            before = len(three.said)
            if self.at.random() < 0.02:
                three.refuse_other_side()
            self.exchange()
            failures = 0 if len(three.said) > before else failures + 1
        if three.turn() is CLIENT and self.at.random() < 0.5:
            three.say_last_words(LAST_WORDS)
        three.finish()
        return len(three.said)

    def look(self):
        """The composer gets to know the state of the connection."""
        end = self.three.ends[CLIENT]
        self.composer.capabilities = end.capabilities
        self.composer.mariadb = end.mariadb_capabilities
        return end.phase

    def exchange(self):
        """What comes next is said; behind a command its reply."""
        phase, composer = self.look(), self.composer
        if self.at.random() < 0.01:
            self.say_strange(composer.some(30))
        elif phase == ms.Phase.COMMAND:
            self.ask(composer.command())
        elif phase == ms.Phase.REPLY:
            self.go_on()
        else:
            self.three.say(
                {ms.Phase.GREETING: composer.greeting, ms.Phase.RESPONSE: composer.response,
                 ms.Phase.AUTHENTICATION: composer.authentication,
                 ms.Phase.ANSWER: composer.some, ms.Phase.FILE_DATA: lambda: b""}[phase]())

    def go_on(self):
        """A reply that went on otherwise than it was composed is ended somehow."""
        composer = self.composer
        composer.forget()
        payloads = [composer.error(), composer.ok(), composer.end(), composer.end_of_columns(),
                    composer.column()[0], composer.row(None, True)]
        self.at.shuffle(payloads)
        for payload in payloads:
            if self.three.say(payload) is not None:
                return

    def say_strange(self, payload):
        """Says any bytes, which may be taken."""
        if self.three.say(payload) is not None:
            self.composer.forget()

    def ask(self, command):
        """A command is said, and its reply; long data mostly by one call with what follows it."""
        commands = [command]
        while commands[-1][:1] == LONG_DATA and self.at.random() < 0.7:
            commands.append(self.composer.command())
        if self.at.random() < 0.2 or len(commands) > 1:
            said = self.three.say_all(commands) == len(commands)
        else:
            said = self.three.say(command) is not None
        if not said or self.three.turn() is None:
            self.composer.forget()
            return
        if self.look() == ms.Phase.REPLY:
            self.reply(commands[-1])

    def reply(self, command):
        """The reply to a command is said."""
        payloads = self.composer.reply(command)
        while payloads:
            if self.at.random() < 0.005 and payloads[0]:
                self.say_strange(self.changed(payloads[0]))
            count = self.answer(payloads)
            if count == 0:
                return
            payloads = payloads[count:]

    def answer(self, payloads):
        """Says the next of the payloads, or some of them; returns how many."""
        three, phase = self.three, self.look()
        if phase not in (ms.Phase.REPLY, ms.Phase.FILE_DATA):
            return 0
        if phase == ms.Phase.REPLY and self.at.random() < 0.2:
            return three.say_all(payloads)
        return 0 if three.say(payloads[0]) is None else 1

    def changed(self, payload):
        """A payload with a changed byte."""
        data = bytearray(payload)
        data[self.at.randrange(len(data))] ^= 1 << self.at.randrange(8)
        return bytes(data)


# ---- Long payloads ------------------------------------------------------------------------------


def say_long():
    """Has a query and a row said that are as long as one packet, and end with one that is empty.
    Returns how many events there were."""
    limit, size = 1 << 26, 0xFFFFFF
    three = Three(lambda: ms.Connection.after_login(ms.Capability.PROTOCOL_41, client=limit,
                                                    server=limit, held=4 * limit), random.Random(1))
    end = b"\xfe\0\0\2\0"
    three.say(b"\x03".ljust(size, b"x"))
    three.say_all([b"\x01", Composer(three.at).column()[0], end])
    # A cell behind a length of eight bytes, as long as the row leaves.
    three.say((b"\xfe" + (size - 9).to_bytes(8, "little")).ljust(size, b"z"))
    three.say(end)
    three.finish()
    three.close()
    same("how many events are said", len(three.said), 6)
    return len(three.said)


# ---- Recorded connections -----------------------------------------------------------------------


def put_again(name):
    """Reads a recorded connection, puts each of its payloads, and compares the bytes; returns how
    many there are."""
    streams = {side: pathlib.Path(f"{name}.{side.name.lower()}").read_bytes()
               for side in (CLIENT, SERVER)}
    payloads = {side: (payload for payload, _ in payloads_of(stream))
                for side, stream in streams.items()}
    limits = {"client": 1 << 26, "server": 1 << 26, "held": 1 << 30}
    written = {side: b"" for side in streams}
    count = 0
    with ms.Connection(**limits) as reader, ms.Connection(**limits) as writer:
        for side, stream in streams.items():
            reader.feed(side, stream)
        for event in events_of(reader):
            if isinstance(event, ms.FarewellEvent):
                break
            packets, again = writer.put(event.side, next(payloads[event.side]))
            same(f"payload {count}", (repr(again), writer.line(secrets=True)),
                 (repr(event), reader.line(secrets=True)))
            written[event.side] += packets
            count += 1
    for side, packets in written.items():
        same(f"the bytes of {side.name}", packets, streams[side][:len(packets)])
    return count


def events_of(connection):
    """The events of a connection, up to a fault."""
    try:
        yield from connection
    except ms.ConnectionFault:
        return


# ---- All of them --------------------------------------------------------------------------------


def words_of():
    """Returns the program's words."""
    parser = argparse.ArgumentParser(description=__doc__,
                                     formatter_class=argparse.RawDescriptionHelpFormatter)
    parser.add_argument("recordings", metavar="RECORDINGS")
    parser.add_argument("--events", type=int, default=EVENTS)
    parser.add_argument("--seed", type=int, help="this script alone")
    return parser.parse_args()


def run_script(seed, refused, kinds):
    """Runs a script, and returns how many events it had."""
    script = Script(seed)
    try:
        count = script.run()
    except Exception as error:
        lines = "\n".join(line for _, line in script.three.said[-5:])
        raise Different(f"script {seed}, behind these events:\n{lines:.2000}\n{error}") from error
    refused += script.three.refused
    kinds.update(line.split(" ", 2)[1] for _, line in script.three.said)
    script.three.close()
    return count


def main():
    words = words_of()
    refused, kinds = collections.Counter(), collections.Counter()
    if words.seed is not None:
        print(f"{run_script(words.seed, refused, kinds)} events of the script {words.seed}")
        return
    count = sum(map(put_again, sorted(it[:-len(".events")] for it in glob.glob(
        os.path.join(words.recordings, "*.events")))))
    print(f"{count} payloads of recorded connections are put again, and {say_long()} events with "
          "long ones are said")
    events, first = 0, random.SystemRandom().randrange(1 << 32)
    seed = first
    while events < words.events:
        events += run_script(seed, refused, kinds)
        seed += 1
    print(f"{events} events of {seed - first} scripts from {first} on, of {len(kinds)} kinds, and "
          f"{sum(refused.values())} refusals")


if __name__ == "__main__":
    main()
