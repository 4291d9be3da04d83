"""Tests of the capture reader: `make check`. Captures are written here, segment by segment."""

from __future__ import annotations

import datetime
import gzip
import io
import os
import pathlib
import random
import re
import struct
import subprocess
import sys
import tempfile
import unittest
from typing import Dict, List, NamedTuple, Sequence

HERE = pathlib.Path(__file__).resolve().parent
EXAMPLES = HERE / "examples"
TESTING = HERE.parent / "testing"
RECORDINGS = HERE.parent.parent / "crates" / "connection_conformance" / "data"
sys.path.insert(0, str(EXAMPLES))
sys.path.append(str(TESTING))

import captures  # noqa: E402  (found by the line above)
import masking  # noqa: E402
import mysql_session as ms  # noqa: E402
import read_capture  # noqa: E402
import streams  # noqa: E402
import with_passwords  # noqa: E402
from captures import ACK, FIN, RST, SYN, Address  # noqa: E402

CLIENT, SERVER = Address("192.0.2.1", 50000), Address("192.0.2.2", 3306)
SECOND = 1_700_000_000


class Packet(NamedTuple):
    """What is written as a segment."""

    source: Address
    target: Address
    number: int
    acknowledged: int
    flags: int
    data: bytes = b""


def tcp(packet: Packet) -> bytes:
    """A segment with its header."""
    return struct.pack(">HHIIBBHHH", packet.source.port, packet.target.port,
                       packet.number % 2**32, packet.acknowledged % 2**32, 5 << 4, packet.flags,
                       65535, 0, 0) + packet.data


def host(address: Address) -> bytes:
    """A host as IP writes it."""
    if ":" in address.host:
        return bytes.fromhex(address.host.replace(":", ""))
    return bytes(map(int, address.host.split(".")))


def ip(packet: Packet) -> bytes:
    """A segment in a packet of IPv4, or of IPv6 with an extension header."""
    segment = tcp(packet)
    source, target = host(packet.source), host(packet.target)
    if len(source) == 16:
        segment = struct.pack(">BB6x", 6, 0) + segment
        return struct.pack(">IHBB16s16s", 6 << 28, len(segment), 60, 64, source, target) + segment
    return struct.pack(">BBHHHBBH4s4s", 0x45, 0, 20 + len(segment), 0, 0, 64, 6, 0, source,
                       target) + segment


def framed(link: int, packet: bytes) -> bytes:
    """A packet as it is on a link."""
    kind = struct.pack(">H", 0x86DD if packet[0] >> 4 == 6 else 0x0800)
    heads: Dict[int, bytes] = {
        captures.NULL: struct.pack("<I", 2), captures.LOOP: struct.pack(">I", 2),
        captures.ETHERNET: bytes(12) + struct.pack(">HH", 0x8100, 7) + kind,
        captures.RAW: b"", captures.LINUX: bytes(14) + kind, captures.LINUX_2: kind + bytes(18)}
    # A frame on Ethernet has at least 60 bytes.
    return (heads[link] + packet).ljust(60 if link == captures.ETHERNET else 0, b"\0")


def pcap(frames: Sequence[bytes], link: int = captures.ETHERNET, order: str = "<",
         nanoseconds: bool = False) -> bytes:
    """A pcap file, with a frame each microsecond."""
    magic, unit = (captures.PCAP_NANOSECONDS, 1000) if nanoseconds else (captures.PCAP, 1)
    records = [struct.pack(order + "IIII", SECOND, unit * at, len(it), len(it)) + it
               for at, it in enumerate(frames)]
    return struct.pack(order + "IHHIIII", magic, 2, 4, 0, 0, 1 << 18, link) + b"".join(records)


def pcapng(frames: Sequence[bytes], link: int = captures.ETHERNET, order: str = "<") -> bytes:
    """A pcapng file with a block of another kind, and times in units of 2^-20 seconds."""
    def block(kind: int, data: bytes) -> bytes:
        data += bytes(-len(data) % 4)
        length = struct.pack(order + "I", 12 + len(data))
        return struct.pack(order + "I", kind) + length + data + length

    option = struct.pack(order + "HHB3xHH", 9, 1, 0x80 | 20, 0, 0)
    blocks = [block(captures.PCAPNG, struct.pack(order + "IHHq", captures.BYTE_ORDER, 1, 0, -1)),
              block(1, struct.pack(order + "HHI", link, 0, 0) + option), block(5, bytes(12))]
    for at, it in enumerate(frames):
        ticks = (SECOND << 20) + (at << 20) // 10**6 + 1
        blocks.append(block(6, struct.pack(order + "IIIII", 0, ticks >> 32, ticks & 0xFFFFFFFF,
                                           len(it), len(it)) + it))
    return b"".join(blocks)


def conversation(sent: Dict[Address, bytes], at: random.Random, longest: int = 1460,
                 ended: bool = True) -> List[Packet]:
    """A connection in order: it is opened, both ends send by turns, and it is ended."""
    client, server = sent
    first = {it: at.randrange(2**32) for it in sent}
    packets = [Packet(client, server, first[client], 0, SYN),
               Packet(server, client, first[server], first[client] + 1, SYN | ACK)]
    done = {it: 0 for it in sent}
    while any(done[it] < len(sent[it]) for it in sent):
        end = at.choice([it for it in sent if done[it] < len(sent[it])])
        other = server if end == client else client
        data = sent[end][done[end]:][:at.randrange(longest) + 1]
        packets.append(Packet(end, other, first[end] + 1 + done[end],
                              first[other] + 1 + done[other], ACK, data))
        done[end] += len(data)
    for end, other in ((client, server), (server, client)) if ended else ():
        packets.append(Packet(end, other, first[end] + 1 + len(sent[end]),
                              first[other] + 1 + len(sent[other]), ACK | FIN))
    return packets


def disturbed(packets: List[Packet], at: random.Random) -> List[Packet]:
    """A connection whose segments come in another order, again, and overlapping."""
    head, rest = packets[:2], packets[2:]
    again = [it for it in rest if it.data and at.random() < 0.3]
    for it in again:
        cut = at.randrange(len(it.data))
        rest.insert(at.randrange(len(rest) + 1),
                    it._replace(number=it.number + cut, data=it.data[cut:]))
        rest.insert(at.randrange(len(rest) + 1), it._replace(data=it.data[:cut + 1]))
    # Each segment moves by a few places.
    order = sorted(range(len(rest)), key=lambda place: place + 8 * at.random())
    return head + [rest[place] for place in order]


def random_bytes(at: random.Random, length: int) -> bytes:
    """So many bytes."""
    return bytes(at.randrange(256) for _ in range(length))


def written(packets: Sequence[Packet]) -> bytes:
    """Segments as a capture on Ethernet."""
    return pcap([framed(captures.ETHERNET, ip(it)) for it in packets])


def streams_of(capture: bytes) -> Dict[Address, bytes]:
    """What each end sent, as far as it can be read."""
    found: Dict[Address, bytes] = {}
    for piece in streams.Connections().read(captures.segments(io.BytesIO(capture))):
        found[piece.sender] = found.get(piece.sender, b"") + piece.data
    return found


class Files(unittest.TestCase):
    SENT = {CLIENT: b"what the client sends", SERVER: b"what the server sends" * 99}

    def test_forms(self) -> None:
        """Both forms of files in both orders of bytes, on each link, by IPv4 and IPv6."""
        version_6 = [Address(":".join(["2001", "0db8", *["0000"] * 5, f"000{it}"]), it + 3305)
                     for it in (1, 2)]
        for sent in (self.SENT, dict(zip(version_6, self.SENT.values()))):
            packets = conversation(sent, random.Random(1))
            wanted = {it.port: data for it, data in sent.items()}
            for link in (captures.NULL, captures.LOOP, captures.ETHERNET, captures.RAW,
                         captures.LINUX, captures.LINUX_2):
                frames = [framed(link, ip(it)) for it in packets]
                for order in "<>":
                    for capture in (pcap(frames, link, order), pcap(frames, link, order, True),
                                    pcapng(frames, link, order)):
                        found = streams_of(capture)
                        self.assertEqual({it.port: found[it] for it in found}, wanted)
                        times = [it.time for it in captures.segments(io.BytesIO(capture))]
                        since = [(it - SECOND * 10**9) // 1000 for it in times]
                        self.assertEqual(since, list(range(len(packets))))

    def test_cut(self) -> None:
        """A file that is cut off gives what is whole, and then says so."""
        frames = [framed(captures.ETHERNET, ip(it))
                  for it in conversation(self.SENT, random.Random(2))]
        for capture in (pcap(frames), pcapng(frames)):
            whole = list(captures.segments(io.BytesIO(capture)))
            for length in range(len(capture)):
                found: List[captures.Segment] = []
                try:
                    found += captures.segments(io.BytesIO(capture[:length]))
                except captures.CaptureError:
                    pass
                else:
                    self.assertTrue(length in (0,) or found == whole[:len(found)])
                self.assertEqual(found, whole[:len(found)])

    def test_strange(self) -> None:
        """Changed bytes are an error, or segments that are skipped or read."""
        at = random.Random(3)
        frames = [framed(captures.ETHERNET, ip(it)) for it in conversation(self.SENT, at)]
        for capture in (pcap(frames), pcapng(frames)):
            for _ in range(1000):
                changed = bytearray(capture)
                for _ in range(at.randrange(1, 5)):
                    changed[at.randrange(len(changed))] = at.randrange(256)
                try:
                    streams_of(bytes(changed))
                except captures.CaptureError:
                    pass

    def test_skipped(self) -> None:
        frames = [framed(captures.ETHERNET, ip(it)) for it in conversation(self.SENT,
                                                                           random.Random(4))]
        skipped, strange = captures.Skipped(), bytearray(frames[0])
        strange[18 + 9] = 17  # UDP
        fragment = bytearray(frames[0])
        fragment[18 + 6] = 0x20
        damaged = frames[0][:40]
        arp = bytes(12) + b"\x08\x06" + bytes(46)
        found = list(captures.segments(io.BytesIO(pcap([bytes(strange), bytes(fragment), damaged,
                                                        arp, frames[1]])), skipped))
        self.assertEqual(len(found), 1)
        self.assertEqual(skipped, captures.Skipped(other=2, fragments=1, damaged=1))


class Order(unittest.TestCase):
    def test_disturbed(self) -> None:
        """In any order of segments, and however often they come: the streams are those sent."""
        for seed in range(300):
            at = random.Random(seed)
            sent = {it: random_bytes(at, at.randrange(4000)) for it in (CLIENT, SERVER)}
            packets = disturbed(conversation(sent, at, 200), at)
            found = streams_of(written(packets))
            self.assertEqual({it: found.get(it, b"") for it in sent}, sent)

    def test_first_wins(self) -> None:
        """Of bytes that come twice the first ones are taken, also of those that wait."""
        direction = streams.Direction()
        def add(number: int, data: bytes) -> bytes:
            return direction.add(captures.Segment(0, CLIENT, SERVER, number, None, 0, len(data),
                                                  data))
        self.assertEqual(add(2**32 - 2, b""), b"")
        self.assertEqual(add(2, b"EFGH"), b"")
        self.assertEqual(add(1, b"defghijk"), b"")
        self.assertEqual(direction.missing, 3)
        self.assertEqual(add(2**32 - 2, b"ABCxyz"), b"ABCdEFGHijk")
        self.assertEqual((direction.repeated, direction.early, direction.missing), (7, 2, 0))

    def test_lost(self) -> None:
        """Where a segment is missing, a prefix is given, and the missing bytes are told."""
        for seed in range(100):
            at = random.Random(seed)
            sent = {it: random_bytes(at, at.randrange(1, 4000)) for it in (CLIENT, SERVER)}
            packets = conversation(sent, at, 300)
            lost = at.choice([it for it in packets if it.data])
            packets.remove(lost)
            connections, found = streams.Connections(), {it: b"" for it in sent}
            for piece in connections.read(captures.segments(io.BytesIO(written(packets)))):
                found[piece.sender] += piece.data
            [connection] = connections.all.values()
            for end, data in sent.items():
                front = found[end]
                self.assertTrue(data.startswith(front))
                missing = connection.directions[end].missing
                self.assertEqual(missing, len(lost.data) if end == lost.source else 0)
                self.assertEqual(len(front) < len(data), end == lost.source)

    def test_again(self) -> None:
        """Ports that are used again are a new connection, behind an end, a reset, or neither."""
        at = random.Random(5)
        sent = {CLIENT: b"one", SERVER: b"two"}
        for behind in (FIN, RST, 0):
            one = conversation(sent, at, ended=behind == FIN)
            if behind == RST:
                one.append(Packet(CLIENT, SERVER, one[0].number + 4, 0, RST))
            connections = streams.Connections()
            capture = written(one + conversation(sent, at))
            pieces = list(connections.read(captures.segments(io.BytesIO(capture))))
            self.assertEqual({it.connection.number for it in pieces}, {1, 2})
            self.assertEqual(b"".join(it.data for it in pieces if it.sender == SERVER), b"twotwo")


class Recordings(unittest.TestCase):
    """The recorded connections, written as captures."""

    NAMES = sorted(it.stem for it in RECORDINGS.glob("*.events"))

    def read(self, capture: bytes, *options: str) -> "subprocess.CompletedProcess[str]":
        with tempfile.TemporaryDirectory() as folder:
            path = os.path.join(folder, "capture.pcap")
            pathlib.Path(path).write_bytes(capture)
            return subprocess.run([sys.executable, str(EXAMPLES / "read_capture.py"), path,
                                   *options], stdout=subprocess.PIPE, stderr=subprocess.PIPE,
                                  timeout=300, universal_newlines=True)

    def sent(self, name: str, port: int) -> Dict[Address, bytes]:
        """What both sides of a recorded connection sent, the client's from a port."""
        return {Address("192.0.2.1", port): (RECORDINGS / (name + ".client")).read_bytes(),
                SERVER: (RECORDINGS / (name + ".server")).read_bytes()}

    def lines(self, said: str) -> Dict[int, List[str]]:
        """The lines of each connection, by its number."""
        found: Dict[int, List[str]] = {}
        for line in said.splitlines():
            if not line.startswith(("connection ", "not read")):
                _, number, event = line.split(" ", 2)
                found.setdefault(int(number[1:]), []).append(event)
        return found

    def test_all(self) -> None:
        """All connections at once, their segments out of order and repeated: the events of each are
        those beside the recording."""
        at = random.Random(6)
        queues = [disturbed(conversation(self.sent(name, 40000 + place), at), at)
                  for place, name in enumerate(self.NAMES)]
        packets: List[Packet] = [it for queue in queues for it in queue[:2]]
        left = [iter(queue[2:]) for queue in queues]
        while left:
            queue = at.choice(left)
            packet = next(queue, None)
            if packet is None:
                left.remove(queue)
            else:
                packets.append(packet)
        ran = self.read(written(packets), "--lines", "--secrets")
        found = self.lines(ran.stdout)
        for place, name in enumerate(self.NAMES):
            wanted = (RECORDINGS / (name + ".events")).read_text().splitlines()
            self.assertEqual(found[place + 1], wanted, name)
        self.assertEqual(ran.stderr, "")

    def test_without_handshake(self) -> None:
        """A capture that begins behind TCP's handshake: the server is the end that greets. One that
        begins behind the greeting isn't read, and is told of where its port was asked for."""
        packets = conversation(self.sent("pipelined", 40000), random.Random(7))[2:]
        wanted = (RECORDINGS / "pipelined.events").read_text().splitlines()
        ran = self.read(written(packets), "--lines", "--secrets")
        self.assertEqual(self.lines(ran.stdout), {1: wanted})
        self.assertEqual(ran.returncode, 0)
        rest = [it for it in packets if it.source != SERVER or it.number != packets[0].number]
        rest = rest[next(at for at, it in enumerate(rest) if it.source == SERVER) + 1:]
        ran = self.read(written(rest))
        self.assertEqual((ran.stdout, ran.returncode),
                         ("not read: 1 TCP connections that were captured in part\n", 1))
        ran = self.read(written(rest), "--port", "3306")
        self.assertIn("its greeting wasn't captured\n", ran.stdout)
        self.assertEqual(ran.returncode, 1)

    def test_from_a_command_on(self) -> None:
        """A capture that begins within a connection is read from the first command on, by the
        capabilities that are told, or that are guessed."""
        for name in ("pipelined", "go-long-data", "java-bulk", "c-change-user", "perl-execute",
                     "pymysql-results", "sphinx-results"):
            sent = self.sent(name, 40000)
            [(client, asked), (server, said)] = sent.items()
            with ms.Connection() as machine:
                machine.feed(ms.Side.CLIENT, asked)
                machine.feed(ms.Side.SERVER, said)
                count = 1 + next(number for number, event in enumerate(machine)
                                 if isinstance(event, ms.AcceptedEvent))
                words = f"{machine.capabilities:x},{machine.mariadb_capabilities:x}"
                asked, said = machine.rest(ms.Side.CLIENT), machine.rest(ms.Side.SERVER)
            packets = [Packet(server, client, 4990, 1000, ACK, b"of a reply"),
                       *(Packet(client, server, 1000 + at, 5000, ACK, asked[at:at + 1400])
                         for at in range(0, len(asked), 1400)),
                       *(Packet(server, client, 5000 + at, 1000, ACK, said[at:at + 1400])
                         for at in range(0, len(said), 1400)),
                       Packet(client, server, 1000 + len(asked), 5000, ACK | FIN),
                       Packet(server, client, 5000 + len(said), 1000, ACK | FIN)]
            wanted = (RECORDINGS / (name + ".events")).read_text().splitlines()[count:]
            options = ("--lines", "--secrets", "--port", "3306")
            ran = self.read(written(packets), *options, "--capabilities", words)
            self.assertEqual((self.lines(ran.stdout), ran.returncode), ({1: wanted}, 0), name)
            ran = self.read(written(packets), *options)
            self.assertEqual((self.lines(ran.stdout), ran.returncode), ({1: wanted}, 0), name)
        asked = Packet(client, server, 1000, 5000, ACK, b"\2\0\0\0\x1c\0")
        said = Packet(server, client, 5000, 1006, ACK, b"\7\0\0\2" + bytes(7))
        ran = self.read(written([asked, said]), *options)
        self.assertIn("nothing could be read without it\n", ran.stdout)
        self.assertEqual(ran.returncode, 1)

    def test_saved(self) -> None:
        """The bytes of a connection, in two files."""
        sent = self.sent("pipelined", 40000)
        with tempfile.TemporaryDirectory() as folder:
            saved = os.path.join(folder, "saved")
            packets = conversation(sent, random.Random(11))
            self.assertEqual(self.read(written(packets), "--save", saved).returncode, 0)
            self.assertEqual(sorted(os.listdir(saved)), ["1.client", "1.server"])
            for end, side in zip(sent, ("client", "server")):
                self.assertEqual(pathlib.Path(saved, "1." + side).read_bytes(), sent[end])

    def test_values(self) -> None:
        """NULL, dates and durations as a server's own client shows them."""
        rows = [(None, "NULL"), (ms.DateFields(0, 0, 0), "0000-00-00"),
                (ms.DateFields(2024, 0, 31, 1, 2, 3, 4), "2024-00-31 01:02:03.000004"),
                (-datetime.timedelta(hours=100, microseconds=500000), "-100:00:00.500000"),
                (datetime.timedelta(days=34, hours=22, minutes=59, seconds=59), "838:59:59"),
                (ms.TimeFields(True, 1, 25, 61, 7), "-50:01:07"), (b"mat\xc3\xa9", "'mat\u00e9'"),
                (b"\xff", "0xff"), ((1, None), "[1, NULL]"), (1.5, "1.5"),
                (datetime.datetime(2024, 2, 29, 1, 2, 3), "2024-02-29 01:02:03")]
        for value, text in rows:
            self.assertEqual(read_capture.shown(value), text)

    def test_masks(self) -> None:
        """Statements without their passwords, by the rows that the auditing proxy has as well."""
        rows = TESTING / "rows" / "masks.txt"
        count = 0
        for number, line in enumerate(rows.read_text(encoding="utf-8").splitlines(), 1):
            if line and not line.startswith("#"):
                kind, text, *more = (it.replace("<LF>", "\n") for it in line.split(" | "))
                wanted = (more[0] if more else text).encode(), kind != "shown"
                found = masking.masked(text.encode(), "plain" not in kind)
                self.assertEqual(found, wanted, f"row {number}")
                count += 1
        self.assertGreater(count, 80)
        # In another character set a0 may be a blank.
        found = masking.masked(b"CREATE USER ann IDENTIFIED\xa0BY 'tea'")
        self.assertEqual(found, (b"CREATE USER ann IDENTIFIED'*****'", True))
        self.assertEqual(masking.masked(b"SELECT '\xa0'"), (b"SELECT '\xa0'", False))

    def test_passwords(self) -> None:
        """No password of a statement, of a value or of a reply is printed, but with --secrets."""
        client, server = with_passwords.conversation(*self.sent("php-execute", 40000).values())
        sent = {Address("192.0.2.1", 40000): client, SERVER: server}
        packets = conversation(sent, random.Random(12))
        for options in ((), ("--lines",)):
            ran = self.read(written(packets), *options)
            self.assertEqual((ran.stderr, ran.returncode), ("", 0))
            self.assertEqual(with_passwords.leaks(ran.stdout), [])
            self.assertIn("over quit", ran.stdout)
            self.assertIn("shown" if not options else b"'shown'".hex(), ran.stdout)
            ran = self.read(written(packets), *options, "--secrets")
            self.assertEqual(with_passwords.leaks(ran.stdout), list(with_passwords.PASSWORDS))

    def test_answers(self) -> None:
        """Of what is said in an authentication the length alone is printed."""
        answers = re.compile(r"((?:answer|password|data)=)x([0-9a-f]*)")
        said = ("client Login", "client ChangeUser", "client AuthAnswer", "server AuthSwitch",
                "server AuthMore", "server NextFactor", "server PluginData",
                "client RegisterSlave", "client Other byte=17 ")
        packets: List[Packet] = []
        wanted: Dict[int, List[str]] = {}
        for name in self.NAMES:
            lines = (RECORDINGS / (name + ".events")).read_text().splitlines()
            if any(it.startswith(said[1:]) for it in lines):
                packets += conversation(self.sent(name, 40000 + len(wanted)), random.Random(13))
                wanted[len(wanted) + 1] = [
                    answers.sub(lambda it: f"{it.group(1)}({len(it.group(2)) // 2} bytes)", it)
                    if it.startswith(said) else it for it in lines]
        self.assertGreater(len(wanted), 5)
        self.assertEqual(self.lines(self.read(written(packets), "--lines").stdout), wanted)

    def test_statuses(self) -> None:
        """The status is 0 where nothing more comes of a connection, and 1 where it goes on unread."""
        ends = {(RECORDINGS / (name + ".events")).read_text().splitlines()[-1]: name
                for name in self.NAMES}
        self.assertGreater(len(ends), 8)
        for end, name in ends.items():
            with self.subTest(end=end, name=name):
                packets = conversation(self.sent(name, 40000), random.Random(14))
                is_read = end in ("end Whole", "end Over Quit", "end Over Denied",
                                  "end Over Farewell", "end Over Rejected")
                self.assertEqual(self.read(written(packets)).returncode, int(not is_read))
        packets = conversation(self.sent("pipelined", 40000), random.Random(15))
        ran = self.read(written([it for it in packets if it.source != SERVER]))
        self.assertEqual((ran.stdout, ran.returncode),
                         ("not read: 1 TCP connections that were captured in part\n", 1))
        ran = self.read(written([it for it in packets if it.source != SERVER]), "--port", "80")
        self.assertEqual((ran.stdout, ran.returncode), ("not read: 1 other TCP connections\n", 0))
        ran = self.read(written([it for it in packets if it.source == SERVER]))
        self.assertIn("unfinished client\n", ran.stdout)
        self.assertEqual(ran.returncode, 1)

    def test_others(self) -> None:
        """Connections of other protocols are left out, and files that are no captures refused. A file
        of gzip is read as what is in it."""
        sent = {Address("192.0.2.1", 40000): b"GET / HTTP/1.0\r\n\r\n", SERVER: b"HTTP/1.0 200 OK"}
        ran = self.read(written(conversation(sent, random.Random(8))))
        self.assertEqual(ran.stdout, "not read: 1 other TCP connections\n")
        self.assertEqual(ran.returncode, 0)
        packed = gzip.compress(written(conversation(sent, random.Random(8))))
        self.assertEqual(self.read(packed).stdout, ran.stdout)
        self.assertEqual(self.read(packed[:-9]).returncode, 2)
        self.assertEqual(self.read(packed[:20] + b"\xff" * 40).returncode, 2)
        ran = self.read(b"GET / HTTP/1.0\r\n\r\n")
        self.assertEqual(ran.stderr, "read_capture: the file is neither a pcap nor a pcapng "
                         "capture\n")
        self.assertEqual(ran.returncode, 2)

    def test_lost(self) -> None:
        """Where bytes are missing, the events are a prefix, and the connection's line says so."""
        for seed in range(12):
            at = random.Random(seed)
            name = at.choice(self.NAMES)
            packets = conversation(self.sent(name, 40000), at, 300)
            lost = at.choice([it for it in packets[2:] if it.data])
            packets.remove(lost)
            ran = self.read(written(packets), "--lines", "--secrets", "--port", "3306")
            wanted = (RECORDINGS / (name + ".events")).read_text().splitlines()
            found = self.lines(ran.stdout).get(1, [])
            self.assertEqual(found[:-1], wanted[:len(found[:-1])], name)
            self.assertIn(f"{len(lost.data)} bytes of {lost.source} are missing", ran.stdout)
            self.assertEqual(ran.returncode, 1)
