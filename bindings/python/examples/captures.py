"""TCP segments of capture files: pcap and pcapng, as tcpdump, Wireshark and others write them.

    with open("file.pcap", "rb") as file:
        for segment in segments(file):
            print(segment.source, segment.target, segment.data)

Ethernet (with VLANs), Linux "any" captures of both versions, loopback and raw IP; IPv4 and IPv6.
Fragments of IP and what tunnels carry aren't put together: `Skipped` counts them.
"""

from __future__ import annotations

import dataclasses
import ipaddress
import struct
from typing import BinaryIO, Iterator, List, NamedTuple, Optional

PCAP, PCAP_NANOSECONDS, PCAPNG = 0xA1B2C3D4, 0xA1B23C4D, 0x0A0D0D0A
BYTE_ORDER = 0x1A2B3C4D

SECOND = 10**9

# The longest record that is taken: no more is ever captured of a frame.
LONGEST = 1 << 26

NULL, ETHERNET, RAW_BSD, RAW, LOOP, LINUX, IPV4, IPV6, LINUX_2 = (
    0, 1, 12, 101, 108, 113, 228, 229, 276)

VLANS = (0x8100, 0x88A8, 0x9100)
ETHER_IPV4, ETHER_IPV6 = 0x0800, 0x86DD

TCP, FRAGMENT, AUTHENTICATION = 6, 44, 51
EXTENSIONS = (0, 43, 60, 135)

FIN, SYN, RST, ACK = 1, 2, 4, 16


class CaptureError(Exception):
    """A file that isn't a capture, or that is cut off within a record."""


class Frame(NamedTuple):
    """A frame: when it was captured, in nanoseconds since 1970, and the link that it was on."""

    time: int
    link: int
    data: bytes


class Address(NamedTuple):
    """One end of a TCP connection."""

    host: str
    port: int

    def __str__(self) -> str:
        return f"[{self.host}]:{self.port}" if ":" in self.host else f"{self.host}:{self.port}"


class Segment(NamedTuple):
    """A TCP segment. `length` is how many bytes it carried; of them `data` may have only a prefix,
    where the capture kept no more."""

    time: int
    source: Address
    target: Address
    number: int
    acknowledged: Optional[int]
    flags: int
    length: int
    data: bytes


@dataclasses.dataclass
class Skipped:
    """How many frames were no TCP segments, by why."""

    other: int = 0
    fragments: int = 0
    damaged: int = 0


# ---- Files ---------------------------------------------------------------------------------------


def _take(file: BinaryIO, count: int) -> bytes:
    """The next bytes of a file, which has to have them."""
    data = file.read(count)
    if len(data) < count:
        raise CaptureError("the capture is cut off within a record")
    return data


def frames(file: BinaryIO) -> Iterator[Frame]:
    """The frames of a capture, each as soon as it can be read.

    Raises CaptureError where the file isn't a capture, and, behind the frames that are whole,
    where it is cut off.
    """
    magic = file.read(4)
    for order in "<>":
        number = struct.unpack(order + "I", magic)[0] if len(magic) == 4 else 0
        if number in (PCAP, PCAP_NANOSECONDS):
            return _pcap(file, order, 1 if number == PCAP_NANOSECONDS else 1000)
        if number == PCAPNG:
            return _pcapng(file)
    raise CaptureError("the file is neither a pcap nor a pcapng capture")


def _pcap(file: BinaryIO, order: str, unit: int) -> Iterator[Frame]:
    """The frames of a pcap file, behind its first four bytes. Its time has this unit."""
    link = struct.unpack(order + "HHIIII", _take(file, 20))[-1] & 0xFFFF
    record = struct.Struct(order + "IIII")
    while True:
        header = file.read(record.size)
        if not header:
            return
        if len(header) < record.size:
            raise CaptureError("the capture is cut off within a record")
        seconds, fraction, count, _ = record.unpack(header)
        if count > LONGEST:
            raise CaptureError(f"a record of the capture has {count} bytes")
        yield Frame(seconds * SECOND + fraction * unit, link, _take(file, count))


class _Interface(NamedTuple):
    """An interface of a pcapng file: its link, how many ticks a second has, and what is added to
    its seconds."""

    link: int
    ticks: int
    offset: int

    def time(self, ticks: int) -> int:
        """A time in nanoseconds."""
        return self.offset * SECOND + ticks * SECOND // self.ticks


def _pcapng(file: BinaryIO) -> Iterator[Frame]:
    """The frames of a pcapng file, behind the type of its first block."""
    order, kind = "<", PCAPNG
    interfaces: List[_Interface] = []
    while True:
        if kind == PCAPNG:
            order, interfaces = _section(file), []
        else:
            block = _block(file, order)
            if kind == 1:
                interfaces.append(_interface(block, order))
            elif kind in (2, 3, 6):
                yield _captured(kind, block, order, interfaces)
        header = file.read(4)
        if not header:
            return
        if len(header) < 4:
            raise CaptureError("the capture is cut off within a block")
        (kind,) = struct.unpack(order + "I", header)


def _section(file: BinaryIO) -> str:
    """Reads a section's header behind its type; gives the order of its bytes."""
    head = _take(file, 8)
    for order in "<>":
        length, magic = struct.unpack(order + "II", head)
        if magic == BYTE_ORDER and 28 <= length <= LONGEST:
            _take(file, length - 12)
            return order
    raise CaptureError("a section of the capture has no order of bytes")


def _block(file: BinaryIO, order: str) -> bytes:
    """Reads a block behind its type; gives what it has."""
    (length,) = struct.unpack(order + "I", _take(file, 4))
    if not 12 <= length <= LONGEST or length % 4:
        raise CaptureError(f"a block of the capture has {length} bytes")
    return _take(file, length - 8)[:-4]


def _interface(block: bytes, order: str) -> _Interface:
    """The description of an interface."""
    if len(block) < 8:
        raise CaptureError("the description of an interface is cut off")
    (link,) = struct.unpack_from(order + "H", block)
    ticks, offset, at = 10**6, 0, 8
    while at + 4 <= len(block):
        code, length = struct.unpack_from(order + "HH", block, at)
        value = block[at + 4:at + 4 + length]
        if code == 9 and length == 1:
            power = value[0] & 0x7F
            ticks = 2**power if value[0] & 0x80 else 10**power
        elif code == 14 and length == 8:
            (offset,) = struct.unpack(order + "q", value)
        at += 4 + length + -length % 4
    return _Interface(link, ticks, offset)


def _captured(kind: int, block: bytes, order: str, interfaces: List[_Interface]) -> Frame:
    """The frame of a block: an enhanced one (6), a simple one (3), or an old one (2)."""
    form = order + {2: "HHIIII", 3: "I", 6: "IIIII"}[kind]
    if len(block) < struct.calcsize(form):
        raise CaptureError("a block of the capture is cut off")
    fields = struct.unpack_from(form, block)
    number = 0 if kind == 3 else fields[0]
    if number >= len(interfaces):
        raise CaptureError(f"a frame is of interface {number}, which the capture doesn't describe")
    data = block[struct.calcsize(form):]
    if kind == 3:
        return Frame(0, interfaces[0].link, data[:fields[0]])
    high, low, count = fields[-4:-1]
    return Frame(interfaces[number].time(high << 32 | low), interfaces[number].link, data[:count])


# ---- Links, IP and TCP ---------------------------------------------------------------------------


def _packet(frame: Frame) -> bytes:
    """What a frame carries of IP; nothing where it carries something else."""
    data, link = frame.data, frame.link
    if link in (RAW, RAW_BSD, IPV4, IPV6):
        return data
    if link in (NULL, LOOP):
        return data[4:]
    at = {ETHERNET: 12, LINUX: 14, LINUX_2: 0}.get(link)
    if at is None:
        raise CaptureError(f"frames of link type {link} aren't read")
    kind, behind = int.from_bytes(data[at:at + 2], "big"), {LINUX_2: 20}.get(link, at + 2)
    while kind in VLANS:
        kind = int.from_bytes(data[behind + 2:behind + 4], "big")
        behind += 4
    return data[behind:] if kind in (ETHER_IPV4, ETHER_IPV6) else b""


class _Carried(NamedTuple):
    """What an IP packet carries: its length there, and what was captured of it."""

    source: str
    target: str
    protocol: int
    length: int
    data: bytes


def _ipv4(packet: bytes) -> _Carried:
    """Reads a packet of IPv4. Its length is 0 where the network card was to cut it up."""
    head = 4 * (packet[0] & 15)
    _, _, length, _, place, _, protocol, _, source, target = struct.unpack_from(
        ">BBHHHBBH4s4s", packet)
    if head < 20:
        raise ValueError("the header is shorter than any is")
    if place & 0x3FFF:
        protocol = FRAGMENT
    length = (length or len(packet)) - head
    return _Carried(str(ipaddress.IPv4Address(source)), str(ipaddress.IPv4Address(target)),
                    protocol, length, packet[head:][:length])


def _ipv6(packet: bytes) -> _Carried:
    """Reads a packet of IPv6 with its extension headers."""
    _, length, protocol, _, source, target = struct.unpack_from(">IHBB16s16s", packet)
    length = length or len(packet) - 40
    data = packet[40:][:length]
    while protocol in EXTENSIONS or protocol == AUTHENTICATION:
        units = data[1] + 2 if protocol == AUTHENTICATION else 2 * data[1] + 2
        protocol, data, length = data[0], data[4 * units:], length - 4 * units
    return _Carried(str(ipaddress.IPv6Address(source)), str(ipaddress.IPv6Address(target)),
                    protocol, length, data)


def _segment(time: int, carried: _Carried) -> Segment:
    """Reads a TCP segment."""
    source, target, number, acknowledged, head, flags = struct.unpack_from(">HHIIBB", carried.data)
    head = 4 * (head >> 4)
    if head < 20 or head > carried.length:
        raise ValueError("the header's length isn't one")
    return Segment(time, Address(carried.source, source), Address(carried.target, target), number,
                   acknowledged if flags & ACK else None, flags & (FIN | SYN | RST),
                   carried.length - head, carried.data[head:])


def _read(frame: Frame, skipped: Skipped) -> Optional[Segment]:
    """The segment in a frame; none where it has none, which is counted."""
    packet = _packet(frame)
    readers = {4: _ipv4, 6: _ipv6}
    reader = readers.get(packet[0] >> 4) if packet else None
    if reader is None:
        skipped.other += 1
        return None
    try:
        carried = reader(packet)
        if carried.protocol == TCP:
            return _segment(frame.time, carried)
    except (struct.error, IndexError, ValueError):
        skipped.damaged += 1
        return None
    if carried.protocol == FRAGMENT:
        skipped.fragments += 1
    else:
        skipped.other += 1
    return None


def segments(file: BinaryIO, skipped: Optional[Skipped] = None) -> Iterator[Segment]:
    """The TCP segments of a capture, in the order in which they were captured."""
    skipped = Skipped() if skipped is None else skipped
    for frame in frames(file):
        segment = _read(frame, skipped)
        if segment is not None:
            yield segment
