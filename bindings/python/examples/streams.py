"""TCP connections out of segments: the bytes of both directions in order.

    for piece in Connections().read(segments(file)):
        print(piece.connection.number, piece.sender, piece.data)

Of bytes that came twice the first ones are taken. A direction in which bytes are missing waits for
them, up to a limit. Then, and where the connection ends, they are lost. Nothing behind them is
given, and `Direction.missing` tells of them.
"""

from __future__ import annotations

import dataclasses
from typing import Dict, FrozenSet, Iterable, Iterator, NamedTuple, Optional

from captures import FIN, RST, SYN, Address, Segment

HALF = 1 << 31

# How many bytes may wait for those before them, in one direction.
WAITING_LIMIT = 1 << 24


class Direction:
    """The bytes that one end sends, put in order. Positions count from the first byte, which is
    0."""

    def __init__(self) -> None:
        self.first: Optional[int] = None  # the number of the first byte
        self.next = 0                     # the place of the next byte that is to be given
        self.told = 0                     # the place up to which the other end acknowledged
        self.end: Optional[int] = None    # the place behind the last byte
        self.lost = False
        self.repeated = 0                 # bytes that came again
        self.early = 0                    # segments that came before their turn
        self._waiting: Dict[int, bytes] = {}
        self._held = 0

    def place(self, number: int) -> int:
        """The place of a sequence number, which is within 2^31 of the next byte's."""
        assert self.first is not None
        distance = (number - self.first - self.next) & 0xFFFFFFFF
        return self.next + (distance - 2 * HALF if distance >= HALF else distance)

    @property
    def missing(self) -> int:
        """How many bytes are missing before the first that came behind them, or before the end."""
        known = [self.told, self.end or 0, *self._waiting]
        behind = [it for it in known if it > self.next]
        return min(behind) - self.next if behind else 0

    @property
    def ended(self) -> bool:
        """Whether all bytes up to the end were given."""
        return self.end is not None and self.next >= self.end

    def add(self, segment: Segment) -> bytes:
        """Takes a segment; gives the bytes that are next now."""
        number = segment.number + (1 if segment.flags & SYN else 0)
        if self.first is None:
            self.first = number & 0xFFFFFFFF
        place = self.place(number)
        if segment.flags & FIN and self.end is None:
            self.end = place + segment.length
        if self.lost:
            return b""
        self.early += bool(segment.data) and place > self.next
        self._keep(place, segment.data)
        return self._take()

    def acknowledge(self, number: int) -> None:
        """Notes that the other end has the bytes up to a number."""
        if self.first is not None:
            place = self.place(number)
            self.told = max(self.told, place if self.end is None else min(place, self.end))

    def _keep(self, place: int, data: bytes) -> None:
        """Keeps those of a segment's bytes that didn't come before."""
        came, held = len(data), self._held
        if place < self.next:
            data, place = data[self.next - place:], self.next
        for other in sorted(self._waiting):
            end = other + len(self._waiting[other])
            if other >= place + len(data):
                break
            if end > place:
                self._wait(place, data[:max(other - place, 0)])
                data, place = data[end - place:], end
        self._wait(place, data)
        self.repeated += came - (self._held - held)

    def _wait(self, place: int, data: bytes) -> None:
        if data:
            self._waiting[place] = data
            self._held += len(data)

    def _take(self) -> bytes:
        """The bytes that are next."""
        pieces = []
        while self.next in self._waiting:
            pieces.append(self._waiting.pop(self.next))
            self._held -= len(pieces[-1])
            self.next += len(pieces[-1])
        if self._held > WAITING_LIMIT:
            self.lost = True
        return b"".join(pieces)


@dataclasses.dataclass
class Connection:
    """A TCP connection."""

    number: int
    opened: Optional[Address]  # who opened it; None where that wasn't captured
    directions: Dict[Address, Direction]
    began: int
    reset: bool = False

    @property
    def ended(self) -> bool:
        """Whether nothing more comes."""
        return self.reset or all(it.ended for it in self.directions.values())

    def other(self, end: Address) -> Address:
        """The other end."""
        one, two = self.directions
        return two if end == one else one


class Piece(NamedTuple):
    """The next bytes of a sender on a connection; none where the sender has ended its stream, or
    the connection is reset."""

    time: int
    connection: Connection
    sender: Address
    data: bytes


class Connections:
    """The connections of a capture."""

    def __init__(self) -> None:
        self.all: Dict[FrozenSet[Address], Connection] = {}
        self._count = 0

    def read(self, segments: Iterable[Segment]) -> Iterator[Piece]:
        """The bytes of all connections, as they can be given."""
        for segment in segments:
            connection = self._connection(segment)
            if connection is not None and not connection.ended:
                yield from self._pieces(connection, segment)

    def _connection(self, segment: Segment) -> Optional[Connection]:
        """The connection that a segment belongs to; none where it begins none."""
        ends = frozenset((segment.source, segment.target))
        known = self.all.get(ends)
        opens = segment.flags & SYN and segment.acknowledged is None
        if known is not None and not (opens and self._is_new(known, segment)):
            return known
        if len(ends) < 2 or not (opens or segment.flags & SYN or segment.data):
            return None
        opened = segment.source if opens else segment.target if segment.flags & SYN else None
        self._count += 1
        self.all[ends] = Connection(self._count, opened,
                                    {it: Direction() for it in (segment.source, segment.target)},
                                    segment.time)
        return self.all[ends]

    def _is_new(self, known: Connection, segment: Segment) -> bool:
        """Whether an opening segment opens another connection than the one that is known."""
        first = known.directions[segment.source].first
        return known.ended or first is not None and first != (segment.number + 1) & 0xFFFFFFFF

    def _pieces(self, connection: Connection, segment: Segment) -> Iterator[Piece]:
        """What a segment brings."""
        sender = connection.directions[segment.source]
        had_ended = sender.ended
        data = sender.add(segment)
        if segment.acknowledged is not None:
            connection.directions[segment.target].acknowledge(segment.acknowledged)
        connection.reset = bool(segment.flags & RST)
        if data:
            yield Piece(segment.time, connection, segment.source, data)
        if sender.ended and not had_ended or connection.reset:
            yield Piece(segment.time, connection, segment.source, b"")
