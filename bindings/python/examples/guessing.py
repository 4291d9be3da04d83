"""The capabilities of a connection whose greeting wasn't captured: those by which what was said fits.

Packets are laid out by a few of them. What was captured is read by each choice of these at once. A
choice that makes a fault of it is left out. It takes a reply with rows to tell most of them, so one
is waited for. An OK packet without a text looks the same by all.
"""

from __future__ import annotations

import itertools
from typing import List, NamedTuple, Optional, Tuple

import mysql_session as ms
from mysql_session import Capability, MariadbCapability, Side

# What each client has, or what says nothing else where it isn't used.
ALWAYS = (Capability.PROTOCOL_41 | Capability.TRANSACTIONS | Capability.SECURE_CONNECTION
          | Capability.PLUGIN_AUTH | Capability.CONNECT_ATTRS)
MARIADB_ALWAYS = MariadbCapability.PROGRESS | MariadbCapability.STMT_BULK_OPERATIONS

# How many bytes are looked at, at most.
ENOUGH = 1 << 20


def choices() -> List[Tuple[int, int]]:
    """The words that are tried, those with more bits first: fewer of these read what isn't theirs."""
    told = (Capability.SESSION_TRACK, Capability.DEPRECATE_EOF)
    mysql = (*told, Capability.QUERY_ATTRIBUTES)
    mariadb = (MariadbCapability.EXTENDED_METADATA, MariadbCapability.CACHE_METADATA)
    found = []
    for bits in itertools.product(*((it, 0) for it in mysql)):
        found.append((ALWAYS | sum(bits), int(MARIADB_ALWAYS)))
    for bits in itertools.product(*((it, 0) for it in told)):
        for own in itertools.product(*((it, 0) for it in mariadb)):
            if any(own):
                found.append((ALWAYS | sum(bits), MARIADB_ALWAYS | sum(own)))
    return sorted(found, key=lambda it: -sum(bin(word).count("1") for word in it))


class Rank(NamedTuple):
    """How badly a choice fits: whether it has a fault, how many events it then told, and how many
    commands are laid out as none."""

    has_fault: bool
    told: int
    others: int


class Choice:
    """A choice, and the connection that is read by it."""

    def __init__(self, words: Tuple[int, int]) -> None:
        self.words, self.has_fault, self.told, self.has_rows = words, False, 0, False
        self._others = 0
        self._machine = ms.Connection.after_login(*words)

    def rank(self) -> Rank:
        """How badly it fits."""
        return Rank(self.has_fault, -self.told if self.has_fault else 0, self._others)

    def feed(self, side: Side, data: bytes) -> None:
        """Takes the next bytes of a side."""
        if self.has_fault:
            return
        try:
            for event in self._machine.feed(side, data):
                is_other = isinstance(event, ms.OtherEvent)
                self.told += not is_other
                self._others += is_other
                self.has_rows |= isinstance(event, ms.RowsEndEvent)
        except ms.MySQLSessionError:
            self.has_fault = True

    def close(self) -> None:
        """Frees the connection."""
        self._machine.close()


class Guess:
    """What is known of the capabilities by what was said so far."""

    def __init__(self) -> None:
        self._choices = [Choice(it) for it in choices()]
        self._looked_at = 0

    def feed(self, side: Side, data: bytes) -> bool:
        """Takes the next bytes of a side; gives whether enough was said."""
        self._looked_at += len(data)
        for choice in self._choices:
            choice.feed(side, data)
        best = self._best()
        return self._looked_at > ENOUGH or best.has_rows or best.has_fault

    def _best(self) -> Choice:
        return min(self._choices, key=Choice.rank)

    def words(self) -> Optional[Tuple[int, int]]:
        """The words that fit best; None where nothing can be read by any."""
        best = self._best()
        return best.words if best.told or not best.has_fault else None

    def close(self) -> None:
        """Frees the connections."""
        for choice in self._choices:
            choice.close()
