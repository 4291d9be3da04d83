"""What inputs make the readers of the module for Python take; `costs` runs it, twice:

    costs_python.py heap|time LESS [WORD]

It reads the rows of `hostile_inputs` whose names have the word, each by its smaller and its greater
input of 2^LESS times fewer items. For each it prints two numbers. By `heap` they are the most bytes
of the heap, by `heap.c` that is loaded before all others, and 1. By `time` they are the nanoseconds of
processor time, and those of the unit: a tuple that is put into a list. Where an input isn't read it
prints the error. Events are let go as they come, but for those of the rows `python kept`.
"""

import ctypes
import gc
import os
import sys
import time

sys.path.insert(0, os.path.join(os.path.dirname(os.path.dirname(os.path.abspath(__file__))),
                                "python"))

import mysql_session as ms  # noqa: E402  (found by the line above)
from hostile_inputs import PYTHON_ROWS, sizes_of  # noqa: E402
from streams import pieces_of  # noqa: E402

PIECE = 65536
LIMIT, HELD = 1 << 24, 1 << 26
FEWEST_RUNS, ENOUGH = 2, 20_000_000
UNIT_TURNS = 20_000


class Unread(Exception):
    """An input isn't read whole."""


# ---- Readers ------------------------------------------------------------------------------------
# Each is told an input, and yields two times. What it does before the first one isn't measured; by
# the second one it gives what it answered.


def pieces(given, number=0):
    """The pieces of one of an input's streams."""
    return pieces_of(given.streams[number], given.words[0] or PIECE)


def read_packets(given):
    """Payloads, taken after each piece or all at the end."""
    yield
    reader, count = ms.PacketReader(0, LIMIT), 0
    for piece in pieces(given):
        reader.feed(piece)
        if given.words[1]:
            count += sum(1 for _ in reader)
    count += sum(1 for _ in reader)
    if count != given.shown:
        raise Unread(count)
    yield reader


def read_commands(given):
    """The sets of a stream of commands."""
    query, front = given.front
    receiver = ms.Receiver(query, 1, LIMIT)
    receiver.feed(front)
    receiver.take()
    yield
    for piece in pieces(given):
        receiver.feed(piece)
    yield receiver, receiver.take()
    if receiver.end().kind != ms.EndKind.WHOLE:
        raise Unread


def results_of(given, take):
    """The results of a reply."""
    _, kind, capabilities, each = given.words
    reader = ms.ReplyReader(ms.ReplyKind(kind), capabilities, 1, LIMIT)
    reader.feed(b"".join(given.front))
    yield
    results = []
    for piece in pieces(given):
        reader.feed(piece)
        if each:
            results = take(reader)
    yield reader, take(reader) or results
    if reader.end().kind != ms.EndKind.WHOLE:
        raise Unread


def read_reply(given):
    """The results of a reply, by their cells."""
    return results_of(given, ms.ReplyReader.take)


def read_values(given):
    """The results of a reply, as values."""
    return results_of(given, ms.ReplyReader.take_values)


def opened(given):
    """A connection that has read what comes before."""
    _, capabilities, mariadb, _ = given.words
    limits = {"client": LIMIT, "server": LIMIT, "held": HELD}
    connection = (ms.Connection.after_login(capabilities, mariadb, **limits) if capabilities else
                  ms.Connection(**limits))
    for side, stream in zip(ms.Side, given.front):
        connection.feed(side, stream)
    for _ in connection:
        pass
    return connection


def events_of(connection, given):
    """The events of both streams, of which each piece is that whose turn it is."""
    left = [iter(pieces(given, side)) for side in ms.Side]
    while connection.turn is not None:
        side = connection.turn
        piece = next(left[side], None)
        if piece is None:
            break
        yield from connection.feed(side, piece)
    if any(next(it, b"") for it in left) or any(connection.rest(it) for it in ms.Side):
        raise Unread


def read_connection(given):
    """The events of a connection, of which the last one is held."""
    connection, event = opened(given), None
    yield
    for event in events_of(connection, given):
        pass
    yield connection, event


def keep_events(given):
    """The events of a connection, all held."""
    connection = opened(given)
    yield
    yield connection, list(events_of(connection, given))


def read_names(given):
    """The names of a query."""
    yield
    yield ms.names_of(given.streams[0])


def bind_names(given):
    """A query with an empty value for each name."""
    names = dict.fromkeys(ms.names_of(given.streams[0]), b"")
    yield
    yield ms.bind_text(given.streams[0], names)


READERS = {"packets": read_packets, "receiver": read_commands, "reply": read_reply,
           "values": read_values, "connection": read_connection, "kept": keep_events,
           "names": read_names, "bind": bind_names}


# ---- Measuring ----------------------------------------------------------------------------------


def heap_of():
    """The counters of `heap.c`."""
    counters = ctypes.CDLL(None)
    for name in ("heap_held", "heap_most"):
        getattr(counters, name).restype = ctypes.c_size_t
    counters.heap_begin.restype = None
    return counters


def most_of(read, given, heap):
    """The most bytes of the heap that a reader takes."""
    reading = read(given)
    next(reading)
    gc.collect()
    heap.heap_begin()
    held = heap.heap_held()
    answer = next(reading)
    most = heap.heap_most() - held
    del answer
    next(reading, None)
    return most


def took(read, given):
    """The nanoseconds that a reader takes."""
    reading = read(given)
    next(reading)
    began = time.process_time_ns()
    answer = next(reading)
    nanoseconds = time.process_time_ns() - began
    del answer
    return nanoseconds


def unit():
    """The least nanoseconds of the unit."""
    least = 1 << 60
    for _ in range(3):
        began, found = time.process_time_ns(), []
        for at in range(UNIT_TURNS):
            found.append((at, None))
        least = min(least, time.process_time_ns() - began)
    return least / UNIT_TURNS


def least_of(read, given):
    """The least nanoseconds of some runs."""
    runs = []
    while len(runs) < FEWEST_RUNS or sum(runs) < ENOUGH:
        runs.append(took(read, given))
    return min(runs)


def measured(read, given, heap):
    """The two numbers of an input."""
    if heap:
        return most_of(read, given, heap), 1
    before = unit()
    return least_of(read, given), min(before, unit())


def main():
    kind, less, word = sys.argv[1], int(sys.argv[2]), "".join(sys.argv[3:4])
    heap = heap_of() if kind == "heap" else None
    for row in PYTHON_ROWS:
        if word not in f"{row.reader}: {row.name}":
            continue
        read = READERS[row.reader.partition(" ")[2]]
        for items in sizes_of(row, less):
            try:
                print(*measured(read, row.make(items), heap), flush=True)
            except Exception as error:  # (whatever it is, the rows behind it are still measured)
                print(f"{error!r:.200}", flush=True)


if __name__ == "__main__":
    main()
