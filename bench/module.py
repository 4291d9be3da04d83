#!/usr/bin/env python3
"""Measures the module for Python beside MySQLdb and PyMySQL: module.py [ROWS [ROUNDS [WORKLOAD..]]]

Each round runs each side once, so that a busy machine slows all sides alike. It prints a table: the least
and the median of the processor's microseconds (user and system) a row, an event or a set, in this process
alone. By memory the bytes of a reply stand in it. By socket a process of its own sends the same bytes to
each client through a socket of the file system. Each side's rows are compared with what was written. Peers
that this Python hasn't are left out. In the end, or by the workload `dropped`, it prints the memory behind a
run whose rows or events were dropped, and behind ten more."""

import datetime
import decimal
import gc
import io
import os
import signal
import socket
import statistics
import struct
import sys
import tempfile
import time

sys.dont_write_bytecode = True
sys.path.insert(0, os.path.join(os.path.dirname(os.path.dirname(os.path.abspath(__file__))), "bindings", "python"))

import mysql_session as ms  # noqa: E402

try:
    import MySQLdb
except ImportError:
    MySQLdb = None
try:
    import pymysql
    from pymysql import connections, converters
except ImportError:
    pymysql = None

ROWS = int(sys.argv[1]) if len(sys.argv) > 1 else 100000
ROUNDS = int(sys.argv[2]) if len(sys.argv) > 2 else 5
PIECE = 65536
OFFERED = 0xFFFFF & ~0x820  # up to PLUGIN_AUTH, without compression and TLS
CAPABILITIES = 0x200 | 0x2000
OK = b"\0\0\0\2\0\0\0"
Kinds = ms.ColumnType
COLUMNS = {
    "texts": [(b"id", Kinds.LONG), (b"n", Kinds.LONGLONG), (b"name", Kinds.VAR_STRING), (b"text", Kinds.VAR_STRING)],
    "dates": [(b"day", Kinds.DATE), (b"price", Kinds.NEWDECIMAL), (b"x", Kinds.DOUBLE), (b"nothing", Kinds.LONG)],
    "numbers": [(b"a", Kinds.LONG), (b"b", Kinds.LONGLONG), (b"x", Kinds.DOUBLE), (b"y", Kinds.DOUBLE)],
}


def values(form, number):
    """The values of a row."""
    if form == "texts":
        return number, 123456789, "name of the row", "it's a text"
    if form == "numbers":
        return number, -number, number * 0.37, number / 7
    day = datetime.date(2020, 1, 1) + datetime.timedelta(days=number % 2000)
    return day, decimal.Decimal(number) / 100, number * 0.37, None


def text_row(form, row):
    """The payload of a row by text."""
    cells = (b"\xfb" if it is None else str(it).encode() for it in row)
    return b"".join(it if it == b"\xfb" else bytes([len(it)]) + it for it in cells)


def binary_row(form, row):
    """The payload of a row of an execution."""
    nulls, cells = 0, b""
    for place, (it, (_, kind)) in enumerate(zip(row, COLUMNS[form])):
        if it is None:
            nulls |= 1 << (place + 2)
        elif kind == Kinds.LONG:
            cells += struct.pack("<i", it)
        elif kind == Kinds.LONGLONG:
            cells += struct.pack("<q", it)
        elif kind == Kinds.DOUBLE:
            cells += struct.pack("<d", it)
        elif kind == Kinds.DATE:
            cells += b"\4" + struct.pack("<HBB", it.year, it.month, it.day)
        else:
            cells += bytes([len(str(it))]) + str(it).encode()
    return bytes([0, nulls]) + cells


def packet(number, payload):
    """A payload as a packet."""
    return len(payload).to_bytes(3, "little") + bytes([number & 255]) + payload


def reply_of(form, row_of):
    """A reply with all rows, and an EOF packet behind them."""
    payloads = [bytes([len(COLUMNS[form])])]
    for name, kind in COLUMNS[form]:
        charset = 45 if kind == Kinds.VAR_STRING else 63
        payloads.append(b"\3def\1t\1t\1t" + (bytes([len(name)]) + name) * 2 + b"\x0c" + struct.pack(
            "<HIBHBH", charset, 100, kind, 0, 31 if kind == Kinds.DOUBLE else 0, 0))
    payloads.append(b"\xfe\0\0\2\0")
    payloads += (row_of(form, values(form, it)) for it in range(ROWS))
    payloads.append(b"\xfe\0\0\2\0")
    return b"".join(packet(number + 1, it) for number, it in enumerate(payloads))


def prepared_of(reply):
    """The answer to the prepare of a statement without parameters, whose executions have this reply."""
    at = 5
    for _ in range(reply[4] + 1):
        at += 4 + int.from_bytes(reply[at:at + 3], "little")
    return packet(1, struct.pack("<BIHHBH", 0, 1, reply[4], 0, 0, 0)) + reply[5:at]


def pieces_of(data):
    return (data[at:at + PIECE] for at in range(0, len(data), PIECE))


# ---- A server that sends what it is told to ------------------------------------------------------


def payload_from(stream):
    """The payload of a client's packet; nothing where it has gone."""
    head = stream.read(4)
    return stream.read(int.from_bytes(head[:3], "little")) if len(head) == 4 else b""


def serve(listening, replies):
    """Answers each client: a query that is a reply's name by that reply, an execution by that of the prepare before it, all else by an OK packet."""
    while True:
        client, _ = listening.accept()
        with client, client.makefile("rb") as stream:
            client.sendall(packet(0, ms.put_greeting(7, "8.0.30", OFFERED, b"12345678", b"123456789012")))
            payload_from(stream)
            client.sendall(packet(2, OK))
            while (command := payload_from(stream)) and command[0] != 1:
                if command[0] != 0x17:
                    reply = replies.get(command[1:], packet(1, OK))
                client.sendall(prepared_of(reply) if command[0] == 0x16 else reply)


class Server:
    """The server's process."""

    def __init__(self, folder, replies):
        self.path = os.path.join(folder, "socket")
        listening = socket.socket(socket.AF_UNIX)
        listening.bind(self.path)
        listening.listen()
        self.process = os.fork()
        if not self.process:
            try:
                serve(listening, replies)
            finally:
                os._exit(1)
        listening.close()

    def stop(self):
        os.kill(self.process, signal.SIGKILL)
        os.waitpid(self.process, 0)


# ---- The sides ------------------------------------------------------------------------------------


def taken(reply, kind, take):
    """The results of a reply from memory, piece by piece."""
    with ms.ReplyReader(kind, CAPABILITIES) as reader:
        for piece in pieces_of(reply):
            reader.feed(piece)
            yield from take(reader)


def rows_by(reply, take, kind=ms.ReplyKind.QUERY):
    return [row for result in taken(reply, kind, take) for row in result.rows]


def connected():
    connection = ms.Connection.after_login(CAPABILITIES)
    connection.put(ms.Side.CLIENT, ms.Command.query("SELECT .."))
    return connection


def rows_of_events(reply):
    rows = []
    with connected() as connection:
        for piece in pieces_of(reply):
            rows += [it.cells for it in connection.feed(ms.Side.SERVER, piece) if type(it) is ms.RowEvent]
    return rows


def rows_of_connection(reply):
    rows = []
    with connected() as connection:
        for piece in pieces_of(reply):
            connection.feed(ms.Side.SERVER, piece)
            while not (found := connection.take_rows(ms.Values())) and connection.next_event():
                pass
            rows += found
    return rows


def rows_of_pymysql(reply):
    it = connections.Connection(defer_connect=True, charset="utf8mb4")
    it._sock, it._rfile = io.BytesIO(), io.BufferedReader(io.BytesIO(reply), PIECE)
    it._sock.settimeout = lambda _: None
    it.server_status, it._next_seq_id = 2, 1
    result = connections.MySQLResult(it)
    result.read()
    it._sock = None
    return result.rows


def rows_of_client(connect, path, name):
    """Rows of a client over the socket."""
    with_it = connect(unix_socket=path, user="u", passwd="", charset="utf8mb4")
    cursor = with_it.cursor()
    cursor.execute(name)
    rows = cursor.fetchall()
    with_it.close()
    return rows


def rows_over_socket(path, name, kind=ms.ReplyKind.QUERY):
    """Rows of the module over the same socket."""
    with socket.socket(socket.AF_UNIX) as it, ms.ReplyReader(kind, CAPABILITIES) as reader:
        it.connect(path)
        it.recv(PIECE)
        it.sendall(packet(1, ms.put_login("u", CAPABILITIES, b"")))
        it.recv(PIECE)
        it.sendall(packet(0, b"\3" + name.encode()))
        rows, ended = [], False
        while not ended:
            reader.feed(it.recv(PIECE))
            for result in reader.take_values():
                rows += result.rows
                ended = result.ended
        return rows


def rows_through_connection(path, name, binary):
    """Rows of a connection that puts a query, or a prepare and an execution, and is fed what the socket brings."""
    rows, execution = [], ms.Command.execute(1)
    with socket.socket(socket.AF_UNIX) as it, ms.Connection.after_login(CAPABILITIES) as connection:
        it.connect(path)
        it.recv(PIECE)
        it.sendall(packet(1, ms.put_login("u", CAPABILITIES, b"")))
        it.recv(PIECE)
        for command in (ms.Command.prepare(name), execution) if binary else (ms.Command.query(name),):
            it.sendall(connection.put(ms.Side.CLIENT, command).packets)
            while connection.turn == ms.Side.SERVER:
                connection.feed(ms.Side.SERVER, it.recv(PIECE))
                while (found := connection.take_rows(ms.Values())) or connection.next_event():
                    rows += found
        return rows


def pings():
    ping, ok = packet(0, b"\x0e"), packet(1, OK)
    with ms.Connection.after_login(CAPABILITIES) as connection:
        for _ in range(ROWS // 2):
            for side, data in ((ms.Side.CLIENT, ping), (ms.Side.SERVER, ok)):
                for _ in connection.feed(side, data):
                    pass


def sets_of_pymysql(query, sets):
    it = connections.Connection(defer_connect=True, charset="utf8mb4")
    it.server_status = 2
    cursor, text = it.cursor(), query.replace("?", "%s")
    for values_of in sets:
        data = cursor.mogrify(text, values_of).encode()
        packet(0, b"\3" + data)


# ---- The run --------------------------------------------------------------------------------------


def workloads(path, replies):
    """Of each workload its sides: a name and what to call; and the rows that it has to give."""
    query = "INSERT INTO t VALUES (?, ?, ?, ?)"
    sets = [values("texts", it) for it in range(ROWS)]
    for form in ("texts", "dates"):
        name, text, binary = form + " text", replies[form + " text"], replies[form + " binary"]
        wanted = [values(form, it) for it in range(ROWS)]
        sides = {"module, cells": (lambda: rows_by(text, ms.ReplyReader.take), None),
                 "module, values": (lambda: rows_by(text, ms.ReplyReader.take_values), wanted),
                 "module, events": (lambda: rows_of_events(text), None),
                 "module, rows of a connection": (lambda: rows_of_connection(text), wanted),
                 "module, a table": (lambda: list(taken(text, ms.ReplyKind.QUERY, ms.ReplyReader.take_tables)), None)}
        if pymysql:
            sides["PyMySQL"] = lambda: rows_of_pymysql(text), wanted
        yield name + ", memory", sides
        kind = ms.ReplyKind.EXECUTE
        sides = {"module, values": (lambda: rows_by(binary, ms.ReplyReader.take_values, kind), wanted),
                 "module, a table": (lambda: list(taken(binary, kind, ms.ReplyReader.take_tables)), None)}
        yield form + " binary, memory", sides
        sides = {"module, values": (lambda: rows_over_socket(path, name), wanted),
                 "module, values, binary": (lambda: rows_over_socket(path, form + " binary", kind), wanted),
                 "module, rows of a connection": (lambda: rows_through_connection(path, name, False), wanted),
                 "module, rows of a connection, binary": (lambda: rows_through_connection(path, form + " binary", True), wanted)}
        if MySQLdb:
            sides["MySQLdb"] = lambda: rows_of_client(MySQLdb.connect, path, name), wanted
        if pymysql:
            sides["PyMySQL"] = lambda: rows_of_client(pymysql.connect, path, name), wanted
        yield name + ", socket", sides
    reply = replies["numbers text"]
    sides = {"module, a table": (lambda: list(taken(reply, ms.ReplyKind.QUERY, ms.ReplyReader.take_tables)), None),
             "module, values": (lambda: rows_by(reply, ms.ReplyReader.take_values), None)}
    if pymysql:
        sides["PyMySQL"] = lambda: rows_of_pymysql(reply), None
    yield "numbers text, memory", sides
    yield "a ping or its OK", {"module, events": (pings, None)}
    sides = {f"module, {road.name.lower()}": (lambda road=road: ms.send(query, sets, road), None) for road in ms.Road}
    if pymysql:
        sides["PyMySQL"] = lambda: sets_of_pymysql(query, sets), None
    yield "sets", sides


def resident():
    """Kilobytes of memory that this process has."""
    with open("/proc/self/statm", encoding="ascii") as file:
        return int(file.read().split()[1]) * os.sysconf("SC_PAGESIZE") // 1024


def rows_dropped(reply):
    """Reads a reply whose rows are taken by a connection, and let go piece by piece."""
    with connected() as connection:
        for piece in pieces_of(reply):
            connection.feed(ms.Side.SERVER, piece)
            while connection.take_rows(ms.Values()) or connection.next_event():
                pass


def print_memory(reply):
    """Memory behind one reply, and behind ten more of them."""
    runs = {"rows that are taken and dropped": lambda: rows_dropped(reply), "pings and their OKs": pings}
    print("\n| memory | kilobytes behind a run | behind ten more |\n|---|---|---|")
    for name, run in runs.items():
        run()
        gc.collect()
        before = resident()
        for _ in range(10):
            run()
        gc.collect()
        print(f"| {name} | {before} | {resident()} |", flush=True)


def timed(run, wanted):
    """Microseconds of a run's processor a row."""
    gc.collect()
    began = time.process_time()
    found = run()
    spent = time.process_time() - began
    if wanted is not None and list(found) != wanted:
        raise SystemExit(f"other rows: {found[:1]} in place of {wanted[:1]}")
    return spent * 1e6 / ROWS


def main():
    replies = {form + " text": reply_of(form, text_row) for form in COLUMNS}
    replies.update({form + " binary": reply_of(form, binary_row) for form in ("texts", "dates")})
    chosen = sys.argv[3:]
    print("| workload | side | least | median |\n|---|---|---|---|")
    with tempfile.TemporaryDirectory() as folder:
        server = Server(folder, {name.encode(): reply for name, reply in replies.items()})
        try:
            for name, sides in workloads(server.path, replies):
                if chosen and not any(it in name for it in chosen):
                    continue
                found = {side: [] for side in sides}
                for _ in range(ROUNDS):
                    for side, how in sides.items():
                        found[side].append(timed(*how))
                for side, times in found.items():
                    print(f"| {name} | {side} | {min(times):.2f} | {statistics.median(times):.2f} |", flush=True)
            if not chosen or "dropped" in chosen:
                print_memory(replies["texts text"])
        finally:
            server.stop()


if __name__ == "__main__":
    main()
