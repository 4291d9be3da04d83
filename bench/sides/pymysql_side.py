"""The same work by PyMySQL, over a socket that reads from memory and keeps nothing: INPUTS ROUNDS WORKLOAD.. Sets are sent a tenth of the times."""
import io
import os
import struct
import sys
import time

from pymysql.connections import Connection, MySQLResult
from pymysql.constants import COMMAND

FOLDER, ROUNDS = sys.argv[1], int(sys.argv[2])
WIDTH = 4
ROWS = 1_000_000


class Nowhere:
    written = 0

    def settimeout(self, _):
        pass

    def sendall(self, data):
        self.written += len(data)

    def close(self):
        pass


def load(name):
    with open(os.path.join(FOLDER, name), "rb") as file:
        return file.read()


def value_at(data, at):
    kind, at = data[at], at + 1
    if kind == 8:
        return struct.unpack_from("<q", data, at)[0], at + 8
    if kind != 253:
        return None, at
    size, at = (data[at], at + 1) if data[at] < 251 else (data[at + 1] | data[at + 2] << 8, at + 3)
    return data[at : at + size].decode(), at + size


def load_sets(name, count):
    data, at, every = load(name), 0, []
    for _ in range(count):
        values = []
        for _ in range(WIDTH):
            value, at = value_at(data, at)
            values.append(value)
        every.append(tuple(values))
    return every


def connected(reply=b""):
    it = Connection(defer_connect=True, charset="utf8mb4", use_unicode=True)
    it._sock, it._rfile = Nowhere(), io.BufferedReader(io.BytesIO(reply), 65536)
    it.server_status, it._next_seq_id = 2, 1
    return it


def measure(what, units, run):
    for _ in range(ROUNDS):
        wall, processor = time.monotonic(), time.process_time()
        check = run()
        processor, wall = time.process_time() - processor, time.monotonic() - wall
        print(what, "PyMySQL", "%.4f %.4f" % (wall * 1e9 / units, processor * 1e9 / units), check, flush=True)


def send(every, query, times):
    it = connected()
    cursor = it.cursor()
    for _ in range(times):
        it._sock.written = 0
        for values in every:
            it._execute_command(COMMAND.COM_QUERY, cursor.mogrify(query, values).encode())
    return it._sock.written


def reply(data):
    result = MySQLResult(connected(data))
    result.read()
    return len(result.rows)


def run(what):
    if what == "reply-text":
        data = load("reply-text")
        measure(what, ROWS, lambda: reply(data))
    for line in load("works").decode().splitlines():
        name, _, query, sets, count, times = line.split()
        if name == what:
            every, times = load_sets(sets, int(count)), (int(times) + 9) // 10
            text = load(query).decode().replace("?", "%s")
            measure(what, len(every) * times, lambda: send(every, text, times))


for each in sys.argv[3:]:
    run(each)
