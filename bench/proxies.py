#!/usr/bin/env python3
"""Measures the processor time of proxies before a MySQL server: a statement, a row, a login.

    proxies.py NAME:PORT:PID .. [--tls] [--rounds N] [--statements N] [--rows N] [--logins N]

At each PORT a proxy listens whose process is PID, with its threads and without its children. All stand
before the same server, whose user (tester, without a password) may read. In each round all proxies
take turns. Four clients send `SELECT 1`, one behind the other's reply; then one reads a result of four
columns; then some log in and quit. With --tls the clients use it. It prints of each proxy the least
microseconds of processor time a statement, a row and a login over all rounds. A PID of 0 is for none:
the server itself, of which the time by the clock is printed.

The machine has to be quiet. How each proxy was begun stands beside the figures in
docs/BENCHMARKS_CONNECTIONS.md.
"""

import argparse
import os
import socket
import ssl
import struct
import sys
import time

CLIENTS = 4
PROTOCOL_41, SSL, SECURE, PLUGIN, DEPRECATE_EOF = 0x200, 0x800, 0x8000, 0x80000, 0x1000000
BITS = PROTOCOL_41 | SECURE | PLUGIN
# Ten times ten .. numbers, of which each is a row.
TEN = "(SELECT 0 n" + "".join(f" UNION ALL SELECT {it}" for it in range(1, 10)) + ")"
ROWS = ("SELECT a.n + 10 * b.n, 'a text', 'another text', 2.5 FROM "
        + ", ".join(f"{TEN} {it}" for it in "abcdef") + " LIMIT %d")


class Client:
    """A client that reads packets and throws them away."""

    def __init__(self, port, user, tls):
        self.stream, self.read = socket.create_connection(("127.0.0.1", port)), b""
        self.stream.setsockopt(socket.IPPROTO_TCP, socket.TCP_NODELAY, 1)
        self.packet()
        front = struct.pack("<IIB", BITS | SSL * tls, 1 << 24, 45) + bytes(23)
        number = 1
        if tls:
            self.stream.sendall(b"\x20\0\0\x01" + front)
            context = ssl.SSLContext(ssl.PROTOCOL_TLS_CLIENT)
            context.check_hostname, context.verify_mode = False, ssl.CERT_NONE
            self.stream, number = context.wrap_socket(self.stream), 2
        login = front + user.encode() + b"\0\0caching_sha2_password\0"
        self.stream.sendall(len(login).to_bytes(3, "little") + bytes([number]) + login)
        answer = self.packet()
        if answer[:1] == b"\xfe":
            self.stream.sendall(b"\0\0\0" + bytes([number + 2]))
            answer = self.packet()
        if answer[:1] != b"\0":
            raise SystemExit(f"port {port}: {answer!r:.200}")

    def packet(self):
        """Returns the next payload."""
        while len(self.read) < 4 or len(self.read) < 4 + int.from_bytes(self.read[:3], "little"):
            piece = self.stream.recv(1 << 18)
            if not piece:
                raise SystemExit("the connection has ended")
            self.read += piece
        end = 4 + int.from_bytes(self.read[:3], "little")
        payload, self.read = self.read[4:end], self.read[end:]
        return payload

    def ask(self, text):
        """Asks a query that has rows, and reads its reply up to the packet that ends it."""
        self.stream.sendall((len(text) + 1).to_bytes(3, "little") + b"\0\x03" + text)
        ends = 0
        # Two packets of this form end columns and rows; no other packet of these results is so short.
        while ends < 2:
            if len(self.read) < 9:
                self.read += self.stream.recv(1 << 18)
                continue
            ends += self.pass_by()

    def pass_by(self):
        """Passes by all packets that are whole, and returns how many were ends."""
        at, ends, read = 0, 0, self.read
        while at + 4 <= len(read):
            length = read[at] | read[at + 1] << 8 | read[at + 2] << 16
            if at + 4 + length > len(read):
                break
            ends += length == 5 and read[at + 4] == 0xFE
            if length and read[at + 4] == 0xFF:
                raise SystemExit(f"an error: {read[at + 4:at + 200]!r}")
            at += 4 + length
        self.read = read[at:]
        if not at:
            self.read += self.stream.recv(1 << 18)
        return ends

    def quit(self):
        """Ends the connection."""
        self.stream.sendall(b"\1\0\0\0\x01")
        self.stream.close()


def seconds(process):
    """Returns the processor time of a process, or the clock's where there is none."""
    if not process:
        return time.monotonic()
    with open(f"/proc/{process}/stat", encoding="utf-8") as file:
        fields = file.read().rpartition(")")[2].split()
    return sum(map(int, fields[11:13])) / os.sysconf("SC_CLK_TCK")


def side_by_side(work):
    """Has so many processes work at once."""
    running = []
    for _ in range(CLIENTS):
        child = os.fork()
        if not child:
            work()
            os._exit(0)
        running.append(child)
    if any(os.waitpid(it, 0)[1] for it in running):
        raise SystemExit("a client has failed")


def say_many(port, user, tls, count):
    """Sends so many statements."""
    client = Client(port, user, tls)
    for _ in range(count):
        client.ask(b"SELECT 1")
    client.quit()


def log_in(port, user, tls, count):
    """Logs in so often."""
    for _ in range(count):
        Client(port, user, tls).quit()


def read_rows(port, user, tls, count):
    """Reads a result of so many rows."""
    client = Client(port, user, tls)
    client.ask((ROWS % count).encode())
    client.quit()


def measured(process, count, work):
    """Returns the microseconds that each of so many takes."""
    before = seconds(process)
    work()
    time.sleep(0.05 if process else 0)  # (what the proxy has left to do)
    return 1e6 * (seconds(process) - before) / count


def main():
    parser = argparse.ArgumentParser(description=__doc__,
                                     formatter_class=argparse.RawDescriptionHelpFormatter)
    parser.add_argument("proxies", nargs="+")
    parser.add_argument("--tls", action="store_true")
    parser.add_argument("--user", default="tester")
    for name, count in (("rounds", 5), ("statements", 10000), ("rows", 300000), ("logins", 200)):
        parser.add_argument(f"--{name}", type=int, default=count)
    words = parser.parse_args()
    proxies = [(name, int(port), int(process)) for name, port, process in
               (it.split(":") for it in words.proxies)]
    user, tls, least = words.user, words.tls, {}
    for _ in range(words.rounds):
        for name, port, process in proxies:
            each = max(1, words.statements // CLIENTS)
            found = [measured(process, each * CLIENTS,
                              lambda: side_by_side(lambda: say_many(port, user, tls, each))),
                     measured(process, words.rows, lambda: read_rows(port, user, tls, words.rows)),
                     measured(process, words.logins, lambda: log_in(port, user, tls, words.logins))]
            least[name] = [min(it) for it in zip(found, least.get(name, found))]
    print(f"{'':20} {'statement':>10} {'row':>10} {'login':>10}  us, {'TLS' if tls else 'plain'}")
    for name, found in least.items():
        print(f"{name:20}" + "".join(f" {it:10.2f}" for it in found))
    return 0


if __name__ == "__main__":
    sys.exit(main())
