"""What the tests of bindings/audit share: the program before a server of our own, and clients that
are logged in."""

import contextlib
import json
import os
import pathlib
import socket
import subprocess
import tempfile
import time

import recorded
from recorded import SECONDS, check

OK = b"\0\0\0\x02\0\0\0"
ERROR = b"\xff\x7a\x04#42S02no such table"
COLUMN = b"\x03def\0\0\0\x04name\0\x0c\x2d\0\xff\0\0\0\xfd\0\0\0\0\0"
EOF = b"\xfe\0\0\x02\0"
# Both sides know PROTOCOL_41, SECURE_CONNECTION and CONNECT_WITH_DB; the server more.
CAPABILITIES = 0x8208
OFFERED = CAPABILITIES | 0x0820  # (and compression and TLS)
TRACKING = CAPABILITIES | 0x800000  # (and changes of the session)


def packet(number, payload):
    """Returns a payload as a packet of this number."""
    return len(payload).to_bytes(3, "little") + bytes([number]) + payload


def greeting(capabilities=CAPABILITIES):
    """Returns a server's greeting."""
    low, high = (capabilities.to_bytes(4, "little")[at:at + 2] for at in (0, 2))
    return packet(0, b"\x0a5.5.5\0\x07\0\0\x0012345678\0" + low + b"\x21\x02\0" + high + b"\x15"
                  + bytes(10) + b"123456789012\0")


def login(user, database, capabilities=CAPABILITIES):
    """Returns a client's login."""
    return packet(1, capabilities.to_bytes(4, "little") + b"\0\0\0\x01\x21" + bytes(23)
                  + user.encode() + b"\0\0" + database.encode() + b"\0")


def query(text):
    """Returns a query."""
    return packet(0, b"\x03" + text.encode())


def receive(stream, count):
    """Returns so many bytes of a socket, or those before its end."""
    got = bytearray()
    with contextlib.suppress(ConnectionResetError):
        while len(got) < count:
            piece = stream.recv(min(count - len(got), 1 << 20))
            if not piece:
                break
            got += piece
    return bytes(got)


class Program(recorded.Proxy):
    """The program, before a server of our own."""

    def __init__(self, executable, *options, upstream=None, **how):
        self.listener = socket.create_server(("127.0.0.1", 0), backlog=100)
        self.listener.settimeout(SECONDS)
        upstream = upstream or f"127.0.0.1:{self.listener.getsockname()[1]}"
        self.process = subprocess.Popen(
            [executable, "127.0.0.1:0", upstream, "--json", "--grace", "30", "--threads", "2",
             *options], stdout=subprocess.PIPE, stderr=subprocess.PIPE, text=True, **how)
        self.first = line = self.process.stderr.readline()
        self.before = ""
        while "listening at" not in line:
            self.before += line
            check(None, self.process.poll(), "the status at the start")
            line = self.process.stderr.readline()
        self.port = int(line.rpartition(":")[2])

    def __exit__(self, *whatever):
        self.process.stdout.close()
        super().__exit__(*whatever)
        self.process.stderr.close()

    def stop(self, status=0):
        """Sends a TERM, and waits for the end."""
        self.process.terminate()
        check(status, self.process.wait(SECONDS), "the status")

    def printed(self):
        """Returns all lines that were printed, once the program has ended."""
        return [json.loads(it) for it in self.process.stdout.read().splitlines()]

    def said(self):
        """Returns all that was said on standard error, once the program has ended."""
        return self.process.stderr.read()

    def hears(self, wanted):
        """Reads standard error to a line with these words, and returns it."""
        line = self.process.stderr.readline()
        while wanted not in line:
            check(False, line == "", f"the end of what is said, before: {wanted}")
            line = self.process.stderr.readline()
        return line.rstrip("\n")

    def signal(self, number, wanted):
        """Sends a signal, and waits for what is said of it."""
        self.process.send_signal(number)
        return self.hears(wanted)

    def memory(self):
        """Returns how many bytes of memory it has."""
        status = pathlib.Path(f"/proc/{self.process.pid}/status").read_text()
        return 1024 * int(status.partition("VmRSS:")[2].split()[0])

    def seconds(self):
        """Returns how many seconds of processor time it took."""
        fields = pathlib.Path(f"/proc/{self.process.pid}/stat").read_text().rpartition(")")[2]
        return sum(map(int, fields.split()[11:13])) / os.sysconf("SC_CLK_TCK")


class Pair:
    """A client and its server, between which the program is, logged in."""

    def __init__(self, proxy, user="ann", database="shop", logs_in=True, says=b"", hears=0):
        """Before all else the client says some bytes, and the server hears so many."""
        self.client = proxy.ask()
        self.client.sendall(says)
        self.server, _ = proxy.listener.accept()
        self.server.settimeout(SECONDS)
        self.heard = receive(self.server, hears)
        for it in (self.client, self.server):
            it.setsockopt(socket.IPPROTO_TCP, socket.TCP_NODELAY, 1)
        if logs_in:
            self.greets()
            said = login(user, database)
            self.client.sendall(said)
            receive(self.server, len(said))
            self.answer(packet(2, OK))

    def greets(self):
        """The server greets."""
        self.answer(greeting())

    def answer(self, reply):
        """The server says something, which the client gets."""
        self.server.sendall(reply)
        check(reply, receive(self.client, len(reply)), "what the client gets")

    def ask(self, text):
        """The client asks something, which the server gets."""
        asked = query(text)
        self.client.sendall(asked)
        check(asked, receive(self.server, len(asked)), "what the server gets")

    def say(self, text, reply=OK):
        """The client asks something, and the server answers."""
        self.ask(text)
        self.answer(packet(1, reply))

    def is_over(self):
        """Returns whether both are told of an end."""
        return receive(self.client, 1) == receive(self.server, 1) == b""

    def close(self):
        """Closes both ends."""
        self.client.close()
        self.server.close()


@contextlib.contextmanager
def log_file():
    """Yields a file for a log, in a folder that goes with it."""
    with tempfile.TemporaryDirectory(prefix="mysql-audit-") as folder:
        yield pathlib.Path(folder, "log")


def lines_of(text):
    """Returns the objects of lines."""
    return [json.loads(it) for it in text.splitlines()]


def wait_for(what, why):
    """Waits until something holds."""
    latest = time.monotonic() + SECONDS
    while not what():
        if time.monotonic() > latest:
            raise ValueError(f"it didn't come to this: {why}")
        time.sleep(0.01)
