"""The PROXY protocol of bindings/audit: from a balancer, and towards the server."""

import socket
import struct

from audit_support import Pair, Program, receive, wait_for
from recorded import check

BINARY = b"\r\n\r\n\0\r\nQUIT\n"
TEXT = b"PROXY TCP4 203.0.113.9 198.51.100.1 5555 3306\r\n"
FROM, TO = ("203.0.113.9", 5555), ("198.51.100.1", 3306)


def binary(source, target, more=b"", command=0x21):
    """Returns a header of version 2 for addresses of IPv4, with extensions behind them."""
    addresses = socket.inet_aton(source[0]) + socket.inet_aton(target[0])
    rest = addresses + struct.pack(">HH", source[1], target[1]) + more
    return BINARY + bytes([command, 0x11]) + struct.pack(">H", len(rest)) + rest


def binary_of_6(source, target):
    """Returns a header of version 2 for addresses of IPv6."""
    addresses = b"".join(socket.inet_pton(socket.AF_INET6, it[0]) for it in (source, target))
    rest = addresses + struct.pack(">HH", source[1], target[1])
    return BINARY + b"\x21\x21" + struct.pack(">H", len(rest)) + rest


def check_balancer(executable):
    """What a balancer says of a client is told, and said to the server in either version."""
    six = (("2001:db8::9", 1), ("2001:db8::1", 2))
    said_of_6 = b"PROXY TCP6 2001:db8::9 2001:db8::1 1 2\r\n"
    for version, heard, heard_of_6 in (("v1", TEXT, said_of_6),
                                       ("v2", binary(FROM, TO), binary_of_6(*six))):
        with Program(executable, "--proxy-from", "127.0.0.0/8", "--proxy-to", version) as proxy:
            wanted = []
            for says, hears, client in (
                    (TEXT, heard, "203.0.113.9:5555"),
                    (binary(FROM, TO, b"\x04\0\x02hi"), heard, "203.0.113.9:5555"),
                    (said_of_6, heard_of_6, "[2001:db8::9]:1"),
                    (binary_of_6(*six), heard_of_6, "[2001:db8::9]:1")):
                pair = Pair(proxy, says=says, hears=len(hears))
                check(hears, pair.heard, "what the server hears first")
                pair.say("SELECT 1")
                wanted.append((client, f"127.0.0.1:{pair.client.getsockname()[1]}"))
                pair.close()
            proxy.stop()
            records = proxy.printed()
            logins = [it for it in records if it["kind"] == "login"]
            check(wanted, [(it["client"], it["balancer"]) for it in logins], "addresses that are told")
            sums = [it["traffic"] for it in records if it["kind"] == "query"]
            check([[13, 11]] * 4, sums, "bytes of queries behind a header")


def check_balancer_itself(executable):
    """A balancer that speaks for itself, and one who isn't told to be one, have their own addresses."""
    with Program(executable, "--proxy-from", "127.0.0.1", "--proxy-to", "v2") as proxy:
        for says in (b"PROXY UNKNOWN\r\n", binary(FROM, TO, command=0x20)):
            pair = Pair(proxy, says=says, hears=28)
            own = pair.client.getsockname(), pair.client.getpeername()
            check(binary(*own), pair.heard, "what the server hears of a balancer")
            pair.close()


def check_foreign_header(executable):
    """Who isn't told to be a balancer can't send a header to the server, in any mode."""
    for options in ([], ["--strict"], ["--on-fault", "pass"]):
        with Program(executable, "--proxy-from", "10.0.0.0/8", "--proxy-from", "::1",
                     *options) as proxy:
            for says in (TEXT, binary(FROM, TO)):
                for is_late in (False, True):
                    pair = Pair(proxy, logs_in=False, says=b"" if is_late else says)
                    pair.greets()
                    if is_late:
                        pair.client.sendall(says)
                    # It may have been reset, for what it said isn't read.
                    check(b"", receive(pair.server, 1), "what passes of one who is no balancer")
                    pair.close()
            proxy.stop()
            records = proxy.printed()
            check({"127.0.0.1"}, {it["client"].rpartition(":")[0] for it in records},
                  "whose address is told")
            why = "a header of the PROXY protocol, of one who may not send it"
            check([why] * 4, [it["text"] for it in records if it["kind"] == "cut"], "the cuts")


def check_pieces(executable):
    """A header comes in pieces, and what comes with its end is the client's."""
    with Program(executable, "--proxy-from", "127.0.0.1", "--strict") as proxy:
        for says in (TEXT, binary(FROM, TO)):
            client = proxy.ask()
            client.setsockopt(socket.IPPROTO_TCP, socket.TCP_NODELAY, 1)
            for byte in says[:-1]:
                client.sendall(bytes([byte]))
            client.sendall(says[-1:] + b"hello")
            server, _ = proxy.listener.accept()
            server.settimeout(60)
            # It isn't the client's turn.
            server.sendall(b"\x03\0\0\0\xff\x10\x04")
            check(7, len(receive(client, 7)), "what the client gets")
            client.close()
            server.close()
        proxy.stop()


def check_no_header(executable):
    """Who has no header, or none in time, is refused, and its server isn't asked."""
    front = len(b"\x00\x00\x00\x00\xff\x13\x04")
    with Program(executable, "--proxy-from", "127.0.0.1", "--login-timeout", "2") as proxy:
        for says in (b"GET / HTTP/1.0\r\n\r\n", b"PROXY TCP4 1.1.1.1 2.2.2.2 3\r\n", BINARY + b"\x41",
                     BINARY + b"\x21\x11\xff\xff", b"PROXY UNKNOWN " + b"x" * 200, b"PROXY TC", b""):
            with proxy.ask() as client:
                client.sendall(says)
                said = receive(client, 1000)
                check(b"no header of the PROXY protocol", said[front:], f"what is said to {says}")
        with proxy.ask() as client:
            client.shutdown(socket.SHUT_WR)
            receive(client, 1000)
        proxy.listener.settimeout(0)
        try:
            proxy.listener.accept()
            raise ValueError("the server was asked")
        except BlockingIOError:
            pass
        proxy.stop()
        records = proxy.printed()
        check({("refused", "proxy")}, {(it["kind"], it["by"]) for it in records}, "what is told")
        whys = [it["text"].rpartition(": ")[2] for it in records]
        # A part of a header isn't refused before it is too late.
        check(4, whys.count("it can't be read"), f"how many can't be read: {whys}")
        check((3, 1), (whys.count("login timeout"), whys.count("it has gone")), f"the others: {whys}")


def check_to_server(executable):
    """Without a balancer the server hears the client's own address, and not where it can't be asked."""
    with Program(executable, "--proxy-to", "v1", "--plain") as proxy:
        pair = Pair(proxy, hears=0, logs_in=False)
        source, target = pair.client.getsockname(), pair.client.getpeername()
        wanted = f"PROXY TCP4 {source[0]} {target[0]} {source[1]} {target[1]}\r\n".encode()
        check(wanted, receive(pair.server, len(wanted)), "what the server hears first")
        pair.greets()
        pair.close()
        wait_for(lambda: proxy.process.stdout.readline(), "an end")


def checks():
    """Returns all of them, by their names."""
    return [("a balancer", check_balancer), ("a balancer that speaks for itself", check_balancer_itself),
            ("a header of one who is no balancer", check_foreign_header),
            ("a header in pieces", check_pieces), ("no header", check_no_header),
            ("a header for the server", check_to_server)]
