"""Ways in which a client might pass bindings/audit unseen: each has its lines, or doesn't pass."""

import contextlib
import socket
import struct
import threading
import time

from audit_support import CAPABILITIES, COLUMN, EOF, OK, Pair, Program, greeting, lines_of, \
    log_file, login, packet, query, receive
from recorded import SECONDS, check

COMPRESS, ZSTD = 0x20, 0x4000000


def reset(stream):
    """Ends a socket by a reset."""
    stream.setsockopt(socket.SOL_SOCKET, socket.SO_LINGER, struct.pack("ii", 1, 0))
    stream.close()


def check_pipelined(executable):
    """Commands that were sent ahead have lines, also where the client goes by a reset, or the server
    doesn't answer."""
    asked = [query(f"INSERT INTO goods VALUES ({it})") for it in range(20)]
    for answers in (20, 3, 0):
        with Program(executable) as proxy:
            pair = Pair(proxy)
            pair.client.sendall(b"".join(asked))
            check(True, b"".join(asked) == receive(pair.server, sum(map(len, asked))), "what passes")
            reset(pair.client)
            for _ in range(answers):
                pair.server.sendall(packet(1, OK))
                time.sleep(0.001)
            pair.server.close()
            time.sleep(0.1)
            proxy.stop()
            told = [it for it in proxy.printed() if it["kind"] == "query"]
            check([it[5:].decode() for it in asked], [it["text"] for it in told], "what is told")
            check([True] * answers + [False] * (20 - answers), [it["whole"] for it in told],
                  "whether it was answered")


def check_behind(executable):
    """Commands that were sent ahead have lines, also where they aren't taken to be read yet. They may
    come behind what can't be read, or behind the pieces of a file."""
    long = query("SELECT '" + "x" * 2000 + "'")
    asked = [query("SELECT 1"), long, query("DELETE FROM goods"), query("DROP TABLE goods")]
    file = [query("LOAD DATA LOCAL INFILE 'a' INTO TABLE goods"), packet(2, b"1\n"), packet(3, b"")]
    wrong = [query("SELECT 1"), query("SELECT 2"), query("DROP TABLE goods")]
    for said, options, answer in ((asked, ["--longest", "1000"], b""), (file + wrong, [], b""),
                                  (wrong, [], packet(9, OK))):
        with Program(executable, *options) as proxy:
            pair = Pair(proxy)
            pair.client.sendall(b"".join(said))
            check(True, b"".join(said) == receive(pair.server, sum(map(len, said))), "what passes")
            pair.server.sendall(answer)
            time.sleep(0.05)
            reset(pair.client)
            pair.server.close()
            time.sleep(0.1)
            proxy.stop()
            told = [(it["text"][:20], it["whole"]) for it in proxy.printed() if it["kind"] == "query"]
            wanted = [(it[5:25].decode(), False) for it in said if it[3] == 0]
            check(wanted, told, "what is told of commands behind others")


def check_executions(executable):
    """An execution that was sent ahead and isn't answered has its statement."""
    with Program(executable) as proxy:
        pair = Pair(proxy)
        pair.client.sendall(packet(0, b"\x16DELETE FROM goods"))
        receive(pair.server, 22)
        pair.answer(packet(1, b"\0\x07\0\0\0\0\0\0\0\0\0\0"))
        execution = packet(0, b"\x17\x07\0\0\0\0\x01\0\0\0")
        pair.client.sendall(3 * execution + packet(0, b"\x0e"))
        receive(pair.server, 3 * len(execution) + 5)
        pair.close()
        proxy.stop()
        told = [(it["kind"], it.get("text"), it["whole"]) for it in proxy.printed()[2:-1]]
        check([("execute", "DELETE FROM goods", False)] * 3 + [("ping", None, False)], told,
              "executions without answers")


def check_ahead(executable):
    """Nothing that is said behind a login passes before the server's OK was read."""
    for options in ([], ["--strict"], ["--plain"]):
        with Program(executable, *options) as proxy:
            pair = Pair(proxy, logs_in=False)
            pair.greets()
            said, more = login("ann", "shop"), query("SELECT 1")
            pair.client.sendall(said + more)
            check(said, receive(pair.server, len(said)), "the login")
            pair.server.settimeout(0.2)
            with contextlib.suppress(TimeoutError):
                check(b"", pair.server.recv(1), "what is said ahead")
            pair.server.settimeout(SECONDS)
            pair.answer(packet(2, OK))
            check(more, receive(pair.server, len(more)), "what was said ahead")
            pair.close()
            proxy.stop()


def check_compression(executable):
    """A client that compresses though nobody offered it is refused in each mode; where the server
    offered it, nothing compressed passes."""
    for options in ([], ["--plain"], ["--strict", "--plain"], ["--plain", "--on-fault", "pass"]):
        for bit in (COMPRESS, ZSTD):
            with Program(executable, *options) as proxy:
                pair = Pair(proxy, logs_in=False)
                # By --plain the client isn't told that the server compresses.
                offered = CAPABILITIES | (COMPRESS if "--plain" in options else 0)
                pair.server.sendall(greeting(offered))
                receive(pair.client, len(greeting()))
                bits = (CAPABILITIES | 0x200 | bit).to_bytes(4, "little")
                pair.client.sendall(packet(1, bits + login("ann", "shop")[8:]) + b"\x07\0\0\0\x09\0\0")
                check(b"\xff\x13\x04#", receive(pair.client, 8)[4:], "who compresses")
                with contextlib.suppress(ConnectionError):
                    check(b"", receive(pair.server, 1), "what passes of one who compresses")
                pair.close()
                proxy.stop()
    with Program(executable) as proxy:
        pair = Pair(proxy, logs_in=False)
        pair.answer(greeting(CAPABILITIES | COMPRESS))
        bits = (CAPABILITIES | 0x200 | COMPRESS).to_bytes(4, "little")
        said = packet(1, bits + login("ann", "shop")[8:])
        pair.client.sendall(said + b"\x07\0\0\0\0\0\0\x03\0\0\0\x03XY")
        check(said, receive(pair.server, len(said)), "a login with compression")
        pair.server.sendall(packet(2, OK))
        with contextlib.suppress(ConnectionError):
            check(b"", receive(pair.server, 1), "what passes behind a login with compression")
        pair.close()
        proxy.stop()
        told = [(it["kind"], it.get("by")) for it in proxy.printed()]
        check([("login", None), ("cut", None), ("end", "proxy")], told, "what is told")


def check_names(executable):
    """A filter takes a login's user as servers read it: without quotes around it."""
    with Program(executable, "--user", "app") as proxy:
        for user in ("app", "'app'", "'app", "apps"):
            pair = Pair(proxy, user=user)
            pair.say(f"SELECT '{user}'")
            pair.close()
        proxy.stop()
        lines = sorted(proxy.printed(), key=lambda it: it["connection"])
        told = [(it["kind"], it["user"]) for it in lines]
        check([(it, "app") for it in ("login", "query", "end")] * 2, told, "lines of a user")


def check_cut_off(executable):
    """Some commands that are cut off are answered by MySQL, and not by MariaDB, which has another bit in
    its greeting. Before a server of MySQL they can't be read any further."""
    for payload in (b"\x19", b"\x19\x01\0\0", b"\x18\x01\0\0\0\0"):
        with Program(executable) as proxy:
            pair = Pair(proxy)
            pair.client.sendall(packet(0, payload))
            receive(pair.server, 4 + len(payload))
            pair.say("SELECT 1")
            pair.close()
            pair = Pair(proxy, logs_in=False)
            pair.answer(greeting(CAPABILITIES | 1))
            said = login("ann", "shop")
            pair.client.sendall(said)
            receive(pair.server, len(said))
            pair.answer(packet(2, OK))
            with contextlib.suppress(ConnectionError):
                pair.client.sendall(packet(0, payload))
                check(b"", receive(pair.client, 1), "what one gets that is cut")
            pair.close()
            proxy.stop()
            lines = [it for it in proxy.printed() if it["kind"] != "unknown"]
            told = [[it["kind"] for it in lines if it["connection"] == number] for number in (1, 2)]
            check([["login", "query", "end"], ["login", "cut", "end"]], told, "what is told")


def check_strict_ends(executable):
    """With `--strict` a server that refuses a statement before it is whole has its error passed on, and
    nothing hangs."""
    error = b"\xff\x81\x04#08S01Got a packet bigger than 'max_allowed_packet' bytes"
    for options in ([], ["--strict"]):
        with log_file() as log, Program(executable, "--log", str(log), *options) as proxy:
            pair = Pair(proxy)
            long = query("SELECT '" + "x" * 15000000 + "'")
            sender = threading.Thread(target=send_all, args=[pair.client, long])
            sender.start()
            receive(pair.server, 100000)
            pair.server.sendall(packet(1, error))
            pair.server.close()
            began = time.monotonic()
            check(packet(1, error), receive(pair.client, len(error) + 5), "the server's error")
            check(True, time.monotonic() - began < 5, "how long it takes")
            sender.join(SECONDS)
            pair.client.close()
            proxy.stop()
            told = lines_of(log.read_text())[1:]
            check([("query", [1153]), ("end", [])], [(it["kind"], [
                result["error"] for result in it.get("results", [])]) for it in told], "the lines")


def check_left(executable):
    """A client that leaves without a word has ended the connection, also where MySQL answers that."""
    gone = b"\xff\x86\x04#08S01Got an error reading communication packets"
    other = b"\xff\xe2\x05#08S01Server shutdown in progress"
    with Program(executable) as proxy:
        for leaves, error in ((True, gone), (False, other), (False, gone)):
            pair = Pair(proxy)
            if leaves:
                pair.client.shutdown(socket.SHUT_WR)
                check(b"", receive(pair.server, 1), "the client's end")
            pair.server.sendall(packet(0, error))
            check(len(error) + 4, len(receive(pair.client, len(error) + 4)), "the last words")
            pair.server.close()
            check(b"", receive(pair.client, 1), "the server's end")
            pair.client.close()
        proxy.stop()
        told = [(it["kind"], it.get("by"), it.get("text")) for it in proxy.printed()]
        farewell = [("farewell", None, None), ("end", "server", "farewell")]
        wanted = [("end", "client", "without quit"), *farewell, *farewell]
        check(wanted, [it for it in told if it[0] != "login"], "who ended a connection")


def check_cursor(executable):
    """An execution that opens a cursor is told so, and not as one without rows."""
    with Program(executable) as proxy:
        pair = Pair(proxy)
        pair.client.sendall(packet(0, b"\x16SELECT 1"))
        receive(pair.server, 13)
        pair.answer(packet(1, b"\0\x07\0\0\0\x01\0\0\0\0\0\0") + packet(2, COLUMN) + packet(3, EOF))
        for flags, status in ((1, 0x42), (0, 2)):
            pair.client.sendall(packet(0, b"\x17\x07\0\0\0" + bytes([flags]) + b"\x01\0\0\0"))
            receive(pair.server, 14)
            end = b"\xfe\0\0" + bytes([status, 0])
            rows = [] if flags else [b"\0\0\x01y", EOF]
            reply = [b"\x01", COLUMN, end, *rows]
            pair.answer(b"".join(packet(number + 1, it) for number, it in enumerate(reply)))
        pair.close()
        proxy.stop()
        told = [it["results"] for it in proxy.printed() if it["kind"] == "execute"]
        check([[{"cursor": True}], [{"rows": 1}]], told, "what executions answer")


def check_quit(executable):
    """A client that has quit and doesn't close its socket is over: TERM waits for nothing of it."""
    with Program(executable) as proxy:
        pair = Pair(proxy)
        pair.client.sendall(packet(0, b"\x01"))
        check(packet(0, b"\x01"), receive(pair.server, 5), "a quit")
        pair.server.close()
        check(b"", receive(pair.client, 1), "the server's end")
        began = time.monotonic()
        proxy.stop()
        check(True, time.monotonic() - began < 5, "how long a TERM takes")
        pair.client.close()
        told = [(it["kind"], it.get("by"), it.get("text")) for it in proxy.printed()[1:]]
        check([("end", "client", "quit")], told, "who ended the connection")


def send_all(stream, said):
    """Sends bytes as far as they go."""
    with contextlib.suppress(OSError):
        stream.sendall(said)


def checks():
    """Returns all of them, by their names."""
    return [("commands that were sent ahead", check_pipelined),
            ("commands behind others", check_behind),
            ("executions that were sent ahead", check_executions),
            ("commands behind a login", check_ahead), ("compression that wasn't offered", check_compression),
            ("names in quotes", check_names), ("commands that are cut off", check_cut_off),
            ("an early error", check_strict_ends), ("who has left", check_left),
            ("a cursor", check_cursor), ("a client that has quit", check_quit)]
