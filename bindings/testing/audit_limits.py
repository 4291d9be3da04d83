"""What bindings/audit allows: descriptors, clients, time and memory; and how signals end it."""

import pathlib
import resource
import signal
import socket
import threading
import time

from audit_support import COLUMN, EOF, OK, Pair, Program, greeting, packet, query, receive, wait_for
from recorded import SECONDS, check


# ---- Limits -------------------------------------------------------------------------------------


# How many descriptors the program may open where it is to have too few.
DESCRIPTORS = 24


def limit_descriptors():
    """Lets the process that is to be the program open few files."""
    resource.setrlimit(resource.RLIMIT_NOFILE, (DESCRIPTORS, DESCRIPTORS))


def check_descriptors(executable):
    """Where no descriptor is left clients wait, those that are served go on, and each of the others
    is served once there are some."""
    with Program(executable, "--connections", "1000", "--login-timeout", "600",
                 preexec_fn=limit_descriptors) as proxy:
        check(True, "there are descriptors for" in proxy.first, "what is said of the limit")
        pair = Pair(proxy)
        flood = [proxy.ask() for _ in range(2 * DESCRIPTORS)]
        while "no client can be taken" not in proxy.process.stderr.readline():
            check(None, proxy.process.poll(), "the status of a proxy without descriptors")
        pair.say("SELECT 1")
        for it in flood:
            # It isn't its turn, and goes nowhere.
            it.sendall(b"x")
            it.shutdown(socket.SHUT_WR)
        for _ in flood:
            with proxy.listener.accept()[0] as answering:
                answering.settimeout(SECONDS)
                answering.sendall(greeting())
                check(b"", receive(answering, 1), "what comes of clients that waited")
        for it in flood:
            check(greeting(), receive(it, 1000), "what clients get that waited")
            it.close()
        pair.close()


def check_refused(executable):
    """A client is told where the server can't be reached, and where there are too many."""
    with Program(executable, "--connections", "1") as proxy:
        pair = Pair(proxy)
        with proxy.ask() as other:
            wanted = packet(0, b"\xff\x10\x04Too many connections")
            check(wanted, receive(other, 1000), "what one too many gets")
        pair.close()
        proxy.listener.close()
        wanted = packet(0, b"\xff\xd3\x07the server can't be reached")
        found = b""
        while found != wanted:
            with proxy.ask() as other:
                found = receive(other, 1000)
        proxy.stop()
        refused = [it for it in proxy.printed() if it["kind"] == "refused"]
        check(["too many connections", "the server can't be reached: Connection refused (os error "
               "111)"], [refused[0]["text"], refused[-1]["text"]], "lines of the refused")
        check({"proxy"}, {it["by"] for it in refused}, "who refuses")


def check_timeouts(executable):
    """A login that takes too long is ended, and a connection that says nothing."""
    for option, logs_in, told in (("login", False, "login timeout"), ("idle", True, "idle timeout")):
        with Program(executable, f"--{option}-timeout", "3") as proxy:
            began = time.monotonic()
            pair = Pair(proxy, logs_in=logs_in)
            if not logs_in:
                pair.greets()
            check(True, pair.is_over(), f"the end by a {told}")
            check(True, time.monotonic() - began >= 3, f"when it is over by a {told}")
            proxy.stop()
            end = proxy.printed()[-1]
            check(("end", "proxy", told), (end["kind"], end["by"], end["text"]), "the end")
            pair.close()


def check_held(executable):
    """What is held before a login is little, and what all connections hold has a limit."""
    half = (1 << 23).to_bytes(3, "little") + b"\0"
    with Program(executable, "--held-in-all", "3000000") as proxy:
        pair, other, third = Pair(proxy, logs_in=False), Pair(proxy), Pair(proxy)
        pair.greets()
        for it, front in ((pair, b"\0\0\x80\x01"), (other, half)):
            drains = threading.Thread(target=receive, args=[it.server, 1 << 30])
            drains.start()
            try:
                it.client.sendall(front + b"\x03" + b"x" * (1 << 22))
            except OSError:
                pass
            check(b"", receive(it.client, 1), "what one gets that is cut")
            drains.join(SECONDS)
        third.say("SELECT 1")
        for it in (pair, other, third):
            it.close()
        proxy.stop()
        cut = [it["text"] for it in proxy.printed() if it["kind"] == "cut"]
        check(["a login is too long", "all connections hold too much"], cut, "why they are cut")


def check_buffers(executable):
    """Connections that had long payloads hold them no longer."""
    with Program(executable, "--log", "/dev/null") as proxy:
        pairs, reply = [Pair(proxy) for _ in range(100)], packet(1, b"\x01") + packet(2, COLUMN)
        reply += packet(3, EOF) + packet(4, b"\xfd\0\0\x08" + bytes(1 << 19)) + packet(5, EOF)
        before, asked = proxy.memory(), query("SELECT '" + "x" * (1 << 19) + "'")
        for it in pairs:
            for sends, reads, said in ((it.client, it.server, asked),
                                       (it.server, it.client, reply)):
                sender = threading.Thread(target=sends.sendall, args=[said])
                sender.start()
                check(True, said == receive(reads, len(said)), "long payloads")
                sender.join(SECONDS)
            it.say("SELECT 1")
        each = (proxy.memory() - before) / len(pairs)
        check(True, each < 1 << 18, f"{each:.0f} bytes behind long payloads")
        for it in pairs:
            it.close()


def check_keepalive(executable):
    """TCP looks for peers that are silent."""
    with Program(executable) as proxy:
        pair = Pair(proxy)
        ports = {f"{it:04X}" for it in (proxy.port, pair.server.getpeername()[1])}

        def timers():
            lines = pathlib.Path("/proc/net/tcp").read_text().splitlines()[1:]
            found = [it.split() for it in lines]
            return {it[5][:2] for it in found if it[3] == "01" and it[1][-4:] in ports}

        # While bytes are under way there is another timer.
        wait_for(lambda: timers() == {"02"}, "the timers of TCP's keepalive")
        pair.close()


# ---- Signals ------------------------------------------------------------------------------------


def is_refused(proxy):
    """Returns whether no client is taken."""
    try:
        proxy.ask().close()
        return False
    except ConnectionRefusedError:
        return True


def check_stopped(executable):
    """A TERM ends what says nothing at once, and lets a command and a transaction end."""
    with Program(executable) as proxy:
        idle, runs, opens = Pair(proxy), Pair(proxy), Pair(proxy)
        runs.ask("SELECT SLEEP(1)")
        opens.say("BEGIN", OK[:3] + b"\x03" + OK[4:])
        proxy.process.send_signal(signal.SIGTERM)
        check(True, idle.is_over(), "the end of an idle one")
        check(True, is_refused(proxy), "whether a client is refused behind a TERM")
        runs.answer(packet(1, OK))
        check(True, runs.is_over(), "the end of one that ran")
        opens.say("SELECT 1", OK[:3] + b"\x03" + OK[4:])
        opens.say("COMMIT")
        check(True, opens.is_over(), "the end of a transaction")
        check(0, proxy.process.wait(SECONDS), "the status")
        records = proxy.printed()
        ends = {(it["by"], it["text"]) for it in records if it["kind"] == "end"}
        check({("proxy", "stopped")}, ends, "the ends")
        check([True] * 7, [it["whole"] for it in records if it["kind"] != "end"], "the replies")


def check_grace(executable):
    """What still runs at the end of the grace, or at a second signal, is told as not whole."""
    for grace, signals in (("0.3", 1), ("600", 2)):
        with Program(executable, "--grace", grace) as proxy:
            pair = Pair(proxy)
            pair.ask("SELECT SLEEP(9)")
            for _ in range(signals):
                proxy.process.send_signal(signal.SIGINT)
                wait_for(lambda: is_refused(proxy), "an end of the listener")
            check(True, pair.is_over(), "the end of what still runs")
            check(0, proxy.process.wait(SECONDS), "the status")
            # Those who asked whether they are refused have lines, too.
            records = [it for it in proxy.printed() if it["connection"] == 1]
            check(["login", "query", "end"], [it["kind"] for it in records], "the lines")
            check(False, records[1]["whole"], "what is told of a reply")
            pair.close()


def checks():
    """Returns all of them, by their names."""
    return [("descriptors", check_descriptors), ("clients that are refused", check_refused),
            ("timeouts", check_timeouts), ("what is held", check_held), ("buffers", check_buffers),
            ("keepalive", check_keepalive), ("TERM", check_stopped), ("the grace", check_grace)]
