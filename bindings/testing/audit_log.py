"""What becomes of the lines of bindings/audit: its log is full, slow, moved away, packed or
filtered, or is the system's."""

import contextlib
import fcntl
import gzip
import json
import os
import re
import resource
import signal
import socket
import subprocess
import sys
import termios
import threading
import time

from audit_support import ERROR, OK, TRACKING, Pair, Program, greeting, lines_of, log_file, login, \
    packet, query, receive, wait_for
from recorded import check

# How long a file may get where the disk is to be full.
FULL = 20000


def limit_files():
    """Has a file take no more, as on a full disk."""
    resource.setrlimit(resource.RLIMIT_FSIZE, (FULL, FULL))


def texts(records):
    """Returns the texts of queries."""
    return [it["text"] for it in records if it["kind"] == "query"]


def check_full_disk(executable):
    """Clients go on where the disk is full. Once it has room, no line is torn, and those that are
    lost are counted."""
    with log_file() as log, Program(executable, "--log", str(log), preexec_fn=limit_files) as proxy:
        pair, count, parts = Pair(proxy), 400, []
        for number in range(count):
            pair.say(f"SELECT {number}")
        wait_for(lambda: log.stat().st_size == FULL, "a full log")

        def has_last():
            if log.stat().st_size == FULL:
                parts.append(log.read_text())
                os.truncate(log, 0)
            return f'"SELECT {count - 1}"' in "".join(parts) + log.read_text()

        # The log may be behind, and full once more.
        while not has_last():
            pair.say(f"SELECT {count}")
            count += 1
            time.sleep(0.2)
        parts.append(log.read_text())
        os.truncate(log, 0)
        proxy.stop()
        records = lines_of("".join(parts) + log.read_text())
        lost = sum(it["lines"] for it in records if it["kind"] == "lost")
        queries = texts(records)
        check(count, len(queries) + lost, "lines that are written, and those that are lost")
        check(f"SELECT {count - 1}", queries[-1], "the last line")
        check(True, lost > 0, "whether lines were lost")
        said = proxy.said()
        check(True, "the log can't be written: File too large" in said, "what is said of the log")
        told = sum(map(int, re.findall(r"again: (\d+) lines were lost", said)))
        check(lost, told, "what is said of the lines")
        pair.close()


def check_waits(executable, *options):
    """Clients wait where the disk is full, and no line is lost."""
    with log_file() as log, Program(executable, "--log", str(log), "--log-held", "2000", *options,
                                    preexec_fn=limit_files) as proxy:
        pair, count, answered = Pair(proxy), 400, []

        def say():
            for number in range(count):
                pair.say(f"SELECT {number}")
                answered.append(number)

        saying = threading.Thread(target=say)
        saying.start()
        texts_before = []

        def make_room():
            if log.stat().st_size == FULL:
                texts_before.append(log.read_text())
                known = "".join(texts_before).count('"kind":"query"')
                check(True, "--strict" not in options or len(answered) <= known, "answers")
                os.truncate(log, 0)

        while saying.is_alive():
            saying.join(0.3)
            make_room()
        pair.close()

        def has_end():
            make_room()
            return '"end"' in "".join(texts_before) + log.read_text()

        wait_for(has_end, "an end")
        make_room()
        proxy.stop()
        records = lines_of("".join(texts_before) + log.read_text())
        check([f"SELECT {number}" for number in range(count)], texts(records), "all lines")
        check([], [it for it in records if it["kind"] == "lost"], "lines that are lost")


def check_dev_full(executable):
    """A log that never takes a line: clients go on, or the program ends, as it is told."""
    with Program(executable, "--log", "/dev/full") as proxy:
        pair = Pair(proxy)
        for _ in range(5):
            pair.say("SELECT 1")
        proxy.stop(1)
        check(True, "7 lines were lost" in proxy.said(), "what is said")
        pair.close()
    with Program(executable, "--log", "/dev/full", "--log-full", "wait", "--grace", "0.3") as proxy:
        pair = Pair(proxy)
        proxy.stop(1)
        # On a busy machine the last line isn't given up before the program ends.
        said = proxy.said()
        check(True, "lines were lost" in said or "last lines couldn't be written" in said,
              "what is said behind a wait")
        pair.close()
    for options in ([], ["--strict"]):
        with Program(executable, "--log", "/dev/full", "--log-full", "stop", *options) as proxy:
            pair = Pair(proxy, logs_in=False)
            pair.close()
            check(1, proxy.process.wait(60), "the status of one that stops")


def check_slow_reader(executable):
    """Nobody reads the log for a while. Clients go on and lines are counted, or they wait."""
    count = 3000
    with Program(executable, "--log-held", "100000") as proxy:
        pair = Pair(proxy)
        for number in range(count):
            pair.say(f"SELECT {number}")
        pair.close()
        written, lost = 0, 0
        while written + lost < count or not lost:
            record = json.loads(proxy.process.stdout.readline())
            written += record["kind"] == "query"
            lost += record["lines"] if record["kind"] == "lost" else 0
        # A login and an end may be lost, too.
        check(True, written + lost in range(count, count + 3), "lines that are written, or lost")
        proxy.stop()
    with Program(executable, "--log-held", "10000", "--log-full", "wait") as proxy:
        pair = Pair(proxy)
        said = b"".join(query(f"SELECT {number}") for number in range(count))
        sender = threading.Thread(target=pair.client.sendall, args=[said])
        answers = threading.Thread(target=pair.server.sendall, args=[packet(1, OK) * count])
        for it in (sender, answers):
            it.start()
        found = []
        while len(found) < count:
            found += texts([json.loads(proxy.process.stdout.readline())])
        check([f"SELECT {number}" for number in range(count)], found, "all lines")
        check(packet(1, OK) * count, receive(pair.client, 11 * count), "all answers")
        for it in (sender, answers):
            it.join()
        pair.close()
        proxy.stop()


def check_long_waits(executable):
    """Long lines wait again and again for a slow reader. Behind that the memory is as before."""
    text, rounds = "SELECT '" + "x" * 50000 + "'", 6
    with Program(executable, "--threads", "4") as proxy:
        memory = []
        for _ in range(rounds):
            pairs = [Pair(proxy) for _ in range(4)]
            for pair in pairs:
                for _ in range(60):
                    pair.say(text)
                pair.close()
            records = ends = 0
            while ends < len(pairs):
                record = json.loads(proxy.process.stdout.readline())
                ends, records = ends + (record["kind"] == "end"), records + 1
            check(len(pairs) * 62, records, "lines")
            if not memory:
                # The buffers that it wrote of go once it waits for lines.
                time.sleep(0.2)
            else:
                wait_for(lambda: proxy.memory() < memory[0] + (3 << 20),
                         f"memory of {memory} bytes, {proxy.memory()} now")
            memory.append(proxy.memory())
        proxy.stop()


def check_stuck(executable):
    """Nobody reads a strict line, and clients are refused besides: a signal still ends the program."""
    with Program(executable, "--strict", "--connections", "1", "--grace", "0.3") as proxy:
        pair, waiting = Pair(proxy), bytearray(4)
        # A pipe has no room for such a line.
        pair.ask("SELECT '" + "x" * (1 << 18) + "'")
        pair.server.sendall(packet(1, OK))

        def begins():
            fcntl.ioctl(proxy.process.stdout, termios.FIONREAD, waiting)
            return int.from_bytes(waiting, sys.byteorder) > 1 << 15

        wait_for(begins, "a line that isn't read")
        others = [proxy.ask() for _ in range(8)]
        proxy.stop(1)
        check(b"", receive(pair.client, 1), "what comes of an answer whose line isn't written")
        for it in others:
            it.close()
        pair.close()


def check_moved(executable):
    """The log is moved away in the midst of traffic, and opened anew by a HUP or a USR1."""
    with log_file() as log, Program(executable, "--log", str(log)) as proxy:
        pair, parts = Pair(proxy), 5
        for part in range(parts):
            for number in range(100):
                pair.say(f"SELECT {100 * part + number}")
            log.rename(log.with_suffix(f".{part}"))
            proxy.process.send_signal((signal.SIGHUP, signal.SIGUSR1)[part % 2])
            wait_for(log.exists, "a new log")
        pair.close()
        proxy.stop()
        files = [*(log.with_suffix(f".{part}") for part in range(parts)), log]
        records = lines_of("".join(it.read_text() for it in files))
        check([f"SELECT {number}" for number in range(100 * parts)], texts(records), "all lines")


def check_rotated(executable):
    """The log is rotated by its size, and some older files are kept."""
    with log_file() as log, Program(executable, "--log", str(log), "--rotate", "5000", "--keep",
                                    "3") as proxy:
        pair = Pair(proxy)
        for number in range(300):
            pair.say(f"SELECT {number}")
        pair.close()
        proxy.stop()
        names = sorted(it.name for it in log.parent.iterdir())
        check(["log", "log.1", "log.2", "log.3"], names, "the files")
        files = [log.with_suffix(it) for it in (".3", ".2", ".1", "")]
        check(True, all(it.stat().st_size <= 5000 for it in files), "their sizes")
        found = texts(lines_of("".join(it.read_text() for it in files)))
        check([f"SELECT {number}" for number in range(300)][-len(found):], found, "their lines")
        check(True, len(found) > 40, "how many there are")


def check_links(executable):
    """No link is followed, neither by the log nor by what is to become the next one."""
    with log_file() as log:
        victim = log.with_name("victim")
        victim.write_text("mine\n")
        log.with_name("log.new").symlink_to(victim)
        with Program(executable, "--log", str(log), "--rotate", "2000") as proxy:
            pair = Pair(proxy)
            for number in range(60):
                pair.say(f"SELECT {number}")
            pair.close()
            proxy.stop()
        check((True, False), (log.with_suffix(".1").exists(), log.is_symlink()), "the rotation")
        link = log.with_name("link")
        link.symlink_to(victim)
        ran = subprocess.run([executable, "127.0.0.1:0", "127.0.0.1:1", "--log", str(link)],
                             stderr=subprocess.PIPE, text=True, check=False, timeout=60)
        check((1, True), (ran.returncode, "the log: " in ran.stderr), "a log that is a link")
        check("mine\n", victim.read_text(), "what a link leads to")


def check_pipe(executable):
    """A pipe that nobody reads is no log: settings with it stay out, and clients go on."""
    with log_file() as log:
        file, pipe = log.with_name("settings"), log.with_name("pipe")
        os.mkfifo(pipe)
        file.write_text(f"log = {log}\n")
        with Program(executable, "--config", str(file)) as proxy:
            pair = Pair(proxy)
            file.write_text(f"log = {pipe}\n")
            proxy.signal(signal.SIGHUP, "the settings stay as they were: the log: ")
            other = Pair(proxy)
            for it in (pair, other):
                it.say("SELECT 1")
            wait_for(lambda: log.read_text().count("SELECT 1") == 2, "lines in the first log")
            reader = os.open(pipe, os.O_RDONLY | os.O_NONBLOCK)
            proxy.signal(signal.SIGHUP, "the settings were read")
            for it in (pair, other):
                it.say("SELECT 2")
                it.close()
            proxy.stop()
            told = lines_of(os.read(reader, 1 << 16).decode())
            os.close(reader)
        check(["SELECT 2"] * 2, texts(told), "lines of the pipe")


def check_packed(executable):
    """Older files are packed by gzip, and none of their lines is lost."""
    with log_file() as log, Program(executable, "--log", str(log), "--rotate", "5000", "--keep",
                                    "4", "--gzip") as proxy:
        pair = Pair(proxy)
        for number in range(60):
            pair.say(f"SELECT {number}")
        pair.close()
        proxy.stop()
        names = {"log", *(f"log.{number}.gz" for number in range(1, 5))}
        # The last one is packed behind the program's end, too.
        wait_for(lambda: {it.name for it in log.parent.iterdir()} <= names, "packed files")
        files = sorted(log.parent.glob("log.*.gz"), reverse=True)
        check(True, len(files) > 1, "how many files are packed")
        packed = "".join(gzip.decompress(it.read_bytes()).decode() for it in files)
        found = texts(lines_of(packed + log.read_text()))
        check([f"SELECT {number}" for number in range(60)][-len(found):], found, "their lines")
        modes = {it.stat().st_mode & 0o777 for it in files}
        check({log.stat().st_mode & 0o777}, modes, "who may read them")


def syslog(path):
    """Returns a socket that takes lines of the system's log."""
    stream = socket.socket(socket.AF_UNIX, socket.SOCK_DGRAM)
    with contextlib.suppress(FileNotFoundError):
        os.unlink(path)
    stream.bind(str(path))
    stream.settimeout(60)
    return stream


def check_syslog(executable):
    """A socket gets a datagram for each line, also once whoever takes them began anew. Lines that
    are too long for one are counted."""
    with log_file() as log, contextlib.ExitStack() as kept:
        stream = kept.enter_context(syslog(log))
        proxy = kept.enter_context(Program(executable, "--log", str(log), "--rotate", "1000"))
        head = f"<30>mysql-audit[{proxy.process.pid}]: "

        def next_line():
            line = stream.recv(1 << 20).decode()
            check(head, line[:len(head)], "what stands before a line")
            return json.loads(line[len(head):])

        pair = Pair(proxy)
        check("login", next_line()["kind"], "the first line")
        for number in range(50):
            pair.say(f"SELECT {number}")
            check(f"SELECT {number}", next_line()["text"], "a line")
        stream.close()
        stream = kept.enter_context(syslog(log))
        pair.say("SELECT 'anew'")
        check("SELECT 'anew'", next_line()["text"], "a line for one who began anew")
        # Both lines may be written at once, or one after the other.
        long = query("SELECT '" + "x" * (1 << 20) + "'")
        for _ in range(3):
            said = long + query("SELECT 'behind'")
            asking = threading.Thread(target=pair.client.sendall, args=[said])
            asking.start()
            check(True, said == receive(pair.server, len(said)), "what passes")
            asking.join()
            pair.answer(2 * packet(1, OK))
            found = [next_line() for _ in range(2)]
            check((1, "SELECT 'behind'"), (found[0].get("lines"), found[1].get("text")),
                  "lines behind one that is too long")
        pair.close()
        check("end", next_line()["kind"], "the last line")
        proxy.stop()


def told(executable, *options, sleeps=0):
    """Returns the lines about some statements of two users, of which one takes so many seconds."""
    with Program(executable, *options) as proxy:
        for user, database in (("ann", "shop"), ("bob", "shop"), ("ann", "books")):
            pair = Pair(proxy, user, database)
            pair.say("SELECT 1")
            pair.say("SELECT nothing", ERROR)
            pair.ask("SELECT SLEEP(1)")
            time.sleep(sleeps)
            pair.answer(packet(1, OK))
            pair.client.sendall(packet(0, b"\x01"))
            pair.client.close()
            receive(pair.server, 6)
            pair.close()
        proxy.stop()
        return proxy.printed()


def fields(records):
    """Returns what lines have beside times, sorted: those of two loops come in any order."""
    return sorted((it["user"], it["database"], it["kind"], it.get("text", "")) for it in records)


def check_filters(executable):
    """Only the lines that are asked for are written."""
    every = fields(told(executable))
    check(9, len([it for it in every if it[2] == "query"]), "the commands")
    for options, at, wanted in ((["--user", "ann"], 0, "ann"),
                                (["--user", "ann", "--user", "bob", "--database", "books"], 1, "books")):
        check([it for it in every if it[at] == wanted], fields(told(executable, *options)), options)
    for host, wanted in (("127.0.0.0/8", every), ("10.0.0.0/8", []), ("127.0.0.1", every)):
        check(wanted, fields(told(executable, "--host", host)), f"lines of {host}")
    found = fields(told(executable, "--kind", "login", "--kind", "end"))
    check([it for it in every if it[2] != "query"], found, "kinds of lines")
    wanted = [it for it in every if it[2] == "end" or it[3] == "SELECT nothing"]
    check(wanted, fields(told(executable, "--errors")), "errors")
    for options in (["--slower", "0.2"], ["--errors", "--slower", "0.2"]):
        records = told(executable, *options, sleeps=2)
        ran = [it for it in records if it["kind"] != "end"]
        # On a busy machine others may be slow, too.
        fast = [it["text"] for it in ran if it["seconds"] < 0.2]
        check(["SELECT nothing"] * len(fast) if "--errors" in options else [], fast,
              "lines that are fast")
        found = [it.get("text") for it in ran]
        check(3, found.count("SELECT SLEEP(1)"), "lines that are slow")
        check(True, "--errors" not in options or found.count("SELECT nothing") == 3, "errors")
        check(3, len(records) - len(ran), "ends")


def check_digests(executable):
    """A line has the digest of its statement, by which it may be asked for."""
    every = told(executable, "--digests")
    digests = sorted(it.get("digest", "") for it in every)
    wanted = [""] * 6 + ["select ?"] * 3 + ["select sleep (?)"] * 3 + ["select nothing"] * 3
    check(sorted(wanted), digests, "digests")
    for asked in ("select sleep (?)", "select sleep( 7 )", "SELECT SLEEP(7) -- why"):
        found = told(executable, "--digest", asked, "--digest", "SELECT nothing", "--user", "ann")
        check({"SELECT SLEEP(1)", "SELECT nothing"}, {it["text"] for it in found},
              f"statements of the digest of {asked}")
        check({"ann"}, {it["user"] for it in found}, "their users")
    with Program(executable, "--digests") as proxy:
        pair = Pair(proxy)
        secret = "hidden-in-a-statement"
        # Servers disagree about where a string is in the last two.
        for text in (f"SET PASSWORD = PASSWORD('{secret}')", f"ALTER USER ann IDENTIFIED AS {secret}",
                     "SELECT a AS $$, 'b $$ c '", "SELECT b /*!99999 it's */ , 'c'"):
            pair.say(text)
        # Another session asks, and is told that a backslash escapes nothing.
        other = Pair(proxy, logs_in=False)
        other.answer(greeting(TRACKING))
        said = login("bob", "shop", TRACKING)
        other.client.sendall(said)
        receive(other.server, len(said))
        other.answer(packet(2, OK))
        other.say("SET sql_mode = @@sql_mode", b"\0\0\0\x02\x42\0\0\0\x20\0\x1e\x08sql_mode"
                  b"\x14NO_BACKSLASH_ESCAPES")
        for it in (pair, other):
            it.say(r"SELECT '\', a")
            it.close()
        proxy.stop()
        printed = proxy.process.stdout.read()
    check(False, secret in printed, "whether a secret is in a digest")
    marked = [it["digest"] for it in lines_of(printed) if it.get("digest", "").endswith("/* ... */")]
    check(["select a as /* ... */", "select b /* ... */"], marked, "digests with a mark")
    for options in (["--redact"], ["--redact", "--secrets"]):
        records = told(executable, *options)
        check(digests, sorted(it.get("digest", "") for it in records), "digests in place of texts")
        texts_of = {it["text"] for it in records if it["kind"] == "query" and "text" in it}
        check(set(), texts_of, "texts beside digests")
        messages = {result["message"] for it in records for result in it.get("results", [])
                    if "message" in result}
        check({"*****"}, messages, "messages of errors")
    found = {it["user"]: it["digest"] for it in lines_of(printed) if it["kind"] == "query"}
    check({"ann": "select ?", "bob": "select ? , a"}, found, "a digest in each session's mode")


def checks():
    """Returns all of them, by their names."""
    return [("a full disk", check_full_disk),
            ("a full disk for which clients wait", lambda it: check_waits(it, "--log-full", "wait")),
            ("a full disk for which strict lines wait", lambda it: check_waits(it, "--strict")),
            ("/dev/full", check_dev_full), ("a slow reader of the log", check_slow_reader),
            ("long lines that wait", check_long_waits), ("a log that stands still", check_stuck),
            ("a log that is moved", check_moved), ("a log that is rotated", check_rotated),
            ("links", check_links), ("a pipe that nobody reads", check_pipe),
            ("older files are packed", check_packed), ("the system's log", check_syslog),
            ("filters", check_filters), ("digests", check_digests)]
