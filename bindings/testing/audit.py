"""Tests of bindings/audit, the proxy that audits; `bindings/test` runs it.

    audit.py PROGRAM RECORDINGS [--idle N] [--load AUDIT_LOAD] [--without-tls] [--only PART]

PROGRAM is its executable. The folder RECORDINGS has recorded connections, which pass it (recorded.py).
Else a client and a server here say what is to be seen. N connections are made that say nothing (2000),
and their memory is printed. AUDIT_LOAD is what audit_load.rs is compiled to: with it the processor time
of a statement is printed.
"""

import argparse
import os
import pathlib
import random
import re
import resource
import subprocess
import threading
import time

import audit_addresses
import audit_alerts
import audit_counts
import audit_limits
import audit_log
import audit_recording
import audit_settings
import audit_skipping
import audit_tls
import audit_unseen
import recorded
from audit_support import COLUMN, EOF, ERROR, OFFERED, OK, Pair, Program, greeting, log_file, \
    packet, query, receive, wait_for
from recorded import SECONDS, check

ROOT = pathlib.Path(__file__).resolve().parent.parent.parent


# ---- What passes --------------------------------------------------------------------------------


def check_recordings(executable, paths):
    """Recorded connections pass byte by byte, and their lines are what the events say."""
    at = random.Random(1)
    count = 0
    for options in (["--on-fault", "pass"], ["--on-fault", "pass", "--strict", "--secrets"],
                    ["--on-fault", "cut", "--strict"]):
        with Program(executable, *options) as proxy:
            for path in paths:
                count += recorded.check_recording(proxy, path, at, options)
    print(f"  {len(paths)} recordings, {count} commands and logins are told as their events say")


def check_flood(executable, path, at):
    """A server goes on behind the end of a client whose turn it is."""
    for options in ([], ["--strict"]):
        with Program(executable, "--on-fault", "pass", "--longest", "20000", *options) as proxy:
            recorded.check_flood(proxy, path, at)


def check_whole(executable, paths):
    """What passes is counted: of each command, and in all."""
    at = random.Random(2)
    with Program(executable, "--on-fault", "pass") as proxy:
        for path in paths:
            sides = [path.with_suffix(it).read_bytes() for it in (".client", ".server")]
            records = proxy.connect(*sides, at)[2]
            check([len(it) for it in sides], records[-1]["traffic"], f"{path.stem}, bytes in all")
            parts = [it["traffic"] for it in records if "results" in it]
            for side, all_of_it in enumerate(sides):
                told = sum(it[side] for it in parts)
                check(True, told <= len(all_of_it), f"{path.stem}, {told} bytes of its commands")
            check([], [it for it in records if not it["client"].startswith("127.0.0.1:")],
                  "addresses of clients")


def without_refusal(got):
    """Returns what a client got without the error by which the program itself refuses it."""
    return re.sub(rb"...\x02\xff(\x13\x04|\xea\x07)#HY000[^#]*$", b"", got, flags=re.S)


def check_changed(executable, paths):
    """Changed recordings: each end gets a prefix of what the other sent, and no connection hangs."""
    at = random.Random(3)
    for options in ([], ["--strict"], ["--on-fault", "pass", "--longest", "3000"]):
        with Program(executable, *options) as proxy:
            for path in at.sample(paths, 40):
                sides = [bytearray(path.with_suffix(it).read_bytes())
                         for it in (".client", ".server")]
                for _ in range(at.randrange(1, 4)):
                    side = at.choice([it for it in sides if it])
                    side[at.randrange(len(side))] = at.randrange(256)
                got, asked, records = proxy.connect(*map(bytes, sides), at)
                got = without_refusal(got)
                check(True, sides[0].startswith(asked) and sides[1].startswith(got),
                      f"{path.stem}, what passes")
                check("end", records[-1]["kind"], f"{path.stem}, what is told")


def check_bytes_as_they_come(executable):
    """Half a packet passes, and with `--strict` too; an answer whose line isn't written doesn't."""
    for options in ([], ["--strict"]):
        with Program(executable, *options) as proxy:
            pair = Pair(proxy)
            for byte in query("SELECT 1"):
                pair.client.sendall(bytes([byte]))
                check(bytes([byte]), receive(pair.server, 1), "a byte of a query")
            for byte in packet(1, OK):
                pair.answer(bytes([byte]))
            both = query("SELECT 2") + query("SELECT 3")
            pair.client.sendall(both)
            if options:
                # What is sent ahead waits for its turn.
                for said, reply in ((both[:13], OK), (both[13:], ERROR)):
                    check(said, pair.server.recv(100), "a query that was sent ahead")
                    pair.answer(packet(1, reply))
            else:
                check(both, receive(pair.server, len(both)), "queries that were sent ahead")
                pair.answer(packet(1, OK) + packet(1, ERROR))
            pair.client.close()
            wait_for(lambda: receive(pair.server, 1) == b"", "the client's end")
            pair.close()
            proxy.stop()
            records = proxy.printed()
            check(["login", "query", "query", "query", "end"], [it["kind"] for it in records],
                  "lines of pipelined queries")
            check([[13, 11]] * 2 + [[13, 4 + len(ERROR)]], [it["traffic"] for it in records[1:4]],
                  "bytes of queries")
            check(True, all(0 <= it["first"] <= it["seconds"] for it in records[:4]), "times")


def check_slow_ends(executable):
    """An end that doesn't read holds the other back, and the program holds little."""
    with Program(executable) as proxy:
        for is_client in (True, False):
            pair, before = Pair(proxy), proxy.memory()
            if is_client:
                pair.say("SELECT name FROM goods", b"\x01")
                pair.answer(packet(2, COLUMN) + packet(3, EOF))
                sends, reads = pair.server, pair.client
            else:
                pair.say("LOAD DATA LOCAL INFILE 'file'", b"\xfbfile")
                sends, reads = pair.client, pair.server
            pieces = b"".join(packet((2 * is_client + 2 + number) % 256, b"\xc7" + b"x" * 199)
                              for number in range(400000))
            sender = threading.Thread(target=sends.sendall, args=[pieces])
            sender.start()
            time.sleep(0.5)
            check(True, sender.is_alive(), "whether a sender is held back")
            check(True, proxy.memory() - before < 1 << 22, "the memory for a slow end")
            check(True, pieces == receive(reads, len(pieces)), "what a slow end gets")
            sender.join(SECONDS)
            pair.close()


def check_last_words(executable):
    """What a server said before it went is passed on, also where a client speaks to it once more.
    Then it is little, since TCP loses what the proxy's machine hasn't received."""
    with Program(executable) as proxy:
        for is_asked in (False, True):
            pair = Pair(proxy)
            rows = b"".join(packet((4 + number) % 256, b"\xc7" + b"x" * 199)
                            for number in range(100 if is_asked else 2000))
            reply = packet(1, b"\x01") + packet(2, COLUMN) + packet(3, EOF) + rows
            pair.ask("SELECT name FROM goods")
            pair.server.sendall(reply)
            pair.server.close()
            if is_asked:
                time.sleep(0.05)
                pair.client.sendall(packet(0, b"\x0e"))
                time.sleep(0.05)
            check(True, reply == receive(pair.client, len(reply) + 1), "the last words")
            pair.close()
        proxy.stop()
        ends = [(it["by"], it["text"]) for it in proxy.printed() if it["kind"] == "end"]
        check([("server", "unfinished")] * 2, ends, "the ends")


def check_users(executable):
    """A change of user that is laid out as none is told of what follows where the server takes it."""
    with Program(executable) as proxy:
        pair, cut = Pair(proxy), b"\x11bob\0\x02xybooks\0\x2d"
        for reply in (ERROR, OK):
            pair.client.sendall(packet(0, cut))
            receive(pair.server, len(cut) + 4)
            pair.answer(packet(1, reply))
            pair.say("SELECT 1")
        pair.close()
        proxy.stop()
        records = proxy.printed()
        found = [(it["user"], it["database"]) for it in records if it["kind"] == "query"]
        check([("ann", "shop"), ("bob", "books")], found, "whose queries they are")
        check(["unknown"] * 2, [it["kind"] for it in records if "bytes" in it], "changes of user")


def check_plain(executable):
    """TLS and compression are taken out of a greeting, in however small pieces it comes."""
    with Program(executable, "--plain") as proxy:
        for pieces in (1, 100):
            pair, said = Pair(proxy, logs_in=False), greeting(OFFERED)
            for at in range(0, len(said), pieces):
                pair.server.sendall(said[at:at + pieces])
                time.sleep(0.001)
            check(greeting(), receive(pair.client, len(said)), "a plain greeting")
            pair.close()


# ---- The words ----------------------------------------------------------------------------------


def check_settings(executable):
    """A file has the same names as the words, and words that aren't known are refused."""
    with log_file() as file:
        file.write_text("# words\nlisten = 127.0.0.1:0\nupstream = 127.0.0.1:1\njson = yes\n")
        ran = subprocess.Popen([executable, "--config", file], stderr=subprocess.PIPE, text=True)
        check(True, "listening at" in ran.stderr.readline(), "what is said at the start")
        ran.terminate()
        check(0, ran.wait(SECONDS), "the status")
        ran.stderr.close()
    ran = subprocess.run([executable, "a", "b", "--what", "c"], stderr=subprocess.PIPE, text=True,
                         check=False)
    check((2, "--what: there is no such name\n"), (ran.returncode, ran.stderr[:30]), "a word")


def check_manual(executable):
    """The help, the manual page, the sample, the document and the code have the same words."""
    folder = ROOT / "bindings" / "audit"
    said = subprocess.run([executable, "--help"], stdout=subprocess.PIPE, text=True, check=True)
    words = set(re.findall(r"--([a-z-]+)", said.stdout)) - {"help"}
    page = (folder / "mysql-audit.8").read_text().replace("\\-", "-")
    check(words, set(re.findall(r"--([a-z-]+)", page)), "the words of the manual page")
    sample = (folder / "mysql-audit.conf").read_text()
    found = set(re.findall(r"^#?([a-z-]+) = ", sample, re.M))
    check(words - {"config"}, found, "the words of the sample")
    document = (ROOT / "docs" / "AUDITING.md").read_text()
    named = set(re.findall(r"`([a-z-]+) = ", document)) | set(re.findall(r"`((?:tls|log|on)-[a-z-]+)`", document))
    check(set(), named - words, "words of docs/AUDITING.md that there aren't")
    code = "".join((folder / "src" / it).read_text() for it in ("options.rs", "choosing.rs"))
    code = set(re.findall(r'^ +"([a-z-]+)" (?:=>|if)', code, re.M))
    check(words - {"config"}, code - {"pass", "cut", "wait", "stop", "yes", "no"}, "the words")


def last_cells(document, heading):
    """Returns what the last column of a section's table has."""
    section = document.partition(f"\n## {heading}\n")[2].partition("\n## ")[0]
    rows = [line.split("|")[-2] for line in section.splitlines() if line.startswith("| ")]
    return {it.strip(" `") for row in rows[1:] for it in row.split(",")}


def check_document(names):
    """The checks that the documents name are these, those of audited.py and of test_captures.py."""
    document = (ROOT / "docs" / "AUDIT_TESTS.md").read_text()
    audited = (ROOT / "bindings" / "testing" / "audited.py").read_text()
    names = names | set(re.findall(r'report\.run\("([^"]+)"', audited))
    named = last_cells(document, "What its checks hold")
    check((True, set()), (len(named) > 30, named - names), "checks that there aren't")
    tests = (ROOT / "bindings" / "python" / "test_captures.py").read_text()
    named = last_cells((ROOT / "docs" / "CAPTURES.md").read_text(), "Its tests")
    check((True, set()), (len(named) > 4, named - set(re.findall(r"def (\w+)", tests))), "tests")


# ---- What it takes ------------------------------------------------------------------------------


def measure_idle(executable, count):
    """Returns how much memory a connection takes that says nothing."""
    needed = 2 * count + 100
    soft, hard = resource.getrlimit(resource.RLIMIT_NOFILE)
    if soft < needed:
        resource.setrlimit(resource.RLIMIT_NOFILE, (min(needed, hard), hard))
    with Program(executable, "--log", "/dev/null") as proxy:
        pairs = [Pair(proxy)]
        before = proxy.memory()
        pairs += [Pair(proxy) for _ in range(count)]
        for it in pairs:
            it.say("SELECT 1")
        each = (proxy.memory() - before) / count
        began = proxy.seconds()
        time.sleep(2)
        took = (proxy.seconds() - began) / 2
        for it in pairs:
            it.close()
    check(True, each < 10000, f"{each:.0f} bytes of an idle connection")
    print(f"  {count} idle connections: {each:.0f} bytes each, {proxy_share(took)}")


def proxy_share(seconds):
    """Returns a share of a processor as it is printed."""
    return f"{100 * seconds:.1f} % of a processor"


def measure_load(executable, program, name):
    """Prints how much processor time a statement takes."""
    with subprocess.Popen([program, name, "4", "50"], stdin=subprocess.PIPE, text=True,
                          stdout=subprocess.PIPE) as load:
        port = load.stdout.readline().strip()
        for options in ([], ["--strict"], ["--errors"]):
            with log_file() as log, Program(executable, "--log", str(log), *options,
                                            upstream=f"127.0.0.1:{port}") as proxy:
                for _ in range(2):
                    began = proxy.seconds()
                    print(proxy.port, file=load.stdin, flush=True)
                    count, seconds = load.stdout.readline().split()
                took = 1e6 * (proxy.seconds() - began) / int(count)
                print(f"  {os.path.basename(name)} {' '.join(options)}: {count} statements, "
                      f"{took:.1f} us of a processor each, {seconds} s")
        load.stdin.close()


def main():
    parser = argparse.ArgumentParser(description=__doc__,
                                     formatter_class=argparse.RawDescriptionHelpFormatter)
    parser.add_argument("program")
    parser.add_argument("recordings", type=pathlib.Path)
    parser.add_argument("--idle", type=int, default=2000)
    parser.add_argument("--load")
    parser.add_argument("--without-tls", action="store_true", help="it was built without TLS")
    parser.add_argument("--only", default="", help="a part of the names of checks")
    words = parser.parse_args()
    paths = sorted(words.recordings.glob("*.events"))
    at = random.Random(4)
    checks = [("recordings", lambda it: check_recordings(it, paths)),
              ("bytes of recordings", lambda it: check_whole(it, paths)),
              ("a flood", lambda it: check_flood(it, words.recordings / "ansi_quotes.events", at)),
              ("what is recorded", lambda it: audit_recording.check_recorded(it, paths)),
              *audit_recording.checks(),
              ("changed recordings", lambda it: check_changed(it, paths)),
              ("secrets", lambda it: recorded.check_secrets(
                  it, words.recordings / "php-execute.events", at)),
              ("bytes as they come", check_bytes_as_they_come), ("slow ends", check_slow_ends),
              ("last words", check_last_words), ("changes of user", check_users),
              ("a plain greeting", check_plain),
              ("settings", check_settings), ("the manual", check_manual),
              *audit_limits.checks(), *audit_log.checks(), *audit_skipping.checks(),
              *audit_settings.checks(), *audit_addresses.checks(), *audit_tls.checks(), *audit_unseen.checks(),
              *audit_counts.checks(), *audit_alerts.checks(),
              ("idle connections", lambda it: measure_idle(it, words.idle))]
    if words.load:
        for name in ("mysqldb-text", "perl-execute"):
            checks.append((f"load of {name}", lambda it, name=name: measure_load(
                it, words.load, words.recordings / name)))
    names = {it for it, _ in checks}
    checks.append(("the document", lambda _: check_document(names)))
    failed = 0
    left_out = audit_tls.checks() if words.without_tls else []
    checks = [it for it in checks if words.only in it[0] and it not in left_out]
    for name, test in checks:
        began = time.monotonic()
        try:
            test(words.program)
            print(f"  {name}: {time.monotonic() - began:.1f} s", flush=True)
        except Exception as error:  # (whatever it is, those behind it still run)
            failed += 1
            print(f"  FAILED {name}: {error!r}", flush=True)
    print(f"{len(checks) - failed} of {len(checks)} checks of the audit hold")
    return 1 if failed else 0


if __name__ == "__main__":
    raise SystemExit(main())
