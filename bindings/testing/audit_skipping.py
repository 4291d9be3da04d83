"""What bindings/audit tells of payloads that are longer than it reads: their first bytes and lengths."""

import pathlib
import random
import threading

from audit_support import COLUMN, EOF, ERROR, OK, Pair, Program, lines_of, log_file, packet, \
    receive
from recorded import check

LONGEST = 20000


def packets(number, payload):
    """Returns a payload as packets from this number on, and the next number."""
    chunk, said = 0xFFFFFF, b""
    for at in range(0, len(payload) + 1, chunk):
        said += packet(number, payload[at:at + chunk])
        number = (number + 1) % 256
    return said, number


def in_turn(at, *payloads):
    """Returns what a side says in packets from this number on, and the next number."""
    said = b""
    for payload in payloads:
        more, at = packets(at, payload)
        said += more
    return said, at


def send(stream, said, at):
    """Sends bytes, in pieces."""
    done = 0
    while done < len(said):
        piece = said[done:][:at.choice((1, 3, 4, 100, 5000, 1 << 20))]
        stream.sendall(piece)
        done += len(piece)


def passes(sends, reads, said, at):
    """One end says something, and the other one gets it."""
    sender = threading.Thread(target=send, args=[sends, said, at])
    sender.start()
    check(True, said == receive(reads, len(said)), "what passes")
    sender.join()


def talk(pair, at, command, *replies):
    """The client says a command, and the server replies."""
    said, number = in_turn(0, command)
    passes(pair.client, pair.server, said, at)
    if replies:
        said, number = in_turn(number, *replies)
        passes(pair.server, pair.client, said, at)
    return number


def talk_of_long_ones(pair, at):
    """Says long commands, long rows, a long file and long values."""
    long, rows = b"x" * 50000, [b"\x01", COLUMN, EOF]
    talk(pair, at, b"\x03SELECT '" + long + b"'", OK)
    talk(pair, at, b"\x03SELECT name", *rows, b"\xfd\x50\xc3\0" + long, b"\x01y", EOF)
    talk(pair, at, b"\x03SET PASSWORD = 'secret" + long + b"'", ERROR)
    # In three packets, and a row in two.
    huge = b"x" * 0x2000000
    talk(pair, at, b"\x03SELECT '" + huge + b"'", *rows, b"\xfd\xff\xff\xff" + huge[:0xFFFFFF],
         b"\x01y", EOF)
    talk(pair, at, b"\x16SELECT ?", b"\0\x07\0\0\0\x01\0\x01\0\0\0\0", COLUMN, EOF, COLUMN, EOF)
    value = b"\0\x01\xfc\0\xfd\x50\xc3\0" + long
    talk(pair, at, b"\x17\x07\0\0\0\0\x01\0\0\0" + value, b"\x01", COLUMN, EOF,
         b"\0\0\xfd\x50\xc3\0" + long, b"\0\0\x01y", EOF)
    talk(pair, at, b"\x18\x07\0\0\0\0\0" + long)
    talk(pair, at, b"\x17\x07\0\0\0\0\x01\0\0\0\0\x01\xfc\0", b"\x01", COLUMN, EOF, EOF)
    number = talk(pair, at, b"\x03LOAD DATA LOCAL INFILE 'more'", b"\xfbmore")
    said, number = in_turn(number, long, b"more", b"")
    passes(pair.client, pair.server, said, at)
    passes(pair.server, pair.client, in_turn(number, OK)[0], at)
    talk(pair, at, b"\x03SELECT 2", *rows, b"\x01y", EOF)


def told_of(record):
    """Returns what a line tells of a payload."""
    results = [next(iter(it.items())) for it in record.get("results", [])]
    text = record.get("text", "")
    size = len(text["hex"]) // 2 if isinstance(text, dict) else len(text)
    if record["kind"] == "end":
        # Either end may be seen first, or the program is stopped before it sees one.
        return "end", None, None, 0, results
    return record["kind"], record.get("by"), record.get("length"), size, results


def check_skipped(executable):
    """A payload that is too long is told by its first bytes and its length, and what follows is read."""
    at, rows = random.Random(6), [("rows", 2)]
    front = LONGEST - 1
    wanted = [("login", None, None, 0, [("affected", 0)]),
              ("query", None, 50010, front, [("affected", 0)]),
              ("skipped", "server", 50004, 0, []), ("query", None, None, 11, rows),
              ("query", None, 50024, len("SET PASSWORD = '*****'"), [("error", 1146)]),
              ("skipped", "server", 0xFFFFFF + 4, 0, []), ("query", None, 0x2000000 + 10, front, rows),
              ("prepare", None, None, 8, [("statement", 7)]),
              ("skipped", "server", 50006, 0, []), ("execute", None, 50018, 8, rows),
              ("skipped", "client", 50007, 0, []), ("execute", None, None, 8, [("rows", 0)]),
              ("skipped", "client", 50000, 0, []),
              ("query", None, None, 29, [("file", "more"), ("affected", 0)]),
              ("query", None, None, 8, [("rows", 1)]), ("end", None, None, 0, [])]
    for options in ([], ["--strict"]):
        with log_file() as log, Program(executable, "--longest", str(LONGEST), "--log", str(log),
                                        *options) as proxy:
            pair = Pair(proxy)
            talk_of_long_ones(pair, at)
            pair.close()
            proxy.stop()
            records = lines_of(log.read_text())
        found = [told_of(it) for it in records]
        for one, other in zip(wanted, found):
            check(one, other, "what is told of long payloads")
        check(len(wanted), len(found), "how many lines there are")
        check(False, "secret" in str(records), "whether a secret is told")
        check(50004, records[-3]["results"][0]["bytes"], "the bytes of a file")


def check_texts(executable):
    """A line has so much of a text and of values, and says where that isn't all. A secret behind that is
    hidden, too."""
    with Program(executable, "--longest-text", "1000") as proxy:
        pair, at = Pair(proxy), random.Random(7)
        for text in ("SELECT '" + "\xe9" * 600, "SELECT 1", "SELECT '" + "x" * 2000 + "', PASSWORD('secret')"):
            talk(pair, at, b"\x03" + text.encode(), ERROR)
        talk(pair, at, b"\x16SELECT ?, ?", b"\0\x07\0\0\0\0\0\x02\0\0\0\0", COLUMN, COLUMN, EOF)
        types = b"\0\x01\xfd\0\xfd\0"
        for values in (b"\xfc\xd0\x07" + b"x" * 2000 + b"\x01y", b"\x01x\x01y"):
            talk(pair, at, b"\x17\x07\0\0\0\0\x01\0\0\0" + types + values, OK)
        pair.close()
        proxy.stop()
        lines = [it for it in proxy.printed() if it["kind"] in ("query", "execute")]
    check([True, None, True, True, None], [it.get("short") for it in lines], "whether it is short")
    check(["SELECT '" + "\xe9" * 496, "SELECT 1"], [it["text"] for it in lines[:2]], "texts")
    check(["no such table"] * 2 + ["*****"], [it["results"][0]["message"] for it in lines[:3]], "errors")
    check([["x" * 1000], ["x", "y"]], [it["values"] for it in lines[3:]], "values")


def check_lists(executable):
    """What is read as a list of many times its size is told by its first bytes, and memory stays."""
    with Program(executable, "--log", "/dev/null") as proxy:
        pair, at = Pair(proxy), random.Random(8)
        talk(pair, at, b"\x16INSERT INTO goods VALUES (?)", b"\0\x07\0\0\0\0\0\x01\0\0\0\0", COLUMN, EOF)
        before = proxy.memory()
        said = in_turn(0, b"\xfa\x07\0\0\0\x80\0\xfd\0" + b"\x01" * 8000000)[0]
        sender = threading.Thread(target=pair.client.sendall, args=[said])
        sender.start()
        check(True, said == receive(pair.server, len(said)), "what passes")
        sender.join()
        pair.answer(packet(1, OK))
        pair.say("SELECT 1")
        status = pathlib.Path(f"/proc/{proxy.process.pid}/status").read_text()
        most = 1024 * int(status.partition("VmHWM:")[2].split()[0]) - before
        check(True, most < 3 * len(said), f"{most} bytes of memory for {len(said)}")
        pair.close()
        proxy.stop()


def check_results(executable):
    """Of a reply so many results are told, and how many more came."""
    with Program(executable) as proxy:
        pair, at = Pair(proxy), random.Random(9)
        more = OK[:3] + b"\x0a" + OK[4:]
        talk(pair, at, b"\x03CALL many()", *[more] * 2500, ERROR)
        pair.close()
        proxy.stop()
        results = proxy.printed()[1]["results"]
    check((1002, {"more": 1500}, 1146), (len(results), results[1000], results[1001]["error"]), "results")


def checks():
    """Returns all of them, by their names."""
    return [("long payloads", check_skipped), ("long texts", check_texts), ("lists", check_lists),
            ("many results", check_results)]

