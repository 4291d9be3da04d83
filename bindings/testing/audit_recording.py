"""What bindings/audit records of connections: all that is read, and no answer of an authentication."""

import os
import pathlib
import random
import tempfile

from audit_support import ERROR, OK, Pair, Program, packet, query, receive, wait_for
from audit_tls import BITS, front, greeting
from recorded import check

STAR = ord("*")


def check_recorded(executable, paths):
    """Recorded connections are recorded anew, but for what says who a client is."""
    at = random.Random(5)
    with tempfile.TemporaryDirectory(prefix="mysql-audit-") as room:
        folder = pathlib.Path(room, "records")
        for options in ([], ["--strict"]):
            with Program(executable, "--on-fault", "pass", "--record", str(folder), *options) as proxy:
                for number, path in enumerate(paths, 1):
                    sides = [path.with_suffix(it).read_bytes() for it in (".client", ".server")]
                    proxy.connect(*sides, at)
                    found = [pathlib.Path(folder, f"{number}.{it}").read_bytes()
                             for it in ("client", "server")]
                    is_whole = path.read_text().splitlines()[-1] in ("end Whole", "end Over Quit")
                    check_files(path.stem, sides, found, is_whole)


def check_files(name, sides, found, is_whole):
    """Fails where the files have other bytes than were sent, or fewer of what was read."""
    lengths = [len(it) for it in found]
    if is_whole:
        check([len(it) for it in sides], lengths, f"{name}, bytes that are recorded")
    client, server = (it[:length] for it, length in zip(sides, lengths))
    check(True, server == found[1], f"{name}, what is recorded of the server")
    differ = [here for there, here in zip(client, found[0]) if there != here]
    check((len(client), set()), (lengths[0], set(differ) - {STAR}), f"{name}, the client's bytes")


# Of a login, and its capability by which a length may have more bytes than one.
LENGTHS = 0x200000
LOGINS = ((BITS, b"\x08secret-1", b"\x08********"),
          (BITS | LENGTHS, b"\xfc\x2c\x01" + 300 * b"s", b"\xfc\x2c\x01" + 300 * b"*"))
SWITCH = b"\xfemysql_clear_password\0"
REPLICA = b"\x15\x07\0\0\0\x02at\x03ann%s\xea\x0c" + bytes(8)
CHANGE = b"\x11bob\0%sbooks\0\x21\0caching_sha2_password\0"
# What the client says then, what of it is recorded, and what the server answers.
SAID = [
    (3, b"secret-2\0", b"*********", (4, OK)),
    (0, b"\x03SELECT 1", b"\x03SELECT 1", (1, OK)),
    (0, CHANGE % b"\x08secret-3", CHANGE % b"\x08********", (1, SWITCH)),
    (2, b"secret-4\0", b"*********", (3, OK)),
    (0, b"\x11bob\0\x08secret-5", b"\x11*************", (1, ERROR)),
    (0, REPLICA % b"\x08secret-6", REPLICA % b"\x08********", (1, OK)),
    (0, b"\x01", b"\x01", None)]


def login_by(bits, answer):
    """Returns the payload of a login with this answer, behind its length."""
    return front(bits) + b"ann\0" + answer + b"shop\0caching_sha2_password\0"


def check_hidden(executable):
    """No password is in a recording, neither in clear nor as a hash."""
    with tempfile.TemporaryDirectory(prefix="mysql-audit-") as room:
        folder = pathlib.Path(room, "records")
        with Program(executable, "--record", str(folder)) as proxy:
            for bits, answer, kept in LOGINS:
                asked = (1, login_by(bits, answer), login_by(bits, kept), (2, SWITCH))
                check_said(Pair(proxy, logs_in=False), folder, bits, [asked, *SAID])
            proxy.stop()
        check(0o700, os.stat(folder).st_mode & 0o777, "who can read the folder")


def check_said(pair, folder, bits, said):
    """A client says something, and its recording has what it is to have."""
    pair.answer(greeting(bits))
    for number, asked, _, answer in said:
        pair.client.sendall(packet(number, asked))
        check(packet(number, asked), receive(pair.server, 4 + len(asked)), "what passes")
        if answer:
            pair.answer(packet(*answer))
    pair.close()
    number = 1 if bits == BITS else 2
    client, server = (pathlib.Path(folder, f"{number}.{it}") for it in ("client", "server"))
    wanted = b"".join(packet(number, kept) for number, _, kept, _ in said)
    wait_for(lambda: len(client.read_bytes()) >= len(wanted), "a recording")
    check(wanted, client.read_bytes(), "what is recorded of the client")
    answers = b"".join(packet(*answer) for *_, answer in said if answer)
    check(greeting(bits) + answers, server.read_bytes(), "what is recorded of the server")
    modes = [os.stat(it).st_mode & 0o777 for it in (client, server)]
    check([0o600, 0o600], modes, "who can read it")


def check_ends(executable):
    """A recording ends where the reading does. What can't be recorded doesn't pass, and no link is
    followed."""
    with tempfile.TemporaryDirectory(prefix="mysql-audit-") as room:
        folder, victim = pathlib.Path(room, "records"), pathlib.Path(room, "victim")
        victim.write_bytes(b"what is there")
        folder.mkdir()
        pathlib.Path(folder, "1.client").symlink_to(victim)
        pathlib.Path(folder, "2.server").mkdir()
        with Program(executable, "--on-fault", "pass", "--record", str(folder)) as proxy:
            pair = Pair(proxy)
            pair.say("SELECT 1")
            wrong = packet(7, b"\x11ann\0why")
            pair.client.sendall(wrong)
            check(wrong, receive(pair.server, len(wrong)), "what isn't read")
            pair.close()
            refused = proxy.ask()
            check(b"\xff\xd3\x07the connection can't", receive(refused, 400)[4:27], "a refusal")
            refused.close()
            proxy.stop()
            told = [it["kind"] for it in proxy.printed()]
        check(["login", "query", "unread", "end", "refused"], told, "what is told")
        check(b"what is there", victim.read_bytes(), "a file that a link names")
        found = pathlib.Path(folder, "1.client").read_bytes()
        check((True, False), (found.endswith(query("SELECT 1")), b"why" in found), "a recording's end")


def checks():
    """Returns all of them, by their names."""
    return [("passwords in recordings", check_hidden), ("the end of a recording", check_ends)]
