"""Clients of today log in through bindings/audit by their defaults and its sample of settings.

`bindings/test --server` calls `check_defaults` at each server that `tools/servers` has set up. The
clients are those of the server's own Debian. The server has no hash of the password in its cache.
"""

import contextlib
import json
import os
import pathlib
import re
import socket
import subprocess

from .by_hand import Client as ByHand
from .support import BINDINGS, Failure, compare, run

SAMPLE = os.path.join(BINDINGS, "audit", "mysql-audit.conf")
NAME, PASSWORD = "by_defaults", "secret"
TEXT = "SELECT 'by defaults' AS said"
SSL = 1 << 11


def settings(room, port):
    """Writes the sample with files and ports for the test, and returns its file."""
    places = {"listen": "127.0.0.1:0", "upstream": f"127.0.0.1:{port}", "log": f"{room}/log",
              "tls-cert": f"{room}/cert.pem", "tls-key": f"{room}/key.pem"}
    text = pathlib.Path(SAMPLE).read_text(encoding="utf-8")
    for name, place in places.items():
        text, count = re.subn(rf"^{name} = .*$", f"{name} = {place}", text, flags=re.M)
        compare(count, 1)
    file = pathlib.Path(room, "settings")
    file.write_text(text, encoding="utf-8")
    # As the sample says how to make one for a trial.
    run(["openssl", "req", "-x509", "-newkey", "rsa:2048", "-nodes", "-days", "2", "-subj",
         "/CN=localhost", "-addext", "subjectAltName=DNS:localhost", "-keyout",
         places["tls-key"], "-out", places["tls-cert"]])
    return file


@contextlib.contextmanager
def audit(program, file):
    """Runs the program, and gives its port."""
    with subprocess.Popen([program, "--config", file, "--grace", "1"], text=True,
                          stdout=subprocess.DEVNULL, stderr=subprocess.PIPE) as ran:
        said = ran.stderr.readline()
        try:
            if "listening at" not in said:
                raise Failure(f"the audit doesn't begin: {said}")
            yield int(said.rpartition(":")[2])
        finally:
            ran.terminate()
            ran.wait(60)


def offers_tls(port):
    """Returns whether a server's greeting offers TLS."""
    with socket.create_connection(("127.0.0.1", port), 60) as stream:
        greeting = stream.recv(4096)
        at = greeting.index(b"\0", 5) + 14
        return bool(int.from_bytes(greeting[at:at + 2], "little") & SSL)


@contextlib.contextmanager
def account(port, user, database):
    """Gives a call that has the server forget what it knows of the account."""
    with ByHand(port, user, database) as it:
        ask = lambda text: it.query(text.encode())
        ask(f"DROP USER IF EXISTS {NAME}")
        ask(f"CREATE USER {NAME} IDENTIFIED BY '{PASSWORD}'")
        ask(f"GRANT ALL ON {database}.* TO {NAME}")
        try:
            yield lambda: ask("FLUSH PRIVILEGES")
        finally:
            ask(f"DROP USER {NAME}")


def check_defaults(program, enter, room, port, is_mysql, user, database):
    """The clients of a server's Debian log in by their defaults, with a password that the server doesn't
    have in its cache. What they say is told, and TLS is on both sides where the server has it."""
    os.makedirs(room, exist_ok=True)
    client, dump = ("mysql", "mysqldump") if is_mysql else ("mariadb", "mariadb-dump")
    tls = offers_tls(port)
    with account(port, user, database) as forget, audit(program, settings(room, port)) as mine:
        where = ["--no-defaults", "--host=127.0.0.1", f"--port={mine}", f"--user={NAME}",
                 f"--password={PASSWORD}"]
        ways = [[client, *where, "--batch", f"--execute={TEXT}", database],
                [dump, *where, "--no-tablespaces", "--skip-comments", database]]
        if is_mysql:
            ways += [[client, *where, f"--ssl-mode={mode}", "--batch", f"--execute={TEXT}", *more]
                     for mode, more in (("REQUIRED", []), ("DISABLED", ["--get-server-public-key"]))]
        for words in ways:
            forget()
            said = run([*enter, *words])
            if words[0] == client and "by defaults" not in said:
                raise Failure(f"{' '.join(words)} prints {said}")
    lines = [json.loads(it) for it in pathlib.Path(room, "log").read_text().splitlines()]
    compare([it for it in lines if it["kind"] in ("cut", "unread")], [])
    logins = [(it["user"], "tls" in it, "tls_server" in it) for it in lines if it["kind"] == "login"]
    plain = [(NAME, False, False)] * is_mysql
    compare(logins, [(NAME, tls, tls)] * (len(ways) - is_mysql) + plain)
    compare(sum(it.get("text") == TEXT for it in lines), len(ways) - 1)
