"""TLS of bindings/audit on each side: what passes, and what has to be refused."""

import contextlib
import os
import pathlib
import shutil
import signal
import ssl
import struct
import subprocess
import tempfile
import threading

from audit_support import COLUMN, EOF, OK, Pair, Program, lines_of, log_file, packet, query, receive
from recorded import SECONDS, check

SSL, CONNECT_WITH_DB, PROTOCOL_41, SECURE, PLUGIN = 0x800, 8, 0x200, 0x8000, 0x80000
BITS = CONNECT_WITH_DB | PROTOCOL_41 | SECURE | PLUGIN
FULL = b"\x01\x04"
SCRAMBLE = b"12345678123456789012"


# ---- Both ends ----------------------------------------------------------------------------------


@contextlib.contextmanager
def certificates():
    """Yields a folder with a CA, ca.pem, and what it signed, cert.pem and key.pem; other.pem is of
    another CA."""
    with tempfile.TemporaryDirectory(prefix="mysql-audit-tls-") as folder:
        for name in ("ca", "other"):
            openssl(folder, "req -x509 -newkey rsa:2048 -nodes -days 2 -subj", f"/CN={name}",
                    f"-keyout {name}.key -out {name}.pem")
        make_certificate(folder)
        yield pathlib.Path(folder)


def make_certificate(folder):
    """Makes cert.pem and key.pem anew."""
    openssl(folder, "req -newkey rsa:2048 -nodes -subj", "/CN=localhost", "-keyout key.pem -out csr")
    pathlib.Path(folder, "names").write_text("subjectAltName=DNS:localhost\n")
    openssl(folder, "x509 -req -in csr -CA ca.pem -CAkey ca.key -CAcreateserial -days 2", "-extfile",
            "names -out cert.pem")
    os.chmod(pathlib.Path(folder, "key.pem"), 0o600)


def openssl(folder, *words):
    """Runs the program of OpenSSL."""
    split = [it for word in words for it in ([word] if word.startswith("/") else word.split())]
    subprocess.run(["openssl", *split], cwd=folder, check=True, stderr=subprocess.DEVNULL)


def greeting(bits):
    """Returns a server's greeting with these capabilities, and a plugin."""
    low, high = struct.pack("<I", bits)[:2], struct.pack("<I", bits)[2:]
    return packet(0, b"\x0a9.7.4\0\x07\0\0\0" + SCRAMBLE[:8] + b"\0" + low + b"\x21\x02\0" + high
                  + b"\x15" + bytes(10) + SCRAMBLE[8:] + b"\0caching_sha2_password\0")


def front(bits):
    """Returns what a login and the request for TLS before it begin with."""
    return struct.pack("<I", bits) + b"\0\0\0\x01\x21" + bytes(23)


def login(bits, plugin=b"caching_sha2_password", response=b"12345678"):
    """Returns the payload of a login."""
    return (front(bits) + b"ann\0" + bytes([len(response)]) + response + b"shop\0" + plugin + b"\0")


def read_packet(stream):
    """Returns the number and the payload of a packet, or None at the end."""
    header = receive(stream, 4)
    return (header[3], receive(stream, int.from_bytes(header[:3], "little"))) if header else None


def context_of(folder):
    """Returns what a server begins TLS with."""
    context = ssl.SSLContext(ssl.PROTOCOL_TLS_SERVER)
    context.load_cert_chain(folder / "cert.pem", folder / "key.pem")
    return context


class Secured(Pair):
    """A client and its server, of which each may have TLS."""

    def __init__(self, proxy, folder, offers=SSL, asks=True, bits=BITS):
        super().__init__(proxy, logs_in=False)
        self.folder, self.number, self.bits = folder, 1, bits
        self.server.sendall(greeting(BITS | offers))
        self.greeted = read_packet(self.client)
        if asks:
            self.client.sendall(packet(1, front(bits | SSL)))
            context = ssl.create_default_context(cafile=folder / "ca.pem")
            self.client = context.wrap_socket(self.client, server_hostname="localhost")
            self.number, self.bits = 2, bits | SSL

    def logs_in(self, **how):
        """The client sends its login."""
        self.client.sendall(packet(self.number, login(self.bits, **how)))

    def accepts_tls(self, context=None):
        """The server is asked for TLS, and begins it."""
        check((1, front(BITS | SSL)), read_packet(self.server), "the request for TLS")
        context = context or context_of(self.folder)
        self.server = context.wrap_socket(self.server, server_side=True)

    def hears(self, number, payload):
        """The server hears this."""
        check((number, payload), read_packet(self.server), "what the server hears")

    def is_told(self, number, payload):
        """The client is told this."""
        check((number, payload), read_packet(self.client), "what the client is told")

    def is_refused(self, number, code):
        """The client gets an error of this code, and nothing goes to the server."""
        found, said = read_packet(self.client)
        check((number, code), (found, int.from_bytes(said[1:3], "little")), f"a refusal: {said}")
        with contextlib.suppress(OSError):  # (it may be closed, or reset)
            check(b"", self.server.recv(1), "what the server hears of it")
        self.close()


def pair_of(folder):
    """Returns the words that name the certificate of the proxy."""
    return ["--tls-cert", str(folder / "cert.pem"), "--tls-key", str(folder / "key.pem")]


def cuts_of(proxy):
    """Ends the program, and returns why connections were cut, with their users."""
    proxy.stop()
    return [(it["user"], it["text"]) for it in proxy.printed() if it["kind"] == "cut"]


# ---- What passes --------------------------------------------------------------------------------


def check_both(executable):
    """With a certificate TLS is on both sides where the client has it, and on neither else."""
    with certificates() as folder:
        for options in ([], ["--strict"]):
            with log_file() as log, Program(executable, *pair_of(folder), "--log", str(log),
                                            *options) as proxy:
                for asks in (True, False):
                    pair = Secured(proxy, folder, asks=asks)
                    pair.logs_in()
                    if asks:
                        pair.accepts_tls()
                    pair.hears(1 + asks, login(BITS | SSL * asks))
                    pair.server.sendall(packet(2 + asks, OK))
                    pair.is_told(2 + asks, OK)
                    pass_much(pair)
                    pair.close()
                proxy.stop()
                logins = [it for it in lines_of(log.read_text()) if it["kind"] == "login"]
                told = [[it.get(name, "none")[:3] for name in ("tls", "tls_server")]
                        for it in logins]
                check([["TLS", "TLS"], ["non", "non"]], told, "how sides are secured")


def pass_much(pair):
    """Long payloads pass in both directions."""
    asked = query("SELECT '" + "x" * 3000000 + "'")
    pair.client.settimeout(SECONDS)
    pair.client.setblocking(True)
    sends(pair.client, asked, pair.server)
    reply = packet(1, b"\x01") + packet(2, COLUMN) + packet(3, EOF)
    reply += packet(4, b"\xfd\xc0\xc6\x2d" + b"y" * 3000000) + packet(5, EOF)
    sends(pair.server, reply, pair.client)


def sends(one, said, other):
    """One end says something, which the other gets."""
    sender = threading.Thread(target=one.sendall, args=[said])
    sender.start()
    check(True, said == receive(other, len(said)), "what passes within TLS")
    sender.join(SECONDS)


def check_password(executable):
    """A plain client hides its password by the proxy's key where the server's side alone has TLS."""
    with certificates() as folder:
        options = ["--tls-server", "required", "--tls-server-alone"]
        with log_file() as log, Program(executable, *options, "--log", str(log)) as proxy:
            pair = Secured(proxy, folder, asks=False)
            pair.logs_in()
            pair.accepts_tls()
            pair.hears(2, login(BITS | SSL))
            pair.server.sendall(packet(3, FULL))
            pair.is_told(2, FULL)
            pair.client.sendall(packet(3, b"\x02"))
            number, key = read_packet(pair.client)
            check((4, b"\x01-----BEGIN PUBLIC KEY"), (number, key[:22]), "the key")
            pair.client.sendall(packet(5, hidden(folder, key[1:], b"secret\0")))
            pair.hears(4, b"secret\0")
            pair.server.sendall(packet(5, OK))
            pair.is_told(6, OK)
            pair.say("SELECT 1")
            pair.close()
            proxy.stop()
            told = log.read_text()
        check(["login", "query", "end"], [it["kind"] for it in lines_of(told)], "the lines")
        check(False, "secret" in told, "whether the password is told")


def hidden(folder, key, password):
    """Returns a password as clients hide it by a key."""
    (folder / "public").write_bytes(key)
    mixed = bytes(a ^ b for a, b in zip(password, SCRAMBLE))
    ran = subprocess.run(["openssl", "pkeyutl", "-encrypt", "-pubin", "-inkey", "public", "-pkeyopt",
                          "rsa_padding_mode:oaep"], cwd=folder, input=mixed, check=True,
                         stdout=subprocess.PIPE)
    return ran.stdout


def check_reload(executable):
    """A HUP has the certificate and the key read anew, and a bad one changes nothing."""
    with certificates() as folder:
        config = folder / "settings"
        config.write_text(f"tls-cert = {folder}/cert.pem\ntls-key = {folder}/key.pem\n")
        with Program(executable, "--config", str(config)) as proxy:
            def shown():
                pair = Secured(proxy, folder)
                found = pair.client.getpeercert(True)
                pair.close()
                return found
            first = shown()
            make_certificate(folder)
            check(first, shown(), "a certificate before a HUP")
            proxy.signal(signal.SIGHUP, "the settings were read")
            second = shown()
            check(False, first == second, "whether it is the first one behind a HUP")
            os.chmod(folder / "key.pem", 0o644)
            proxy.signal(signal.SIGHUP, "others can read it")
            check(second, shown(), "a certificate behind a bad HUP")
            proxy.stop()


# ---- What is refused ----------------------------------------------------------------------------


def check_plain_refused(executable):
    """Where TLS is required no client goes without, and none is offered what can't be had."""
    with certificates() as folder:
        with Program(executable, *pair_of(folder), "--tls-client", "required") as proxy:
            pair = Secured(proxy, folder, asks=False)
            pair.logs_in()
            pair.is_refused(2, 3159)
            pair = Secured(proxy, folder, offers=0, asks=False)
            check((0, b"\xff\xea\x07the server offers no TLS"), pair.greeted, "a greeting's place")
            pair.close()
            why = "Connections using insecure transport are prohibited"
            check([("", "the server offers no TLS"), ("ann", why)], sorted(cuts_of(proxy)), "the cuts")
        with Program(executable, "--tls-client", "disabled") as proxy:
            for asks in (BITS | SSL, BITS | 0x20):
                pair = Secured(proxy, folder, asks=False, bits=asks)
                pair.logs_in()
                pair.is_refused(2, 2026 if asks & SSL else 1043)


def check_clear_refused(executable):
    """No password goes in clear to a server without TLS, at a login and at a change of user."""
    switch = b"\xfemysql_clear_password\0"
    with certificates() as folder:
        with Program(executable, *pair_of(folder), "--tls-server", "disabled") as proxy:
            for asked in (FULL, FULL + b"\0", switch):
                pair = Secured(proxy, folder, offers=0)
                pair.logs_in()
                pair.hears(1, login(BITS))
                pair.server.sendall(packet(2, asked))
                pair.is_refused(3, 2061)
            pair = Secured(proxy, folder, offers=0)
            pair.logs_in(plugin=b"mysql_clear_password")
            pair.is_refused(3, 2061)
            for asked in (FULL, switch):
                pair = Secured(proxy, folder, offers=0)
                pair.logs_in()
                pair.hears(1, login(BITS))
                pair.server.sendall(packet(2, OK))
                pair.is_told(3, OK)
                change = b"\x11bob\0\x0812345678shop\0\x21\0caching_sha2_password\0"
                pair.client.sendall(packet(0, change))
                pair.hears(0, change)
                pair.server.sendall(packet(1, asked))
                pair.is_refused(1, 2061)
            cuts = cuts_of(proxy)
            check((6, {"ann"}), (len(cuts), {it[0] for it in cuts}), f"the cuts: {cuts}")


def check_unread(executable):
    """Where TLS is wanted a login that can't be read doesn't pass, though others do. Nor do later bytes
    where the server's side has none."""
    passes = ["--on-fault", "pass"]
    with certificates() as folder:
        with Program(executable, *pair_of(folder), *passes, "--tls-server", "disabled") as proxy:
            pair = Secured(proxy, folder, offers=0)
            pair.logs_in()
            pair.hears(1, login(BITS))
            pair.server.sendall(packet(2, OK))
            pair.is_told(3, OK)
            pair.client.sendall(packet(0, b"\x03SELECT 1"))
            pair.hears(0, b"\x03SELECT 1")
            pair.server.sendall(packet(7, OK))
            with contextlib.suppress(OSError):
                check(b"", pair.client.recv(1), "what passes of a reply that can't be read")
            pair.close()
            check(1, len(cuts_of(proxy)), "cuts of what can't be read")
        with Program(executable, *pair_of(folder), *passes, "--tls-client", "required") as proxy:
            for unread in (packet(0, b"\x0a9.7.4"), packet(5, OK)):
                pair = Pair(proxy, logs_in=False)
                pair.server.sendall(unread)
                check(b"", receive(pair.client, 1), "what passes of a greeting that can't be read")
                pair.close()
            check(2, len(cuts_of(proxy)), "cuts of greetings that can't be read")


def check_requests(executable):
    """A login has the capabilities of the request for TLS, and nothing plain comes between."""
    with certificates() as folder:
        with Program(executable, *pair_of(folder)) as proxy:
            pair = Secured(proxy, folder)
            pair.bits |= 0x1000000
            pair.logs_in()
            pair.is_refused(3, 1043)
            pair = Secured(proxy, folder, asks=False)
            pair.client.sendall(packet(1, front(BITS | SSL)) + packet(2, login(BITS | SSL)))
            with contextlib.suppress(ConnectionError):
                check(b"", pair.server.recv(1), "what the server hears of a plain login")
            pair.close()
            pair = Secured(proxy, folder, asks=False)
            pair.client.sendall(packet(1, login(BITS | SSL)))
            pair.is_refused(2, 1043)


def check_server(executable):
    """A server whose certificate isn't the one that is wanted gets no login."""
    with certificates() as folder:
        ways = ((["verify-ca", "--tls-server-ca", str(folder / "ca.pem")], True),
                (["verify-ca", "--tls-server-ca", str(folder / "other.pem")], False),
                (["verify-identity", "--tls-server-ca", str(folder / "ca.pem")], False),
                (["verify-identity", "--tls-server-ca", str(folder / "ca.pem"),
                  "--tls-server-name", "localhost"], True))
        for words, is_taken in ways:
            with Program(executable, *pair_of(folder), "--tls-client", "required", "--tls-server",
                         *words) as proxy:
                for _ in range(2):  # The second one may go on from the session of the first.
                    pair = Secured(proxy, folder)
                    pair.logs_in()
                    if is_taken:
                        pair.accepts_tls()
                        pair.hears(2, login(BITS | SSL))
                        pair.close()
                        continue
                    with contextlib.suppress(OSError):
                        pair.accepts_tls()
                    pair.is_refused(3, 2026)
                check(0 if is_taken else 2, len(cuts_of(proxy)), f"cuts by {words[0]}")


def check_words(executable):
    """Settings that would weaken a side without a word don't begin, nor a key that others read."""
    with certificates() as folder:
        os.chmod(folder / "key.pem", 0o644)
        theirs = pair_of(folder)
        if os.getuid() == 0:
            shutil.copy(folder / "key.pem", folder / "theirs.pem")
            os.chmod(folder / "theirs.pem", 0o600)
            os.chown(folder / "theirs.pem", 1, -1)
            theirs[-1] = str(folder / "theirs.pem")
        for words, status, why in (
                (pair_of(folder), 1, "others can read it, or write it"),
                (theirs, 1, "another user's" if os.getuid() == 0 else "others can read it"),
                (["--tls-cert", "none", "--tls-key", "none"], 1, "No such file or directory"),
                (["--tls-client", "required"], 2, "it needs --tls-cert and --tls-key"),
                (["--tls-server", "required"], 2, "would take a plain client for a secure one")):
            ran = subprocess.run([executable, "127.0.0.1:0", "127.0.0.1:1", *words],
                                 stderr=subprocess.PIPE, text=True, timeout=SECONDS, check=False)
            check((status, True), (ran.returncode, why in ran.stderr), f"{words}: {ran.stderr}")


def check_resumed(executable):
    """The server's side goes on from the session before, by both versions of TLS."""
    for version in (ssl.TLSVersion.TLSv1_2, ssl.TLSVersion.TLSv1_3):
        with certificates() as folder, Program(executable, *pair_of(folder)) as proxy:
            context, found = context_of(folder), []
            context.maximum_version = version
            for _ in range(3):
                pair = Secured(proxy, folder)
                pair.logs_in()
                pair.accepts_tls(context)
                pair.hears(2, login(BITS | SSL))
                pair.server.sendall(packet(3, OK))
                pair.is_told(3, OK)
                found.append(pair.server.session_reused)
                pair.close()
            proxy.stop()
            check([False, True, True], found, f"sessions that go on, {version.name}")


def check_key_log(executable):
    """The keys of each side's sessions go to a file, which nobody else may read."""
    with certificates() as folder:
        keys = folder / "keys"
        words = [*pair_of(folder), "--tls-key-log", str(keys)]
        with Program(executable, *words) as proxy:
            pair = Secured(proxy, folder)
            pair.logs_in()
            pair.accepts_tls()
            pair.hears(2, login(BITS | SSL))
            pair.close()
            proxy.stop()
        found = {it.split()[1] for it in keys.read_text().splitlines()}
        check((2, 0o600), (len(found), keys.stat().st_mode & 0o777), "sessions of the key log")
        os.chmod(keys, 0o640)
        ran = subprocess.run([executable, "127.0.0.1:0", "127.0.0.1:1", *words], check=False,
                             stderr=subprocess.PIPE, text=True, timeout=SECONDS)
        check((1, True), (ran.returncode, "others can read it" in ran.stderr), ran.stderr)


def checks():
    """Returns all of them, by their names."""
    return [("a session that goes on", check_resumed), ("a key log", check_key_log), ("TLS on both sides", check_both), ("a hidden password", check_password),
            ("other certificates", check_reload), ("plain clients that are refused", check_plain_refused),
            ("passwords in clear", check_clear_refused), ("what can't be read with TLS", check_unread),
            ("requests for TLS", check_requests),
            ("a server's certificate", check_server), ("settings of TLS", check_words)]
