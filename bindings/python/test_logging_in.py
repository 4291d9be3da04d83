"""Tests of the clients' logins, to servers that are played here: `make check`."""

from __future__ import annotations

import asyncio
import contextlib
import importlib.util
import io
import itertools
import os
import pathlib
import shutil
import socket
import ssl
import subprocess
import sys
import tempfile
import threading
import unittest
from typing import Any, Callable, Iterator, List, Optional
from unittest import mock

EXAMPLES = pathlib.Path(__file__).resolve().parent / "examples"
sys.path.insert(0, str(EXAMPLES))

import async_client  # noqa: E402  (found by the line above)
import client  # noqa: E402
import passwords  # noqa: E402
import test_server  # noqa: E402

import mysql_session as ms  # noqa: E402
from mysql_session import Capability, Side  # noqa: E402

CAPABILITIES = int(Capability.PROTOCOL_41 | Capability.SECURE_CONNECTION | Capability.PLUGIN_AUTH
                   | Capability.DEPRECATE_EOF | Capability.SSL)
SCRAMBLE = b"abcdefghijklmnopqrst"
GREETING = ms.put_greeting(7, "9.7.0-test", CAPABILITIES, SCRAMBLE[:8], SCRAMBLE[8:],
                           "caching_sha2_password")
FULL, FAST, OK = b"\x01\x04", b"\x01\x03", b"\0\0\0\2\0\0\0"


def openssl(*words: str, data: bytes = b"") -> bytes:
    """What the program openssl makes."""
    return subprocess.run(["openssl", *words], input=data, stdout=subprocess.PIPE, check=True,
                          stderr=subprocess.DEVNULL).stdout


def needs_cryptography(test: Any) -> Any:
    """Leaves a test out where nothing encrypts by a key."""
    is_there = importlib.util.find_spec("cryptography") is not None
    return unittest.skipUnless(is_there, "there is no python3-cryptography")(test)


@unittest.skipUnless(shutil.which("openssl"), "there is no openssl")
class Keys(unittest.TestCase):
    """A folder with a server's key and certificate, which openssl makes."""

    @classmethod
    def setUpClass(cls) -> None:
        cls.room = tempfile.TemporaryDirectory()
        cls.key, cls.certificate, cls.rsa = (os.path.join(cls.room.name, it)
                                             for it in ("key.pem", "certificate.pem", "rsa.pem"))
        openssl("req", "-x509", "-newkey", "ec", "-pkeyopt", "ec_paramgen_curve:prime256v1", "-nodes",
                "-keyout", cls.key, "-out", cls.certificate, "-days", "2", "-subj",
                "/CN=db.example", "-addext", "subjectAltName=DNS:db.example")
        openssl("genrsa", "-out", cls.rsa, "2048")
        cls.public = openssl("rsa", "-in", cls.rsa, "-pubout")

    @classmethod
    def tearDownClass(cls) -> None:
        cls.room.cleanup()

    def decrypted(self, sent: bytes) -> bytes:
        """The password that openssl reads of what was encrypted."""
        path = os.path.join(self.room.name, "sent")
        pathlib.Path(path).write_bytes(sent)
        found = openssl("pkeyutl", "-decrypt", "-inkey", self.rsa, "-in", path, "-pkeyopt",
                        "rsa_padding_mode:oaep")
        return bytes(it ^ mixed for it, mixed in zip(found, itertools.cycle(SCRAMBLE)))


class Server:
    """A server that says payloads in turn, and keeps what a client answers. Its packets are counted
    by hand, so that they count the request for TLS."""

    def __init__(self, *said: bytes, tls: Optional[ssl.SSLContext] = None) -> None:
        self.said, self.tls = said, tls
        self.heard: List[bytes] = []
        self.numbers: List[int] = []

    def serve(self, listener: socket.socket) -> None:
        """Greets a client, and says each payload behind an answer. OK follows at once."""
        stream, _ = listener.accept()
        with stream, contextlib.suppress(OSError):
            stream.sendall(ms.put_packet(GREETING)[0])
            if self.tls:
                self._hear(stream)
                with self.tls.wrap_socket(stream, server_side=True) as secure:
                    self._go_on(secure)
            else:
                self._go_on(stream)

    def _go_on(self, stream: socket.socket) -> None:
        number = self._hear(stream)
        for payload in self.said:
            number += 1
            stream.sendall(ms.put_packet(payload, number)[0])
            if payload not in (OK, FAST):
                number = self._hear(stream)
        while stream.recv(1000):
            pass

    def _hear(self, stream: socket.socket) -> int:
        """The number of the client's next packet, which is kept."""
        head = exactly(stream, 4)
        self.heard.append(exactly(stream, int.from_bytes(head[:3], "little")))
        self.numbers.append(head[3])
        return head[3]


def exactly(stream: socket.socket, size: int) -> bytes:
    """So many bytes; OSError where they end before."""
    data = b""
    while len(data) < size:
        piece = stream.recv(size - len(data))
        if not piece:
            raise OSError("the client has gone")
        data += piece
    return data


@contextlib.contextmanager
def playing(server: Server, family: int = socket.AF_INET) -> Iterator[Any]:
    """The server's address, while it plays."""
    with tempfile.TemporaryDirectory() as room, socket.socket(family) as listener:
        listener.bind(("127.0.0.1", 0) if family == socket.AF_INET else os.path.join(room, "socket"))
        listener.listen()
        thread = threading.Thread(target=server.serve, args=(listener,))
        thread.start()
        yield listener.getsockname()
        thread.join()


def log_in(address: Any, by: client.Protection = client.Protection()) -> None:
    """A client's login, which waits."""
    stream = socket.socket(socket.AF_UNIX if isinstance(address, str) else socket.AF_INET)
    stream.connect(address)
    with client.Client(stream) as it:
        it.log_in("ann", "s\u00e9cret", by=by)


def log_in_async(address: Any, by: client.Protection = client.Protection()) -> None:
    """The same by asyncio."""
    async def work() -> None:
        reader, writer = await asyncio.open_connection(*address)
        async with async_client.AsyncClient(reader, writer) as it:
            await it.log_in("ann", "s\u00e9cret", by=by)

    asyncio.run(work())


LOGINS: List[Callable[..., None]] = [log_in]
if sys.version_info >= (3, 11):
    LOGINS.append(log_in_async)


class Passwords(Keys):
    PASSWORD = "s\u00e9cret".encode()

    def test_hashes(self) -> None:
        """Those that the program in C of docs/LOGGING_IN.md prints, by OpenSSL."""
        self.assertEqual(passwords.native(b"secret", b"tsrqponmlkjihgfedcba").hex(),
                         "f46fbb4415125666addcfab92696d872d418eea8")
        self.assertEqual(passwords.caching(b"secret", b"abcdefghijklmnopqrst").hex(),
                         "c76e2898612a4cf042c77fa8c4702c4c64c0c2c557c53c4d75595aaa6abae809")

    @needs_cryptography
    def test_encrypted(self) -> None:
        for password in (b"", b"a", self.PASSWORD, b"x" * 213):
            sent = [passwords.encrypted(password, SCRAMBLE, self.public) for _ in range(2)]
            self.assertNotEqual(*sent)
            self.assertEqual([self.decrypted(it) for it in sent], [password + b"\0"] * 2)
        with self.assertRaises(ValueError):
            passwords.encrypted(b"x" * 214, SCRAMBLE, self.public)
        lines = self.public.split(b"\n")
        for wrong in (b"", b"x", b"\xff", self.public[:100], b"\n".join([lines[0], lines[2]]),
                      openssl("pkey", "-in", self.key, "-pubout")):
            with self.assertRaises(ValueError, msg=wrong):
                passwords.encrypted(b"a", SCRAMBLE, wrong)

    def test_known_by_the_server(self) -> None:
        """A server that knows the password says a byte 3, and OK behind it."""
        for login in LOGINS:
            server = Server(FAST, OK)
            with playing(server) as address:
                login(address)
            self.assertEqual(server.heard[0][-len("caching_sha2_password") - 1:-1],
                             b"caching_sha2_password")
            self.assertIn(passwords.caching(self.PASSWORD, SCRAMBLE), server.heard[0])

    @needs_cryptography
    def test_key_that_is_asked_for(self) -> None:
        for login in LOGINS:
            server = Server(FULL, b"\x01" + self.public, OK)
            with playing(server) as address:
                login(address, client.Protection(asks_key=True))
            self.assertEqual((server.heard[1], server.numbers), (b"\x02", [1, 3, 5]))
            self.assertEqual(self.decrypted(server.heard[2]), self.PASSWORD + b"\0")

    @needs_cryptography
    def test_key_that_is_known(self) -> None:
        for login in LOGINS:
            server = Server(FULL, OK)
            with playing(server) as address:
                login(address, client.Protection(key=self.public))
            self.assertEqual(self.decrypted(server.heard[1]), self.PASSWORD + b"\0")

    def test_without_cryptography(self) -> None:
        """A word names the package, and no password goes."""
        for login in LOGINS:
            server = Server(FULL)
            with playing(server) as address, \
                    mock.patch.dict(sys.modules, {"cryptography.hazmat.primitives.hashes": None}), \
                    self.assertRaisesRegex(ImportError, "python3-cryptography"):
                login(address, client.Protection(key=self.public))
            self.assertEqual(len(server.heard), 1)

    def test_local_socket(self) -> None:
        server = Server(FULL, OK)
        with playing(server, socket.AF_UNIX) as address:
            log_in(address)
        self.assertEqual(server.heard[1], self.PASSWORD + b"\0")

    def test_without_a_way(self) -> None:
        """Where no way is told the password stays here, and no key is asked for."""
        for login in LOGINS:
            server = Server(FULL)
            with playing(server) as address, self.assertRaisesRegex(PermissionError, "TLS"):
                login(address)
            self.assertEqual(len(server.heard), 1)

    def tls(self) -> ssl.SSLContext:
        """That of the server."""
        made = ssl.SSLContext(ssl.PROTOCOL_TLS_SERVER)
        made.load_cert_chain(self.certificate, self.key)
        return made

    def test_tls(self) -> None:
        """The request is what the login begins with; packets go on counting from it."""
        verified = ssl.create_default_context(cafile=self.certificate)
        for login in LOGINS:
            server = Server(FULL, OK, tls=self.tls())
            with playing(server) as address:
                login(address, client.Protection(verified, "db.example"))
            request, sent, password = server.heard
            self.assertEqual((len(request), password), (32, self.PASSWORD + b"\0"))
            self.assertTrue(int.from_bytes(request[:4], "little") & Capability.SSL)
            self.assertEqual(request[4:], sent[4:32])
            self.assertEqual(server.numbers, [1, 2, 4])

    def test_tls_that_is_not_verified(self) -> None:
        """Neither the login nor the password goes to a server of another name, or of nobody's."""
        for login, (context, host) in itertools.product(LOGINS, [
                (ssl.create_default_context(cafile=self.certificate), "other.example"),
                (ssl.create_default_context(), "db.example")]):
            server = Server(FULL, OK, tls=self.tls())
            with playing(server) as address, self.assertRaises(ssl.SSLError):
                login(address, client.Protection(context, host))
            self.assertEqual([len(it) for it in server.heard], [32])

    def test_server_without_tls(self) -> None:
        for login in LOGINS:
            out = io.StringIO()
            with contextlib.redirect_stdout(out), contextlib.redirect_stderr(out), \
                    test_server.serving({}) as port, \
                    self.assertRaisesRegex(PermissionError, "no TLS"):
                login(("127.0.0.1", port),
                      client.Protection(ssl.create_default_context(), "db.example"))
            self.assertNotIn("client 1: ann", out.getvalue())


class Asynchronous(unittest.TestCase):
    """The client over asyncio's streams."""

    BROKEN = {"columns": {"n": "bigint"}, "rows": [[1], [2]]}

    def run_with(self, answers: Any, work: Callable[[async_client.AsyncClient], Any]) -> Any:
        """Work with a client of the test server."""
        async def connected(port: int) -> Any:
            reader, writer = await asyncio.open_connection("127.0.0.1", port)
            async with async_client.AsyncClient(reader, writer) as it:
                await it.log_in("ann", "x", "shop")
                return await work(it)

        out = io.StringIO()
        with contextlib.redirect_stdout(out), contextlib.redirect_stderr(out), \
                test_server.serving(answers) as port:
            return asyncio.run(connected(port))

    def test_rows(self) -> None:
        async def work(it: async_client.AsyncClient) -> List[Any]:
            found: List[Any] = []
            async for rows in it.rows("SELECT n"):
                found += rows
            with self.assertRaisesRegex(client.Refused, "^error 1064"):
                async for rows in it.rows("SELECT m"):
                    found += rows
            [rows_again] = await it.query("SELECT n")
            assert isinstance(rows_again, ms.Rows)
            return found + rows_again.rows

        table = {"SELECT n": {"columns": {"n": "bigint"}, "rows": [[it] for it in range(5000)]}}
        found = self.run_with(table, work)
        self.assertEqual(found, [(it,) for it in range(5000)]
                         + [(b"%d" % it,) for it in range(5000)])

    def test_cancelled(self) -> None:
        """Behind a task that was cancelled within a reply no command is taken."""
        async def work(it: async_client.AsyncClient) -> None:
            rows = it.rows("SELECT n")
            await rows.__anext__()
            await rows.aclose()  # type: ignore[attr-defined]
            self.assertIs(it.connection.turn, Side.SERVER)
            with self.assertRaisesRegex(ms.MySQLSessionError, "or close the connection"):
                await it.query("SELECT n")

        table = {"SELECT n": {"columns": {"n": "bigint"}, "rows": [[it] for it in range(9)]}}
        self.run_with(table, work)

    def test_program(self) -> None:
        table = {"SELECT 1": {"columns": {"1": "bigint"}, "rows": [[1]]}}
        with contextlib.redirect_stdout(io.StringIO()), contextlib.redirect_stderr(io.StringIO()), \
                test_server.serving(table) as port:
            words = [sys.executable, str(EXAMPLES / "async_client.py"), f"127.0.0.1:{port}", "--user",
                     "ann", "--query", "SELECT 1", "--query", "SELECT 2"]
            done = subprocess.run(words, stdout=subprocess.PIPE, stderr=subprocess.PIPE, timeout=60,
                                  universal_newlines=True)
        self.assertEqual((done.returncode, done.stdout), (1, "SELECT 1: (1,)\nSELECT 1: 1 rows\n"))
        self.assertEqual(done.stderr, "async_client: SELECT 2: error 1064 (42000): no answer to this "
                         "query is known: select 2\n")


if __name__ == "__main__":
    unittest.main()
