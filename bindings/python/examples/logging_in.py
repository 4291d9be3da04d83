"""A login as it goes on, without a socket: what a client puts behind each event.

    login = Login("ann", "secret", "shop")
    payload = login.payload(greeting, capabilities, 0, limit)
    payload = login.answer(event)  # of each event behind it; None where nothing is put

By TLS the client first sends a request for it, by `secure_request`. A `Connection` sees no request,
so that the login's packets count one further than it does. `secured` and `counted_back` turn the one
into the other.
"""

from __future__ import annotations

import argparse
import pathlib
import ssl
from typing import NamedTuple, Optional

from passwords import CACHING, NATIVE, PLUGINS, encrypted

import mysql_session as ms
from mysql_session import Capability

# What a server of caching_sha2_password says where it wants the password itself, and what asks it for
# its key.
FULL, ASK = b"\x04", b"\x02"

# How far a request for TLS goes, which a login begins with too.
REQUEST = 32


class Refused(Exception):
    """The server refuses a login or a command, by this error."""

    def __init__(self, error: ms.ServerError) -> None:
        message = error.message.decode(errors="replace")
        super().__init__(f"error {error.code} ({error.state.decode()}): {message}")
        self.error = error


class Protection(NamedTuple):
    """How a password goes that a server wants itself, where no socket of this machine is private."""

    tls: Optional[ssl.SSLContext] = None
    """All but the greeting goes by TLS. The context verifies the server."""
    host: Optional[str] = None
    """The server's name, where the context looks at it."""
    key: Optional[bytes] = None
    """The server's public key, in PEM: without TLS it encrypts the password."""
    asks_key: bool = False
    """The server is asked for its key. Nothing says then whose key it is."""

    @staticmethod
    def add_options(parser: argparse.ArgumentParser) -> None:
        """Adds the options of a command line, which are named as those of the `mysql` client."""
        parser.add_argument("--ssl-mode", choices=("DISABLED", "VERIFY_CA", "VERIFY_IDENTITY"),
                            default="DISABLED", help="go by TLS, and what of the server's "
                            "certificate is verified (DISABLED: without TLS)")
        parser.add_argument("--ssl-ca", metavar="FILE", help="the authorities that sign the server's "
                            "certificate, in PEM (those of this machine)")
        parser.add_argument("--server-public-key-path", metavar="FILE",
                            help="the server's public key, for a password without TLS")
        parser.add_argument("--get-server-public-key", action="store_true",
                            help="ask the server for its key, which nothing verifies")

    @classmethod
    def of_options(cls, given: argparse.Namespace, host: str) -> Protection:
        """What the command line says. Raises OSError and ssl.SSLError."""
        tls = None
        if given.ssl_mode != "DISABLED":
            tls = ssl.create_default_context(cafile=given.ssl_ca)
            tls.check_hostname = given.ssl_mode == "VERIFY_IDENTITY"
        path = given.server_public_key_path
        key = pathlib.Path(path).read_bytes() if path else None
        return cls(tls, host, key, given.get_server_public_key)


class Login:
    """Who logs in. Over a socket of this machine the password is private, as it is by TLS."""

    def __init__(self, user: str, password: str = "", database: str = "",
                 by: Protection = Protection(), *, is_local: bool = False) -> None:
        self._user, self._password, self._database = user, password.encode(), database
        self._by, self._is_private = by, is_local or by.tls is not None
        self._plugin, self._scramble = NATIVE, b""

    def payload(self, greeting: ms.GreetingEvent, capabilities: int, mariadb_capabilities: int,
                limit: int) -> bytes:
        """The login that answers a greeting, with those of the capabilities that the server has."""
        # Of a plugin that isn't known here the server hears by a switch.
        plugin = greeting.plugin if greeting.plugin in PLUGINS else NATIVE
        return ms.put_login(self._user, capabilities & greeting.capabilities,
                            self._response(plugin, greeting.scramble), self._database, plugin,
                            mariadb_capabilities & greeting.mariadb_capabilities, limit)

    def answer(self, event: ms.Event) -> Optional[bytes]:
        """What is put behind an event of the login, or None.

        Raises Refused where the server refuses. Raises PermissionError where it asks for a plugin
        that isn't known here, or for the password itself where that can't go.
        """
        if isinstance(event, ms.AuthSwitchEvent):
            return self._response(event.plugin, event.data)
        if isinstance(event, ms.DeniedEvent):
            raise Refused(ms.ServerError(event.code, event.state, event.message))
        if not isinstance(event, ms.AuthMoreEvent) or self._plugin != CACHING:
            return None
        if event.data == FULL:
            return self._password_itself()
        if event.data.startswith(b"-----BEGIN") and self._by.asks_key:
            return encrypted(self._password, self._scramble, event.data)
        return None

    def _response(self, plugin: bytes, scramble: bytes) -> bytes:
        """What proves the password by a plugin; of no password no bytes."""
        # A zero may stand behind the 20 bytes.
        self._plugin, self._scramble = plugin, scramble[:20]
        if not self._password:
            return b""
        if plugin not in PLUGINS:
            raise PermissionError(f"the server asks for {plugin.decode(errors='replace')}")
        return PLUGINS[plugin](self._password, self._scramble)

    def _password_itself(self) -> bytes:
        """The password, or what asks for the key that encrypts it."""
        if self._is_private:
            return self._password + b"\0"
        if self._by.key is not None:
            return encrypted(self._password, self._scramble, self._by.key)
        if self._by.asks_key:
            return ASK
        raise PermissionError("the server wants the password itself: that needs TLS, or its public key")


# ---- By TLS -------------------------------------------------------------------------------------


def secure_request(login: bytes) -> bytes:
    """The packet that asks for TLS before a login: what that begins with."""
    return ms.put_packet(_secured(login)[:REQUEST], 1)[0]


def secured(packets: bytes) -> bytes:
    """The packet of a login, or of an answer behind it, as it is sent by TLS."""
    return packets[:3] + bytes([packets[3] + 1 & 0xFF]) + packets[4:]


def counted_back(packet: bytes) -> bytes:
    """A packet of the server's, as it would be without TLS."""
    return packet[:3] + bytes([packet[3] - 1 & 0xFF]) + packet[4:]


def _secured(login: bytes) -> bytes:
    """A login that says that TLS goes before it."""
    capabilities = int.from_bytes(login[:4], "little") | Capability.SSL
    return capabilities.to_bytes(4, "little") + login[4:]
