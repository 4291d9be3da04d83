"""What proves a password to a server, as docs/LOGGING_IN.md has it.

By `native` and `caching` nobody who reads along learns the password. A server of caching_sha2_password that doesn't know it yet wants the password itself. It goes as it
is over TLS or a local socket, else `encrypted` by the server's public key.
"""

from __future__ import annotations

import importlib
import itertools
from hashlib import sha1, sha256
from typing import Any, Callable, Dict, Iterable

NATIVE, CACHING = b"mysql_native_password", b"caching_sha2_password"


def native(password: bytes, scramble: bytes) -> bytes:
    """What proves a password by mysql_native_password."""
    once = sha1(password).digest()
    return xor(once, sha1(scramble + sha1(once).digest()).digest())


def caching(password: bytes, scramble: bytes) -> bytes:
    """The same by caching_sha2_password."""
    once = sha256(password).digest()
    return xor(once, sha256(sha256(once).digest() + scramble).digest())


PLUGINS: Dict[bytes, Callable[[bytes, bytes], bytes]] = {NATIVE: native, CACHING: caching}


def encrypted(password: bytes, scramble: bytes, key: bytes) -> bytes:
    """The password and a zero, mixed with the scramble, by a server's public key in PEM: RSA with OAEP
    by SHA-1, of Debian's python3-cryptography. Raises ValueError where the key is none, or too small.
    Raises ImportError where that package isn't there."""
    hashes, serialization, padding, rsa = (
        primitive(it) for it in ("hashes", "serialization", "asymmetric.padding", "asymmetric.rsa"))
    public = serialization.load_pem_public_key(key)
    if not isinstance(public, rsa.RSAPublicKey):
        raise ValueError("the server's key isn't of RSA")
    text = xor(password + b"\0", itertools.cycle(scramble))
    by_sha1 = padding.OAEP(padding.MGF1(hashes.SHA1()), hashes.SHA1(), None)
    return bytes(public.encrypt(text, by_sha1))


def primitive(name: str) -> Any:
    """A module of the package cryptography, which is imported where a key is used alone."""
    try:
        return importlib.import_module("cryptography.hazmat.primitives." + name)
    except ImportError as error:
        raise ImportError("the password is encrypted by the package cryptography (Debian: "
                          "python3-cryptography), which isn't there: go by TLS") from error


def xor(one: bytes, other: Iterable[int]) -> bytes:
    """The bits of one with those of the other, which is as long or longer."""
    return bytes(it ^ mixed for it, mixed in zip(one, other))
