"""A connection whose statements have passwords: neither the auditing proxy nor the capture reader
may print them."""

import struct

# What nothing that is printed has, and neither has its digits.
PASSWORDS = (b"s3cret-tea", b"s3cret-cup")


def packet(number, payload):
    """A packet of this number."""
    return struct.pack("<I", len(payload))[:3] + bytes([number]) + payload


def front_of(stream, count):
    """The first packets of a stream."""
    at = 0
    for _ in range(count):
        at += 4 + int.from_bytes(stream[at:at + 3], "little")
    return stream[:at]


OK, END = b"\0\0\0\2\0\0\0", b"\xfe\0\0\2\0"
PARAMETER = b"\x03def\0\0\0\x01?\0\x0c\x3f\0\0\0\0\0\xfd\0\0\0\0\0"


def error(message):
    """An error of a text that can't be read."""
    return b"\xff\x28\x04#42000" + message


def column(name):
    """A column of a result set."""
    return (b"\x03def\0\0\0" + bytes([len(name)]) + name + b"\0\x0c\x2d\0" + b"\x50\0\0\0\xfd"
            + b"\0\0\0\0\0")


def conversation(client, server):
    """The streams of a connection. It begins as a recorded one does: with a greeting, a login and an
    OK packet. In that one packets end columns and rows."""
    tea, cup = PASSWORDS
    said = [
        (b"\x03SET PASSWORD = '" + tea + b"'", [OK]),
        (b"\x03ALTER USER ann IDENTIFIED BY '" + tea + b"' '" + cup + b"'",
         [error(b"near ''" + cup + b"'' at line 1")]),
        (b"\x03SELECT PASSWORD('" + tea + b"')",
         [b"\x01", column(b"PASSWORD('" + tea + b"')"), END, bytes([len(cup)]) + cup, END]),
        (b"\x16ALTER USER ann IDENTIFIED BY ?", [b"\0\7\0\0\0\0\0\1\0\0\0\0", PARAMETER, END]),
        (b"\x17\7\0\0\0\0\1\0\0\0\0\1\xfd\0" + bytes([len(tea)]) + tea, [OK]),
        (b"\x18\7\0\0\0\0\0" + cup, []),
        (b"\x17\7\0\0\0\0\1\0\0\0\0\1\xfd\0", [OK]),
        # A change of user with a byte behind its attributes is laid out as none.
        (b"\x11ann\0" + bytes([len(cup)]) + cup + b"shop\0\x2d\0mysql_clear_password\0\0!", [OK]),
        (b"\x03SELECT 'shown'", [OK]),
        (b"\x01", []),
    ]
    asked, answered = front_of(client, 1), front_of(server, 2)
    for command, replies in said:
        asked += packet(0, command)
        for number, reply in enumerate(replies, 1):
            answered += packet(number, reply)
    return asked, answered


def leaks(printed):
    """The passwords that a printed text has, also by their digits."""
    return [it for it in PASSWORDS if it.decode() in printed or it.hex() in printed]
