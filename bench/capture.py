#!/usr/bin/env python3
"""Writes a capture of a connection of the inputs, as tcpdump would: capture.py FOLDER/inputs queries|executions|rows FILE

The packets of both sides are TCP segments in their order, the server at port 3306. `tshark -r FILE -T fields -e mysql.query` reads it."""
import os
import struct
import sys

INPUTS, KIND, FILE = sys.argv[1:4]
# As much as an Ethernet frame carries.
SEGMENT = 1448
ADDRESSES = {"client": (bytes([10, 0, 0, 1]), 40000), "server": (bytes([10, 0, 0, 2]), 3306)}


def load(name):
    with open(os.path.join(INPUTS, name), "rb") as file:
        return file.read()


def packets(stream):
    at = 0
    while at < len(stream):
        end = at + 4 + int.from_bytes(stream[at:at + 3], "little")
        yield stream[at:end]
        at = end


def chunks(stream, size):
    return (stream[at:at + size] for at in range(0, len(stream), size))


def turns():
    """Of each side what it sends until the other one's turn."""
    greeting, accepted = packets(load("login-server"))
    yield from (("server", greeting), ("client", load("login-client")), ("server", accepted))
    commands = packets(load("executes" if KIND == "executions" else "texts"))
    if KIND == "rows":
        yield from (("client", next(commands)), ("server", load("reply-text")))
        return
    if KIND == "executions":
        yield from (("client", load("prepare")), ("server", load("prepared")))
    replies = load("replies-binary" if KIND == "executions" else "replies-text")
    for command, reply in zip(commands, chunks(replies, len(replies) // 10_000)):
        yield from (("client", command), ("server", reply))


def summed(data):
    total = sum(struct.unpack(f">{len(data) // 2}H", data))
    while total >> 16:
        total = (total & 0xffff) + (total >> 16)
    return ~total & 0xffff


class Capture:
    def __init__(self, file):
        self.file = file
        self.count = 0
        self.sent = {"client": 1000, "server": 2000}
        file.write(struct.pack("<IHHiIII", 0xa1b2c3d4, 2, 4, 0, 0, 65535, 101))

    def segment(self, side, flags, data=b""):
        other = "server" if side == "client" else "client"
        (source, source_port), (target, target_port) = ADDRESSES[side], ADDRESSES[other]
        tcp = struct.pack(">HHIIBBHHH", source_port, target_port, self.sent[side], self.sent[other] if flags & 16 else 0, 80, flags, 65535, 0, 0)
        head = struct.pack(">BBHHHBBH", 69, 0, 40 + len(data), self.count & 0xffff, 0, 64, 6, 0) + source + target
        head = head[:10] + struct.pack(">H", summed(head)) + head[12:]
        packet = head + tcp + data
        self.file.write(struct.pack("<IIII", self.count // 1_000_000, self.count % 1_000_000, len(packet), len(packet)) + packet)
        self.count += 1
        self.sent[side] = (self.sent[side] + len(data) + (flags & 3 != 0)) & 0xffffffff


with open(FILE, "wb") as out:
    capture = Capture(out)
    for who, what in ("client", 2), ("server", 18), ("client", 16):
        capture.segment(who, what)
    for who, turn in turns():
        for piece in chunks(turn, SEGMENT):
            capture.segment(who, 24, piece)
