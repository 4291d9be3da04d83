"""Streams of packets and pieces of them, made without the library; programs with rows share it."""

LONGEST_CHUNK = 0xFFFFFF


def packets_of(payload, number):
    """A payload's packets, and the number that goes on behind them."""
    made = b""
    while True:
        chunk, payload = payload[:LONGEST_CHUNK], payload[LONGEST_CHUNK:]
        made += len(chunk).to_bytes(3, "little") + bytes([number]) + chunk
        number = (number + 1) % 256
        if len(chunk) < LONGEST_CHUNK:
            return made, number


def framed(payloads, number=0):
    """Payloads as packets, numbered one behind the other."""
    found = []
    for payload in payloads:
        packets, number = packets_of(payload, number)
        found.append(packets)
    return b"".join(found)


def payloads_of(stream):
    """The payloads of a stream that are whole, each with its packets."""
    at, began, held = 0, 0, b""
    while at + 4 <= len(stream):
        length = int.from_bytes(stream[at:at + 3], "little")
        if at + 4 + length > len(stream):
            return
        held += stream[at + 4:at + 4 + length]
        at += 4 + length
        if length < LONGEST_CHUNK:
            yield held, stream[began:at]
            began, held = at, b""


def pieces_of(data, size):
    """Bytes in pieces of this size."""
    return [data[at:at + size] for at in range(0, len(data), size)]
