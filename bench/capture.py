#!/usr/bin/env python3
"""Writes a capture of about this many bytes to the standard output.

usage: capture.py BYTES KIND [messages]

typical: acknowledgements, and data segments with 20 to 500 bytes of records, attributes and statuses,
in turns that a fixed generator chooses, so that each run writes the same capture. short: of all these
the shortest alone, acknowledgements, or statuses where messages are wanted. long: packets of 258 bytes
alone, each with a record. controls: GETs by the number of a record. With the word messages it writes the NSP
messages in place of the packets.
"""
import sys

from decnet import program

KINDS = ("typical", "short", "long", "controls")
ATTRIBUTES = bytes.fromhex("02020ba604100200000400000300060200")
CONTROL = bytes.fromhex("0402080103010401000000")
STATUS = bytes.fromhex("09020d00100401000000040100000000")


def numbers(seed=1):
    while True:
        seed = (seed * 6364136223846793005 + 1442695040888963407) % 2**64
        yield seed >> 33


def head(marks, number):
    return bytes([marks, 0x02, 0x01, 0x04, 0x03, number & 0xFF, 0x80 | number >> 8 & 0x0F])


def record(choose, count):
    length = count + 1
    size = [0x02, length] if length < 256 else [0x06, length % 256, length // 256]
    return bytes([0x08, *size, 0x00]) + bytes(next(choose) & 0xFF for _ in range(count))


def typical(choose):
    while True:
        kind = next(choose) % 4
        if kind == 0:
            yield None
        elif kind == 1:
            yield record(choose, 20 + next(choose) % 481)
        else:
            yield ATTRIBUTES if kind == 2 else STATUS


def short(choose, messages):
    while True:
        yield STATUS if messages else None


def long(choose):
    while True:
        yield record(choose, 245)


def controls():
    while True:
        yield CONTROL


def payloads(kind, choose, messages):
    """The NSP messages of a kind, and None for each acknowledgement."""
    if kind == "typical":
        return typical(choose)
    if kind == "controls":
        return controls()
    return long(choose) if kind == "long" else short(choose, messages)


def packet(payload, number):
    if payload is None:
        return head(0x04, number)
    return head(0x60, number) + (number & 0xFFF).to_bytes(2, "little") + payload


def main():
    words = sys.argv[1:]
    if len(words) < 2 or not words[0].isdecimal() or words[1] not in KINDS or words[2:] not in ([], ["messages"]):
        raise program.Fault(f"usage: capture.py BYTES {'|'.join(KINDS)} [messages]", program.WORDS)
    wanted, kind, messages = int(words[0]), words[1], bool(words[2:])
    choose = numbers()
    signs = [b"> ", b"< "]
    lines, size, number = [], 0, 0
    for payload in payloads(kind, choose, messages):
        if messages and payload is None:
            continue
        number += 1
        captured = payload if messages else packet(payload, number)
        line = signs[next(choose) % 2] + captured.hex().encode() + b"\n"
        if size + len(line) > wanted:
            break
        lines.append(line)
        size += len(line)
    sys.stdout.buffer.write(b"".join(lines))
    return 0


if __name__ == "__main__":
    program.run("capture.py", main)
