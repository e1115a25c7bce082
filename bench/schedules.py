#!/usr/bin/env python3
"""Writes a schedule to the standard output, in which each packet arrives once and in order.

usage: schedules.py window EVENTS | scattered PUTS | sparse PUTS | store RECORDS

window: about EVENTS events over a window of 8 segments of 64 bytes. Records of up to 440 bytes are put
into a sequential file; all segments of a record are written before the first is delivered.
scattered: PUTS puts by number into a relative file of PUTS records, in no order, of records of 30 bytes.
sparse: the same, into a file without a bound, spread over all numbers that it may have.
store: RECORDS records of a byte by one request, which is asked and passed on to the link.
"""
import sys

from decnet import program


def numbers(seed=1):
    while True:
        seed = (seed * 6364136223846793005 + 1442695040888963407) % 2**64
        yield seed >> 33


class Schedule:
    def __init__(self, setup):
        self.lines = [setup]
        self.wrote = {"a": 0, "b": 0}

    def say(self, *lines):
        self.lines.extend(lines)

    def bring(self, end, other, segments):
        self.say(f"post {end}")
        self.say(*[f"emit {end}"] * segments)
        for _ in range(segments):
            self.say(f"deliver {other} {self.wrote[end]}")
            self.wrote[end] += 1

    def ask(self, request, segments=1, messages=1, answers=1):
        self.say(f"ask {request}")
        self.bring("a", "b", segments)
        self.say(*["serve"] * messages)
        self.bring("b", "a", 1)
        self.say(*["read"] * answers)


def window(count):
    schedule = Schedule("setup 64 8 4096 4096")
    schedule.ask("hello")
    schedule.ask("create 46 0 2 0 0 1", messages=2, answers=2)
    schedule.ask("connect")
    choose = numbers()
    while len(schedule.lines) <= count:
        body = bytes(next(choose) & 0xFF for _ in range(1 + next(choose) % 440))
        # The Control has 6 bytes, and a Filedata 4 more than its record, or 5 from 256 on.
        size = 6 + (4 if len(body) < 255 else 5) + len(body)
        schedule.ask(f"put {body.hex()}", segments=-(-size // 64), messages=2)
    return schedule


def keyed(bound, keys):
    schedule = Schedule("setup 512 8 4096 4096")
    schedule.ask("hello")
    schedule.ask(f"create 46 16 2 0 {bound} 1", messages=2, answers=2)
    schedule.ask("connect")
    choose = numbers(2)
    for key in keys:
        body = bytes(next(choose) & 0xFF for _ in range(30))
        schedule.ask(f"put key {key} {body.hex()}", messages=2)
    return schedule


def scattered(count):
    choose = numbers()
    return keyed(count, sorted(range(1, count + 1), key=lambda _: next(choose)))


def sparse(count):
    choose = numbers()
    return keyed(0, [1 + next(choose) % 2147483647 for _ in range(count)])


def store(count):
    schedule = Schedule("setup 1400 8 4096 4096")
    schedule.ask("hello")
    schedule.ask("create 46 0 2 0 0 1", messages=2, answers=2)
    schedule.ask("connect")
    schedule.say("ask store" + " 00" * count, "post a")
    return schedule


def main():
    kinds = {"window": window, "scattered": scattered, "sparse": sparse, "store": store}
    words = sys.argv[1:]
    if len(words) != 2 or words[0] not in kinds or not words[1].isdecimal():
        raise program.Fault(f"usage: schedules.py {'|'.join(kinds)} COUNT", program.WORDS)
    print("\n".join(kinds[words[0]](int(words[1])).lines))
    return 0


if __name__ == "__main__":
    program.run("schedules.py", main)
