#!/usr/bin/env python3
"""Puts records of 32,767 and 32,768 bytes into a file: the first is the longest that there is, the second is refused.

usage: longest.py [--dapnsp PROGRAM]

Both ends have a buffer of 65,535 bytes. The schedules are too long to be stored: a record fills two dozen segments of
1,400 bytes, over a window of 8.
"""
import argparse
import pathlib
import subprocess
import sys

from decnet import program

DAPNSP = pathlib.Path(__file__).resolve().parent.parent / "dapnsp"
SEGMENT, WINDOW, BUFFER = 1400, 8, 65_535
# A put is a Control of 6 bytes and a Data with 5 bytes before its record.
PUT = 6 + 5
REPORTS = {32_767: "done 1", 32_768: "refused 5000 7"}


class Schedule:
    def __init__(self):
        self.lines, self.wrote = [f"setup {SEGMENT} {WINDOW} {BUFFER} {BUFFER}"], {"a": 0, "b": 0}

    def deliver(self, end, other):
        self.lines.append(f"deliver {other} {self.wrote[end]}")
        self.wrote[end] += 1

    def ask(self, request, segments=1, messages=1, answers=1):
        """A request, each of its packets delivered; B acknowledges each window of them."""
        self.lines += [f"ask {request}", "post a"]
        for left in range(segments, 0, -WINDOW):
            self.lines += ["emit a"] * min(left, WINDOW)
            for _ in range(min(left, WINDOW)):
                self.deliver("a", "b")
            self.lines.append("ack b")
            self.deliver("b", "a")
        self.lines += ["serve"] * messages + ["post b", "emit b"]
        self.deliver("b", "a")
        self.lines += ["read"] * answers


def reported(program, size):
    """The last report of a put of a record of this many bytes."""
    schedule = Schedule()
    schedule.ask("hello")
    schedule.ask("create 46 0 2 0 0 15", messages=2, answers=2)
    schedule.ask("connect")
    schedule.ask("put " + "42" * size, segments=-(-(PUT + size) // SEGMENT), messages=2)
    text = "".join(f"{line}\n" for line in schedule.lines)
    ran = subprocess.run([str(program), "run"], input=text, capture_output=True, text=True, check=False)
    reports = [line.partition(" report ")[2] for line in ran.stdout.splitlines() if " report " in line]
    return reports[-1] if reports and not ran.returncode else f"status {ran.returncode}, {ran.stdout[-80:]}{ran.stderr}"


def main():
    parser = argparse.ArgumentParser(description="Puts the longest record, and one that is too long.")
    parser.add_argument("--dapnsp", default=DAPNSP)
    options = parser.parse_args()
    wrong = 0
    for size, report in REPORTS.items():
        came = reported(options.dapnsp, size)
        if came != report:
            wrong += 1
            print(f"longest.py: a record of {size} bytes: {came}, and not {report}", file=sys.stderr)
    return 1 if wrong else 0


if __name__ == "__main__":
    program.run("longest.py", main)
