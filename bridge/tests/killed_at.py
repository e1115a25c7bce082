"""A bridge that is killed at a step of its work, for tests.

usage: killed_at.py STEP bridge.py WORDS

Steps are before and after each write of a journal, each wait for the disk, each rename, and each frame that is sent; they
are counted from 1. The folder of the package `decnet` is in PYTHONPATH.
"""
import os
import runpy
import signal
import sys

from decnet import udp

CALLS = ("pwrite", "fdatasync", "fsync", "replace")


class Steps:
    """Counts the steps, and kills at one of them."""

    def __init__(self, at):
        self.at, self.count = at, 0

    def passed(self):
        self.count += 1
        if self.count == self.at:
            os.kill(os.getpid(), signal.SIGKILL)

    def around(self, call):
        def counted(*words):
            self.passed()
            found = call(*words)
            self.passed()
            return found
        return counted


def main():
    step, program, *words = sys.argv[1:]
    steps = Steps(int(step))
    for name in CALLS:
        setattr(os, name, steps.around(getattr(os, name)))
    udp.Udp.send = steps.around(udp.Udp.send)
    sys.argv = [program, *words]
    runpy.run_path(program, run_name="__main__")


if __name__ == "__main__":
    main()
