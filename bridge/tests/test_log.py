"""The log: it has a bound, nobody waits for it, and a file of it is opened again."""
import os
import re

from decnet.log import MAX_LINES, MAX_WAITING, Log, LogFault
from tests.support import Case


class LogTest(Case):
    def setUp(self):
        super().setUp()
        self.now, self.path = 0.0, self.folder / "log"

    def log(self, path=None, **more):
        log = Log("bridge", path or self.path, clock=lambda: self.now, **more)
        self.addCleanup(log.close)
        return log

    def lines(self):
        return self.path.read_text().splitlines()

    def test_this_many_lines_a_second_and_then_a_count(self):
        log = self.log()
        for _ in range(10_000):
            log.say("line")
        self.assertEqual(self.lines(), ["bridge: line"] * MAX_LINES)
        self.now = 1.0
        log.tick()
        self.assertEqual(self.lines()[MAX_LINES:], [f"bridge: {10_000 - MAX_LINES} more lines, which were left out"])
        log.say("later")
        self.assertEqual(self.lines()[-1], "bridge: later")

    def test_lines_have_times(self):
        self.log(with_times=True).say("text")
        self.assertRegex(self.lines()[0], r"^bridge: \d{4}-\d\d-\d\d \d\d:\d\d:\d\d text$")

    def test_a_pipe_that_nobody_reads_is_not_waited_for(self):
        reading, writing = os.pipe()
        log = self.log(f"/proc/self/fd/{writing}")
        for second in range(3000):
            self.now = float(second)
            log.say("x" * 100)
        self.assertEqual(len(log.waiting), MAX_WAITING)
        text = b""
        while log.waiting or not text.endswith(b"\n"):
            text += os.read(reading, 1 << 16)
            log.tick()
        for file in (reading, writing):
            os.close(file)
        for line in text.decode().splitlines():
            self.assertRegex(line, r"^bridge: (x{100}|\d+ more lines, which were left out)$")

    def test_a_pipe_that_is_closed_is_silent(self):
        reading, writing = os.pipe()
        log = self.log(f"/proc/self/fd/{writing}")
        os.close(reading)
        log.say("text")
        os.close(writing)

    def test_a_file_is_opened_again(self):
        log = self.log()
        log.say("before")
        self.path.rename(self.folder / "log.1")
        log.open_again()
        log.say("after")
        self.assertEqual(self.lines(), ["bridge: after"])
        self.assertEqual((self.folder / "log.1").read_text(), "bridge: before\n")

    def test_a_file_that_cannot_be_opened(self):
        with self.assertRaisesRegex(LogFault, "No such file or directory"):
            self.log(self.folder / "nowhere" / "log")
        log = self.log()
        log.path = self.folder / "nowhere" / "log"
        log.open_again()
        self.assertTrue(re.search("the log stays as it was: .*No such file", self.path.read_text()))
