"""Live ends that hang, die, speak nonsense, or work long."""
import os
import signal
import time
from unittest import mock

from decnet import end as module
from decnet.end import Answer, EndFault
from tests.support import PROMPT, Case, until


class EndTest(Case):
    def of(self, answer, **more):
        return self.end("serve", program=self.stand_in(answer), **more)

    def fault(self, end, line="files"):
        with self.assertRaises(EndFault) as caught:
            end.say(line)
        return str(caught.exception)

    def test_each_line_has_its_answer_in_order(self):
        end, found = self.of("return [line, line]"), []
        for number in range(500):
            end.tell(f"line {number}", Answer(found.append))
        while end.is_busy:
            end.turn()
        self.assertEqual(found, [[f"line {number}"] * 2 for number in range(500)])

    def test_a_long_line_is_read_in_linear_time(self):
        end = self.of("return ['a' * 20_000_000]")
        begun = time.monotonic()
        self.assertEqual(len(end.say("files")[0]), 20_000_000)
        self.assertLess(time.monotonic() - begun, PROMPT)

    def test_many_long_lines_are_written_in_linear_time(self):
        """What is told while the end reads nothing is written later; it is all there, and in order."""
        end, found = self.of("return [str(len(line)), line[:1], line[-1:]]"), []
        texts = [chr(97 + number % 26) * (200_000 + number) + chr(65 + number % 26) for number in range(200)]
        begun = time.process_time()
        for text in texts:
            end.tell(text, Answer(found.append))
        while end.is_busy:
            end.turn()
        self.assertLess(time.process_time() - begun, PROMPT / 2)
        self.assertEqual(found, [[str(len(text)), text[0], text[-1]] for text in texts])

    def test_nonsense(self):
        for number, text in enumerate(["waits " + "9" * 5000, "waits -1", "waits \u00b2", "waits x"]):
            script = f"import sys\nfor line in sys.stdin: print({text!r}, flush=True)\n"
            script = self.script(f"nonsense{number}", script)
            self.assertIn("answers what no live end does", self.fault(self.end("serve", program=script)))

    def test_one_that_speaks_unasked(self):
        script = "import os, sys\nos.write(1, b'waits 0\\nwaits 0\\n')\nsys.stdin.read()\n"
        end = self.end("serve", program=self.script("early", script))
        with self.assertRaisesRegex(EndFault, "speaks unasked"):
            end.say("new")

    def test_one_that_has_ended(self):
        end = self.end("serve", program=self.script("ended", "import sys\nsys.exit(7)\n"))
        self.assertIn("ended with status 7", self.fault(end))

    def test_a_program_that_is_none(self):
        self.assertEqual(self.fault(self.end("serve", program="/bin/true")), "/bin/true ended with status 0 and answered nothing: it is no daplive")
        self.assertEqual(self.fault(self.end("serve", program="/bin/false")), "/bin/false ended with status 1")

    def test_one_that_is_not_there(self):
        with self.assertRaisesRegex(EndFault, "can't be started: No such file"):
            self.end("serve", program="/nowhere/daplive")

    def test_one_that_hangs(self):
        with mock.patch.object(module, "ANSWER_SECONDS", 0.3):
            end = self.of("line == 'hang' and time.sleep(1000)")
            end.say("new")
            end.close_seconds = 0.1
            self.assertIn("has answered nothing for 0.3 seconds", self.fault(end, "hang"))

    def test_one_that_works_long_but_says_something_is_waited_for(self):
        with mock.patch.object(module, "ANSWER_SECONDS", 2):
            end = self.of("for _ in range(10):\n    print('x', flush=True); time.sleep(0.3)")
            end.seconds = 2
            end.has_answered = True
            self.assertEqual(end.say("files"), ["x"] * 10)

    def test_signals_to_stop_do_not_end_it(self):
        """A terminal and systemd send them to all processes: its end of input ends it."""
        end = self.of("return []")
        end.say("new")
        for number in (signal.SIGTERM, signal.SIGINT, signal.SIGHUP):
            os.kill(end.process.pid, number)
        time.sleep(0.2)
        self.assertEqual(end.say("files"), [])
        self.assertEqual(end.close(), 0)

    def test_one_that_does_not_end_is_killed(self):
        script = "import time\nprint('waits 0', flush=True)\ntime.sleep(1000)\n"
        end = self.end("serve", program=self.script("deaf", script))
        end.say("new")
        end.close_seconds = 0.2
        begun = time.monotonic()
        self.assertEqual(end.close(), -signal.SIGKILL)
        self.assertLess(time.monotonic() - begun, PROMPT)

    def test_a_build_is_ended_by_a_signal(self):
        """What hasn't answered yet may be a build: it is ended with all that it started."""
        script = self.script("builds", "import subprocess, signal, sys\n"
                             "signal.pthread_sigmask(signal.SIG_SETMASK, ())\n"
                             "child = subprocess.Popen(['sleep', '1000'])\n"
                             "print(child.pid, file=sys.stderr, flush=True)\n"
                             "child.wait()\n")
        told = []
        end = self.end("serve", program=script, told=told.append)
        end.tell("new", Answer(lambda answer: None))
        while not told:
            end.turn()
        begun = time.monotonic()
        end.close()
        self.assertLess(time.monotonic() - begun, PROMPT)
        until(lambda: has_ended(told[0]), "the end of a child")


def has_ended(pid):
    """Whether a process is gone, or waits for its parent alone."""
    try:
        with open(f"/proc/{pid}/stat", encoding="utf-8") as file:
            return " Z " in file.read()
    except OSError:
        return True
