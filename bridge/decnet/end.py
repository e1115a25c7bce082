"""A live end: `daplive` as a child, told lines, whose answers are taken as they come."""
import collections
import contextlib
import itertools
import os
import pathlib
import select
import signal
import subprocess
import time

from decnet import program

DAPLIVE = pathlib.Path(__file__).resolve().parent.parent.parent / "daplive"
WAITS = "waits "
MAX_DIGITS = 20
START_SECONDS = 3600  # for the first answer: ./daplive may have to be built
ANSWER_SECONDS = 600  # in which nothing of an answer comes
STOP_SECONDS = 30  # the same, where the program is to end
CLOSE_SECONDS = 10  # from the end of its input to the end of the live end
CHUNK = 1 << 18
MAX_PIECES = 256  # that are written by one call; a system takes 1,024
UNHEARD = (signal.SIGTERM, signal.SIGINT, signal.SIGHUP)  # its end of input ends a live end, and none of these


class EndFault(program.Fault):
    """The live end can't be started, has ended, or doesn't answer."""

    def __init__(self, text):
        super().__init__(text, program.FAULT)


class Answer:
    """An answer that is gathered; `then` is called with its lines when it is whole."""

    def __init__(self, then):
        self.then, self.lines = then, []

    def take(self, line):
        self.lines.append(line)

    def end(self):
        self.then(self.lines)


class Lines:
    """The lines in bytes that come in pieces."""

    def __init__(self):
        self.parts, self.size = [], 0  # of the line that isn't whole, and how many bytes they are

    def of(self, chunk):
        """The lines that are whole now."""
        first, *lines = chunk.split(b"\n")
        self.parts.append(first)
        if not lines:
            self.size += len(first)
            return []
        whole = [b"".join(self.parts), *lines[:-1]]
        self.parts, self.size = [lines[-1]], len(lines[-1])
        return [line.decode("utf-8", "surrogateescape") for line in whole]


@contextlib.contextmanager
def unheard():
    """What is started meanwhile begins with the signals blocked that are to stop the program."""
    before = signal.pthread_sigmask(signal.SIG_BLOCK, UNHEARD)
    try:
        yield
    finally:
        signal.pthread_sigmask(signal.SIG_SETMASK, before)


class End:
    """A live end. Each line that it is told has one answer, in the order of the lines."""

    is_kept = False  # whether another bridge can go on with its link

    def __init__(self, program, words, keep=False, told=None, clock=time.monotonic):
        """With `keep` all lines, in and out, are kept as `transcript`. `told` is called with each line that it writes
        on standard error, which otherwise goes where the program's own does."""
        self.program, self.words, self.keep, self.told, self.clock = str(program), words, keep, told, clock
        try:
            with unheard():
                self.process = subprocess.Popen(
                    [self.program, *words], stdin=subprocess.PIPE, stdout=subprocess.PIPE,
                    stderr=subprocess.PIPE if told else None, bufsize=0, start_new_session=True)
        except OSError as fault:
            raise EndFault(f"{self.program} can't be started: {fault.strerror}") from fault
        os.set_blocking(self.process.stdin.fileno(), False)
        self.seconds, self.close_seconds, self.has_answered = START_SECONDS, CLOSE_SECONDS, False
        self.waits = 0  # how many packets wait to be acknowledged, as the last answer says
        self.transcript = []
        self.asked, self.unwritten, self.moved_at = collections.deque(), collections.deque(), clock()
        self.lines, self.errors = Lines(), Lines()

    # ---- lines and answers

    def tell(self, line, answer):
        """Tells it a line; `answer` takes what it answers. Nothing is waited for."""
        self.queue(line, answer)
        self.write()

    def queue(self, line, answer):
        """The same, when `write` is called next."""
        self.queue_all([line], answer)

    def queue_all(self, lines, answer):
        """The same of many lines, which go at once; `answer` takes what each of them answers."""
        if not lines:
            return
        if not self.asked:
            self.moved_at = self.clock()
        self.asked.extend([answer] * len(lines))
        self.unwritten.append("".join([f"{line}\n" for line in lines]).encode("utf-8", "surrogateescape"))
        if self.keep:
            self.transcript += lines

    def remark(self, text):
        """A note that is kept with the lines, where they are kept."""

    def say(self, line):
        """Tells it a line and waits for the answer: its lines, without the last."""
        whole = []
        self.tell(line, Answer(whole.append))
        while not whole:
            self.turn()
        return whole[0]

    def turn(self):
        """Waits until something can be written or read, and does it."""
        readers, writers = self.files()
        ready, writable, _ = select.select(readers, writers, [], max(0, self.next_at() - self.clock()))
        for file in [*ready, *writable]:
            (readers.get(file) or writers[file])()
        self.tick()

    @property
    def is_busy(self):
        return bool(self.asked)

    @property
    def unanswered(self):
        """How many lines it hasn't answered."""
        return len(self.asked)

    # ---- the event loop

    def files(self):
        """What can be read and written, each with what is done then."""
        readers = {self.process.stdout: self.read}
        if self.told and not self.process.stderr.closed:
            readers[self.process.stderr] = self.read_errors
        return readers, {self.process.stdin: self.write} if self.unwritten else {}

    def write(self):
        """Writes what can be written without waiting."""
        while self.unwritten:
            try:
                written = os.writev(self.process.stdin.fileno(), list(itertools.islice(self.unwritten, MAX_PIECES)))
            except BlockingIOError:
                return
            except OSError as fault:
                raise self.ended() from fault
            self.moved_at = self.clock()
            self.wrote(written)

    def wrote(self, count):
        """This count of unwritten bytes was written. Nothing is copied, so a long file takes linear time."""
        while count:
            piece = self.unwritten.popleft()
            if count < len(piece):
                self.unwritten.appendleft(memoryview(piece)[count:])
            count -= min(count, len(piece))

    def read(self):
        """Takes what it says now."""
        chunk = os.read(self.process.stdout.fileno(), CHUNK)
        if not chunk:
            raise self.ended()
        self.moved_at = self.clock()
        for line in self.lines.of(chunk):
            self.take(line)

    def take(self, line):
        if not self.asked:
            raise EndFault(f"{self.program} speaks unasked")
        if self.keep:
            self.transcript.append(line)
        if not line.startswith(WAITS):
            self.asked[0].take(line)
            return
        self.waits = self.read_number(line[len(WAITS):])
        if not self.has_answered:
            self.has_answered, self.seconds = True, min(self.seconds, ANSWER_SECONDS)
        self.asked.popleft().end()

    def read_number(self, text):
        if not (text.isascii() and text.isdecimal() and len(text) <= MAX_DIGITS):
            raise self.strange(text)
        return int(text)

    def read_errors(self):
        """Reports what it writes on standard error."""
        chunk = os.read(self.process.stderr.fileno(), CHUNK)
        if not chunk:
            self.process.stderr.close()
            return
        for line in self.errors.of(chunk):
            self.told(line)

    def tick(self):
        """A fault where it has worked too long without a word."""
        if self.asked and self.clock() >= self.moved_at + self.seconds:
            raise EndFault(f"{self.program} has answered nothing for {self.seconds} seconds")

    def next_at(self):
        """When it is time for that."""
        return self.moved_at + self.seconds if self.asked else self.clock() + self.seconds

    def hurry(self):
        """The program is to end, and waits less long for an answer."""
        self.seconds, self.moved_at = min(self.seconds, STOP_SECONDS), self.clock()

    # ---- its end

    def strange(self, text):
        """The fault of a program that is no live end."""
        return EndFault(f"{self.program} answers what no live end does: {text[:60]}")

    def ended(self):
        """The fault of an end that is gone."""
        status = self.close()
        is_none = status == 0 and not self.has_answered
        return EndFault(f"{self.program} ended with status {status}{' and answered nothing: it is no daplive' if is_none else ''}")

    def close(self):
        """Ends it by the end of its input; its exit status. What doesn't end then is killed, with all that it started;
        a program that has answered nothing yet may be a build, which ends by a signal."""
        for file in (self.process.stdin, self.process.stdout):
            file.close()
        if not self.has_answered:
            self.signal(signal.SIGTERM)
        try:
            self.process.wait(self.close_seconds)
        except subprocess.TimeoutExpired:
            self.signal(signal.SIGKILL)
        if self.process.stderr:
            self.process.stderr.close()
        return self.process.wait()

    def signal(self, number):
        """Sends a signal to it and to all that it started."""
        if self.process.poll() is None:
            os.killpg(self.process.pid, number)
