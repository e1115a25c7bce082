"""Runs both live ends where growths are refused and where standard input and output fail: a part of hostile/check.

A talk is the lines that one end is told (docs/LIVE.md): those of serve.talk, ask.talk and links.talk, a server's of several
links, and one that this file makes.
With one growth refused an end is told line by line, and a line whose answer says 'refused no-memory' is said again:

- the first answer has a prefix of the plain answer before 'refused no-memory';
- the second one has the words of the plain answer, or those that a repeated line has in place of them, as 'repeat' for
  'accepted'; both together have its reports, each once and in order, and none of its segments twice;
- 'resend', and 'files' where the end serves, are answered as in the plain talk: what waits and what is stored is that.
  Who locks a file is reported once, or not at all where memory is refused then;
- all other answers, before and after, are those of the plain talk, and so is the exit status; each bad line is reported.

With all growths refused from one on, each line has one answer, those before the first refusal are the plain talk's,
and bad lines are reported; where not even a line can be read, comments and empty lines are answered as well. In both cases
the end may end at once with status 3 and 'no memory', before it answers any line.
"""
import os
import re
import signal
import subprocess
import tempfile

from altered import altered_packets
from decnet.lossy import Both, Line, LinkFailed

HERE = os.path.dirname(os.path.abspath(__file__))

SECONDS = 60
NO_MEMORY = b"refused no-memory"
BAD_LINE = b"refused bad-line"
# what a line is answered when it is repeated, by what it was answered
AFTER = {
    b"accepted": b"repeat",
    b"refused bad-sequence": b"refused failed",
    b"refused message-too-long": b"refused failed",
    b"refused unexpected-answer": b"refused ask-failed",
}
# the words of each end; `links` serves several
WORDS = {"serve": ["serve"], "ask": ["ask"], "links": ["serve", "--links", "3"]}
# lines that change nothing, and show what waits and what is stored
PROBES = {"serve": [b"resend", b"files"], "ask": [b"resend"], "links": [b"resend 0202", b"resend 0303", b"files"]}
ALONE = ("serve", "ask")  # ends of one link
# what each end is told before a line that is too long, and after it, so that it answers alike; of the end of
# several links a packet waits then to be acknowledged, but the line is of no link
AROUND = {
    "serve": [b"ack"],
    "ask": [b"ack"],
    "links": [b"new 0202 0101", b"> 60020201010080010001020a00040703050600000000", b"resend 0202"],
}
# A talk of each end whose last line has packets in its answer. Nothing else comes of itself where none of them could be
# written: the client was asked, and the packet to the server opened its window, and acknowledges all before.
LAST = {
    "ask": [b"ask hello"],
    "serve": [
        b"new 0202 0101 16",
        b"file 46 seq variable 0 0",
        b"  1 " + b"44" * 200,
        b"> 60020201010080010001020a00040703050600000000",
        b"> 04020201010180",
        b"> 600202010101800200020201000302080100014602000000",
        b"> 04020201010380",
        b"> 6002020101038003000402020200",
        b"> 04020201010480",
        b"> 600202010104800400040203010103",
        b"> 04020201010c80",
    ],
}
# The client gets a record, and the last packet completes the report: a long one, so that its text needs a growth. Each
# of the other lines is refused then, and leaves it waiting.
RECORD = b"42" * 300
REPORTED = [
    b"ask hello",
    b"> 60010102020180010001020a00040703050600000000",
    b"ask open 46 2",
    b"> 60010102020280020002020ba604000200000400000000060200",
    b"ask connect",
    b"> 600101020203800300060200",
    b"ask get",
    b"> 6001010202048004000806" + b"31010401000000" + RECORD,
]
REPORT = b"report found 1 " + RECORD
REFUSED = {
    "a packet of another link": b"> 04030304040180",
    "a packet of another kind": b"> 1001010202",
    "bytes that are no packet": b"> 60",
    "a request that doesn't fit": b"ask hello",
}
LAST["links"] = LAST["serve"]
# What is asked over a line that loses packets, while the server is refused a growth; the words of both ends, and
# the loss in percent.
ASKED = ["hello", "create 46 16 2 0 0 15", "connect", "put 4142", "put " + "43" * 150, "rewind", "fetch", "close"]
SMALL, LOSS = ["--segment", "16", "--window", "2"], 40
# Words that name no end, and help; nothing is read.
UNREAD = [
    (["--help"], 0),
    ([], 2),
    (["server"], 2),
    (["serve", "--local", "12"], 2),
    (["ask", "--window", "0"], 2),
    (["ask", "--syscap", "g"], 2),
    (["serve", "--names", "upper"], 2),
    (["serve", "--names", "folded", "--keep", "2"], 2),
]
# Lines of short answers, for which each read and each write is tried; the last has no end.
SHORT = {
    "serve": b"file 46 rel variable 0 3\n  3 41\n?\r\n#\n\n"
    b"> 60020201010080010001020a00040703050600000000\nfiles\nresend",
    "ask": b"ask hello\nresend\r\n?\n#\n\n"
    b"> 60010102020180010001020a00040703050600000000\nask connect\nack",
    "links": b"file 46 rel variable 0 3\nnew 0202 0101\n?\r\n#\n\n"
    b"> 60020201010080010001020a00040703050600000000\nresend 0303\nfiles\nresend 0202",
}
# An end may have this many bytes of memory, whatever line it is told: twice the longest line that is kept, and 8 MiB.
MAX_MEMORY = 2 * 16_777_216 + 8 * 1_048_576


def too_long():
    """A message of more than 65,535 bytes, in segments of 1,400, to the server; and what comes after it."""
    packets = [b"> %02x020201010080%02x00" % (0x20 if number == 1 else 0, number) for number in range(1, 49)]
    return b"".join(packet + b"00" * 1400 + b"\n" for packet in packets) + b"resend\nack\nfiles\nnew\nack\n"


def kinds(answer):
    """The words, the reports and the packets of an answer, without its last line, the refused growth before it, and who
    locks a file."""
    lines = [line for line in answer[:-1] if line != NO_MEMORY and not line.startswith(b"locked ")]
    reports = [line for line in lines if line.startswith(b"report ")]
    packets = [line for line in lines if line.startswith(b"< ")]
    return [line for line in lines if line not in reports and line not in packets], reports, packets


def is_ack(packet):
    return packet.startswith(b"< 04")


def is_part(some, of):
    """Whether those lines are some of these, each once, in their order."""
    rest = iter(of)
    return all(line in rest for line in some)


def after(word):
    """What a line is answered when it is repeated."""
    return b"refused ask-busy" if word.startswith(b"asked ") else AFTER.get(word, word)


def differs(plain, first, again):
    """What isn't as it has to be of the answers to a line that is said again, or nothing."""
    words, reports, packets = kinds(plain)
    first_words, first_reports, first_packets = kinds(first)
    again_words, again_reports, again_packets = kinds(again)
    if first[-2:-1] != [NO_MEMORY] or NO_MEMORY in first[:-2] or NO_MEMORY in again:
        return "being out of memory isn't said once, at the end"
    if first_words != words[: len(first_words)]:
        return "the first answer has other words"
    if len(again_words) != len(words):
        return "the second answer has more or fewer words"
    for place, (word, new) in enumerate(zip(words, again_words)):
        if new != after(word) and (place < len(first_words) or new != word):
            return "the second answer has other words"
    if first_reports + again_reports != reports:
        return "the reports aren't told once each, in order"
    segments = [packet for packet in first_packets + again_packets if not is_ack(packet)]
    if not is_part(segments, [packet for packet in packets if not is_ack(packet)]):
        return "a segment is another, or is written twice"
    if any(is_ack(packet) and packet not in first_packets + again_packets for packet in packets):
        return "the acknowledgement is missing"
    if again[-1] != plain[-1]:
        return "another number of packets waits"
    return None


class End:
    """A live end that is told line by line."""

    def __init__(self, made, program, *words, **faults):
        faults = {name: str(value) for name, value in faults.items()}
        pipes = {"stdin": subprocess.PIPE, "stdout": subprocess.PIPE, "stderr": subprocess.PIPE}
        self.process = subprocess.Popen([program, *words], env={"LD_PRELOAD": made, **faults}, **pipes)
        self.lines, self.answers, self.bad = 0, 0, b""

    def tell(self, line):
        """The answer to a line; none where the end has ended."""
        self.lines += 1
        try:
            self.process.stdin.write(line + b"\n")
            self.process.stdin.flush()
        except BrokenPipeError:
            return []
        answer = []
        for text in self.process.stdout:
            answer.append(text.rstrip(b"\n"))
            if text.startswith(b"waits "):
                break
        self.answers += bool(answer)
        if answer[-2:-1] == [BAD_LINE]:
            self.bad += b"bad line %d\n" % self.lines
        return answer

    def close(self):
        try:
            self.process.stdin.close()
        except BrokenPipeError:
            pass
        lines = self.process.stderr.read().splitlines(keepends=True)
        self.written = self.process.stdout.read()
        self.status = self.process.wait(SECONDS)
        self.process.stdout.close()
        self.process.stderr.close()
        self.was_met = any(line.startswith(b"@") for line in lines)
        self.told = b"".join(line for line in lines if not line.startswith(b"@"))


class Carried:
    """A live end, for a line that carries its packets."""

    def __init__(self, end):
        self.end, self.waits = end, 0

    def say(self, line):
        answer = self.end.tell(line.encode())
        if not answer:
            raise LinkFailed("the end has ended")
        self.waits = int(answer.pop().split()[1])
        return [text.decode() for text in answer]


class BothCarried(Both):
    """Both live ends, and a line between them that loses packets."""

    def __init__(self, asking, serving):
        super().__init__(Line(1, LOSS, 0, 1), ends={"asking": Carried(asking), "serving": Carried(serving)})

    def told(self):
        """The reports and the files; or those reports that came, where the line is quiet before."""
        reports = []
        try:
            for request in ASKED:
                reports.append(self.ask(request))
            return reports + self.files()
        except LinkFailed as quiet:
            return [*reports, str(quiet)]


class Talk:
    """A talk of one end, as it goes where nothing fails."""

    def __init__(self, made, program, role, text):
        self.made, self.program, self.role, self.text = made, program, role, text
        numbered = [(number, line) for number, line in enumerate(text.splitlines(), 1) if line and line[:1] != b"#"]
        self.numbers, self.lines = zip(*numbered)
        end = End(made, program, *WORDS[role])
        self.answers, self.probes = [], []
        for line in self.lines:
            self.answers.append(end.tell(line))
            self.probes.append([end.tell(probe) for probe in PROBES[role]])
        end.close()
        self.status = end.status
        self.is_whole = end.answers == end.lines and end.told == end.bad and self.status in (0, 1)

    def said_again(self, at):
        """The talk with one growth refused; what is wrong is in 'wrong'."""
        end = End(self.made, self.program, *WORDS[self.role], REFUSE_GROWTH=at)
        end.wrong = None
        for line, plain, probes in zip(self.lines, self.answers, self.probes):
            answer = end.tell(line)
            wrong = None
            if NO_MEMORY in answer:
                wrong = differs(plain, answer, end.tell(line))
                if not wrong and [end.tell(probe) for probe in PROBES[self.role]] != probes:
                    wrong = "something else waits, or other files are there"
            elif answer != plain:
                wrong = "another answer"
            if not answer or wrong:
                end.wrong = wrong and f"{line[:60]!r}: {wrong}"
                break
        end.close()
        return end

    def is_right(self, end, _at):
        """Whether a talk with one growth refused went as it has to."""
        if end.was_met and not end.answers:
            return (end.status, end.written, end.told) == (3, b"", b"no memory\n")
        return not end.wrong and (end.status, end.written, end.told) == (self.status, b"", end.bad)

    def is_answered(self, ran, _at):
        """Whether each line is answered where all growths are refused from one on."""
        if ran.was_met and (ran.status, ran.written, ran.told) == (3, b"", b"no memory\n"):
            return True
        answers = answers_of(ran.written)
        if answers == [[NO_MEMORY, b"waits 0"]] * len(self.text.splitlines()):
            return (ran.was_met, ran.status, ran.told) == (True, 0, b"")  # no line was read
        refused = [NO_MEMORY in answer for answer in answers]
        before = refused.index(True) if True in refused else len(answers)
        bad = [b"bad line %d\n" % number for number, one in zip(self.numbers, answers) if one[-2:-1] == [BAD_LINE]]
        return (
            len(answers) == len(self.lines)
            and (ran.was_met or before == len(answers))
            and answers[:before] == self.answers[:before]
            and all(re.fullmatch(rb"waits \d+", one[-1]) and NO_MEMORY not in one[:-2] for one in answers)
            and (ran.status, ran.told) == (1 if bad else 0, b"".join(bad))
        )


def answers_of(text):
    """The answers of a text, and what is after the last."""
    answers, answer = [], []
    for line in text.split(b"\n"):
        answer.append(line)
        if line.startswith(b"waits "):
            answers.append(answer)
            answer = []
    return answers if answer == [b""] else [*answers, answer]


class LiveEnds:
    """Both live ends, whose runs are counted in the suite."""

    def __init__(self, suite, program):
        self.suite, self.program = suite, program

    def count(self, name, is_right, said):
        self.suite.passed, self.suite.failed = self.suite.passed + is_right, self.suite.failed + (not is_right)
        print(f"{name}:", said if is_right else f"WRONG, {said}", flush=True)

    def talks(self):
        """Each talk, with one growth refused and with all from one on."""
        for name, role, text in self.all_talks():
            talk = Talk(self.suite.made, self.program, role, text)
            self.count(f"daplive {role}, {name}", talk.is_whole, f"{len(talk.lines)} lines, status {talk.status}")
            self.suite.until_none(f"daplive {role}, {name}, one growth refused", talk.said_again, talk.is_right)
            run = lambda at: self.suite.ran([self.program, *WORDS[role]], text, REFUSE_GROWTH=f"{at}..")
            self.suite.until_none(f"daplive {role}, {name}, all growths refused from one on", run, talk.is_answered)

    def resent(self, role):
        """A talk whose last line is answered without a packet, since one growth was refused: then 'resend' writes one,
        and the other end answers it."""

        def run(at):
            end = End(self.suite.made, self.program, *WORDS[role], REFUSE_GROWTH=at)
            answer = [end.tell(line) for line in LAST[role]][-1]
            end.is_lost = NO_MEMORY in answer and answer[:-2] and not kinds(answer)[2]
            end.wrong = end.is_lost and not kinds(end.tell(PROBES[role][0]))[2] and f"{answer}, and resend writes nothing"
            end.close()
            return end

        name = f"daplive {role}, a resend after one growth refused"
        self.suite.until_none(name, run, lambda end, _at: not end.wrong)

    def told_late(self, line):
        """A talk whose last line is answered without its report, since one growth was refused, and after which a line is
        refused: the report still comes, once, by 'resend', or with the packet where that wasn't taken."""

        def run(at):
            end = End(self.suite.made, self.program, "ask", REFUSE_GROWTH=at)
            answers = [end.tell(said) for said in REPORTED]
            end.wrong = None
            if NO_MEMORY in answers[-1]:
                answers = answers[-1:] + [end.tell(said) for said in [line, b"resend", REPORTED[-1]]]
                reports = [report for answer in answers for report in kinds(answer)[1]]
                if reports != [REPORT]:
                    end.wrong = f"{reports} after {answers}"
            end.close()
            return end

        return run

    def all_told_late(self):
        for what, line in REFUSED.items():
            name = f"daplive ask, a report after one growth refused and {what}"
            self.suite.until_none(name, self.told_late(line), lambda end, _at: not end.wrong)

    def lossy(self):
        """Both ends over a line that loses, while the server is refused a growth: the reports are the same.
        The files are listed in the last line, which may be the one that is refused."""

        def run(at):
            asking = End(self.suite.made, self.program, "ask", *SMALL)
            serving = End(self.suite.made, self.program, "serve", *SMALL, REFUSE_GROWTH=at)
            serving.came = BothCarried(asking, serving).told()
            asking.close()
            serving.close()
            serving.wrong = serving.answers and serving.came[: len(ASKED)] != plain and serving.came[-1]
            return serving

        plain = []
        plain = run(0).came[: len(ASKED)]
        self.count("daplive, a line that loses", plain[-1] == "report closed", f"{len(plain)} reports")
        name = "daplive, a line that loses, one growth refused to the serving end"
        self.suite.until_none(name, run, lambda end, _at: not end.wrong)

    def all_talks(self):
        for role in PROBES:
            with open(f"{HERE}/{role}.talk", "rb") as file:
                yield "a talk", role, file.read()
        yield "a message that is too long", "serve", too_long()

    def unread(self):
        """Words for which nothing is read: their text, or 'no memory'."""
        for words, status in UNREAD:
            plain = self.suite.ran([self.program, *words], b"")
            whole = (status, plain.written, plain.told)

            def is_right(ran, _at):
                came = (ran.status, ran.written, ran.told)
                return came == whole or ran.was_met and came == (3, b"", b"no memory\n")

            for manner, what in [("", "one growth refused"), ("..", "all growths refused from one on")]:
                run = lambda at: self.suite.ran([self.program, *words], b"", REFUSE_GROWTH=f"{at}{manner}")
                self.suite.until_none(f"daplive {' '.join(words)}, {what}", run, is_right)

    def silent(self):
        """A comment that is longer than the room that a line has from the start, where one growth is refused: whether a
        line says nothing can't be known where there is no memory to read it, so it is answered then."""
        given = b"#" * 5000 + b"\nack\n"
        whole = self.suite.ran([self.program, "serve"], given).written
        refused = NO_MEMORY + b"\nwaits 0\n"

        def is_right(ran, _at):
            if ran.was_met and (ran.status, ran.written, ran.told) == (3, b"", b"no memory\n"):
                return True
            texts = [whole, refused + whole, refused] if ran.was_met else [whole]
            return (ran.status, ran.told) == (0, b"") and ran.written in texts

        run = lambda at: self.suite.ran([self.program, "serve"], given, REFUSE_GROWTH=at)
        self.suite.until_none("daplive serve, a long comment, one growth refused", run, is_right)

    def fail(self, role):
        """An end whose standard input or output fails, gives little or takes little: a prefix of the text is written, of
        whole answers, but of the last bytes that a failing device takes."""
        given, words = SHORT[role], [self.program, *WORDS[role]]
        plain = self.suite.ran(words, given)
        whole = (plain.status, plain.written, plain.told)
        # how many bytes of the text answer the first 0, 1, 2 .. lines, and all
        fronts = [len(self.suite.ran(words, given[:count]).written) for count in lines_through(given)]

        def tells(ran, last):
            """Whether it ends with that, after what it reported of bad lines."""
            return ran.status == 3 and ran.told.endswith(last) and is_front(ran.told[: -len(last)], plain.told)

        def is_read(size):
            def is_right(ran, at):
                if not ran.was_met:
                    return (ran.status, ran.written, ran.told) == whole
                count = given[: at - 1].count(b"\n") if at <= len(given) + 1 else -1
                answered = [fronts[count]] if size == 1 else fronts
                return tells(ran, b"read failed\n") and ran.written in [plain.written[:front] for front in answered]

            return is_right

        for size in (1, 65536):
            run = lambda at: self.suite.ran(words, given, FAIL_READ=at, SHORT_READ=size)
            self.suite.until_none(f"daplive {role}, a read of {size} fails", run, is_read(size))

        def is_written(size):
            # where each write of `size` bytes begins, and where its answer ends
            bounds, begin = [], 0
            for answer in answers_of(plain.written):
                end = begin + sum(len(line) + 1 for line in answer)
                bounds += [(at, end) for at in range(begin, end, size)]
                begin = end

            def is_right(ran, at):
                if not ran.was_met:
                    return (ran.status, ran.written, ran.told) == whole
                first, last = bounds[at - 1]
                return tells(ran, b"write failed\n") and first <= len(ran.written) <= last and is_text(ran.written)

            is_text = plain.written.startswith
            return is_right

        for size in (1, 5, 65536):
            for fault, what in [("FAIL_WRITE", "fails"), ("EMPTY_WRITE", "takes nothing")]:
                run = lambda at: self.suite.ran(words, given, SHORT_WRITE=size, **{fault: at})
                self.suite.until_none(f"daplive {role}, a write of {size} {what}", run, is_written(size))

    def unwritten(self, role):
        """An end whose standard output is closed, is full or has no reader, which last ends it silently as SIGPIPE would."""
        words, given = [self.program, *WORDS[role]], SHORT[role]
        reader, writer = os.pipe()
        os.close(reader)
        with open("/dev/full", "wb") as full, open(writer, "wb") as alone:
            for what, shell, output, left in [
                ("closed", ["sh", "-c", 'exec "$@" >&-', "sh"], subprocess.DEVNULL, (3, b"write failed\n")),
                ("full", [], full, (3, b"write failed\n")),
                ("without a reader", [], alone, (128 + signal.SIGPIPE, b"")),
            ]:
                how = {"input": given, "stdout": output, "stderr": subprocess.PIPE, "timeout": SECONDS}
                ran = subprocess.run([*shell, *words], **how)
                is_right = (ran.returncode, ran.stderr) == left
                said = f"status {ran.returncode}, told {ran.stderr!r}"
                self.count(f"daplive {role}, standard output is {what}", is_right, said)

    def endless(self, role):
        """A line without an end, of several lengths: it is bad, isn't kept, and the next one is answered."""
        words, before = [self.program, *WORDS[role]], AROUND[role]
        for size in (16_777_217, 20_000_000, 200_000_000):
            with tempfile.TemporaryFile() as output, tempfile.TemporaryFile() as told:
                process = subprocess.Popen(words, stdin=subprocess.PIPE, stdout=output, stderr=told)
                process.stdin.write(b"".join(line + b"\n" for line in before))
                for at in range(0, size, 1 << 20):
                    process.stdin.write(b"a" * min(1 << 20, size - at))
                process.stdin.write(b"\n" + before[-1] + b"\n")
                process.stdin.close()
                _process, status, used = os.wait4(process.pid, 0)
                process.returncode = os.waitstatus_to_exitcode(status)
                output.seek(0)
                told.seek(0)
                answers, said = answers_of(output.read()), told.read()
            is_right = (
                (process.returncode, said) == (1, b"bad line %d\n" % (len(before) + 1))
                and len(answers) == len(before) + 2
                and answers[-3] == answers[-1]
                and answers[-2] == [BAD_LINE, b"waits 0"]
                and (role != "links" or answers[-1][-1] == b"waits 1")
                and used.ru_maxrss * 1024 <= MAX_MEMORY
            )
            self.count(
                f"daplive {role}, a line of {size} bytes",
                is_right,
                f"status {process.returncode}, {used.ru_maxrss // 1024} MiB at the most",
            )

    def all(self):
        self.talks()
        self.all_told_late()
        self.lossy()
        self.unread()
        self.silent()
        for role in PROBES:
            self.resent(role)
            self.fail(role)
            self.unwritten(role)
        for role in PROBES:
            self.endless(role)
        # last: what this script keeps in memory counts for the memory of a program that it starts
        for role in ALONE:
            told, wrong = altered_packets(self.program, role)
            self.count(f"daplive {role}, packets that were altered or cut", not wrong, f"{told} told, {wrong} answered wrongly")


def lines_through(given):
    """How many bytes of the input are its first 0, 1, 2 .. whole lines."""
    return [0] + [at + 1 for at, byte in enumerate(given) if byte == 0x0A] + [len(given)]


def is_front(front, text):
    return text.startswith(front) and (not front or front.endswith(b"\n"))
