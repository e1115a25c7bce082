#!/usr/bin/env python3
"""Compares both live ends over a lossy line with `dapnsp run` over a clean one, and what is listed of both.

usage: lossy_tests.py [--first SEED] [--seeds N] [--requests N] [--daplive PROGRAM] [--dapnsp PROGRAM]
                      [--dapcap PROGRAM]

For each seed: a number of mixed requests over a line that loses, repeats and reorders, with settings by the seed. The
reports and the files have to be those of a schedule of the same requests in which each packet arrives once and in order,
but for RMS's codes of refusals, which live ends alone have; the exit statuses 0; and the transcript a capture in which `dapnsp show` finds nothing that is bad. `dapcap` has to
list the same DAP messages each way, and no part and no gap, of what went in and out of each end as of the clean packets.
"""
import argparse
import contextlib
import os
import pathlib
import random
import re
import subprocess
import sys
from concurrent.futures import ThreadPoolExecutor

from decnet import program
from decnet.listed import messages_by_way
from decnet.lossy import Both, Line

# the programs, as `./daplive` and `./dapnsp` build them
BUILT = pathlib.Path(__file__).resolve().parent.parent / "crates"
DAPLIVE = BUILT / "daplive/out/daplive"
DAPCAP = BUILT / "dapcap/out/dapcap"
DAPNSP = BUILT / "dapnsp/out/dapnsp"
# what the ends of a schedule say of themselves
IDENTITY = ["--ostype", "7", "--filesys", "3", "--syscap", "0"]
# more events of a kind than a request takes
MANY = 2048
# a refusal with a reason, in a report or a listing: its code is RMS's at a live end, and 4000 or 5000 in a schedule
CODED = re.compile(r"\b(refused|status) ([45])[0-9a-f]{3}(?= [1-9]| .* stv=[0-9a-f]{2}\b)")


class Clean:
    """A schedule of requests in which each packet arrives once and in order, found by trying its events."""

    def __init__(self, program, asking, serving):
        self.program, self.events, self.packets, self.files = program, [], [], []
        self.setup = f"setup 1400 2047 {asking} {serving}"

    def tries(self, *events):
        """Keeps the events before the first that is refused; what they came to, and why that one is refused."""
        text = "".join(f"{event}\n" for event in (self.setup, *self.events, *events))
        run = subprocess.run([str(self.program), "run"], input=text, capture_output=True, text=True, check=False)
        if run.returncode not in (0, 1):
            raise program.Fault(f"dapnsp run: {run.stderr}")
        told = re.findall(r"^\d+ (.*)$", run.stdout, re.M)[len(self.events):]
        refused = told.pop().removeprefix("refused ") if run.returncode else None
        self.events += events[:len(told)]
        self.files = re.findall(r"^(?:file|  ).*$", run.stdout, re.M)
        for line in told:
            if line.startswith("packet "):
                _, end, _, packet = line.split()
                self.packets.append(f"{'<>'[end == 'a']} {packet}")
        return told, refused

    def writes(self, end, *before):
        """Queues what waits and writes all of it; the deliveries of the packets."""
        told, refused = self.tries(*before, f"post {end}", *[f"emit {end}"] * MANY)
        other = "b" if end == "a" else "a"
        places = [line.split()[2] for line in told if line.startswith("packet ")]
        return [f"deliver {other} {place}" for place in places], refused

    def ask(self, request):
        """The report of a request, or `refused` and why it isn't asked."""
        deliveries, refused = self.writes("a", f"ask {request}")
        if refused.startswith("ask-"):
            return "refused " + refused
        reports = []
        while True:
            served, _ = self.tries(*deliveries, *["serve"] * MANY)
            if not served:
                break
            answers, _ = self.writes("b")
            read, _ = self.tries(*answers, *["read"] * MANY)
            reports += [line for line in read if line.startswith("report ")]
            deliveries = []
        if len(reports) != 1:
            raise program.Fault(f"dapnsp run: {len(reports)} reports of: {request}")
        return reports[0]


class Requests:
    """Requests that mostly fit, by the reports that came."""

    def __init__(self, chance, largest):
        self.chance, self.largest, self.phase = chance, largest, "fresh"

    def body(self):
        size = self.chance.choice([3, 40, 40, self.largest])
        return self.chance.randbytes(self.chance.randrange(size + 1)).hex() or "-"

    def next(self):
        choice = self.chance.choice
        name = choice(["46", "47", "5359532e444154", "-"])
        number = self.chance.randrange(12)
        if self.phase == "fresh":
            return "hello"
        if self.phase == "ready":
            if choice([True, False]):
                return f"open {name} {choice([15, 15, 15, 7, 3, 2, 0])}"
            rfm = choice([1, 2, 2])
            mrs = choice([5, 20] if rfm == 1 else [0, 0, 30])
            return f"create {name} {choice([0, 16])} {rfm} {mrs} {choice([0, 0, 9])} {choice([15, 15, 15, 7, 1])}"
        if self.phase == "opened":
            return choice(["connect"] * 8 + ["close", "purge"])
        if self.phase == "stopped":
            return "continue " + choice(["again", "skip", "skip", "abort"])
        store = " ".join(["store"] + [self.body() for _ in range(self.chance.randrange(9))])
        return choice(
            ["get"] * 3 + [f"get key {number}", f"get rfa {number}"] + [f"put {self.body()}"] * 6
            + [f"put key {number} {self.body()}"] * 3 + [f"update {self.body()}", "delete", "rewind", "rewind"]
            + ["fetch", "fetch", "close", "purge", store])

    def told(self, request, answer):
        word = request.split()[0]
        if answer.startswith("refused "):
            return
        if word == "hello" or word in ("close", "purge"):
            self.phase = "ready"
        elif word in ("create", "open") and answer.startswith("report opened"):
            self.phase = "opened"
        elif word == "connect" and answer == "report connected":
            self.phase = "connected"
        elif word == "store":
            self.phase = "opened"
        elif word in ("fetch", "continue"):
            self.phase = "stopped" if answer.split()[3:4] == ["stopped"] else "connected"


def messages_of(dapcap, lines, other_way=False):
    """The DAP messages that went each way in a capture, in the order in which they were sent."""
    capture = "".join(f"{line}\n" for line in lines if line[:1] in ("<", ">"))
    run = subprocess.run([str(dapcap), "--bare"], input=capture, capture_output=True, text=True, check=False)
    listing = without_codes(run.stdout).splitlines()
    for line in listing:
        if line.startswith(("part", "gap", "  bad")):
            raise program.Fault(f"dapcap: {line}")
    if run.returncode:
        raise program.Fault(f"dapcap: {run.stderr}")
    messages = messages_by_way(listing)
    return {"<": messages[">"], ">": messages["<"]} if other_way else messages


def without_codes(text):
    """A text whose refusals have no other code than their kind, beside the reason."""
    return CODED.sub(r"\1 \g<2>000", text)


def differs(seed, count, programs):
    """What isn't as it has to be in the run of a seed."""
    chance = random.Random(seed)
    choice = chance.choice
    segment, window = choice([1, 7, 64, 230, 512, 1400]), choice([1, 2, 8, 32, 127, 2047])
    buffers = choice([64, 100, 1024, 4096]), choice([64, 100, 1024, 4096])
    common = [*IDENTITY, "--segment", str(segment), "--window", str(min(window, 127) if segment == 1 else window), "--buffer"]
    line = Line(chance.random(), choice([5, 20, 40]), choice([0, 10, 40]), choice([1, 4, 40]))
    clean = Clean(programs.dapnsp, *buffers)
    requests = Requests(chance, 60 if segment < 64 else choice([60, 400, 3000]))
    with contextlib.closing(Both(line, [*common, str(buffers[0])], [*common, str(buffers[1])], programs.daplive)) as both:
        return compare(both, clean, requests, count, programs)


def compare(both, clean, requests, count, programs):
    """What differs between both ends over a lossy line, and a schedule over a clean one."""
    for _ in range(count):
        request = requests.next()
        answer = both.ask(request)
        wanted = clean.ask(request)
        if without_codes(answer) != without_codes(wanted):
            return f"{request[:60]}: {answer[:60]}, and over a clean line {wanted[:60]}"
        requests.told(request, answer)
    files = both.files()
    if files != clean.files:
        return "the files"
    statuses = both.close()
    if statuses != [0, 0]:
        return f"the exit statuses are {statuses}"
    capture = "".join(f"{line}\n" for line in both.transcript() if line[:1] in ("<", ">"))
    shown = subprocess.run([str(programs.dapnsp), "show"], input=capture, capture_output=True, text=True, check=False)
    if shown.returncode or re.search(r"^(\d+ [<>]| ) bad ", shown.stdout, re.M):
        return f"dapnsp show finds something bad in the transcript, or fails: {shown.stderr}"
    wanted = messages_of(programs.dapcap, clean.packets)
    for name, end in both.ends.items():
        if messages_of(programs.dapcap, end.transcript, other_way=name == "asking") != wanted:
            return f"dapcap, at the end that is {name}"
    return None


def main():
    parser = argparse.ArgumentParser(description="Compares both live ends over a lossy line with dapnsp run.")
    parser.add_argument("--first", type=int, default=1)
    parser.add_argument("--seeds", type=int, default=20)
    parser.add_argument("--requests", type=int, default=25)
    parser.add_argument("--daplive", default=DAPLIVE)
    parser.add_argument("--dapnsp", default=DAPNSP)
    parser.add_argument("--dapcap", default=DAPCAP)
    options = parser.parse_args()
    wrong = 0
    seeds = range(options.first, options.first + options.seeds)
    with ThreadPoolExecutor(os.cpu_count()) as pool:
        run = lambda seed: differs(seed, options.requests, options)
        for seed, what in zip(seeds, pool.map(run, seeds)):
            if what:
                wrong += 1
                print(f"lossy_tests: seed {seed}: {what}", file=sys.stderr)
    print(f"lossy_tests: {options.seeds} seeds, {wrong} differ")
    return 1 if wrong else 0


if __name__ == "__main__":
    program.run("lossy_tests.py", main)
