#!/usr/bin/env python3
"""Compares several links over lossy lines before one server with the same messages over lines without loss.

usage: links_tests.py [--first SEED] [--seeds N] [--requests N] [--links N] [--daplive PROGRAM]

For each seed: a number of mixed requests on each link, of which many name the same files, over lines that lose, repeat and
reorder, with settings by the seed. The NSP messages that the end served, in the order in which they were whole there, are
then told to another one, each packet once and in order: its answers on each link have to be those that came to the end
that asked there, and its files those of the first. No two links may have a file open that one of them may change. The
exit statuses have to be 0.
"""
import argparse
import contextlib
import os
import pathlib
import random
import sys
from concurrent.futures import ThreadPoolExecutor

from decnet import nsp, program
from decnet.end import End
from decnet.lossy import Line, Several
from decnet.raw import RawEnd
from decnet.rights import fac_of
from lossy_tests import Requests

DAPLIVE = pathlib.Path(__file__).resolve().parent.parent / "crates/daplive/out/daplive"
LOCKED = "report refused 4030 0"


class Shared(Requests):
    """Requests of one link, and which file they have open."""

    def __init__(self, chance, largest):
        super().__init__(chance, largest)
        self.open = None  # the name of a file, and whether others may have it open too

    def told(self, request, answer):
        super().told(request, answer)
        word, *words = request.split()
        if word in ("create", "open") and answer.startswith("report opened"):
            self.open = (words[0], word == "open" and int(words[-1]) in (0, fac_of("get")))  # which share a file
        elif answer == LOCKED:
            self.open = None


class Play:
    """One play over lossy lines."""

    def __init__(self, several, requests, count):
        self.several, self.requests, self.wrong, self.locked = several, requests, "", 0
        self.left = [count] * len(requests)

    def ask(self, number):
        """The next request of a link. Where it gives its file up, that is free from now on."""
        if not self.left[number]:
            return None
        self.left[number] -= 1
        asked = self.requests[number]
        request = asked.next()
        if request.split()[0] in ("close", "purge", "store"):
            asked.open = None
        return request

    def told(self, number, request, report):
        asked = self.requests[number]
        asked.told(request, report)
        self.locked += report == LOCKED
        for other in self.requests:
            if other is not asked and asked.open and other.open and asked.open[0] == other.open[0]:
                if not (asked.open[1] and other.open[1]):
                    self.wrong = f"two links have {asked.open[0]} open, and one may change it"


def peers(count, segment):
    """What is at the far end of each link of a node."""
    found = []
    for number in range(count):
        raw = RawEnd()
        raw.renew(0x0101 + number, 0x0201 + number, segment)
        found.append(raw)
    return found


def served(transcript, count, segment):
    """The messages that were served, each with its link, in the order in which they were whole."""
    near = [RawEnd() for _ in range(count)]
    for number, raw in enumerate(near):
        raw.renew(0x0201 + number, 0x0101 + number, segment)
    for line in transcript:
        if line.startswith("> "):
            number = nsp.read(bytes.fromhex(line[2:])).destination - 0x0201
            near[number].answer(line)
            for message in near[number].take_inbox():
                yield number, message


def came(transcript, raw):
    """The messages that came to an end that asked."""
    for line in transcript:
        if line.startswith("> "):
            raw.answer(line)
    return raw.take_inbox()


def replay(end, messages, raws):
    """Tells an end messages of links over lines without loss."""
    for number, raw in enumerate(raws):
        end.say(f"new {raw.remote:04x} {raw.local:04x} {raw.segment}")
    for number, message in messages:
        way = raws[number].say(message)
        while way:
            for text in end.say("> " + way.pop(0)[2:]):
                if text.startswith("< "):
                    way += raws[number].answer("> " + text[2:])[1:]


def differs(seed, count, links, daplive):
    """What isn't as it has to be in the run of a seed, and how often a file was locked."""
    chance = random.Random(seed)
    choice = chance.choice
    segment, window = choice([7, 64, 230, 512, 1400]), choice([1, 2, 8, 32, 127, 2047])
    buffers = choice([64, 100, 1024, 4096]), choice([64, 100, 1024, 4096])
    common = ["--segment", str(segment), "--window", str(window), "--buffer"]
    line = Line(chance.random(), choice([5, 20, 40]), choice([0, 10, 40]), choice([1, 4, 40]))
    asking, serving = [*common, str(buffers[0])], [*common, str(buffers[1])]
    requests = [Shared(random.Random(chance.random()), 60 if segment < 64 else choice([60, 400, 3000])) for _ in range(links)]
    with contextlib.closing(Several(line, links, asking, serving, daplive)) as several:
        play = Play(several, requests, count)
        several.play(play.ask, play.told)
        files = several.files()
        statuses = several.close()
    return play.wrong or compare(several, serving, segment, files, statuses, daplive), play.locked


def compare(several, serving, segment, files, statuses, daplive):
    """What differs from the same messages over lines without loss."""
    if any(statuses):
        return f"the exit statuses are {statuses}"
    count = len(several.ends)
    raws = peers(count, segment)
    with contextlib.closing(End(daplive, ["serve", "--links", str(max(2, count)), *serving])) as end:
        replay(end, served(several.node.transcript, count, segment), raws)
        again = end.say("files")
    if again != files:
        return "the files"
    for number, (raw, asked, far) in enumerate(zip(raws, several.ends, peers(count, segment)), 1):
        if came(asked.transcript, far) != raw.take_inbox():
            return f"the answers on link {number}"
    return ""


def main():
    parser = argparse.ArgumentParser(description="Compares several links over lossy lines with lines without loss.")
    parser.add_argument("--first", type=int, default=1)
    parser.add_argument("--seeds", type=int, default=20)
    parser.add_argument("--requests", type=int, default=25)
    parser.add_argument("--links", type=int, default=2)
    parser.add_argument("--daplive", default=DAPLIVE)
    options = parser.parse_args()
    wrong = locked = 0
    seeds = range(options.first, options.first + options.seeds)
    with ThreadPoolExecutor(os.cpu_count()) as pool:
        run = lambda seed: differs(seed, options.requests, options.links, options.daplive)
        for seed, (what, times) in zip(seeds, pool.map(run, seeds)):
            locked += times
            if what:
                wrong += 1
                print(f"links_tests: seed {seed}: {what}", file=sys.stderr)
    print(f"links_tests: {options.seeds} seeds of {options.links} links, {wrong} differ; a file was locked {locked} times")
    return 1 if wrong or not locked else 0


if __name__ == "__main__":
    program.run("links_tests.py", main)
