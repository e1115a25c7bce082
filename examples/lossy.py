#!/usr/bin/env python3
"""Plays requests over live ends and lines between them that lose, repeat and reorder packets.

usage: lossy.py [--links N] [--seed N] [--loss PERCENT] [--repeat PERCENT] [--reach N] [--asking WORDS] [--serving WORDS]
                [--transcript FILE] [--daplive PROGRAM] < REQUESTS

Reads requests, one a line, as they follow `ask`; empty lines and those that begin with `#` say nothing. It starts
`daplive ask WORDS` and `daplive serve WORDS`, asks each request when the report of the one before has come, and carries
the packets: each is lost, or repeated, with that chance, and any of the oldest --reach ones on their way arrives next.
Where none is on its way, an end whose packets wait says `resend`. It prints the report of each request, or why it isn't
asked, and at the end the files. With --transcript all lines of both ends are kept, of which
`grep '^[<>]'` is a capture for `dapnsp show`.

With --links N there are N clients, each over its own link, before one server. Each line has the number of
one of them before its request, from 1; each end asks its requests in their order, and the line decides between the
ends. Each report has that number before it.
"""
import argparse
import collections

from decnet import program
from decnet.end import DAPLIVE
from decnet.lossy import Both, Line, Several

MAX_LINKS = 255


def share(text):
    """A number of percent."""
    value = float(text)
    if not 0 <= value <= 90:
        raise argparse.ArgumentTypeError(f"{text} is no number from 0 to 90")
    return value


def count(text):
    if not 1 <= int(text) <= 1_000_000:
        raise argparse.ArgumentTypeError(f"{text} is no number from 1 to 1000000")
    return int(text)


def links(text):
    if not 1 <= int(text) <= MAX_LINKS:
        raise argparse.ArgumentTypeError(f"{text} is no number from 1 to {MAX_LINKS}")
    return int(text)


def read_options():
    parser = argparse.ArgumentParser(
        prog="lossy.py", description="Plays requests over both live ends and a lossy line.")
    parser.add_argument("--links", type=links, metavar="N")
    parser.add_argument("--seed", type=int, default=1)
    parser.add_argument("--loss", type=share, default=20, metavar="PERCENT")
    parser.add_argument("--repeat", type=share, default=10, metavar="PERCENT")
    parser.add_argument("--reach", type=count, default=4, metavar="N")
    parser.add_argument("--asking", default="", metavar="WORDS")
    parser.add_argument("--serving", default="", metavar="WORDS")
    parser.add_argument("--transcript", metavar="FILE")
    parser.add_argument("--daplive", default=DAPLIVE, metavar="PROGRAM")
    return parser.parse_args()


def requests():
    """The requests on standard input, each with the number of its line."""
    for number, line in enumerate(program.standard_input(), 1):
        request = line.decode("utf-8", "surrogateescape").rstrip("\r\n")
        if request and not request.startswith("#"):
            yield number, request


def play(both):
    """Asks the requests on standard input, and prints the reports and the files."""
    for _, request in requests():
        print(both.ask(request))
    for line in both.files():
        print(line)


def play_several(several, count):
    """The same of several ends."""
    asked = [collections.deque() for _ in range(count)]
    for number, line in requests():
        word, _, request = line.partition(" ")
        if not (word.isascii() and word.isdecimal() and 1 <= int(word) <= count):
            raise program.Fault(f"line {number}: no number from 1 to {count} before a request")
        asked[int(word) - 1].append(request)
    several.play(lambda link: asked[link].popleft() if asked[link] else None,
                 lambda link, _request, report: print(f"{link + 1} {report}"))
    for line in several.files():
        print(line)


def main():
    options = read_options()
    line = Line(options.seed, options.loss, options.repeat, options.reach)
    words = options.asking.split(), options.serving.split(), options.daplive
    both = Both(line, *words) if options.links is None else Several(line, options.links, *words)
    try:
        if options.links is None:
            play(both)
        else:
            play_several(both, options.links)
    finally:
        statuses = both.close()
    if options.transcript:
        with open(options.transcript, "w", encoding="utf-8", errors="surrogateescape") as file:
            file.writelines(f"{line}\n" for line in both.transcript())
    return max(statuses)


if __name__ == "__main__":
    program.run("lossy.py", main)
