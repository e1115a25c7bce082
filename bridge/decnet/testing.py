"""A probe of another node's file access listener, by the words of the command line."""
import sys

from decnet import dapcap, nsp, probe, verdicts
from decnet.address import node_text
from decnet.client import InputFault
from decnet.parts import end_beside, open_node, open_signals, settings_of
from decnet.role import FAILED, GOOD

WIDTH = 60


def test(words, opened, closed):
    """Has the conversations of a probe, and prints what comes of them; `closed` are standard files that are."""
    signals = open_signals(words, opened)
    if 1 in closed:
        raise InputFault("standard output: closed")
    before, lister = None, dapcap.find(words.dapcap)
    node = open_node(words, opened)
    across = probe.Across(node, settings_of(words), words.to, nsp.session(*words.images), words.quiet, signals)
    found = probe.Probe(across, words.only)
    if words.against is not None:
        before = probe.kept(words.against, found.talks)
    else:
        found.beside = probe.Beside(opened(end_beside(words)))
    node.start()
    found.run(tell_progress)
    if words.answers is not None:
        probe.keep(words.answers, found.talks, found.other)
    return print_verdicts(found, before, found.erase(), words, lister)


def tell_progress(name):
    if sys.stderr.isatty():
        print(name.ljust(WIDTH), end="\r", file=sys.stderr, flush=True)


def print_verdicts(found, before, erased, words, lister):
    """Prints what both ends say; the exit status."""
    own, beside = (found.own, "proved") if before is None else (before, "before")
    answers_of = [inbox for side in (own, found.other) for steps in side.values() for inbox in steps]
    listing = verdicts.Listing(lister, [body for inbox in [*answers_of, *erased.values()] for body in inbox])
    table = list(verdicts.rows(found.talks, own, found.other, listing))
    for row in table[:1]:
        for line in row.other[:1] if row.other and row.other[0].startswith("config ") else ():
            print(verdicts.described(line))
    for line in (*verdicts.report(table, found.lost, beside), *verdicts.abilities(table, f"the {beside} end")):
        print(line)
    left = [name for name, inbox in erased.items() if not verdicts.is_gone(listing.of(inbox))]
    if left:
        print(f"left on node {node_text(words.to)}, where they are: {', '.join(left)}")
    print(verdicts.counted(table))
    return GOOD if all(row.verdict in verdicts.GOOD for row in table) else FAILED
