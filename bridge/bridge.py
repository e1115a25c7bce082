#!/usr/bin/env python3
"""One DECnet Phase IV end node on an Ethernet, or on one over UDP, before one live end of a DAP file access (Linux).

usage: bridge.py serve --interface IF|--udp LPORT:HOST:RPORT --node 1.2 [--files FILE] [--save FILE] ..
       bridge.py ask --interface IF|--udp LPORT:HOST:RPORT --node 1.1 --to 1.2 [--user NAME ..] .. <REQUESTS
       bridge.py copy FROM TO, bridge.py type NODE::NAME, bridge.py get NODE::NAME --number N,
       bridge.py put NODE::NAME TEXT [--number N]
       bridge.py probe --to NODE
       bridge.py password NAME [--rights get,put,..] <PASSWORD

`serve` takes links to object 17 (FAL), --links at once, and holds the files over all of them. `ask` opens one link to that
object, reads requests, one a line as docs/LIVE.md has them after `ask`, asks each when the report of the one before has
come, prints the reports, and closes the link at the end of the input. `copy`, `type`, `get` and `put` do that for a file
that is named, and text. `probe` tests the file access listener of a node. docs/BRIDGE.md has all of it.
"""
import signal

if signal.getsignal(signal.SIGINT) is signal.default_int_handler:  # Ctrl-C while all else is imported ends it as SIGTERM does
    signal.signal(signal.SIGINT, signal.SIG_DFL)

import contextlib
import os
import sys

from decnet import log, manager, naming, nsp, program
from decnet import words as command
from decnet.address import node_text
from decnet.client import Client, InputFault, Requests
from decnet.copying import copy
from decnet.end import EndFault
from decnet.hostfile import HostFault
from decnet.kept import Keeper
from decnet.locked import KeptFault
from decnet.log import LogFault
from decnet.output import Output
from decnet.parts import (
    carry, keep_file, load_files, open_entry, open_journal, open_node, open_signals, open_store, settings_of,
    settings_of_server, start_end)
from decnet.passwords import print_user
from decnet.pcap import PcapFault
from decnet.role import FAILED, FAULT, Stopped
from decnet.server import Server
from decnet.space import Space
from decnet.testing import test
from decnet.texts import TextFault
from decnet.wire import WireFault


def serve(words, opened):
    """Serves; what is `opened` is closed by the caller, the last one first."""
    signals = open_signals(words, opened, with_times=True)
    entry = open_entry(words, opened)
    node = open_node(words, opened)
    kept = keep_file(words)
    if kept:
        opened(kept)
    journal = open_journal(words, opened) if words.store is not None else None
    end = opened(start_end(words, signals))
    space, store, left, is_changed = Space(end, words.space, words.names == command.VERSIONS), None, [], False
    if journal:
        store, left = open_store(words, journal, opened, end, space, signals)
    else:
        is_changed = load_files(words, kept, end, space, signals)
    keeper = opened(Keeper(kept, end, is_changed)) if kept else None
    role = Server(node, end, settings_of_server(words), keeper, words.stop_after, store, space, entry)
    node.start()
    where = words.interface or node.wire.name
    log.say(str(entry))
    if words.names == command.VERSIONS:
        log.say(f"a file that is made anew is its next version ({naming.line_of(words)[2:]})")
    log.say(f"node {node_text(words.node)} on {where}: takes links to object {nsp.FAL}")
    manager.tell(manager.READY)
    for link in left:
        role.resume(link)
    return carry(role, signals)


def ask(words, opened, closed):
    """Asks; what is `opened` is closed by the caller, the last one first. `closed` are standard files that are."""
    signals = open_signals(words, opened)
    for file, name in enumerate(("input", "output")):
        if file in closed:
            raise InputFault(f"standard {name}: closed")
    node, end = open_node(words, opened), opened(start_end(words, signals))
    output = opened(Output(signals))
    role = Client(node, end, settings_of(words), Requests(sys.stdin.fileno()), words.patience, words.go_on, output)
    node.start()
    role.open(words.to, nsp.session(*words.images))
    status = carry(role, signals)
    with role.writing():
        output.flush()
    return status


def do(words, opened, closed):
    """Does what the words say; the exit status."""
    if words.role == "serve":
        return serve(words, opened)
    if words.role == "ask":
        return ask(words, opened, closed)
    if words.role == "probe":
        return test(words, opened, closed)
    return print_user(words, closed) if words.role == "password" else copy(words, opened, closed)


def start(words, closed):
    """Does what the words say, and says what is wrong; the exit status."""
    with contextlib.ExitStack() as parts:
        def opened(part):
            return parts.enter_context(contextlib.closing(part))
        try:
            return do(words, opened, closed)
        except TextFault as fault:
            log.say(str(fault))
            return program.WORDS
        except KeptFault as fault:
            log.say(str(fault))
            return FAULT if fault.of_machine else FAILED
        except (WireFault, PcapFault, EndFault, InputFault, HostFault, LogFault) as fault:
            log.say(str(fault))
            return FAULT
        except (Stopped, program.Fault) as fault:
            log.say(str(fault))
            return fault.status


def main():
    closed = program.hold_standard_files()
    try:
        status = start(command.read_or_end(closed), closed)
        sys.stdout.flush()
        return status
    except BrokenPipeError:
        program.end_by(signal.SIGPIPE)
    except KeyboardInterrupt:
        program.end_by(signal.SIGINT)
    except OSError as fault:  # what is left is standard output
        os.dup2(os.open(os.devnull, os.O_WRONLY), sys.stdout.fileno())
        tell(f"standard output: {fault.strerror or fault}")
    except MemoryError:
        tell("no memory")
    return FAULT


def tell(text):
    """Says on standard error why the program ends; its log may be closed."""
    log.start("bridge").say(text)


if __name__ == "__main__":
    sys.exit(main())
