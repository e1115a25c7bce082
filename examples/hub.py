#!/usr/bin/env python3
"""A hub of Ethernet frames over UDP, as an Ethernet is one: each frame that one of the hosts sends goes to all others.

usage: hub.py PORT HOST:PORT HOST:PORT ..

It is for tests on one machine: it takes frames only on the loopback address, and learns no addresses of stations.
"""
import contextlib
import socket
import sys

from decnet import frames, program, udp

USAGE = "usage: hub.py PORT HOST:PORT HOST:PORT .."
LOOPBACK = "127.0.0.1"


def read_port(text):
    if not (text.isascii() and text.isdecimal() and 1 <= int(text) <= udp.MAX_PORT):
        raise program.Fault(f"{text[:40]} is no port; {USAGE}", program.WORDS)
    return int(text)


def read_host(text):
    """The address of a HOST:PORT."""
    host, colon, port = text.rpartition(":")
    if not (colon and host):
        raise program.Fault(f"{text[:40]} is no HOST:PORT; {USAGE}", program.WORDS)
    try:
        return socket.getaddrinfo(host, read_port(port), socket.AF_INET, socket.SOCK_DGRAM)[0][4]
    except OSError as fault:
        raise program.Fault(f"{host}: {fault.strerror}", program.FAULT) from fault


def carry(hub, hosts):
    """Passes on what comes, for ever. A host that isn't there gets nothing."""
    while True:
        with contextlib.suppress(ConnectionRefusedError):
            frame, sender = hub.recvfrom(frames.FRAME_LIMIT)
            for host in hosts if sender in hosts else ():
                if host != sender:
                    with contextlib.suppress(OSError):
                        hub.sendto(frame, host)


def main():
    if sys.argv[1:2] in (["-h"], ["--help"]):
        print(__doc__, end="")
        return 0
    if len(sys.argv) < 4:
        raise program.Fault(USAGE, program.WORDS)
    port, hosts = read_port(sys.argv[1]), [read_host(word) for word in sys.argv[2:]]
    with socket.socket(socket.AF_INET, socket.SOCK_DGRAM) as hub:
        hub.setsockopt(socket.SOL_SOCKET, socket.SO_RCVBUF, udp.RECEIVE_BUFFER)
        hub.bind((LOOPBACK, port))
        return carry(hub, hosts)


if __name__ == "__main__":
    program.run("hub.py", main)
