"""What the program that started the bridge is told of it, where that is systemd or works as it (sd_notify(3))."""
import contextlib
import os
import socket

READY, STOPPING = "READY=1", "STOPPING=1"


def tell(state):
    """Tells the manager a state, if there is one that asks; nothing that goes wrong here matters to the bridge."""
    name = os.environ.get("NOTIFY_SOCKET", "")
    if not name.startswith(("/", "@")):
        return
    place = os.fsencode(name) if name[0] == "/" else b"\0" + os.fsencode(name[1:])
    with contextlib.suppress(OSError), socket.socket(socket.AF_UNIX, socket.SOCK_DGRAM) as line:
        line.setblocking(False)
        line.sendto(state.encode(), place)
