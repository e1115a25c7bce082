"""What tshark reads of captured frames, beside what the bridge meant."""
import os
import re
import subprocess

from decnet import frames, nsp, routing
from decnet.address import ethernet_address, node_text, read_node
from decnet.nsp import Kind
from tests import captures
from tests.station import ASKING, SERVING
from tests.support import PATIENCE, expect, expect_equal


class Kept:
    """A capture file that a bridge writes."""

    def __init__(self, path):
        self.path = path

    def frames(self):
        with open(self.path, "rb") as file:
            return list(captures.frames(file))


def tshark_text(path):
    """The reading of a capture, in words."""
    run = subprocess.run(["tshark", "-n", "-V", "-r", str(path)], capture_output=True, text=True, check=False,
                         timeout=2 * PATIENCE, env={**os.environ, "LC_ALL": "C.UTF-8"})
    expect_equal(run.returncode, 0, f"the exit status of tshark ({run.stderr})")
    return run.stdout


# names of fields of NSP and of hello messages, with how tshark writes them
TSHARK = {
    "kind": r"DNA NSP message: .*\((0x[0-9a-f]+)\)",
    "destination": r"Destination node: (0x[0-9a-f]+)",
    "source": r"Source node: (0x[0-9a-f]+)",
    "services": r"Requested services: \S+ \((0x[0-9a-f]+)\)",
    "version": r"Version info: .*\((0x[0-9a-f]+)\)",
    "segment": r"Maximum data segment size: (\d+)",
    "object": r"Session Object type: (0x[0-9a-f]+)",
    "reason": r"Reason for disconnect: .*\((0x[0-9a-f]+)\)",
    "number": r"Message number: (\d+)",
    "acknowledged": r"positively acknowledged: (\d+)",
    "modifier": r"Flow control: .*\((0x[0-9a-f]+)\)",
    "count": r"Request for additional (-?\d+) data msgs",
    "hello from": r"Transmitting system ID: .*\((\d+\.\d+)\)",
    "hello": r"Node type: End node \((0x[0-9a-f]+)\)",
    "block size": r"Block size: (\d+)",
    "seconds": r"Hello timer\(seconds\): (\d+)",
    "to node": r"Destination Address: .*\((\d+\.\d+)\)",
    "from node": r"Source Address: .*\((\d+\.\d+)\)",
    "return wanted": r"Return to Sender Request: (\w+)",
    "intra-Ethernet": r"Intra-ethernet packet: (\w+)",
}


def tshark_fields(text):
    """Of each frame the fields that tshark reads."""
    readings = []
    for part in re.split(r"^Frame \d+: ", text, flags=re.M)[1:]:
        found = {name: re.search(pattern, part) for name, pattern in TSHARK.items()}
        values = {name: match[1] for name, match in found.items() if match}
        readings.append({name: value_of(value) for name, value in values.items()})
    return readings


def value_of(text):
    """A number, or a text that is none."""
    try:
        return int(text, 0)
    except ValueError:
        return text


def meant_fields(frame):
    """The fields of a frame as the bridge meant them."""
    node = int.from_bytes(frame[10:12], "little")
    if frame[:6] == frames.ALL_ROUTERS:
        return {"hello": frames.END_NODE, "hello from": node_text(node), "block size": frames.BLOCK_SIZE,
                "seconds": frames.HELLO_SECONDS}
    receiver = int.from_bytes(frame[4:6], "little")
    packet = nsp.read(routing.read_frame(frame, receiver).packet)
    meant = {"to node": node_text(receiver), "from node": node_text(node), "kind": packet.kind}
    meant.update({"return wanted": "Yes" if packet.kind in nsp.CONNECTS else "No", "intra-Ethernet": "Yes"})
    meant["destination"] = packet.destination
    if packet.kind is Kind.CONNECT_ACK:
        return meant
    meant["source"] = packet.source
    if packet.kind in (Kind.CONNECT, Kind.CONFIRM):
        meant.update(services=packet.flow_control, version=nsp.VERSION, segment=packet.segment)
    if packet.kind is Kind.CONNECT:
        meant["object"] = nsp.read_object(packet.body)
    if packet.kind in (Kind.DISCONNECT, Kind.DISCONNECT_CONFIRM):
        meant["reason"] = packet.reason
    if packet.kind in nsp.SEGMENTS | nsp.NUMBERED_OTHER:
        meant["number"] = packet.number
    if packet.acks:
        meant["acknowledged"] = packet.acks[0][1]
    if packet.kind is Kind.LINK_SERVICE:
        service = nsp.read_link_service(packet.body)
        meant.update(modifier=service.modifier, count=service.count)
    return meant


def compare(capture):
    """Each frame of the bridges is read by tshark as it was meant, and no frame as malformed. The kinds of packets."""
    bridges = {ethernet_address(read_node(node)) for node in (SERVING, ASKING)}
    kinds, text = set(), tshark_text(capture.path)
    expect(not re.search("malformed", text, re.I), f"tshark reads malformed frames in {capture.path.name}")
    found, sent = tshark_fields(text), capture.frames()
    expect_equal(len(found), len(sent), f"the frames of {capture.path.name}")
    for number, (reading, frame) in enumerate(zip(found, sent), 1):
        if frame[6:12] in bridges:
            meant = meant_fields(frame)
            same = {name: reading.get(name) for name in meant}
            expect_equal(same, meant, f"{capture.path.name} frame {number}")
            kinds.add(meant.get("kind", "hello"))
    return kinds
