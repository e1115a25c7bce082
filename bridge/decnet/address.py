"""Addresses of DECnet Phase IV: a node is an area and a number in it, as 1.10, and has an Ethernet address."""
import re
import struct

PREFIX = bytes.fromhex("aa000400")  # of the Ethernet address of a node
AREA_BITS, NODE_BITS = 6, 10
MAX_AREA, MAX_NODE = (1 << AREA_BITS) - 1, (1 << NODE_BITS) - 1
SPELLED = re.compile(r"([0-9]{1,4})\.([0-9]{1,4})", re.ASCII)


def read_node(text):
    """A node as a number from its address as 1.10; ValueError for any other text."""
    found = SPELLED.fullmatch(text)
    node = int(found[1]) << NODE_BITS | int(found[2]) if found and int(found[2]) <= MAX_NODE else 0
    if not is_node(node) or node >> NODE_BITS > MAX_AREA:
        raise ValueError(f"{text[:40]} is no DECnet address, as 1.10: an area 1 to {MAX_AREA}, and a number 1 to {MAX_NODE}")
    return node


def is_node(number):
    return number >> NODE_BITS != 0 and number & MAX_NODE != 0


def node_text(number):
    return f"{number >> NODE_BITS}.{number & MAX_NODE}"


def ethernet_address(node):
    return PREFIX + struct.pack("<H", node)


def ethernet_text(address):
    return address.hex(":")
