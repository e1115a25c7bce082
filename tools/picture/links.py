"""Packets divided into links."""
from decnet.nsp import CONNECTS, Kind

ADDRESSES = 5  # bytes of MSGFLG and both link addresses


class Link:
    """The packets of one link in order, and its gaps. `addresses` are the link addresses of the `>` and the `<` end, 0 where
    one isn't known; both are None for packets that belong to no link."""

    def __init__(self, addresses, nodes):
        self.addresses, self.nodes = addresses, nodes
        self.packets, self.gaps, self.number = [], [], None

    @property
    def title(self):
        if self.addresses is None:
            return "Packets of no link"
        return f"Link {self.number}: {' and '.join(self.end(at) for at in (0, 1))}"

    def end(self, at):
        address = f"{self.addresses[at]:04x}" if self.addresses[at] else "no address"
        return address if self.nodes is None else f"{self.nodes[at]} {address}"


def addresses_of(packet):
    """The link addresses of the `>` end and the `<` end, 0 where the packet doesn't have one."""
    data = packet.data.ljust(ADDRESSES, b"\0")
    receiver, sender = (int.from_bytes(data[at:at + 2], "little") for at in (1, 3))
    if len(packet.data) < ADDRESSES and packet.data[:1] != bytes([Kind.CONNECT_ACK]) or data[0] == Kind.NO_OPERATION:
        receiver = sender = 0
    elif data[0] == Kind.CONNECT_ACK:
        sender = 0
    elif data[0] in CONNECTS:  # the receiver has none yet
        receiver = 0
    return (sender, receiver) if packet.direction == ">" else (receiver, sender)


class Divider:
    """The links between two nodes. A packet with one address belongs to the latest link with it."""

    def __init__(self, nodes):
        self.nodes, self.links, self.latest = nodes, {}, {}
        self.of_none = Link(None, nodes)

    def link_of(self, addresses):
        if not any(addresses):
            return self.of_none
        link = self.links.get(addresses)
        if link is None:
            link = self.half_open(addresses) or Link(addresses, self.nodes)
            link.addresses = tuple(new or old for new, old in zip(addresses, link.addresses))
            self.links[addresses] = self.links[link.addresses] = link
        for end, address in enumerate(addresses):
            if address:
                self.latest[end, address] = link
        return link

    def half_open(self, addresses):
        """The latest link with one of these addresses, where it has no other yet, or these are one; else None."""
        for end, address in enumerate(addresses):
            link = self.latest.get((end, address)) if address else None
            if link and (link.addresses[1 - end] == 0 or addresses[1 - end] == 0):
                return link
        return None

    def add(self, packet):
        link = self.link_of(addresses_of(packet))
        link.packets.append(packet)
        return link


def divide(packets, gaps, nodes):
    """The links of the packets between two nodes, in the order in which they appear, each with its gaps. Where there is one
    link, the packets of no link are drawn with it; else they come last."""
    divider, of_stream = Divider(nodes), {}
    for packet in packets:
        link = divider.add(packet)
        if packet.is_segment:
            of_stream[packet.stream] = link
    links = list(dict.fromkeys(divider.links.values()))
    for gap in gaps:
        of_stream[gap.stream].gaps.append(gap)
    if len(links) == 1:
        links[0].packets = packets
    elif divider.of_none.packets:
        links.append(divider.of_none)
    return links
