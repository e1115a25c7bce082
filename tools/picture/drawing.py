"""The picture of a link: two lanes, time downwards, and an arrow for each packet, as rows of HTML with SVG in them."""
import html

from decnet.nsp import Kind
from picture.account import client_of
from picture.folding import find_folds
from picture.messages import counted, shortened

WIDTH, LEFT, RIGHT = 1120, 190, 890  # of a row, and where its lanes are
INDENT = 14  # from a lane to a text
LINE, SMALL_LINE, QUIET_LINE = 17, 15, 21  # heights of lines
ACK_HEIGHT, PLAIN_HEIGHT = 15, 22
MIN_DATA = 4  # this many Data of an NSP message are one line
DETAIL = 72  # characters of what is said of a message
PAUSE = 1  # seconds without a packet that are shown
NAMES = {Kind.CONNECT: "Connect Initiate", Kind.CONNECT_AGAIN: "Connect Initiate, retransmitted",
         Kind.CONFIRM: "Connect Confirm", Kind.DISCONNECT: "Disconnect Initiate",
         Kind.DISCONNECT_CONFIRM: "Disconnect Confirm",
         Kind.NO_OPERATION: "No Operation", Kind.CONNECT_ACK: "Connect Acknowledgement", Kind.LINK_SERVICE: "Link Service",
         Kind.INTERRUPT: "Interrupt", Kind.OTHER_ACK: "Other-Data Acknowledgement"}


def text(x, y, content, kind="", anchor="start", title=None):
    inner = f"<title>{html.escape(title)}</title>" if title else ""
    return f'<text x="{x}" y="{y}" class="{kind}" text-anchor="{anchor}">{inner}{content}</text>'


def named(kind, name, rest):
    return f'<tspan class="name k-{kind}">{html.escape(name)}</tspan> {rest}'


def summed(run):
    """What is said of Data messages in one line."""
    records = [one.image_number("recnum") for one in run if one.image_number("recnum") is not None]
    span = f", records {records[0]} to {records[-1]}" if records else ""
    return named("data", f"Data × {len(run):,}", counted(sum(len(one.body) for one in run), "byte") + span)


def acks_text(acks):
    """Acknowledgement fields of a listing, those of the data subchannel's acknowledgements without their QUAL."""
    words = {"0": "ack", "1": "NAK", "2": "cross-ack", "3": "cross-NAK"}
    fields = [] if acks == "-" else [field.partition(":") for field in acks.split(",")]
    return " ".join(f"{words.get(qualifier, qualifier)} {number}" for qualifier, _, number in fields)


def runs_of_data(messages):
    """Messages in lists: MIN_DATA or more Data in a row together, any other alone."""
    at = 0
    while at < len(messages):
        after = at
        while after < len(messages) and messages[after].word == "data":
            after += 1
        after = after if after - at >= MIN_DATA else at + 1
        yield messages[at:after]
        at = after


def chevron(y):
    return f'<path class="chevron" d="M{LEFT - 9} {y}l5 4l-5 4z"/>'


def svg(height, content, kind=""):
    lanes = f'<path class="lane" d="M{LEFT} 0V{height}M{RIGHT} 0V{height}"/>'
    return f'<svg class="{kind}" width="{WIDTH}" height="{height}" viewBox="0 0 {WIDTH} {height}">{lanes}{content}</svg>'


class Picture:
    """Draws the packets of a link; what the client sends goes from left to right."""

    def __init__(self, packets, with_contents=True):
        self.packets, self.with_contents = packets, with_contents
        self.client = client_of(packets)
        self.start = next((packet.time for packet in packets if packet.time is not None), None)

    # ---- parts of rows

    def arrow(self, direction, y, kind):
        ends = (LEFT, RIGHT - 2) if direction == self.client else (RIGHT, LEFT + 2)
        return f'<line class="arrow {kind}" x1="{ends[0]}" y1="{y}" x2="{ends[1]}" y2="{y}" marker-end="url(#{kind})"/>'

    def label(self, direction, y, content, kind="", title=None):
        """A text at its sender's lane."""
        if direction == self.client:
            return text(LEFT + INDENT, y, content, kind, "start", title)
        return text(RIGHT - INDENT, y, content, kind, "end", title)

    def gutter(self, packet, y):
        """The numbers and the time at the left."""
        frame = f" · fr {packet.frame}" if packet.frame and packet.frame != packet.number else ""
        out = text(8, y, f"{packet.number}{frame}", "time")
        if packet.time is not None:
            out += text(LEFT - 12, y, f"{packet.time - self.start:.6f}", "time", "end")
        return out

    @staticmethod
    def side(y, content):
        """What is said at the right."""
        return text(RIGHT + 12, y, html.escape(content), "time")

    def segment_side(self, packet, y):
        acks = acks_text(packet.acks)
        return self.side(y, f"seg {packet.sequence}{f' · {acks}' if acks else ''} · {packet.fields['len']} B")

    def message_text(self, one):
        detail = html.escape(shortened(one.detail, DETAIL))
        if one.preview and self.with_contents:
            detail += f' <tspan class="preview">{html.escape(one.preview)}</tspan>'
        return named(one.kind, one.name, detail)

    def title(self, one):
        return one.line if self.with_contents else one.without_contents()

    # ---- rows of one packet

    def row(self, packet, with_gaps=True):
        """A packet, and the gaps before it."""
        gaps = self.gap_rows(packet) if with_gaps else ""
        if packet.kind == "ack":
            return gaps + self.ack_row(packet)
        if not packet.is_segment:
            return gaps + self.other_row(packet)
        if packet.whole:
            return gaps + self.message_row(packet)
        return gaps + self.segment_row(packet)

    @staticmethod
    def framed(packet, kind, content, inside=None):
        head = f'class="row {kind}" id="p{packet.number}" data-messages="{len(packet.messages)}"'
        if inside is None:
            return f"<div {head}>{content}</div>\n"
        return f"<details {head}><summary>{content}</summary>{inside}</details>\n"

    def ack_row(self, packet):
        content = self.arrow(packet.direction, 9, "thin") + self.side(12, acks_text(packet.acks)) + self.gutter(packet, 12)
        return self.framed(packet, "ack", svg(ACK_HEIGHT, content))

    def plain_row(self, packet, row, arrow, label):
        """A packet with a line of small text."""
        content = self.arrow(packet.direction, 16, arrow)
        content += self.label(packet.direction, 12, html.escape(label), f"small {row}")
        content += self.gutter(packet, 19) + (self.segment_side(packet, 19) if packet.is_segment else "")
        return self.framed(packet, row, svg(PLAIN_HEIGHT, content))

    def other_row(self, packet):
        """A packet that is no segment and no data acknowledgement."""
        if packet.kind == "bad":
            return self.plain_row(packet, "fault", "fault", "Malformed packet: " + " ".join(packet.words[1:]))
        name = NAMES.get(packet.data[0] if packet.data else None, " ".join(packet.words))
        return self.plain_row(packet, "other", "other", name)

    def segment_row(self, packet):
        """A segment with which no message is whole."""
        if packet.retransmits:
            label = f"retransmits {packet.retransmits.number} (segment {packet.sequence})"
            return self.plain_row(packet, "repeat", "again", label)
        row = "lost" if packet.is_unfinished else "part"
        return self.plain_row(packet, row, "thin", self.own_label(packet) + ", early" * packet.is_early)

    @staticmethod
    def own_label(packet):
        return f"{packet.mark} segment" + (" of a message that is never whole" if packet.is_unfinished else "")

    def lines_of(self, packet):
        """The lines of a packet's messages, each with its message or None; and the messages that one line shows."""
        lines, folded, whole = [], [], packet.whole
        if whole.segments > 1:
            said = f"NSP message of {whole.segments} segments, {whole.first} to {whole.last}"
            lines.append((f'<tspan class="small">{said}, {counted(whole.length, "byte")}</tspan>', None))
        for run in runs_of_data(whole.messages):
            if len(run) == 1:
                lines.append((self.message_text(run[0]), self.title(run[0])))
            else:
                lines.append((summed(run), None))
                folded += run
        return lines, folded

    def message_row(self, packet):
        """A packet with which an NSP message is whole."""
        lines, folded = self.lines_of(packet)
        height = 8 + LINE * len(lines) + 7
        content = "".join(self.label(packet.direction, 1 + LINE * at, line, "say", title)
                          for at, (line, title) in enumerate(lines, 1))
        is_fault = any(one.is_refusal or one.word == "bad" for one in packet.messages)
        content += self.arrow(packet.direction, height - 7, "fault" if is_fault else "solid")
        content += self.gutter(packet, height - 2) + self.segment_side(packet, height - 2)
        kind = "whole" + " opens" * any(one.word == "access" for one in packet.messages)
        if not folded:
            return self.framed(packet, kind, svg(height, content))
        inner = "".join(
            self.label(packet.direction, 12 + SMALL_LINE * at, self.message_text(one), "say inner", self.title(one))
            for at, one in enumerate(folded))
        content += chevron(height - 10)
        return self.framed(packet, kind, svg(height, content), svg(SMALL_LINE * len(folded) + 4, inner, "inside"))

    def gap_rows(self, packet):
        return "".join(self.gap_row(packet, gap) for gap in packet.gaps)

    def gap_row(self, packet, gap):
        which = f"{gap.first} to {gap.last}" if gap.count > 1 else f"{gap.first}"
        label = f"{counted(gap.count, 'segment')} {'are' if gap.count > 1 else 'is'} not in the capture: {which}"
        content = f'<rect class="gap" x="{LEFT}" y="3" width="{RIGHT - LEFT}" height="16"/>'
        content += self.label(packet.direction, 15, label, "small lost")
        return f'<div class="row gap">{svg(PLAIN_HEIGHT, content)}</div>\n'

    # ---- rows of several packets

    def rows(self):
        folds, out, at, before = {fold.first: fold for fold in find_folds(self.packets)}, [], 0, None
        while at < len(self.packets):
            packet, fold = self.packets[at], folds.get(at)
            if None not in (packet.time, before) and packet.time - before >= PAUSE:
                label = f"{packet.time - before:.1f} s in which nothing was sent"
                out.append(f'<div class="pause">{svg(20, text((LEFT + RIGHT) / 2, 14, label, "small", "middle"))}</div>\n')
            out.append(self.folded(fold) if fold else self.row(packet))
            at = fold.last + 1 if fold else at + 1
            before = self.packets[at - 1].time
        return "".join(out)

    def folded(self, fold):
        packets = self.packets[fold.first:fold.last + 1]
        if fold.unit is None:
            return self.quiet_fold(packets)
        step, lines = LINE + 9, list(self.lines_of_fold(packets, fold))
        height = step * len(lines) + 19
        content = f'<rect class="fold" x="{LEFT + 1}" y="2" width="{RIGHT - LEFT - 2}" height="{height - 4}"/>'
        for at, (direction, line) in enumerate(lines):
            content += self.label(direction, LINE + step * at, line, "say")
            content += self.arrow(direction, LINE + 7 + step * at, "many")
        content += text((LEFT + RIGHT) / 2, height - 7, self.extent(packets), "small", "middle")
        content += self.gutter(packets[0], 15) + chevron(height / 2 + 4)
        rows = "".join(self.row(packet) for packet in packets)
        return f'<details class="folded"><summary>{svg(height, content)}</summary><div class="rows">{rows}</div></details>\n'

    @staticmethod
    def lines_of_fold(packets, fold):
        """A direction and a text for each row of a fold's unit."""
        for direction, *words in fold.unit:
            messages = [one for packet in packets if packet.direction == direction for one in packet.messages]
            parts = []
            for word in dict.fromkeys(words):
                if word == "data":
                    parts.append(summed([one for one in messages if one.word == "data"]))
                elif word == "status":
                    parts.append(named("status", f"Status × {fold.count * words.count(word):,}", "1000 success"))
                else:
                    count = fold.count * words.count(word)
                    parts.append(named("control", f"Control × {count:,}", html.escape(word.removeprefix("control "))))
            yield direction, "; ".join(parts)

    @staticmethod
    def extent(packets):
        """Which packets a fold has."""
        groups = [("segment", sum(packet.is_segment and not packet.retransmits for packet in packets)),
                  ("ack", sum(packet.kind == "ack" for packet in packets)),
                  ("retransmission", sum(bool(packet.retransmits) for packet in packets))]
        parts = [counted(count, what) for what, count in groups if count]
        if packets[0].time is not None and packets[-1].time is not None:
            parts.append(f"{packets[-1].time - packets[0].time:.3f} s")
        return f"packets {packets[0].number} to {packets[-1].number}: {', '.join(parts)}"

    def quiet_fold(self, packets):
        """Segments of messages that aren't whole yet, acknowledgements and retransmissions."""
        content, y = "", 5
        for direction in sorted({packet.direction for packet in packets}, key=lambda one: one != self.client):
            for count, arrow, label in quiet_groups([packet for packet in packets if packet.direction == direction]):
                content += self.arrow(direction, y + 10, arrow) + (self.arrow(direction, y + 13, arrow) if count > 1 else "")
                content += self.label(direction, y + 6, label, "small")
                y += QUIET_LINE
        content += self.gutter(packets[0], y - 6) + chevron(y - 13)
        content += self.side(y - 6, f"packets {packets[0].number} to {packets[-1].number}")
        rows = "".join(self.row(packet, packet is not packets[0]) for packet in packets)
        only = " acks" if all(packet.kind == "ack" for packet in packets) else ""
        return (f'{self.gap_rows(packets[0])}<details class="folded quiet{only}"><summary>{svg(y + 3, content)}</summary>'
                f'<div class="rows">{rows}</div></details>\n')

    def lanes(self, ends):
        """The heads of the lanes; `ends` says which node and address the client and the server are."""
        content = (text(LEFT, 16, "client", "end", "middle") + text(LEFT, 32, html.escape(ends[0]), "time", "middle")
                   + text(RIGHT, 16, "server", "end", "middle") + text(RIGHT, 32, html.escape(ends[1]), "time", "middle")
                   + text(8, 18, "packet", "time"))
        if self.start is not None:
            content += text(LEFT - 42, 18, "seconds", "time", "end")
        return f'<div class="lanes"><svg width="{WIDTH}" height="38">{content}</svg></div>'


def quiet_groups(packets):
    """Packets of one direction with which no message is whole, in groups: the count, the arrow and the text."""
    segments = [packet for packet in packets if packet.is_segment and not packet.retransmits]
    whole = [packet for packet in segments if not packet.is_unfinished]
    acks = [acks_text(packet.acks) for packet in packets if packet.kind == "ack"]
    early = sum(packet.is_early for packet in whole)
    lost = '<tspan class="lost">of messages that are never whole</tspan>'
    between = f": {acks[0]}{f' to {acks[-1]}' if acks[-1] != acks[0] else ''}" if acks else ""
    groups = [(len(whole), "thin", counted(len(whole), "segment") + (f", {early} early" if early else "")),
              (len(segments) - len(whole), "thin", f"{counted(len(segments) - len(whole), 'segment')} {lost}"),
              (sum(bool(packet.retransmits) for packet in packets), "again", ""),
              (len(acks), "thin", counted(len(acks), "acknowledgement") + between)]
    for count, arrow, label in groups:
        if count:
            yield count, arrow, label or counted(count, "retransmission")
