"""The layers of the crates, as crates.txt has them in sections, and their picture."""
import functools
import re
from xml.sax.saxutils import escape

from reach import read

SECTION = re.compile(r"^## (.+?): (.+)$")
TESTS = "Tests"  # the section that isn't drawn
BAND, BOX, LEFT, WIDE, GAP = 64, 26, 190, 1120, 14
LETTER = 7.3  # the width of a letter of a box


def layers():
    """The sections of crates.txt: of each its name, what it is, and its crates with what each stands on."""
    found = []
    for line in read("crates.txt").splitlines():
        section, crate = SECTION.match(line), re.match(r"(\w+):(.*)$", line)
        if section:
            found.append((section[1], section[2], {}))
        elif crate and found:
            found[-1][2][crate[1]] = crate[2].split()
    return found


def reduced(below):
    """What each crate stands on directly: not also by way of another of these."""
    @functools.cache
    def all_of(name):
        return {one for near in below.get(name, ()) for one in (near, *all_of(near))}
    return {name: [one for one in own if one in below and not any(one in all_of(near) for near in own if near != one)]
            for name, own in below.items()}


def picture():
    """An SVG of the layers, the lowest at the bottom: each crate is a box, with lines to those that it stands on directly."""
    bands = [layer for layer in layers() if layer[0] != TESTS]
    below = {name: own for _, _, crates in bands for name, own in crates.items()}
    high, place = BAND * len(bands), {}
    shapes, lines = [], []
    for index, (layer, _, crates) in enumerate(bands):
        top = high - BAND * (index + 1)
        shapes.append(f'<rect x="0" y="{top}" width="{WIDE}" height="{BAND}" fill="{("#f6f8fa", "#ffffff")[index % 2]}"/>')
        shapes.append(f'<text x="12" y="{top + BAND / 2 + 5:g}" font-weight="bold">{escape(layer)}</text>')
        widths = {name: len(name) * LETTER + 16 for name in crates}
        gap = max(GAP, (WIDE - LEFT - sum(widths.values())) / (len(crates) + 1))
        left = LEFT + (gap if len(crates) * GAP + sum(widths.values()) < WIDE - LEFT else 0)
        for name, width in widths.items():
            place[name] = (left, top + (BAND - BOX) / 2, width)
            left += width + gap
    for name, own in reduced(below).items():
        x, y, width = place[name]
        for one in own:
            other, low, far = place[one]
            ends = (x + width / 2, y + BOX, other + far / 2, low)
            if low == y:  # in the same band: an arc under both
                first, last = sorted([x + width / 2, other + far / 2])
                lines.append(f'<path d="M{first:g} {y + BOX:g} Q{(first + last) / 2:g} {y + BOX + 22:g} {last:g} {y + BOX:g}"/>')
            else:
                lines.append('<path d="M%g %g L%g %g"/>' % ends)
    boxes = [f'<rect x="{x:g}" y="{y:g}" width="{width:g}" height="{BOX}" rx="4" fill="#ffffff" stroke="#57606a"/>'
             f'<text x="{x + width / 2:g}" y="{y + 17:g}" text-anchor="middle" font-family="monospace" font-size="12">{name}</text>'
             for name, (x, y, width) in place.items()]
    return "\n".join([f'<svg xmlns="http://www.w3.org/2000/svg" viewBox="0 0 {WIDE} {high}" font-family="sans-serif" font-size="13">',
                      *shapes, '<g fill="none" stroke="#8c959f">', *lines, "</g>", *boxes, "</svg>"]) + "\n"
