"""A page with the pictures of links: what is said of each, and its rows. It is one file, without a script."""
import html
import pathlib

from picture.account import Account
from picture.drawing import Picture
from picture.messages import OPEN, counted, shortened

STYLE = pathlib.Path(__file__).with_name("page.css")
MAX_LISTED = 60  # files, and refusals, that are listed before a picture
FILE_NAME, ATTRIBUTES = 40, 48  # characters
MARKERS = {"solid": 11, "fault": 11, "thin": 8, "again": 9, "other": 8, "many": 14}  # sizes of arrow heads
KEY = {"solid": (10, "DAP"), "fault": (90, "refusal"), "thin": (185, "ack, part"), "again": (290, "retransmission"),
       "other": (430, "other NSP"), "many": (540, "folded")}
KEY_WIDTH, KEY_LINE = 640, 34
WITH_CONTENTS = ("This page holds contents of records, and names of files. <code>ladder --no-contents</code> leaves the "
                 "contents out.")
WITHOUT_CONTENTS = "Contents of records are left out of this page. It holds names of files, keys and lengths."


def markers():
    return "".join(
        f'<marker id="{kind}" class="{kind}" viewBox="0 0 10 8" refX="9" refY="4" markerWidth="{size}" markerHeight="{size}" '
        f'orient="auto" markerUnits="userSpaceOnUse"><path d="M0 0L10 4L0 8z"/></marker>' for kind, size in MARKERS.items())


def key():
    """What each kind of arrow is."""
    return "".join(
        f'<line class="arrow {kind}" x1="{at}" y1="9" x2="{at + KEY_LINE}" y2="9" marker-end="url(#{kind})"/>'
        f'<text class="small" x="{at + KEY_LINE + 6}" y="13">{said}</text>' for kind, (at, said) in KEY.items())


def facts(link, account):
    """Counts of a link, in one line."""
    packets = link.packets
    segments = [packet for packet in packets if packet.is_segment]
    repeats = sum(bool(packet.retransmits) for packet in segments)
    times = [packet.time for packet in packets if packet.time is not None]
    said = [counted(len(packets), "packet"), counted(sum(len(packet.messages) for packet in packets), "DAP message")]
    if times:
        said.append(f"{times[-1] - times[0]:.3f} s")
    said.append(counted(sum(packet.kind == "ack" for packet in packets), "acknowledgement"))
    if repeats:
        said.append(f"{counted(repeats, 'retransmission')} ({100 * repeats / len(segments):.0f} % of the segments)")
    missing = sum(gap.count for gap in link.gaps)
    bad = sum(packet.kind == "bad" for packet in packets) + account.kinds["bad"]
    warnings = [f"{counted(missing, 'segment')} not in the capture"] * bool(missing) + [f"{bad:,} malformed"] * bool(bad)
    return '<p class="facts">' + " · ".join(said + [f'<b class="red">{one}</b>' for one in warnings]) + "</p>"


def records_cell(records):
    said = f"{records.count:,}<small> · {records.size:,} B</small>" if records.count else "<small>–</small>"
    return f'<td class="n">{said}</td>'


def file_row(file):
    """A row of the table of files."""
    access = file.access
    rights = access.rights.lower() or ("get" if access.number("func") == OPEN else "put")
    color = {"closed": "good", "purged": "good", "left open": "warn"}.get(file.outcome, "red")
    cells = [f'<td><a href="#p{file.packet.number}">{html.escape(shortened(access.file, FILE_NAME))}</a></td>',
             f"<td>{html.escape(access.action)}</td><td>{rights}</td>",
             f"<td>{html.escape(shortened(file.attributes, ATTRIBUTES))}</td>",
             records_cell(file.to), records_cell(file.back), f'<td class="n">{file.deleted or ""}</td>',
             f'<td class="n">{f"<b>{file.refused}</b>" if file.refused and not file.is_refused else ""}</td>',
             f'<td><span class="{color}">{html.escape(file.outcome)}</span></td>']
    return f'<tr class="file">{"".join(cells)}</tr>'


def files_table(files):
    """Which files were opened, and how many records went which way."""
    if not files:
        return ""
    head = ("<tr><th>File</th><th>Access</th><th>Rights</th><th>Attributes</th><th class=\"n\">Records →</th>"
            "<th class=\"n\">← Records</th><th class=\"n\">Deleted</th><th class=\"n\">Refused</th><th>In the end</th></tr>")
    rest = f'<p class="facts">and {len(files) - MAX_LISTED:,} more</p>' if len(files) > MAX_LISTED else ""
    return f"<table>{head}{''.join(map(file_row, files[:MAX_LISTED]))}</table>{rest}"


def refusal_item(one):
    """A refusal, and the request before it, with links to both."""
    number = one.packet.number
    out = (f'<a href="#p{number}">{number}</a> <b class="red">{html.escape(one.status.words[0])} '
           f"{html.escape(one.status.text)}</b>")
    if one.request:
        asked = f"{one.request.name} {shortened(one.request.detail, ATTRIBUTES)}"
        out += (f' <span class="dim">to {html.escape(asked)} (<a href="#p{one.request_packet.number}">'
                f"{one.request_packet.number}</a>)</span>")
    return f'<li class="refusal">{out}</li>'


def refusals_list(refusals):
    if not refusals:
        return ""
    items, rest = "".join(map(refusal_item, refusals[:MAX_LISTED])), len(refusals) - MAX_LISTED
    return (f'<details open class="refusals"><summary><b class="red">{counted(len(refusals), "refusal")}</b></summary>'
            f"<ul>{items}</ul>{f'and {rest:,} more' if rest > 0 else ''}</details>")


def ends_of(link, client):
    """The node and link address of the client and of the server."""
    if link.addresses is None:
        return "", ""
    ends = [link.end(0), link.end(1)]
    return ends if client == ">" else ends[::-1]


def link_section(link, with_contents, is_alone):
    """A link's account and its picture."""
    picture = Picture(link.packets, with_contents)
    account = Account(link.packets, picture.client)
    title = "" if is_alone else f"<h2>{html.escape(link.title)}</h2>"
    return (f'<section class="link" id="link{link.number or 0}">{title}{facts(link, account)}{files_table(account.files)}'
            f"{refusals_list(account.refusals)}{picture.lanes(ends_of(link, picture.client))}\n{picture.rows()}</section>\n")


def contents(links):
    """The list of links, where there are several."""
    if len(links) == 1:
        return ""
    items = "".join(
        f'<li><a href="#link{link.number or 0}">{html.escape(link.title)}</a> '
        f'<span class="dim">{counted(len(link.packets), "packet")}, '
        f'{counted(sum(len(packet.messages) for packet in link.packets), "DAP message")}</span></li>' for link in links)
    return f'<ul class="links">{items}</ul>'


def page(title, notes, links, with_contents):
    """The page."""
    style = STYLE.read_text(encoding="utf-8")
    sections = "".join(link_section(link, with_contents, len(links) == 1) for link in links)
    notices = "".join(f'<p class="notice">{html.escape(note)}</p>' for note in notes)
    return f"""<!DOCTYPE html>
<html lang="en"><head><meta charset="utf-8"><title>{html.escape(title)}</title><style>
{style}</style></head><body>
<svg width="0" height="0" style="position:absolute"><defs>{markers()}</defs></svg>
<h1>{html.escape(title)}</h1>
<p class="notice" id="contents">{WITH_CONTENTS if with_contents else WITHOUT_CONTENTS}</p>{notices}
{contents(links)}
<input type="checkbox" id="noacks"><label for="noacks">without acknowledgements</label>
<input type="checkbox" id="norepeats"><label for="norepeats">without retransmissions</label>
<span class="key"><svg width="{KEY_WIDTH}" height="16">{key()}</svg></span>
<main>
{sections}</main></body></html>
"""
