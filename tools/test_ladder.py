"""Tests ladder: the messages, arrows, gaps and tables of its pages are those of `dapcap`; in Chromium no text is
wider than its lane, and all can be seen.

TOOLS_SEED is the seed; with TOOLS_ALL=1 all wrong bodies are tried, by default some.
"""
import collections
import contextlib
import html
import html.parser
import json
import pathlib
import re
import shutil
import subprocess
import sys
import tempfile
import unittest

import made_captures
from support import ALL, DAPCAP, DAPLIVE, ROOT, SEED, need_programs

TOOLS = pathlib.Path(__file__).resolve().parent
PYTHON = [sys.executable, "-X", "dev", "-W", "error"]
NARROW, RIGHT_EDGE = (190, 890), 1122  # the lanes, and the end of a row
MIN_CONTRAST = 3.0
BROWSER_SECONDS = 600
BROWSER = next((name for name in ("chromium", "chromium-browser", "google-chrome") if shutil.which(name)), None)
PACKET = "> 60020201010080010001020a00040703050600000000"

# Wrong bodies: a name, the file, the text and what it is replaced by. The first ones are caught without a browser.
WRONG_BODIES = [
    ("a gap isn't drawn", "picture/listing.py", "earliest.gaps.insert(0, gaps.pop())", "gaps.pop()"),
    ("links are mixed", "picture/links.py", "link = self.links.get(addresses)",
     "link = next(iter(self.links.values()), None)"),
    ("records in titles", "picture/drawing.py", "return one.line if self.with_contents else one.without_contents()",
     "return one.line"),
    ("arrows the other way", "picture/drawing.py", "ends = (LEFT, RIGHT - 2) if direction == self.client",
     "ends = (LEFT, RIGHT - 2) if direction != self.client"),
    ("a fold drops its last row", "picture/drawing.py", 'rows = "".join(self.row(packet) for packet in packets)',
     'rows = "".join(self.row(packet) for packet in packets[:-1])'),
    ("rows of a fold backwards", "picture/drawing.py", 'rows = "".join(self.row(packet) for packet in packets)',
     'rows = "".join(self.row(packet) for packet in packets[::-1])'),
    ("a run of Data loses one", "picture/drawing.py", "folded += run", "folded += run[1:]"),
    ("a second DAP message is left out", "picture/drawing.py", "in runs_of_data(whole.messages):",
     "in runs_of_data(whole.messages[:1]):"),
    ("end of file is a refusal", "picture/messages.py", "code >> 12 != SUCCESS and code != END_OF_FILE",
     "code >> 12 != SUCCESS"),
    ("a number is too near", "picture/listing.py", "ahead <= AHEAD", "ahead <= 2"),
    ("records the other way", "picture/account.py", "self.file.back.add(one)", "self.file.to.add(one)"),
    ("retransmissions aren't dashed", "picture/page.css", "stroke: var(--amber); stroke-dasharray: 5 4",
     "stroke: var(--amber)"),
    ("long texts", "picture/drawing.py", "html.escape(shortened(one.detail, DETAIL))", "html.escape(one.detail) * 4"),
    ("texts that can't be seen", "picture/page.css", ".time, .small { font-size: 10.5px; fill: var(--dim) }",
     ".time, .small { font-size: 10.5px; fill: var(--paper) }"),
]
OF_BROWSER = 3  # this many, the last ones, are caught only in a browser
TRIED = WRONG_BODIES[:-OF_BROWSER] if ALL else WRONG_BODIES[:5]

SCRIPT = r"""
<pre id="found"></pre><script>
for (const one of document.querySelectorAll("details")) one.open = true;
const texts = [...document.querySelectorAll("main text, main tspan")].filter(one => one.textContent.trim()).map(one => {
  const style = getComputedStyle(one), box = (one.closest("text") || one).getBBox();
  return [one.textContent.slice(0, 60), box.x, box.x + box.width,
          one.closest(".lanes") ? "lanes" : one.getAttribute("class") || "", style.fill, +style.fillOpacity * +style.opacity,
          one.tagName];
});
const arrows = [...document.querySelectorAll("main line.arrow")].map(one => [one.classList[1],
  getComputedStyle(one).strokeDasharray != "none", getComputedStyle(one).stroke]);
const tops = [...document.querySelectorAll("main [id^=p]")].map(row => row.getBoundingClientRect().top);
const paper = getComputedStyle(document.body).backgroundColor;
document.getElementById("found").textContent = JSON.stringify({texts, arrows, tops, paper});
</script>"""


def run_ladder(*words, text=None, ladder=TOOLS / "ladder", **more):
    command = [*PYTHON, ladder, "--dapcap", DAPCAP, *words]
    return subprocess.run(command, input=text, capture_output=True, text=True, check=False, **more)


# ---- what a page has, and what the listing has

class Page(html.parser.HTMLParser):
    """The rows of a page, by section."""

    def __init__(self, text):
        super().__init__()
        self.sections, self.row, self.inside, self.text, self.cell = [], None, collections.Counter(), text, None
        self.feed(text)

    def handle_starttag(self, tag, pairs):
        attributes = dict(pairs)
        kinds = (attributes.get("class") or "").split()
        if tag == "section":
            self.sections.append({"rows": [], "gaps": [], "files": [], "refusals": 0})
        elif "row" in kinds:
            self.row = {"kinds": kinds, "id": int((attributes.get("id") or "p0")[1:]), "titles": [], "arrows": [], "text": ""}
            self.sections[-1]["gaps" if "gap" in kinds else "rows"].append(self.row)
        elif tag == "line" and self.row:
            self.row["arrows"].append((float(attributes["x1"]) < float(attributes["x2"]), kinds[1]))
        elif tag == "tr" and "file" in kinds:
            self.sections[-1]["files"].append([])
        elif tag == "td":
            self.sections[-1]["files"][-1].append("")
            self.cell = self.sections[-1]["files"][-1]
        elif tag == "li" and "refusal" in kinds:
            self.sections[-1]["refusals"] += 1
        self.inside[tag] += 1

    def handle_endtag(self, tag):
        self.inside[tag] -= 1
        if tag == "td":
            self.cell = None
        elif tag in ("div", "details"):  # no row is in another
            self.row = None

    def handle_data(self, data):
        if self.inside["title"] > 0 and self.row and self.sections:
            self.row["titles"].append(data)
        elif self.row:
            self.row["text"] += data
        if self.cell:
            self.cell[-1] += data

    @property
    def rows(self):
        return [row for section in self.sections for row in section["rows"]]


class Listing:
    """What `dapcap --bare` prints of lines."""

    def __init__(self, lines):
        text = "".join(f"{line}\n" for line in lines)
        done = subprocess.run([DAPCAP, "--bare"], input=text, capture_output=True, text=True, check=True)
        self.packets, self.messages, self.gaps, self.parts, number = {}, collections.defaultdict(list), [], 0, 0
        for line in done.stdout.splitlines():
            words = line.split()
            if line.startswith("  "):
                if words[0] != "message":
                    self.messages[number].append(line[2:])
            elif words[0] in ("gap", "part"):
                first, last = map(int, re.search(r"seg=(\d+)\.\.(\d+)", line).groups())
                if words[0] == "gap":
                    self.gaps.append(f"{first} to {last}" if first != last else f"{first}")
                else:
                    self.parts += (last - first) % 4096 + 1
            else:
                number = int(words[0])
                self.packets[number] = words[1:]

    def lines(self):
        return [line for lines in self.messages.values() for line in lines]

    def count(self, word):
        return sum(line.startswith(word + " ") for line in self.lines())

    def refusals(self):
        return sum(line.startswith("status ") and line[7] != "1" and line[7:11] != "5027" for line in self.lines())

    def client(self):
        return next((self.packets[number][0] for number in sorted(self.messages) for line in self.messages[number]
                     if line.startswith(("access ", "control "))), None)


def wrong_rows(page, listing):
    """What is wrong with the rows of a page."""
    rows = {row["id"]: row for row in page.rows}
    for number, words in listing.packets.items():
        row = rows.get(number)
        if row is None:
            yield f"packet {number} isn't there"
            continue
        if collections.Counter(row["titles"]) != collections.Counter(listing.messages[number]):
            yield f"messages of {number}: {row['titles'][:2]}, not {listing.messages[number][:2]}"
        kind = {"ack": "ack", "bad": "fault", "not-here": "other"}.get(words[1])
        if kind and kind not in row["kinds"] or len(row["arrows"]) != 1:
            yield f"row of {number}: {row['kinds']}, {len(row['arrows'])} arrows"
    if len(page.rows) != len(listing.packets):
        yield "the number of packets"


def wrong_page(page, listing, is_exchange=True):
    """What is wrong with a page, all of it; its tables where it is of one exchange."""
    yield from wrong_rows(page, listing)
    for section in page.sections:
        ids = [row["id"] for row in section["rows"]]
        if ids != sorted(ids):
            yield "the order of packets"
    if collections.Counter(gap["text"].partition(": ")[2] for section in page.sections for gap in section["gaps"]) \
            != collections.Counter(listing.gaps):
        yield "gaps"
    if sum("lost" in row["kinds"] for row in page.rows) != listing.parts:
        yield "segments of messages that are never whole"
    if len(page.sections) == 1 and is_exchange:
        yield from wrong_tables(page.sections[0], listing)


def wrong_tables(section, listing):
    """What is wrong with the directions, files, records and refusals of a link's page."""
    ways = {(listing.packets[row["id"]][0], row["arrows"][0][0]) for row in section["rows"] if row["arrows"]}
    if len({way for way, _ in ways}) != len(ways) or (listing.client(), False) in ways:
        yield "which way arrows go"
    if section["refusals"] != min(listing.refusals(), 60):
        yield "refusals"
    if len(section["files"]) != min(listing.count("access"), 60):
        yield "files"
    for column, client in ((4, True), (5, False)):
        counts = [int(row[column].partition(" ")[0].replace(",", "").replace("–", "0")) for row in section["files"]]
        wanted = sum(line.startswith("data ") and (listing.packets[number][0] == listing.client()) == client
                     for number, lines in listing.messages.items() for line in lines)
        if sum(counts) != wanted:
            yield f"records: {counts}, {wanted} in all"


# ---- captures

def interleaved(*captures):
    """The lines of several captures, each in its order."""
    return [line for lines in zip(*captures) for line in lines] + [
        line for lines in captures for line in lines[min(map(len, captures)):]]


def other_link(lines):
    """The same packets between other link addresses."""
    return [line[:4] + "".join({"0202": "0404", "0101": "0303", "0201": "0403", "0102": "0304"}.get(word, word)
                               for word in (line[4:8], line[8:12])) + line[12:] for line in lines]


class Case(unittest.TestCase):
    @classmethod
    def setUpClass(cls):
        need_programs()
        folder = tempfile.TemporaryDirectory()
        cls.addClassCleanup(folder.cleanup)
        cls.folder = pathlib.Path(folder.name)
        cls.lossy = made_captures.transfer(SEED, DAPLIVE)
        cls.lossless = made_captures.transfer(SEED + 1, DAPLIVE, records=30, segment_size=512, loss=0, repeat=0)
        cls.two_links = interleaved(cls.lossless, other_link(cls.lossless))

    def page_of(self, lines, *words, **more):
        done = run_ladder(*words, text="".join(f"{line}\n" for line in lines), **more)
        self.assertEqual((done.returncode, done.stderr), (0, ""))
        return Page(done.stdout)


class PageTest(Case):
    def test_pages_are_as_listed(self):
        captures = {"lossy": self.lossy, "lossless": self.lossless, "two links": self.two_links,
                    "streams": list(made_captures.streams(SEED, 600)),
                    "altered": list(made_captures.altered_segments(SEED, 300)), "one": [PACKET]}
        for name, lines in captures.items():
            with self.subTest(name):
                self.assertEqual(list(wrong_page(self.page_of(lines), Listing(lines), name != "altered"))[:3], [])

    def test_pcap_files_have_frames_times_and_nodes(self):
        path = self.folder / "lossy.pcap"
        frames = list(made_captures.frames_of(self.lossy, SEED))
        path.write_bytes(made_captures.pcap([bytes(60), *frames]))
        done = run_ladder(path)
        self.assertEqual((done.returncode, done.stderr), (0, "ladder: 1 frames of another kind\n"))
        self.assertEqual(list(wrong_page(Page(done.stdout), Listing(self.lossy))), [])
        for said in ("5 · fr 6", ">0.040000<", "1.1 0101", "1.2 0202"):
            self.assertIn(said, done.stdout)

    def test_each_link_has_a_picture(self):
        page = self.page_of(self.two_links)
        self.assertEqual(len(page.sections), 2)
        for number, section in enumerate(page.sections, 1):
            alone = self.page_of(self.two_links, "--link", str(number))
            self.assertEqual([row["id"] for row in alone.rows], [row["id"] for row in section["rows"]])
            self.assertEqual(section["files"], self.page_of(self.lossless).sections[0]["files"])
        done = run_ladder("--link", "3", text="\n".join(self.two_links))
        self.assertEqual((done.returncode, done.stderr), (1, "ladder: --link 3: there are links 1 to 2\n"))

    def test_contents_are_left_out(self):
        body = b"SECRET-CONTENTS".hex()
        marked = f"> 6002020101010008021000{body}"
        page = self.page_of([marked])
        self.assertIn("SECRET-CONTENTS", page.text)
        self.assertIn("This page holds contents of records", page.text)
        page = self.page_of([marked], "--no-contents")
        for secret in ("SECRET-CONTENTS", body):
            self.assertNotIn(secret, page.text)
        self.assertEqual(page.rows[0]["titles"], ["data recnum=- body=(15 bytes)"])

    def test_the_page_stands_alone(self):
        page = self.page_of(self.lossy, "--title", "<a & b>")
        self.assertIn("<h1>&lt;a &amp; b&gt;</h1>", page.text)
        for word in ("<script", "http", "src=", "@import", "url(//"):
            self.assertNotIn(word, page.text)


class RangeTest(Case):
    def test_a_range(self):
        page = self.page_of_range(self.lossless, "5-20")
        self.assertEqual([row["id"] for row in page.rows], list(range(5, 21)))

    def page_of_range(self, lines, chosen):
        done = run_ladder("--range", chosen, text="\n".join(lines))
        self.assertEqual(done.returncode, 0, done.stderr)
        return Page(done.stdout)

    def test_too_many_packets(self):
        lines = [PACKET] * 100_000
        done = run_ladder(text="\n".join(lines))
        self.assertEqual(done.returncode, 1)
        self.assertEqual(done.stderr, "ladder: standard input: 100,000 packets, and a page has at most 10,000: choose some, "
                                      "as --range 1-10000\n")
        self.assertEqual(len(self.page_of_range(lines, "99001-99100").rows), 100)

    def test_ranges_that_are_none(self):
        for word, status, said in (("1-20000", 1, "more than 10,000 packets"), ("9-10", 1, "none in --range 9-10"),
                                   ("0-1", 2, "no range"), ("2-1", 2, "no range"), ("x", 2, "no range")):
            done = run_ladder("--range", word, text=PACKET)
            self.assertEqual(done.returncode, status)
            self.assertIn(said, done.stderr)


class InputTest(Case):
    def test_files_that_are_no_captures(self):
        frames = list(made_captures.frames_of(self.lossless))
        whole = made_captures.pcap(frames)
        files = {"empty": (b"", "no DECnet data packets"), "head": (whole[:24], "no DECnet data packets"),
                 "other": (made_captures.pcap([bytes(60)] * 7), "no DECnet data packets: 7 frames of another kind"),
                 "any": (made_captures.pcap(frames, 113), "not those of Ethernet"),
                 "short": (whole[:10], "no DECnet data packets: the end of the file, which is cut short"),
                 "text": (b"hello\n", "neither pcap nor pcapng"), "odd": (b"> 6\n", "line 1 is no packet"),
                 "bytes": (b"\xff\x00" * 9000, "neither pcap nor pcapng")}
        for name, (data, said) in files.items():
            path = self.folder / name
            path.write_bytes(data)
            done = run_ladder(path)
            self.assertEqual((done.returncode, done.stdout), (1, ""), name)
            self.assertTrue(done.stderr.startswith("ladder: ") and said in done.stderr, f"{name}: {done.stderr}")
            self.assertEqual(done.stderr.count("\n"), 1, done.stderr)

    def test_a_file_that_is_cut_short(self):
        path = self.folder / "cut.pcap"
        path.write_bytes(made_captures.pcap(made_captures.frames_of(self.lossless))[:-5])
        done = run_ladder(path)
        self.assertEqual(done.stderr, "ladder: the end of the file, which is cut short\n")
        self.assertEqual(list(wrong_page(Page(done.stdout), Listing(self.lossless[:-1]))), [])
        self.assertIn('<p class="notice">the end of the file, which is cut short</p>', done.stdout)

    def test_programs_that_list_nothing(self):
        for program, status in (("/nowhere", 3), ("/bin/false", 3), ("/bin/echo", 3), ("/bin/true", 3)):
            done = run_ladder("--dapcap", program, text=PACKET)
            self.assertEqual((done.returncode, done.stdout), (status, ""), program)
            self.assertTrue(done.stderr.startswith("ladder: "), done.stderr)


class WrongBodiesTest(Case):
    """Each wrong body of ladder fails, or its pages aren't as listed."""

    def test_each_is_caught(self):
        captures = [self.lossy, self.lossless, self.two_links, list(made_captures.streams(SEED, 600))]
        listed = [Listing(lines) for lines in captures]
        self.assertFalse(any(self.differs(TOOLS / "ladder", *both) for both in zip(captures, listed)), "without an edit")
        for name, *edit in TRIED:
            with self.subTest(name), wrong_ladder(*edit) as ladder:
                self.assertTrue(any(self.differs(ladder, *both) for both in zip(captures, listed)), "not caught")

    @staticmethod
    def differs(ladder, lines, listing):
        text = "".join(f"{line}\n" for line in lines)
        done = run_ladder(text=text, ladder=ladder)
        if done.returncode:
            return True
        page = Page(done.stdout)
        clean = run_ladder("--no-contents", text=text, ladder=ladder)
        titles = [title for row in Page(clean.stdout).rows for title in row["titles"]]
        return (any(wrong_page(page, listing)) or any(re.search(r"body=[0-9a-f]", title) for title in titles)
                or len(page.sections) != len(Page(run_ladder(text=text).stdout).sections))


@contextlib.contextmanager
def wrong_ladder(name, old, new):
    """A copy of ladder with an edit."""
    with tempfile.TemporaryDirectory() as folder:
        folder = pathlib.Path(folder)
        (folder / "bridge").symlink_to(ROOT / "bridge")
        (folder / "tools").mkdir()
        shutil.copy(TOOLS / "ladder", folder / "tools")
        for one in ("picture", "decnet"):
            shutil.copytree(TOOLS / one, folder / "tools" / one)
        path = folder / "tools" / name
        text = path.read_text(encoding="utf-8")
        if old not in text:
            raise AssertionError(f"{name} has no {old}")
        path.write_text(text.replace(old, new), encoding="utf-8")
        yield folder / "tools" / "ladder"


# ---- in a browser

def channels(color):
    return [float(one) for one in re.findall(r"[\d.]+", color)[:3]]


def luminance(color):
    parts = [one / 255 for one in channels(color)]
    linear = [one / 12.92 if one <= 0.04045 else ((one + 0.055) / 1.055) ** 2.4 for one in parts]
    return sum(share * one for share, one in zip((0.2126, 0.7152, 0.0722), linear))


def contrast(color, other):
    low, high = sorted((luminance(color), luminance(other)))
    return (high + 0.05) / (low + 0.05)


def wrong_in_browser(page, folder):
    """What is wrong with a page as Chromium lays it out."""
    path = folder / "page.html"
    path.write_text(page.replace("</body>", SCRIPT + "</body>"), encoding="utf-8")
    command = [BROWSER, "--headless=new", "--no-sandbox", "--disable-gpu", "--window-size=1180,1000",
               f"--user-data-dir={folder / 'profile'}", "--virtual-time-budget=20000", "--dump-dom", path.as_uri()]
    done = subprocess.run(command, capture_output=True, text=True, check=False, timeout=BROWSER_SECONDS)
    found = json.loads(html.unescape(re.search(r'<pre id="found">(.*?)</pre>', done.stdout, re.S)[1]))
    for text, left, right, kind, fill, opacity, tag in found["texts"]:
        in_lanes = kind != "lanes" and "time" not in kind and tag == "text"
        if left < 0 or right > RIGHT_EDGE or (in_lanes and (left < NARROW[0] or right > NARROW[1])):
            yield f"too wide: {text} from {left:.0f} to {right:.0f}"
        if opacity < 0.6 or contrast(fill, found["paper"]) < MIN_CONTRAST:
            yield f"not to be seen: {text}, {fill} on {found['paper']}"
    for kind, is_dashed, stroke in found["arrows"]:
        if is_dashed != (kind in ("again", "other")) or contrast(stroke, found["paper"]) < MIN_CONTRAST:
            yield f"arrow {kind}: {stroke}, dashed: {is_dashed}"
    if found["tops"] != sorted(found["tops"]) or not found["texts"]:
        yield "rows aren't from top to bottom"


class BrowserTest(Case):
    @classmethod
    def setUpClass(cls):
        if not BROWSER:
            raise unittest.SkipTest("no chromium")
        super().setUpClass()

    def text_of(self, lines, ladder=TOOLS / "ladder"):
        done = run_ladder(text="".join(f"{line}\n" for line in lines), ladder=ladder)
        self.assertEqual(done.returncode, 0, done.stderr)
        return done.stdout

    def test_all_fits_and_is_seen(self):
        captures = {"lossy": self.lossy, "streams": list(made_captures.streams(SEED, 300)),
                    "altered": list(made_captures.altered_segments(SEED, 150))}
        for name, lines in captures.items():
            with self.subTest(name):
                self.assertEqual(list(wrong_in_browser(self.text_of(lines), self.folder))[:3], [])
        with self.subTest("dark"):
            dark = self.text_of(self.lossy).replace("@media (prefers-color-scheme: dark)", "@media all")
            self.assertEqual(list(wrong_in_browser(dark, self.folder))[:3], [])

    def test_wrong_bodies(self):
        for name, *edit in WRONG_BODIES[-OF_BROWSER:] if ALL else WRONG_BODIES[-1:]:
            with self.subTest(name), wrong_ladder(*edit) as ladder:
                self.assertTrue(any(wrong_in_browser(self.text_of(self.lossy, ladder), self.folder)), "not caught")


if __name__ == "__main__":
    unittest.main()
