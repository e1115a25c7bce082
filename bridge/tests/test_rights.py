"""Rights: each word by itself allows what it says and nothing else, over the wire, and every table of them says the same."""
import re
import subprocess

from decnet import messages, nsp
from decnet.rights import ALL, FAC, NONE, are_rights, each_once, fac_of
from decnet.users import make_hash
from tests.datagrams import UdpCase
from tests.station import CONFIGURATION, segment
from tests.support import BRIDGE, LISTER, Case, file_lines, need_live_end

ROOT = BRIDGE.parent.parent
OPENED, NO_RIGHT = "report opened 16 2 0 0", "report refused 4055 2"
NOT_OPEN_FOR_IT, NO_CURRENT = "report refused 502c 2", "report refused 5019 3"
# what each right lets a user do, on a record that is current where that is needed, and what is reported then
DEEDS = {"get": ("get key 1", "report found 1 41"), "put": ("put key 4 44", "report done 4"),
         "upd": ("update 5a", "report done 2"), "del": ("delete", "report done 3")}
CURRENT = {"upd": "get key 2", "del": "get key 3"}
RECORDS = {1: "41", 2: "42", 3: "43"}
AFTER = {"get": RECORDS, "put": {**RECORDS, 4: "44"}, "upd": {**RECORDS, 2: "5a"}, "del": {1: "41", 2: "42"}}


def file_of(right, records):
    return [f"file {right.encode().hex()} rel variable 0 0", *(f"  {number} {body}" for number, body in records.items())]


class WireTest(UdpCase):
    """A server with users, and a client that tries each operation."""

    def serve_users(self, rights):
        """A server whose users have these rights, and whose files have the names of the rights."""
        lines = [f"{right} {make_hash(b'X')} {words}" for right, words in rights.items()]
        self.path = self.file("files", [line for right in FAC for line in file_of(right, RECORDS)])
        return self.serve("--users", self.file("users", lines), "--files", self.path, "--save", self.path)

    def reports(self, user, requests):
        asked = "".join(f"{request}\n" for request in ["hello", *requests]).encode()
        child = self.ask(asked, "--go-on", "--user", user, "--password", "X")
        self.assertNotIn("refused by node", child.told())
        return child.reports()[1:]

    def test_an_access_asks_for_each_right_of_each_user(self):
        server = self.serve_users({right: right for right in FAC})
        for user in FAC:
            for right, bit in FAC.items():
                found = self.reports(user, [f"open {user.encode().hex()} {bit}"])
                self.assertEqual(found, [OPENED if right == user else NO_RIGHT], (user, right))
        self.stop(server)

    def test_each_operation_with_each_right(self):
        """Who may get and one thing more does that, and none of the others; what is in the files says so."""
        server = self.serve_users({right: each_once(f"get,{right}") for right in FAC})
        for user in FAC:
            for right, (deed, done) in DEEDS.items():
                opening = f"open {user.encode().hex()} {fac_of(each_once(f'get,{right}'))}"
                before = [CURRENT[right]] if right in CURRENT else []
                found = self.reports(user, [opening, "connect", *before, deed, "close"])
                if right in ("get", user):
                    self.assertEqual((found[0], found[-2:]), (OPENED, [done, "report closed"]), (user, right))
                else:
                    self.assertEqual((found[0], found[-2:]), (NO_RIGHT, 2 * ["refused ask-phase"]), (user, right))
        self.stop(server)
        self.assertEqual(file_lines(self.path), [line for right in FAC for line in file_of(right, AFTER[right])])


    def test_each_operation_with_each_right_alone(self):
        """Who has one right does what it says. To change or delete a record it has to be current, which takes `get`: without that the
        right is there, and the record isn't."""
        server = self.serve_users({right: right for right in FAC})
        for user in FAC:
            for right, (deed, done) in DEEDS.items():
                found = self.reports(user, [f"open {user.encode().hex()} {fac_of(user)}", "connect", deed, "close"])
                wanted = NOT_OPEN_FOR_IT if right != user else NO_CURRENT if right in CURRENT else done
                self.assertEqual(found, [OPENED, "report connected", wanted, "report closed"], (user, right))
        self.stop(server)


class TableTest(Case):
    """The table of this bridge, and those of others."""

    def test_words(self):
        for text in ("get", "put,get", ALL, "del,upd", "get,get"):
            self.assertTrue(are_rights(text), text)
        for text in ("", "get,", ",get", "GET", "15", "get put", NONE, "more"):
            self.assertFalse(are_rights(text), text)
        self.assertEqual((each_once("upd,get,upd"), fac_of("upd,get,upd"), fac_of(NONE)), ("upd,get", FAC["upd"] + FAC["get"], 0))
        self.assertEqual(fac_of(ALL), sum(FAC.values()))

    def taken(self, words, fac):
        """Whether a live end that is told rights in words takes an Access that asks for these bits."""
        self.serving.say(f"new 0202 0101 512 {words}")
        self.serving.say("> " + segment(0x0202, 0x0101, 1, CONFIGURATION).hex())
        access = messages.attributes() + messages.access(messages.Access.OPEN, b"F", fac)
        answer = self.serving.say("> " + segment(0x0202, 0x0101, 2, access).hex())
        packets = [nsp.read(bytes.fromhex(text[2:])) for text in answer if text.startswith("< ")]
        return any(packet.body[:1] == bytes([messages.ATTRIBUTES]) for packet in packets)

    def test_a_live_end_means_the_same(self):
        self.serving = self.end("serve")
        self.assertEqual(self.serving.say("file 46 seq variable 0 0"), [])
        for word in FAC:
            for other, bit in FAC.items():
                self.assertEqual(self.taken(word, bit), word == other, (word, other))
        self.assertTrue(self.taken(ALL, fac_of(ALL)))
        self.assertFalse(any(self.taken(NONE, bit) for bit in FAC.values()))

    def test_the_words_of_a_listing(self):
        need_live_end()
        for word, bit in FAC.items():
            access = messages.access(messages.Access.OPEN, b"F", bit)
            packets = [segment(0x0202, 0x0101, 1, CONFIGURATION), segment(0x0202, 0x0101, 2, messages.attributes() + access)]
            text = "".join(f"> {packet.hex()}\n" for packet in packets)
            done = subprocess.run([LISTER], input=text, capture_output=True, text=True, check=True)
            self.assertRegex(done.stdout, rf'open, "F", for {word}')

    def test_the_words_of_wireshark(self):
        text = (ROOT / "tools/wireshark/dap.lua").read_text()
        words = re.search(r'\bfac = \{ \[0\] = ([^}]*) \}', text)[1].replace('"', "").split(", ")
        self.assertEqual({word.lower(): 1 << bit for bit, word in enumerate(words)}, FAC)

    def test_the_words_of_the_ladder(self):
        program = ("import sys; sys.path.insert(0, 'tools')\nfrom picture import messages\n"
                   "for bit in map(int, sys.argv[1:]):\n"
                   "    one = messages.Message(f'access func=1 opt=0 name=46 fac={bit} shr=0 display=0 password=0')\n"
                   "    messages.describe_access(one)\n    print(one.rights)\n")
        done = subprocess.run(["python3", "-c", program, *map(str, FAC.values())], cwd=ROOT, capture_output=True, text=True, check=False)
        self.assertEqual(done.stdout.lower().split(), list(FAC), done.stderr)

    def test_pages_have_the_same_numbers(self):
        for page in ("LIVE", "SCHEDULES"):
            text = (ROOT / f"docs/{page}.md").read_text()
            found = {word[:3]: int(bit) for bit, word in re.findall(r"\b(\d+) for (put|get|delete|update)\b", text)}
            self.assertEqual(found, FAC, page)
