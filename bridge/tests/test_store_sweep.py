"""Sweeps over a store: it is cut at every length, and bridges are killed at every step of their work, or at any time."""
import concurrent.futures
import os
import random

import signal
import threading
import time

from decnet.end import End
from decnet.journal import Journal, Parsed
from decnet.stored import Store, StoredEnd, program_of
from tests.datagrams import LOOPBACK, UdpCase, free_port
from tests.station import ASKING, SERVING
from tests.support import ALL, BRIDGE, PROGRAM, PYTHON, SEED, Child, expect, need_live_end, sweep_count, until
from tests.test_store import listed

KILLED_AT = BRIDGE.parent / "tests/killed_at.py"
SIDE_BY_SIDE = 4
LOCK = threading.Lock()
# what is asked of a bridge that is killed meanwhile
REQUESTS = ["hello", "create 46 16 2 0 0 15", "connect",
            *(f"put key {number} {bytes([65 + number]).hex() * (number * 7 % 90 + 1)}" for number in (3, 1, 9, 4, 7, 2)),
            "get key 4", "update 4e4557", "get key 9", "delete", "close", "create 47 0 2 0 0 15", "connect",
            "store " + " ".join(f"{number:02x}" * 60 for number in range(20)), "close"]


class CutTest(UdpCase):
    """A store that is written before a live end of this process, and cut at every length."""

    def setUp(self):
        super().setUp()
        need_live_end()
        self.chance = random.Random(SEED)
        self.path = self.folder / "store"
        self.server = StoredEnd(PROGRAM, ["serve"])
        self.addCleanup(self.server.close)
        self.server.say("new")
        self.journal = Journal(self.path)
        self.journal.begin(f"{program_of(self.server)} serve")
        self.addCleanup(self.journal.close)
        self.journal.go_on()
        store = Store(self.server, self.journal, 1 << 30)
        self.addCleanup(store.close)
        store.renew()
        while store.is_busy:
            (self.server.turn if self.server.is_busy else store.keeper.look)()
        self.client = self.end("ask")
        self.states = []  # after each line: the size of the store, and the files
        self.answered = []  # of each answer what was on the disk when it went out, and which state it was given in

    def tell(self, line):
        """Tells the server a line; its answer."""
        answer = self.server.say(line)
        self.states.append((self.journal.size, End.say(self.server, "files")))
        if any(text.startswith(("< 00", "< 20", "< 40", "< 60")) for text in answer):
            self.answered.append((self.journal.synced, len(self.states) - 1))
        return answer

    def ask(self, request):
        """Asks, and carries packets until there are none; some are late."""
        way = [(self.tell, text[2:]) for text in self.client.say(f"ask {request}") if text.startswith("< ")]
        while way:
            to, packet = way.pop(0)
            if self.chance.random() < 0.05 and way:
                way.append((to, packet))
            back = self.client.say if to == self.tell else self.tell
            way += [(back, text[2:]) for text in to("> " + packet) if text.startswith("< ")]

    def talk(self, turn):
        """A link, over which a file is made."""
        self.client.say(f"new 01{turn:02x} 02{turn:02x} 100")
        self.tell(f"new 02{turn:02x} 01{turn:02x} 100")
        def record(most):
            return self.chance.randbytes(self.chance.randrange(1, most)).hex()

        if turn % 2:
            requests = [f"create {turn:02x}46 16 2 0 0 15", "connect",
                        *(f"put key {self.chance.randrange(1, 9)} {record(150)}" for _ in range(6)),
                        "get key 3", "update 4e4557", "get key 4", "delete", "close"]
        else:
            requests = [f"create {turn:02x}46 0 2 0 0 15", "connect", "store " + " ".join(record(120) for _ in range(12)),
                        "connect", "put 454e44", "purge" if turn == 4 else "close"]
        for request in ("hello", *requests):
            self.ask(request)

    def test_each_front_gives_the_files_that_stood_then_and_all_that_was_answered(self):
        first = self.journal.size
        for turn in range(1, 7):
            self.talk(turn)
        data, replayed = self.path.read_bytes(), {}
        lengths = range(first, len(data) + 1)
        if not ALL:
            ends = [size for size, _ in self.states]
            lengths = sorted({length for end in ends[::8] for length in (end - 1, end) if length >= first} | {first, len(data)})
        for length in lengths:
            found, whole = Parsed("store", data[:length]), sum(size <= length for size, _ in self.states)
            self.assertEqual(found.size, self.states[whole - 1][0] if whole else first, length)
            if whole not in replayed:
                replayed[whole] = listed(PROGRAM, found.lines)
                self.assertEqual(replayed[whole], self.states[whole - 1][1] if whole else [], length)
            kept = [at for synced, at in self.answered if synced <= length]
            self.assertLess(max(kept, default=-1), whole, f"cut at {length}: what was answered is lost")
        self.assertGreater(len(self.answered), 50)
        print(f"cut at {len(lengths)} lengths of {len(data)} bytes: {len(self.states)} lines, {len(replayed)} replayed, "
              f"{len(self.answered)} answers")


class Bridges:
    """Both bridges of a run, which have ports and a folder of their own."""

    def __init__(self, folder, sync, program=PROGRAM):
        with LOCK:
            self.near, self.far = free_port(), free_port()
        self.folder, self.sync, self.program = folder, sync, program
        folder.mkdir()
        self.path = folder / "store"

    def words(self, role, local, remote, node):
        return [BRIDGE, role, "--udp", f"{local}:{LOOPBACK}:{remote}", "--node", node, "--daplive", self.program]

    def serve(self, step=0, *words):
        """A serving bridge that is killed at a step."""
        command = self.words("serve", self.near, self.far, SERVING)
        more = ["--store", self.path, "--sync", self.sync, "--resend", "0.2", "--names", "exact", *words]
        env = {**os.environ, "PYTHONPATH": str(BRIDGE.parent)}
        return Child(self.folder, [PYTHON[0], KILLED_AT, step, *command, *more], env=env)

    def ask(self, requests, *words):
        command = self.words("ask", self.far, self.near, ASKING)
        text = "".join(f"{request}\n" for request in requests).encode()
        return Child(self.folder, [PYTHON[0], *command, "--to", SERVING, *words], stdin=text)

    def kept(self):
        return listed(self.program, Parsed(self.path, self.path.read_bytes()).lines)


def wait_ready(child):
    """Waits until a bridge takes links, or has ended."""
    until(lambda: "takes links" in child.told() or child.process.poll() is not None, "a start", 120)


def files_in(lines):
    """The records of each file."""
    files = {}
    for line in lines:
        if line.startswith("file "):
            name = line.split()[1]
            files[name] = {}
        else:
            number, body = line.split()
            files[name][int(number)] = body
    return files


def effects(count):
    """The files after this many of the requests."""
    files, name, last = {}, None, 0
    for request in REQUESTS[:count]:
        word, *rest = request.split()
        if word == "create":
            name = rest[0]
            files[name] = {}
        elif word in ("put", "get"):
            last = int(rest[1])
            if word == "put":
                files[name][last] = rest[2]
        elif word == "update":
            files[name][last] = rest[0]
        elif word == "delete":
            files[name].pop(last)
        elif word == "store":
            files[name] = dict(enumerate(rest, 1))
    return files


def is_front(found, count):
    """Whether the files are those of this many requests, with a prefix of the next one if that stores many records."""
    request = REQUESTS[count].split() if count < len(REQUESTS) else [""]
    if request[0] != "store":
        return False
    before, part = effects(count), found.get("47", {})
    return found["46"] == before["46"] and part == dict(enumerate(request[1:len(part) + 1], 1))


class KillTest(UdpCase):
    """SIGKILL before and after each write, wait for the disk, rename and frame that is sent."""

    def setUp(self):
        super().setUp()
        need_live_end()
        self.addCleanup(Child.end_all)

    def steps(self, last):
        """All steps up to the last one; or those around the opening of the link, and some others."""
        opening = range(7, 15)
        return range(1, last + 1) if ALL else sorted({*opening, *random.Random(SEED).sample(range(1, last + 1), 8)})

    def last_step(self, sync):
        """How many steps a whole run has."""
        low, high = 1, 64
        while self.lose(f"find{high}{sync}", high, sync)[0] == "killed":
            low, high = high, 2 * high
        while high - low > 4:
            middle = (low + high) // 2
            low, high = (middle, high) if self.lose(f"find{middle}{sync}", middle, sync)[0] == "killed" else (low, middle)
        return high

    def lose(self, name, step, sync):
        """A bridge that is killed for good; what became of it, and how many reports there were."""
        bridges = Bridges(self.folder / name, sync)
        server = bridges.serve(step)
        wait_ready(server)
        client = None
        if "takes links" in server.told():
            client = bridges.ask(REQUESTS, "--tries", "4", "--resend", "0.1")
            client.process.wait(120)
        if server.process.poll() is None:
            server.process.send_signal(signal.SIGTERM)
        status = server.process.wait(60)
        reports = len(client.reports()) if client else 0
        expect("Traceback" not in server.told(), server.told())
        if not bridges.path.exists() or not bridges.path.stat().st_size:
            expect(reports == 0, f"step {step}: there is no store, and {reports} reports")
            return "before", 0
        found = files_in(bridges.kept())
        is_kept = found in (effects(reports), effects(reports + 1)) or is_front(found, reports)
        expect(is_kept, f"step {step}: {reports} reports, and there is {str(found)[:300]}")
        return ("killed" if status == -signal.SIGKILL else "ended"), reports

    def test_nothing_that_was_reported_is_lost(self):
        for sync in ("answers", "never") if ALL else ("answers",):
            tally, steps = {}, self.steps(self.last_step(sync))
            with concurrent.futures.ThreadPoolExecutor(SIDE_BY_SIDE) as pool:
                for what, _ in pool.map(lambda step, sync=sync: self.lose(f"{sync}{step}", step, sync), steps):
                    tally[what] = tally.get(what, 0) + 1
            self.assertGreater(tally["killed"], len(steps) // 2)
            print(f"--sync {sync}: killed for good at {len(steps)} steps up to {steps[-1]}: {tally}")

    def go_on(self, step, sync, clean):
        """A bridge that is killed, and started again at once: whether it was killed."""
        bridges = Bridges(self.folder / f"again{sync}{step}", sync)
        server = bridges.serve(step)
        wait_ready(server)
        client = bridges.ask(REQUESTS, "--tries", "300", "--resend", "0.1")
        was_killed, begun = False, time.monotonic()
        while client.process.poll() is None and time.monotonic() < begun + 120:
            if server.process.poll() is not None:
                expect(not was_killed, f"step {step}: it ended again: {server.told()}")
                was_killed, server = True, bridges.serve()
                wait_ready(server)
            time.sleep(0.01)
        expect(client.process.poll() == 0, f"step {step}: {client.process.poll()} {client.told()} {server.told()}")
        server.process.send_signal(signal.SIGTERM)
        server.process.wait(60)
        expect((client.reports(), bridges.kept()) == clean, f"step {step}: {client.reports()[-1:]} {server.told()}")
        return was_killed

    def test_a_bridge_that_is_started_again_ends_as_a_clean_run(self):
        clean = Bridges(self.folder / "clean", "answers")
        server = clean.serve()
        wait_ready(server)
        client = clean.ask(REQUESTS)
        expect(client.process.wait(120) == 0, client.told())
        server.process.send_signal(signal.SIGTERM)
        server.process.wait(60)
        clean = (client.reports(), clean.kept())
        for sync in ("answers", "never") if ALL else ("answers",):
            steps = self.steps(self.last_step(sync))
            with concurrent.futures.ThreadPoolExecutor(SIDE_BY_SIDE) as pool:
                killed = sum(pool.map(lambda step, sync=sync: self.go_on(step, sync, clean), steps))
            self.assertGreater(killed, len(steps) // 2)
            print(f"--sync {sync}: {killed} of {len(steps)} runs killed and started again: all end as a clean one")


class StormTest(UdpCase):
    """A bridge that is killed again and again, at any time, over a line that harms each tenth frame both ways."""

    def setUp(self):
        super().setUp()
        need_live_end()
        self.addCleanup(Child.end_all)

    def requests(self, chance):
        numbers = chance.sample(range(1, 400), 60)
        records = " ".join(chance.randbytes(chance.randrange(1, 300)).hex() for _ in range(80))
        fetches = [line for name in ("46", "47") for line in (f"open {name} 2", "connect", "fetch", "close")]
        return ["hello", "create 46 16 2 0 0 15", "connect",
                *(f"put key {number} {chance.randbytes(chance.randrange(1, 200)).hex()}" for number in numbers), "close",
                "create 47 0 2 0 0 15", "connect", f"store {records}", "close", *fetches]

    def run_one(self, seed, is_storm):
        """The reports and the files of a run, and how often the bridge was killed."""
        chance, bridges = random.Random(seed), Bridges(self.folder / f"{seed}{is_storm}", "answers")
        requests, kills = self.requests(chance), 0
        harm = ["--harm", "10", "--seed", str(seed)] if is_storm else []
        words = [*harm, "--segment", "200", "--tries", "300"]
        server = bridges.serve(0, *words)
        wait_ready(server)
        client = bridges.ask(requests, *words, "--resend", "0.1")
        begun = time.monotonic()
        while client.process.poll() is None and time.monotonic() < begun + 150:
            if is_storm and time.monotonic() < begun + 60:
                time.sleep(chance.uniform(0.5, 2.5))
                server.process.kill()
                server.process.wait()
                kills += 1
                server = bridges.serve(0, *words)
                wait_ready(server)
            else:
                time.sleep(0.05)
        expect(client.process.poll() == 0, f"seed {seed}: {client.process.poll()} {client.told()} {server.told()}")
        server.process.send_signal(signal.SIGTERM)
        server.process.wait(60)
        return client.reports(), bridges.kept(), kills

    def compared(self, seed):
        """How often the bridge was killed in a run that ends as one without kills."""
        *clean, _ = self.run_one(seed, False)
        *found, kills = self.run_one(seed, True)
        expect(found == clean, f"seed {seed}: it isn't as a clean run")
        return kills

    def test_it_ends_as_a_run_without_kills(self):
        seeds = range(SEED, SEED + sweep_count(2, 32))
        with concurrent.futures.ThreadPoolExecutor(SIDE_BY_SIDE) as pool:
            kills = list(pool.map(self.compared, seeds))
        print(f"{len(kills)} of {len(kills)} storms end as a clean run, with {sum(kills)} kills")
