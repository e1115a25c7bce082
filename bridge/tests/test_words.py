"""What people type: copy, type, get and put over UDP, with files of this host, users, names of nodes and options."""
import os
import pty
import random
import signal
import time

from decnet.nsp import Kind
from decnet.users import make_hash
from tests.datagrams import HASTE, LOOPBACK, UdpCase
from tests.station import ASKING, SERVING, segment
from tests.support import APART, BRIDGE, PROGRAM, PYTHON, SEED, need_live_end, until

TEXT = b"hello\r\nworld\n\nlast without end"
COME_BACK = b"hello\nworld\n\nlast without end\n"


class WordsCase(UdpCase):
    def setUp(self):
        super().setUp()
        need_live_end()

    def type_in(self, role, *words, status=0, stdin=b""):
        """What a bridge prints, and says, for words that people type."""
        command = [*self.words(role, self.far, self.near), "--daplive", PROGRAM, *HASTE]
        child = self.start([*command, *words], stdin=stdin)
        found = child.process.wait(120)
        self.assertNotIn("Traceback", child.told())
        self.assertEqual(found, status, f"{words}: {child.told()}")
        return child.out.read_bytes(), child.told()

    def host(self, name, data):
        path = self.folder / name
        path.write_bytes(data)
        return path


class CopyTest(WordsCase):
    def test_a_text_goes_and_comes(self):
        server = self.serve("--store", self.folder / "store")
        text, back = self.host("text", TEXT), self.folder / "back"
        changes = f"bridge: {text}: stored as lines: 1 CR at the end of a line left out; an LF added at the end. --fixed BYTES stores " \
            "bytes as they are\n"
        self.assertEqual(self.type_in("copy", text, "1.2::DATA.TXT"), (b"", changes))
        self.type_in("copy", "1.2::DATA.TXT", back)
        self.assertEqual(back.read_bytes(), COME_BACK)
        self.assertEqual(self.type_in("type", "1.2::DATA.TXT"), (COME_BACK, ""))
        self.assertEqual(self.type_in("copy", "1.2::DATA.TXT", "-")[0], COME_BACK)
        self.type_in("copy", "-", "1.2::EMPTY.TXT")
        self.assertEqual(self.type_in("type", "1.2::EMPTY.TXT")[0], b"")
        told = self.type_in("copy", text, "1.2::DATA.TXT", status=1)[1]
        self.assertEqual(told, changes + "bridge: 1.2::DATA.TXT: refused: a file of that name is there (402d, 1); --append stores after "
                         "what it has, and it can't be replaced from here\n")
        self.type_in("copy", text, "1.2::DATA.TXT", "--append")
        self.assertEqual(self.type_in("type", "1.2::DATA.TXT")[0], 2 * COME_BACK)
        self.stop(server)

    def test_records_with_numbers_and_of_one_length(self):
        server = self.serve()
        self.type_in("copy", "-", "1.2::REL.DAT", "--relative", stdin=b"3\tthree\n1\tone\n70000\tfar\n")
        self.assertEqual(self.type_in("type", "1.2::REL.DAT")[0], b"1\tone\n3\tthree\n70000\tfar\n")
        data = random.Random(SEED).randbytes(1300)
        told = self.type_in("copy", self.host("bin", data), "1.2::BIN.DAT", "--fixed", "512")[1]
        self.assertIn("/bin: stored as records of 512 bytes: 236 zero bytes added to the last record; --fixed 325 adds none\n", told)
        self.assertEqual(self.type_in("copy", self.folder / "bin", "1.2::SAME.DAT", "--fixed", "325")[1], "")
        self.assertEqual(self.type_in("copy", "1.2::SAME.DAT", "-")[0], data)
        self.type_in("copy", "1.2::BIN.DAT", self.folder / "back")
        self.assertEqual((self.folder / "back").read_bytes(), data.ljust(1536, b"\0"))
        self.type_in("copy", "-", "1.2::CARDS.DAT", "--fixed", "4", stdin=b"onesTWOS")
        self.assertEqual(self.type_in("type", "1.2::CARDS.DAT")[0], b"ones\nTWOS\n")
        self.assertEqual(self.type_in("copy", "1.2::CARDS.DAT", "-", "--lines")[0], b"ones\nTWOS\n")
        self.stop(server)

    def test_one_record(self):
        server = self.serve()
        self.type_in("copy", "-", "1.2::REL.DAT", "--relative")
        self.type_in("put", "1.2::REL.DAT", "three", "--number", "3")
        self.assertEqual(self.type_in("get", "1.2::REL.DAT", "--number", "3"), (b"three\n", ""))
        told = self.type_in("get", "1.2::REL.DAT", "--number", "4", status=1)
        self.assertEqual(told, (b"", "bridge: 1.2::REL.DAT: refused: there is no such record (5060, 4)\n"))
        self.type_in("copy", "-", "1.2::SEQ.TXT", stdin=b"one\n")
        self.assertEqual(self.type_in("put", "1.2::SEQ.TXT", "two\nlines")[1],
                         "bridge: 1.2::SEQ.TXT: the record has an LF, and is more than one line\n")
        self.assertEqual(self.type_in("type", "1.2::SEQ.TXT"), (
            b"one\ntwo\nlines\n", "bridge: 1.2::SEQ.TXT: 1 record with an LF, each of which is more than one line\n"))
        for words in (["get", "1.2::SEQ.TXT"], ["put", "1.2::SEQ.TXT", "x"]):
            self.assertIn("(5057, 8); the file is sequential, and --number is for relative files",
                          self.type_in(*words, "--number", "2", status=1)[1])
        self.stop(server)

    def test_a_host_file_is_complete_or_not_there(self):
        server = self.serve("--store", self.folder / "store")
        out = self.folder / "out"
        told = self.type_in("copy", "1.2::NONE.TXT", out, status=1)[1]
        self.assertEqual(told, "bridge: 1.2::NONE.TXT: refused: no such file (4032, 0)\n")
        records = "".join(f"{number} {'x' * 900}\n" for number in range(2000)).encode()
        self.type_in("copy", "-", "1.2::LONG.TXT", stdin=records)
        command = [*self.words("copy", self.far, self.near), "--daplive", PROGRAM, "--harm", "20", "1.2::LONG.TXT", out]
        child = self.start(command)
        until(lambda: list(self.folder.glob("out.new.*")), "a file that is begun")
        time.sleep(0.3)
        self.assertEqual(child.finish(signal.SIGTERM), 1)
        self.assertIn("1.2::LONG.TXT: stopped by a signal", child.told())
        self.assertEqual(list(self.folder.glob("out*")), [])
        out.write_text("precious")
        told = self.type_in("copy", "1.2::LONG.TXT", out, status=2)[1]
        self.assertIn("it is there already; --replace writes it anew", told)
        self.assertEqual(out.read_text(), "precious")
        until(lambda: server.told().count(": from node") == server.told().count("closed by"), "a link closed")
        self.type_in("copy", "1.2::LONG.TXT", out, "--replace")
        self.assertEqual(out.read_bytes(), records)
        self.stop(server)

    def storing(self, *words):
        """A store that is on its way: it takes some seconds more."""
        records, wire = self.host("long", b"".join(b"%d %s\n" % (number, b"x" * 900) for number in range(400))), self.host("wire", b"")
        harm = [*HASTE, "--harm", "6", "--pcap", wire]
        child = self.start([*self.words("copy", self.far, self.near), "--daplive", PROGRAM, *harm, *words, records, "1.2::A"])
        until(lambda: wire.stat().st_size > 50_000, "a part of the file")
        return child

    def test_a_store_that_is_stopped_takes_back_what_it_made(self):
        self.path = self.folder / "kept"
        server = self.serve("--save", self.path)
        child = self.storing()
        self.assertEqual(child.finish(signal.SIGINT), 1)
        self.assertEqual(child.told(), "bridge: 1.2::A: stopped by a signal: what was stored is being taken back; a second signal leaves it "
                         "there\nbridge: 1.2::A: stopped by a signal; what was stored is taken back\n")
        self.assertIn("no such file", self.type_in("type", "1.2::A", status=1)[1])
        child = self.storing()
        server.process.send_signal(signal.SIGSTOP)
        child.process.send_signal(signal.SIGTERM)
        time.sleep(APART)
        self.assertEqual(child.finish(signal.SIGTERM), 1)
        self.assertIn("bridge: 1.2::A: stopped by a signal; what was stored until then may be there\n", child.told())
        server.process.send_signal(signal.SIGCONT)
        self.stop(server)

    def test_a_store_that_is_stopped_leaves_a_file_that_was_there(self):
        server = self.serve()
        self.type_in("copy", "-", "1.2::A", stdin=b"one\n")
        child = self.storing("--append")
        self.assertEqual(child.finish(signal.SIGTERM), 1)
        self.assertEqual(child.told(), "bridge: 1.2::A: stopped by a signal; some of the new records may be there\n")
        self.assertEqual(self.type_in("type", "1.2::A")[0][:4], b"one\n")
        self.stop(server)

    def test_a_store_whose_server_stops_says_what_is_left(self):
        server, child = self.serve(), self.storing()
        server.process.send_signal(signal.SIGTERM)
        self.assertEqual(child.finish(), 1)
        self.assertIn("reason 3 (the node is shutting down); what was stored until then may be there\n", child.told())
        self.assertEqual(server.finish(), 0)

    def test_a_store_that_is_refused_takes_back_what_it_made(self):
        server = self.serve()
        long = self.host("long", b"one\n" + b"x" * 9000 + b"\n")
        self.assertIn("(--buffer); what was stored is taken back\n", self.type_in("copy", long, "1.2::A", status=1)[1])
        self.type_in("copy", "-", "1.2::A", stdin=b"one\n")
        self.stop(server)

    def test_words_that_mean_nothing_in_this_direction(self):
        text = self.host("text", b"x\n")
        for word in (["--replace"], ["--lines"]):
            self.assertIn(f"{word[0]}: only for a file of this host that is written", self.type_in("copy", text, "1.2::A", *word, status=2)[1])
        for word in (["--append"], ["--fixed", "4"]):
            self.assertIn(f"{word[0]}: only for a file that is stored on the other node",
                          self.type_in("copy", "1.2::A", "new", *word, status=2)[1])

    def test_progress_on_a_terminal(self):
        server = self.serve()
        terminal, end = pty.openpty()
        data = b"".join(b"%d %s\n" % (number, b"x" * 900) for number in range(4000))
        command = [*self.words("copy", self.far, self.near), "--daplive", PROGRAM]
        child = self.start([*command, "-", "1.2::P"], stdin=data, stderr=end)
        os.close(end)
        self.addCleanup(os.close, terminal)
        self.assertEqual(child.process.wait(120), 0)
        self.assertRegex(os.read(terminal, 65536), rb"[0-9,]+ bytes of 3,[0-9]{3},[0-9]{3} \([0-9]+ %\), [0-9,]+ kB/s")
        self.stop(server)

    def test_wrong_words_and_faults(self):
        text = self.host("text", b"x\n")
        for words, what in ((["x", "y"], "one of FROM and TO"), (["/nowhere", "1.2::X"], "/nowhere: No such file"),
                            ([self.host("long", b"x" * 40_000), "1.2::X"], "line 1 has more than 32767 bytes"),
                            ([text, "1.2::X", "--relative"], "line 1 doesn't begin with a number and a tab"),
                            (["1.2::X", "/nowhere/y"], "No such file"), (["1.2::X", "x", "--replac"], "no option --replac (did you mean --replace?)"),
                            ([text, "64.1::X"], "64.1 is no DECnet address"), ([text, "PDP::X"], "no node PDP is known: there is no file of names")):
            self.assertIn(what, self.type_in("copy", *words, status=2)[1])
        told = self.type_in("type", "1.9::X", "--tries", "2", "--resend", "0.05", status=1)[1]
        self.assertIn("bridge: 1.9::X: no answer from node 1.9\n", told)
        server = self.serve()
        told = self.type_in("copy", "-", "1.2::X", stdin=b"x" * 9000 + b"\n", status=1)[1]
        self.assertIn("it is longer than the buffers of both ends allow (--buffer)", told)
        self.type_in("copy", "-", "1.2::X", stdin=b"x" * 8000 + b"\n")
        self.stop(server)


class PeopleTest(WordsCase):
    def test_users_and_passwords(self):
        server = self.serve("--users", self.file("users", [f"SMITH {make_hash(b'SECRET')}"]))
        secret = self.file("secret", ["secret"])
        self.type_in("copy", "-", '1.2"SMITH SECRET"::A', stdin=b"one\n")
        self.assertEqual(self.type_in("type", '1.2"smith"::A', "--password-file", secret)[0], b"one\n")
        self.assertEqual(self.type_in("type", "1.2::A", "--user", "SMITH", "--password-file", secret)[0], b"one\n")
        for name in ('1.2"SMITH WRONG"::A', '1.2"JONES SECRET"::A', "1.2::A"):
            told = self.type_in("type", name, status=1)[1]
            self.assertEqual(told, "bridge: 1.2::A: refused by node 1.2, reason 34 (the user or the password was rejected)\n")
        self.stop(server)

    def test_nobody_types_the_interface_each_time(self):
        config = self.folder / "daplive"
        config.mkdir()
        lines = [f"--udp {self.far}:{LOOPBACK}:{self.near}", f"--node {ASKING}", f"--daplive {PROGRAM}", "--segment 1400", "--save kept"]
        (config / "options").write_text("\n".join(lines))
        (config / "nodes").write_text(f"{SERVING} FILES\n")
        server, env = self.serve(), {**os.environ, "XDG_CONFIG_HOME": str(self.folder)}
        for words, stdin, out in ((["copy", "-", "files::A"], b"one\n", b""), (["type", "FILES::A"], b"", b"one\n")):
            child = self.start([*PYTHON, BRIDGE, *words], stdin=stdin, env=env)
            self.assertEqual((child.finish(), child.out.read_bytes(), child.told()), (0, out, ""))
        self.assertIn("segments of 512 bytes", server.told(), "the serving bridge allows 512")
        self.stop(server)


class StandardFilesTest(WordsCase):
    """Odd standard files have a word and a status, and nothing of them a traceback."""

    def redirected(self, how, role, *words, stdin=b""):
        command = [*self.words(role, self.far, self.near), "--daplive", PROGRAM, *words]
        child = self.start(["bash", "-c", f'exec "$@" {how}', "bash", *command], stdin=stdin)
        status = child.process.wait(60)
        for word in ("Traceback", "Exception ignored", "Warning"):
            self.assertNotIn(word, child.told())
        return status, child.told()

    def test_odd_standard_files(self):
        server = self.serve()
        self.type_in("copy", "-", "1.2::A", stdin=b"one\n" * 5000)
        full, closed = "bridge: standard output: No space left on device\n", "bridge: standard output: closed\n"
        for how, role, words, wanted in ((">/dev/full", "type", ["1.2::A"], (3, full)), (">&-", "type", ["1.2::A"], (3, closed)),
                                         (">/dev/full", "get", ["1.2::A", "--number", "1"], (1, None)),
                                         ("<&-", "copy", ["-", "1.2::B"], (3, "bridge: standard input: closed\n")),
                                         (">&-", "put", ["1.2::A", "two"], (0, ""))):
            status, told = self.redirected(how, role, *words)
            self.assertEqual((status, told if wanted[1] is not None else None), wanted, (how, role, told))
        status, told = self.redirected("| head -c 1 >/dev/null; exit ${PIPESTATUS[0]}", "type", "1.2::A")
        self.assertEqual(told, "")
        self.stop(server)

    def test_help_and_versions_that_cannot_be_printed(self):
        for words in (["--help"], ["serve", "--help"], ["--version"]):
            for how, wanted in ((">/dev/full", (3, "bridge: standard output: No space left on device\n")),
                                (">&-", (3, "bridge.py: standard output: closed\n")), ("", (0, ""))):
                child = self.start(["bash", "-c", f'exec "$@" {how}', "bash", *PYTHON, BRIDGE, *words])
                self.assertEqual((child.process.wait(60), child.told()), wanted, (words, how))
                self.assertEqual(bool(child.out.read_bytes()), not how)

    def test_a_probe_that_cannot_be_printed(self):
        server = self.serve()
        for how, what in ((">/dev/full", "standard output: No space left on device"), (">&-", "standard output: closed")):
            words = ["--to", SERVING, "--only", "find", "--quiet", "0.5"]
            self.assertEqual(self.redirected(how, "probe", *words), (3, f"bridge: {what}\n"))
        self.stop(server)

    def test_a_password_that_cannot_be_printed(self):
        for how, what in ((">/dev/full", "standard output: No space left on device"), (">&-", "standard output: closed"),
                          ("<&-", "standard input: closed")):
            child = self.start(["bash", "-c", f'exec "$@" {how}', "bash", *PYTHON, BRIDGE, "password", "SMITH"], stdin=b"x\n")
            self.assertEqual((child.process.wait(60), child.told()), (3, f"bridge: {what}\n"))


class FolderTest(WordsCase):
    def setUp(self):
        super().setUp()
        self.served = self.folder / "served"
        self.served.mkdir()

    def texts(self):
        return {one.name: one.read_bytes() for one in self.served.iterdir() if not one.name.startswith(".")}

    def test_texts_are_served_and_written_back_when_they_are_closed(self):
        (self.served / "read.me").write_bytes(TEXT)
        server = self.serve("--folder", self.served)
        self.assertEqual(self.type_in("type", "1.2::read.me")[0], COME_BACK)
        self.type_in("copy", "-", "1.2::new.txt", stdin=b"one\ntwo\n")
        self.assertEqual(self.texts(), {"read.me": TEXT, "new.txt": b"one\ntwo\n"})
        (self.served / "new.txt").write_text("edited\n")
        self.type_in("put", "1.2::new.txt", "three")
        self.assertEqual(self.texts(), {"read.me": TEXT, "new.txt": b"edited\nthree\n"})
        client = self.begin("ask", stdin=None)
        client.write(f"hello\nopen {b'new.txt'.hex()} 1\nconnect\nput {b'four'.hex()}\n".encode())
        client.wait_for("done", client.out)
        (self.served / "new.txt").write_text("edited again\n")
        client.write(b"close\n")
        client.end_input()
        self.assertEqual(client.finish(), 0, client.told())
        self.assertEqual(self.texts(), {"read.me": TEXT, "new.txt": b"edited\nthree\nfour\n", "new.txt.host": b"edited again\n"})
        self.assertIn("somebody has edited it meanwhile", server.told())
        self.type_in("copy", "-", "1.2::rel.dat", "--relative", stdin=b"7\tx\n")
        self.assertEqual(server.finish(signal.SIGKILL), -signal.SIGKILL)
        server = self.serve("--folder", self.served)
        self.assertEqual(self.type_in("type", "1.2::rel.dat")[0], b"7\tx\n")
        self.assertEqual(self.type_in("type", "1.2::new.txt.host")[0], b"edited again\n")
        self.stop(server)

    def test_a_record_that_is_no_line_takes_no_file_of_the_host_away(self):
        (self.served / "a.txt").write_text("one\n")
        server = self.serve("--folder", self.served)
        self.type_in("put", "1.2::a.txt", "two\nlines")
        self.assertEqual(self.texts(), {"a.txt": b"one\n"})
        server.wait_for("/a.txt: record 2 has an LF, or a CR at its end, and is no line of a text: it stays as it was, and what links see "
                        "is kept in .daplive")
        self.assertEqual(self.type_in("type", "1.2::a.txt")[0], b"one\ntwo\nlines\n")
        self.stop(server)
        server = self.serve("--folder", self.served)
        self.assertIn("what links had put in its place is a.txt.put now", server.told())
        self.assertEqual(self.type_in("type", "1.2::a.txt")[0], b"one\n")
        self.assertEqual(self.type_in("type", "1.2::a.txt.put")[0], b"one\ntwo\nlines\n")
        self.stop(server)

    def erase(self, name, rights):
        """What a server of the folder answers to a node that erases a file by its name, on a link with these rights."""
        server = self.serve("--folder", self.served, "--users", self.file("users", [f"- - {rights}"]))
        station = self.station()
        station.connect(3)
        station.say_hello()
        access = bytes([4, 0, len(name)]) + name + bytes(4)
        station.say(segment(station.remote, station.local, 2, bytes([3, 2, len(access)]) + access))
        answer = station.hear_kind(Kind.ONLY)
        while answer.number != 2:
            answer = station.hear_kind(Kind.ONLY)
        station.disconnect()
        station.raw.close()
        self.stop(server)
        return answer.body.hex()

    def test_what_a_link_erases_is_removed(self):
        (self.served / "a.txt").write_text("one\n")
        (self.served / "b.txt").write_text("two\n")
        self.assertEqual(self.erase(b"a.txt", "put,get,upd"), "090206554000000102")
        self.assertEqual(self.texts(), {"a.txt": b"one\n", "b.txt": b"two\n"})
        self.assertEqual(self.erase(b"a.txt", "del"), "0602000702020200")
        self.assertEqual(self.texts(), {"b.txt": b"two\n"})

    def test_two_names_that_are_one_and_a_long_line_do_not_stop_the_start(self):
        for name, data in (("DATA.TXT", b"one\n"), ("data.txt", b"two\n"), ("long", b"x" * 32_768)):
            (self.served / name).write_bytes(data)
        server = self.serve("--folder", self.served, "--names", "folded")
        self.assertIn("/data.txt: another file has this name: it isn't served", server.told())
        self.assertIn("/long: line 1 has more than 32767 bytes: it isn't served", server.told())
        self.assertEqual(self.type_in("type", "1.2::Data.Txt")[0], b"one\n")
        (self.served / "DATA.TXT").unlink()
        self.assertEqual(self.type_in("type", "1.2::Data.Txt")[0], b"two\n")
        self.stop(server)

    def test_a_pipe_in_the_place_of_the_kept_files_is_told(self):
        os.mkfifo(self.served / ".daplive")
        server = self.serve("--folder", self.served, is_ready=False)
        self.assertEqual(server.finish(), 1)
        self.assertIn("/.daplive: it is a device, and no plain file", server.told())

    def test_a_folder_that_cannot_be_written_closes_nothing(self):
        server = self.serve("--folder", self.served)
        self.type_in("copy", "-", "1.2::a", stdin=b"one\n")
        os.rename(self.served, self.folder / "away")
        told = self.type_in("put", "1.2::a", "two", status=1)[1]
        self.assertIn("reason 9 (aborted)", told)
        os.rename(self.folder / "away", self.served)
        self.assertEqual(self.texts(), {"a": b"one\n"})
        self.type_in("put", "1.2::a", "three")
        self.assertEqual(self.texts(), {"a": b"one\ntwo\nthree\n"})
        self.stop(server, 3)

    def test_words_that_do_not_go_together(self):
        for words in (["--folder", "x", "--files", "y"], ["--folder", "x", "--save", "y"], ["--folder", "x", "--store", "y"]):
            self.assertEqual(self.serve(*words, is_ready=False).finish(), 2)
