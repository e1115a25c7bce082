"""The serving bridge with its live end: what is reported is on the disk, and nothing kept is lost."""
import os
import signal
import time

from decnet.kept import read_lines
from tests.pairs import HASTE, PairCase
from tests.station import SERVING
from tests.support import BRIDGE, PATIENCE, PROGRAM, PYTHON, child_of, file_lines, need_live_end, until

FILE = ["file 46 seq variable 0 0", "  1 41"]


class SavedTest(PairCase):
    def setUp(self):
        super().setUp()
        self.path = self.folder / "kept"

    def begin(self, requests, report, *words):
        """Asks over a link that stays open; both bridges."""
        server, raw = self.serve(*HASTE, "--save", self.path, *words)
        child = self.bridge("ask", raw, "--to", SERVING, *HASTE, stdin=None)
        child.write(requests)
        child.wait_for(report, child.out)
        return server, child

    def test_what_was_reported_as_closed_is_on_the_disk(self):
        """Also while the link is open, and both programs are killed."""
        server, _ = self.begin(b"hello\ncreate 46 0 2 0 0 15\nconnect\nput 41\nclose\n", "report closed")
        server.finish(signal.SIGKILL)
        self.assertEqual(file_lines(self.path), FILE)
        self.assertEqual([line for _, line in read_lines(self.path)], FILE)

    def test_what_a_file_had_that_was_never_closed_is_saved_after_the_link(self):
        server, child = self.begin(b"hello\ncreate 46 0 2 0 0 15\nconnect\nput 41\n", "report done 1")
        self.assertEqual(self.path.stat().st_size, 0)
        child.finish(signal.SIGTERM)
        until(lambda: file_lines(self.path) == FILE, "a save")
        self.stop(server)

    def test_a_purge_is_saved(self):
        requests = b"hello\ncreate 46 0 2 0 0 15\nconnect\nput 41\nclose\ncreate 47 0 2 0 0 15\npurge\n"
        server, _ = self.begin(requests, "report closed\nreport opened 0 2 0 0\nreport closed")
        until(lambda: file_lines(self.path) == FILE, "a save")
        self.stop(server)

    def test_a_live_end_that_is_killed_leaves_the_file(self):
        self.path.write_text("".join(f"{line}\n" for line in FILE))
        requests = b"hello\ncreate 47 0 2 0 0 15\nconnect\nput 41\n"
        server, child = self.begin(requests, "report done 1", "--files", self.path)
        os.kill(child_of(server.process.pid), signal.SIGKILL)
        self.assertEqual((server.finish(), child.finish()), (3, 1))
        self.assertEqual(file_lines(self.path), FILE)

    def test_save_without_files_refuses_to_empty_a_file(self):
        self.path.write_text("".join(f"{line}\n" for line in FILE))
        child, _ = self.serve("--save", self.path, is_ready=False)
        self.assertEqual(child.finish(), 1)
        self.assertIn("it isn't empty, and isn't the file of --files", child.told())
        self.assertEqual(file_lines(self.path), FILE)

    def test_two_bridges_do_not_keep_one_file(self):
        first, _ = self.serve("--save", self.path)
        second, _ = self.serve("--save", self.path, is_ready=False)
        self.assertEqual(second.finish(), 1)
        self.assertIn("another bridge keeps it", second.told())
        self.stop(first)

    def test_many_records_are_loaded_and_saved(self):
        lines = ["file 46 seq variable 0 0", *(f"  {number} 41" for number in range(1, 100_001))]
        self.path.write_text("".join(f"{line}\n" for line in lines))
        other = self.folder / "other"
        begun = time.monotonic()
        server, _ = self.serve("--files", self.path, "--save", other)
        self.stop(server)
        self.assertLess(time.monotonic() - begun, 2 * PATIENCE, "work that grows faster than the file")
        self.assertEqual(file_lines(other), lines)


class FullTest(PairCase):
    def test_a_file_that_cannot_grow_stays_old_and_the_client_is_not_told_that_it_is_closed(self):
        """A limit on the size of files is as a full disk."""
        need_live_end()
        path = self.file("kept", FILE)
        near, far = self.ends()
        shell = ["sh", "-c", 'ulimit -f 1; exec "$@"', "sh"]
        words = ["--frames", far.fileno(), "--node", SERVING, "--daplive", PROGRAM, *HASTE]
        words += ["--files", path, "--save", path]
        server = self.start([*shell, *PYTHON, BRIDGE, "serve", *words], pass_fds=[far.fileno()])
        server.wait_for("takes links")
        child = self.ask(near, b"hello\ncreate 47 0 2 0 0 15\nconnect\nput " + b"42" * 900 + b"\nclose\n")
        self.assertEqual(child.finish(), 1)
        self.assertNotIn("report closed", child.reports())
        self.assertIn("reason 9 (aborted)", child.told())
        time.sleep(0.5)
        child = self.ask(near, b"hello\nopen 46 2\nconnect\nfetch\nclose\n")
        self.assertEqual((child.finish(), child.reports()[-1]), (0, "report closed"), "who only reads isn't held up")
        self.assertEqual(server.finish(signal.SIGTERM), 3)
        self.assertEqual(file_lines(path), FILE)
