"""./check, over a tree whose parts are stand-ins: which parts it runs, what it counts, and what a small change touches."""
import os
import pathlib
import shutil
import subprocess
import sys
import unittest

from tests.support import Case

ROOT = pathlib.Path(__file__).resolve().parent.parent.parent
# says its own name and words in the log, and ends as the environment says of its name
PART = """#!/bin/sh
at=$(pwd -P | sed -n 's,.*/crates/,,p')
echo "NAME $*${at:+ in $at}" | sed 's, /[^ ]*, KEPT,g' >>"$GATE_LOG"
case " $GATE_FAILS " in *" NAME "*) echo "3 passed, 2 failed"; exit 1 ;; esac
case " $GATE_SKIPS " in *" NAME "*) echo "3 passed, 0 failed; skipped: it is missing"; exit 0 ;; esac
echo "3 passed, 0 failed"
"""
SCRIPTS = ["examples/check", "docs/check", "wrong_bodies", "wrong_bodies_tests.py", "hostile/check", "bridge/check", "tools/check",
           "dapnsp", "daplive", "dapcap", "tool/rt", "tool/python3"]
PARTS = ["look", "proofs", "wrong", "trying", "hostile", "lossy", "lines", "examples", "bridge", "tools"]
CRATES = "lower:\nmiddle: lower\nmiddle_tests: middle\nupper: middle\nbeside:\ndapnsp: upper\ndaplive: beside\ndapcap: beside\n"


class GateCase(Case):
    def setUp(self):
        super().setUp()
        self.tree, self.log = self.folder / "tree", self.folder / "log"
        self.tree.mkdir()
        for script in SCRIPTS:
            path = self.tree / script
            path.parent.mkdir(exist_ok=True)
            path.write_text(PART.replace("NAME", script))
            path.chmod(0o755)
        shutil.copy(ROOT / "check", self.tree)
        (self.tree / "HANDLES").write_text("Handles allowed: none.\n")
        (self.tree / "crates.txt").write_text(CRATES)
        (self.tree / ".gitignore").write_text("crates/*/out/\n")
        for name in [line.partition(":")[0] for line in CRATES.splitlines()]:
            for part in ("src", "specs", "wrong"):
                (self.tree / "crates" / name / part).mkdir(parents=True)
            (self.tree / "crates" / name / "src" / "lib.rt").write_text("// a crate\n")
        (self.tree / "crates" / "middle" / "wrong" / "one.edit").write_text("fn: f\n")
        for words in (["init", "-q"], ["config", "user.email", "a@b.c"], ["config", "user.name", "a"]):
            self.git(*words)
        self.commit()
        self.commit()
        self.environment = {**os.environ, "PATH": f"{self.tree}/tool:{os.environ['PATH']}", "GATE_LOG": str(self.log),
                            "GATE_FAILS": "", "GATE_SKIPS": ""}

    def git(self, *words):
        subprocess.run(["git", "-C", self.tree, *words], check=True, stdin=subprocess.DEVNULL, stdout=subprocess.DEVNULL)

    def commit(self):
        self.git("add", "-A")
        self.git("commit", "-q", "--allow-empty", "-m", "a commit")

    def check(self, *words, **environment):
        """What ./check with these words does: its status, its last line and what it runs."""
        self.log.write_text("")
        done = subprocess.run([sys.executable, "./check", *words],
                              cwd=self.tree, env={**self.environment, **environment}, capture_output=True, text=True, timeout=60)
        self.said, self.told = done.stderr, done.stdout
        return done.returncode, (done.stdout.splitlines() or [""])[-1], self.log.read_text().splitlines()


class PartsTest(GateCase):
    def test_all_parts_run_in_their_order_and_are_counted(self):
        status, last, ran = self.check()
        self.assertEqual((status, last), (0, "45 passed, 0 failed"), self.told)
        ran = [line for line in ran if line != "tool/rt version"]
        self.assertGreater(ran.index("wrong_bodies "), ran.index("tool/rt ci"))
        self.assertEqual([line for line in ran if line != "wrong_bodies "], [
            "examples/check ", "docs/check ", "wrong_bodies --look", "tool/rt ci", "wrong_bodies_tests.py ",
            "hostile/check ", "tool/python3 examples/lossy_tests.py --seeds 200", "tool/python3 examples/links_tests.py --seeds 200",
            "tool/python3 bench/links --links 100 --puts 5000 --each --rounds 1", "tool/python3 examples/live_tests.py",
            "tool/python3 examples/bounded_tests.py", "examples/check --run crates/dapnsp/out/dapnsp",
            "bridge/check --daplive crates/daplive/out/daplive --dapcap crates/dapcap/out/dapcap --keep KEPT",
            "tools/check --daplive crates/daplive/out/daplive --dapcap crates/dapcap/out/dapcap --captures KEPT"])
        for part in PARTS:
            self.assertRegex(self.told, rf"(?m)^check: {part}: [0-9.]+ minutes, [0-9.]+ of processor$")

    def test_the_wrong_bodies_are_tried_beside_what_follows(self):
        """A stand-in that begins to talk, and ends only when the last of the others has run; it yields to them."""
        (self.tree / "wrong_bodies").write_text("""#!/bin/sh
            [ "$*" = --look ] && { echo "3 passed, 0 failed"; exit; }
            echo "its first line"
            for try in $(seq 400); do grep -q tools/check "$GATE_LOG" && break; sleep 0.05; done
            echo "$(nice) after $try looks"
            grep -q tools/check "$GATE_LOG" && echo "3 passed, 0 failed"
            """)
        status, last, _ = self.check()
        self.assertEqual((status, last), (0, "45 passed, 0 failed"), self.told)
        said = self.told.splitlines()
        self.assertGreater(said.index("its first line"), said.index("check: tools: compares captures in Wireshark and as pages "
                                                                    "with the listing; 0 minutes so far"))
        self.assertRegex(self.told, r"(?m)^19 after \d+ looks$")

    def test_the_wrong_bodies_alone_are_shown_as_they_are_tried(self):
        self.assertEqual(self.check("--only", "wrong")[1:], ("3 passed, 0 failed", ["tool/rt version", "wrong_bodies "]))
        self.assertEqual(self.check("--only", "proofs", "wrong")[2][1:], ["tool/rt ci", "wrong_bodies "])

    def test_what_fails_and_what_is_skipped_is_counted(self):
        self.assertEqual(self.check(GATE_FAILS="hostile/check", GATE_SKIPS="bridge/check tools/check")[:2],
                         (1, "45 passed, 2 failed, 2 skipped"))

    def test_a_fault_of_the_first_look_ends_it(self):
        self.assertEqual(self.check(GATE_FAILS="docs/check")[:2], (1, "9 passed, 2 failed"))
        self.assertNotIn("tool/rt ci", self.log.read_text())

    def test_handles_and_unlisted_crates_are_looked_at(self):
        (self.tree / "HANDLES").write_text("Handles allowed: Net.\n")
        (self.tree / "crates" / "unlisted").mkdir()
        self.assertEqual(self.check("--only", "look")[:2], (1, "9 passed, 2 failed"))
        self.assertIn("check: HANDLES is not the one line 'Handles allowed: none.'\n", self.told)
        self.assertIn("check: the crate unlisted is not in crates.txt, so nothing would read it\n", self.told)

    def test_only_and_from(self):
        self.assertEqual(self.check("--only", "trying", "hostile")[1:], ("6 passed, 0 failed", [
            "tool/rt version", "wrong_bodies_tests.py ", "hostile/check "]))
        self.assertEqual(self.check("--from", "bridge")[1], "6 passed, 0 failed")

    def test_list_help_and_wrong_words(self):
        self.check("--list")
        self.assertEqual([line.split(" ")[0] for line in self.told.splitlines()], PARTS)
        self.assertEqual(self.check("--help")[0], 0)
        for part in PARTS:
            self.assertRegex(self.told, rf"(?m)^    {part} +\S")
        for words in (["--only", "nosuch"], ["--from"], ["nosuch"], ["--only", "look", "--changed"]):
            self.assertEqual(self.check(*words)[0], 2, words)

    def test_without_a_toolchain(self):
        (self.tree / "tool" / "rt").unlink()
        status = self.check(PATH=f"{self.tree}/tool:/usr/bin:/bin")[0]
        self.assertEqual((status, self.said[:36]), (3, "check: the Rattle toolchain is missin"[:36]))


class ChangedTest(GateCase):
    LOOK = ["examples/check ", "docs/check ", "wrong_bodies --look"]

    def write(self, path, text="// changed\n"):
        (self.tree / path).parent.mkdir(parents=True, exist_ok=True)
        (self.tree / path).write_text(text)

    def test_a_body_is_proved_in_its_crate_alone(self):
        self.write("crates/middle/src/lib.rt")
        status, last, ran = self.check("--changed")
        self.assertEqual((status, last), (0, "24 passed, 0 failed"), self.told)
        self.assertEqual(ran, [*self.LOOK, "tool/rt check in middle", "tool/rt try --test --seconds 1800 in middle_tests", "wrong_bodies middle",
                               "dapnsp --try --help", "daplive --try --help", "dapcap --try --help",
                               "examples/check --play KEPT"])
        self.assertIn("check: left to ./check: the parts after look, and the crates middle_tests, upper, dapnsp\n", self.told)

    def test_a_definition_is_proved_in_those_above_too(self):
        self.write("crates/middle/specs/Lib.antt", "-- changed\n")
        ran = self.check("--changed")[2]
        self.assertEqual(ran[3:6], ["tool/rt check in middle", "tool/rt check in upper", "tool/rt check in dapnsp"])
        self.assertIn("check: left to ./check: the parts after look, and the crates middle_tests\n", self.told)

    def test_a_line_of_crates_txt(self):
        self.write("crates.txt", CRATES.replace("beside:", "beside: lower"))
        self.assertEqual(self.check("--changed")[2][3:], ["tool/rt check in beside", "dapnsp --try --help", "daplive --try --help",
                                                          "dapcap --try --help", "examples/check --play KEPT"])

    def test_a_python_program(self):
        self.write("tools/new.py", "# new\n")
        self.assertEqual(self.check("--changed")[2], [*self.LOOK, "tools/check "])

    def test_it_is_the_last_commit_that_passed_here_else_the_one_before(self):
        self.write("crates/beside/src/lib.rt")
        self.commit()
        self.assertIn("tool/rt check in beside", self.check("--changed")[2])
        self.commit()
        self.assertEqual(self.check("--changed")[2], self.LOOK)
        self.check()
        self.write("crates/lower/src/lib.rt")
        self.commit()
        self.commit()
        self.assertIn("tool/rt check in lower", self.check("--changed")[2])

    def test_a_run_that_failed_or_is_of_other_files_is_no_such_commit(self):
        self.write("crates/beside/src/lib.rt")
        self.check()
        self.commit()
        self.check(GATE_FAILS="hostile/check")
        self.check("--from", "proofs")
        self.assertIn("tool/rt check in beside", self.check("--changed")[2])

    def test_without_git(self):
        shutil.rmtree(self.tree / ".git")
        self.assertEqual(self.check("--changed")[0], 3)


if __name__ == "__main__":
    unittest.main()
