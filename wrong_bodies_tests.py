#!/usr/bin/env -S python3 -X dev -W error
"""Tests ./wrong_bodies over crates of its own, which takes five minutes of processor.

usage: ./wrong_bodies_tests.py [TEST ..]    a TEST is a name as `TriedTest.test_a_right_body_is_found`
"""
import glob
import importlib.machinery
import importlib.util
import os
import pathlib
import shutil
import signal
import subprocess
import tempfile
import time
import unittest

ROOT = pathlib.Path(__file__).resolve().parent
TOOL = "wrong_bodies"
SMALL = """\
#![tactic(auto)]
//! Functions whose bodies are changed.

ghost use Rattle.std.specs.Prelude.{◌≡◌, ◌+◌, ◌≤◌};

const STEP: u16 = 3;

pub fn double(n: u8) -> u16
    ensures { result ≡ n + n }
{
    u16::from(n) + u16::from(n)
}

pub fn double_and_one(n: u8) -> u16
    ensures { result ≡ n + n + 1 }
{
    double(n) + 1
}

pub fn named(n: u8) -> u16
    ensures { result ≡ n + n }
{
    let twice = double(n);
    twice
}

pub fn at_most(n: u8) -> u8
    ensures { result ≤ n }
{
    n
}

pub fn first_step(n: u8) -> u16
    ensures { result ≡ n + 3 }
{
    u16::from(n) + STEP
}

pub fn second_step(n: u8) -> u16
    ensures { result ≡ n + 3 }
{
    STEP + u16::from(n)
}
"""
# the proof of one, which names a call of its body
ANSWERS = """\
use Rattle.small.proofs.named.Goals as goal

pub returns : goal.returns
returns c = c.double-twice.ensures
"""
# the wrong bodies of the crate: the function, the old text and the new one, and what is told of it
SMALL_EDITS = {
    "doubled_thrice": ("double", "    u16::from(n) + u16::from(n)", "    u16::from(n) + u16::from(n) + u16::from(n)",
                       "refused: double: `returns`"),
    "right_beside_a_wrong_one": ("double_and_one", "    double(n) + 1", "    1 + double(n)",
                                 "NOT REFUSED: double_and_one: proved"),
    "right_with_another_call": ("named", "    let twice = double(n);", "    let twice = 2 * u16::from(n);",
                                "NOT REFUSED: named: not proved, and its proof only names what is gone: "),
    "let_through": ("at_most", "    n", "    0", "NOT REFUSED: at_most: proved"),
    "constant": ("first_step", "const STEP: u16 = 3;", "const STEP: u16 = 4;", "refused: first_step: `returns`"),
    "right_beside_a_constant": ("second_step", "    STEP + u16::from(n)", "    u16::from(n) + STEP",
                                "NOT REFUSED: second_step: proved"),
}
BAD = """\
#![tactic(auto)]
//! A function whose changes are no bodies.

ghost use Rattle.std.specs.Prelude.{◌≡◌};

pub fn same(n: u8) -> u8
    ensures { result ≡ n }
{
    n
}
"""
BAD_EDITS = {
    "another_type": ("same", "    n", "    u16::from(n)", "BAD EDIT: src/lib.rt:9:"),
    "no_such_text": ("same", "    m", "    0", "BAD EDIT: stands 0 times in src/lib.rt:     m"),
    "no_such_function": ("another", "    n", "    0", "BAD EDIT: there is no function another in"),
}


class ToolCase(unittest.TestCase):
    """A repository with these crates, of which each has a text and wrong bodies."""

    crates = {"small": (SMALL, SMALL_EDITS), "bad": (BAD, BAD_EDITS)}

    @classmethod
    def setUpClass(cls):
        folder = tempfile.TemporaryDirectory()
        cls.addClassCleanup(folder.cleanup)
        cls.folder = pathlib.Path(folder.name)
        cls.rooms, cls.lock = cls.folder / "rooms", cls.folder / "wrong.lock"
        cls.rooms.mkdir()
        shutil.copy(ROOT / TOOL, cls.folder)
        answers = cls.folder / "crates" / "small" / "proofs" / "named"
        answers.mkdir(parents=True)
        (answers / "Answers.antt").write_text(ANSWERS)
        (cls.folder / "crates.txt").write_text("".join(f"{name}:\n" for name in cls.crates))
        for name, (text, edits) in cls.crates.items():
            (cls.folder / "crates" / name / "src").mkdir(parents=True, exist_ok=True)
            (cls.folder / "crates" / name / "src" / "lib.rt").write_text(text)
            (cls.folder / "crates" / name / "wrong").mkdir()
            for edit, (function, old, new, _) in edits.items():
                path = cls.folder / "crates" / name / "wrong" / f"{edit}.edit"
                path.write_text(f"fn: {function}\nfile: src/lib.rt\nold: {old}\nnew: {new}\n")

    @classmethod
    def begin(cls, *words):
        return subprocess.Popen([cls.folder / TOOL, *words], stdin=subprocess.DEVNULL, stdout=subprocess.PIPE,
                                stderr=subprocess.PIPE, text=True,
                                env={**os.environ, "TMPDIR": str(cls.rooms)})

    @classmethod
    def run_it(cls, *words):
        with cls.begin(*words) as process:
            told, said = process.communicate()
        return process.returncode, told.splitlines(), said


class TriedTest(ToolCase):
    @classmethod
    def setUpClass(cls):
        super().setUpClass()
        cls.status, cls.told, cls.said = cls.run_it("small")

    def is_told(self, edit):
        found = [line for line in self.told if line.startswith(f"small/{edit}: {SMALL_EDITS[edit][-1]}")]
        self.assertEqual(len(found), 1, "\n".join([*self.told, self.said]))

    def test_a_wrong_body_is_refused_by_its_own_goal(self):
        self.is_told("doubled_thrice")

    def test_a_right_body_is_found(self):
        """The prover says of it at first only that it calls a function that isn't proved, which is another's edit."""
        self.is_told("right_beside_a_wrong_one")

    def test_a_proof_that_names_what_is_gone_says_nothing(self):
        self.is_told("right_with_another_call")

    def test_a_body_that_the_contract_lets_through_is_found(self):
        self.is_told("let_through")

    def test_a_constant_is_changed_alone(self):
        """With the constant's change the right body of another function would be refused."""
        self.is_told("constant")
        self.is_told("right_beside_a_constant")

    def test_they_are_counted(self):
        self.assertEqual((self.status, self.told[-1]), (1, "2 refused, 4 not"), self.said)

    def test_nothing_is_left(self):
        self.assertEqual(list(self.rooms.iterdir()), [])


class BadTest(ToolCase):
    def test_a_bad_edit_is_told_and_fails(self):
        status, told, said = self.run_it("bad")
        self.assertEqual((status, told[-1]), (1, "0 refused, 3 not"), f"{told}\n{said}")
        for edit, (*_, why) in BAD_EDITS.items():
            self.assertTrue(any(line.startswith(f"bad/{edit}: {why}") for line in told), f"{edit}: {told}")

    def test_look_tells_those_that_it_can(self):
        status, told, said = self.run_it("--look")
        self.assertEqual((status, told), (1, []))
        self.assertEqual(said.splitlines(), [
            "crates/bad/wrong/no_such_function.edit: there is no function another in the files that it changes",
            "crates/bad/wrong/no_such_text.edit: stands 0 times in src/lib.rt:     m"])

    def test_look_finds_one_that_is_in_both_folders_and_one_without_a_function(self):
        crate = self.folder / "crates" / "small"
        (crate / "must-fail").mkdir()
        self.addCleanup(shutil.rmtree, crate / "must-fail")
        twice, without = crate / "must-fail" / "constant.edit", crate / "wrong" / "without.edit"
        shutil.copy(crate / "wrong" / "constant.edit", twice)
        without.write_text("file: src/lib.rt\nold: STEP: u16 = 3\nnew: STEP: u16 = 4\n")
        self.addCleanup(without.unlink)
        said = self.run_it("--look")[2]
        self.assertIn("crates/small/wrong/constant.edit: it is in must-fail/ too\n", said)
        self.assertIn("crates/small/wrong/without.edit: it has no line 'fn: MODULE::NAME'\n", said)


class LockTest(ToolCase):
    """What wrong.lock has is taken where its sum is that of the files, but for the groups that the commit draws."""

    crates = {"small": (SMALL, {name: SMALL_EDITS[name] for name in ("doubled_thrice", "constant")}),
              "other": (SMALL, {"doubled_twice": SMALL_EDITS["doubled_thrice"], "tripled": SMALL_EDITS["doubled_thrice"],
                                "other_step": SMALL_EDITS["constant"], "again": SMALL_EDITS["doubled_thrice"]})}
    constant, doubled = "small/constant", "small/doubled_thrice"
    small = [constant, doubled]

    @classmethod
    def setUpClass(cls):
        super().setUpClass()
        shutil.copytree(cls.folder / "crates" / "small" / "proofs", cls.folder / "crates" / "other" / "proofs")
        text = cls.folder / "crates" / "other" / "proofs" / "named" / "Answers.antt"
        text.write_text(text.read_text().replace("small", "other"))
        cls.git("init", "-q")
        cls.git("config", "user.email", "a@b.c")
        cls.git("config", "user.name", "a")
        cls.commit()
        status, told, said = cls.run_it()
        assert status == 0 and told[-1] == "6 refused, 0 not", f"{told} {said}"
        cls.good = cls.lock.read_text()

    def setUp(self):
        self.lock.write_text(self.good)

    @classmethod
    def git(cls, *words):
        subprocess.run(["git", "-C", cls.folder, *words], check=True, stdin=subprocess.DEVNULL, stdout=subprocess.DEVNULL)

    @classmethod
    def commit(cls):
        cls.git("commit", "-q", "--allow-empty", "-m", "a commit")

    def tries(self, *words, wanted=0):
        """The wrong bodies that a run tries, and the lines of those that aren't good."""
        status, told, said = self.run_it(*words)
        self.assertEqual(status, wanted, f"{told}\n{said}")
        tried = [line for line in told[:-1] if not line.endswith("; wrong.lock")]
        self.said = said
        return sorted(line.split(":")[0] for line in tried), [line for line in tried if not line.partition(": ")[2].startswith("refused: ")]

    def alter(self, path, old, new):
        text = path.read_text()
        self.assertIn(old, text)
        path.write_text(text.replace(old, new, 1))
        self.addCleanup(path.write_text, text)

    def test_a_line_is_taken_until_a_file_changes(self):
        self.assertEqual(self.tries("small"), ([], []))
        self.assertIn("2 verdicts are taken from wrong.lock; tried are 0 that it doesn't have", self.said)
        self.alter(self.folder / "crates" / "small" / "wrong" / "doubled_thrice.edit", "new:     u16::from(n) + ", "new:     1 + ")
        self.assertEqual(self.tries("small"), ([self.doubled], []))
        self.assertIn("wrong.lock has changed in 1 line\n", self.said)
        self.alter(self.folder / "crates" / "small" / "src" / "lib.rt", "const STEP", "// a comment\nconst STEP")
        self.assertEqual(self.tries("small"), (self.small, []))

    def test_the_libraries_that_a_crate_may_cite_are_in_the_sum(self):
        self.alter(self.folder / "crates.txt", "small:", "small: thiserror")
        self.assertEqual(self.tries("small"), (self.small, []))

    def test_anew_tries_all(self):
        self.assertEqual(self.tries("--anew", "small"), (self.small, []))
        self.assertEqual(self.lock.read_text(), self.good)

    def test_an_altered_sum_is_tried_again(self):
        held = self.good.split(f"{self.constant} ")[1][:64]
        self.alter(self.lock, held, held[1:] + held[0])
        self.assertEqual(self.tries("small"), ([self.constant], []))
        self.assertEqual(self.lock.read_text(), self.good)

    def test_an_altered_name_is_found(self):
        self.alter(self.lock, f"{self.constant} ", "small/constants ")
        status, _, said = self.run_it("--look")
        number = 1 + [line.split(" ")[0] for line in self.lock.read_text().splitlines()].index("small/constants")
        self.assertEqual((status, said), (1, f"wrong.lock:{number}: there is no wrong body small/constants\n"))
        self.assertEqual(self.tries("small"), ([self.constant], []))
        self.assertEqual(self.lock.read_text(), self.good)

    def test_lines_that_are_none_and_second_ones_are_found(self):
        first = self.good.splitlines()[0]
        self.lock.write_text(f"{first}\n{first}\n{first} \nrefused\n{first.replace('refused: ', 'taken: ')}\n")
        found = self.run_it("--look")[2].splitlines()
        self.assertEqual(found, [f"wrong.lock:2: it has a second line of {first.split()[0]}",
                                 f"wrong.lock:3: it has a second line of {first.split()[0]}",
                                 "wrong.lock:4: it is no verdict with its sum", "wrong.lock:5: it is no verdict with its sum"])

    def commit_that_draws(self, name, is_drawn):
        """Makes commits until one draws the group of a wrong body, or doesn't; the names that it draws."""
        loader = importlib.machinery.SourceFileLoader("tool", str(self.folder / TOOL))
        tool = importlib.util.module_from_spec(importlib.util.spec_from_loader("tool", loader))
        loader.exec_module(tool)
        edits = [edit for crate in tool.crates_with_edits() for edit in tool.edits_of(crate)]
        for _ in range(100):
            found = tool.drawn(edits, tool.commit())
            if (name in found) == is_drawn:
                return sorted(found)
            self.commit()
        raise AssertionError("no commit of a hundred draws so")

    def test_a_verdict_that_is_another_is_found_where_a_commit_draws_its_group(self):
        name, claim, right = "other/other_step", "refused: first_step: `other`", "refused: first_step: `returns`"
        self.alter(self.lock, f"{right}", claim)
        self.assertIn(claim, next(line for line in self.lock.read_text().splitlines() if line.startswith(name)))
        others = self.commit_that_draws(name, False)
        self.assertEqual((len(others), self.tries()), (4, (others, [])))
        self.assertIn(" in 4 groups that commit ", self.said)
        names = self.commit_that_draws(name, True)
        self.assertEqual(self.tries(), (names, [f"{name}: NOT AS wrong.lock SAYS: {claim}, but {right}"]))
        self.assertEqual(self.lock.read_text(), self.good)
        another = "refused: second_step: `returns`"
        self.alter(self.lock, right, another)
        self.assertEqual(self.tries(wanted=1), (names, [f"{name}: NOT AS wrong.lock SAYS: {another}, but {right}"]))
        self.assertEqual(self.lock.read_text(), self.good)

    def test_where_there_is_no_commit_all_are_tried(self):
        (self.folder / ".git").rename(self.folder / "git")
        self.addCleanup((self.folder / "git").rename, self.folder / ".git")
        self.assertEqual(len(self.tries()[0]), 6)


class StopTest(ToolCase):
    def stops(self, number):
        """It ends by the signal, and leaves neither a folder nor a process that works in one."""
        with self.begin("small") as process:
            end = time.monotonic() + 60
            while not list(self.rooms.glob("*/tries/*/src")) and time.monotonic() < end:
                time.sleep(0.1)
            time.sleep(1)
            process.send_signal(number)
            told, said = process.communicate(timeout=20)
        self.assertEqual((process.returncode, told), (-number, ""))
        self.assertEqual(said, "wrong_bodies: all 6 are tried, since there is no commit\n")
        self.assertEqual(list(self.rooms.iterdir()), [])
        self.assertFalse([path for path in glob.glob("/proc/[0-9]*/cwd") if str(self.rooms) in at(path)])

    def test_ctrl_c(self):
        self.stops(signal.SIGINT)

    def test_term(self):
        self.stops(signal.SIGTERM)


def at(path):
    try:
        return os.readlink(path)
    except OSError:
        return ""


if __name__ == "__main__":
    program = unittest.main(exit=False, verbosity=2)
    result = program.result
    failed = len(result.failures) + len(result.errors) + len(result.unexpectedSuccesses)
    print(f"{result.testsRun - failed} passed, {failed} failed")
    raise SystemExit(1 if failed else 0)
