#!/usr/bin/env python3
"""Compares the commands that the pages show with what they print: a block marked `sh` or `shell`, and directly after it a
block of text. All pages are looked at.

usage: shown_tests.py [--dapnsp PROGRAM] [--daplive PROGRAM] [--dapcap PROGRAM]
                                   runs the commands, by the programs at the top of the repository, which are built where
                                   they aren't, or by these in their place; those over two nodes, and those with tshark,
                                   are skipped where these can't be run
       shown_tests.py --plain      runs those alone that need no program that is built
       shown_tests.py --stored     runs nothing, and looks whether no commands lack their text, each text is in an .out
                                   file of this folder, and each readme_* file is in a page; and whether the pages show
                                   the words of the definitions of what is printed, and their tables no others
"""
import argparse
import os
import pathlib
import re
import shutil
import subprocess

from decnet import program

HERE = pathlib.Path(__file__).resolve().parent
ROOT = HERE.parent
PAGES = ["README.md", "docs/LISTING.md", "docs/LIVE.md", "docs/SCHEDULES.md"]  # which explain what is printed
# all pages but those of changes and of figures
SHOWING = [str(page.relative_to(ROOT)) for pattern in ("README.md", "CONTRIBUTING.md", "docs/*.md", "crates/*/README.md")
           for page in sorted(ROOT.glob(pattern))]
BLOCK = r"((?:(?!```).*\n)+)```\n"
START = re.compile(r"^```(?:sh|shell)$", re.M)
SHOWN = re.compile(rf"^```(?:sh|shell)\n{BLOCK}\n```\n{BLOCK}", re.M)
NAMES = ["dapnsp", "daplive", "dapcap"]
# a program at the top of the repository, also without its proof; and where a compiled one is
TOP = re.compile(r"(?<![\w/.])\./(dapnsp|daplive|dapcap)\b(?: --try\b)?")
TRIED = re.compile(r"(?<![\w/.])crates/(dapnsp|daplive|dapcap)/out/(?:try/)?\1\b")
BUILT = re.compile(r"\b(?:dapnsp|daplive|dapcap|bridge\.py|ladder|lossy\.py|probe)\b")  # what needs a program that is built
TWO_NODES = "examples/two_nodes"
# their definitions have texts
PRINTED = ["texts", "dap_text", "dap_listing", "dap_follow", "decnet_frames", "dap_capture", "dap_live", "linewise"]
ALSO = ["dap_meanings/specs/Faults.antt"]  # and these, but not the words behind lines
LITERAL = re.compile(r'codes "((?:[^"\\]|\\.)*)"')
CODE = re.compile(r"^```.*?^```|^    .*?$|`[^`\n]*`", re.M | re.S)
WORD = re.compile(r"(?<![\w-])[a-z][a-z-]*")
SECONDS = 60
COMPILING = 1800  # where a program is compiled or built first


def run(commands, programs=None):
    """Runs commands of a page, by these programs in place of those that it names."""
    given = {name: program for name, program in (programs or {}).items() if program}
    for pattern in (TOP, TRIED):
        commands = pattern.sub(lambda found: given.get(found[1], found[0]), commands)
    env = {**os.environ, **{name.upper(): given[name] for name in ("daplive", "dapcap") if name in given}}
    seconds = SECONDS if len(given) == len(NAMES) else COMPILING
    return subprocess.run(["bash", "-c", commands], cwd=ROOT, env=env, capture_output=True, text=True, timeout=seconds)


def wrong_words():
    """What is wrong with the words that the pages explain, or nothing."""
    pages = {page: (ROOT / page).read_text() for page in PAGES}
    explained = {word for text in pages.values() for code in CODE.findall(text) for word in WORD.findall(code)}
    printed = set()
    found = [file for name in PRINTED for file in (ROOT / "crates" / name / "specs").glob("*.antt")]
    for file in sorted([*found, *(ROOT / "crates" / name for name in ALSO)]):
        words = {word for literal in LITERAL.findall(file.read_text()) for word in WORD.findall(literal.replace("\\n", " "))}
        printed |= words
        if words - explained:
            return f"no page explains {', '.join(sorted(words - explained))}, of {file.relative_to(ROOT)}"
    listing = pages["docs/LISTING.md"].partition("\n## Packets\n")[2].partition("\n## Numbers in messages\n")[0]
    cells = [cell for row in re.findall(r"^\| ([^|]*) \|", listing, re.M) for cell in re.findall(r"`([^`]*)`", row)]
    others = {word for cell in cells for word in WORD.findall(cell)} - printed
    return f"docs/LISTING.md: no listing has {', '.join(sorted(others))}" if others else None


def wrong_stored():
    """What is wrong with what is stored, or nothing."""
    texts = {page: (ROOT / page).read_text() for page in SHOWING}
    stored = {file.read_text() for file in HERE.glob("*.out")}
    for page, text in texts.items():
        shown = SHOWN.findall(text)
        if len(shown) != len(START.findall(text)):
            return f"{page} has commands without what they print"
        for commands, printed in shown:
            if printed not in stored:
                return f"{page}: no .out file has what it shows of these commands:\n{commands}"
    for file in sorted(HERE.glob("readme_*")):
        if not any(file.read_text() in text for text in texts.values()):
            return f"no page shows {file.name}"
    return None


def play(programs, is_plain):
    """Runs all commands, or those that need no program that is built."""
    shown, left, skipped = 0, 0, []
    has_nodes = is_plain or run(f"{TWO_NODES} </dev/null").returncode == 0
    for page in SHOWING:
        for commands, printed in SHOWN.findall((ROOT / page).read_text()):
            if is_plain and BUILT.search(commands):
                left += 1
                continue
            if TWO_NODES in commands and not has_nodes:
                skipped.append("two nodes")
                continue
            if commands.startswith("tshark") and not shutil.which("tshark"):
                skipped.append("tshark")
                continue
            done = run(commands, programs)
            if done.stdout != printed:
                shown_else = f"{page} shows something else of these commands:\n{commands}\n{done.stdout}{done.stderr}"
                raise program.Fault(shown_else)
            shown += 1
    told = f"; {left} need a program, so examples/check --run plays them" if left else ""
    told += f"; {len(skipped)} can't be run here: {', '.join(sorted(set(skipped)))}" if skipped else ""
    print(f"examples: {shown} commands print what the pages show{told}")


def main():
    parser = argparse.ArgumentParser(description="Compares the commands that the pages show with what they print.")
    parser.add_argument("--stored", action="store_true", help="run nothing: look at what is stored")
    parser.add_argument("--plain", action="store_true", help="run those that need no program that is built")
    for name in NAMES:
        parser.add_argument(f"--{name}", metavar="PROGRAM", help=f"in place of ./{name}")
    options = parser.parse_args()
    if options.stored:
        wrong = wrong_stored() or wrong_words()
        if wrong:
            raise program.Fault(wrong)
        return 0
    programs = {name: getattr(options, name) and os.path.abspath(getattr(options, name)) for name in NAMES}
    play(programs, options.plain)
    return 0


if __name__ == "__main__":
    program.run("shown_tests.py", main)
