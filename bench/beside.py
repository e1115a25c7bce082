"""Builds a proved program over crates of the repository, and a plain program that does the same, and times both."""
import os
import resource
import shutil
import subprocess
import sys
import tempfile

HERE = os.path.dirname(os.path.abspath(__file__))
ROUNDS = 5


def crates_of(uses, table):
    """The crates of the repository that these depend on, and these."""
    found = set()
    for name in uses:
        if name in table:
            found |= {name} | crates_of(table[name], table)
    return found


def prove(work, name, uses):
    """Proves and builds bench/NAME.program in a folder of its own: the gate runs each program of the repository."""
    with open(os.path.join(HERE, "../crates.txt"), encoding="utf-8") as file:
        lines = [line.split("#")[0].split(":") for line in file]
    table = {line[0].strip(): line[1].split() for line in lines if len(line) == 2}
    shutil.copy(os.path.join(HERE, "../HANDLES"), work)
    for crate in crates_of(uses, table):
        shutil.copytree(os.path.join(HERE, "../crates", crate), os.path.join(work, "crates", crate))
    with open(os.path.join(work, "crates.txt"), "w", encoding="utf-8") as file:
        for crate in sorted(crates_of(uses, table)):
            file.write(f"{crate}: {' '.join(table[crate])}\n")
        file.write(f"bench: {' '.join(uses)} anyhow\n")
    os.makedirs(os.path.join(work, "crates/bench/src"))
    shutil.copy(os.path.join(HERE, f"{name}.program"), os.path.join(work, "crates/bench/src/main.rt"))
    # With no words it ends at once.
    subprocess.run(["rt", "run"], cwd=os.path.join(work, "crates/bench"), stdout=sys.stderr, check=True)
    return os.path.join(work, "crates/bench/out/bench")


def build_plain(work, name):
    program = os.path.join(work, "plain")
    source = os.path.join(HERE, f"plain/{name}_calls.rs")
    subprocess.run(["rustc", "--edition", "2024", "-O", "-o", program, source], check=True)
    return program


def stay_on_one_processor():
    """Binds this process, and those that it starts, to one processor."""
    os.sched_setaffinity(0, {max(os.sched_getaffinity(0))})


def timed(words, source):
    """The seconds that a run over a file keeps a processor busy."""
    before = resource.getrusage(resource.RUSAGE_CHILDREN)
    with open(source, "rb") as reader:
        subprocess.run(words, stdin=reader, stdout=subprocess.DEVNULL, check=True)
    after = resource.getrusage(resource.RUSAGE_CHILDREN)
    return after.ru_utime + after.ru_stime - before.ru_utime - before.ru_stime


def measure(program, words):
    """The numbers of a run by their labels, and what it answered."""
    said = subprocess.run([program, *words], stdout=subprocess.PIPE, text=True, check=True).stdout
    lines = [line.rpartition(" ") for line in said.splitlines()]
    numbers = {label: int(number) for label, _, number in lines if not label.startswith("answers")}
    return numbers, [line for line in said.splitlines() if line.startswith("answers")]


def compare(name, uses, cases):
    """Runs both programs in turn with the words of each case, and prints the least numbers and their ratio. Answers
    the least numbers of both by the words and the label."""
    least = {}
    with tempfile.TemporaryDirectory() as work:
        programs = [prove(work, name, uses), build_plain(work, name)]
        stay_on_one_processor()
        for words in cases:
            rounds = [[measure(program, words) for program in programs] for _ in range(ROUNDS)]
            if any(proved[1] != plain[1] for proved, plain in rounds):
                raise SystemExit(f"{name} {' '.join(words)}: the two answer differently")
            for label in rounds[0][0][0]:
                proved, plain = (min(both[k][0][label] for both in rounds) for k in (0, 1))
                ratio = f"{proved / plain:.2f}" if plain else "none"
                print(f"{' '.join(words)}: {label}: proved {proved}, plain {plain}, ratio {ratio}", flush=True)
                least[(*words, label)] = (proved, plain)
    return least
