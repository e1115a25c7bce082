"""The definitions that have to be believed, and which of them the contract of a function rests on."""
import functools
import glob
import os
import re

ROOT = os.path.dirname(os.path.dirname(os.path.abspath(__file__)))
NO_DEFINITION = re.compile(r"\s*$|\s*--|use |pub use |mod |pub mod ")
# a definition begins a line, or is in a module without a name; a field of a record is indented, and none
HEAD = re.compile(r"(?:\s*(?:abbrev |unfoldable )+|\s*(?=pub (?:data|record) )|)pub (?:data |record )?([A-Za-z_][\w-]*)")
USE = re.compile(r"^(?:ghost |pub )*use (Rattle\.[\w.-]+?)(?:\.\{(.*?)\}| as ([\w-]+))?;?$", re.M)
# what a file passes on that is defined under Inner
LENT = re.compile(r"^pub use Rattle\.\w+\.specs\.Inner\.[\w.]+\.\{(.*?)\}$", re.M)
WORD = re.compile(r"[A-Za-z_][\w-]*(?:\.[A-Za-z_][\w-]*)?")


@functools.cache
def read(path):
    with open(f"{ROOT}/{path}", encoding="utf-8") as file:
        return file.read()


@functools.cache
def paths():
    """The files of definitions, without those that only private contracts cite."""
    found = sorted(glob.glob("crates/*/specs/**/*.antt", root_dir=ROOT, recursive=True))
    return [path for path in found if "/specs/Inner" not in path]


def lines_of(text):
    return [line for line in text.splitlines() if not NO_DEFINITION.match(line)]


@functools.cache
def definitions(path):
    """The lines of each definition of a file, by its name; what is before the first one counts to it. What is passed on
    from Inner has none."""
    lent = ", ".join(LENT.findall(read(path)))
    found, before, name = {name.strip(): [] for name in lent.split(",") if name.strip()}, [], None
    for line in lines_of(read(path)):
        head = HEAD.match(line)
        if head:
            name = head[1]
            found[name] = before + [line]
            before = []
        elif name:
            found[name].append(line)
        else:
            before.append(line)
    return found


def path_of(module):
    """The file of a module of definitions, or nothing."""
    parts = module.split(".")
    if len(parts) < 4 or parts[2] != "specs":
        return None
    path = f"crates/{parts[1]}/specs/{'/'.join(parts[3:])}.antt"
    return path if path in set(paths()) else None


@functools.cache
def names_in(path):
    """What the names mean that a file brings in: a definition, as its file and its name, or a file."""
    meant = {}
    for module, names, alias in USE.findall(read(path)):
        home = path_of(module)
        if home and alias:
            meant[alias] = (home, None)
        for one in filter(None, (name.strip() for name in names.split(","))):
            name, _, other = one.partition(" as ")
            if home and name in definitions(home):
                meant[other or name] = (home, name)
    return meant


def cited(path, text, own=()):
    """The definitions that a text of a file cites."""
    meant = names_in(path)
    for word in WORD.findall(text):
        first, _, second = word.partition(".")
        home, name = meant.get(first, (None, None))
        if home and (name or second in definitions(home)):
            yield home, name or second
        elif first in own:
            yield path, first


def reached(roots):
    """The definitions that these rest on, and these, each as its file and its name. What is passed on from Inner is what a
    law says of it, in words of the file that passes it on: it rests on all of that."""
    found, left = set(), list(roots)
    while left:
        one = left.pop()
        if one not in found:
            found.add(one)
            path, name = one
            here = definitions(path)
            left += cited(path, "\n".join(here[name]), here) if here[name] else [(path, other) for other in here]
    return found


def contract(path, function):
    """What the contract of a function cites."""
    text = re.search(rf"fn {function}\b.*?^ *\{{", read(path), re.M | re.S)[0]
    return cited(path, re.sub(r"//.*", "", text))


def count(found):
    return sum(len(definitions(path)[name]) for path, name in found)


def in_reading_order(found):
    """The files of these definitions, each after those that it cites, with how many of its lines count: the crates in the
    order of crates.txt, in which each depends on crates before it."""
    order, seen = [], set()

    def visit(path):
        if path not in seen:
            seen.add(path)
            for one in sorted({home for home, _ in names_in(path).values()}):
                visit(one)
            order.append(path)

    for path in sorted({path for path, _ in found}):
        visit(path)
    crates = re.findall(r"^(\w+):", read("crates.txt"), re.M)
    order.sort(key=lambda path: crates.index(path.split("/")[1]))
    lines = {path: count({one for one in found if one[0] == path}) for path in order}
    return [(path, lines[path]) for path in order if lines[path]]
