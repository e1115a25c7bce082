"""Names of nodes, from a file whose lines are an address and a name, as `1.10 VAX`."""
import re

from decnet.address import read_node

NAME = re.compile(r"(?=[A-Z0-9]*[A-Z])[A-Z0-9]{1,6}", re.ASCII)


class Names(dict):
    """The nodes by their names in capitals."""

    path = None  # of the file that they are in, where there is one


def read_names(path):
    """Those of a file; ValueError where a line is none, OSError where the file can't be read."""
    names = Names()
    names.path = path
    with open(path, encoding="utf-8", errors="surrogateescape") as file:
        for number, line in enumerate(file, 1):
            words = line.partition("#")[0].upper().split()
            if not words:
                continue
            try:
                node = read_node(words[0])
            except ValueError as fault:
                raise ValueError(f"{path}: line {number}: {fault}") from fault
            for name in words[1:]:
                if not NAME.fullmatch(name):
                    raise ValueError(f"{path}: line {number}: {name[:40]} is no node's name: at most 6 letters and digits")
                if names.setdefault(name, node) != node:
                    raise ValueError(f"{path}: line {number}: {name} is there twice")
    return names


def find(text, names):
    """A node by its name or its address; ValueError for any other text."""
    if NAME.fullmatch(text.upper()):
        if text.upper() not in names:
            where = f"in the file of names, {names.path}" if names.path else "known: there is no file of names (--nodes)"
            raise ValueError(f"no node {text} is {where}")
        return names[text.upper()]
    return read_node(text)
