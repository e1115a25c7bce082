"""A file of options: a line is one of them with its value, as it is on the command line."""
import shlex

MAX_BYTES = 1 << 20


def read_lines(path):
    """The lines that say something, with their numbers, in words; ValueError where one is no words."""
    with open(path, encoding="utf-8", errors="surrogateescape") as file:
        text = file.read(MAX_BYTES + 1)
    if len(text) > MAX_BYTES:
        raise ValueError(f"more than {MAX_BYTES} bytes")
    for number, line in enumerate(text.split("\n"), 1):
        try:
            words = shlex.split(line, comments=True)
        except ValueError as fault:
            raise ValueError(f"line {number}: {fault}") from fault
        if words:
            yield number, words


def known(words, own, parsers, number):
    """The words where the own parser knows them, and none where one of the others does; ValueError where none does."""
    if not words[0].startswith("--"):
        raise ValueError(f"line {number}: {words[0][:40]} is no option, as --node")
    for parser in (own, *parsers):
        if not parser.parse_known_args(words)[1]:
            return words if parser is own else []
    raise ValueError(f"line {number}: no option {' '.join(words)[:60]}")
