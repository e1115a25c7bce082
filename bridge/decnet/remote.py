"""Files of other nodes, as people name them: NODE::NAME, or NODE"USER PASSWORD ACCOUNT"::NAME."""
import os
import re
from dataclasses import dataclass

from decnet import nsp
from decnet.nodes import find

SPELLED = re.compile(r'([A-Za-z0-9.]+)(?:"([^"]*)")?::(.*)', re.ASCII | re.DOTALL)
BEGUN = re.compile(r'[A-Za-z0-9.]+(:|"[^"]*("|$))', re.ASCII)  # how a text begins that is meant to be one
UNCLOSED = re.compile(r'[A-Za-z0-9.]+"[^"]*', re.ASCII | re.DOTALL)
MAX_NAME = 255


@dataclass(frozen=True)
class Remote:
    """A file of another node."""

    text: str  # of node and name, as it was typed
    node: int
    name: bytes
    images: tuple  # user, password and account, as many as were typed


def is_remote(text):
    return SPELLED.fullmatch(text) is not None


def is_meant_remote(text):
    """Whether a text is a file of another node, or begins as one does."""
    return BEGUN.match(text) is not None


def read_remote(text, names):
    """A file of another node; ValueError where the text names none."""
    found = SPELLED.fullmatch(text)
    if not found and UNCLOSED.fullmatch(text):
        raise ValueError(f"{text[:60]}: the quote isn't closed, as in 1.10\"SMITH\"::DATA.TXT")
    if not found:
        raise ValueError(f"{text[:60]} is no NODE::NAME, as 1.10::DATA.TXT")
    node, access, name = found.groups()
    if len(name) > 1 and name[0] == name[-1] == '"':
        name = name[1:-1]
    data, images = os.fsencode(name), tuple(os.fsencode(word) for word in (access or "").split())
    if not 1 <= len(data) <= MAX_NAME:
        raise ValueError(f"{node}::{name[:40]}: a file's name has 1 to {MAX_NAME} bytes")
    if len(images) > 3 or any(len(image) > nsp.IMAGE_LIMIT for image in images):
        raise ValueError(f"{node}: a user, a password and an account have at most {nsp.IMAGE_LIMIT} bytes each")
    return Remote(f"{node}::{name}", find(node, names), data, images)
