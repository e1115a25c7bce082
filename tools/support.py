"""What the tests of these tools share."""
import os
import pathlib
import unittest

ROOT = pathlib.Path(__file__).resolve().parent.parent
DAPLIVE = os.environ.get("DAPLIVE") or str(ROOT / "crates/daplive/out/daplive")
DAPCAP = os.environ.get("DAPCAP") or str(ROOT / "crates/dapcap/out/dapcap")
SEED = int(os.environ.get("TOOLS_SEED") or 1)
ALL = bool(os.environ.get("TOOLS_ALL"))


def need_programs():
    """Skips tests where a program isn't built: none is built by the way."""
    for name in (DAPLIVE, DAPCAP):
        if not os.access(name, os.X_OK):
            raise unittest.SkipTest(f"{name} isn't built")
