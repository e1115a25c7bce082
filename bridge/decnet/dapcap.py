"""The program `dapcap`, which lists captures: which one is run. None is built by the way."""
import os
import pathlib
import shutil

from decnet import program

ROOT = pathlib.Path(__file__).resolve().parent.parent.parent
BUILT = tuple(ROOT / "crates/dapcap/out" / name for name in ("dapcap", "try/dapcap"))  # the proved one first
HELP = "the program dapcap (default $DAPCAP, or the one that ./dapcap of this repository has built)"


def find(given=None):
    """The program that is named, else $DAPCAP, else the one of this repository; a Fault where it isn't there."""
    named = given or os.environ.get("DAPCAP")
    if named:
        if shutil.which(named) is None:
            raise program.Fault(f"{named}: no program that lists captures", program.FAULT)
        return str(named)
    for path in BUILT:
        if os.access(path, os.X_OK):
            return str(path)
    raise program.Fault("dapcap isn't built, which lists captures: ./dapcap --try --version compiles it", program.FAULT)
