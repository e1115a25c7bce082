"""The package of the bridge, which the programs beside use too: its modules are those of bridge/decnet."""
import pathlib

__path__ = [str(pathlib.Path(__file__).resolve().parents[2] / "bridge" / "decnet")]
