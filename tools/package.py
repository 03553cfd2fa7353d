"""Puts the packages of python/ on the path, for the tools beside it, and runs a command of one of them."""
import sys
from importlib import import_module
from pathlib import Path

sys.dont_write_bytecode = True
sys.path.insert(0, str(Path(__file__).resolve().parents[1] / "python"))


def command(name: str, package: str = "sdm") -> None:
    """Ends this process with a command of a package, for its own words."""
    from sdm.laboratory.piped import end

    run = import_module(f"{package}.__main__").run
    end(lambda: run(name, sys.argv[1:]))
