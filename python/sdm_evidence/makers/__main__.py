"""`python3 -m sdm_evidence.makers COMMAND WORDS`: the makers' command lines, as in tools/."""
import sys
from importlib import import_module

COMMANDS = {name: f"sdm_evidence.makers.{name}" for name in ("journeys", "certified", "rides")}


def run(command: str, words: list[str]) -> int:
    """The exit status of a command for its words."""
    code: int = import_module(COMMANDS[command]).main(words)
    return code


if __name__ == "__main__":
    if sys.argv[1:2] and sys.argv[1] in COMMANDS:
        sys.exit(run(sys.argv[1], sys.argv[2:]))
    sys.exit(f"usage: python3 -m sdm_evidence.makers {{{','.join(COMMANDS)}}} ...")
