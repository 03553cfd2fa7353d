"""`python3 -m sdm COMMAND WORDS`: the command lines of the package."""
import os
import signal
import sys
from importlib import import_module
from typing import NoReturn

from sdm.laboratory.piped import end
from sdm.laboratory.program import IS_REPOSITORY

COMMANDS = {
    "explain": "sdm.explain_input",
    "why": "sdm.why",
    "curves": "sdm.curves",
    "compare": "sdm.comparing",
    "diagnose": "sdm.diagnosis.words",
    "import": "sdm.importing.words",
    "campaign": "sdm.campaign",
    "plot": "sdm.picture",
    "report": "sdm.reporting.words",
    "bench-live": "sdm.bench",
    "model": "sdm.exact",
    "version": "sdm.laboratory.version",
}
REFUSED = (5, 6, 7)  # the codes of an input that the model refuses
EXPLAIN = "tools/explain" if IS_REPOSITORY else "sdm-tools explain"
READER_GONE = 128 + signal.SIGPIPE  # the status that a shell tells of a program that the system ends for it


def run(command: str, words: list[str]) -> int:
    """The exit status of a command for its words; `--version` is one of each but the model's, which are the program's.
    A reader that closes the pipe ends it without a word."""
    if words == ["--version"] and command != "model":
        command, words = "version", []
    try:
        code: int = import_module(COMMANDS[command]).main(words)
        sys.stdout.flush()
        if command == "model" and code in REFUSED and sys.stderr.isatty():
            print(f"`{EXPLAIN} INPUT` names each fault with its line and what is expected.", file=sys.stderr)
    except BrokenPipeError:
        os.dup2(os.open(os.devnull, os.O_WRONLY), sys.stdout.fileno())
        return READER_GONE
    return code


def chosen() -> int:
    """Runs the command that the words of this process name; its exit status."""
    words = ["version" if word == "--version" else word for word in sys.argv[1:2]] + sys.argv[2:]
    if words and words[0] in COMMANDS:
        return run(words[0], words[1:])
    print(f"usage: python3 -m sdm {{{','.join(COMMANDS)}}} ...", file=sys.stderr)
    return 2


def main() -> NoReturn:
    """Ends this process with the command that its words name."""
    end(chosen)


if __name__ == "__main__":
    main()
