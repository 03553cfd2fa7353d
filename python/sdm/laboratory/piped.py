"""How a tool or a script ends that prints: a reader that closes the pipe ends it without a word, as the system ends
other programs."""

import os
import signal
import sys
from collections.abc import Callable
from typing import NoReturn

READER_GONE = 128 + signal.SIGPIPE  # the status that a shell tells of a program that the system ends for it


def end(main: Callable[[], int | None]) -> NoReturn:
    """Ends this process with the status that its work answers, or with which it ends itself."""
    try:
        status: int | str | None
        try:
            status = main()
        except SystemExit as ended:
            status = ended.code
        sys.stdout.flush()
    except BrokenPipeError:
        os.dup2(os.open(os.devnull, os.O_WRONLY), sys.stdout.fileno())
        status = READER_GONE
    sys.exit(status)
