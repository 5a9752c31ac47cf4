"""The command `plan`: runs what its arguments say, and turns whatever goes wrong into a line each and an exit
status."""
import io
import os
import sys
from collections.abc import Sequence
from typing import NoReturn

from ..clock import end_at_once, interrupt_once
from ..letters import printable
from .faults import explained
from .options import parse_arguments

INTERRUPTED = 130


def run() -> NoReturn:
    sys.exit(main(sys.argv[1:]))


def main(arguments: Sequence[str]) -> int:
    """What ends a run interrupts it from here on, until it is over."""
    try:
        interrupt_once()
        return answered(arguments)
    except KeyboardInterrupt:
        return tell_faults(INTERRUPTED, "interrupted")
    finally:
        end_at_once()


def answered(arguments: Sequence[str]) -> int:
    if sys.stderr is None:  # closed by the shell; what is told then goes nowhere
        sys.stderr = open(os.devnull, "w")
    if sys.stdout is None:
        return tell_faults(1, "standard output is closed")
    for stream in (sys.stdout, sys.stderr):
        if isinstance(stream, io.TextIOWrapper):
            stream.reconfigure(errors="replace")
    try:
        options = parse_arguments(arguments)
        status: int = options.run(options)
        sys.stdout.flush()
        return status
    except BrokenPipeError:
        os.dup2(os.open(os.devnull, os.O_WRONLY), sys.stdout.fileno())
        return 1
    except Exception as fault:
        if isinstance(fault.__context__, KeyboardInterrupt):  # argparse fails to undo what it has not done yet
            raise fault.__context__
        status, texts = explained(fault)
        return tell_faults(status, *texts)


def tell_faults(status: int, *texts: str) -> int:
    for text in texts:
        print("plan: " + printable(" ".join(text.splitlines())), file=sys.stderr)
    return status
