"""The command in a copy of the process of the tests: a process of its own in all but the start of Python."""
import atexit
import os
import signal
import subprocess
import sys
import tempfile
import threading
import traceback
import weakref
from collections.abc import Mapping, Sequence
from concurrent.futures import thread
from functools import partial
from typing import NoReturn

from psmax import process_limits
from psmax.clock import ENDS
from psmax.planner import batch, report, solve, watch, why  # noqa: F401: so that no copy has to import what it runs
from psmax.planner.main import main


def begin(words: Sequence[str]) -> subprocess.Popen[bytes]:
    """What `plan batch` begins for a project."""
    return subprocess.Popen(["plan"], stdin=subprocess.DEVNULL, stdout=subprocess.PIPE, stderr=subprocess.PIPE,
                            start_new_session=True, preexec_fn=partial(run, ["solve", *words], {}))


def begin_answer() -> subprocess.Popen[bytes]:
    """What `psmax.process_limits` begins for a text of strangers."""
    return subprocess.Popen(["python3"], stdin=subprocess.PIPE, stdout=subprocess.PIPE, stderr=subprocess.DEVNULL,
                            start_new_session=True, preexec_fn=answer)


def answer() -> NoReturn:
    """In the child, as `run`."""
    part()
    status = 1
    try:
        process_limits.answer()
        sys.stdout.flush()
        status = 0
    finally:
        os._exit(status)


def run(words: Sequence[str], env: Mapping[str, str]) -> NoReturn:
    """What `subprocess` calls in the child before a program, which never comes."""
    part()
    os.environ.update(env)
    batch.begin_solve, process_limits.begin = begin, begin_answer
    status = 1
    try:
        status = main(words)
    except SystemExit as ended:
        status = int(ended.code or 0)
    except BaseException:
        traceback.print_exc()
    os._exit(ended_with(status))


def part() -> None:
    """Makes the child a process of its own. Closing what else is open tells the parent that it runs; from then on it
    may be sent a signal, which must not be for the handlers of the parent. What the tests have put off until their end
    is theirs."""
    end_at_once()
    os.closerange(3, os.sysconf("SC_OPEN_MAX"))
    atexit._clear()
    weakref.finalize._registry.clear()  # type: ignore[attr-defined]
    thread._threads_queues.clear()  # type: ignore[attr-defined]
    tempfile.tempdir = None
    signal.signal(signal.SIGPIPE, signal.SIG_IGN)
    sys.stdin, sys.stdout = open(0, closefd=False), open(1, "w", encoding="utf-8", closefd=False)
    sys.stderr = open(2, "w", encoding="utf-8", buffering=1, errors="backslashreplace", closefd=False)


def ended_with(status: int) -> int:
    """What Python does at the end of a program."""
    try:
        threading._shutdown()  # type: ignore[attr-defined]
        atexit._run_exitfuncs()
        sys.stdout.flush()
    except OSError:
        return status or 120
    return status


def end_at_once() -> None:
    for number in ENDS:
        signal.signal(number, signal.SIG_DFL)
