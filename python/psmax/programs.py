"""Calls of psmax and psprove, each under a clock. Every fact that `plan` prints comes from one of them."""
import atexit
import math
import os
import pathlib
import re
import shutil
import tempfile
import time
from collections import deque
from collections.abc import Callable, Iterator, Sequence
from contextlib import contextmanager
from typing import IO

from .clock import Clock
from .errors import BadInput, Failed, TimeUp
from .process import Process

SECONDS = 600.0  # the most that a program may take for an answer that no search is needed for
Given = bytes | pathlib.Path | None  # what a program reads: bytes, a file, or nothing as long as this process runs
MOST_LINES = 1_000  # of what a program tells that are kept for a fault
INSIDE = "bin"  # the folder of the programs in the package, where it was installed from a wheel


def find_program(name: str) -> str:
    """What $PSMAX or $PSPROVE names, else the program inside an installed wheel, that of the repository, the one beside
    an installed `plan`, or that of PATH."""
    named = os.environ.get(name.upper())
    if named:
        if shutil.which(named) is None:
            raise Failed(f"{name.upper()} is {named}, which is no program")
        return named
    here = pathlib.Path(__file__).resolve().parent
    for path in (here / INSIDE / name, here.parents[1] / name, here.parents[2] / "bin" / name):
        if path.is_file() and os.access(path, os.X_OK):
            return str(path)
    found = shutil.which(name)
    if found is None:
        raise Failed(f"no {name} found: set {name.upper()}, or put it on the PATH")
    return found


@contextmanager
def given_file(given: Given) -> Iterator[IO[bytes]]:
    """What a program reads: a file that is there, one of these bytes, or a pipe that ends where this process does."""
    if isinstance(given, pathlib.Path):
        with open(given, "rb") as file:
            yield file
    elif given is not None:
        with tempfile.TemporaryFile() as file:
            file.write(given)
            file.seek(0)
            yield file
    else:
        read, write = os.pipe()
        with open(read, "rb") as file, open(write, "wb"):
            yield file


class Program:
    """Calls one of the programs until the clock is stopped. `project` is what its project is called in faults. Records
    lie in the folder, where one is named, while they are written."""

    name: str

    def __init__(self, clock: Clock, project: str = "the project", folder: str | None = None) -> None:
        self.clock, self.project, self.folder = clock, project, folder
        self.path = find_program(self.name)

    def version(self) -> str:
        found = re.match(rb"\w+ (\S+)", self.call(["--version"], b"")[1])
        return found[1].decode("utf-8", "replace") if found else "unknown"

    def odd(self, job: str) -> Failed:
        return Failed(f"{self.path} {job} gave an answer that plan does not know; is it {self.name}?")

    def call(self, arguments: Sequence[str], given: Given, seconds: float = SECONDS,
             hear: Callable[[str], None] = lambda line: None, until: str | None = None) -> tuple[int, bytes]:
        """The exit status of a call that answered within these seconds, and its output, or else the last that it told.
        Each line that it tells is heard, and one of JSON is no fault. The file `until` asks it to end."""
        lines: deque[str] = deque(maxlen=MOST_LINES)

        def told(line: str) -> None:
            if not line.startswith("{"):
                lines.append(line)
            hear(line)

        status, out = self._run(arguments, given, seconds, told, until)
        faults = [line for line in lines if line.strip()]
        text = faults[-1].removeprefix(f"{self.name}: ") if faults else ""
        if status == 2 and faults and faults[-1].startswith(f"{self.name}: "):
            raise BadInput(f"{self.project}: {text}")
        if status < 0:
            raise Failed(f"{self.name} {arguments[0]} was ended by signal {-status}")
        if status in (0, 3, 4):
            return status, out or "\n".join(faults).encode()
        raise Failed(f"{self.name} {arguments[0]} failed, exit status {status}" + (f": {text}" if text else ""))

    def judge(self, command: str, project: bytes, given: Given, seconds: float = SECONDS) -> tuple[int, bytes]:
        """A call of a command that takes the project as a file, and is given what it has to judge."""
        with tempfile.TemporaryDirectory(prefix="plan-") as folder:
            path = os.path.join(folder, "project.sch")
            with open(path, "wb") as file:
                file.write(project)
            return self.call([command, "--project", path], given, seconds)

    def verify(self, project: bytes, record: Given) -> tuple[int, str]:
        """The exit status, and what the record proves of the project, or its first fault. A long one may take as long
        as the search did."""
        status, out = self.judge("verify", project, record, math.inf)
        return status, out.decode("utf-8", "replace").strip().removeprefix(f"{self.name}: ")

    def _run(self, arguments: Sequence[str], given: Given, seconds: float, hear: Callable[[str], None],
             until: str | None) -> tuple[int, bytes]:
        if self.clock.stopped:
            raise TimeUp
        with given_file(given) as source, tempfile.TemporaryFile() as out:
            with self._started(arguments, source, out, until) as running:
                if not running.run(time.monotonic() + seconds, hear):
                    raise TimeUp(f"{self.name} {arguments[0]} did not end in time, and was killed")
            out.seek(0)
            return running.child.returncode, out.read()

    @contextmanager
    def _started(self, arguments: Sequence[str], source: IO[bytes], out: IO[bytes],
                 until: str | None) -> Iterator[Process]:
        """The program, which has ended behind this, whatever comes between."""
        try:
            running = Process([self.path, *arguments], source, out, until, self.clock)
        except OSError as fault:
            raise Failed(f"cannot start {self.path}: {fault.strerror}") from None
        atexit.register(running.end)
        self.clock.waiting.append(running.wake)
        try:
            yield running
        finally:
            atexit.unregister(running.end)
            self.clock.waiting.remove(running.wake)
            running.close()
