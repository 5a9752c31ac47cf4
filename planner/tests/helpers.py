"""What the tests share. They call the built programs, and take their expected values from the format's description,
from calculation by hand, or from a proof of psmax."""
import functools
import io
import marshal
import os
import pathlib
import py_compile
import signal
import subprocess
import sys
import tempfile
import unittest
from functools import partial
from typing import IO
from unittest import mock

from psmax.clock import ENDS
from psmax.planner.main import main
from psmax.planner.options import parser_of

from . import copied

TOP = pathlib.Path(__file__).resolve().parents[2]
PLAN = TOP / "planner" / "plan"
INPUTS = TOP / "tests" / "inputs"
EXAMPLES = TOP / "examples"
PROJECTS = TOP / "planner" / "projects"
STAND_IN = TOP / "planner" / "tests" / "stand_in.py"


def started_by_script(name: str) -> str:
    """The one that is named, or that which the script at the top starts, without the shell of that."""
    there = [path for path in (TOP / "release" / name, TOP / "build" / name) if path.exists()] or [TOP / name]
    return os.environ.get(name.upper()) or str(max(there, key=lambda path: path.stat().st_mtime))


PSMAX, PSPROVE = started_by_script("psmax"), started_by_script("psprove")
COMPILED = tempfile.TemporaryDirectory()  # where each Python that is started finds what another one has compiled
# The environment of what is started: the programs that are called, and that.
CALLED = {"PSMAX": PSMAX, "PSPROVE": PSPROVE, "PYTHONPYCACHEPREFIX": COMPILED.name, "PYTHONDONTWRITEBYTECODE": ""}

# Two jobs of 3 and 4 on one machine: the README's first project without its lag. Every schedule takes 7 at least.
TWO_JOBS = "2 1 0 0\n0 1 0\n1 1 0\n2 1 0\n3 1 0\n0 1 0 0\n1 1 3 1\n2 1 4 1\n3 1 0 0\n1\n"

# By hand: two jobs of 3 and 4 on one machine, with time between them, so that they take 12 and then 9; they could take
# 7. What a search may tell of them is true.
TWO = INPUTS / "two-jobs.sch"
LONG, SHORT = [0, 0, 8, 12], [0, 0, 5, 9]
TELLS = [{"bound": 4}, {"bound": 4, "starts": LONG}, {"bound": 4, "starts": SHORT}, {"bound": 6, "starts": SHORT}]


Ran = subprocess.CompletedProcess[str]
PARSER_OF = functools.cache(parser_of)  # of which a process makes one alone


def plan(*words: object, given: bytes = b"", psmax: str = PSMAX, psprove: str = PSPROVE) -> Ran:
    """A run of the command, in this process, since a hundred starts of Python take long."""
    buffers = [io.BytesIO(data) for data in (given, b"", b"")]
    source, out, told = (io.TextIOWrapper(buffer, "utf-8") for buffer in buffers)
    handlers = {number: signal.getsignal(number) for number in ENDS}
    with (mock.patch("sys.stdin", source), mock.patch("sys.stdout", out), mock.patch("sys.stderr", told),
          mock.patch.dict(os.environ, {"PSMAX": psmax, "PSPROVE": psprove}),
          mock.patch("psmax.planner.options.parser_of", PARSER_OF), mock.patch("psmax.process.tied", list),
          mock.patch("psmax.planner.batch.begin_solve", copied.begin)):
        try:
            status = main([*map(str, words)])
        except SystemExit as ended:
            status = int(ended.code or 0)
        finally:
            for number, handler in handlers.items():
                signal.signal(number, handler)
        out.flush()
        told.flush()
    return Ran([*map(str, words)], status, buffers[1].getvalue().decode(), buffers[2].getvalue().decode())


def started(*words: object, out: int | IO[bytes] = subprocess.PIPE, psprove: str = PSPROVE,
            psmax: str = PSMAX) -> subprocess.Popen[str]:
    """The command as a process of its own, which every signal ends, however the tests were started: a copy of this
    process, which spares the start of Python. `begun` is the file that users start."""
    return subprocess.Popen([PLAN], text=True, stdout=out, stderr=subprocess.PIPE,
                            preexec_fn=partial(copied.run, [*map(str, words)], {"PSMAX": psmax, "PSPROVE": psprove}))


def begun(*words: object, psprove: str = PSPROVE) -> subprocess.Popen[str]:
    """The same by its file and a Python of its own."""
    path = f"{pathlib.Path(sys.executable).parent}:{os.environ['PATH']}"  # with the Python of the tests first
    env = {**os.environ, **CALLED, "PSPROVE": psprove, "PATH": path}
    return subprocess.Popen([PLAN, *map(str, words)], text=True, env=env, stdout=subprocess.PIPE,
                            stderr=subprocess.PIPE,
                            preexec_fn=copied.end_at_once)


def told_until(child: subprocess.Popen[str], text: str) -> str:
    """What a command told until a line with this text, or until its end."""
    assert child.stderr is not None
    told = ""
    for line in child.stderr:
        told += line
        if text in line:
            break
    return told


def psmax(*words: object, given: bytes = b"") -> str:
    """What psmax itself answers."""
    return subprocess.run([PSMAX, *map(str, words)], input=given, capture_output=True, timeout=60).stdout.decode()


@functools.cache
def compiled(script: pathlib.Path) -> str:
    """A script of the tests that is started many times."""
    return str(py_compile.compile(str(script), f"{COMPILED.name}/{script.stem}.pyc", doraise=True))


@functools.cache
def job_shop() -> bytes:
    made = "import projects, sys; sys.stdout.buffer.write(projects.job_shop(20, 15, 1).text())"
    return subprocess.run([sys.executable, "-c", made], cwd=TOP / "bench", capture_output=True, check=True).stdout


class InFolder(unittest.TestCase):
    """A test with a new folder of its own."""

    def setUp(self) -> None:
        self.enterContext(mock.patch("psmax.process_limits.begin", copied.begin_answer))
        kept = tempfile.TemporaryDirectory()
        self.addCleanup(kept.cleanup)
        self.folder = pathlib.Path(kept.name)

    def file(self, name: str, content: str | bytes) -> pathlib.Path:
        path = self.folder / name
        path.write_bytes(content.encode() if isinstance(content, str) else content)
        return path

    def program(self, name: str, script: str) -> str:
        """A program that stands in for psmax or psprove."""
        path = self.file(name, f"#!/bin/sh\n{script}\n")
        path.chmod(0o755)
        return str(path)

    def stand_in(self, **story: object) -> str:
        """A program that stands in for psprove: stand_in.py says what it does."""
        path = self.file("story", marshal.dumps(story))
        return self.program("stand-in", f'exec {sys.executable} -ES {compiled(STAND_IN)} {path} "$@"')

    def hard(self) -> pathlib.Path:
        """A project that no search here settles in a minute, and of which psprove finds a schedule at once."""
        return self.file("hard.sch", job_shop())

    def refused(self, ran: Ran, status: int, *texts: str, faults: int = 1) -> None:
        """One clear line on standard error for each fault, and nothing else."""
        self.assertEqual(ran.returncode, status, ran.stderr)
        self.assertEqual(ran.stdout, "")
        self.assertEqual(len(ran.stderr.splitlines()), faults, ran.stderr)
        for line in ran.stderr.splitlines():
            self.assertTrue(line.startswith("plan: "), ran.stderr)
        for text in texts:
            self.assertIn(text, ran.stderr)
