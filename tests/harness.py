"""What the scripts here have in common. A script is a function from its words to verdicts, which the harness counts."""
import argparse
import concurrent.futures
import contextlib
import os
import pathlib
import subprocess
import sys
import tempfile
from collections.abc import Callable, Iterable, Iterator, Sequence
from typing import Any, NamedTuple, NoReturn, TypeVar

TOP = pathlib.Path(__file__).resolve().parent.parent
INPUTS = TOP / "tests" / "inputs"
sys.path += [str(TOP), str(TOP / "bench"), str(TOP / "python")]
import projects  # noqa: E402

TIMEOUT = 60  # seconds of a run
MOST = 100  # so many faults are told of a script
Verdict = tuple[str, str | None]  # what was tried, and what is wrong with it, or None
Verdicts = Iterator[Verdict]
Ended = tuple[int | None, bytes, bytes]  # the exit status, the output and the faults of a run
Given = TypeVar("Given")
Result = TypeVar("Result")


class Words(argparse.ArgumentParser):
    """The words of a script: its programs first. Its page of help is what it says of itself."""

    def __init__(self, page: str | None, *programs: str) -> None:
        super().__init__(description=page, formatter_class=argparse.RawDescriptionHelpFormatter)
        for name in programs:
            self.add_argument(name, type=resolved)


def resolved(word: str) -> str:
    return str(pathlib.Path(word).resolve())


class Counts(NamedTuple):
    passed: int
    failed: int

    def __str__(self) -> str:
        return f"{self.passed} passed, {self.failed} failed"


def count(verdicts: Iterable[Verdict]) -> Counts:
    """Tells each fault, and counts."""
    passed = failed = 0
    for name, fault in verdicts:
        passed, failed = passed + (fault is None), failed + (fault is not None)
        if fault is not None and failed <= MOST:
            print(f"FAILED {name}: {fault}", flush=True)
    return Counts(passed, failed)


def run(script: Callable[[Sequence[str]], Verdicts]) -> NoReturn:
    """Runs a script by the words of the command line. The last line is 'N passed, M failed'."""
    counts = count(script(sys.argv[1:]))
    print(counts)
    sys.exit(counts.failed > 0)


def ended(words: Iterable[object], text: bytes = b"", seconds: float = TIMEOUT, **how: Any) -> Ended:
    """How a run ends. Its standard input is the text, if `how` has no other."""
    how = {"stdout": subprocess.PIPE, "stderr": subprocess.PIPE, **({} if "stdin" in how else {"input": text}), **how}
    try:
        ran = subprocess.run([*map(str, words)], timeout=seconds, **how)
    except subprocess.TimeoutExpired:
        return None, b"", b"no answer in %d s" % seconds
    return ran.returncode, ran.stdout or b"", ran.stderr or b""


@contextlib.contextmanager
def new_folder() -> Iterator[pathlib.Path]:
    with tempfile.TemporaryDirectory() as name:
        yield pathlib.Path(name)


def side_by_side(look: Callable[[Given], Result], given: Iterable[Given]) -> Iterator[Result]:
    """What is found of each, in turn, by as many threads as there are processors."""
    with concurrent.futures.ThreadPoolExecutor(os.cpu_count()) as pool:
        yield from pool.map(look, given)


def examples() -> Iterator[tuple[str, bytes]]:
    """The example projects, each with its name."""
    for path in sorted((TOP / "examples").glob("*.sch")):
        yield path.name, path.read_bytes()


def seeded(n: int, seed: int) -> tuple[str, bytes]:
    """A project of so many activities, with its name."""
    return f"{n} activities, seed {seed}", projects.project(n, seed, 3, 2 + 2 * (seed % 2)).text()
