"""How the benches run programs and print tables."""
import operator
import pathlib
import subprocess
import sys
import tempfile
from collections.abc import Mapping, Sequence
from typing import NamedTuple

TOP = pathlib.Path(__file__).resolve().parent.parent
RUNS = 5
# A child counts its parent's memory as its own until it starts the program, so a small parent does it.
STARTER = """
import os, sys, time
begun = time.perf_counter()
child = os.posix_spawn(sys.argv[1], sys.argv[1:], os.environ)
_, status, used = os.wait4(child, 0)
clock = time.perf_counter() - begun
print(os.waitstatus_to_exitcode(status), used.ru_utime + used.ru_stime, clock, used.ru_maxrss / 1024, file=sys.stderr)
"""


class Ran(NamedTuple):
    """The exit status and output of a run, its seconds of a processor and of a clock, and its peak memory in MiB."""
    status: int
    out: str
    processor: float
    clock: float
    memory: float


def path(word: str) -> str:
    return str(pathlib.Path(word).resolve())


def run(words: Sequence[object], given: bytes = b"", folder: object = None,
        env: Mapping[str, str] | None = None) -> Ran:
    with tempfile.TemporaryFile() as source:
        source.write(given)
        source.seek(0)
        told = subprocess.run([sys.executable, "-I", "-S", "-c", STARTER, *map(str, words)], stdin=source, text=True,
                              capture_output=True, cwd=None if folder is None else str(folder), env=env, check=True)
    status, *numbers = told.stderr.splitlines()[-1].split()
    return Ran(int(status), told.stdout, *map(float, numbers))


def best(programs: Sequence[str], words: Sequence[str], given: bytes, by: str = "processor",
         files: Mapping[str, bytes] = {}) -> list[Ran]:
    """For each program the run of least seconds. The programs run in turn, in a folder with these files."""
    with tempfile.TemporaryDirectory() as folder:
        for name, content in files.items():
            pathlib.Path(folder, name).write_bytes(content)
        rounds = [[run([program, *words], given, folder) for program in programs] for _ in range(RUNS)]
    return [min(runs, key=operator.attrgetter(by)) for runs in zip(*rounds)]


def row(*cells: object) -> None:
    print("| " + " | ".join(map(str, cells)) + " |", flush=True)


def heads(*cells: object) -> None:
    row(*cells)
    print("|" + "---|" * len(cells), flush=True)
