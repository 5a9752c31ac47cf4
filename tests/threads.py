#!/usr/bin/env python3
"""tests/threads.py PROGRAM [--proofs]

Counts the threads of searches by workers, or with --proofs of those of psprove with several jobs, and refuses them.

- While `solve --workers N` runs, whatever options stand beside that, the process has one thread more than N.
- Where the Kth thread and all after it are refused, the search ends at once with `cannot start a thread`, status 1 and
  empty outputs. The thread that drops the nodes left is not needed.
- Allocations are refused one by one. `cannot start a thread` comes for those of the starts of threads: as many for each
  of N workers as for one, one after another. For every other allocation `out of memory` comes, or the usual answer.
- While `psprove solve --jobs N` runs, whatever options stand beside that, the process has N threads. The search of a
  cube has one, and with `--follow` one more, without which it does not begin.
- Where the Kth thread that psprove starts and all after it are refused, the search ends at once in the same
  way, and the record is not there. The first job needs no new thread.
- Allocations are refused one by one with one job and with two. `cannot start a thread` comes for those of the start of
  the second job's thread alone.

The last line counts the runs."""
import itertools
import os
import pathlib
import re
import subprocess
import time
from collections.abc import Iterator, Sequence

import harness
import judges
import projects
import verify
from calls import STARTS, TWO, TWO_SOLVED, without_reports
from harness import TOP, Ended, Verdicts
from refusing import Refusing, library, one

LONG = TOP / "planner" / "projects" / "vaccine-lots.sch"  # psmax doesn't solve it in minutes
NODES = ["--nodes", "1000000000"]
SECONDS = 20
NO_THREAD = b"psprove: cannot start a thread\n"
THREAD, MEMORY = b"psmax: cannot start a thread\n", b"psmax: out of memory\n"
Tried = Iterator[tuple[str, bool, object]]  # what was tried, whether it went as it has to, and how it went


def long_starts(program: str, folder: pathlib.Path) -> str:
    """A file with a feasible schedule of the long project."""
    _, starts, _ = harness.ended([program, "solve", "--nodes", "3000"], LONG.read_bytes(), SECONDS)
    (folder / "long.starts").write_bytes(starts)
    return "long.starts"


def threads_of(process: subprocess.Popen[bytes]) -> int:
    return len(os.listdir(f"/proc/{process.pid}/task")) if process.poll() is None else 0


def most_threads(process: subprocess.Popen[bytes], wanted: int) -> int:
    """How many threads a process has at most, until it has as many as wanted or time is up."""
    most, end = 0, time.monotonic() + SECONDS
    while most < wanted and process.poll() is None and time.monotonic() < end:
        most = max(most, threads_of(process))
    return most


def numbered(program: str, folder: pathlib.Path) -> Tried:
    start, record, json = ["--start", long_starts(program, folder)], ["--record", "record"], ["--json"]
    beside: list[list[str]] = [[], start, record, json, start + record, start + json, record + json]
    for workers, more in [(1, beside[0]), (64, beside[0]), *((5, more) for more in beside)]:
        words = [program, "solve", *NODES, "--workers", str(workers), *more]
        with open(LONG, "rb") as project:
            ran = subprocess.Popen(words, stdin=project, stdout=subprocess.PIPE, stderr=subprocess.PIPE, cwd=folder)
        most = most_threads(ran, workers + 1)
        time.sleep(0.05)
        later = threads_of(ran)
        ran.kill()
        ran.communicate()
        (folder / "record.part").unlink(missing_ok=True)
        yield f"{workers} workers {more}", most == later == workers + 1, f"{most} and then {later} threads"


def refused(program: str, made: pathlib.Path, folder: pathlib.Path) -> Tried:
    def ended(words: list[str], text: bytes, first: int) -> Ended:
        return Refusing(made, [program, "solve", *words], text, folder).ended({"REFUSE_THREADS": str(first)}, SECONDS)

    for workers, first in [(1, 1), (2, 1), (2, 2), (5, 3)]:
        got = ended([*NODES, "--workers", str(workers)], LONG.read_bytes(), first)
        yield f"{workers} workers, thread {first} refused", got == (1, b"", THREAD), got
    got = ended(["--workers", "1"], TWO, 2)
    yield "only the thread refused that drops nodes", got == (0, TWO_SOLVED, b""), got


def grown(program: str, made: pathlib.Path, folder: pathlib.Path, workers: int) -> str:
    """A letter for each allocation that is refused alone: a thread, memory, the usual answer, or something else. A
    start that is shortest leaves the workers nothing to do, so that the allocations are the same in each run."""
    (folder / "second").write_bytes(STARTS)
    refusing = Refusing(made, [program, "solve", "--start", "second", "--workers", workers], TWO, folder)
    letters: dict[Ended, str] = {(1, b"", THREAD): "T", (1, b"", MEMORY): "M", (0, b"optimal 7\n" + STARTS, b""): "u"}
    runs = (refusing.run(one(allocation)) for allocation in itertools.count(1))
    return "".join(letters.get(ended, "?") for ended, _ in itertools.takewhile(lambda run: run[1], runs))


def told_apart(program: str, made: pathlib.Path, folder: pathlib.Path) -> Tried:
    alone = grown(program, made, folder, 1).count("T")
    for workers in (1, 2, 5):
        ends = grown(program, made, folder, workers)
        well = alone > 0 and re.fullmatch("[Mu]*M[Mu]*T{%d}[Mu]*M[Mu]*" % (workers * alone), ends)
        yield f"allocations of {workers} workers", bool(well), ends


def by_jobs(program: str, folder: pathlib.Path) -> Tried:
    """How many threads psprove has, on a project that takes it a minute."""
    project = folder / "long.sch"
    project.write_bytes(projects.project(60, 1, reach=60).text())
    _, starts, _ = harness.ended([program, "solve", "--conflicts", "100"], project.read_bytes(), SECONDS)
    (folder / "long.starts").write_bytes(starts)
    start, record = ["--start", "long.starts"], ["--record", "record"]
    harness.ended([program, "solve", "--conflicts", "100", "--record", "old"], project.read_bytes(), SECONDS,
                  cwd=folder)
    asked: list[tuple[int, list[str]]] = [
        (1, record), (2, [*start, *record]), (5, ["--json", "--progress", "json"]), (3, ["--resume", "old", *record]),
        (64, [])]
    for jobs, more in asked:
        words = [program, "solve", "--seconds", "1000", "--jobs", str(jobs), *more]
        with open(project, "rb") as text:
            ran = subprocess.Popen(words, stdin=text, stdout=subprocess.PIPE, stderr=subprocess.PIPE, cwd=folder)
        most = most_threads(ran, jobs)
        time.sleep(0.05)
        later = threads_of(ran)
        ran.kill()
        ran.communicate()
        (folder / "record.part").unlink(missing_ok=True)
        yield f"{jobs} jobs {more}", most == later == jobs, f"{most} and then {later} threads"


def of_cubes(program: str, made: pathlib.Path, folder: pathlib.Path) -> Tried:
    """The same of the search of a cube, on the same project. What it follows tells nothing."""
    (folder / "path").write_bytes(b"")
    words = [program, "solve", "--seconds", "1000", "--under", "path", "--project", "long.sch", "--record", "cube.log"]
    for threads, more in [(1, list[str]()), (2, ["--follow"])]:
        ran = subprocess.Popen([*words, *more], stdin=subprocess.PIPE, stdout=subprocess.PIPE, stderr=subprocess.PIPE,
                               cwd=folder)
        most = most_threads(ran, threads)
        time.sleep(0.05)
        later = threads_of(ran)
        ran.kill()
        ran.communicate()
        (folder / "cube.log.part").unlink(missing_ok=True)
        yield f"a cube {more}", most == later == threads, f"{most} and then {later} threads"
    got = Refusing(made, [*words, "--follow"], b"", folder).ended({"REFUSE_THREADS": "1"}, SECONDS)
    yield "a cube, its thread refused", got == (1, b"", NO_THREAD) and not (folder / "cube.log").exists(), got


def is_part_right(folder: pathlib.Path, is_resumed: bool) -> bool:
    """Whether nothing is left of a record, or of one that goes on from an older one what is right so far."""
    part, project = folder / "record.part", verify.Project((folder / "long.sch").read_bytes())
    return not part.exists() or is_resumed and judges.by_script_of_logs(project, part.read_bytes(), True)[0] == 0


def jobs_grown(program: str, made: pathlib.Path, folder: pathlib.Path) -> Tried:
    """Which allocations of psprove are those of a thread: none of one job, and the same ones each time of two."""
    (folder / "second").write_bytes(STARTS)
    ends: dict[Ended, str] = {
        (1, b"", NO_THREAD): "T", (1, b"", b"psprove: out of memory\n"): "M", (0, b"optimal 7\n" + STARTS, b""): "u"}
    for jobs in (1, 2):
        refusing = Refusing(made, [program, "solve", "--start", "second", "--jobs", jobs], TWO, folder)
        runs = (refusing.run(one(allocation)) for allocation in itertools.count(1))
        letters = "".join(ends.get(ended, "?") for ended, _ in itertools.takewhile(lambda run: run[1], runs))
        well = re.fullmatch("[Mu]*M[Mu]*" if jobs == 1 else "[Mu]*M[Mu]*T+[Mu]*", letters)
        yield f"allocations of {jobs} jobs", bool(well), letters


def jobs_refused(program: str, made: pathlib.Path, folder: pathlib.Path) -> Tried:
    """Each thread of psprove's, on a project that takes it a minute."""
    text = (folder / "long.sch").read_bytes()
    start, resume, reports = ["--start", "long.starts"], ["--resume", "old"], ["--json", "--progress"]
    asked: list[tuple[int, int, list[str]]] = [
        (2, 1, start), (4, 1, start), (4, 2, start), (4, 3, start), (64, 63, start),
        (3, 2, []), (3, 1, resume), (3, 2, reports)]
    for jobs, first, more in asked:
        for file in folder.glob("record*"):
            file.unlink()
        words = [program, "solve", "--record", "record", "--jobs", jobs, *more]
        status, out, fault = Refusing(made, words, text, folder).ended({"REFUSE_THREADS": str(first)}, SECONDS)
        is_left = not (folder / "record").exists() and is_part_right(folder, more == resume)
        well = (status, out, without_reports(fault)) == (1, b"", NO_THREAD) and is_left
        yield f"{jobs} jobs {more}, thread {first} refused", well, (status, out, fault)
    for jobs in (1, 4):
        refusing = Refusing(made, [program, "solve", "--jobs", jobs], TWO, folder)
        got = refusing.ended({"REFUSE_THREADS": str(jobs)}, SECONDS)
        yield f"{jobs} jobs, no thread refused", (got[0], got[1][:10], got[2]) == (0, b"optimal 7\n", b""), got


def verdicts(words: Sequence[str]) -> Verdicts:
    parser = harness.Words(__doc__, "program")
    parser.add_argument("--proofs", action="store_true")
    o = parser.parse_args(words)
    with harness.new_folder() as folder:
        made, program = library(folder), o.program
        of_psprove = (by_jobs(program, folder), of_cubes(program, made, folder), jobs_refused(program, made, folder),
                      jobs_grown(program, made, folder))
        of_psmax = numbered(program, folder), refused(program, made, folder), told_apart(program, made, folder)
        for name, well, told in itertools.chain(*(of_psprove if o.proofs else of_psmax)):
            yield name, None if well else str(told)


if __name__ == "__main__":
    harness.run(verdicts)
