"""`plan batch`: a row for each project of some folders, written when it is known, so that a batch which was cut off
goes on where it stood."""
import json
import os
import pathlib
import subprocess
import sys
from collections import Counter
from collections.abc import Sequence
from concurrent.futures import FIRST_COMPLETED, Future, ThreadPoolExecutor, wait
from contextlib import suppress
from dataclasses import dataclass
from types import TracebackType
from typing import Self

from ..call_files import lose_none
from ..clock import Clock, tell
from ..errors import BadInput, Failed
from ..letters import escaped, printable
from ..process import ENDING, GLANCE, RECORD, tied
from .batch_table import FAULT, HEADS, Row, Rows, keep_row, read_batch
from .csv_text import write_sheet
from .project_file import has_activities, is_project
from .published import contradictions, read_published

PATIENCE = 2 * ENDING + RECORD  # seconds that a search may take to end when it is asked to
WIDTH, ROOM = 24, 40  # signs of the bar, and of what is told behind it


class ProgressBar:
    """How far a batch has come: a bar of one line on a terminal, and a line for each project elsewhere."""

    def __init__(self, total: int, clock: Clock) -> None:
        self.total, self.clock, self.done = total, clock, 0
        self.is_shown = total > 0 and sys.stderr.isatty()

    def __enter__(self) -> Self:
        self.show("")
        return self

    def __exit__(self, kind: type[BaseException] | None, fault: BaseException | None,
                 trace: TracebackType | None) -> None:
        if self.is_shown:
            print(file=sys.stderr, flush=True)

    def step(self, text: str) -> None:
        """One more is done, of which this is told."""
        self.done += 1
        if self.is_shown:
            self.show(text)
        else:
            tell(self.clock, text)

    def show(self, text: str) -> None:
        if self.is_shown:
            full = WIDTH * self.done // self.total
            bar = f"[{'#' * full}{'.' * (WIDTH - full)}] {self.done} of {self.total}  {printable(text)[:ROOM]:{ROOM}}"
            print(f"\r{bar}", end="", file=sys.stderr, flush=True)


@dataclass(frozen=True)
class Batch:
    """What the words of the command say."""

    folders: Sequence[str]
    seconds: float
    jobs: int
    part: tuple[int, int]  # the first of these of every so many, counted from 1
    csv: str | None
    out: str | None
    record: str | None
    known: Sequence[str]


@dataclass(frozen=True)
class Task:
    """A project: its file, what its row is called, and what its outputs are."""

    path: pathlib.Path
    row: str
    stem: str


def batch(wanted: Batch) -> int:
    tasks = chosen(wanted)
    reads = {f"the project {task.row}": str(task.path) for task in tasks}
    reads |= {f"the bounds {path}": path for path in wanted.known}
    lose_none(reads, [wanted.csv])
    for folder in filter(None, (wanted.out, wanted.record)):
        if os.path.exists(folder) and not os.path.isdir(folder):
            raise Failed(f"cannot write into {folder}: it is no folder")
        os.makedirs(folder, exist_ok=True)
    lose_none(reads, [wanted.csv, *(path for task in tasks for _, path in outputs(task, wanted))])
    published = read_published(*wanted.known)
    done = read_batch(wanted.csv) if wanted.csv is not None and os.path.exists(wanted.csv) else {}
    left = [task for task in tasks if done.get(task.row, {}).get("status", FAULT) == FAULT]
    clock = Clock(float("inf")).listen()
    if wanted.csv is None:
        print(write_sheet([HEADS]), end="", flush=True)
    rows = {**done, **search_all(wanted, left, clock)}
    own = [rows[task.row] for task in tasks if task.row in rows]
    counts = Counter(row["status"] for row in own)
    tell(clock, f"{len(own)} of {len(tasks)} projects: "
         + ", ".join(f"{count} {status}" for status, count in sorted(counts.items())))
    wrong = [text for row in own for text in contradictions(row, published)]
    for text in wrong:
        tell(clock, text)
    return 3 if clock.stopped else 1 if counts[FAULT] or wrong else 0


def chosen(wanted: Batch) -> list[Task]:
    """The projects of this part, folder after folder, by their names. Where there are several folders, rows and outputs
    have theirs too."""
    tasks: list[Task] = []
    for name in wanted.folders:
        folder = pathlib.Path(name)
        if not folder.is_dir():
            raise Failed(f"cannot read {folder}: it is no folder")
        paths = sorted(path for path in folder.iterdir() if path.is_file() and is_wanted(path))
        if not paths:
            raise BadInput(f"{folder}: no project in it, which is a project text, or a table of activities in CSV")
        stems = Counter(path.stem for path in paths)
        prefix = "" if len(wanted.folders) == 1 else f"{folder.resolve().name}-"
        tasks += [Task(path, escaped(path.name if not prefix else os.path.join(name, path.name)),
                       prefix + (path.stem if stems[path.stem] == 1 else path.name)) for path in paths]
    twice, count = Counter(task.stem for task in tasks).most_common(1)[0]
    if count > 1 and (wanted.out or wanted.record):
        raise BadInput(f"two projects would be written as {twice}; search their folders one by one")
    first, step = wanted.part
    return tasks[first - 1 :: step]


def is_wanted(path: pathlib.Path) -> bool:
    """A project text, or a table of activities of which none was made."""
    if path.suffix.lower() == ".csv":
        return not path.with_suffix(".sch").exists() and has_activities(str(path))
    return path.suffix.lower() == ".sch" or is_project(str(path))


def search_all(wanted: Batch, left: Sequence[Task], clock: Clock) -> Rows:
    """Searches the projects side by side, and puts each row as soon as it is known."""
    found: Rows = {}
    with ThreadPoolExecutor(wanted.jobs) as jobs, ProgressBar(len(left), clock) as bar:
        pending: set[Future[Row | None]] = {jobs.submit(search_row, task, wanted, clock) for task in left}
        while pending:
            done, pending = wait(pending, return_when=FIRST_COMPLETED)
            for row in (one.result() for one in done):
                if row is not None:
                    found[row["project"]] = row
                    keep_row(row, wanted.csv)
                    bar.step(f"{row['project']}: {row['status']} {row['makespan']}{row['fault']}".rstrip())
    return found


def outputs(task: Task, wanted: Batch) -> list[tuple[str, str]]:
    """The files that a search writes, each behind its option."""
    folders = ("--out", wanted.out, ".starts"), ("--record", wanted.record, ".rec")
    return [(option, os.path.join(folder, task.stem + suffix))
            for option, folder, suffix in folders if folder is not None]


def search_row(task: Task, wanted: Batch, clock: Clock) -> Row | None:
    """What one search knows at its end; none where the batch was ended before."""
    named = [word for output in outputs(task, wanted) for word in output]
    if clock.stopped:
        return None
    child = begin_solve([str(task.path), "--json", "--jobs", "1", "--seconds", f"{wanted.seconds:g}", *named])
    out_of_it = wait_for_answer(child, clock)
    if out_of_it is None:
        return None
    row = dict.fromkeys(HEADS, "") | {"project": task.row, "limit": f"{wanted.seconds:g}"}
    if child.returncode not in (0, 3):
        faults = [line.removeprefix("plan: ") for line in out_of_it[1].splitlines() if line.startswith("plan: ")]
        return row | {"status": FAULT, "fault": "; ".join(faults) or f"exit status {child.returncode}"}
    told = json.loads(out_of_it[0])
    heads = "status", "makespan", "ends", "bound", "seconds", "conflicts"
    known = {head: f"{told[head]}" for head in heads if told[head] is not None}
    return row | known | {"activities": f"{len(told['durations'])}", "plan": told["versions"]["plan"],
                          "psprove": told["versions"]["psprove"]}


def begin_solve(words: Sequence[str]) -> subprocess.Popen[bytes]:
    """`plan solve` as a process of its own, which ends with this one. It starts soon without the machine's packages
    (-S)."""
    home = {"PYTHONPATH": str(pathlib.Path(__file__).resolve().parents[2])}
    return subprocess.Popen(tied([sys.executable, "-S", "-m", "psmax.planner", "solve", *words]),
                            stdin=subprocess.DEVNULL,
                            stdout=subprocess.PIPE, stderr=subprocess.PIPE, env={**os.environ, **home},
                            start_new_session=True)


def wait_for_answer(child: subprocess.Popen[bytes], clock: Clock) -> tuple[str, str] | None:
    """What a search prints; none where the batch was ended before, and the search with it."""
    while not clock.stopped:
        with suppress(subprocess.TimeoutExpired):
            out, told = child.communicate(timeout=GLANCE)
            return out.decode(), told.decode("utf-8", "replace")
    child.terminate()
    with suppress(subprocess.TimeoutExpired):
        child.communicate(timeout=PATIENCE)
    child.kill()
    child.communicate()
    return None
