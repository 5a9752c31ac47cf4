"""`plan float`: from when to when each activity may start while the others stay as they are; with --total, when it can
start at the latest in any schedule that is no longer."""
import os
from dataclasses import dataclass

from ..call_files import lose_none, must_be_empty
from ..clock import Clock
from ..errors import BadInput
from ..files import STANDARD_INPUT
from ..psmax import Psmax
from ..psprove import Psprove
from ..total import TotalFloat
from . import drawing
from .answer import JudgedStarts, feasible
from .answer_text import read_answer
from .beginning import Beginning, Start, begin_with
from .gantt import ChartWords
from .project_file import ProjectFile, must_be_ordinary
from .window import Window, windows
from .write import SheetOptions, in_order, schedule_rows

CRITICAL = "critical"
TABLE = "float.csv"  # in the folder of records


@dataclass(frozen=True)
class Total:
    """What the words say of the total float."""

    seconds: float
    jobs: int
    start: Start

    def of(self, opened: ProjectFile, starts: tuple[int, ...]) -> TotalFloat:
        clock = Clock(self.seconds).listen()
        return total_float(begin_with(opened, self.start), starts, Psprove(clock, opened.path), self.jobs)


def float_rows(opened: ProjectFile, answer: JudgedStarts, found: dict[int, Window],
               total: TotalFloat | None) -> list[list[object]]:
    """The rows of `plan write`, each with its free float, and perhaps with its total float."""
    head, *below = schedule_rows(opened, answer.starts)
    dated = opened.calendar is not None
    head += ["earliest", "latest", "free float", *(["earliest day", "latest day"] if dated else [])]
    head += ["latest of all", "total float", CRITICAL, *(["latest day of all"] if dated
                                                         else [])] if total is not None else []
    made = [head]
    for activity, row in zip(in_order(opened, answer.starts), below):
        one = found[activity]
        row += [one.earliest, one.latest, one.float]
        row += [opened.times(activity, start)[0] for start in (one.earliest, one.latest)] if dated else []
        if total is not None:
            latest = total.found[activity]
            row += [latest.least, latest.text(), CRITICAL if latest.is_critical else ""]
            row += [opened.times(activity, latest.least)[0]] if dated else []
        made.append(row)
    return made


def float_text(opened: ProjectFile, answer: JudgedStarts, found: dict[int, Window], total: TotalFloat | None) -> str:
    """The same to be read, a line for each activity."""
    heads = ["start", "earliest", "latest", "free"] if total is None else ["start", "latest", "total", "free"]
    order = sorted(found, key=lambda i: (answer.starts[i], i))
    lines = [heads, *(cells(opened, answer.starts, i, found[i], total) for i in order)]
    widths = [max(map(len, column)) for column in zip(*lines)]
    names = ["", *(opened.names.activities.get(i, "") for i in order)]
    ids = ["", *map(opened.names.label, order)]
    labels = [f"{one:>{max(4, *map(len, ids))}}" for one in ids]
    wide, critical = max(map(len, names)), set() if total is None else total.critical()
    told = []
    for label, name, line, activity in zip(labels, names, lines, [0, *order]):
        columns = "  ".join(f"{cell:>{width}}" for cell, width in zip(line, widths))
        told.append(f"{label} {name:{wide}}  {columns}" + (f"  {CRITICAL}" if activity in critical else ""))
    return "".join(line.rstrip() + "\n" for line in told)


def cells(opened: ProjectFile, starts: tuple[int, ...], activity: int, window: Window,
          total: TotalFloat | None) -> list[str]:
    latest = None if total is None else total.found[activity]
    times = [starts[activity], *((window.earliest, window.latest) if latest is None else (latest.least,))]
    spare = [] if latest is None else [latest.text(opened.length)]
    return [*(opened.times(activity, time)[0] for time in times), *spare, opened.length(window.float)]


def floats(opened: ProjectFile, given: str | None, sheet: SheetOptions, chart: ChartWords, wanted: Total | None) -> int:
    start = wanted.start if wanted is not None else Start(None, None)
    inputs = opened.inputs() | start.inputs() | {"the answer": given or STANDARD_INPUT}
    folder = None if wanted is None else sheet.out
    lose_none(inputs, [sheet.out if wanted is None else None, chart.svg], folder)
    chart.must_fit()
    must_be_empty(folder)
    must_be_ordinary(opened, folder)
    psmax = Psmax(Clock(), opened.path)
    known = feasible(opened, read_answer(given), psmax)
    found = windows(opened.project, known.starts, psmax)
    total = None if wanted is None else wanted.of(opened, known.starts)
    if sheet.out is not None and total is not None:
        os.makedirs(sheet.out, exist_ok=True)
        total.write(sheet.out)
        SheetOptions(os.path.join(sheet.out, TABLE), sheet.excel,
                     sheet.separator).put(float_rows(opened, known, found, total), opened)
    elif sheet.out is not None:
        sheet.put(float_rows(opened, known, found, total), opened)
    if chart.is_wanted:
        critical = total.critical() if total is not None else ()
        chart.show(drawing.make(opened, known.starts, known.title(), (), drawing.Details(found, critical)))
    elif sheet.out is None or total is not None:
        print(float_text(opened, known, found, total), end="")
    return 3 if total is not None and total.open() else 0


def total_float(begun: Beginning, starts: tuple[int, ...], psprove: Psprove, jobs: int) -> TotalFloat:
    """Of a schedule that is handed in, which has to keep what has started."""
    if any(starts[arc.head] < starts[arc.tail] + arc.lag for arc in begun.frozen):
        raise BadInput("the schedule doesn't keep what has started by --start and --frozen")
    found = TotalFloat(begun.project, starts, begun.started, psprove)
    found.run(jobs)
    found.tell()
    return found
