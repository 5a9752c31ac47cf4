"""`plan whatif`: what changes give that the planner names; or one unit more of a resource, one absence less, or a
maximum lag loosened or dropped. psprove proves each."""
import datetime
from collections.abc import Sequence

from ..calendars import DAY
from ..call_files import lose_none
from ..clock import Clock
from ..known import Known
from ..project import Goal
from ..psprove import Limits, Psprove
from ..whatif import Change, ChangeKind, Outcome, ask_each
from ..whatif import try_changes as searched
from .csv_text import Text
from .headline import headline
from .project_file import ProjectFile
from .beginning import Start, begin_with
from .scenarios import Scenario
from .solve import end_text
from .wording import Words, are
from .write import SheetOptions

SCENARIO_HEADS = ["change", "status", "ends", "makespan", "bound", "seconds"]
HEADS = ["kind", "change", "status", "makespan", "bound", "shorter", "seconds"]


def row(one: Outcome, base: Known, words: Words) -> list[object]:
    known = one.known
    shorter = base.value - known.value if base.value is not None and known.value is not None else None
    told = ["" if value is None else value for value in (known.value, known.bound, shorter)]
    return [one.change.kind.value, Text(change_text(one.change, words)), known.status(), *told, f"{one.seconds:.2f}"]


def change_text(change: Change, words: Words) -> str:
    project, place = words.project, change.part.number
    if change.kind is ChangeKind.ABSENCE:
        return f"{words.absence(project.absences[place])}: dropped"
    if change.kind is ChangeKind.RESOURCE:
        return f"one more of {words.names.resource(place)}, of which there {are(project.capacities[place])}"
    return f"{words.greatest(project.arcs[place])}: {'one later' if change.kind is ChangeKind.LOOSENED else 'dropped'}"


def whatif(opened: ProjectFile, seconds: float, jobs: int, sheet: SheetOptions) -> int:
    lose_none(opened.inputs(), [sheet.out])
    sheet.must_have(HEADS)
    clock = Clock(seconds).listen()
    project, words = begin_with(opened, Start(None, None)).project, Words(opened)
    base, outcomes = searched(project, Psprove(clock, opened.path), jobs, opened.changeable())
    if sheet.out is not None:
        sheet.put([[*HEADS], *(row(one, base, words) for one in outcomes)], opened)
    else:
        print(*change_lines(base, outcomes, words), sep="\n")
    return 0 if base.settled and all(one.known.settled for one in outcomes) else 3


def asked(opened: ProjectFile, changes: Sequence[str], seconds: float, jobs: int, sheet: SheetOptions) -> int:
    """What changes give that the planner names."""
    lose_none(opened.inputs(), [sheet.out])
    sheet.must_have(SCENARIO_HEADS)
    begin_with(opened, Start(None, None))
    files = [opened, *(Scenario(opened, one).project() for one in changes)]
    clock = Clock(seconds).listen()
    found = ask_each([one.project for one in files], Psprove(clock, opened.path), jobs)
    names = ["as it is", *changes]
    if sheet.out is not None:
        rows = [[Text(name), one.status(), end_text(file, one.starts) or "",
                 *("" if value is None else value for value in
                 (one.value, one.bound)), f"{took:.2f}"] for name, file, (one, took) in zip(names, files, found)]
        sheet.put([[*SCENARIO_HEADS], *rows], opened)
    else:
        before = found[0][0].starts
        told = [headline(file, one)[0] + (describe_shift(opened, before, file, one.starts) if file is not opened
                                          else "")
                for file, (one, _) in zip(files, found)]
        wide = max(map(len, names))
        print(*(f"{name:{wide}}  {line}" for name, line in zip(names, told)), sep="\n")
    return 0 if all(one.settled for one, _ in found) else 3


def tried(opened: ProjectFile, starts: Sequence[int] | None, change: str, seconds: float) -> str:
    """What a change gives beside a plan that is known."""
    file = Scenario(opened, change).project()
    one = Psprove(Clock(seconds), opened.path).ask(file.project, Limits(seconds, is_recorded=False))
    return headline(file, one)[0] + describe_shift(opened, starts, file, one.starts)


def describe_shift(was: ProjectFile, before: Sequence[int] | None, file: ProjectFile,
                   after: Sequence[int] | None) -> str:
    """How much sooner or later the project ends, by the clock, where there are dates."""
    first, last = end_date(was, before), end_date(file, after)
    if first is None or last is None:
        return ""
    days = (first - last) / DAY
    many = f"{abs(days):g} day{'s' * (abs(days) != 1)}" if days == int(days) else f"{abs(24 * days):g} h"
    return f", {many} {'sooner' if days > 0 else 'later'}" if days else ", the same"


def end_date(file: ProjectFile, starts: Sequence[int] | None) -> datetime.datetime | None:
    """When the last activity ends, where there are dates and a schedule."""
    if file.calendar is None or starts is None:
        return None
    last = max([0, *file.project.ends([*starts])])
    return file.calendar.span(last, last)[1]


def change_lines(base: Known, outcomes: list[Outcome], words: Words) -> list[str]:
    """What gives a shorter schedule, then what may, and how many do not."""
    better = [one for one in outcomes if one.known.value is not None
              and (base.value is None or one.known.value < base.value)]
    late = [one for one in outcomes if not one.known.was_asked]
    may = [one for one in outcomes if one not in better and one not in late and not one.known.settled]
    told = [f"As it is: {headline(words.opened, base)[0]}."]
    told += [f"  {headline(words.opened, one.known)[0]}: {change_text(one.change, words)}"
             for one in [*better, *may]]
    others = len(outcomes) - len(better) - len(may) - len(late)
    if others:
        less = "shorter than" if base.goal is Goal.MAKESPAN else "of a lateness below"
        says = "opens a schedule" if base.value is None else f"gives one {less} {base.value}"
        told.append(f"None of {others} other changes {says}, which is proved.")
    return [*told, f"For {len(late)} changes there was no time."] if late else told
