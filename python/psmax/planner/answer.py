"""An answer that is handed in, tied to the activities of a project by their names, with what `check` says of it."""
import os
import sys
from dataclasses import dataclass, replace
from math import ceil

from ..dates import read_moment
from ..errors import BadInput
from ..letters import at_most, printable, short
from ..project import Numbers, least_end
from ..psmax import Psmax
from .answer_text import AnswerText, Begin, read_answer
from .project_file import ProjectFile
from .wording import Words


@dataclass(frozen=True)
class JudgedStarts:
    """Starts of every activity, and what psmax says of them."""

    project: Numbers
    starts: tuple[int, ...]
    said: str  # the first line of the answer that was handed in, if it had one
    value: int | None  # what is minimized, by `check`, where the starts are a feasible schedule
    violations: tuple[str, ...]  # in words

    def verdict(self) -> str:
        return "not feasible" if self.value is None else f"feasible {self.project.goal.words(self.value)}"

    def title(self, verdict: str | None = None) -> str:
        return f"check: {verdict or self.verdict()}" + (f"   (the answer says: {self.said})" if self.said else "")


@dataclass(frozen=True)
class Tied:
    """Starts by the numbers of the project's activities, and what has none or is no activity of the project."""

    starts: dict[int, int]
    new: list[int]
    gone: dict[int, str]  # by their numbers in the answer, what they are called
    pairs: dict[int, int]  # the project's number of each activity of the answer that it has


def judge_answer(opened: ProjectFile, given: AnswerText, psmax: Psmax) -> JudgedStarts:
    """The starts of this answer, judged by psmax. What is no project, or has no start for an activity, is told."""
    given = counted(opened, given.must_have_starts())
    project, tied, words = opened.project, tie(opened, given), Words(opened)
    faults = [f"no start for activity {words.names.activity(number)}" for number in tied.new]
    faults += [f"{name} is no activity of {opened.path}" for name in tied.gone.values()]
    if faults:
        raise BadInput(*(f"{given.called}: {fault}" for fault in at_most(faults)))
    starts = tuple(tied.starts[activity] for activity in range(project.end + 1))
    found = psmax.check(project, starts)
    violations = tuple(words.violation(one, starts) for one in found.violations)
    return JudgedStarts(project, starts, given.said, found.value, violations)


def feasible(opened: ProjectFile, given: AnswerText, psmax: Psmax) -> JudgedStarts:
    """The same where psmax finds it feasible; whatever else is told as a fault."""
    known = judge_answer(opened, given, psmax)
    if known.value is None:
        raise BadInput(*(f"{given.called}: not a schedule: {told}" for told in at_most([*known.violations])))
    return known


def counted(opened: ProjectFile, given: AnswerText) -> AnswerText:
    """The same in today's periods, where the answer counts others. Rows that don't say what they count count what a
    bare number of the table does."""
    unit, scale = opened.names.unit, opened.table.scale if opened.table is not None else None
    said = given.period
    if scale is not None and given.is_table and not said:
        said = scale.counts()
    if said in ("", unit) or not unit or all(begin.period is None for begin in given.starts.values()):
        return given
    try:
        ratio = scale.ratio(said) if scale is not None else None
    except ValueError:
        ratio = None
    if ratio is None:
        raise BadInput(f"{given.called}: its starts count {short(said)}, and a period of {opened.path} is one of "
                       f"{unit}; write dates, or name what they count in a column 'period'")
    starts = {}
    for number, begin in given.starts.items():
        found = None if begin.period is None else begin.period * ratio
        if found is not None and found.denominator != 1:
            raise BadInput(f"{begin.place or given.called}: {begin.period} {short(said)} are no whole number of {unit}")
        starts[number] = replace(begin, period=None if found is None else int(found))
    takes = {number: ceil(length * ratio) for number, length in given.takes.items()}
    return replace(given, starts=starts, takes=takes)


def tie(opened: ProjectFile, given: AnswerText) -> Tied:
    """Finds the activities of an answer by their names; by their numbers where the answer or the project has none. The
    end starts when the others let it, but where starts without names say more."""
    project = opened.project
    inner = range(1, project.end)
    if given.names and opened.names.activities:
        pairs = same_names(given.names, {number: opened.names.activities.get(number, "") for number in inner})
        gone = {number: f"{number} ({name})" if name else f"activity {number}"
                for number, name in given.names.items() if number not in pairs}
    else:
        by_number(opened, given)
        pairs = {number: number for number in inner}
        known = inner if given.is_table else range(project.end + 1)
        gone = {number: f"activity {number}" for number in given.starts if number not in known}
    starts = {0: time(opened, 0, given.starts[0], given) if 0 in given.starts else 0}
    starts |= {pairs[was]: time(opened, pairs[was], begin, given)
               for was, begin in given.starts.items() if was in pairs}
    starts[project.end] = read_end(opened, given, starts)
    return Tied(starts, [number for number in inner if number not in starts], gone, pairs)


def read_end(opened: ProjectFile, given: AnswerText, starts: dict[int, int]) -> int:
    """An answer of psmax says when the end starts, which is later where somebody wants it so."""
    least, said = least_end(opened.project, starts), given.starts.get(opened.project.end)
    by_number_alone = not given.is_table and not (given.names and opened.names.activities)
    is_whole = by_number_alone and opened.table is None and said is not None
    return said.period if is_whole and said is not None and said.period is not None else least


def by_number(opened: ProjectFile, given: AnswerText) -> None:
    """An answer without names has a start for each activity, and is no older than the project."""
    numbers = range(1, opened.project.end) if given.is_table else range(opened.project.end + 1)
    is_whole = sorted(given.starts) == [*range(numbers.start, numbers.start + len(given.starts))]
    if is_whole and len(given.starts) != len(numbers):
        raise BadInput(f"{given.called}: starts of {len(given.starts)} activities, and {opened.path} has {len(numbers)}"
                       f"{'' if given.is_table else ' with its start and end'}; without names nobody can say which "
                       "they are")
    if opened.table is not None and os.path.isfile(given.called):
        if os.stat(given.called).st_mtime < os.stat(opened.path).st_mtime:
            text = f"{given.called} has no names and is older than {opened.path}: its activities are taken by their"
            print(f"plan: {printable(text)} numbers", file=sys.stderr)


def time(opened: ProjectFile, activity: int, begin: Begin, given: AnswerText) -> int:
    """When an activity starts, where the number of its period and its date say the same."""
    if not begin.date:
        return begin.period or 0
    if opened.calendar is None:
        raise BadInput(f"{begin.place}: '{short(begin.date)}' is a date, and nothing says when the project begins; "
                       "--from does")
    try:
        moment = read_moment(begin.date, opened.settings.dates)
    except ValueError as fault:
        raise BadInput(f"{begin.place}: '{short(begin.date)}': {fault}") from None
    times = [begin.period] if begin.period is not None else [opened.calendar.from_on(moment.at),
                                                             opened.calendar.by(moment.next())]
    for place in times:
        said = opened.span(activity, place)[0]
        if said == moment.at or (moment.is_day and said.date() == moment.at.date()):
            return place
    if begin.period is None:
        raise BadInput(f"{begin.place}: no period of work begins at {short(begin.date)}")
    raise BadInput(f"{begin.place}: {begin.period} is {opened.times(activity, begin.period)[0]}, and its date says "
                   f"{short(begin.date)}; correct one of them, or leave one out")


def same_names(was: dict[int, str], now: dict[int, str]) -> dict[int, int]:
    """Which activity each one is now. One whose name several have is known only where all of them stand as they
    stood."""
    pairs: dict[int, int] = {}
    there = places_by_name(now)
    for name, numbers in places_by_name(was).items():
        found = there.get(name, [])
        if found == numbers or len(found) == len(numbers) == 1:
            pairs.update(zip(numbers, found))
    return pairs


def places_by_name(names: dict[int, str]) -> dict[str, list[int]]:
    found: dict[str, list[int]] = {}
    for number, name in sorted(names.items()):
        found.setdefault(name, []).append(number)
    return found


def read_baseline(opened: ProjectFile, path: str | None) -> dict[int, tuple[int, int]]:
    """When each activity that an earlier plan has too, whose bars a chart shows below, began and ended: after as long
    as that answer says, or else as it takes today."""
    if path is None:
        return {}
    given = counted(opened, read_answer(path).must_have_starts())
    tied, takes = tie(opened, given), opened.project.durations
    return {now: (tied.starts[now], tied.starts[now] + given.takes.get(was, takes[now]))
            for was, now in tied.pairs.items() if was in given.starts}
