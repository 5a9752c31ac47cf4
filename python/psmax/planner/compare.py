"""`plan compare`: what has moved from one schedule of a project to another."""
import datetime
from collections.abc import Callable
from dataclasses import dataclass

from ..errors import BadInput
from ..letters import short
from ..project import Goal
from .answer import Tied, counted, same_names, tie
from .answer_text import AnswerText, read_answer
from .project_file import ProjectFile


class ComparedPlan:
    """One schedule, by the numbers that its activities have in its answer. Ends follow from the starts: by how long the
    answer says that an activity took, else by how long it takes today. Dates are those of the project before it was
    changed, where it had the same periods."""

    def __init__(self, given: AnswerText, opened: ProjectFile, before: ProjectFile | None = None) -> None:
        self.opened = opened
        self.before = before if before is not None and before.names.unit == opened.names.unit else None
        given = counted(opened, given.must_have_starts())
        tied: Tied = tie(opened, given)
        self.now = {was: now for was, now in tied.pairs.items() if was in given.starts}
        self.starts = {was: tied.starts[now] for was, now in self.now.items()}
        for was, name in tied.gone.items():
            begin = given.starts[was]
            if begin.period is None:
                raise BadInput(f"{begin.place}: {short(name)} is no activity of {opened.path}, so its start has to be "
                               "the number of a period")
            self.starts[was] = begin.period
        names = given.names or {was: opened.names.activities.get(now, "") for was, now in self.now.items()}
        self.names = {was: names.get(was, "") for was in self.starts}
        takes = {was: opened.project.durations[now] for was, now in self.now.items()} | given.takes
        unknown = [name for was, name in tied.gone.items() if was not in takes]
        if unknown:
            raise BadInput(f"{given.called}: {short(unknown[0])} is no activity of {opened.path}, and no column "
                           "'takes' says how long it took")
        self.ends = {was: start + takes[was] for was, start in self.starts.items()}
        due = {was: opened.project.due[now] for was, now in self.now.items() if now in opened.project.due}
        is_whole = opened.table is None and not tied.gone and not tied.new  # of a text that may end behind all of them
        self.makespan = max([0, *self.ends.values(), *([tied.starts[opened.project.end]] if is_whole else [])])
        self.lateness = max([self.ends[was] - due[was] for was in due], default=0)

    @property
    def value(self) -> int:
        return self.makespan if self.opened.project.goal is Goal.MAKESPAN else self.lateness

    def when(self, was: int) -> str:
        """When an activity starts."""
        if self.before is not None:
            return self.before.times(was, self.starts[was])[0]
        if was in self.now:
            return self.opened.times(self.now[was], self.starts[was])[0]
        calendar = self.opened.calendar
        return calendar.times(self.starts[was], self.ends[was])[0] if calendar else self.opened.after(self.starts[was])

    def at(self, was: int) -> datetime.datetime:
        """The same as a date, where there are dates."""
        opened = self.before or self.opened
        return datetime.datetime.min if opened.calendar is None else opened.calendar.begins(self.starts[was])

    def called(self, was: int) -> str:
        return self.names[was] or f"activity {was}"


def compare(opened: ProjectFile, old: str, new: str, why: Callable[[int], int] | None) -> int:
    """Where the new schedule is later it asks why none ends as soon as the old one."""
    before, after = ComparedPlan(read_answer(old), opened), ComparedPlan(read_answer(new), opened)
    print(*differences(before, after), sep="\n")
    return why(before.value) if why is not None and after.value > before.value else 0


def same_activities(was: ComparedPlan, now: ComparedPlan) -> dict[int, int]:
    """Which activity of the new schedule each one of the old is: by name, or by number where one side has no names."""
    if any(was.names.values()) and any(now.names.values()):
        return same_names(was.names, now.names)
    return {i: i for i in was.starts if i in now.starts}


@dataclass(frozen=True)
class Move:
    """What became of an activity: it is later, earlier, new or gone."""

    kind: str
    name: str
    text: str


def moves(was: ComparedPlan, now: ComparedPlan) -> list[Move]:
    """What moved, what is new and what is gone, each in the order of the starts."""
    pairs, found = same_activities(was, now), []
    for i, j in sorted(pairs.items(), key=lambda pair: (now.starts[pair[1]], pair[1])):
        before, after, periods = was.when(i), now.when(j), now.starts[j] - was.starts[i]
        if periods or before != after:
            kind = "later" if periods > 0 or not periods and now.at(j) > was.at(i) else "earlier"
            found.append(Move(kind, now.called(j), f"{before} -> {after}{describe_move(periods, now.opened.length)}"))
    for side, others, kind, says in ((now, pairs.values(), "new", "new, at"), (was, pairs, "gone", "gone, was at")):
        for i in sorted(side.starts.keys() - {*others}, key=lambda i: (side.starts[i], i)):
            found.append(Move(kind, side.called(i), f"{says} {side.when(i)}"))
    return found


def totals(was: ComparedPlan, now: ComparedPlan) -> list[str]:
    """What became of the makespan, and of the lateness where something is due."""
    length = now.opened.length
    told = [f"makespan {describe_change(was.makespan, now.makespan, length)}{describe_ends(was, now)}"]
    return told + ([f"lateness {describe_change(was.lateness, now.lateness, length)}"] if now.opened.project.due
                   else [])


def differences(was: ComparedPlan, now: ComparedPlan) -> list[str]:
    found = moves(was, now)
    wide = max([0, *(len(one.name) for one in found)])
    return [*totals(was, now), *(f"  {one.name:{wide}}  {one.text}" for one in found), as_before(found, now)]


def as_before(found: list[Move], now: ComparedPlan) -> str:
    changed = sum(one.kind != "gone" for one in found)
    return f"{len(now.starts) - changed} of {len(now.starts)} start as before"


def describe_ends(was: ComparedPlan, now: ComparedPlan) -> str:
    """The dates of both ends."""
    calendars = [(side.before or side.opened).calendar for side in (was, now)]
    dates = [calendar.times(side.makespan, side.makespan)[1] for side, calendar in zip((was, now), calendars)
             if calendar is not None]
    return f" ({dates[0]} -> {dates[1]})" if len(dates) == 2 else ""


def describe_change(was: int, now: int, length: Callable[[int], str]) -> str:
    return f"{length(was)} -> {length(now)}{describe_move(now - was, length)}"


def describe_move(periods: int, length: Callable[[int], str]) -> str:
    """How much later, in words; empty where it is the same."""
    return f", {length(abs(periods))} {'later' if periods > 0 else 'earlier'}" if periods else ""
