"""A project with lags in calendar days is searched exactly: by cases. The search begins with the lags that every date
allows. Where its best schedule breaks a true lag, it goes on in two cases that have all schedules between them. Each is
an ordinary project with a record of its own. The answer is the best of all cases, with the least of their bounds."""
import math
from collections.abc import Callable, Iterator, Sequence
from contextlib import suppress
from dataclasses import dataclass, field, replace
from typing import TYPE_CHECKING

from .dated import DatedLag, broken
from .errors import TimeUp
from .known import Known
from .project import MOST_ARCS, MOST_UNITS, Arc, Numbers, latest_starts, least_starts, with_order, within
from .project_text import ProjectText
from .record_file import RecordFile

if TYPE_CHECKING:
    from .psprove import Limits

PATIENCE = 10_000  # conflicts of a search for a schedule that keeps what the worst of days asks for

Search = Callable[[Numbers, "Limits", tuple[int, ...] | None, Callable[[Known], object]], Known]
Check = Callable[[tuple[int, ...]], int | None]  # what is minimized in starts, where they are feasible


@dataclass
class Case:
    """The schedules that keep these arcs too, up to a ceiling, and what is known of them."""

    arcs: tuple[Arc, ...] = ()
    ceiling: int | None = None
    bound: float = -math.inf  # that the record proves; infinite where there is no schedule
    starts: tuple[int, ...] | None = None  # the best schedule, which may break lags of the project
    is_settled: bool = False
    record: RecordFile | None = None
    split: tuple[int, int] | None = None  # the place of a lag and the time that tell its two cases apart
    cases: list["Case"] = field(default_factory=list)

    def all(self) -> Iterator["Case"]:
        """This one, and all into which it was split, each before its own cases."""
        waiting = [self]
        while waiting:
            case = waiting.pop()
            yield case
            waiting += reversed(case.cases)

    def leaves(self) -> Iterator["Case"]:
        return (case for case in self.all() if not case.cases)

    def join(self) -> None:
        """Forgets cases that prove no more than the one they were split from, for want of time."""
        for case in reversed([*self.all()]):
            if case.cases:
                are_proved = all(one.record is not None for one in case.cases)
                least = min(one.bound for one in case.cases) if are_proved else -math.inf
                if least < case.bound:
                    case.split, case.cases = None, []
                case.bound = max(case.bound, least)


def ordinary(project: Numbers, case: Sequence[Arc], ceiling: int | None) -> Numbers:
    """The ordinary project of a case, which has all of its schedules. Where the case and the ceiling leave few dates, a
    lag is what these allow."""
    plain = replace(project, arcs=(*project.arcs, *case, *by_horizon(project)), dated=())
    limited = plain if ceiling is None else within(plain, ceiling) or plain
    if least_starts(limited) is None:
        return limited
    soonest, latest = soonest_starts(limited, project.dated), latest_starts(limited)
    more = [one.within(soonest[one.first], int(latest[one.first])) for one in project.dated
            if latest[one.first] < math.inf]
    more += [Arc(0, one.last, soonest[one.last]) for one in project.dated if one.is_least]
    return replace(limited, arcs=(*limited.arcs, *more))


def by_horizon(project: Numbers) -> list[Arc]:
    """Arcs by which all ends by a horizon, as some shortest schedule does. Time T is behind all holidays, absences and
    dates: from there on a round R of the calendar, such as a week, is like another. Where an activity starts behind T +
    R, and R after whatever starts before it has ended and holds nothing back any more, it may start R sooner, and so
    may all that does not start before it. In the end no such gap is left."""
    round_of = max((one.calendar.round_or_none() or 0 for one in project.dated), default=0)
    longest = [*project.durations]
    for tail, head, lag in project.arcs:
        longest[tail] = max(longest[tail], lag)
    for one in project.dated:
        longest[one.first] = max(longest[one.first], one.base + one.most())
    quiet = max([longest[0], *(max(one.begins, one.ends or 0) for one in project.all_absences()),
                 *project.due.values(),
                 *(one.quiet() for one in project.dated)])
    horizon = quiet + sum(longest[1:]) + max(project.durations) + (project.end + 1) * (round_of + 1)
    if not round_of or horizon > MOST_UNITS or len(project.arcs) + project.end > MOST_ARCS // 2:
        return []
    return [Arc(i, 0, project.durations[i] - horizon) for i in range(1, project.end)]


def soonest_starts(project: Numbers, dated: Sequence[DatedLag]) -> list[int]:
    """No activity starts sooner, by the arcs and the dates of minimum lags."""
    soonest = [*(least_starts(project) or ())]
    for _ in range(2 * len(soonest)):
        before = [*soonest]
        for one in dated:
            if one.is_least:
                soonest[one.last] = max(soonest[one.last], one.limit(soonest[one.first] + one.base))
        for tail, head, lag in project.rules():
            soonest[head] = max(soonest[head], soonest[tail] + lag) if head else 0
        if soonest == before:
            break
    return soonest


class CaseSearch:
    """Searches by `search`, which knows ordinary projects alone, and has schedules judged by `check`."""

    def __init__(self, project: Numbers, search: Search, check: Check, hear: Callable[[Known], object]) -> None:
        self.project, self.search, self.check, self.hear = project, search, check, hear
        self.value: int | None = None
        self.starts: tuple[int, ...] | None = None
        self.conflicts = 0
        self.root = Case()

    def run(self, left: Callable[[int], "Limits"], start: tuple[int, ...] | None) -> Known:
        """Until all cases are done or a limit stops it. `left` says which limits are left after so many conflicts."""
        if start is not None:
            self.starts, self.value = start, start[-1]
        self.settle(self.root, left(0))
        with suppress(TimeUp):
            if self.value is None and self.root.bound < math.inf:
                self.look_for_one(left(self.conflicts))
            while self.split_least(left):
                pass
        return self.answer()

    def split_least(self, left: Callable[[int], "Limits"]) -> bool:
        """Splits the case with the least bound, if it can hold a better schedule and there is time."""
        case = min(self.root.leaves(), key=lambda one: one.bound)
        place = None if case.starts is None or not case.is_settled else broken(self.project.dated, case.starts)
        if place is None or case.starts is None or case.bound >= self.ceiling() or left(self.conflicts).are_over():
            return False
        lag = self.project.dated[place]
        time = case.starts[lag.first] + lag.base
        case.split = place, time
        case.cases = [Case((*case.arcs, *arcs), bound=case.bound) for arcs in lag.split(time)]
        for one in case.cases:
            self.settle(one, left(self.conflicts))
            self.tell()
        return True

    def ceiling(self) -> float:
        return math.inf if self.value is None else self.value

    def settle(self, case: Case, limits: "Limits") -> None:
        """Searches a case below the best schedule that is known."""
        case.ceiling = None if self.value is None else self.value - 1
        hear = self.hear_root if case is self.root else lambda told: None
        answer = self.search(ordinary(self.project, case.arcs, case.ceiling), limits, None, hear)
        self.conflicts += answer.conflicts
        case.bound = self.bound_of(case, answer)
        case.starts, case.is_settled, case.record = answer.starts, answer.settled, answer.record
        self.take(answer.starts)

    def bound_of(self, case: Case, told: Known) -> float:
        if told.bound is not None:
            return told.bound
        return math.inf if case.ceiling is None else case.ceiling + 1

    def hear_root(self, told: Known) -> None:
        self.root.bound = self.bound_of(self.root, told)
        self.take(told.starts)
        self.tell()

    def take(self, starts: tuple[int, ...] | None) -> None:
        """A schedule of a case, or what it becomes in its own order with the true lags, where that is feasible."""
        if starts is not None and broken(self.project.dated, starts) is not None:
            starts = self.repaired(starts)
        if starts is not None and starts[-1] < self.ceiling():
            self.starts, self.value = starts, starts[-1]

    def repaired(self, starts: tuple[int, ...]) -> tuple[int, ...] | None:
        ordered = with_order(replace(self.project, dated=()), {i: starts[i] for i in range(1, self.project.end)})
        if least_starts(ordered) is None:
            return None
        found = tuple(soonest_starts(ordered, self.project.dated))
        return found if found[-1] < self.ceiling() and self.check(found) is not None else None

    def look_for_one(self, limits: "Limits") -> None:
        """A schedule that keeps what the worst of days asks for keeps each of these lags."""
        worst = {one.arc: one.worst() for one in self.project.dated}
        arcs = tuple(worst.get(arc, arc) for arc in self.project.arcs)
        few = replace(limits, conflicts=min(PATIENCE, PATIENCE if limits.conflicts is None else limits.conflicts))
        if not few.are_over():
            answer = self.search(replace(self.project, arcs=arcs, dated=()), few, None, lambda told: None)
            self.conflicts += answer.conflicts
            self.take(answer.starts)

    def bound(self) -> int | None:
        """The least bound of all cases; none where none of them has a schedule."""
        least = min(self.ceiling(), *(case.bound for case in self.root.leaves()))
        trivial = ProjectText(replace(self.project, dated=())).value(0)
        return None if least == math.inf else int(max(least, trivial))

    def tell(self) -> None:
        self.hear(Known(self.project.goal, self.value, self.bound(), self.starts, found="by cases"))

    def answer(self) -> Known:
        self.root.join()
        return Known(self.project.goal, self.value, self.bound(), self.starts, conflicts=self.conflicts)
