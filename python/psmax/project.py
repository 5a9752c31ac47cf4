"""A project as numbers: activities and resources, what of these is away when, and what is minimized."""
import math
from collections import deque
from collections.abc import Callable, Collection, Iterable, Mapping, Sequence
from dataclasses import dataclass, field, replace
from enum import Enum, StrEnum
from itertools import combinations
from typing import TYPE_CHECKING, NamedTuple

if TYPE_CHECKING:
    from .dated import DatedLag

MOST_ACTIVITIES = 1_000
MOST_RESOURCES = 32
MOST_ARCS = 100_000
MOST_UNITS = 1_000_000  # of a duration, a demand, a capacity, and of a lag either way


class Arc(NamedTuple):
    """The head starts at least `lag` after the tail starts; a negative lag is a maximum lag the other way round."""

    tail: int
    head: int
    lag: int


class Away(NamedTuple):
    """Units of a resource that are away from one time until another; until ever where there is none."""

    resource: int
    begins: int
    ends: int | None
    units: int


class Off(NamedTuple):
    """A time outside the hours of a resource: none of it is there."""

    resource: int
    begins: int
    ends: int


class Goal(StrEnum):
    """What is minimized: when the last activity ends, or how late the latest is behind its due date."""

    MAKESPAN = "makespan"
    LATENESS = "lateness"

    def words(self, value: object) -> str:
        return f"{value}" if self is Goal.MAKESPAN else f"{self.value} {value}"


class Kind(Enum):
    """Of what can be left out of a project: a maximum lag, a resource, or an absence."""

    LAG = 0
    RESOURCE = 1
    ABSENCE = 2


class Part(NamedTuple):
    """One of these, by its place among the arcs, the resources or the absences."""

    kind: Kind
    number: int


@dataclass(frozen=True)
class Numbers:
    """The start of its end is what is minimized: the makespan, or the greatest lateness, which may be below 0."""

    durations: tuple[int, ...]  # of the activities 0, the start, to n + 1, the end
    demands: tuple[tuple[int, ...], ...]
    capacities: tuple[int, ...]
    arcs: tuple[Arc, ...]
    absences: tuple[Away, ...] = ()
    due: Mapping[int, int] = field(default_factory=dict)  # when activities should have ended
    goal: Goal = Goal.MAKESPAN
    dated: tuple["DatedLag", ...] = ()  # what some of the arcs, which every date allows, are on each date
    off: tuple[Off, ...] = ()  # the times outside the hours of resources, up to the horizon
    horizon: int | None = None  # up to which these are known: what needs such a resource has to end by then
    crews: frozenset[int] = frozenset()  # the resources with hours, of which some may have no such time

    @property
    def end(self) -> int:
        return len(self.durations) - 1

    def ends(self, starts: "tuple[int, ...] | list[int]") -> list[int]:
        """When each activity ends, but for the start and the end."""
        return [starts[i] + self.durations[i] for i in range(1, self.end)]

    def plain(self, starts: "tuple[int, ...]") -> "tuple[int, ...]":
        """The starts as psmax has them: the end starts when the last activity ends."""
        return starts if self.goal is Goal.MAKESPAN else (*starts[:-1], max([0, *self.ends(starts)]))

    def goal_arcs(self) -> list[Arc]:
        """The least start of the end that each activity leaves."""
        if self.goal is Goal.LATENESS:
            return [Arc(i, self.end, self.durations[i] - due) for i, due in sorted(self.due.items())]
        return [Arc(0, self.end, 0), *(Arc(i, self.end, self.durations[i]) for i in range(1, self.end))]

    def rules(self) -> list[Arc]:
        """The given arcs, and those that every project has: each activity after the start and before the end."""
        return [*self.arcs, *(Arc(0, i, 0) for i in range(1, self.end)), *self.goal_arcs()]

    def slack(self, arc: Arc, starts: Sequence[int]) -> int:
        """By how much starts keep a lag; below 0 where they do not."""
        dated = next((one for one in self.dated if one.arc == arc), None)
        return starts[arc.head] - starts[arc.tail] - arc.lag if dated is None else dated.slack(starts)

    def users(self, resource: int, starts: Sequence[int], time: int) -> list[int]:
        """The activities that use a resource at a time."""
        return [i for i in range(1, self.end) if self.demands[i][resource]
                and starts[i] <= time < starts[i] + self.durations[i]]

    def away(self, resource: int, time: int) -> int:
        """How many units of a resource are away at a time."""
        return self.capacities[resource] if self.is_off(resource, time) else self.absent(resource, time)

    def is_off(self, resource: int, time: int) -> bool:
        """Whether a time is outside the hours of a resource."""
        return any(one.resource == resource and one.begins <= time < one.ends for one in self.off)

    def absent(self, resource: int, time: int) -> int:
        """The same by absences alone."""
        return sum(one.units for one in self.absences if one.resource == resource and one.begins <= time
                   and (one.ends is None or time < one.ends))

    def all_absences(self) -> tuple[Away, ...]:
        """The absences, and behind them what else is away outside the hours of resources."""
        if not self.off:
            return self.absences
        marks: dict[int, list[int]] = {}
        for one in self.absences:
            marks.setdefault(one.resource, []).extend(time for time in (one.begins, one.ends) if time is not None)
        return (*self.absences, *(part for off in self.off for part in self.left_of(off, marks.get(off.resource, []))))

    def left_of(self, off: Off, marks: Sequence[int]) -> list[Away]:
        """What is away for a time outside of hours, besides absences, which change at these marks."""
        times = [off.begins, *sorted({time for time in marks if off.begins < time < off.ends}), off.ends]
        parts = [Away(off.resource, begins, ends, self.capacities[off.resource] - self.absent(off.resource, begins))
                 for begins, ends in zip(times, times[1:])]
        return [one for one in parts if one.units]

    def beyond(self, starts: Sequence[int]) -> list[int]:
        """What needs a resource with hours, and ends when these are not known any more."""
        if self.horizon is None:
            return []
        return [i for i in range(1, self.end) if starts[i] + self.durations[i] > self.horizon
                and self.durations[i] and any(self.demands[i][k] for k in self.crews)]


def with_order(project: Numbers, old: Mapping[int, int]) -> Numbers:
    """The project in which activities that can't run at once, or that need the same and didn't run at once by old
    starts, keep their order, the nearest first where the format has no room for all."""
    arcs = [Arc(i, j, project.durations[i]) for i, j in combinations(sorted(old, key=old.__getitem__), 2)
            if any(map(min, project.demands[i], project.demands[j]))
            and (old[i] + project.durations[i] <= old[j] or are_rivals(project, i, j))]
    arcs.sort(key=lambda arc: old[arc.head] - old[arc.tail])
    return replace(project, arcs=(*project.arcs, *arcs)[:MOST_ARCS])


def are_rivals(project: Numbers, i: int, j: int) -> bool:
    """Whether both together need more of some resource than there is."""
    return any(a + b > units for a, b, units in zip(project.demands[i], project.demands[j], project.capacities))


def within(project: Numbers, deadline: int) -> Numbers | None:
    """The project whose end starts by the deadline: one arc more, from the end to the start. None where the format
    has no such arc: its lag would be too large, or there are as many arcs already as may be."""
    is_late = deadline < 0 and project.goal is Goal.MAKESPAN
    if is_late or abs(deadline) > MOST_UNITS or len(project.arcs) >= MOST_ARCS:
        return None
    return replace(project, arcs=(*project.arcs, Arc(project.end, 0, -deadline)))


def parts(project: Numbers) -> list[Part]:
    """Each resource, each absence, and each lag that is a greatest one. A lag of 0 after the end of a milestone is a
    least one."""
    lags = [place for place, (tail, head, lag) in enumerate(project.arcs) if tail != head
            and (lag < 0 or lag == 0 and (project.durations[tail] > 0 or tail == project.end))]
    return [*(Part(Kind.RESOURCE, k) for k in range(len(project.capacities))),
            *(Part(Kind.ABSENCE, place) for place in range(len(project.absences))),
            *(Part(Kind.LAG, place) for place in lags)]


def without(project: Numbers, gone: Collection[Part]) -> Numbers:
    """The project with fewer parts: each schedule of it is one of this project too."""
    arcs = tuple(arc for place, arc in enumerate(project.arcs) if Part(Kind.LAG, place) not in gone)
    kept = [k for k in range(len(project.capacities)) if Part(Kind.RESOURCE, k) not in gone]
    demands = tuple(tuple(row[k] for k in kept) for row in project.demands)
    absences = tuple(one._replace(resource=kept.index(one.resource)) for place, one in enumerate(project.absences)
                     if one.resource in kept and Part(Kind.ABSENCE, place) not in gone)
    capacities = tuple(project.capacities[k] for k in kept)
    off = tuple(one._replace(resource=kept.index(one.resource)) for one in project.off if one.resource in kept)
    crews = frozenset(kept.index(k) for k in project.crews if k in kept)
    return replace(with_arcs(project, arcs), demands=demands, capacities=capacities, absences=absences, off=off,
                   crews=crews)


def with_lag(project: Numbers, place: int, lag: int) -> Numbers:
    """The project with another lag for one of its arcs."""
    arcs = [*project.arcs]
    arcs[place] = arcs[place]._replace(lag=lag)
    return with_arcs(project, tuple(arcs))


def with_arcs(project: Numbers, arcs: tuple[Arc, ...]) -> Numbers:
    """The project with other arcs, in which what is no arc any more has no dates either."""
    return replace(project, arcs=arcs, dated=tuple(one for one in project.dated if one.arc in arcs))


def too_needy(project: Numbers) -> list[int]:
    """The activities that need more of some resource than there is."""
    inner = range(1, project.end)
    return [i for i in inner if any(need > units for need, units in zip(project.demands[i], project.capacities))]


def lags_only(project: Numbers, arcs: list[Arc]) -> Numbers:
    """As many activities, without duration or demand, and these arcs alone."""
    count = len(project.durations)
    return Numbers((0,) * count, ((),) * count, (), tuple(arcs))


def least_starts(project: Numbers) -> list[int] | None:
    """The least start of each activity by the lags alone; none where they contradict each other: then the start of the
    project has to be later, or an activity is put later more often than there are activities."""
    leaving = by_tail(project)
    least: list[float] = [0, *[-float("inf")] * project.end]
    turns, waits, moves = deque([0]), [False] * len(least), [0] * len(least)
    while turns:
        tail = turns.popleft()
        waits[tail] = False
        for _, head, lag in leaving[tail]:
            if least[tail] + lag > least[head]:
                least[head] = least[tail] + lag
                if head == 0 or moves[head] > len(least):
                    return None
                if not waits[head]:
                    waits[head], moves[head] = True, moves[head] + 1
                    turns.append(head)
    return [int(start) for start in least]


def latest_starts(project: Numbers) -> list[float]:
    """No activity starts later, by the lags; infinite where none of them says so."""
    rules, latest = project.rules()[::-1], [0.0, *[math.inf] * project.end]
    for _ in latest:
        before = [*latest]
        for tail, head, lag in rules:
            latest[tail] = min(latest[tail], latest[head] - lag)
        if latest == before:
            break
    return latest


def by_tail(project: Numbers) -> list[list[Arc]]:
    """The rules that leave each activity."""
    found: list[list[Arc]] = [[] for _ in project.durations]
    for arc in project.rules():
        found[arc.tail].append(arc)
    return found


def leads(above: Callable[[int], Iterable[int]], first: int, last: int) -> bool:
    """Whether one activity comes before another, by those that are right above each."""
    seen, open_ones = {last}, [last]
    while open_ones and first not in seen:
        new = {*above(open_ones.pop())} - seen
        seen |= new
        open_ones += new
    return first in seen


def least_end(project: Numbers, starts: Mapping[int, int]) -> int:
    """The least start of the end that the starts of the others leave."""
    return max([starts[arc.tail] + arc.lag for arc in project.rules() if arc.head == project.end
                and arc.tail in starts])
