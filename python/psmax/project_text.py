"""A project as a text of psmax's, and back (docs/FORMAT.md). An absence is a fixed activity that nobody sees. The end
of the text starts `offset` after what is minimized, so that neither an absence beyond the last activity nor a negative
lateness changes what is shortest:

    the start of the text's end = offset + the makespan, or offset + the greatest lateness

for each schedule that is no longer than `horizon`. By docs/DECISIONS.md some shortest schedule isn't."""
import re
from collections.abc import Iterator, Sequence
from dataclasses import dataclass
from functools import cached_property

from .errors import BadInput
from .project import MOST_ACTIVITIES, MOST_ARCS, MOST_UNITS, Arc, Goal, Numbers, least_starts

WORD = re.compile(rb"[^ \t\r\n\[\]]+")  # a longest run of bytes that are no blanks


@dataclass(frozen=True)
class Word:
    """A word of a text and the byte at which it begins."""

    text: bytes
    begins: int


@dataclass(frozen=True)
class Place:
    """What stands at a word. The kinds are those of `layout`."""

    kind: str
    row: int | None = None
    activity: int | None = None
    other: int | None = None  # the activity at the other end of an arc
    resource: int | None = None


def words(data: bytes) -> list[Word]:
    return [Word(found.group(), found.start()) for found in WORD.finditer(data)]


def layout(values: Sequence[int]) -> Iterator[Place]:
    """The place of each value, in order. A value is looked at once the place after it is asked for."""
    yield Place("activities")
    yield Place("resources")
    yield Place("zero")
    yield Place("zero")
    n, resources = values[0], values[1]
    word = 4
    for row in range(n + 2):
        yield Place("id", row, row)
        yield Place("mode", row, row)
        yield Place("count", row, row)
        count = values[word + 2]
        for _ in range(count):
            yield Place("successor", row, row)
        for arc in range(count):
            yield Place("lag", row, row, values[word + 3 + arc])
        word += 3 + 2 * count
    for activity in range(n + 2):
        row = n + 2 + activity
        yield Place("id", row, activity)
        yield Place("mode", row, activity)
        yield Place("duration", row, activity)
        for resource in range(resources):
            yield Place("demand", row, activity, resource=resource)
    for resource in range(resources):
        yield Place("capacity", resource=resource)


def parse(data: bytes) -> Numbers:
    """The project of a text that psmax has read; any other text may raise any error."""
    values = [int(word.text) for word in words(data)]
    found: dict[str, list[int]] = {"duration": [], "demand": [], "capacity": []}
    arcs: list[Arc] = []
    for place, value in zip(layout(values), values):
        if place.kind == "lag":
            arcs.append(Arc(place.activity or 0, place.other or 0, value))
        elif place.kind in found:
            found[place.kind].append(value)
    count, resources = values[0] + 2, values[1]
    demands = [tuple(found["demand"][i * resources : (i + 1) * resources]) for i in range(count)]
    return Numbers(tuple(found["duration"]), tuple(demands), tuple(found["capacity"]), tuple(arcs))


class ProjectText:
    def __init__(self, project: Numbers) -> None:
        self.project = project
        self.hidden = project.all_absences()
        self.end = project.end + len(self.hidden)  # of the text: absences stand before it

    @cached_property
    def horizon(self) -> int:
        """A schedule with a gap before which all lags are over can be pushed together there, so a shortest one has
        none."""
        longest = [*self.project.durations]
        for tail, _, lag in self.project.arcs:
            longest[tail] = max(longest[tail], lag)
        longest[0] = max([longest[0], *(one.begins for one in self.hidden)])
        return sum(longest) + sum(one.ends - one.begins for one in self.hidden if one.ends is not None)

    @cached_property
    def absences(self) -> list[tuple[int, int]]:
        """When each begins and ends. What is away for ever is away up to the horizon, and nobody needs it behind
        that."""
        return [(one.begins, one.ends if one.ends is not None else max(one.begins, self.horizon))
                for one in self.hidden]

    @cached_property
    def offset(self) -> int:
        if self.project.goal is Goal.MAKESPAN and not self.hidden:
            return 0
        least = least_starts(self.project)
        if self.project.goal is Goal.LATENESS:
            soonest = least[-1] if least is not None else 0
            return max(self.horizon - soonest, *self.project.due.values())
        last = max(ends for _, ends in self.absences)
        return max(0, last - (least[-1] if least is not None else 0))

    def arcs(self) -> list[Arc]:
        """The arcs of the text, with those that keep absences where they are."""
        project, found = self.project, []
        if not self.hidden and not self.offset:
            return [*project.arcs]
        for tail, head, lag in project.arcs:
            by = (self.offset if head == project.end else 0) - (self.offset if tail == project.end else 0)
            found.append(Arc(self.number(tail), self.number(head), lag + by))
        if self.offset:
            found += [Arc(arc.tail, self.end, arc.lag + self.offset) for arc in project.goal_arcs()]
        for place, (begins, _) in enumerate(self.absences):
            found += [Arc(0, project.end + place, begins), Arc(project.end + place, 0, -begins)]
        for resource in {one.resource for one in self.hidden if one.ends is None}:
            found += [Arc(i, 0, project.durations[i] - self.horizon) for i in range(1, project.end)
                      if project.demands[i][resource] and project.durations[i]]
        return found

    def number(self, activity: int) -> int:
        return self.end if activity == self.project.end else activity

    def shown(self, number: int) -> int:
        """The project's number of an activity of the text that isn't an absence."""
        return self.project.end if number == self.end else number

    @cached_property
    def text(self) -> bytes:
        project, resources = self.project, len(self.project.capacities)
        rows = [[f"{self.end - 1}", f"{resources}", "0", "0"]]
        arcs = self.arcs()
        if self.hidden or self.offset:
            self.must_fit(arcs)
        leaving: list[list[Arc]] = [[] for _ in range(self.end + 1)]
        for arc in arcs:
            leaving[arc.tail].append(arc)
        for activity, own in enumerate(leaving):
            heads, lags = (f"{arc.head}" for arc in own), (f"[{arc.lag}]" for arc in own)
            rows.append([f"{activity}", "1", f"{len(own)}", *heads, *lags])
        for activity, (duration, demands) in enumerate(self.needs()):
            rows.append([f"{activity}", "1", f"{duration}", *map(str, demands)])
        if resources:
            rows.append([*map(str, project.capacities)])
        return "".join("\t".join(row) + "\n" for row in rows).encode()

    def needs(self) -> list[tuple[int, tuple[int, ...]]]:
        """The duration and the demands of each activity of the text."""
        project, resources = self.project, range(len(self.project.capacities))
        hidden = [(ends - begins, tuple(one.units if k == one.resource else 0 for k in resources))
                  for one, (begins, ends) in zip(self.hidden, self.absences)]
        shown = [*zip(project.durations, project.demands)]
        return [*shown[:-1], *hidden, shown[-1]]

    def must_fit(self, arcs: list[Arc]) -> None:
        """The format has its limits, which absences and due dates come nearer to."""
        longest = max([abs(arc.lag) for arc in arcs] + [ends - begins for begins, ends in self.absences])
        if longest > MOST_UNITS:
            raise BadInput(f"with absences and due dates a lag of {longest:,} is needed, and one has at most "
                           f"{MOST_UNITS:,}; choose longer periods, or give an absence a last day")
        if self.end - 1 > MOST_ACTIVITIES or len(arcs) > MOST_ARCS:
            raise BadInput(f"with its absences the project has {self.end - 1:,} activities and {len(arcs):,} lags, and "
                           f"it has at most {MOST_ACTIVITIES:,} and {MOST_ARCS:,}")

    def value(self, end: int) -> int:
        """What is minimized, where the text's end starts then. A makespan is never below 0."""
        return max(0, end - self.offset) if self.project.goal is Goal.MAKESPAN else end - self.offset

    def inward(self, starts: tuple[int, ...]) -> tuple[int, ...]:
        """The starts of the text's activities, from those of the project's."""
        return (*starts[:-1], *(begins for begins, _ in self.absences), starts[-1] + self.offset)

    def has(self, starts: tuple[int, ...]) -> bool:
        """Whether these are starts of the text, in which nothing ends behind its end."""
        return max([0, *self.project.ends(starts)]) <= starts[-1] + self.offset

    def outward(self, starts: tuple[int, ...]) -> tuple[int, ...]:
        return (*starts[: self.project.end], self.value(starts[-1]))
