"""Schedules by the serial method (Kelley 1963): one activity after another, each as soon as its minimum lags and the
resources leave it. One may break maximum lags, so it says about how long a project takes, and proves nothing."""
from bisect import bisect_right
from collections.abc import Mapping
from dataclasses import dataclass, field, replace

from .project import MOST_UNITS, Arc, Numbers, least_end, least_starts

PASSES = 40  # of the serial method, until no maximum lag is broken


@dataclass
class Profile:
    """The use of a resource: from each time until the next one so many units."""

    times: list[int] = field(default_factory=lambda: [0])
    units: list[int] = field(default_factory=lambda: [0])

    def copied(self) -> "Profile":
        return Profile([*self.times], [*self.units])

    def add(self, begins: int, ends: int, units: int) -> None:
        for place in range(self.cut(begins), self.cut(ends)):
            self.units[place] += units

    def cut(self, time: int) -> int:
        """The place of a time, at which the use may change from now on."""
        place = bisect_right(self.times, time) - 1
        if self.times[place] < time:
            place += 1
            self.times.insert(place, time)
            self.units.insert(place, self.units[place - 1])
        return place

    def first(self, soonest: int, duration: int, room: int) -> int:
        """The first time from which on so long no more than this is in use. Behind the last time there is no use."""
        start, place = soonest, bisect_right(self.times, soonest) - 1
        while place < len(self.times) and self.times[place] < start + duration:
            if self.units[place] > room:
                start = self.times[place + 1]
            place += 1
        return start


class Serial:
    """The method for one project, from other least starts each time."""

    def __init__(self, project: Numbers, until: int) -> None:
        self.project, self.until = project, until
        self.away = [Profile() for _ in project.capacities]
        for one in project.all_absences():
            ends = max(one.begins, until) if one.ends is None else one.ends
            self.away[one.resource].add(one.begins, ends, one.units)
        self.before: list[list[tuple[int, int]]] = [[] for _ in project.durations]
        for tail, head, lag in project.rules():
            self.before[head].append((tail, lag))

    def starts(self, least: list[int]) -> dict[int, int] | None:
        """Each activity in the order of the least starts; none where one ends behind `until`."""
        use, starts = [one.copied() for one in self.away], {0: 0}
        for _, i in sorted((time, i) for i, time in enumerate(least[: self.project.end]) if i):
            soonest = max([least[i], *(starts[tail] + lag for tail, lag in self.before[i] if tail in starts)])
            starts[i] = place(self.project, use, i, soonest)
            if starts[i] + self.project.durations[i] > self.until:
                return None
        return starts


def serial_end(project: Numbers, until: int) -> int | None:
    """When all has ended; none where that is behind a time, up to which the hours of resources are known."""
    least = least_starts(project)
    if least is None:
        return 0
    starts = Serial(project, until).starts(least)
    return None if starts is None else max([0, *(start + project.durations[i] for i, start in starts.items())])


def near(project: Numbers, old: Mapping[int, int]) -> tuple[int, ...] | None:
    """Starts in the order of old ones, and none sooner: what comes too late for a maximum lag makes the other one of
    that wait, in another pass. Lags and resources are kept, but perhaps not lags in calendar days. None where so many
    passes find nothing."""
    serial, waits = Serial(project, 2 * MOST_UNITS), dict(old)
    for _ in range(PASSES):
        least = least_starts(replace(project, arcs=(*project.arcs, *(Arc(0, i, time) for i, time in waits.items()))))
        starts = None if least is None else serial.starts(least)
        if starts is None:
            return None
        broken = [arc for arc in project.arcs
                  if arc.head != project.end and starts[arc.head] < starts[arc.tail] + arc.lag]
        if not broken:
            return *(starts[i] for i in range(project.end)), least_end(project, starts)
        for arc in broken:
            waits[arc.head] = max(waits.get(arc.head, 0), starts[arc.tail] + arc.lag)
    return None


def place(project: Numbers, use: list[Profile], activity: int, soonest: int) -> int:
    """The first start at which all that it needs is there, which is in use from then on."""
    needs = [(profile, need, units - need) for profile, need, units
             in zip(use, project.demands[activity], project.capacities) if 0 < need <= units]
    start, duration = -1, project.durations[activity]
    while start != soonest:
        start = soonest
        for profile, _, room in needs:
            soonest = profile.first(soonest, duration, room)
    for profile, need, _ in needs:
        profile.add(start, start + duration, need)
    return start
