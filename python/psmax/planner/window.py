"""Free float: from when to when an activity may start while the others stay as they are, and what is minimized too."""
from collections.abc import Iterable, Sequence
from dataclasses import dataclass

from ..dated import DatedLag
from ..errors import Failed
from ..project import Numbers
from ..psmax import Psmax


@dataclass(frozen=True)
class Stretch:
    """A time in which the use of a resource does not change."""

    begins: int
    ends: int
    units: int


@dataclass(frozen=True)
class Window:
    """Every start from the earliest to the latest keeps all lags and resources."""

    earliest: int
    latest: int

    @property
    def float(self) -> int:
        return self.latest - self.earliest


def stretches(project: Numbers, starts: Sequence[int], resource: int) -> tuple[Stretch, ...]:
    """The use of one resource, from one start or end to the next, where it is above 0."""
    return steps([(start, start + duration, demands[resource])
                  for start, duration, demands in zip(starts, project.durations, project.demands)])


def away(project: Numbers, resource: int, until: int) -> tuple[Stretch, ...]:
    """The units of a resource that are away, up to a time."""
    return steps([(one.begins, until if one.ends is None else one.ends, one.units)
                  for one in project.absences if one.resource == resource])


def off(project: Numbers, resource: int) -> tuple[Stretch, ...]:
    """The times outside the hours of a resource."""
    return tuple(Stretch(one.begins, one.ends, project.capacities[resource]) for one in project.off
                 if one.resource == resource)


def steps(uses: Iterable[tuple[int, int, int]]) -> tuple[Stretch, ...]:
    """What so many units from one time until another come to."""
    changes: dict[int, int] = {}
    for begins, ends, units in uses:
        if begins < ends and units:
            changes[begins] = changes.get(begins, 0) + units
            changes[ends] = changes.get(ends, 0) - units
    found, units = [], 0
    times = sorted(changes)
    for time, until in zip(times, times[1:]):
        units += changes[time]
        if units:
            found.append(Stretch(time, until, units))
    return tuple(found)


def windows(project: Numbers, starts: tuple[int, ...], psmax: Psmax) -> dict[int, Window]:
    """The window of each activity of a feasible schedule. psmax confirms the first and the last start of each."""
    used = [used_or_away(project, starts, resource) for resource in range(len(project.capacities))]
    found = by_lags(project, starts)
    for activity in range(1, project.end):
        found[activity] = by_resources(project, starts, activity, found[activity], used)
    moves = [(activity, start) for activity, window in found.items()
             for start in {window.earliest, window.latest} - {starts[activity]}]
    for group in group_moves(project, starts, moves):
        moved = {**dict(enumerate(starts)), **group}
        if psmax.check(project, (*moved.values(),)).value is None:
            told = ", ".join(f"activity {activity} at {start}" for activity, start in group.items())
            raise Failed(f"psmax does not confirm that each of these may start so alone: {told}")
    return found


def group_moves(project: Numbers, starts: tuple[int, ...], moves: list[tuple[int, int]]) -> list[dict[int, int]]:
    """Moves of activities, in groups of which one check confirms each move alone: no lag ties two of a group, and no
    two use one resource at the same time, before or behind their moves."""
    tied: list[set[int]] = [{activity} for activity in range(project.end + 1)]
    for tail, head, _ in project.rules():
        tied[tail].add(head)
        tied[head].add(tail)
    found: list[dict[int, int]] = []
    ends: list[list[int]] = []  # of each group, up to when it uses each resource
    for activity, start in sorted(moves, key=lambda move: (min(move[1], starts[move[0]]), move)):
        begins, last = min(start, starts[activity]), max(start, starts[activity]) + project.durations[activity]
        needs = [resource for resource, units in enumerate(project.demands[activity]) if units]
        place = next((place for place, group in enumerate(found) if tied[activity].isdisjoint(group)
                      and all(ends[place][resource] <= begins for resource in needs)), len(found))
        if place == len(found):
            found.append({})
            ends.append([0] * len(project.capacities))
        found[place][activity] = start
        for resource in needs:
            ends[place][resource] = last
    return found


def used_or_away(project: Numbers, starts: Sequence[int], resource: int) -> tuple[Stretch, ...]:
    """The use of a resource, with what is away, also after the last activity."""
    until = max([*starts, *project.ends([*starts])]) + max(project.durations) + 1
    absent = [(one.begins, one.ends, one.units) for one in away(project, resource, until)]
    absent += [(one.begins, one.ends, one.units) for one in off(project, resource)]
    absent += [(project.horizon or 0, until, project.capacities[resource])] if resource in project.crews else []
    return steps([*((one.begins, one.ends, one.units) for one in stretches(project, starts, resource)), *absent])


def by_lags(project: Numbers, starts: tuple[int, ...]) -> dict[int, Window]:
    """The windows that the lags alone leave."""
    last = max([0, *starts, *project.ends(starts)])
    least, most = [0] * len(starts), [last - length for length in project.durations]
    for tail, head, lag in project.rules():
        if tail != head:
            least[head] = max(least[head], starts[tail] + lag)
            most[tail] = min(most[tail], starts[head] - lag)
    for one in project.dated:
        narrow(one, starts, least, most)
    return {activity: Window(least[activity], most[activity]) for activity in range(1, project.end)}


def narrow(one: DatedLag, starts: tuple[int, ...], least: list[int], most: list[int]) -> None:
    """What a lag in calendar days leaves, where the other of its two activities stays."""
    limit, first = one.limit(starts[one.first] + one.base), starts[one.first]
    if one.is_least:
        least[one.last] = max(least[one.last], limit)
        most[one.first] = next(time for time in range(most[one.first], first - 1, -1)
                               if one.limit(time + one.base) <= starts[one.last])
    else:
        most[one.last] = min(most[one.last], limit)
        least[one.first] = next(time for time in range(least[one.first], first + 1)
                                if one.limit(time + one.base) >= starts[one.last])


def by_resources(project: Numbers, starts: tuple[int, ...], activity: int, window: Window,
                 used: Iterable[tuple[Stretch, ...]]) -> Window:
    """What is left of a window where the others leave too little of a resource before or behind."""
    begins, ends = starts[activity], starts[activity] + project.durations[activity]
    earliest, latest = window.earliest, window.latest
    for stretches_of, demand, units in zip(used, project.demands[activity], project.capacities):
        for stretch in stretches_of:
            if begins < ends and demand and stretch.units + demand > units:
                if stretch.ends <= begins:
                    earliest = max(earliest, stretch.ends)
                elif stretch.begins >= ends:
                    latest = min(latest, stretch.begins - (ends - begins))
    return Window(earliest, latest)
