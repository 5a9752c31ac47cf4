"""What has started of a project: it stays at its real start, and the rest starts from the status date on."""
from collections.abc import Collection, Mapping, Sequence
from dataclasses import dataclass, field, replace
from typing import TypeVar

from .planner.window import stretches
from .project import Arc, Numbers
from .psmax import Breach

Key = TypeVar("Key")


@dataclass
class Standing:
    now: int | None  # the status date
    started: dict[int, int] = field(default_factory=dict)  # the real start of each activity that has one

    def waiting(self, durations: Sequence[int]) -> list[int]:
        """What takes no time and was not reached by the status date. There it stands at that day, and not at the end of
        the work before it, which is over."""
        return [i for i, length in enumerate(durations, 1) if self.now and not length and i not in self.started]

    def arcs(self, count: int) -> list[Arc]:
        """By which what has started stays, and the rest of so many activities starts from now on."""
        fixed = [arc for i, start in self.started.items() for arc in (Arc(0, i, start), Arc(i, 0, -start))]
        return fixed + [Arc(0, i, self.now) for i in range(1, count + 1) if self.now and i not in self.started]


def started_by(starts: Mapping[Key, int], now: int) -> dict[Key, int]:
    """Those of a plan that are before a time."""
    return {one: start for one, start in starts.items() if start < now}


def alone(project: Numbers, started: Collection[int]) -> Numbers:
    """The project in which nothing else takes time."""
    return replace(project, durations=tuple(length if i in started else 0
                                            for i, length in enumerate(project.durations)))


def broken_alone(project: Numbers, started: Mapping[int, int]) -> list[Breach]:
    """The lags and the resources that what has started breaks by itself, whatever comes after: nobody can plan it
    again."""
    starts = [started.get(i, 0) for i in range(project.end + 1)]
    found = [Breach("lag", arc) for arc in project.rules()
             if {arc.tail, arc.head} <= {0, *started} and starts[arc.head] < starts[arc.tail] + arc.lag]
    for resource, units in enumerate(project.capacities):
        over = next(((time, one.units) for one in stretches(alone(project, started), starts, resource)
                     for time in range(one.begins, one.ends) if one.units > units - project.away(resource, time)), None)
        found += [] if over is None else [Breach("overload", (over[0], resource, over[1]))]
    return found
