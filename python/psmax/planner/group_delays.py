"""Groups of activities that may not wait for each other: how much later one starts than another one before it."""
from collections import defaultdict
from collections.abc import Iterator, Sequence
from typing import NamedTuple

from ..project import Numbers


class Delay(NamedTuple):
    """The second of two groups starts so many periods later than the first one, for these resources. A group is named
    by the activity of it that starts first."""

    first: int
    second: int
    periods: int
    resources: tuple[int, ...]


class Groups:
    """Two activities are in one group if lags tie them to each other without play, or other ones between them."""

    def __init__(self, project: Numbers) -> None:
        self.project = project
        self.members: dict[int, dict[int, int]] = {}  # by its first activity: each one, and how much later it starts
        self.first: dict[int, int] = {}  # by activity
        ties = self.ties()
        for activity in range(1, len(project.durations) - 1):
            if activity not in self.first:
                self.add(activity, ties)

    def ties(self) -> dict[int, list[tuple[int, int]]]:
        """By activity those whose start it fixes, each with how much later that is."""
        lags: dict[tuple[int, int], int] = {}
        for tail, head, lag in self.project.arcs:
            lags[tail, head] = max(lag, lags.get((tail, head), lag))
        ties, last = defaultdict(list), len(self.project.durations) - 1
        for (tail, head), lag in lags.items():
            if lags.get((head, tail)) == -lag and not {tail, head} & {0, last}:
                ties[tail].append((head, lag))
        return ties

    def add(self, activity: int, ties: dict[int, list[tuple[int, int]]]) -> None:
        """Adds the group of an activity."""
        later, left = {activity: 0}, [activity]
        while left:
            tail = left.pop()
            for head, lag in ties[tail]:
                if head not in later:
                    later[head] = later[tail] + lag
                    left.append(head)
        first = min(later, key=lambda member: (later[member], member))
        self.members[first] = {member: later[member] - later[first] for member in sorted(later)}
        self.first.update(dict.fromkeys(later, first))

    def scarce(self, one: int, other: int) -> Iterator[int]:
        """The resources that are not enough for two activities at once."""
        takes, needs = self.project.durations, self.project.demands
        if takes[one] and takes[other]:
            for resource, units in enumerate(self.project.capacities):
                if needs[one][resource] + needs[other][resource] > units:
                    yield resource

    def excluded(self, first: int, second: int) -> list[tuple[int, int, int]]:
        """How much later than the first group the second one can't start, since both need a resource: more than one
        number and less than another one, with the resource. In rising order."""
        takes = self.project.durations
        return sorted((begin - later - takes[b], begin - later + takes[a], resource)
                      for a, begin in self.members[first].items() for b, later in self.members[second].items()
                      for resource in self.scarce(a, b))

    def delays(self, first: int, second: int) -> list[Delay]:
        """How much later than the first group the second one may start, but not one period sooner; nothing where both
        are single activities."""
        found: list[list[int]] = []  # what is excluded without a gap: more than one number, and less than another one
        excluded = self.excluded(first, second) if len(self.members[first]) + len(self.members[second]) > 2 else []
        for least, most, _ in excluded:
            if found and least < found[-1][1]:
                found[-1][1] = max(most, found[-1][1])
            else:
                found.append([least, most])
        return [Delay(first, second, most, tuple(sorted({each[2] for each in excluded if each[1] == most})))
                for _, most in found]

    def delay(self, first: int, second: int) -> Delay | None:
        """How much later the second group starts at least, where it is not the first one; None if it might also start
        between activities of the other group, or both fit at once."""
        found = self.delays(first, second)
        return found[0] if len(found) == 1 else None

    def holding(self, activity: int, starts: Sequence[int]) -> list[Delay]:
        """The delays by which the group of an activity can't start one period sooner in a schedule."""
        second = self.first[activity]
        others = [first for first in self.members if starts[first] < starts[second]]
        return [delay for first in others for delay in self.delays(first, second)
                if starts[first] + delay.periods == starts[second]]
