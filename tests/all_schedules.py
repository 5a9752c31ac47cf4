"""All feasible schedules of a small project up to its horizon, and which of them meet an arc.

A set of schedules is a number whose bit K stands for schedule K. Nothing here is shared with a checker: the project is
the one that was drawn, not one that was read."""
import functools
from collections.abc import Iterator, Sequence

import projects

Starts = tuple[int, ...]
FAR = -10**6  # below any walk of a small project
STEPS = 40  # so many starts are tried for each schedule that there may be, before a project is too large


class TooMany(Exception):
    """There are more schedules than wanted, or too many starts are to be tried."""


def horizon_of(project: projects.Project) -> int:
    """By then some feasible schedule ends, if there is any."""
    stretches = list(project.durations)
    for i, _, lag in project.arcs:
        stretches[i] = max(stretches[i], lag)
    return sum(stretches)


def walks(project: projects.Project, horizon: int) -> list[list[int]] | None:
    """The greatest weights of walks, None where a closed one is positive."""
    size = range(len(project.durations))
    end = size[-1]
    rows = [[0 if i == j else FAR for j in size] for i in size]
    implied = [(0, i, 0) for i in size] + [(i, end, project.durations[i]) for i in size[:-1]]
    for i, j, lag in [*project.arcs, *implied, (end, 0, -horizon)]:
        rows[i][j] = max(rows[i][j], lag)
    for via in size:
        for i in size:
            for j in size:
                rows[i][j] = max(rows[i][j], rows[i][via] + rows[via][j])
    return rows if all(rows[i][i] == 0 for i in size) else None


class Finder:
    """Tries all starts of one activity after another, and keeps what each resource has left in each period."""

    def __init__(self, project: projects.Project, rows: list[list[int]], horizon: int, most: int) -> None:
        self.project, self.rows, self.steps = project, rows, STEPS * most
        self.left = [[capacity] * (horizon + 1) for capacity in project.capacities]

    def take(self, activity: int, start: int, sign: int) -> bool:
        """Takes what an activity asks for, or gives it back. Whether no period is overloaded."""
        well = True
        for left, demand in zip(self.left, self.project.demands[activity]):
            for period in range(start, start + self.project.durations[activity]):
                left[period] -= sign * demand
                well = well and left[period] >= 0
        return well

    def found(self, before: Starts) -> Iterator[Starts]:
        """The feasible schedules that begin with these starts."""
        j = len(before)
        if j == len(self.rows):
            yield before
            return
        first = max(start + self.rows[i][j] for i, start in enumerate(before))
        last = min(start - self.rows[j][i] for i, start in enumerate(before))
        for start in range(first, last + 1):
            self.steps -= 1
            if self.steps < 0:
                raise TooMany
            if self.take(j, start, 1):
                yield from self.found((*before, start))
            self.take(j, start, -1)


class Schedules:
    """All feasible schedules of a project that end by its horizon."""

    def __init__(self, project: projects.Project, most: int) -> None:
        self.project, self.horizon, self.end = project, horizon_of(project), len(project.durations) - 1
        rows, self.starts = walks(project, self.horizon), list[Starts]()
        for starts in Finder(project, rows, self.horizon, most).found((0,)) if rows else ():
            if len(self.starts) == most:
                raise TooMany
            self.starts.append(starts)
        self.all = (1 << len(self.starts)) - 1
        self.meeting = functools.cache(self.found_meeting)
        self.shortest = min((starts[-1] for starts in self.starts), default=None)

    def set_of(self, are_in: Sequence[bool]) -> int:
        return int("0" + "".join("1" if one else "0" for one in reversed(are_in)), 2)

    def found_meeting(self, i: int, j: int, lag: int) -> int:
        """Those in which j starts at least so long after i."""
        return self.set_of([starts[j] - starts[i] >= lag for starts in self.starts])

    def keeping(self, before: int, after: int) -> int:
        """Those in which one activity ends before the other starts."""
        return self.meeting(before, after, self.project.durations[before])

    def shorter(self, makespan: int) -> int:
        return self.meeting(self.end, 0, 1 - makespan)

    def one_of(self, some: int) -> Starts:
        return self.starts[(some & -some).bit_length() - 1]

    def are_feasible(self, starts: Sequence[int]) -> bool:
        """Whether these are a feasible schedule, by the definition; it may end beyond the horizon."""
        lasting = self.project.durations
        if len(starts) != self.end + 1 or starts[0] != 0 or min(starts) < 0:
            return False
        if any(start + lasting[i] > starts[-1] for i, start in enumerate(starts[:-1])):
            return False
        return all(starts[j] - starts[i] >= lag for i, j, lag in self.project.arcs) and not self.overloads(starts)

    def overloads(self, starts: Sequence[int]) -> bool:
        """Whether more is asked for than there is where an activity starts."""
        for time in starts:
            run = [i for i, start in enumerate(starts) if start <= time < start + self.project.durations[i]]
            for k, capacity in enumerate(self.project.capacities):
                if sum(self.project.demands[i][k] for i in run) > capacity:
                    return True
        return False
