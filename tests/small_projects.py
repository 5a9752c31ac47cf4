"""Small projects, and how long their shortest schedules are: by trying all orders."""
import itertools
import random
from collections.abc import Sequence

import projects
import verify


def lags(rng: random.Random, durations: Sequence[int]) -> list[projects.Arc]:
    """Least lags that lead on, and now and then a greatest lag, which may contradict them."""
    n = len(durations) - 2
    pairs = list(itertools.combinations(range(1, n + 2), 2))
    arcs = [(i, j, rng.randint(0, durations[i] + 1)) for i, j in pairs if rng.random() < rng.choice([0, 1 / n, 2 / n])]
    arcs += [(j, i, -rng.randint(0, 9)) for i, j in pairs if rng.random() < 0.3 / n]
    if rng.random() < 0.1:
        arcs.append((n + 1, 0, -rng.randint(0, sum(durations))))
    return sorted(arcs)


def small_project(rng: random.Random) -> projects.Project:
    n = rng.choice([2, 3, 4, 5, 6, 6, 7, 7, 7])
    longest = rng.choice([2, 3, 4] if n > 4 else [3, 6, 9])
    durations = [0, *(rng.randint(rng.randrange(2), longest) for _ in range(n)), 0]
    capacities = [rng.choice([1, 2, 3, 4, rng.randint(0, 4)]) for _ in range(rng.randint(1, 3))]
    over = 1 if rng.random() < 0.04 else 0
    demands = [[rng.choice([0, rng.randint(0, c + over), rng.randint(min(1, c), c)]) for c in capacities]
               for _ in range(n)]
    none = [0] * len(capacities)
    return projects.Project(durations, [none, *demands, none], capacities, lags(rng, durations))


def earliest(project: verify.Project, arcs: Sequence[projects.Arc], below: int) -> list[int] | None:
    """The earliest starts by the project's arcs and these, where the end starts below a time."""
    starts = [0] * project.count
    late = [(i, j, lag) for i, j, lag in project.arcs if lag > 0]
    while late and starts[project.end] < below:
        for i, j, lag in late:
            starts[j] = max(starts[j], starts[i] + lag)
        late = [(i, j, lag) for i, j, lag in [*project.arcs, *arcs] if starts[i] + lag > starts[j]]
    return starts if starts[0] == 0 and starts[project.end] < below else None


def fewest(project: verify.Project, resource: int, running: list[int]) -> list[int]:
    """Some of these, of which all ask for more of the resource than there is, and those without any one of them do
    not."""
    for i in tuple(running):
        others = [j for j in running if j != i]
        running = others if project.exceeds(resource, others) else running
    return running


def overload(project: verify.Project, starts: Sequence[int]) -> list[int]:
    """Activities that run at a time and ask for more of a resource than there is; none if there are no such."""
    for time, resource in itertools.product(sorted(set(starts)), range(len(project.capacities))):
        running = [i for i, start in enumerate(starts) if start <= time < start + project.durations[i]]
        if project.exceeds(resource, running):
            return fewest(project, resource, running)
    return []


def shortest_with(project: verify.Project, arcs: list[projects.Arc], below: int) -> int | None:
    """The makespan of a shortest schedule that meets these arcs, if that is below a time. Activities that ask for too
    much do not all run at one time, so that one of them ends before another starts."""
    starts = earliest(project, arcs, below)
    if starts is None:
        return None
    running = overload(project, starts)
    if not running:
        return starts[project.end]
    best = None
    for i, j in itertools.permutations(running, 2):
        found = shortest_with(project, [*arcs, (i, j, project.durations[i])], below)
        best, below = (best, below) if found is None else (found, found)
    return best


def shortest(project: verify.Project) -> int | None:
    """The makespan of a shortest schedule, None if there is none as long as all durations and lags together."""
    return shortest_with(project, [], 1 + sum(project.durations) + sum(max(0, lag) for _, _, lag in project.arcs))
