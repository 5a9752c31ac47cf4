#!/usr/bin/env python3
"""bench/networks.py N SEED [--strength S] [--width W] [--loops L] > PROJECT.sch

Writes a project of N activities in the manner of ProGen/max (Schwindt 1998), the same for the same numbers.

An activity takes 1 to 10 periods and needs 1 to 10 units of about half of the 5 resources. One to three arcs lead
from it to some of the next W activities, N / 8 if not said; a minimum lag is half to one and a half of its duration.
For L activities in a hundred, 10 if not said, a maximum lag leads back over a few of these arcs. The earliest
starts of the minimum lags keep it, so that no lags contradict each other.

The resource strength S, from 0 to 1, sets the capacities: with 0 a resource serves the activity alone that needs
the most of it, with 1 it serves all at their earliest starts."""
import random
import sys
from collections.abc import Sequence

import projects
from projects import Arc, Project, earliest

RESOURCES = 5
USED = 0.5
MOST = 10


def least_lags(rng: random.Random, durations: Sequence[int], width: int) -> list[Arc]:
    n = len(durations) - 2
    arcs = []
    for i in range(1, n):
        near = range(i + 1, min(n, i + width) + 1)
        for j in sorted(rng.sample(near, min(rng.randint(1, 3), len(near)))):
            arcs.append((i, j, round(durations[i] * rng.uniform(0.5, 1.5))))
    return arcs


def greatest_lags(rng: random.Random, n: int, arcs: Sequence[Arc], starts: Sequence[int], loops: float) -> list[Arc]:
    after: dict[int, list[int]] = {}
    for i, j, _ in arcs:
        after.setdefault(i, []).append(j)
    back = []
    for first in sorted(rng.sample(range(1, n), round(n * loops / 100))):
        last = first
        for _ in range(rng.randint(1, 3)):
            last = rng.choice(after.get(last, [last]))
        if last != first:
            span = starts[last] - starts[first]
            back.append((last, first, -(span + rng.randint(span // 2, 2 * span + MOST))))
    return back


def peak(durations: Sequence[int], demands: Sequence[Sequence[int]], starts: Sequence[int], resource: int) -> int:
    """The most that activities need of a resource at a time."""
    use = 0
    for time in sorted(set(starts)):
        running = (i for i, start in enumerate(starts) if start <= time < start + durations[i])
        use = max(use, sum(demands[i][resource] for i in running))
    return use


def project(n: int, seed: int, strength: float = 0.25, width: int | None = None, loops: float = 10) -> Project:
    rng = random.Random(f"network {n} {seed} {strength}")
    durations = [0] + [rng.randint(1, 10) for _ in range(n)] + [0]
    demands = [[0] * RESOURCES]
    for _ in range(n):
        demands.append([rng.randint(1, MOST) if rng.random() < USED else 0 for _ in range(RESOURCES)])
    demands.append([0] * RESOURCES)
    arcs = least_lags(rng, durations, width or max(4, n // 8))
    starts = earliest(n + 2, arcs)
    capacities = []
    for k in range(RESOURCES):
        least = max(row[k] for row in demands)
        most = max(least, peak(durations, demands, starts, k))
        capacities.append(least + round(strength * (most - least)))
    return Project(durations, demands, capacities, arcs + greatest_lags(rng, n, arcs, starts, loops))


def main() -> None:
    parser = projects.words(__doc__)
    parser.add_argument("--strength", type=float, default=0.25)
    parser.add_argument("--width", type=int)
    parser.add_argument("--loops", type=float, default=10)
    o = parser.parse_args()
    sys.stdout.buffer.write(project(o.n, o.seed, o.strength, o.width, o.loops).text())


if __name__ == "__main__":
    main()
