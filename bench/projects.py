#!/usr/bin/env python3
"""bench/projects.py N SEED [--resources K] [--tight T] [--busy P] [--reach R] [--wide] > PROJECT.sch

Writes a project of N activities with minimum and maximum lags, the same for the same numbers.

Each activity has one to three followers among the next eight (--reach), with a minimum lag of its duration or less, and
now and then a maximum lag back, which leaves the earliest starts of the minimum lags feasible, so that no lags
contradict each other. An activity uses a resource with probability P, and then about T of these fit at once. With
--wide the resources have capacities of 12 to 24, an activity uses most of them, each by an eighth to a third of its
capacity, and one in twelve uses more than half of one: few are rivals."""
import argparse
import random
import sys
from collections.abc import Sequence
from typing import NamedTuple

Arc = tuple[int, int, int]


class Project(NamedTuple):
    durations: list[int]
    demands: list[list[int]]
    capacities: list[int]
    arcs: list[Arc]

    def text(self) -> bytes:
        lines: list[Sequence[object]] = [[len(self.durations) - 2, len(self.capacities), 0, 0]]
        followers: dict[int, list[tuple[int, int]]] = {}
        for i, j, lag in self.arcs:
            followers.setdefault(i, []).append((j, lag))
        for i in range(len(self.durations)):
            out = followers.get(i, [])
            lines.append([i, 1, len(out), *(j for j, _ in out), *(f"[{lag}]" for _, lag in out)])
        lines += [[i, 1, duration, *row] for i, (duration, row) in enumerate(zip(self.durations, self.demands))]
        if self.capacities:
            lines.append(self.capacities)
        return "".join(" ".join(map(str, line)) + "\n" for line in lines).encode()


def earliest(count: int, arcs: Sequence[Arc]) -> list[int]:
    """The earliest starts by arcs that lead on."""
    starts = [0] * count
    for i, j, lag in arcs:
        starts[j] = max(starts[j], starts[i] + lag)
    return starts


def project(n: int, seed: int, resources: int = 5, tight: int = 3, busy: float = 0.5, reach: int = 8) -> Project:
    rng = random.Random(1_000_003 * n + seed)
    durations = [0] + [rng.randint(1, 10) for _ in range(n)] + [0]
    capacities = [rng.randint(6, 10) for _ in range(resources)]
    demands = [[0] * resources]
    for _ in range(n):
        demands.append([rng.randint(1, max(1, 2 * c // tight)) if rng.random() < busy else 0 for c in capacities])
    demands.append([0] * resources)
    demands = [[min(d, c) for d, c in zip(row, capacities)] for row in demands]
    arcs = []
    for i in range(1, n):
        last = min(n, i + reach)
        for j in sorted(rng.sample(range(i + 1, last + 1), min(rng.randint(1, 3), last - i))):
            arcs.append((i, j, rng.choice((durations[i], rng.randint(0, durations[i])))))
    starts = earliest(n + 2, arcs)
    for i, j, _ in list(arcs):
        if rng.random() < 0.15:
            arcs.append((j, i, -(starts[j] - starts[i] + rng.randint(2, 15))))
    return Project(durations, demands, capacities, arcs)


def wide(n: int, seed: int, resources: int = 3) -> Project:
    """A project in whose resources few activities are rivals. A follower may be any later activity."""
    made = project(n, seed, 0, reach=n)
    rng = random.Random(1_000_003 * n + 7 * seed + 1)
    capacities = [rng.randint(12, 24) for _ in range(resources)]
    demands = [[0] * resources]
    for _ in range(n):
        row = [rng.randint(c // 8, c // 3) if rng.random() < 0.8 else 0 for c in capacities]
        if rng.random() < 1 / 12:
            place = rng.randrange(resources)
            row[place] = rng.randint(capacities[place] // 2 + 1, capacities[place])
        demands.append(row)
    return made._replace(demands=[*demands, [0] * resources], capacities=capacities)


def job_shop(jobs: int, machines: int, seed: int) -> Project:
    """Jobs that each take 1 to 10 periods on every machine, one machine after the other in an order of their own."""
    rng = random.Random(1_000_003 * jobs + 1_009 * machines + seed)
    durations, demands, arcs = [0], [[0] * machines], []
    for _ in range(jobs):
        order = rng.sample(range(machines), machines)
        for place, machine in enumerate(order):
            if place:
                arcs.append((len(durations) - 1, len(durations), durations[-1]))
            durations.append(rng.randint(1, 10))
            demands.append([int(k == machine) for k in range(machines)])
    return Project(durations + [0], demands + [[0] * machines], [1] * machines, arcs)


def groups(seed: int) -> Project:
    """A small project of three to five jobs, whose operations follow each other with no wait, or little, on two to four
    machines, some of which take two at a time."""
    rng = random.Random(seed)
    capacities = [1 if rng.random() < 0.8 else 2 for _ in range(rng.randint(2, 4))]
    kind, machines = rng.randrange(5), range(len(capacities))
    durations, demands, arcs = [0], [[0] * len(capacities)], list[Arc]()
    jobs = rng.randint(3, 5)
    for _ in range(jobs):
        route = list(machines)
        if kind in (1, 3):
            rng.shuffle(route)
        if kind == 4:
            route = [rng.choice(machines) for _ in range(rng.randint(1, 4))]
        for place, machine in enumerate(route):
            if place:
                lag = max(0, durations[-1] + rng.choice([0, 0, 0, -1, 1, 2]))
                play = 0 if kind in (0, 1) else rng.randint(0, 4)
                i = len(durations)
                arcs += [(i - 1, i, lag), (i, i - 1, -lag - play)]
            durations.append(rng.randint(1, 9))
            demands.append([rng.randint(1, capacities[machine]) if k == machine else 0 for k in machines])
            if rng.random() < 0.2:
                demands[-1][rng.choice(machines)] = 1
        if rng.random() < 0.2:
            arcs.append((0, len(durations) - 1, rng.randint(1, 12)))
        if rng.random() < 0.15:
            arcs.append((len(durations) - 1, 0, -rng.randint(10, 40)))
    return Project([*durations, 0], [*demands, [0] * len(capacities)], capacities, arcs)


def words(page: str | None) -> argparse.ArgumentParser:
    """The words of a script that makes a project of N activities."""
    parser = argparse.ArgumentParser(description=page, formatter_class=argparse.RawDescriptionHelpFormatter)
    parser.add_argument("n", type=int)
    parser.add_argument("seed", type=int)
    return parser


def main() -> None:
    parser = words(__doc__)
    parser.add_argument("--resources", type=int, default=5)
    parser.add_argument("--tight", type=int, default=3)
    parser.add_argument("--busy", type=float, default=0.5)
    parser.add_argument("--reach", type=int, default=8)
    parser.add_argument("--wide", action="store_true")
    o = parser.parse_args()
    made = wide(o.n, o.seed, o.resources) if o.wide else project(o.n, o.seed, o.resources, o.tight, o.busy, o.reach)
    sys.stdout.buffer.write(made.text())


if __name__ == "__main__":
    main()
