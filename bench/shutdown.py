#!/usr/bin/env python3
"""bench/shutdown.py N SEED > PROJECT.sch

Writes a project of N activities like the shutdown of a plant, in hours, the same for the same numbers.

A plant has areas, and an area has items: vessels, exchangers, columns, pumps and valves. An area is drained first,
and is tested and started once all its items are closed. Each kind of item has its row of jobs, which crews of nine
trades do: it is opened, cleaned, inspected, perhaps repaired, and closed. Three rules are maximum lags: an item
stands open no longer than its kind allows, a scaffold is struck in time, and an item is closed before its
inspection is too old."""
import random
import sys

import projects
from projects import Project

TRADES = {"operator": 6, "fitter": 9, "cleaner": 5, "inspector": 3, "welder": 4, "rigger": 3, "scaffolder": 5,
          "electrician": 3, "insulator": 3}
TRADES_FOR = 300  # so many activities; more have more of each trade

# Jobs: the least and the most hours, what is needed of each trade, and how often the job is there.
JOBS = {
    "drain": (8, 24, {"operator": 2}, 1),
    "isolate": (2, 4, {"operator": 1}, 1),
    "strip": (2, 8, {"insulator": 1}, 0.5),
    "scaffold": (4, 12, {"scaffolder": 2}, 1),
    "disconnect": (1, 3, {"electrician": 1}, 1),
    "open": (3, 8, {"fitter": 2}, 1),
    "lift": (2, 6, {"fitter": 2, "rigger": 1}, 1),
    "clean": (6, 20, {"cleaner": 2}, 1),
    "rinse": (2, 6, {"cleaner": 1}, 1),
    "inspect": (2, 8, {"inspector": 1}, 1),
    "repair": (8, 30, {"welder": 2}, 0.4),
    "overhaul": (6, 16, {"fitter": 1}, 1),
    "close": (3, 8, {"fitter": 2}, 1),
    "set": (2, 6, {"fitter": 2, "rigger": 1}, 1),
    "connect": (1, 3, {"electrician": 1}, 1),
    "strike": (2, 6, {"scaffolder": 2}, 1),
    "wrap": (2, 8, {"insulator": 1}, 0.5),
    "release": (1, 2, {"operator": 1}, 1),
    "start": (6, 16, {"operator": 3}, 1),
}

# Kinds of items: how common one is, and its jobs.
KINDS = {
    "vessel": (3, "isolate strip scaffold open clean inspect repair close strike wrap release"),
    "exchanger": (4, "isolate strip lift rinse clean inspect repair set wrap release"),
    "column": (1, "isolate scaffold open rinse clean inspect repair close strike release"),
    "pump": (5, "isolate disconnect lift overhaul inspect set connect release"),
    "valve": (6, "isolate open overhaul inspect close release"),
}

# Maximum lags from the start of one job to that of another, in hours besides those of the jobs on the way.
WITHIN = (("open", "close", 60), ("lift", "set", 40), ("inspect", "close", 48), ("inspect", "set", 48),
          ("scaffold", "strike", 120))

ITEMS_OF_AN_AREA = 8


class Plant:
    """The jobs so far, and the arcs between them."""

    def __init__(self, seed: int) -> None:
        self.rng = random.Random(f"plant {seed}")
        self.durations, self.demands = [0], [[0] * len(TRADES)]
        self.arcs: list[projects.Arc] = []

    def job(self, name: str, *before: int) -> int:
        least, most, crew, _ = JOBS[name]
        job = len(self.durations)
        self.durations.append(self.rng.randint(least, most))
        self.demands.append([crew.get(trade, 0) for trade in TRADES])
        self.arcs += [(i, job, self.durations[i]) for i in before]
        return job

    def item(self, drained: int, most: int) -> int:
        """An item of at most so many jobs, in an area that is drained. Gives its last job."""
        _, names = self.rng.choices(list(KINDS.values()), [common for common, _ in KINDS.values()])[0]
        there = [name for name in names.split() if self.rng.random() < JOBS[name][3]][:most]
        jobs: dict[str, int] = {}
        last = drained
        for name in there:
            last = jobs[name] = self.job(name, last)
        for first, then, hours in WITHIN:
            if first in jobs and then in jobs:
                span = sum(self.durations[jobs[first]:jobs[then]])
                self.arcs.append((jobs[then], jobs[first], -(span + hours)))
        return last

    def area(self, most: int) -> None:
        """An area of at most so many jobs."""
        drained = self.job("drain")
        end = len(self.durations) + most - 2
        last: list[int] = []
        while len(last) < ITEMS_OF_AN_AREA and len(self.durations) < end:
            last.append(self.item(drained, end - len(self.durations)))
        self.job("start", *(last or [drained]))


def project(n: int, seed: int) -> Project:
    plant = Plant(seed)
    while len(plant.durations) + 1 < n:
        plant.area(n + 1 - len(plant.durations))
    while len(plant.durations) <= n:
        plant.job("drain")
    more = max(1, n / TRADES_FOR) ** 0.5
    capacities = [round(count * more) for count in TRADES.values()]
    none = [0] * len(TRADES)
    return Project(plant.durations + [0], plant.demands + [none], capacities, plant.arcs)


if __name__ == "__main__":
    given = projects.words(__doc__).parse_args()
    sys.stdout.buffer.write(project(given.n, given.seed).text())
