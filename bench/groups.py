#!/usr/bin/env python3
"""bench/groups.py FAMILY N K [--seed S] > PROJECT.sch

Writes a project whose great lags tie activities into groups. FAMILY is

hoist     N parts go through K tanks in one order. A hoist takes each from the loading place to the first tank, from
          tank to tank and away: one part at a time, in 1 or 2 periods. A part stays 10 to 60 periods in a tank, as long
          as its recipe says and no longer.
busy      The same with a hoist that is busy: it takes 2 to 4 periods, and a part stays 10 to 40 in a tank.
blocking  N jobs go through K machines in one order, with no place between these: a job stays on a machine until the
          next one is free, up to 9 periods. Operations take 10 to 40 periods, so no other job fits in between: the
          machine is used again by the period in which the job leaves it.
dies      N dies are heated in one of K furnaces for 20 to 40 periods, pressed within 2 periods after that, on the one
          press, and then cooled at once in one of two baths.

Flow and job shops without wait are those of bench/shops.py with `--wait 0`."""
import argparse
import sys
from collections.abc import Callable
from typing import NamedTuple

from lehmer import Lehmer, of_words
from projects import Arc, Project


class Step(NamedTuple):
    """An activity of a group: how long it takes, the resource that it uses, and how long it may wait at most."""
    duration: int
    resource: int
    wait: int = 0


Group = list[Step]


def through_tanks(n: int, k: int, draw: Lehmer, move: tuple[int, int], longest: int) -> list[Group]:
    moves = [draw.within(*move) for _ in range(k + 1)]
    groups = []
    for _ in range(n):
        steps = [Step(moves[0], k)]
        for tank in range(k):
            steps += [Step(draw.within(10, longest), tank), Step(moves[tank + 1], k)]
        groups.append(steps)
    return groups


def hoist(n: int, k: int, draw: Lehmer) -> list[Group]:
    return through_tanks(n, k, draw, (1, 2), 60)


def busy(n: int, k: int, draw: Lehmer) -> list[Group]:
    return through_tanks(n, k, draw, (2, 4), 40)


def blocking(n: int, k: int, draw: Lehmer) -> list[Group]:
    return [[step for machine in range(k) for step in (Step(draw.within(10, 40), machine), Step(1, machine, 9))]
            for _ in range(n)]


def dies(n: int, k: int, draw: Lehmer) -> list[Group]:
    return [[Step(draw.within(20, 40), 0), Step(draw.within(3, 8), 1, 2), Step(draw.within(10, 20), 2)]
            for _ in range(n)]


FAMILIES: dict[str, Callable[[int, int, Lehmer], list[Group]]] = {
    "hoist": hoist, "busy": busy, "blocking": blocking, "dies": dies}


def capacities(family: str, k: int) -> list[int]:
    return {"hoist": [1] * (k + 1), "busy": [1] * (k + 1), "blocking": [1] * k, "dies": [k, 1, 2]}[family]


def project(family: str, n: int, k: int, seed: int) -> Project:
    """A project of a family. The steps of a group come one after the other."""
    draw, most = of_words(family, n, k, seed), capacities(family, k)
    durations, demands, arcs = [0], [[0] * len(most)], list[Arc]()
    for group in FAMILIES[family](n, k, draw):
        for place, step in enumerate(group):
            if place:
                i, before = len(durations), group[place - 1].duration
                arcs += [(i - 1, i, before), (i, i - 1, -before - step.wait)]
            durations.append(step.duration)
            demands.append([int(place == step.resource) for place in range(len(most))])
    return Project([*durations, 0], [*demands, [0] * len(most)], most, arcs)


def main() -> None:
    parser = argparse.ArgumentParser(description=__doc__, formatter_class=argparse.RawDescriptionHelpFormatter)
    parser.add_argument("family", choices=FAMILIES)
    parser.add_argument("n", type=int)
    parser.add_argument("k", type=int)
    parser.add_argument("--seed", type=int, default=1)
    o = parser.parse_args()
    sys.stdout.buffer.write(project(o.family, o.n, o.k, o.seed).text())


if __name__ == "__main__":
    main()
