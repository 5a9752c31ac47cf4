#!/usr/bin/env python3
"""bench/lots.py STORY LOTS SEED > PROJECT.sch

Writes a project in which LOTS lots go through stages on a few shared machines, each by one of the routes of its STORY.
From the end of a stage to the start of the next a lot has to wait for some time, and may wait a little longer: a
maximum lag. STORY is one of

perishable  doughs and creams that spoil: mixed, proved, baked, cooled, filled and packed
sterile     parts that are washed, sterilized, filled, sealed and sterilized again, and stay sterile for some time
curing      elements that one crane carries from tank to tank, and that must not stay in a bath for too long

The route of a lot and the durations of its stages are drawn by Lehmer's generator (bench/lehmer.py), whose seed the
SHA-256 of "lots", STORY, LOTS and SEED gives: lot by lot, first the route. The same words give the same project."""
import argparse
import sys
from typing import NamedTuple

import lehmer
from projects import Arc, Project


class Stage(NamedTuple):
    """The machine, the least and the most that it takes, and how long a lot has to wait and may wait longer after
    it."""
    machine: str
    least: int
    most: int
    wait: int = 0
    hold: int = 0


Route = list[Stage]
MOVE = Stage("crane", 1, 2)
STORIES: dict[str, list[Route]] = {
    "perishable": [
        [Stage("mixer", 4, 9, 0, 2), Stage("prover", 8, 14, 0, 0), Stage("oven", 6, 12, 2, 2), Stage("packer", 3, 8)],
        [Stage("mixer", 3, 6, 0, 1), Stage("oven", 8, 14, 4, 3), Stage("mixer", 2, 4, 0, 0), Stage("packer", 5, 9)],
        [Stage("oven", 5, 9, 0, 2), Stage("mixer", 4, 8, 0, 0), Stage("prover", 5, 9, 0, 1), Stage("packer", 4, 8)]],
    "sterile": [
        [Stage("washer", 4, 9, 0, 3), Stage("autoclave", 6, 10, 1, 2), Stage("filler", 5, 11, 0, 0),
         Stage("sealer", 3, 7, 0, 2), Stage("autoclave", 4, 7)],
        [Stage("autoclave", 4, 8, 1, 1), Stage("filler", 6, 12, 0, 1), Stage("washer", 2, 5, 0, 2),
         Stage("sealer", 4, 9)],
        [Stage("sealer", 3, 6, 0, 2), Stage("washer", 4, 8, 0, 2), Stage("autoclave", 5, 9, 1, 1),
         Stage("filler", 3, 7)]],
    "curing": [
        [MOVE, Stage("acid", 5, 10, 0, 1), MOVE, Stage("rinse", 2, 4, 0, 1), MOVE, Stage("zinc", 8, 14, 0, 2), MOVE,
         Stage("kiln", 9, 15, 0, 3), MOVE],
        [MOVE, Stage("rinse", 3, 5, 0, 1), MOVE, Stage("zinc", 7, 12, 0, 1), MOVE, Stage("rinse", 2, 4, 0, 1), MOVE,
         Stage("kiln", 6, 10, 0, 2), MOVE]],
}


def project(story: str, lots: int, seed: int) -> Project:
    routes, rng = STORIES[story], lehmer.of_words("lots", story, lots, seed)
    machines = sorted({stage.machine for route in routes for stage in route})
    durations, demands, arcs = [0], [[0] * len(machines)], list[Arc]()
    for _ in range(lots):
        route = routes[rng.within(0, len(routes) - 1)]
        for place, stage in enumerate(route, 1):
            durations.append(rng.within(stage.least, stage.most))
            demands.append([int(machine == stage.machine) for machine in machines])
            i, soonest = len(durations) - 1, durations[-1] + stage.wait
            arcs += [(i, i + 1, soonest), (i + 1, i, -soonest - stage.hold)] if place < len(route) else []
    return Project([*durations, 0], [*demands, [0] * len(machines)], [1] * len(machines), arcs)


def main() -> None:
    parser = argparse.ArgumentParser(description=__doc__, formatter_class=argparse.RawDescriptionHelpFormatter)
    parser.add_argument("story", choices=STORIES)
    parser.add_argument("lots", type=int)
    parser.add_argument("seed", type=int)
    o = parser.parse_args()
    sys.stdout.buffer.write(project(o.story, o.lots, o.seed).text())


if __name__ == "__main__":
    main()
