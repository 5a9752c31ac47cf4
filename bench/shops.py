#!/usr/bin/env python3
"""bench/shops.py NAME [--seeds TIMES MACHINES] [--open | --flow] [--wait W] > PROJECT.sch

Writes a job shop, or with `--open` an open shop, as a project: an operation is an activity, a machine a resource of
capacity 1. An open shop has a resource for each job too, and its operations come in any order. With `--flow` all jobs
go through the machines in one order. With `--wait W` an operation starts at most W periods after the one before it in
its job has ended: 0 is no wait at all.

NAME is a shop of bench/shop_data.py: ft06, ft10 and ft20 (Fisher and Thompson 1963), la01 to la20 (Lawrence 1984), ta01
to ta20 (Taillard 1993), his open shops tai4_1 to tai7_10; or JOBSxMACHINES, such as 20x15. Shops of the last three
kinds are made by Taillard's generator from a seed of the times and one of the machines, 1 and 2 if not said. An
operation takes 1 to 99 periods."""
import argparse
import re
import sys
from collections.abc import Sequence
from typing import NamedTuple

import shop_data
from lehmer import Lehmer
from projects import Arc, Project

LONGEST = 99


class Operation(NamedTuple):
    machine: int
    time: int


Shop = list[list[Operation]]  # a row for each job


def generated(jobs: int, machines: int, times: int, order: int) -> Shop:
    """The shop of these sizes by Taillard's generator, from a seed of the times and one of the machines."""
    by_time, by_order = Lehmer(times), Lehmer(order)
    shop = []
    lengths = [[by_time.within(1, LONGEST) for _ in range(machines)] for _ in range(jobs)]
    for row in lengths:
        places = list(range(machines))
        for x in range(machines):
            y = by_order.within(x, machines - 1)
            places[x], places[y] = places[y], places[x]
        shop.append([Operation(*both) for both in zip(places, row)])
    return shop


def named(name: str, seeds: tuple[int, int] = (1, 2)) -> Shop:
    """The shop of a name. The seeds are for those names that are sizes."""
    if name in shop_data.ROWS:
        rows = [[int(word) for word in line.split()] for line in shop_data.ROWS[name].split("\n")[1:]]
        return [[Operation(*both) for both in zip(row[::2], row[1::2])] for row in rows]
    if name in shop_data.SEEDS:
        return generated(*shop_data.SEEDS[name])
    sizes = re.fullmatch(r"(\d+)x(\d+)", name)
    if not sizes:
        sys.exit(f"no shop {name}")
    return generated(int(sizes[1]), int(sizes[2]), *seeds)


def in_one_order(shop: Shop) -> Shop:
    """The flow shop of the same times."""
    return [sorted(row) for row in shop]


def project(shop: Sequence[Sequence[Operation]], is_open: bool = False, wait: int | None = None) -> Project:
    """A shop as a project. Its activities are the operations, job after job."""
    machines = 1 + max(step.machine for row in shop for step in row)
    resources = machines + (len(shop) if is_open else 0)
    durations, demands = [0], [[0] * resources]
    arcs: list[Arc] = []
    for job, row in enumerate(shop):
        for place, step in enumerate(row):
            if place and not is_open:
                arcs += lags(len(durations), durations[-1], wait)
            durations.append(step.time)
            demands.append([int(k == step.machine or k == machines + job) for k in range(resources)])
    return Project([*durations, 0], [*demands, [0] * resources], [1] * resources, arcs)


def lags(operation: int, before: int, wait: int | None) -> list[Arc]:
    """Those between an operation and the one before it, which takes so long."""
    least = (operation - 1, operation, before)
    return [least] if wait is None else [least, (operation, operation - 1, -before - wait)]


def main() -> None:
    parser = argparse.ArgumentParser(description=__doc__, formatter_class=argparse.RawDescriptionHelpFormatter)
    parser.add_argument("name")
    parser.add_argument("--seeds", type=int, nargs=2, default=[1, 2], metavar=("TIMES", "MACHINES"))
    form = parser.add_mutually_exclusive_group()
    form.add_argument("--open", action="store_true")
    form.add_argument("--flow", action="store_true")
    parser.add_argument("--wait", type=int)
    o = parser.parse_args()
    if o.wait is not None and (o.wait < 0 or o.open):
        parser.error("a wait is 0 or more, and an open shop has none")
    shop = named(o.name, (o.seeds[0], o.seeds[1]))
    sys.stdout.buffer.write(project(in_one_order(shop) if o.flow else shop, o.open, o.wait).text())


if __name__ == "__main__":
    main()
