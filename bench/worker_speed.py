#!/usr/bin/env python3
"""bench/worker_speed.py PROGRAM

Measures a search by workers on projects of bench/projects.py on which it is stopped by --nodes, and prints a table: how
many nodes are taken in a second without workers, by one worker, and by more, and how many times one worker's rate that
is. Times are by the clock, from the first take to the last, the best of five runs: several threads need a machine with
as many idle processors. Takes without workers go depth first, and those of workers to the least bound first, so the
nodes are others, and a worker goes a longer way from one to the next."""
import os
import sys
from collections.abc import Sequence

import measuring
import projects

# activities, takes, how many that use a resource fit at once, how many use it, projects
ROWS = ((30, 20_000, 4, 0.5, 3), (45, 20_000, 4, 0.5, 3), (100, 10_000, 4, 0.5, 3), (30, 20_000, 2, 0.5, 3),
        (100, 5_000, 2, 0.5, 3))
SEEDS = 200


def search(workers: int, takes: int) -> list[str]:
    """The words of a search by so many workers; 0 is a search without."""
    return ["solve", "--nodes", str(takes), *(["--workers", str(workers)] if workers else [])]


def rate(program: str, workers: int, takes: int, text: bytes) -> float | None:
    """Takes a second, or None where the search isn't stopped."""
    whole, first = (measuring.best([program], search(workers, nodes), text, "clock")[0] for nodes in (takes, 1))
    return (takes - 1) / max(whole.clock - first.clock, 1e-6) if whole.status == 3 else None


def rates(program: str, row: tuple[int, int, int, float, int], counts: Sequence[int]) -> list[float]:
    """The rates by each number of workers, of so many projects on which each of these searches is stopped."""
    n, takes, tight, busy, count = row
    found: list[list[float]] = []
    for seed in range(SEEDS):
        text = projects.project(n, seed, 5, tight, busy).text()
        if all(measuring.run([program, *search(workers, takes)], text).status == 3 for workers in (0, 1)):
            each = [rate(program, workers, takes, text) for workers in counts]
            found += [[one for one in each if one is not None]] if None not in each else []
        if len(found) == count:
            break
    return [len(found) / sum(1 / one for one in ones) for ones in zip(*found)]


def main(program: str) -> None:
    counts = [1, 2, 4] if (os.cpu_count() or 1) >= 4 else [1, 2]
    measuring.heads("Activities", "Pairs are forced", "Takes each", "Without",
                    *(f"{w} worker{'s' * (w > 1)}" for w in counts),
                    "Without to 1", *(f"{w} to 1" for w in counts[1:]))
    for row in ROWS:
        n, takes, tight, _, _ = row
        found = rates(program, row, [0, *counts])
        without, one, *more = found or (0, 0)
        cells = [*(f"{each:,.0f}" for each in found), *(f"{each / one:.2f}" for each in (without, *more) if one)]
        measuring.row(n, "yes" if tight < 3 else "no", f"{takes:,}", *(cells or [f"none of {SEEDS} was stopped"]))


if __name__ == "__main__":
    main(measuring.path(sys.argv[1]))
