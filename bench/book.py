#!/usr/bin/env python3
"""bench/book.py PROGRAM

Measures the search book with book_events, and prints a table: how many bytes an open node takes, with all that it keeps
alive, which is the peak memory with a million open nodes less that with a thousand, over their difference; and how long
a take and a check-in take with so many nodes open, with how many nodes were opened by a check-in. Each project has 30
equal activities. All children of a node share its list of pairs, so a node takes less where there are many: where seven
activities fit at once, sets of eight are split, which gives 56 children; where four do, sets of five, which gives
20."""
import sys

import measuring
from measuring import row
from projects import Project

FEW, MANY = 1_000, 1_000_000
ROUNDS = 10_000
N = 30


def equal(capacity: int) -> bytes:
    """Activities of two periods, so many of which fit at once."""
    return Project([0] + [2] * N + [0], [[0]] + [[1]] * N + [[0]], [capacity], []).text()


PROJECTS = (
    ("seven fit at once, 56 children a node", equal(7)),
    ("four fit at once, 20 children a node", equal(4)),
)


def measured(program: str, project: bytes, *words: int) -> tuple[list[int], float]:
    """What the program prints, as the list of its numbers, and its peak memory in bytes."""
    ran = measuring.run([program, "bench", *words], project)
    if ran.status != 0:
        sys.exit(f"{program}: exit {ran.status}")
    return [int(word) for word in ran.out.replace(",", "").split() if word.isdigit()], ran.memory * 1024 * 1024


def main(program: str) -> None:
    measuring.heads("Project", "Open nodes", "Taken for it", "Bytes an open node", "Take, ns", "Check-in, ns",
                    "Opened by it")
    for name, project in PROJECTS:
        _, least = measured(program, project, FEW)
        for nodes in (FEW, MANY):
            (opened, _, _, taken, waiting, _), most = measured(program, project, nodes)
            if waiting < nodes:
                row(name, f"{waiting:,}", f"{taken:,}", "the search was over", "", "", "")
                continue
            (*_, rounds, take, check_in, later, _, _, _, _, _), _ = measured(program, project, nodes, ROUNDS)
            each = f"{(most - least) / (waiting - FEW):.0f}" if nodes == MANY else ""
            row(name, f"{waiting:,}", f"{taken:,}", each, take, check_in, f"{(later - opened) / rounds:.1f}")


if __name__ == "__main__":
    main(measuring.path(sys.argv[1]))
