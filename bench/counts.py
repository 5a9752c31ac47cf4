#!/usr/bin/env python3
"""bench/counts.py PROGRAM [OTHER]

Prints how many instructions and allocations a search makes a take, in one thread, on projects of bench/projects.py and
on the first job shop of Fisher and Thompson: those of all its takes less those of one take, over the takes between.
They are counted by valgrind, and are the same in each run, whatever else the machine does."""
import re
import subprocess
import sys
import tempfile
from collections.abc import Callable, Sequence

import measuring
import projects
import speed

# activities, seed, how many that use a resource fit at once, how many use it, takes
ROWS = ((30, 1, 4, 0.5, 1_000), (45, 1, 4, 0.5, 1_000), (100, 1, 4, 0.5, 1_000), (1000, 0, 4, 0.05, 50),
        (30, 0, 2, 0.5, 1_000), (45, 0, 2, 0.5, 1_000), (100, 9, 2, 0.5, 1_000))


def counted(tool: Sequence[str], pattern: str, program: str, text: bytes, takes: int) -> int:
    """The number that a tool of valgrind tells at the end."""
    words = ["valgrind", *tool, program, "solve", "--nodes", str(takes)]
    with tempfile.TemporaryDirectory() as folder:
        told = subprocess.run(words, input=text, capture_output=True, cwd=folder).stderr.decode()
    found = re.search(pattern, told)
    if found is None:
        sys.exit(f"{' '.join(words)}: {told}")
    return int(found[1].replace(",", ""))


def instructions(program: str, text: bytes, takes: int) -> int:
    return counted(["--tool=callgrind"], r"Collected : ([\d,]+)", program, text, takes)


def allocations(program: str, text: bytes, takes: int) -> int:
    tool = ["--tool=memcheck", "--undef-value-errors=no"]
    return counted(tool, r"total heap usage: ([\d,]+) allocs", program, text, takes)


def a_take(count: Callable[[str, bytes, int], int], program: str, text: bytes, takes: int) -> float:
    return (count(program, text, takes) - count(program, text, 1)) / (takes - 1)


def row(programs: Sequence[str], name: str, text: bytes, takes: int) -> None:
    cells = [name, f"{takes:,}"]
    for program in programs:
        cells.append(f"{a_take(instructions, program, text, takes):,.0f}")
        cells.append(f"{a_take(allocations, program, text, takes):.1f}")
    measuring.row(*cells)


def main(programs: Sequence[str]) -> None:
    others = [head for _ in programs[1:] for head in ("Other: instructions a take", "allocations a take")]
    measuring.heads("Project", "Takes", "Instructions a take", "Allocations a take", *others)
    for n, seed, tight, busy, takes in ROWS:
        name = f"{n:,} activities, {'some' if tight < 3 else 'none'} forced"
        row(programs, name, projects.project(n, seed, 5, tight, busy).text(), takes)
    row(programs, "the job shop of 6 by 6", speed.SMALL_JOB_SHOP.read_bytes(), speed.SMALL_TAKES)


if __name__ == "__main__":
    main([*map(measuring.path, sys.argv[1:])])
