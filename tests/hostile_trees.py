#!/usr/bin/env python3
"""tests/hostile_trees.py PROGRAM [--bytes N] [--script M] [--keep FOLDER]

Has `PROGRAM verify` judge records of psmax that are made to take long, each of about N bytes (500,000 by default), and
then of four times as many. What each says has to be accepted, and four times the bytes may take at most eight times the
processor seconds. Prints what each took. Both PROGRAM and tests/verify.py judge the same records of M bytes (8,000 by
default). With --keep the records stay in that folder. The last line counts all."""
import functools
import os
from collections.abc import Callable, Iterable, Sequence
from pathlib import Path

import harness
import judges
import projects
import verify
from harness import Verdict, Verdicts

N = 60  # activities of each project
LONG = 1_000  # periods of each activity
TIMES, SLOWER = 4, 8
NOISE = 0.1  # seconds

Lines = Iterable[str]

# All activities are rivals, so the energy of the root is the makespan of any order: each node that is not dead may be
# cut. Half of them end before 1 may start, and the other half starts after 2 ends: the pair (1, 2) changes many walks.
ARCS = sorted([*((i, 1, LONG) for i in range(4, N // 2)), *((2, j, LONG) for j in range(N // 2, N + 1))])
ORDER = [*range(4, N // 2), 3, 1, 2, *range(N // 2, N + 1)]
STARTS = [0, *(LONG * ORDER.index(i) for i in range(1, N + 1)), N * LONG]
PROJECT = projects.Project([0, *[LONG] * N, 0], [[0], *[[1]] * N, [0]], [1], ARCS)


def deep(size: int) -> Lines:
    """A split of the same two activities, over and over."""
    levels = size // 17
    return [*["split 0 1 2"] * levels, "cut", *["dead"] * (levels - 1), "cut"]


def forced(size: int) -> Lines:
    """A pair that is forced, over and over."""
    return [*["force 4 1"] * (size // 10), "cut"]


def changing(size: int) -> Lines:
    """Pairs that change many walks come and go at each level of a deep tree."""
    levels = size // 35
    last = ["cut", "dead", "cut", "cut", "cut"]  # (1, 3), (2, 1), (2, 3), (3, 1), (3, 2)
    return [*["split 0 1 2 3"] * levels, "cut", *last * (levels - 1), *["cut"] * 5]


def group(activity: int) -> int | None:
    """Activities of a lower group end before those of a higher one start, where 1 ends before 2 starts."""
    return {1: 1, 2: 2, 3: None}.get(activity, 0 if activity < N // 2 else 3)


def leaf(pair: tuple[int, int], chained: bool) -> str:
    """The line of a node that adds this pair to none, or to the pair (1, 2)."""
    after, before = map(group, pair)
    if before is None or after is None or before >= after:
        return "cut"
    return "dead" if chained or (before, after) in ((0, 1), (2, 3)) else "cut"


def wide(size: int) -> Lines:
    """Splits of all activities, one below the other."""
    activities = range(1, N + 1)
    pairs = [(i, j) for i in activities for j in activities if i != j]
    levels = max(1, size // (5 * len(pairs)))
    below = [leaf(pair, True) for pair in pairs[1:]]
    first = [leaf(pair, False) for pair in pairs[1:]]
    return [*[f"split 0 {' '.join(map(str, activities))}"] * levels, "cut", *below * (levels - 1), *first]


TREES: list[Callable[[int], Lines]] = [deep, forced, changing, wide]


def record_of(tree: Lines) -> bytes:
    head = ["record 1", f"optimal {N * LONG}", f"starts {' '.join(map(str, STARTS))}"]
    return "".join(f"{line}\n" for line in [*head, *tree]).encode()


def judged(program: str, project: Path, record: bytes) -> tuple[harness.Ended, float]:
    """What is said of a record, and how many processor seconds it took."""
    before = os.times()
    ended = judges.by_program(program, project, record)
    after = os.times()
    return ended, after.children_user + after.children_system - before.children_user - before.children_system


RIGHT = 0, f"proved optimal {N * LONG}\n".encode(), b""


def look(program: str, project: Path, make: Callable[[int], Lines], size: int, keep: Path | None) -> Verdict:
    """A large record, and one that is larger."""
    took = []
    for times in (1, TIMES):
        record = record_of(make(times * size))
        if keep:
            (keep / f"{make.__name__}_{times}").write_bytes(record)
        ended, seconds = judged(program, project, record)
        print(f"{make.__name__:10} {len(record):9} bytes {seconds:6.2f} s", flush=True)
        if ended != RIGHT:
            return make.__name__, f"the program says {ended}"
        took.append(seconds)
    is_slower = took[1] > SLOWER * max(took[0], NOISE)
    return make.__name__, f"{TIMES} times the bytes take {took[1]:.2f} s after {took[0]:.2f}" if is_slower else None


def compare(program: str, project: Path, size: int, make: Callable[[int], Lines]) -> Verdict:
    """A small record, by the script as well."""
    record = record_of(make(size))
    by_program = judges.by_program(program, project, record)
    by_script = judges.by_script(verify.Project(PROJECT.text()), record)
    is_right = by_program == by_script == RIGHT
    return f"{make.__name__}, {len(record)} bytes", None if is_right else f"{by_program}, by the script {by_script}"


def verdicts(words: Sequence[str]) -> Verdicts:
    parser = harness.Words(__doc__, "program")
    parser.add_argument("--bytes", type=int, default=500_000)
    parser.add_argument("--script", type=int, default=8_000)
    parser.add_argument("--keep", type=Path)
    o = parser.parse_args(words)
    with harness.new_folder() as folder:
        project = folder / "project"
        project.write_bytes(PROJECT.text())
        for make in TREES:
            yield look(o.program, project, make, o.bytes, o.keep)
        yield from harness.side_by_side(functools.partial(compare, o.program, project, o.script), TREES)


if __name__ == "__main__":
    harness.run(verdicts)
