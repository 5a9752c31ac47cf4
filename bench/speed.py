#!/usr/bin/env python3
"""bench/speed.py PROGRAM [OTHER]

Measures the built program on projects of bench/projects.py, and prints four tables: how long `earliest` and `check`
take at the limits of the format; and how many nodes a search takes in a second where it is stopped by --nodes, with
the peak memory, of projects where pairs are forced, of such where none is, and of job shops. Times are processor time,
the best of five runs, so that other work disturbs them little; they are also given as a ratio to the first row, since
machines differ. With a second program, say one built before a change, each row has its rate and memory too, measured in
turn with the first one's."""
import itertools
import random
import sys
from collections.abc import Iterable, Sequence

import measuring
import projects
from measuring import heads, row

# activities, takes, how many that use a resource fit at once, how many use it, projects. Of two activities that use a
# resource one may have to wait for the other, and pairs are forced:
SEARCHES = ((10, 100, 2, 0.5, 5), (20, 10_000, 2, 0.5, 5), (30, 10_000, 2, 0.5, 5), (45, 10_000, 2, 0.5, 5),
            (100, 5_000, 2, 0.5, 3), (1000, 300, 2, 0.05, 2))

# Any two fit together, so that none is forced:
UNFORCED = ((20, 1_000, 4, 0.5, 5), (30, 5_000, 4, 0.5, 5), (45, 10_000, 4, 0.5, 5), (100, 5_000, 4, 0.5, 3),
            (1000, 300, 4, 0.05, 2))

# jobs, machines, takes, projects. A job shop has an activity for each job and machine:
JOB_SHOPS = ((10, 5, 10_000, 3), (10, 10, 10_000, 3))

# The first job shop of Fisher and Thompson, which takes so many nodes to its end:
SMALL_JOB_SHOP = measuring.TOP / "tests" / "inputs" / "job-shop-6-by-6.sch"
SMALL_TAKES = 442

# The seconds of the takes after the first, the peak memory, the seconds up to the first.
Measured = tuple[float, float, float]


def measured(programs: Sequence[str], text: bytes, takes: int) -> list[Measured]:
    """What is measured of each program."""
    whole = measuring.best(programs, ["solve", "--nodes", str(takes)], text)
    first = measuring.best(programs, ["solve", "--nodes", "1"], text)
    return [(max(a.processor - b.processor, 1e-6), a.memory, b.processor) for a, b in zip(whole, first)]


def stopped(programs: Sequence[str], texts: Iterable[bytes], takes: int, count: int) -> list[list[Measured]]:
    """What is measured of so many of the projects whose search is stopped after all its takes."""
    stops = (text for text in texts if measuring.run([programs[0], "solve", "--nodes", takes], text).status == 3)
    return [measured(programs, text, takes) for text in itertools.islice(stops, count)]


def head(programs: Sequence[str], name: str) -> None:
    others = [head for _ in programs[1:] for head in ("Other: takes a second", "peak memory, MiB")]
    heads(name, "Projects", "Takes each", "Takes a second", "Ratio", "First take, ms", "Peak memory, MiB", *others)


def add_row(name: object, takes: int, found: Sequence[Sequence[Measured]], first: float) -> float:
    """Prints one row, and gives the rate that the ratios of a table are to, which is its own where none is given."""
    if not found:
        row(name, 0, takes, "none was stopped")
        return first
    places = range(len(found[0]))
    rates = [len(found) * (takes - 1) / sum(one[place][0] for one in found) for place in places]
    memory = [max(one[place][1] for one in found) for place in places]
    first = first or rates[0]
    opening = 1000 * max(one[0][2] for one in found)
    others = [cell for rate, most in zip(rates[1:], memory[1:]) for cell in (f"{rate:,.0f}", f"{most:.0f}")]
    row(name, len(found), takes, f"{rates[0]:,.0f}", f"{rates[0] / first:.4f}", f"{opening:.1f}", f"{memory[0]:.0f}",
        *others)
    return first


def searches(programs: Sequence[str], rows: Iterable[tuple[int, int, int, float, int]]) -> None:
    head(programs, "Activities")
    first = 0.0
    for n, takes, tight, busy, count in rows:
        texts = (projects.project(n, seed, 5, tight, busy).text() for seed in range(400))
        first = add_row(n, takes, stopped(programs, texts, takes, count), first)


def job_shops(programs: Sequence[str]) -> None:
    head(programs, "Job shop")
    first = add_row("6 by 6", SMALL_TAKES, [measured(programs, SMALL_JOB_SHOP.read_bytes(), SMALL_TAKES)], 0.0)
    for jobs, machines, takes, count in JOB_SHOPS:
        texts = (projects.job_shop(jobs, machines, seed).text() for seed in range(400))
        add_row(f"{jobs} by {machines}", takes, stopped(programs, texts, takes, count), first)


def largest() -> bytes:
    """A project at the limits of the format."""
    rng = random.Random(7)
    n, arcs = 1000, []
    for _ in range(100_000):
        i, j = sorted(rng.sample(range(1, n + 1), 2))
        arcs.append((i, j, rng.randint(0, 10)))
    arcs.sort()
    durations = [0] + [rng.randint(1, 10) for _ in range(n)] + [0]
    demands = [[0] * 32] + [[rng.randint(0, 3) for _ in range(32)] for _ in range(n)] + [[0] * 32]
    return projects.Project(durations, demands, [30] * 32, arcs).text()


def limits(program: str) -> None:
    text = largest()
    answer = measuring.run([program, "earliest"], text).out.encode()
    runs: tuple[tuple[str, list[str], bytes], ...] = (
        ("`earliest`, 10 activities", ["earliest"], projects.project(10, 0).text()),
        ("`earliest`, 1,000 activities, 100,000 arcs", ["earliest"], text),
        ("the same with blanks up to 16,777,216 bytes", ["earliest"], text.ljust(16_777_216)),
        ("`check`, the same project, 1,002 starts", ["check", "--project", "p"], answer),
    )
    heads("Run", "Milliseconds", "Ratio", "Peak memory, MiB")
    first = 0.0
    for name, words, given in runs:
        ran = measuring.best([program], words, given, files={"p": text})[0]
        first = first or ran.processor
        row(name, f"{1000 * ran.processor:.1f}", f"{ran.processor / first:.1f}", f"{ran.memory:.0f}")


def main(programs: Sequence[str]) -> None:
    limits(programs[0])
    for rows in (SEARCHES, UNFORCED):
        print()
        searches(programs, rows)
    print()
    job_shops(programs)


if __name__ == "__main__":
    main([*map(measuring.path, sys.argv[1:])])
