"""Which projects the table has: for each its name, its family, the words that write its text, and how many conflicts
its search may take."""
import itertools
from collections.abc import Iterator
from typing import NamedTuple

import shop_data

from . import TOP

CONFLICTS = 80_000


class Listed(NamedTuple):
    name: str
    family: str
    words: str  # a command of the repository's top folder
    limit: int = CONFLICTS


# Numbers of activities, and the conflicts of a search: those of larger projects take longer.
SIZES = {10: CONFLICTS, 20: CONFLICTS, 30: CONFLICTS, 50: 100_000, 100: 15_000, 200: 10_000}
ORDERS = 25, 50, 75
STRENGTHS = {0: 4, 25: 4, 50: 4, 75: 3}  # and how many projects of it there are for each size and order strength

WAITS = {"ft06": (0, 2), "ft10": (0,), **{f"la{k:02}": (0, 10) for k in range(1, 6)},
         **{f"la{k}": (0,) for k in range(16, 21)}}
SHOPS = [*shop_data.ROWS, *(f"ta{k:02}" for k in range(1, 11)), "ta14", "ta17"]
OPEN_SHOPS = [name for name in shop_data.SEEDS if name.startswith("tai")]
LOTS = [(story, lots, seed) for story in ("perishable", "sterile", "curing") for lots in range(6, 11)
        for seed in (1, 2)]
TIGHTENED = {"assay-lab": (25, 10, 0), "vaccine-lots": (75, 50, 25, 0), "exchanger-turnaround": (0,),
             "twin-towers": (0,)}
FLOWS = "12x5", "14x5", "20x5", "30x5", "30x10"
JOBS = "8x5", "10x8"
GROUPS = "hoist 10 4", "hoist 14 4", "busy 10 4", "blocking 8 5", "blocking 12 4", "dies 12 3"
GROUP_CONFLICTS = 30_000
SHUTDOWNS = 50, 75, 100, 150, 200
PLANNERS = sorted(path.stem for path in (TOP / "planner" / "projects").glob("*.sch"))


def progen() -> Iterator[Listed]:
    for (n, limit), order, (strength, many) in itertools.product(SIZES.items(), ORDERS, STRENGTHS.items()):
        for seed in range(1, many + 1):
            words = f"bench/progen.py {n} {seed} --order {order} --strength {strength}"
            yield Listed(f"progen-{n}-{order}-{strength}-{seed}", "progen", words, limit)


def job_shops() -> Iterator[Listed]:
    for name in SHOPS:
        yield Listed(name, "job shop", f"bench/shops.py {name}")
    for name, waits in WAITS.items():
        for wait in waits:
            yield Listed(f"{name}-wait-{wait}", "job shop, limited wait", f"bench/shops.py {name} --wait {wait}")


def open_shops() -> Iterator[Listed]:
    for name in OPEN_SHOPS:
        yield Listed(name, "open shop", f"bench/shops.py {name} --open")


def windows() -> Iterator[Listed]:
    for story, lots, seed in LOTS:
        yield Listed(f"{story}-{lots}-{seed}", "time windows", f"bench/lots.py {story} {lots} {seed}")
    for name, shares in TIGHTENED.items():
        for share in shares:
            words = f"bench/tightened.py planner/projects/{name}.sch {share}"
            yield Listed(f"{name}-{share}", "time windows", words)


def groups() -> Iterator[Listed]:
    for seed in 1, 2:
        for size in FLOWS:
            words = f"bench/shops.py {size} --seeds {seed} {seed} --flow --wait 0"
            yield Listed(f"flow-{size}-{seed}", "no wait", words, GROUP_CONFLICTS)
        for size in JOBS:
            words = f"bench/shops.py {size} --seeds {seed} {seed} --wait 0"
            yield Listed(f"job-{size}-{seed}", "no wait", words, GROUP_CONFLICTS)
        for words in GROUPS:
            name = words.replace(" ", "-")
            yield Listed(f"{name}-{seed}", "no wait", f"bench/groups.py {words} --seed {seed}", GROUP_CONFLICTS)


def planners() -> Iterator[Listed]:
    for n in SHUTDOWNS:
        yield Listed(f"shutdown-{n}", "shutdown", f"bench/shutdown.py {n} 1", SIZES[200])
    for name in PLANNERS:
        yield Listed(name, "planner", f"cat planner/projects/{name}.sch")


def listed() -> list[Listed]:
    return [*progen(), *job_shops(), *open_shops(), *windows(), *groups(), *planners()]
