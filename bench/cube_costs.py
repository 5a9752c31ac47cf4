#!/usr/bin/env python3
"""bench/cube_costs.py PSPROVE PROJECT.. [--machines N..] [--seconds S]

Prints a table of what projects cost in cubes, beside one undivided search with its record, which ends after S processor
seconds (600 by default).

Machines are simulated: searches run one after another, each when the driver gives it out, with the lemmas of those that
have ended by then. A search ends when its processor seconds are over. Each number of machines (4, 16, 64 and 256 by
default) is a run of its own. Where PROJECT is a folder that `plan solve --out` left, nothing is searched again: the
searches that it has are replayed on each number of machines, and its record is made anew, once.

Seconds are of a processor, as the system counts them of children. In brackets stands what all cubes take to what the
undivided search does. `takes` is the simulated time of all searches, without the join, and `speed-up` the seconds of
the undivided search to it."""
import argparse
import heapq
import json
import math
import os
import pathlib
import sys
import tempfile
from collections import defaultdict, deque
from collections.abc import Callable, Iterator, Sequence
from contextlib import closing
from typing import NamedTuple

import measuring
import watching

sys.path.append(str(measuring.TOP / "python"))
from psmax.clock import Clock  # noqa: E402
from psmax.cubes import cube  # noqa: E402
from psmax.cubes.driver import Driver, used  # noqa: E402
from psmax.cubes.machines import Machines  # noqa: E402
from psmax.cubes.folder import ROWS  # noqa: E402
from psmax.cubes.tree import Driven, Tree, read_rows  # noqa: E402
from psmax.incumbent import Incumbent  # noqa: E402
from psmax.project_text import ProjectText, parse  # noqa: E402
from psmax.psmax import starts_text  # noqa: E402
from psmax.psprove import Psprove  # noqa: E402

HEADS = ("project", "one: s", "conflicts", "machines", "cubes", "s", "conflicts", "longest", "takes", "speed-up",
         "logs, MB",
         "record, MB", "join, s", "verify, s", "proved")
Job = Callable[[], object]


class Simulated(Machines):
    """So many machines. The results come in the order in which their searches end."""

    def __init__(self, count: int, program: str) -> None:
        super().__init__()
        self.count, self.program = count, program
        self.time, self.spent, self.longest = 0.0, 0.0, 0.0
        self.coming: list[tuple[float, int, cube.Row]] = []
        self.known: cube.Row = {"starts": None}

    def give(self, task: cube.Row) -> None:
        row = cube.search_cube(task | {"run": self.run, "program": self.program}, lambda: self.known, math.inf)
        self.spent += row["seconds"]
        self.longest = max(self.longest, row["seconds"])
        heapq.heappush(self.coming, (self.time + row["seconds"], task["number"], row))

    def next(self, seconds: float) -> tuple[int, cube.Row | Exception] | None:
        if not self.coming:
            return None
        self.time, number, row = heapq.heappop(self.coming)
        return number, row

    def tell(self, starts: tuple[int, ...] | None) -> None:
        self.known = {"starts": starts}

    def room(self) -> int:
        return self.count

    def close(self) -> None:
        pass


class One(NamedTuple):
    """The undivided search."""

    seconds: float
    conflicts: int
    says: str | None  # what it knew, where it was ended


class Cubes(NamedTuple):
    """A search in cubes, and what became of their logs."""

    searches: int
    spent: float
    conflicts: int
    longest: float
    takes: float
    logs: int  # bytes
    record: int
    join: float
    verify: float
    says: str


def timed(job: Job) -> float:
    before = used()
    job()
    return used() - before


def undivided(psprove: str, path: str, most: float) -> One:
    with tempfile.TemporaryDirectory() as folder:
        until = pathlib.Path(folder, "until")
        words = [psprove, "solve", "--json", "--seconds", "1000000", "--until", f"{until}", "--record",
                 f"{folder}/record"]
        before = used()
        found = watching.watch(words, path, most, until=until)
        told = json.loads(found.lines[-1][1])
        says = f"open: {told['makespan']}, bound {told['bound']}" if found.stopped else None
        return One(used() - before, told["conflicts"], says)


def in_cubes(psprove: str, path: str, machines: int) -> Cubes:
    clock = Clock(says=lambda *_: None)
    project = parse(pathlib.Path(path).read_bytes())
    spelled, known, simulated = ProjectText(project), Incumbent(clock, project), Simulated(machines, psprove)
    with tempfile.TemporaryDirectory() as folder, closing(Driven(pathlib.Path(folder), spelled.text)) as tree:
        Driver(tree, known, spelled).refute(simulated)
        begin = tree.spent - simulated.spent
        join, verify, says = joined(tree, clock)
        logs = sum(tree.file(number, "log").stat().st_size for number in tree.logs)
        return Cubes(tree.number, tree.spent, tree.conflicts, simulated.longest, begin + simulated.time, logs,
                     (tree.folder / "record").stat().st_size, join, verify, says)


def of_folder(folder: pathlib.Path, counts: Sequence[int]) -> Iterator[tuple[int, Cubes]]:
    """The searches that a driver has left there, on each number of machines, and what became of their logs."""
    tree, rows = Tree(folder), [*read_rows(folder / ROWS)]
    join, verify, says = joined(tree, Clock(says=lambda *_: None))
    longest = max(row["seconds"] for row in rows if row["step"] == "ended")
    logs = sum(tree.file(number, "log").stat().st_size for number in tree.logs)
    record = (folder / "record").stat().st_size
    for machines in counts:
        yield machines, Cubes(tree.number, tree.spent, tree.conflicts, longest, replayed(rows, machines), logs, record,
                              join, verify, says)


def replayed(rows: Sequence[cube.Row], machines: int) -> float:
    """When the searches of these rows end on so many machines. Each takes as long there, and begins as a driver would
    give it out."""
    names = {row["number"]: row["cube"] for row in rows if row["step"] == "given"}
    ended: defaultdict[str, deque[cube.Row]] = defaultdict(deque)
    for row in rows:
        if row["step"] == "ended":
            ended[names[row["number"]]].append(row)
    time: float = sum(row["seconds"] for row in rows if row["step"] == "first")
    with tempfile.TemporaryDirectory() as folder:
        pathlib.Path(folder, ROWS).touch()
        tree, coming = Tree(pathlib.Path(folder)), list[tuple[float, int, cube.Row]]()
        while tree.waiting or coming:
            while tree.waiting and len(coming) < machines:
                name, number = tree.next(), tree.number + 1
                row = ended[name].popleft() | {"number": number}
                tree.take({"step": "given", "at": time, "number": number, "cube": name})
                heapq.heappush(coming, (time + row["seconds"], number, row))
            time, _, row = heapq.heappop(coming)
            tree.take(row)
    return time


def joined(tree: Tree, clock: Clock) -> tuple[float, float, str]:
    """The seconds of the join and of its check, and what that says."""
    program, begun, record = Psprove(clock), tree.folder / "start", tree.folder / "record"
    begun.write_bytes(starts_text(tree.starts or ()))
    words = ["--project", f"{tree.folder / 'project.sch'}"]
    start = ["--start", f"{begun}"] if tree.starts else []
    join = timed(lambda: program.call(["join", *words, *start, "--tree", f"{tree.write_list()}", "--record",
                                       f"{record}"],
                                      b"", math.inf))
    before = used()
    says = program.call(["verify", *words], record, math.inf)[1].decode().strip()
    return join, used() - before, says


def print_row(name: str, one: One, machines: int, found: Cubes) -> None:
    below, above = ("", "") if one.says is None else ("< ", "> ")  # what they were if the undivided search went on
    ratios = f"{below}{found.spent / one.seconds:.2f}", f"{below}{found.conflicts / one.conflicts:.2f}"
    counted = f"{one.conflicts:,}" if one.says is None else f"{one.conflicts:,}, {one.says}"
    measuring.row(name, f"{one.seconds:.1f}", counted, machines, found.searches, f"{found.spent:.1f} ({ratios[0]})",
                  f"{found.conflicts:,} ({ratios[1]})", f"{found.longest:.1f}", f"{found.takes:.1f}",
                  f"{above}{one.seconds / found.takes:.1f}", f"{found.logs / 1e6:.0f}", f"{found.record / 1e6:.0f}",
                  f"{found.join:.1f}", f"{found.verify:.1f}", found.says)


def main() -> None:
    parser = argparse.ArgumentParser(description=__doc__, formatter_class=argparse.RawDescriptionHelpFormatter)
    parser.add_argument("psprove", type=measuring.path)
    parser.add_argument("projects", metavar="PROJECT", type=measuring.path, nargs="+")
    parser.add_argument("--machines", type=int, nargs="*", default=[4, 16, 64, 256])
    parser.add_argument("--seconds", type=float, default=600)
    o = parser.parse_args()
    os.environ["PSPROVE"] = o.psprove
    measuring.heads(*HEADS)
    for path in map(pathlib.Path, o.projects):
        one = undivided(o.psprove, f"{path / 'project.sch' if path.is_dir() else path}", o.seconds)
        found = of_folder(path, o.machines) if path.is_dir() else (
            (machines, in_cubes(o.psprove, f"{path}", machines)) for machines in o.machines)
        for machines, costs in found:
            print_row(path.stem, one, machines, costs)


if __name__ == "__main__":
    main()
