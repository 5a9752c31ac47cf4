#!/usr/bin/env python3
"""bench/large.py [--seconds S] [--psprove FILE] [--psmax FILE] [--plan FILE] [--gecode FILE] [--z3 FILE] [--only WORD]

Prints a table of what programs find for generated projects of 100 to 1,000 activities: twelve of bench/networks.py,
and two of bench/shutdown.py. `--only` takes those alone whose name has the word.

A program is the one that is named, else that of the PATH; it is left out where there is none: `psprove solve`, `psmax
solve`, `plan solve`, Gecode's `fzn-gecode` and `z3`. Each gets S seconds of processor time a project, 60 if not said,
one project after the other. A cell says the makespan of the best schedule, the bound if the program tells one, the
seconds of processor time up to the first schedule, in hundredths, and the peak memory in MiB. Each best schedule is
checked here.

psprove takes seconds by the clock, so nothing else should run beside it.

psmax answers only when it ends, so it runs with more nodes each time, up to some that take about S seconds; its
first schedule is that of the first run that has one. plan calls the psprove that it finds by itself, with one job, and
is asked to end after so many seconds of a clock. z3 is asked for one shorter schedule after the other, of at most 300
activities."""
import argparse
import re
import shutil
import sys
import tempfile
from collections.abc import Callable, Iterator, Sequence

import measuring
import models
import networks
import shutdown
import watching
from projects import Project

SIZES = 100, 200, 500, 1000
# Resource strengths, and for how many activities in a hundred a maximum lag leads back.
STRENGTHS = (0, 1), (0.05, 5), (0.15, 5)
SHUTDOWNS = 300, 1000

MOST_NODES = 1_000_000_000
GROWTH = 10  # a run of psmax gets so many times the nodes of the one before, at most
ENOUGH = 0.8  # of the seconds, which the last one takes at least
MOST_FOR_Z3 = 300


class Found:
    """What is known: the starts, the bound, the seconds up to the first schedule, and the memory in MiB."""

    def __init__(self) -> None:
        self.starts: list[int] | None = None
        self.bound: int | None = None
        self.first: float | None = None
        self.none, self.memory = False, 0.0

    def begin(self, seconds: float) -> None:
        if self.first is None:
            self.first = seconds

    def cell(self) -> str:
        if self.none:
            return f"no schedule, {self.memory:.0f} MiB"
        told = ["?" if self.starts is None else str(self.starts[-1])]
        if self.bound is not None:
            told.append("optimal" if self.starts and self.bound == self.starts[-1] else f"bound {self.bound}")
        if self.first is not None:
            told.append(f"{self.first:.2f} s")
        return ", ".join([*told, f"{self.memory:.0f} MiB"])


def take_answer(found: Found, lines: Sequence[str]) -> None:
    """Takes an answer in the words of psmax."""
    starts = []
    for line in lines:
        words = line.split()
        if line == "no schedule":
            found.none = True
        elif words[:1] == ["optimal"]:
            found.bound = int(words[1])
        elif words[:1] in (["feasible"], ["unknown"]):
            found.bound = int(words[-1])
        elif re.fullmatch(r"\d+ \d+", line):
            starts.append(int(words[1]))
    found.starts = starts or None


def psmax(program: str, source: str, project: Project, seconds: float) -> Found:
    found, nodes = Found(), 1
    while True:
        ran = watching.watch([program, "solve", "--nodes", str(nodes)], source, 2 * seconds)
        found.memory = max(found.memory, ran.memory)
        if ran.stopped:
            return found
        take_answer(found, [line for _, line in ran.lines])
        if found.starts:
            found.begin(ran.seconds)
        settled = found.none or (found.starts and found.bound == found.starts[-1])
        if settled or ran.seconds >= ENOUGH * seconds or nodes == MOST_NODES:
            return found
        nodes = min(MOST_NODES, int(nodes * min(GROWTH, seconds / max(ran.seconds, 0.01))) + 1)


def timed(words: list[str], source: str, seconds: float, schedule: str) -> Found:
    """What a program finds that ends by itself; its lines about schedules have this pattern."""
    found = Found()
    ran = watching.watch(words, source, 2 * seconds)
    found.memory = ran.memory
    for when, line in ran.lines:
        if re.search(schedule, line):
            found.begin(when)
    take_answer(found, [line for _, line in ran.lines])
    return found


def psprove(program: str, source: str, project: Project, seconds: float) -> Found:
    words = [program, "solve", "--progress", "--seconds", str(round(seconds))]
    return timed(words, source, seconds, r"^\d+ s: schedule \d+, ")


def plan(program: str, source: str, project: Project, seconds: float) -> Found:
    words = [program, "solve", source, "--seconds", f"{max(1, round(seconds))}", "--jobs", "1"]
    return timed(words, source, seconds, r"\d s  schedule \d+, unproved")


def gecode(program: str, source: str, project: Project, seconds: float) -> Found:
    found = Found()
    with tempfile.NamedTemporaryFile("w", suffix=".fzn") as model:
        model.write(models.flatzinc(project))
        model.flush()
        ran = watching.watch([program, "-a", model.name], source, seconds)
    found.memory = ran.memory
    for when, line in ran.lines:
        if line.startswith("starts = "):
            found.begin(when)
            found.starts = [int(word) for word in re.findall(r"\d+", line.partition("[")[2])]
        elif line == "=" * 10:
            found.bound = found.starts[-1] if found.starts else None
        elif line == "=====UNSATISFIABLE=====":
            found.none = True
    return found


def z3(program: str, source: str, project: Project, seconds: float) -> Found | None:
    found = Found()
    names = [f"s{i}" for i in range(len(project[0]))]
    if len(names) - 2 > MOST_FOR_Z3:
        return None

    def reply(line: str) -> bytes | None:
        if line == "sat":
            return f"(get-value ({' '.join(names)}))(echo \"told\")\n".encode()
        if line == "told":
            values = " ".join(told)
            told.clear()
            found.starts = [int(value) for value in re.findall(r"\(s\d+ (\d+)\)", values)]
            return f"(assert (< {names[-1]} {found.starts[-1]}))(check-sat)\n".encode()
        told.append(line)
        return None if line in ("unsat", "unknown") else b""

    told: list[str] = []
    with tempfile.NamedTemporaryFile("w", suffix=".smt2") as model:
        model.write(models.smt(project))
        model.flush()
        ran = watching.watch([program, "-in", "-smt2"], model.name, seconds, reply)
    found.memory = ran.memory
    for when, line in ran.lines:
        if line == "sat":
            found.begin(when)
        elif line == "unsat":
            found.none = found.starts is None
            found.bound = found.starts[-1] if found.starts else None
    return found


PROGRAMS = (
    ("psprove", "psprove solve", psprove, "psprove"),
    ("psmax", "psmax solve", psmax, "psmax"),
    ("plan", "plan solve", plan, "plan"),
    ("gecode", "Gecode", gecode, "fzn-gecode"),
    ("z3", "z3", z3, "z3"),
)
# Its title, how a program runs, and that program.
Column = tuple[str, Callable[[str, str, Project, float], Found | None], str]


def fault(project: Project, starts: Sequence[int]) -> str | None:
    """What a schedule breaks, none if it is feasible."""
    durations, demands, capacities, _ = project
    if len(starts) != len(durations) or starts[0]:
        return "not the starts of the project"
    for i, j, lag in models.all_arcs(project):
        if starts[j] < starts[i] + lag:
            return f"lag {i} {j} {lag}"
    for time in set(starts):
        running = [i for i, start in enumerate(starts) if start <= time < start + durations[i]]
        for k, capacity in enumerate(capacities):
            if sum(demands[i][k] for i in running) > capacity:
                return f"overload {time} {k}"
    return None


def chosen_projects() -> Iterator[tuple[str, Project]]:
    for n in SIZES:
        for strength, loops in STRENGTHS:
            yield f"network {n}, strength {strength}", networks.project(n, 1, strength, loops=loops)
    for n in SHUTDOWNS:
        yield f"shutdown {n}", shutdown.project(n, 1)


def row(name: str, project: Project, programs: Sequence[Column], seconds: float) -> None:
    cells = [name]
    with tempfile.NamedTemporaryFile(suffix=".sch") as source:
        source.write(project.text())
        source.flush()
        for title, run, program in programs:
            found = run(program, source.name, project, seconds)
            wrong = found and found.starts and fault(project, found.starts)
            if wrong:
                sys.exit(f"{title} has no schedule of {name}: {wrong}")
            cells.append(found.cell() if found else "")
    measuring.row(*cells)


def main() -> None:
    parser = argparse.ArgumentParser(description=__doc__, formatter_class=argparse.RawDescriptionHelpFormatter)
    parser.add_argument("--seconds", type=float, default=60.0)
    parser.add_argument("--only", default="")
    for option, title, _, name in PROGRAMS:
        parser.add_argument(f"--{option}", default=shutil.which(name), help=f"the program of the column {title}")
    o = parser.parse_args()
    programs = [(title, run, measuring.path(getattr(o, option)))
                for option, title, run, _ in PROGRAMS if getattr(o, option)]
    measuring.heads("Project", *(title for title, _, _ in programs))
    for name, project in chosen_projects():
        if o.only in name:
            row(name, project, programs, o.seconds)


if __name__ == "__main__":
    main()
