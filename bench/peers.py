#!/usr/bin/env python3
"""bench/peers.py [--seconds S] [--start S] [--psprove FILE] [--clasp FILE] [--only WORD] [--groups]

Prints a table of what `psprove solve` and Debian's `clasp` prove of shops (bench/shops.py) and of networks
(bench/networks.py) of 20 to 80 activities. clasp solves the encoding of bench/orders.py and branches on it as it likes
(`--configuration=auto`). `--only` takes those projects alone whose name has the word. With `--groups` the projects are
five each of flow shops and job shops without wait, and of the families of bench/groups.py, and each five have a row:
how many are proved, and the median of the seconds.

A program is the one that is named, else that of the PATH. Each gets S seconds a project, 60 if not said: psprove by
the clock, with one job; clasp of a processor, with those of the encoder. A cell says the makespan of the best schedule,
bold if it is proved, or else a lower bound too; and the seconds of a processor.

clasp begins below a schedule that psprove finds in `--start` seconds, 2 if not said, which its own seconds leave out.
With 0 it begins from nothing: with a ceiling of 1.15, 1.6 and 2.4 times the longest walk, and then with the sum of all
durations and lags.

Each schedule is checked. The last lines count what is proved, and name each project of which the two programs do not
say the same."""
import argparse
import contextlib
import csv
import re
import shutil
import statistics
import sys
import tempfile
import time
from collections.abc import Iterator, Sequence

import groups
import large
import measuring
import models
import networks
import orders
import shops
import watching
from projects import Project

SHOPS = "ft06", "ft10", "ft20", "ta01", "ta02", "ta03", "ta04", "ta05"
FLOWS = "12x5", "14x5", "20x5", "30x5", "40x5", "30x10"
JOBS = "8x5", "10x8", "12x5"
GROUPS = {"hoist": ((10, 4), (14, 4), (20, 4)), "busy": ((10, 4), (14, 4)), "blocking": ((8, 5), (12, 4), (15, 5)),
          "dies": ((12, 3), (24, 3))}
SEEDS = 1, 2, 3, 4, 5
SIZES = 20, 30, 45, 60, 80
STRENGTHS = 0, 0.1, 0.25, 0.5
CEILINGS = 1.15, 1.6, 2.4  # times the longest walk
SPARE = 0.5  # seconds before the last, at which clasp is asked to end


class Answer:
    """The best schedule, a bound that no schedule is below, and whether there is none; and the seconds."""

    def __init__(self) -> None:
        self.starts: list[int] | None = None
        self.bound, self.none, self.seconds = 0, False, 0.0

    def makespan(self) -> int | None:
        return self.starts[-1] if self.starts else None

    def is_proved(self) -> bool:
        return self.none or (self.starts is not None and self.bound >= self.starts[-1])

    def cell(self) -> str:
        known = "none" if self.none else self.makespan() or "?"
        return f"**{known}** {self.seconds:.1f}" if self.is_proved() else f"{known}/{self.bound} {self.seconds:.1f}"


def psprove(program: str, source: str, seconds: float) -> Answer:
    found, answer = large.Found(), Answer()
    words = [program, "solve", "--jobs", "1", "--seconds", str(round(seconds))]
    ran = watching.watch(words, source, 2 * seconds + 1)
    large.take_answer(found, [line for _, line in ran.lines])
    answer.starts, answer.none, answer.seconds = found.starts, found.none, ran.seconds
    answer.bound = found.bound or 0
    return answer


class Clasp:
    """One project by clasp, below one ceiling after the other until a schedule is found."""

    def __init__(self, program: str, project: Project, seconds: float) -> None:
        self.program, self.project, self.limit = program, project, seconds
        self.answer, self.spent = Answer(), 0.0

    def left(self) -> float:
        return self.limit - self.spent

    def below(self, most: int) -> bool:
        """Schedules of this makespan at most. Whether the search ended."""
        begun = time.process_time()
        model = orders.Model(self.project, most)
        lines: list[str] = []
        if not model.is_dead:
            with tempfile.NamedTemporaryFile("w", suffix=".opb") as text:
                text.write(model.text())
                text.flush()
                self.spent += time.process_time() - begun
                ran = watching.watch([self.program, text.name, "--configuration=auto"], text.name, self.left() - SPARE)
            self.spent += ran.seconds
            lines = [line for _, line in ran.lines]
            self.answer.bound = max(self.answer.bound, model.earliest[-1])
        else:
            self.spent += time.process_time() - begun
        ended = model.is_dead or any(line.startswith(("s OPTIMUM", "s UNSAT")) for line in lines)
        if values := [line for line in lines if line.startswith("v ")]:
            self.take(model, values)
        elif ended:
            self.answer.bound = max(self.answer.bound, most + 1)
        if self.answer.starts and ended:
            self.answer.bound = self.answer.starts[-1]
        for low in re.findall(r"lower: (\d+)", "\n".join(lines)):
            self.answer.bound = max(self.answer.bound, model.earliest[-1] + int(low))
        return ended

    def take(self, model: orders.Model, values: list[str]) -> None:
        """Takes the last schedule that clasp printed."""
        holds: dict[int, bool] = {}
        for word in " ".join(values).split():
            if name := re.fullmatch(r"(-?)x(\d+)", word):
                holds[int(name[2])] = not name[1]
        starts = model.starts(lambda x: holds.get(x, False))
        end = len(starts) - 1
        starts[end] = max(starts[i] + lag for i, j, lag in models.all_arcs(self.project) if j == end)
        self.answer.starts = starts

    def solve(self, best: Answer | None) -> Answer:
        known = best.makespan() if best else None
        horizon = models.horizon(self.project.durations, self.project.arcs)
        walk = orders.Walks(self.project).at(0, len(self.project.durations) - 1)
        ceilings = [known - 1] if known else [*(int(walk * times) for times in CEILINGS), horizon]
        for most in ceilings:
            ended = self.below(most)
            if self.answer.starts or not ended or self.left() < 1:
                break
        else:
            self.answer.none = known is None
        if best and best.starts and not self.answer.starts:
            self.answer.starts = best.starts
        self.answer.seconds = self.spent
        return self.answer


def chosen_projects() -> Iterator[tuple[str, Project]]:
    for name in SHOPS:
        yield name, shops.project(shops.named(name))
    yield "open shop 6x6", shops.project(shops.named("6x6"), is_open=True)
    for n in SIZES:
        for strength in STRENGTHS:
            yield f"network {n}, strength {strength}", networks.project(n, 1, strength)


def without_wait(size: str, is_flow: bool) -> list[Project]:
    made = [shops.named(size, (seed, seed)) for seed in SEEDS]
    return [shops.project(shops.in_one_order(shop) if is_flow else shop, wait=0) for shop in made]


def families() -> Iterator[tuple[str, list[Project]]]:
    """Five projects each whose great lags tie activities into groups."""
    for size in FLOWS:
        yield f"flow shop without wait {size}", without_wait(size, is_flow=True)
    for size in JOBS:
        yield f"job shop without wait {size}", without_wait(size, is_flow=False)
    for family, sizes in GROUPS.items():
        for n, k in sizes:
            yield f"{family} {n}x{k}", [groups.project(family, n, k, seed) for seed in SEEDS]


def published() -> dict[str, int]:
    """The makespans of shortest schedules, by the names of their shops."""
    with open(measuring.TOP / "reference" / "published.csv", encoding="utf-8", newline="") as file:
        return {row["project"]: int(row["upper"]) for row in csv.DictReader(file)}


class Row:
    """What both programs say of a project."""

    def __init__(self, name: str, project: Project, o: argparse.Namespace) -> None:
        self.name, self.clasp = name, None
        with contextlib.ExitStack() as stack:
            source = stack.enter_context(tempfile.NamedTemporaryFile(suffix=".sch"))
            source.write(project.text())
            source.flush()
            self.psprove = psprove(o.psprove, source.name, o.seconds)
            if o.clasp:
                start = psprove(o.psprove, source.name, o.start) if o.start else None
                self.clasp = Clasp(o.clasp, project, o.seconds).solve(start)
        for answer in self.answers():
            wrong = answer.starts and large.fault(project, answer.starts)
            if wrong:
                sys.exit(f"no schedule of {name}: {wrong}")

    def answers(self) -> list[Answer]:
        return [self.psprove, *([self.clasp] if self.clasp else [])]

    def differ(self) -> bool:
        """Whether one program says that there is no schedule which another has."""
        known = [answer.makespan() for answer in self.answers()]
        best = min((makespan for makespan in known if makespan is not None), default=None)
        best = min(best or sys.maxsize, published().get(self.name, sys.maxsize))
        return best < sys.maxsize and any(answer.none or answer.bound > best for answer in self.answers())


def told(answers: Sequence[Answer]) -> str:
    """How many are proved, and the median of the seconds."""
    proved, seconds = sum(map(Answer.is_proved, answers)), statistics.median(answer.seconds for answer in answers)
    return f"{proved} of {len(answers)}; {seconds:.2f}"


def tell_families(o: argparse.Namespace) -> None:
    for name, projects in families():
        if o.only in name:
            rows = [Row(f"{name}, seed {seed}", project, o) for seed, project in zip(SEEDS, projects)]
            measuring.row(name, *map(told, zip(*(row.answers() for row in rows))))


def main() -> None:
    parser = argparse.ArgumentParser(description=__doc__, formatter_class=argparse.RawDescriptionHelpFormatter)
    parser.add_argument("--groups", action="store_true")
    parser.add_argument("--seconds", type=float, default=60.0)
    parser.add_argument("--start", type=float, default=2.0)
    parser.add_argument("--only", default="")
    parser.add_argument("--psprove", default=shutil.which("psprove"))
    parser.add_argument("--clasp", default=shutil.which("clasp"))
    o = parser.parse_args()
    if not o.psprove:
        sys.exit("no psprove")
    measuring.heads("Project", "psprove", *(["clasp"] if o.clasp else []))
    if o.groups:
        return tell_families(o)
    rows = []
    for name, project in chosen_projects():
        if o.only in name:
            rows.append(Row(name, project, o))
            measuring.row(name, *(answer.cell() for answer in rows[-1].answers()))
    counts = [sum(answer.is_proved() for answer in answers) for answers in zip(*(row.answers() for row in rows))]
    measuring.row("proved", *(f"{count} of {len(rows)}" for count in counts))
    for row in rows:
        if row.differ():
            print(f"{row.name}: the programs do not say the same")


if __name__ == "__main__":
    main()
