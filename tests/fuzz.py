#!/usr/bin/env python3
"""tests/fuzz.py PSMAX PSPROVE [--records N] [--seed S] [--only K] [--keep FOLDER] [--checkers FOLDER]

Makes N records (5,000 by default), the same for the same S: half are records of a search, half are logs of lemmas. They
are of small projects of which all feasible schedules are known, by trying all starts. Some are right; others are
damaged, have parts of other records, have lines that are wrong by one, or claim more than they prove. `verify` of one
of the programs, which reads either kind, and the checker in Python of the record's kind have to say the same of each,
with the same place of the first fault. What they accept before that place has to be true of the schedules: a lemma of
all in question, a node that is cut of all that are its own, and each starts, bound and claim. What is right has to be
accepted.

With --only record K alone is made. Each record of which something wrong is said stands in the FOLDER of --keep, with
its project. The checkers in Python are those of the folder of --checkers, of tests/ by default. The last line counts
the records."""
import collections
import functools
import itertools
import math
import random
import re
from collections.abc import Iterator, Sequence
from pathlib import Path
from typing import NamedTuple

import harness  # finds the modules of bench/
import all_schedules
import damages
import judges
import log_bytes
import log_damages
import meanings
import near_lines
import projects
import small_projects
import small_prover
import small_trees
import verify
from all_schedules import Schedules
from checkers import Checkers, loaded
from harness import TOP, Ended, Verdict, Verdicts
from verify_log import Event, Ledger

EACH = 40  # records of a project, of which half are logs; half of these and of the others are judged by either program
PROGRAMS = "psmax", "psprove"
MOST = 1_200  # feasible schedules of a project
PLACE = re.compile(rb"ps\w+: (line|event) (\d+): (\w+)\n")
FALSE = "it is false: "
RIGHT = "right"  # what was done to a record that has to be accepted
Made = tuple[str, bytes]  # what was done to a record, and the record


class Known(NamedTuple):
    """A project, as it was drawn and as generators read it, and all its schedules."""
    drawn: projects.Project
    project: verify.Project
    schedules: Schedules


def with_deadline(project: projects.Project, makespan: int) -> projects.Project:
    return project._replace(arcs=sorted([*project.arcs, (len(project.durations) - 1, 0, -makespan)]))


def with_idle_demands(project: projects.Project) -> projects.Project:
    """The project, in which activities that take no time ask for more than there is, which is no matter."""
    more = [capacity + 1 for capacity in project.capacities]
    rows = [more if 0 < i and p == 0 else row for i, (p, row) in enumerate(zip(project.durations, project.demands))]
    return project._replace(demands=[*rows[:-1], project.demands[-1]])


def known(rng: random.Random) -> Known:
    """A small project that has few schedules; a deadline leaves some of more."""
    while True:
        drawn = small_projects.small_project(rng)
        if rng.random() < 0.2:
            drawn = with_idle_demands(drawn)
        project = verify.Project(drawn.text())
        shortest = small_projects.shortest(project)
        if shortest is None and rng.random() < 0.8:
            continue
        for some in (drawn, with_deadline(drawn, (shortest or 0) + rng.randrange(3))):
            try:
                schedules = Schedules(some, MOST)
            except all_schedules.TooMany:
                continue
            if schedules.shortest != shortest:
                raise AssertionError(f"{some}: {schedules.shortest} by all starts, {shortest} by all orders")
            return Known(some, verify.Project(some.text()), schedules)


# ---- records of a search


def claimed(rng: random.Random, schedules: Schedules) -> Sequence[int] | None:
    """The starts of a shortest schedule, now and then of another one or none."""
    if not schedules.starts or rng.random() < 0.05:
        return None
    if rng.random() < 0.2:
        return rng.choice(schedules.starts)
    return rng.choice([starts for starts in schedules.starts if starts[-1] == schedules.shortest])


def claim_of(record: bytes) -> int | None:
    """The makespan that a record claims, none where it claims that there is no schedule."""
    words = record.split(b"\n")[1].split(b" ")
    return int(words[1]) if words[0] == b"optimal" else None


def records(rng: random.Random, known: Known) -> Iterator[Made]:
    def made(lies: float) -> bytes:
        return small_trees.record_of(known.project, rng, claimed(rng, known.schedules), lies)

    while True:
        whole = made(0)
        is_right = claim_of(whole) == known.schedules.shortest and whole.count(b"\n") < small_trees.LINES
        yield RIGHT if is_right else "whole", whole
        yield "made with lies", made(rng.choice([0.05, 0.2, 0.5]))
        yield "damaged", damages.damaged(rng, whole)
        yield "spliced", damages.spliced(rng, whole, made(0))
        yield "made with lies", made(rng.choice([0.05, 0.2, 0.5]))
        yield "claims more", damages.claimed_later(whole)


# ---- logs of lemmas


def before(project: verify.Project, events: Sequence[Event], count: int) -> Ledger:
    """What is proved after so many events."""
    ledger = Ledger(project)
    for event in events[:count]:
        ledger.takes(event)
    return ledger


def with_false_lemma(rng: random.Random, known: Known, events: list[Event]) -> bytes | None:
    """The log with a lemma more that some schedule in question contradicts, if there is one."""
    count = rng.randrange(len(events))
    ledger = before(known.project, events, count)
    in_question = [starts for starts in known.schedules.starts if starts[-1] < ledger.ceiling]
    if not in_question:
        return None
    lemma = near_lines.false_lemma(rng, ledger, rng.choice(in_question))
    return log_bytes.text_of([*events[:count], lemma, *events[count:]])


def logs(rng: random.Random, known: Known) -> Iterator[Made]:
    def made() -> list[Event]:
        if rng.random() < 0.25:  # its claim is mostly a bound
            return small_prover.proved(known.project, rng, rng.randint(2, 9))
        return max((small_prover.proved(known.project, rng) for _ in range(2)), key=len)

    events = made()
    yield RIGHT, log_bytes.text_of(events)
    while True:
        whole = log_bytes.text_of(events)
        for _ in range(3):
            false = with_false_lemma(rng, known, events)
            yield ("with a false lemma", false) if false else ("damaged", log_damages.damaged(rng, whole))
            yield "damaged", log_damages.damaged(rng, whole)
        other = made()
        yield "spliced", log_damages.spliced(rng, whole, log_bytes.text_of(other))
        yield "claims otherwise", log_damages.claimed_otherwise(rng, whole)
        events = other


# ---- what is said of them


class Judge(NamedTuple):
    """The programs, and the checkers in Python."""
    psmax: str
    psprove: str
    checkers: Checkers

    def said(self, known: Known, file: Path, record: bytes, name: str, partial: bool) -> tuple[Ended, str | None]:
        """What the program of this name says of a record, and what is wrong with that, or None."""
        program = self.psmax if name == "psmax" else self.psprove
        by_script = self.checkers.said(name, known.drawn.text(), record, partial)
        by_program = judges.by_program(program, file, record, partial)
        is_log = not judges.is_tree(name, record, partial)
        found = [] if by_program == by_script else [f"the program says {by_program}, the script {by_script}"]
        for said in sorted({by_program, by_script}, key=str):
            false = falsehood_of(known.schedules, record, is_log, said)
            found += [f"{FALSE}{false}"] if false else []
        return by_program, "; ".join(found) or None


def falsehood_of(schedules: Schedules, record: bytes, is_log: bool, said: Ended) -> str | None:
    """What is false among all that is accepted of a record."""
    status, out, fault = said
    place = PLACE.fullmatch(fault)
    accepted = max(0, int(place[2]) - 1) if place else None
    if status not in (0, 2, 4) or status != 0 and not place:
        return f"{said} is no verdict"
    try:
        if is_log:
            false = meanings.falsehood_of_log(schedules, record, accepted)
        else:
            false = meanings.falsehood_of_record(schedules, record, accepted) if status != 2 else None
    except (IndexError, StopIteration) as at:
        false = f"what is accepted names what there is not: {at!r}"
    return false or (meanings.falsehood_of_claim(schedules, out.decode()) if status == 0 else None)


def end_of(said: Ended) -> str:
    """The first fault without its place, or what is proved without its number."""
    place = PLACE.fullmatch(said[2])
    return place[3].decode() if place else " ".join(said[1].decode().split()[:2])


def tells_falsehood(wrong: str) -> bool:
    """Whether what is wrong is not only that both say something else."""
    return FALSE in wrong


class Fuzzer(NamedTuple):
    judge: Judge
    seed: int
    most: int
    only: int | None
    keep: Path | None
    ends: collections.Counter[tuple[str, str]]

    def is_wanted(self, number: int) -> bool:
        return number < self.most and self.only in (None, number)

    def of_project(self, folder: Path, which: int) -> list[Verdict]:
        """The verdicts on the records of a project."""
        rng = random.Random(f"{self.seed} {which}")
        drawn, file = known(rng), folder / f"{which}.sch"
        file.write_bytes(drawn.drawn.text())
        chances = (random.Random(f"{self.seed} {which} {kind}") for kind in "rl")
        makers = records(next(chances), drawn), logs(next(chances), drawn)
        found = []
        for number, (what, record) in enumerate(self.some(makers), which * EACH):
            is_log, partial = number % 2 == 1, number % 6 == 5
            if self.is_wanted(number):
                program = PROGRAMS[number // 2 % 2]
                said, wrong = self.judge.said(drawn, file, record, program, partial)
                if what == RIGHT and said[0] != 0:
                    wrong = f"it is right; {said} {wrong or ''}"
                self.ends["log" if is_log else "record", end_of(said)] += 1
                kind = "a log" if is_log else "of a search"
                name = f"record {number} of seed {self.seed}, {kind}, {what}, by {program}"
                self.told(name, drawn, number, record, wrong)
                found.append((name, wrong))
        return found

    def some(self, makers: tuple[Iterator[Made], Iterator[Made]]) -> Iterator[Made]:
        return itertools.islice(itertools.chain.from_iterable(zip(*makers)), EACH)

    def told(self, name: str, drawn: Known, number: int, record: bytes, wrong: str | None) -> None:
        """Keeps a record of which something wrong is said."""
        if wrong and self.keep:
            self.keep.mkdir(exist_ok=True)
            (self.keep / f"{number}.sch").write_bytes(drawn.drawn.text())
            (self.keep / f"{number}.record").write_bytes(record)


def verdicts(words: Sequence[str]) -> Verdicts:
    parser = harness.Words(__doc__, "psmax", "psprove")
    parser.add_argument("--records", type=int, default=5_000)
    parser.add_argument("--seed", type=int, default=0)
    parser.add_argument("--only", type=int)
    parser.add_argument("--keep", type=Path)
    parser.add_argument("--checkers", type=Path, default=TOP / "tests", )
    o = parser.parse_args(words)
    fuzzer = Fuzzer(Judge(o.psmax, o.psprove, loaded(o.checkers)), o.seed, o.records, o.only, o.keep,
                    collections.Counter())
    projects_of = range(math.ceil(o.records / EACH)) if o.only is None else [o.only // EACH]
    with harness.new_folder() as folder:
        look = functools.partial(fuzzer.of_project, folder)
        yield from itertools.chain.from_iterable(harness.side_by_side(look, projects_of))
    print(", ".join(f"{kind}: {end} {count}" for (kind, end), count in sorted(fuzzer.ends.items())))


if __name__ == "__main__":
    harness.run(verdicts)
