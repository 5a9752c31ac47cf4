#!/usr/bin/env python3
"""tests/logs.py PROGRAM [FOLDER] [--logs N]

Has `PROGRAM verify` and tests/verify_log.py judge logs of lemmas, and wants the same of both, fault by fault. First
each log of FOLDER (tests/logs by default), which has to be right. A log's project is the file of its name in that
folder or in planner/projects. Then the rows of faults.jsonl there: each has a log in hexadecimal, and what is said of
it. Last N logs (2,000 by default), the same for the same N: one of twenty is a log of a small project as a prover makes
it, which has to be right, or one of FOLDER; the others are that log with one to three damages. What is proved of a
small project is compared with its shortest schedule, which is found by trying all orders. A third of the logs are
judged with --partial. Without a PROGRAM (the word -) the script is judged alone. And the weights that the script has of
random arcs, great and small, as numbers, are those that it has of them as lists. The last line counts all."""
import functools
import itertools
import json
import math
import random
import re
from collections.abc import Iterator, Sequence
from pathlib import Path
from typing import NamedTuple

import harness
import judges
import log_bytes
import small_projects
import small_prover
import verify
from harness import TOP, Ended, Verdict, Verdicts
from log_damages import damaged
from verify_log import MAX_WEIGHT, Block, Root, with_arc

EACH = 20  # logs made of one that is right
SMALL = 3_000  # bytes of a log of the folder that is damaged
# `line` of lines where a damage made it a tree.
FAULT = re.compile(rb"psprove: (event \d+: (form|long|short|trailing|lemma|drop|schedule|claim)|"
                   rb"line \d+: (form|short|trailing|start|force|set|leaf))\n")


class Whole(NamedTuple):
    """A log that is right, and what is true of its project."""
    name: str
    file: Path
    project: verify.Project
    shortest: int | None
    log: bytes


class Judge(NamedTuple):
    program: str | None

    def wrong(self, whole: Whole, log: bytes, want: str | None = None, partial: bool = False) -> str | None:
        """What is wrong with what is said of a log, or None."""
        said = judges.by_script_of_logs(whole.project, log, partial)
        told = judges.by_program(self.program, whole.file, log, partial) if self.program else said
        if told != said:
            return f"the program says {told}, the script {said}"
        if want is not None and want != said_text(said):
            return f"both say {said_text(said)}, not {want}"
        return falsehood(whole.shortest, said)


def said_text(said: Ended) -> str:
    return (said[2].partition(b": ")[2] or said[1]).decode().removesuffix("\n")


def falsehood(shortest: int | None, said: Ended) -> str | None:
    """What is false of what is said, where the shortest schedule is so long."""
    status, out, fault = said
    if status != 0:
        return None if FAULT.fullmatch(fault) else f"no fault of a log: {said}"
    _, claim, number = out.decode().split()
    if claim == "bound":
        return None if shortest is None or int(number) <= shortest else f"{out.decode()} is false"
    is_true = shortest is None if claim == "no" else number == str(shortest)
    return None if is_true else f"{out.decode()} is false"


def project_of(log: Path) -> Path:
    for path in (log.with_suffix(".sch"), TOP / "planner/projects" / f"{log.stem}.sch"):
        if path.exists():
            return path
    raise SystemExit(f"{log}: no project of this name")


@functools.cache
def whole_in(path: Path) -> Whole:
    project = verify.Project(project_of(path).read_bytes())
    claim = log_bytes.claim_of(path.read_bytes())
    shortest = int(claim.split()[1]) if claim.startswith("optimal") else None
    return Whole(path.name, project_of(path), project, shortest, path.read_bytes())


def whole_of(folder: Path, seed: int) -> Whole:
    """The longer of two logs of small projects."""
    found = []
    for which in range(2):
        rng = random.Random(2 * seed + which)
        text = small_projects.small_project(rng).text()
        project = verify.Project(text)
        log = log_bytes.text_of(small_prover.proved(project, rng))
        found.append((len(log), text, project, log))
    _, text, project, log = max(found)
    file = folder / f"{seed}.sch"
    file.write_bytes(text)
    return Whole(f"small project {seed}", file, project, small_projects.shortest(project), log)


def played(judge: Judge, wholes: Sequence[Path], made: Whole | None, seed: int) -> Verdict:
    """What is wrong with what is said of the log of a seed, which is made of this one or of one of those."""
    rng = random.Random(seed)
    whole = made or whole_in(rng.choice(wholes))
    if seed % EACH == 0:
        return f"log {seed}, {whole.name}", judge.wrong(whole, whole.log, f"proved {log_bytes.claim_of(whole.log)}")
    log = damaged(rng, whole.log)
    return f"log {seed}, {whole.name} with damages", judge.wrong(whole, log, partial=rng.randrange(3) == 0)


def some_played(judge: Judge, wholes: Sequence[Path], folder: Path, count: int, which: int) -> list[Verdict]:
    """The same of those logs below a count that are made of one log."""
    made = None if wholes and which % 10 == 9 else whole_of(folder, which)
    return [played(judge, wholes, made, seed) for seed in range(which * EACH, min(count, which * EACH + EACH))]


def rows(judge: Judge, folder: Path) -> Iterator[Verdict]:
    """Short logs by hand, and what is said of them."""
    faults = folder / "faults.jsonl"
    for row in map(json.loads, faults.read_text().splitlines() if faults.exists() else []):
        file = folder / row["project"]
        whole = Whole(row["log"], file, verify.Project(file.read_bytes()), row["shortest"], b"")
        yield row["log"], judge.wrong(whole, bytes.fromhex(row["log"]), row["says"], row.get("partial", False))


def weights_fault(seed: int) -> str | None:
    """Where the weights of a block are not those of its arcs, of which some close a walk of the weight 0 or 1."""
    rng = random.Random(seed)
    count = rng.randint(2, 9)
    rows: verify.Rows | None = [[0 if a == b else -count * MAX_WEIGHT for b in range(count)] for a in range(count)]
    block = Block(Root(rows or []))
    while rows is not None and len(block.arcs) < 30:
        i, j = rng.sample(range(count), 2)
        less = rng.choice([0, 1, 2, 7, rng.randrange(MAX_WEIGHT), -rng.randrange(9) // 8])
        arc = i, j, min(MAX_WEIGHT, -rows[j][i]) - less
        block.add(arc)
        rows = with_arc(rows, arc)
        told = [[*map(block.weight, [a] * count, range(count))] for a in range(count)]
        if block.is_dead != (rows is None) or rows is not None and rows != told:
            return f"after {block.arcs} the weights are {told}"
    return None


def verdicts(words: Sequence[str]) -> Verdicts:
    parser = harness.Words(__doc__)
    parser.add_argument("program", type=lambda word: None if word == "-" else harness.resolved(word))
    parser.add_argument("folder", nargs="?", type=Path, default=TOP / "tests/logs")
    parser.add_argument("--logs", type=int, default=2_000)
    o = parser.parse_args(words)
    judge, wholes = Judge(o.program), sorted(o.folder.glob("*.log"))
    for whole in map(whole_in, wholes):
        yield whole.name, judge.wrong(whole, whole.log, f"proved {log_bytes.claim_of(whole.log)}")
    yield from rows(judge, o.folder)
    yield from ((f"weights of arcs {seed}", weights_fault(seed)) for seed in range(200))
    with harness.new_folder() as folder:
        small = [path for path in wholes if path.stat().st_size < SMALL]
        look = functools.partial(some_played, judge, small, folder, o.logs)
        yield from itertools.chain.from_iterable(harness.side_by_side(look, range(math.ceil(o.logs / EACH))))


if __name__ == "__main__":
    harness.run(verdicts)
