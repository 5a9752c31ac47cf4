#!/usr/bin/env python3
"""tests/log_parts.py PSPROVE [--logs N]

Checks logs of lemmas in 1, 2 and 5 parts, by `psprove verify --part`: the logs of tests/logs, the rows of faults.jsonl
there, and N logs (500 by default) that are made of one that is right by one to three damages. All parts have to say
what `psprove verify` says of the whole log. Only where that is a lemma, the part that has its event may be the one to
say so. The last line counts the logs."""
import functools
import json
import random
import re
from collections.abc import Iterator, Sequence
from pathlib import Path

import harness
import judges
from harness import TOP, Ended, Verdict, Verdicts
from log_damages import damaged
from logs import SMALL, project_of

COUNTS = [1, 2, 5]
FAULT = re.compile(rb"psprove: event (\d+): ([a-z]+)\n")


def of_part(psprove: str, project: Path, log: bytes, number: int, count: int) -> Ended:
    words = [psprove, "verify", "--part", f"{number}/{count}", "--project", project]
    return harness.ended(words, log, 600)


def may_be(whole: Ended, part: Ended, number: int, count: int) -> bool:
    """Whether a part says what it may where the whole log is judged so."""
    status, out, fault = whole
    if status == 0:
        return part == (0, b"part %d/%d of " % (number, count) + out, b"")
    found = FAULT.fullmatch(fault)
    if part == whole or found is None:
        return part == whole
    event, why = int(found[1]), found[2]
    later = FAULT.fullmatch(part[2])
    return why == b"lemma" and event % count + 1 != number and (later is None or int(later[1]) > event)


def wrong(psprove: str, project: Path, log: bytes) -> str | None:
    """What is wrong with what parts of a log say, or None."""
    whole = judges.by_program(psprove, project, log)
    for count in COUNTS:
        for number in range(1, count + 1):
            part = of_part(psprove, project, log, number, count)
            if not may_be(whole, part, number, count):
                return f"part {number}/{count} says {part}, all says {whole}"
    return None


def rows(folder: Path) -> Iterator[tuple[str, Path, bytes]]:
    """The logs of a folder, and those by hand."""
    for path in sorted(folder.glob("*.log")):
        yield path.name, project_of(path), path.read_bytes()
    for row in map(json.loads, (folder / "faults.jsonl").read_text().splitlines()):
        yield row["log"], folder / row["project"], bytes.fromhex(row["log"])


def played(psprove: str, wholes: Sequence[Path], seed: int) -> Verdict:
    rng = random.Random(seed)
    whole = rng.choice(wholes)
    return f"log {seed}, {whole.name}", wrong(psprove, project_of(whole), damaged(rng, whole.read_bytes()))


def verdicts(words: Sequence[str]) -> Verdicts:
    parser = harness.Words(__doc__, "psprove")
    parser.add_argument("--logs", type=int, default=500)
    o = parser.parse_args(words)
    folder = TOP / "tests/logs"
    for name, project, log in rows(folder):
        yield name, wrong(o.psprove, project, log)
    small = [path for path in sorted(folder.glob("*.log")) if path.stat().st_size < SMALL]
    yield from harness.side_by_side(functools.partial(played, o.psprove, small), range(o.logs))


if __name__ == "__main__":
    harness.run(verdicts)
