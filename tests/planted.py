#!/usr/bin/env python3
"""tests/planted.py PSMAX PSPROVE [--records N] [--seed S] [--only WORD] [--first K]

Plants bugs into copies of the two checkers in Python, one at a time, and has tests/fuzz.py find each within N records
(5,000 by default, as many as `make test` makes). Prints after how many, and whether it accepts what is false of a
project there; otherwise it says something else than the program. With --first only the first K bugs are planted. The
last line counts the bugs: one that is not found has failed."""
import contextlib
import shutil
from collections.abc import Iterator, Sequence
from pathlib import Path
from typing import NamedTuple

import harness
import fuzz
from harness import TOP, Verdicts

CHECKERS = ("verify.py", "verify_log.py")


class Bug(NamedTuple):
    """What is wrong, in which checker, the text that stands there, and the text in its place."""
    name: str
    file: str
    old: str
    new: str


RECORDS, LOGS = CHECKERS
BUGS = [
    Bug("two fit where they just do not", RECORDS, "for i in activities) > self", "for i in activities) > 1 + self"),
    Bug("a pair's arc is longer by one", RECORDS, "    weight = project.durations[before]\n",
        "    weight = project.durations[before] + 1\n"),
    Bug("a load that just fits is none", LOGS, "    return load > ", "    return load >= "),
    Bug("a lemma may use itself", LOGS, "        has_room = len(arcs) < 2 or slot < SLOTS and slot not in "
        "self.lemmas\n",
        "        has_room = len(arcs) < 2 or slot < SLOTS and self.lemmas.setdefault(slot, arcs) is arcs\n"),
    Bug("a pair is forced that may just be kept", RECORDS, "rows[before][after] > -project",
        "rows[before][after] >= -project"),
    Bug("a node is cut whose bound is less by one", RECORDS, "bound(project, rows) >= makespan",
        "bound(project, rows) + 1 >= makespan"),
    Bug("a solved node may be infeasible", RECORDS, " >= makespan and project.is_feasible(rows[0])", " >= makespan"),
    Bug("a claim may be above its starts", RECORDS, "starts[-1] == makespan)", "starts[-1] <= makespan)"),
    Bug("the last lines are not looked at", RECORDS, "if line <= len(rows) or tail:", "if tail:"),
    Bug("pairs of a set change their members", RECORDS, "pairs = [(i, j) for", "pairs = [(j, i) for"),
    Bug("a drop leaves its lemma", LOGS, "self.lemmas.pop(slot, None)", "self.lemmas.get(slot)"),
    Bug("two arcs may be left", LOGS, "len(left) > 1", "len(left) > 2"),
    Bug("a clique has room that it just fills", LOGS, "sum(lengths) <= end - start", "sum(lengths) < end - start"),
    Bug("activities that just overlap run apart", LOGS, "weight(a, b) >= project.durations[a]",
        "weight(a, b) >= project.durations[a] - 1"),
    Bug("a row takes the lesser weights", LOGS, "return other ^ (first", "return first ^ (first"),
    Bug("a tour has room that it just fills", LOGS, "length for m in intervals) <= end - start",
        "length for m in intervals) < end - start"),
    Bug("an interval may begin before its window", LOGS, " >= start - m.at", " >= start - m.at - 1"),
    Bug("intervals that just overlap lie apart", LOGS, "weight(k.activity, m.activity) >= back",
        "weight(k.activity, m.activity) >= back - 1"),
    Bug("a delay may be short by one", LOGS, "there <= first and", "there <= first + 1 and"),
    Bug("a drop leaves its delays", LOGS, "{}).pop(slot, None)", "{}).get(slot)"),
    Bug("a tour may have no intervals", LOGS, "if not intervals or not rise", "if not rise"),
    Bug("a schedule may be as long as the best", LOGS, "starts[-1] >= self.ceiling", "starts[-1] > self.ceiling"),
    Bug("bytes after the claim are not looked at", LOGS, "if self.stream.read(1):", "if self.stream.read(0):"),
]


@contextlib.contextmanager
def planted(bug: Bug) -> Iterator[Path]:
    """A folder with copies of the checkers, of which one has the bug."""
    with harness.new_folder() as folder:
        for name in CHECKERS:
            shutil.copy(TOP / "tests" / name, folder)
        text = (folder / bug.file).read_text()
        if text.count(bug.old) != 1:
            raise ValueError(f"{bug.file} has {bug.old!r} {text.count(bug.old)} times")
        (folder / bug.file).write_text(text.replace(bug.old, bug.new))
        yield folder


def how_found(words: Sequence[str]) -> str | None:
    """What the fuzzer says first of a checker with a bug, or None."""
    for count, (_, wrong) in enumerate(fuzz.verdicts(words), 1):
        if wrong:
            return f"after {count} records" + (", accepts what is false" if fuzz.tells_falsehood(wrong) else "")
    return None


def verdicts(words: Sequence[str]) -> Verdicts:
    parser = harness.Words(__doc__, "psmax", "psprove")
    parser.add_argument("--records", default="5000")
    parser.add_argument("--seed", default="0")
    parser.add_argument("--only", default="")
    parser.add_argument("--first", type=int, default=len(BUGS))
    o = parser.parse_args(words)
    for bug in BUGS[:o.first]:
        if o.only in bug.name:
            with planted(bug) as folder:
                found = how_found([o.psmax, o.psprove, "--records", o.records, "--seed", o.seed, "--checkers",
                                   str(folder)])
            print(f"{bug.name}: {found}", flush=True)
            yield bug.name, None if found else f"not found in {o.records} records"


if __name__ == "__main__":
    harness.run(verdicts)
