#!/usr/bin/env python3
"""tests/allocations.py PROGRAM [--proofs] [--only WORD]

Refuses each allocation of whole calls of psmax, or with --proofs of psprove, in turn: the Nth alone, the Nth and the
next, and the Nth and all after it, from N = 1 until none is refused. Each run has to end with the usual answer, or with
the fault `out of memory` (with workers also `cannot start a thread`), status 1 and empty outputs.

The last line counts the runs."""
import collections
import functools
import pathlib
from collections.abc import Iterator, Sequence

import harness
from calls import CALLS, PROOFS, SEARCHES, Call
from harness import Verdict, Verdicts
from refusing import Refusing, all_from, library, one, two

AFTER = 3  # so many runs without a refusal end a call: by several threads, allocations are not the same in each run
Ends = collections.Counter[str]


def runs_of(made: pathlib.Path, program: str, ends: Ends, call: Call) -> Iterator[Verdict]:
    """The runs of a call in which allocations are refused. Counts how they end."""
    with harness.new_folder() as folder:
        refusing = Refusing(made, [program, *call.words], call.text, folder)
        for refuse in (one, two, all_from):
            allocation, without = 0, 0
            while without < AFTER:
                allocation += 1
                call.put_files(folder)
                (folder / "record").write_bytes(b"")
                (folder / "record.part").unlink(missing_ok=True)  # a run without memory leaves what it proved
                ended, refused = refusing.run(refuse(allocation))
                record = (folder / "record").read_bytes()
                without = 0 if refused else without + 1
                usual = call.is_usual(ended, record)
                well = usual or refused and call.is_want(ended, record)
                ends["as usual" if usual else ended[2].decode().strip()] += 1
                yield f"{call.name}, allocation {refuse(allocation)}", None if well else f"{ended} {record!r}"


def verdicts(words: Sequence[str]) -> Verdicts:
    parser = harness.Words(__doc__, "program")
    parser.add_argument("--proofs", action="store_true")
    parser.add_argument("--only", default="")
    o = parser.parse_args(words)
    calls = [call for call in (PROOFS + SEARCHES if o.proofs else CALLS) if o.only in call.name]
    ends: Ends = collections.Counter()
    with harness.new_folder() as folder:
        judge = functools.partial(runs_of, library(folder), o.program, ends)
        for runs in harness.side_by_side(lambda call: [*judge(call)], calls):
            yield from runs
    print(f"{len(calls)} calls: " + ", ".join(f"{end} {count}" for end, count in sorted(ends.items())))


if __name__ == "__main__":
    harness.run(verdicts)
