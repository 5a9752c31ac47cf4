#!/usr/bin/env python3
"""tests/test_allocations.py [--only WORD] [--most N]

Refuses each allocation of each test in turn, alone and with the next. The tests are those of the programs
crates/NAME/out/NAME_tests, which `rt ci` and `rt test` leave. A test has to pass, or to end with want of memory (or of
a thread) as its error, or with an assertion that found that in place of what it wanted: any other end is an answer that
changed. Of a test with more than N allocations (300 by default) so many are refused, spread evenly, and fewer of one
that takes long.

Prints which tests are covered in part. The last line counts the runs."""
import functools
import pathlib
import re
import time
from collections.abc import Sequence

import harness
from harness import TOP, Verdict, Verdicts
from refusing import Refusing, library, one, two

# What a run is told to have answered where memory ran out: its status and fault and nothing on either output, or, since
# an output of the tests is memory too, a beginning of what it writes.
TOLD = (
    rb"(?:\d+ moments, \d+ calls, gave up \d+: )?"
    rb"1 (?:(?:out of memory|cannot start a thread)\|\|\||cannot write\|(?:.*\n)*.*\|)"
)
WANT = (
    rb"(?:AllocError|AllocFailed \{ \.\. \}|Memory|Thread|RecordFault \{ line: 0, why: Memory \}"
    rb"|EventFault \{ event: \d+, wrong: Memory \}|\"no memory\"|\""
    + TOLD + rb"\")"
)
ENDS = re.compile(
    rb"error: " + WANT + rb"\nthe test failed: its result gives status 1\n"
    rb"|assertion `left == right` failed(?:.*\n)*  left: (?:Some\(|Err\()?" + WANT + rb"\)?\n right: (?:.*\n)*"
    rb"|(?:.*\n)*.* -> (?:.*\n)*.*: " + TOLD + rb"\n"
)
# The crates with tests.
CRATES = ("node_tests", "run_tests")
SECONDS = 10  # so long may the runs of one test take together


Test = tuple[pathlib.Path, str]  # a program, and one of its tests


def tests_of(program: pathlib.Path) -> list[Test]:
    status, out, _ = harness.ended([program, "--list"])
    lines = out.decode().splitlines()
    tests = [(program, line.removesuffix(": test")) for line in lines if line.endswith(": test")]
    if status != 0 or not tests:
        raise SystemExit(f"{program} lists no tests")
    return tests


def spread(count: int, most: int) -> list[int]:
    """The numbers from 1 to the count, or so many of them at most."""
    return sorted({1 + place * count // min(count, most) for place in range(min(count, most))})


def judged(made: pathlib.Path, most: int, test: Test) -> tuple[int, int, list[Verdict]]:
    """How many allocations a test has, how many of them were refused, and the runs."""
    program, name = test
    refusing = Refusing(made, test)
    start = time.monotonic()
    refusing.run(None)
    affordable = int(SECONDS / (time.monotonic() - start) / 2)
    count, runs = refusing.count(), list[Verdict]()
    numbers = spread(count, max(10, min(most, affordable)))
    for allocation in numbers:
        for refuse in (one, two):
            (status, _, fault), _ = refusing.run(refuse(allocation))
            well = status == 0 or ENDS.fullmatch(fault)
            told = f"{program.name} {name}, allocation {refuse(allocation)}"
            runs.append((told, None if well else f"{status} {fault.decode(errors='replace')}"))
    return count, len(numbers), runs


def verdicts(words: Sequence[str]) -> Verdicts:
    parser = harness.Words(__doc__)
    parser.add_argument("--only", default="")
    parser.add_argument("--most", type=int, default=300)
    o = parser.parse_args(words)
    programs = [TOP / "crates" / crate / "out" / f"{crate}_tests" for crate in CRATES]
    tests = [test for program in programs for test in tests_of(program) if o.only in f"{program.name} {test[1]}"]
    allocations = covered = 0
    with harness.new_folder() as folder:
        judge = functools.partial(judged, library(folder), o.most)
        for (program, name), (count, refused, runs) in zip(tests, harness.side_by_side(judge, tests)):
            allocations, covered = allocations + count, covered + refused
            if refused < count:
                print(f"{program.name} {name}: {refused} of {count} allocations")
            yield from runs
    print(f"{len(tests)} tests: {covered} of {allocations} allocations")


if __name__ == "__main__":
    harness.run(verdicts)
