#!/usr/bin/env python3
"""planner/tests/run.py [FOLDER]

Runs the tests of plan, or those in FOLDER, and prints last 'N passed, M failed'."""
import pathlib
import sys
import unittest
from collections.abc import Iterator, Sequence

TOP = pathlib.Path(__file__).resolve().parents[2]


def names(tests: unittest.TestSuite | unittest.TestCase) -> list[str]:
    if isinstance(tests, unittest.TestCase):
        return [tests.id()]
    return [name for test in tests for name in names(test)]


def verdicts(words: Sequence[str] = ()) -> Iterator[tuple[str, str | None]]:
    """Each test, and whether it failed as is shown above."""
    sys.path.insert(0, str(TOP / "python"))
    folder = pathlib.Path(*words).resolve() if words else TOP / "planner" / "tests"
    tests = unittest.TestLoader().discover(str(folder), top_level_dir=str(TOP))
    told = names(tests)
    result = unittest.TextTestRunner(stream=sys.stdout, verbosity=1).run(tests)
    for test, reason in result.skipped:
        print(f"{test.id()} is left out: {reason}")
    bad = {test.id().split(" ")[0] for test, _ in [*result.failures, *result.errors]}
    yield from ((name, "as above" if name in bad else None) for name in sorted({*told, *bad}))


if __name__ == "__main__":
    faults = [fault for _, fault in verdicts(sys.argv[1:])]
    print(f"{faults.count(None)} passed, {len(faults) - faults.count(None)} failed")
    sys.exit(faults.count(None) < len(faults))
