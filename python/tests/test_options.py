"""What a search is asked for: how it goes, what it begins with, what stays; and its record, which is a file."""
import contextlib
import logging
import os
import pathlib
import pickle
import subprocess
import sys
from collections.abc import Callable, Mapping
from typing import Any
from unittest import mock

import psmax
from planner.tests.helpers import CALLED, SHORT, TOP, TWO, InFolder

from .test_api import site

MOST = 60_000  # kilobytes that a caller has, whatever it asks for
# The kilobytes of the most memory that a process had since it began as this program.
PEAK = """int(re.search(r"VmHWM:\\s*(\\d+)", open("/proc/self/status").read())[1])"""
# Many searches, side by side.
MANY = """
import concurrent.futures, re, sys
import psmax
project = psmax.Project.read(sys.argv[1])
with concurrent.futures.ThreadPoolExecutor(4) as pool:
    answers = [*pool.map(lambda _: project.solve(10, 1).makespan, range(1000))]
print(len(answers), *{*answers}, PEAK)
"""
# One search with a long log: it is told of, kept in its file, judged, copied and shown.
LONG = """
import re, sys
import psmax
project = psmax.Project.read(sys.argv[1])
answer = project.solve(60, 1, on_progress=lambda told: None, record=sys.argv[2])
repr(answer), project.verify(sys.argv[2]), answer.record.verify(), answer.record.write(sys.argv[2] + ".copy")
print(answer.makespan, PEAK)
"""


class Options(InFolder):
    def test_seed_and_conflicts(self) -> None:
        """The same ones give the same record with one job, as psprove says."""
        project = psmax.Project.read(self.hard())
        first, again, other = (project.solve(60, 1, seed=seed, conflicts=300) for seed in (3, 3, 4))
        assert first.record is not None and again.record is not None and other.record is not None
        self.assertEqual((first.record.data, first.conflicts), (again.record.data, 300))
        self.assertNotEqual(first.record.data, other.record.data)

    def test_resume(self) -> None:
        """By a record and by its file. What was known is known, and the new record proves it."""
        project, path = psmax.Project.read(self.hard()), self.folder / "record"
        first = project.solve(60, 1, conflicts=300, record=path)
        for resume in (first.record, path):
            second = project.solve(60, 1, conflicts=10, resume=resume)
            assert second.record is not None and second.bound is not None and first.bound is not None
            self.assertLessEqual(second.makespan or 0, first.makespan or 0)
            self.assertGreaterEqual(second.bound, first.bound)
            self.assertEqual(second.record.verify().bound, second.bound)
        junk = self.file("junk", "junk")
        with self.assertRaisesRegex(psmax.BadInput, "junk: event 0 is wrong"):
            project.solve(60, 1, resume=junk)

    def test_bound(self) -> None:
        """By hand, two jobs take 7. None takes less, which is proved; one takes less than 8."""
        two = psmax.Project.read(TWO)
        for bound, wanted in ((7, "unknown bound 7"), (8, "optimal 7"), (-3, "unknown bound 4")):
            self.assertEqual(f"{two.solve(10, 1, bound=bound)}", wanted)
        made = psmax.Project()
        made.activity("dig", 3, due=5)
        self.assertEqual(f"{made.solve(10, 1, bound=-2, minimize='lateness')}", "unknown lateness bound -2")

    def test_frozen_and_now(self) -> None:
        """By hand: the dig begins at 2, so that the lift begins at 6; what has no start begins no sooner than 4."""
        made, dig, lift = site()
        paint = made.activity("paint", 1)
        answer = made.solve(10, 1, frozen={dig: 2}, now=4)
        self.assertEqual((answer[dig].start, answer[lift].start, answer[paint].start >= 4), (2, 6, True))
        assert answer.record is not None
        self.assertEqual((answer.makespan, f"{answer.record.verify()}"), (8, "proved optimal 8"))
        self.assertEqual(made.verify(answer.record.path, frozen={dig: 2}, now=4), answer.record.verify())
        self.assertNotEqual(f"{made.solve(10, 1)}", "optimal 8")
        self.assertEqual(made.solve(10, 1, frozen=answer)["lift"].start, 6)
        self.assertEqual(made.solve(10, 1, frozen={"dig": 0, "lift": 0}).status, "no schedule")

    def test_hint(self) -> None:
        """Starts of some activities, which need not be feasible: the first schedule keeps their order."""
        made, dig, lift = site()
        told: list[psmax.Progress] = []
        answer = made.solve(10, 1, hint={"dig": 3}, on_progress=told.append)
        self.assertEqual((answer.makespan, next(one.schedule["dig"].start for one in told if one.schedule)), (6, 3))
        self.assertEqual(made.solve(10, 1, hint={dig: 0, lift: 0}).makespan, 6)

    def test_replan(self) -> None:
        """By hand: the dig has begun at 0 and takes 5 by now, so the lift begins at 6; a new task needs the crane
        first."""
        made, dig, lift = site()
        before = made.solve(10, 1)
        gone = made.activity("fence", 1)
        before = made.solve(10, 1)
        dig.duration = 5
        made.activity("paint", 1)
        del made[gone.name]
        answer = made.replan(before, 2, 10, 1)
        self.assertEqual((before[dig], answer[dig], answer[lift].start), ((0, 3), (0, 5), 6))
        self.assertGreaterEqual(answer["paint"].start, 2)
        self.assertEqual(made.replan(before, 2, 10, 1, started={"dig": 1})[lift].start, 7)

    def test_wrong(self) -> None:
        """What may not be, and of which type it should be."""
        made, dig, _ = site()
        solve: Any = made.solve
        cases: list[tuple[Mapping[str, Any], type[Exception], str]] = [
            ({"seed": -1}, ValueError, "seed: -1 is not a whole number from 0"),
            ({"conflicts": 1.5}, TypeError, "conflicts: 1.5 is not a whole number"),
            ({"memory": 0}, ValueError, "memory: 0 is not a whole number from 1 to 1,048,576"),
            ({"bound": "x"}, TypeError, "bound: 'x' is not a whole number"),
            ({"gap": -0.1}, ValueError, "gap: -0.1 is not a number from 0 on"),
            ({"gap": "x"}, TypeError, "gap: 'x' is not a number from 0 on"),
            ({"until": 7}, TypeError, "until: 7 is no function"),
            ({"on_progress": 7}, TypeError, "on_progress: 7 is no function"),
            ({"record": 7}, TypeError, "record: 7 is neither a path nor True nor False"),
            ({"seconds": "x"}, TypeError, "seconds: 'x' is not a number above 0"),
            ({"seconds": float("nan")}, ValueError, "seconds: nan is not a number above 0"),
            ({"jobs": 1.5}, TypeError, "jobs: 1.5 is not a whole number"),
            ({"start": 7}, TypeError, "'7' is not a schedule, an answer, or a mapping"),
            ({"start": {"dig": "2026-03-02", "lift": 4}}, ValueError, "the date 2026-03-02 needs the project"),
            ({"hint": {}, "start": {}}, ValueError, "a start and a hint: a search begins with one of both"),
            ({"hint": {"gone": 1}}, KeyError, "no activity 'gone'"),
            ({"frozen": {dig: None}}, TypeError, "the start of dig: None is not a whole number"),
            ({"now": -1}, ValueError, "now: -1 is not a whole number"),
            ({"resume": "/gone"}, psmax.Failed, "cannot read /gone: no such file"),
            ({"proved_by": "tree", "seed": 1}, ValueError, "seed is for a search by lemmas"),
        ]
        for words, kind, wanted in cases:
            with self.subTest(wanted), self.assertRaises(kind) as caught:
                solve(**{"seconds": 10, "jobs": 1, **words})
            self.assertIn(wanted, f"{caught.exception}")
            self.assertIsInstance(caught.exception, psmax.Fault)

    def test_log(self) -> None:
        """The log `psmax` has what plan tells while it searches."""
        with self.assertLogs("psmax", logging.INFO) as told:
            site()[0].solve(10, 1)
        self.assertRegex("\n".join(told.output), r"INFO:psmax:\d\.\d\d s: optimal 6, proved: psprove solve")


class Records(InFolder):
    def test_none(self) -> None:
        """A search without a record leaves no file, and none is written by psprove."""
        made, *_ = site()
        with self.temporary() as left:
            answer = made.solve(10, 1, record=False)
            self.assertEqual((answer.makespan, answer.record, left()), (6, None, []))

    def test_a_full_disk(self) -> None:
        """What is known is not lost with the file of its record."""
        full = mock.patch("psmax.record_file.rename_whole", side_effect=psmax.Failed("cannot write x: no space left"))
        with full, self.assertRaisesRegex(psmax.Failed, "no space left") as caught:
            site()[0].solve(10, 1, record=self.folder / "x")
        answer = caught.exception.answer
        assert isinstance(answer, psmax.Answer) and answer.record is not None
        self.assertEqual((answer.makespan, f"{answer.record.verify()}"), (6, "proved optimal 6"))

    def test_a_file_that_is_gone(self) -> None:
        answer = site()[0].solve(10, 1, record=self.folder / "x")
        os.unlink(self.folder / "x")
        record = answer.record
        assert record is not None
        calls: list[Callable[[], object]] = [record.verify, record.file.read]
        for call in calls:
            with self.assertRaisesRegex(psmax.Failed, "cannot read .*/x: no such file"):
                call()

    def test_its_file(self) -> None:
        """The record of nobody goes; one that is pickled comes with its bytes."""
        made, *_ = site()
        with self.temporary() as left:
            answer = made.solve(10, 1)
            assert answer.record is not None
            self.assertEqual(left(), [os.path.dirname(answer.record.path)])
            self.assertEqual(os.stat(left()[0]).st_mode & 0o077, 0)
            answer.record.write(pathlib.Path(self.folder / "copy"))
            packed = pickle.dumps(answer)
            del answer
            self.assertEqual(left(), [])
            again = pickle.loads(packed)
            self.assertEqual((f"{again.record.verify()}", again["lift"], len(left())), ("proved optimal 6", (4, 6), 1))
            self.assertEqual(again.record.data, (self.folder / "copy").read_bytes())
            del again
            self.assertEqual(left(), [])

    @contextlib.contextmanager
    def temporary(self) -> Any:
        """A folder for files that come and go; what is in it."""
        place = self.folder / "temporary"
        place.mkdir()
        with mock.patch("tempfile.tempdir", str(place)):
            yield lambda: [*map(str, place.iterdir())]

    def test_lateness(self) -> None:
        """By hand: the lift ends at 9, 4 behind its due date; psprove's text has another end, which nobody sees."""
        made = psmax.Project()
        crane = made.resource("crane", 1)
        made.activity("lift", 2, {crane: 1}, due=5)
        made.absence(crane, 1, 7)
        for minimize, wanted in (("lateness", "proved optimal lateness 4"), ("makespan", "proved optimal 9")):
            answer = made.solve(10, 1, minimize=minimize)
            assert answer.record is not None
            self.assertEqual(f"{answer.record.verify()}", wanted)

    def peak(self, script: str, *words: object, **env: str) -> list[int]:
        given = {**os.environ, **CALLED, "PYTHONPATH": str(TOP / "python"), **env}
        call = [sys.executable, "-c", script.replace("PEAK", PEAK), *map(str, words)]
        ran = subprocess.run(call, capture_output=True, text=True, env=given)
        return [*map(int, ran.stdout.split())] or self.fail(ran.stderr)

    def test_memory_of_many(self) -> None:
        *found, most = self.peak(MANY, TWO)
        self.assertEqual(found, [1000, 7])
        self.assertLess(most, MOST)

    def test_memory_of_a_long_one(self) -> None:
        """Ten minutes of a log: 450 MB, by 29 MB in 41 seconds; and 5,000 reports with 1,000 starts each."""
        tells = [{"bound": 6, "starts": SHORT}]
        judge = 'test "$1" = verify && { /bin/cat > /dev/null; echo proved bound 6; exit 0; }'
        stand_in = self.stand_in(tells=tells, then="answers", bytes=450_000_000, times=5000)
        program = self.program("judge", f'{judge}\nexec {stand_in} "$@"')
        makespan, most = self.peak(LONG, TWO, self.folder / "record", PSPROVE=program)
        self.assertEqual((makespan, (self.folder / "record.copy").stat().st_size), (9, 450_000_000))
        self.assertLess(most, MOST)
