"""What a search tells while it goes on, and what is left of it where it ends early."""
import itertools
import math
import os
import subprocess
import sys
import time
from unittest import mock

import psmax
from planner.tests.helpers import TELLS, TOP, TWO, InFolder


# What ends while a thread of it searches, which waits for a file as psprove does.
LEFT = """
import sys, threading, time
import psmax
told = threading.Event()
project = psmax.Project.read(sys.argv[1])
threading.Thread(target=lambda: project.solve(60, 1, on_progress=lambda _: told.set()), daemon=True).start()
told.wait()
"""


class Live(InFolder):
    def setUp(self) -> None:
        super().setUp()
        self.heard: list[psmax.Progress] = []

    def feasible(self, project: psmax.Project) -> None:
        """Each schedule that was told, by psmax."""
        for told in self.heard:
            if told.schedule is not None:
                self.assertTrue(project.check(told.schedule))
                self.assertEqual(told.makespan, told.schedule.makespan)

    def test_what_is_told(self) -> None:
        """Feasible starts and a bound; each time one of both is better, and neither is worse. The last is the
        answer."""
        project = psmax.Project.read(self.hard())
        answer = project.solve(2, 2, on_progress=self.heard.append)
        self.feasible(project)
        pairs = [(math.inf if told.value is None else told.value, -(told.bound or 0)) for told in self.heard]
        for (value, bound), (next_value, next_bound) in itertools.pairwise(pairs):
            self.assertTrue(next_value <= value and next_bound <= bound and (next_value, next_bound) != (value, bound))
        self.assertEqual((answer.makespan, answer.bound), (self.heard[-1].value, self.heard[-1].bound))
        self.assertTrue(len(self.heard) > 2 and all(told.is_proved for told in self.heard))

    def test_lateness_and_absences(self) -> None:
        """By hand: the crane is away from 2 until 6, so that lifts of 3 and 4 begin then, and the second ends at 13.
        Both are due at 6."""
        made = psmax.Project()
        crane = made.resource("crane", 1)
        for days in (3, 4):
            made.activity(f"lift {days}", days, {crane: 1}, due=6)
        made.absence(crane, 2, 6)
        answer = made.solve(10, 1, minimize="lateness", on_progress=self.heard.append)
        self.feasible(made)
        last = self.heard[-1]
        assert last.schedule is not None
        self.assertEqual((answer.lateness, last.value, last.bound, last.schedule.lateness), (7, 7, 7, 7))

    def test_what_dies(self) -> None:
        """The fault has the best that was told, without a record."""
        with (mock.patch.dict(os.environ, {"PSPROVE": self.stand_in(tells=TELLS, then="dies")}),
              self.assertRaisesRegex(psmax.Failed, "psprove solve was ended by signal 9") as caught):
            psmax.Project.read(TWO).solve(10, 1, on_progress=self.heard.append)
        answer = caught.exception.answer
        assert isinstance(answer, psmax.Answer)
        self.assertEqual((answer.status, answer.makespan, answer.bound, answer.record),
                         (psmax.Status.FEASIBLE, 9, 6, None))
        self.assertEqual([(told.value, told.bound) for told in self.heard], [(None, 4), (12, 4), (9, 4), (9, 6)])

    def test_who_listens_fails(self) -> None:
        """That ends the search, and comes out of it; the record is in its file."""
        record = self.folder / "record"
        with (mock.patch.dict(os.environ, {"PSPROVE": self.stand_in(tells=TELLS, then="waits")}),
              self.assertRaises(ZeroDivisionError)):
            psmax.Project.read(TWO).solve(60, 1, on_progress=lambda told: 1 // 0, record=record)
        self.assertTrue(record.exists())

    def test_the_end_of_python(self) -> None:
        """Where Python ends, psprove ends with it."""
        ended = self.folder / "ended"
        stand_in = self.stand_in(tells=TELLS, then="waits")
        waits = self.program("waits", f'{stand_in} "$@"; echo $? > {ended}')
        begun = time.monotonic()
        ran = subprocess.run([sys.executable, "-c", LEFT, str(TWO)], capture_output=True, text=True, timeout=60, env={
            **os.environ, "PSPROVE": waits, "PYTHONPATH": str(TOP / "python")})
        self.assertLess(time.monotonic() - begun, 20)
        self.assertEqual((ran.returncode, ran.stderr, ended.read_text()), (0, "", "3\n"))

    def test_what_does_not_end(self) -> None:
        """It is killed, and its answer is what it told."""
        begun = time.monotonic()
        with mock.patch.dict(os.environ, {"PSPROVE": self.stand_in(tells=TELLS, then="sticks")}):
            answer = psmax.Project.read(TWO).solve(0.5, 1)
        self.assertLess(time.monotonic() - begun, 20)
        self.assertEqual((answer.makespan, answer.bound, answer.record), (9, 6, None))
