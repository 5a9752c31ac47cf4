"""What one writes in Python: projects, answers, faults, threads, and how a search ends."""
import concurrent.futures
import contextlib
import doctest
import os
import pathlib
import re
import runpy
import shutil
import signal
import subprocess
import sys
import threading
import time
from collections.abc import Callable
from typing import Any
from unittest import mock

import psmax
from planner.tests.helpers import CALLED, EXAMPLES, PROJECTS, TOP, InFolder

# What Ctrl-C ends: it tells of each schedule, and at the end of what the answer has.
ENDLESS = """
import os, sys
import psmax
project = psmax.Project.read(sys.argv[1])
def hear(told):
    if told.schedule:
        print("told", told.schedule.makespan, flush=True)
answer = project.solve(seconds=60, jobs=1, on_progress=hear, proved_by=sys.argv[2], record=sys.argv[3])
print("answer", answer.makespan, answer.bound, answer.status, project.check(answer).is_feasible, flush=True)
"""


def site() -> tuple[psmax.Project, psmax.Activity, psmax.Activity]:
    """Digging and lifting: by hand 6, since the lift waits a day and both need the crew."""
    made = psmax.Project()
    crew, crane = made.resource("crew", 4), made.resource("crane", 1)
    dig, lift = made.activity("dig", 3, {crew: 3}), made.activity("lift", 2, {crew: 2, crane: 1})
    made.lag(dig.end, lift.start, at_least=1, at_most=4)
    return made, dig, lift


def late() -> psmax.Project:
    """Something that is due, in a project that ends by a deadline."""
    made = psmax.Project()
    made.activity("dig", 3, due=2)
    made.lag(made.start, made.end, at_most=9)
    return made


class Solving(InFolder):
    def test_both_programs(self) -> None:
        made, dig, lift = site()
        for proved_by in ("lemmas", "tree"):
            heard: list[psmax.Progress] = []
            record = self.folder / proved_by
            answer = made.solve(10, 2, on_progress=heard.append, record=record, proved_by=proved_by)
            self.assertEqual((answer.status, answer.makespan, answer.bound), (psmax.Status.OPTIMAL, 6, 6))
            self.assertEqual((answer[dig], answer["lift"].start), ((0, 3), 4))
            assert answer.record is not None and heard[-1].schedule is not None
            self.assertEqual((f"{answer.record.verify()}", record.read_bytes()),
                             ("proved optimal 6", answer.record.data))
            self.assertEqual((made.verify(record), made.verify(record.read_bytes()).bound), (answer.record.verify(), 6))
            self.assertEqual((heard[-1].is_proved, heard[-1].value, heard[-1].schedule["lift"]), (True, 6, (4, 6)))
            self.assertEqual(answer.to_dict()["starts"], {"dig": 0, "lift": 4})
            self.assertEqual(made.solve(10, 1, start=answer, proved_by=proved_by).makespan, 6)

    def test_without_schedule(self) -> None:
        made, dig, _ = site()
        made.lag(made.start, dig.end, at_most=2)
        answer = made.solve(10, 1)
        self.assertEqual((answer.status, answer.makespan, answer.bound), (psmax.Status.NO_SCHEDULE, None, None))
        self.assertIsNone(made.earliest())
        assert answer.record is not None
        self.assertEqual(answer.record.verify(), psmax.Proof("proved no schedule", None, False))
        with self.assertRaisesRegex(psmax.BadInput, "the answer is `no schedule`, so there are no starts"):
            answer[dig]

    def test_lateness_and_absences(self) -> None:
        """By hand: the crane is away until 7, so the lift ends at 9; it is due at 5."""
        made = psmax.Project()
        crane = made.resource("crane", 1)
        lift = made.activity("lift", 2, {crane: 1}, due=5)
        made.absence(crane, 1, 7)
        answer = made.solve(10, 1, minimize="lateness")
        self.assertEqual((answer.lateness, answer.bound, answer[lift]), (4, 4, (7, 9)))
        self.assertEqual(made.solve(10, 1).makespan, 9)
        changed = made.whatif(10, 1)[0]
        self.assertEqual((changed.kind, changed.value, changed.subject), (psmax.ChangeKind.RESOURCE, 2, crane))

    def test_check_whatif_and_float(self) -> None:
        made, dig, lift = site()
        self.assertTrue(made.check({dig: 0, lift: 7}))
        kinds = [(one.kind, f"{one}") for one in made.check({"dig": 0, "lift": 2}).violations]
        self.assertEqual(kinds, [
            (psmax.ViolationKind.LAG, "lift must start at least 1 after dig ends, and starts 1 before it does"),
            (psmax.ViolationKind.OVERLOAD, "at 2, 5 units of crew are in use, of which there are 4: dig, lift")])
        earliest = made.earliest()
        assert earliest is not None
        self.assertEqual(earliest.to_dict(), {"dig": 0, "lift": 4})
        spare = made.activity("paint", 1)
        floats = made.float(made.solve(10, 1), 10, 1)
        self.assertEqual((floats[dig], floats[spare]), (psmax.Float(0, 0, True), psmax.Float(5, 5, True)))
        self.assertTrue(floats[dig].is_critical)
        self.assertEqual({one.value for one in made.whatif(10, 2)}, {6})

    def test_half_a_second(self) -> None:
        """Less than a second is kept, and gives a schedule and a bound that are proved."""
        project, begun = psmax.Project.read(self.hard()), time.monotonic()
        answer = project.solve(0.5, 1)
        self.assertLess(time.monotonic() - begun, 5)
        self.assertEqual(answer.status, psmax.Status.FEASIBLE)
        self.assertTrue(project.check(answer))
        assert answer.record is not None
        self.assertEqual(answer.record.verify().bound, answer.bound)

    def test_a_long_makespan(self) -> None:
        """By hand: one crane lifts twice, 900,000 periods each time."""
        made = psmax.Project()
        crane = made.resource("crane", 1)
        for number in range(2):
            made.activity(f"lift {number}", 900_000, {crane: 1})
        for proved_by in ("lemmas", "tree"):
            answer = made.solve(10, 1, proved_by=proved_by)
            self.assertEqual((answer.status, answer.makespan), (psmax.Status.OPTIMAL, 1_800_000))

    def test_side_by_side(self) -> None:
        """Threads may search at once, each with a project of its own or with the same one."""
        made, *_ = site()
        with concurrent.futures.ThreadPoolExecutor(4) as pool:
            answers = [pool.submit(made.solve, 10, 1, proved_by=by) for by in ("lemmas", "tree") * 4]
            self.assertEqual({one.result().makespan for one in answers}, {6})

    def test_who_listens_fails(self) -> None:
        made, *_ = site()
        before = signal.getsignal(signal.SIGINT)
        with self.assertRaises(ZeroDivisionError):
            made.solve(10, 2, on_progress=lambda told: 1 // 0)
        self.assertEqual(signal.getsignal(signal.SIGINT), before)

    def test_faults(self) -> None:
        made, dig, lift = site()
        other, far, _ = site()
        crew = made.resources[0]
        text: Any = "crew"
        texts: Any = ["crew"]
        activity: Any = far
        cases: list[tuple[Callable[[], object], str]] = [
            (lambda: made.activity("dig", 1), "a second activity 'dig'"),
            (lambda: made.activity("", 1), "the name of an activity is not a text"),
            (lambda: made.activity("x", -1), "the duration of x: -1 is not a whole number from 0 to 1,000,000"),
            (lambda: made.activity("x", True), "the duration of x: True is not a whole number"),
            (lambda: made.activity("x", 1, {other.resources[0]: 1}), "'crew' is no resource of this project"),
            (lambda: made.lag(dig.end, far.start, at_least=0), "'dig' is no activity of this project"),
            (lambda: made.activity("x", 1, {text: 1}), "'crew' is not a resource"),
            (lambda: made.activity("x", 1, texts), "'['crew']' is not a mapping from resources to demands"),
            (lambda: made.absence(text, 0), "'crew' is not a resource"),
            (lambda: made.lag(activity, far.start, at_least=0), "is not a start or an end"),
            (lambda: made.lag(dig.end, lift.start), "a lag has a least length, a greatest one, or both"),
            (lambda: made["gone"], "no activity 'gone'"),
            (lambda: made.check({"dig": 0}), "no start for activity 'lift'"),
            (lambda: made.solve(start={dig: 0, lift: 0}),
             "not a schedule: lift must start at least 1 after dig ends, and starts 3 before it does"),
            (lambda: made.solve(seconds=0), "seconds: 0 is not a number above 0"),
            (lambda: made.solve(jobs=65), "jobs: 65 is not a whole number from 1 to 64"),
            (lambda: made.solve(proved_by="luck"), "proved_by luck: neither lemmas nor tree"),
            (lambda: made.solve(minimize="cost"), "minimize cost: neither makespan nor lateness"),
            (lambda: made.solve(minimize="lateness"), "nothing is due, so there is no lateness to minimize"),
            (lambda: (made.absence(crew, 3, 9, 2), made.absence(crew, 5, 6, 3)),
             "5 of crew are away at 5, and there are 4"),
            (lambda: late().solve(minimize="lateness"), "with the lateness the project's end has no lags"),
            (lambda: made.absence(crew, 3, 3), "until when crew is away: 3 is not a whole number from 4"),
            (lambda: made.write(self.folder / "x.txt"), "x.txt: its suffix names no format; name one of json, mspdi"),
            (lambda: psmax.Project.read("a\nb", "csv"), "the text: format 'csv': none of json, mspdi"),
        ]
        for call, wanted in cases:
            with self.subTest(wanted), self.assertRaises(psmax.BadInput) as caught:
                call()
            self.assertIn(wanted, f"{caught.exception}")
        with self.assertRaisesRegex(psmax.Failed, "cannot read /gone: no such file"):
            psmax.Project.read(pathlib.Path("/gone"))

    def test_a_wrong_record(self) -> None:
        made, *_ = site()
        answer, harder = made.solve(10, 1), psmax.Project.read(EXAMPLES / "building-site.sch").solve(10, 1)
        assert answer.record is not None and harder.record is not None
        with self.assertRaisesRegex(psmax.BadInput, "^the record: event"):
            made.verify(harder.record.data)

    def test_a_program_that_fails(self) -> None:
        """What was known until then is kept by the fault."""
        made, dig, lift = site()
        lost = self.program("lost", "exit 1")
        with mock.patch.dict(os.environ, {"PSPROVE": lost}), self.assertRaises(psmax.Failed) as caught:
            made.solve(10, 1, start={dig: 0, lift: 5})
        assert isinstance(caught.exception.answer, psmax.Answer)
        self.assertEqual(caught.exception.answer.makespan, 7)


class Interrupted(InFolder):
    def test_ctrl_c(self) -> None:
        """It never answers with a longer schedule than it has reported, and the record is in its file."""
        for place, proved_by in enumerate(("lemmas", "tree", "lemmas")):
            path = self.hard() if proved_by == "lemmas" else PROJECTS / "vaccine-lots.sch"
            record = self.folder / f"record {place}"
            words = [sys.executable, "-c", ENDLESS, str(path), proved_by, str(record)]
            child = subprocess.Popen(words, stdout=subprocess.PIPE, stderr=subprocess.PIPE, text=True, env={
                **os.environ, **CALLED, "PYTHONPATH": str(TOP / "python")})
            assert child.stdout is not None and child.stderr is not None
            told = [int(child.stdout.readline().split()[1])]
            time.sleep(0.3 * place)
            child.send_signal(signal.SIGINT)
            *more, last = child.stdout.read().splitlines()
            told += [int(line.split()[1]) for line in more]
            with self.subTest(proved_by):
                self.assertEqual((child.wait(timeout=30), child.stderr.read()), (0, ""))
                _, makespan, bound, status, is_feasible = last.split()
                self.assertEqual((int(makespan), status, is_feasible), (min(told), "feasible", "True"))
                self.assertLess(int(bound), int(makespan))
                if proved_by == "lemmas":
                    self.assertGreater(record.stat().st_size, 0)
            child.stdout.close()
            child.stderr.close()

    def test_in_a_thread(self) -> None:
        """Python hands Ctrl-C to its main thread alone; a search elsewhere changes nothing of that."""
        made, *_ = site()
        found: list[psmax.Answer] = []
        before = signal.getsignal(signal.SIGINT)
        thread = threading.Thread(target=lambda: found.append(made.solve(10, 1)))
        thread.start()
        self.assertEqual(signal.getsignal(signal.SIGINT), before)
        thread.join()
        self.assertEqual(found[0].makespan, 6)


class Documents(InFolder):
    def test_api_page(self) -> None:
        """It is what its script makes of the sources today."""
        made = runpy.run_path(str(TOP / "docs" / "api_page.py"))["page"]()
        self.assertEqual((TOP / "docs" / "API.md").read_text(), made, "run docs/api_page.py")

    def test_examples(self) -> None:
        """Those of README.md and docs/PYTHON.md run as they stand, in a folder with the files of the tests."""
        shutil.copytree(EXAMPLES / "formats", self.folder, dirs_exist_ok=True)
        for path in (TOP / "README.md", TOP / "docs" / "PYTHON.md"):
            blocks = re.findall(r"^```python\n(.*?)^```$", path.read_text(), re.M | re.S)
            test = doctest.DocTestParser().get_doctest("\n".join(blocks), {}, path.name, str(path), 0)
            runner, told = doctest.DocTestRunner(verbose=False), list[str]()
            with contextlib.chdir(self.folder), mock.patch.dict(os.environ, CALLED):
                runner.run(test, out=told.append)
            self.assertEqual((runner.failures, runner.tries > 4), (0, True), "".join(told))
