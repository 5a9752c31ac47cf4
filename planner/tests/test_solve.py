import pathlib
import re
import time

from psmax.clock import ENDS

from .helpers import EXAMPLES, INPUTS, PROJECTS, PSPROVE, InFolder, plan, psmax, started, told_until

ANSWERS = {
    "two-jobs": "optimal 7",
    "two-jobs-close-lags": "no schedule",
    "two-jobs-deadline-6": "no schedule",
    "two-jobs-deadline-7": "optimal 7",
    "two-jobs-positive-cycle": "no schedule",
    "two-jobs-longest-duration": "optimal 1000004",
    "three-jobs-capacity-two": "optimal 4",
    "three-jobs-lags": "optimal 5",
    "one-job-too-big": "no schedule",
    "empty-project": "optimal 0",
    "job-shop-6-by-6": "optimal 55",
}


class Answers(InFolder):
    def first_line(self, path: pathlib.Path, *words: str) -> str:
        ran = plan("solve", path, *words)
        self.assertIn(ran.returncode, (0, 3), ran.stderr)
        return ran.stdout.partition("\n")[0]

    def test_worked_projects(self) -> None:
        """By hand, but for 55, the known optimum of Fisher and Thompson's first job shop."""
        for name, answer in ANSWERS.items():
            with self.subTest(name):
                self.assertEqual(self.first_line(INPUTS / f"{name}.sch"), answer)

    def test_examples_as_psmax_proves_them(self) -> None:
        for name in ("building-site", "plant-shutdown", "test-bench"):
            with self.subTest(name):
                path = EXAMPLES / f"{name}.sch"
                proved = psmax("solve", given=path.read_bytes()).partition("\n")[0]
                self.assertEqual(self.first_line(path), proved)

    def test_planners_projects(self) -> None:
        """Each is settled; psmax alone proves some of them, with the same makespan."""
        for path in sorted(PROJECTS.glob("*.sch")):
            with self.subTest(path.name):
                self.assertRegex(self.first_line(path, "--seconds", "200", "--jobs", "1"), "^optimal ")

    def test_the_answer_is_a_schedule(self) -> None:
        ran = plan("solve", EXAMPLES / "plant-shutdown.sch")
        told = psmax("check", "--project", EXAMPLES / "plant-shutdown.sch", given=ran.stdout.encode())
        self.assertEqual(told, f"feasible {ran.stdout.split()[1]}\n")

    def test_out_and_svg(self) -> None:
        site, best, chart = EXAMPLES / "building-site.sch", self.folder / "best", self.folder / "chart.svg"
        ran = plan("solve", site, "--out", best, "--svg", chart)
        self.assertEqual(ran.stdout, "optimal 36\n")
        told = psmax("check", "--project", site, given=best.read_bytes())
        self.assertEqual(told, "feasible 36\n")
        self.assertEqual(chart.read_text().count('class="bar"'), 13)
        self.assertEqual(sorted(path.name for path in self.folder.iterdir()), ["best", "chart.svg"])

    def test_no_schedule_writes_no_file(self) -> None:
        ran = plan("solve", INPUTS / "two-jobs-close-lags.sch", "--out", self.folder / "best")
        self.assertEqual((ran.returncode, ran.stdout), (0, "no schedule\n"))
        self.assertEqual(list(self.folder.iterdir()), [])


class Starts(InFolder):
    """A schedule that is handed in, and the best schedule, which is handed on."""

    def test_by_hand(self) -> None:
        """Two jobs of 3 and 4 on one machine, one after the other, as starts and as answers of psmax."""
        path = INPUTS / "two-jobs.sch"
        for given in ("0 0\n1 0\n2 3\n3 7\n", "optimal 7\n0 0\n1 0\n2 3\n3 7\n",
                      '{"bound":6,"makespan":7,"starts":[0,0,3,7],"status":"feasible"}\n'):
            with self.subTest(given):
                starts = self.file("given", given)
                ran = plan("solve", path, "--start", starts)
                self.assertEqual((ran.returncode, ran.stdout), (0, "optimal 7\n0 0\n1 0\n2 3\n3 7\n"), ran.stderr)
                self.assertIn(f"schedule 7: {starts}, by check\n", ran.stderr)

    def test_what_is_no_schedule(self) -> None:
        path = INPUTS / "two-jobs.sch"
        for given, text in (("0 0\n1 0\n2 2\n3 6\n", "not a schedule: at 2, 2 units of resource 0"),
                            ("0 0\n2 0\n3 7\n", "no start for activity 1"),
                            ("hello\n", "line 1: not an activity"), ("no schedule\n", "no schedule"), ("", "empty"),
                            ("optimal 7\n", "no starts below it")):
            with self.subTest(given):
                self.refused(plan("solve", path, "--start", self.file("given", given)), 2, "given", text)
        self.refused(plan("solve", path, "--start", self.folder / "gone"), 1, "cannot read", "gone")
        starts = self.file("given", "0 0\n")
        self.refused(plan("solve", self.file("bad.sch", "x"), "--start", starts), 2, "bad.sch: word 0")

    def test_what_psprove_is_handed(self) -> None:
        """It is started once, with all jobs and the whole time, from the schedule that is there."""
        calls, handed = self.file("calls", ""), self.folder / "handed"
        spy = self.program("spy", f"""case "$1" in solve) echo "$@" >> {calls};; esac
            for file; do case $before in --start) cat "$file" > {handed};; esac; before=$file; done
            exec {PSPROVE} "$@" """)
        path, starts = INPUTS / "two-jobs.sch", "0 0\n1 0\n2 5\n3 9\n"
        ran = plan("solve", path, "--seconds", "200", "--jobs", "3", "--start", self.file("given", starts), psprove=spy)
        self.assertEqual(ran.stdout.partition("\n")[0], "optimal 7", ran.stderr)
        [line] = calls.read_text().splitlines()
        self.assertTrue(line.startswith("solve --json --progress json --seconds 200 --jobs 3 --until "), line)
        self.assertEqual(handed.read_text(), starts)

    def test_what_contradicts_itself(self) -> None:
        """By hand: two jobs of 3 and 4 on one machine, which a program says take 8 at least, or can't be done."""
        starts = self.file("given", "0 0\n1 0\n2 3\n3 7\n")
        for said in ('"bound":8,"makespan":null,"starts":null,"status":"unknown"',
                     '"bound":null,"makespan":null,"starts":null,"status":"no schedule"'):
            liar = self.program("liar", "for file; do case $before in --record) echo > $file; esac; before=$file; "
                                "done\n"
                                f"echo '{{\"conflicts\":1,{said}}}'\nexit 3")
            ran = plan("solve", INPUTS / "two-jobs.sch", "--start", starts, psprove=liar)
            self.assertEqual((ran.returncode, ran.stdout[:18]), (1, "feasible 7 bound 0"))
            self.assertIn("plan: psprove contradicts itself: a schedule of 7, and ", ran.stderr)


class Records(InFolder):
    def verified(self, *words: object) -> tuple[int, str]:
        ran = plan("verify", *words)
        return ran.returncode, ran.stdout.partition("\n")[0]

    def test_what_is_proved(self) -> None:
        """By hand, as in ANSWERS: each record is accepted, and says what was answered."""
        record = self.folder / "record"
        for name, meaning in (("two-jobs", "no schedule of {} is shorter than 7, and has one that long"),
                              ("two-jobs-close-lags", "there is no schedule of {}")):
            path = INPUTS / f"{name}.sch"
            self.assertEqual(plan("solve", path, "--record", record).returncode, 0)
            self.assertEqual(self.verified(path, record), (0, f"{record} proves that {meaning.format(path)}."))
            self.assertIn("verify_log.py judges it without psprove.", plan("verify", path, record).stdout)

    def test_a_stopped_search(self) -> None:
        """The record proves the bound that is told."""
        path, record = self.hard(), self.folder / "record"
        ran = plan("solve", path, "--record", record, "--seconds", "0.5", "--jobs", "1")
        bound = ran.stdout.partition("\n")[0].split()[-1]
        told = f"{record} proves that no schedule of {path} is shorter than {bound}."
        self.assertEqual(self.verified(path, record), (0, told))

    def test_a_record_of_psmax(self) -> None:
        path, record = INPUTS / "two-jobs.sch", self.folder / "record"
        psmax("solve", "--record", record, given=path.read_bytes())
        self.assertIn("one that long", self.verified(path, record)[1])
        self.assertIn("verify.py judges it without psmax.", plan("verify", path, record).stdout)

    def test_what_has_started(self) -> None:
        """By hand: 2 has started first, so 1 follows on day 4; on day 1 nothing can be changed any more."""
        path, record = INPUTS / "two-jobs.sch", self.folder / "record"
        words = (path, "--start", self.file("old", "0 0\n1 5\n2 0\n3 8\n"), "--frozen", "1")
        self.assertEqual(plan("solve", *words, "--record", record).stdout, "optimal 7\n0 0\n1 4\n2 0\n3 7\n")
        status, told = self.verified(words[0], record, *words[1:])
        self.assertEqual((status, told[-35:]), (0, " shorter than 7, and has one that long."[-35:]))
        self.assertIn("that keeps what ", told)

    def test_wrong_records(self) -> None:
        path, record = INPUTS / "two-jobs.sch", self.folder / "record"
        for text, told in ((b"record 3\n\x02\x07\x10", "its step 1 is wrong (claim)"),
                           (b"record 3\n\x02\x07", "its step 1 is wrong (short)"),
                           (b"hello\n", "its step 0 is wrong (form)"), (b"", "its step 0 is wrong (short)")):
            self.file("record", text)
            self.assertEqual(self.verified(path, record), (4, f"{record} proves nothing of {path}: {told}"))
        self.refused(plan("verify", path, self.file("record", "record 1\n")), 2, "record: line 2: short")
        self.refused(plan("verify", self.file("bad.sch", "x"), record), 2, "bad.sch: word 0")
        self.refused(plan("verify", path, self.folder / "gone"), 1, "cannot read")

    def test_what_is_no_record_stays(self) -> None:
        for text in ("my own words\n", "optimal 7\n"):
            mine = self.file("mine", text)
            self.refused(plan("solve", INPUTS / "two-jobs.sch", "--record", mine), 2,
                         "mine is there, and no record, and would be lost")
            self.assertEqual(mine.read_text(), text)


class Progress(InFolder):
    LINE = re.compile(r" *\d+\.\d\d s  (?:schedule (\d+)(?:: .+)?|bound (\d+)|"
                      r"feasible (\d+) bound (\d+), proved: psprove solve .+|"
                      r"the (second is|.* seconds are) over|stopped)")

    def held(self, out: str, path: pathlib.Path, told: str) -> None:
        """A stopped answer is the best that was told, and a schedule that psmax finds feasible."""
        found = [self.LINE.fullmatch(line) or self.fail(line) for line in told.splitlines()]
        schedule = min(int(line[place]) for line in found for place in (1, 3) if line[place])
        bound = max(int(line[place]) for line in found for place in (2, 4) if line[place])
        self.assertEqual(out.partition("\n")[0], f"feasible {schedule} bound {bound}")
        self.assertEqual(psmax("check", "--project", path, given=out.encode()), f"feasible {schedule}\n")

    def test_time_limit(self) -> None:
        begun, path = time.monotonic(), self.hard()
        with started("solve", path, "--seconds", "1", "--jobs", "1") as child:
            out, told = child.communicate()
        self.assertLess(time.monotonic() - begun, 60)
        self.assertEqual(child.returncode, 3)
        self.assertTrue(told.endswith("the second is over\n"), told)
        self.held(out, path, told)

    def test_interrupt(self) -> None:
        path = self.hard()
        for sent in ENDS:
            with self.subTest(sent), started("solve", path, "--jobs", "2") as child:
                assert child.stdout is not None and child.stderr is not None
                told = told_until(child, "  schedule ")
                child.send_signal(sent)
                told += child.stderr.read()
                out = child.stdout.read()
                self.assertEqual(child.wait(timeout=30), 3)
                self.assertTrue(told.endswith("stopped\n"), told)
                self.held(out, path, told)
