"""Total float: the latest start at which some schedule is no longer, with a proof."""
import csv
import subprocess
import sys
from unittest import mock

from .brute import NAMES, small
from .helpers import INPUTS, TOP, InFolder, plan, psmax

# By hand: one crane, on which a (3) and b (4) take 7, and c (2) runs alone. Each of a and b may come second, so a can
# start at 4 and b at 3, and none is critical, though neither can move while the other stays. c can start at 5.
TABLE = "activity,days,crane (1)\na,3,1\nb,4,1\nc,2,\n"

AWAY = "resource,from,to\ncrane,8,20\n"  # behind the end of these schedules


class Total(InFolder):
    def rows(self, path: object) -> dict[str, dict[str, str]]:
        with open(f"{path}/float.csv") as file:
            return {row["name"]: row for row in csv.DictReader(file)}

    def test_by_hand(self) -> None:
        table, answer = self.file("p.csv", TABLE), self.file("a.csv", "name,start\na,0\nb,3\nc,0\n")
        free = plan("float", table, answer).stdout
        self.assertEqual([line.split()[-1] for line in free.splitlines()[1:]], ["0", "5", "0"])
        self.assertNotIn("critical", free)
        ran = plan("float", table, answer, "--total", "--out", self.folder / "out")
        self.assertEqual((ran.returncode, ran.stderr), (0, ""))
        self.assertEqual([line.split() for line in ran.stdout.splitlines()], [
            ["start", "latest", "total", "free"], ["1", "a", "0", "4", "4", "0"], ["3", "c", "0", "5", "5", "5"],
            ["2", "b", "3", "3", "0", "0", "critical"]])
        self.assertEqual(self.rows(self.folder / "out")["a"]["latest of all"], "4")
        chart = plan("float", table, answer, "--total", "--chart").stdout
        self.assertEqual([line.split()[-1] for line in chart.splitlines()[3:6]], ["###....", "...****", "##-----"])

    def test_records(self) -> None:
        """For each activity a schedule with the latest start, which psmax checks, and a record that a later one has
        none, which the script in Python verifies."""
        table, out = self.file("p.csv", TABLE), self.folder / "out"
        answer, away = self.file("a.csv", "name,start\na,0\nb,3\nc,0\n"), self.file("away.csv", AWAY)
        asked = ("float", table, "--absences", away, answer, "--total", "--out", out)
        self.assertEqual(plan(*asked).returncode, 0)
        for number, latest in ((1, 4), (2, 3), (3, 5)):
            starts = (out / f"{number}.starts").read_text()
            self.assertIn(f"{number} {latest}\n", starts)
            self.assertTrue(psmax("check", "--project", out / "project.sch",
                                  given=starts.encode()).startswith("feasible "))
            self.assertIn(f"[{latest + 1}]", (out / f"{number}.sch").read_text())
            words = [sys.executable, f"{TOP}/tests/verify_log.py", f"{out}/{number}.sch"]
            ran = subprocess.run(words, input=(out / f"{number}.record").read_bytes(), capture_output=True)
            self.assertEqual(ran.stdout, b"proved no schedule\n")
        self.refused(plan(*asked), 2, "is no empty folder")

    def test_all_schedules(self) -> None:
        """The same as by trying all starts, with absences, for the makespan and for the lateness."""
        for seed in (3, 15, 17):
            project = small(seed)
            table, away = self.file("p.csv", project.table()), self.file("away.csv", project.absences())
            for goal, value in (("makespan", project.makespan), ("lateness", project.lateness)):
                words = (table, "--absences", away, "--minimize", goal)
                answer, out = self.folder / f"{seed}{goal}.csv", self.folder / f"{seed}{goal}"
                self.assertEqual(plan("solve", *words, "--out", answer).returncode, 0)
                self.assertEqual(plan("float", *words, answer, "--total", "--out", out).returncode, 0)
                rows = self.rows(out)
                starts = tuple(int(rows[name]["start"]) for name in NAMES[: len(project.days)])
                as_short = [one for one in project.schedules() if value(one) <= value(starts)
                            and (goal == "makespan" or project.makespan(one) <= project.makespan(starts))]
                for i, name in enumerate(NAMES[: len(starts)]):
                    with self.subTest(seed=seed, goal=goal, name=name):
                        self.assertEqual(int(rows[name]["latest of all"]), max(one[i] for one in as_short))

    def test_what_the_time_does_not_settle(self) -> None:
        """It is an interval, and said so: here psprove says nothing at all."""
        table, answer = self.file("p.csv", TABLE), self.file("a.csv", "name,start\na,0\nb,3\nc,0\n")
        with mock.patch("psmax.process.ENDING", 0.1):
            ran = plan("float", table, answer, "--total", "--seconds", "1",
                       psprove=self.program("slow", "exec sleep 9"))
        self.assertEqual(ran.returncode, 3)
        self.assertIn("the total float of 3 of 3 activities is known as an interval alone", ran.stderr)
        self.assertIn("0 to 4", ran.stdout)
        self.assertIn("0, unproved", ran.stdout)
        self.assertNotIn("critical", ran.stdout)

    def test_what_has_started(self) -> None:
        """By hand: once a has started at 0, b follows at 3 and not before, so it is critical; another schedule doesn't
        keep that."""
        table, answer = self.file("p.csv", TABLE), self.file("a.csv", "name,start\na,0\nb,3\nc,0\n")
        words = ("float", table, answer, "--total", "--frozen", 1, "--start")
        lines = plan(*words, answer).stdout.splitlines()
        self.assertEqual([line.split()[1:] for line in lines[1:]], [
            ["a", "0", "0", "started", "0"], ["c", "0", "0", "started", "5"], ["b", "3", "3", "0", "0", "critical"]])
        other = self.file("b.csv", "name,start\na,4\nb,0\nc,1\n")
        self.refused(plan(*words, other), 2, "doesn't keep what has started by --start and --frozen")

    def test_faults(self) -> None:
        self.refused(plan("float", INPUTS / "two-jobs.sch", "--total", given=b"0 0\n1 0\n2 2\n3 6\n"), 2,
                     "not a schedule")
