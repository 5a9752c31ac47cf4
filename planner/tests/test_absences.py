"""Resources of which units are away: exact, hatched in charts, and no part of an answer."""
import json

from .brute import small
from .helpers import InFolder, plan

# By hand: one crane, 3 + 2 + 4 = 9 days. Away from 3 to 5 (days 3 and 4), whatever the order, one job must wait: with 3
# first, then the pause, 3 + 2 + 2 + 4 = 11.
TABLE = "activity,days,crane (1),crew (2)\na,3,1,\nb,2,1,\nc,4,1,\n"
AWAY = "resource,from,to,units\ncrane,3,5,\n"


class Absences(InFolder):
    def solved(self, table: str, away: str, *words: object) -> str:
        self.file("away.csv", away)
        ran = plan("solve", self.file("p.csv", table), "--absences", self.folder / "away.csv", *words)
        self.assertEqual(ran.returncode, 0, ran.stderr)
        return ran.stdout.partition("\n")[0]

    def test_by_hand(self) -> None:
        for away, wanted in (("crane,3,5,\n", "optimal 11"), ("crane,1,5,\n", "optimal 14"),
                             ("crane,,4,\n", "optimal 13"),
                             ("crane,20,99,\n", "optimal 9"), ("crane,9,,\n", "optimal 9"),
                             ("crane,8,,\n", "no schedule"),
                             ("crane,3,5,\ncrane,11,,\n", "optimal 11"), ("crane,3,5,\ncrane,10,,\n", "no schedule"),
                             ("crew,0,99,2\n", "optimal 9"), ("crane,5,5,\n", "optimal 9")):
            with self.subTest(away):
                self.assertEqual(self.solved(TABLE, "resource,from,to,units\n" + away), wanted)

    def test_dates(self) -> None:
        """By hand, from Monday 2 March on: away on Thursday and Friday is from 3 to 5, and a second crew comes on the
        9th, so a and b run one after the other until 6, and c from then on."""
        words = ("--from", "2026-03-02", "--workdays", "mon-fri")
        self.assertEqual(self.solved(TABLE, "resource,from,to\ncrane,2026-03-05,08.03.2026\n", *words), "optimal 11")
        table = "activity,days,crew (2)\na,3,1\nb,3,1\nc,3,2\n"
        self.assertEqual(self.solved(table, "resource,from,to,units,notes\ncrew,,2026-03-06,1,the second crew\n",
                                     *words),
                         "optimal 9")

    def test_all_starts(self) -> None:
        """The same as by trying all starts, for the makespan and for the lateness."""
        for seed in range(20, 30):
            project = small(seed)
            found = [*project.schedules()]
            for goal, value in (("makespan", project.makespan), ("lateness", project.lateness)):
                if goal == "makespan" or any(due is not None for due in project.due):
                    with self.subTest(seed=seed, goal=goal):
                        of_what = "lateness " if goal == "lateness" else ""
                        best = f"optimal {of_what}{min(map(value, found))}" if found else ""
                        self.assertEqual(self.solved(project.table(), project.absences(), "--minimize", goal, "--jobs",
                                                     "1"),
                                         best or "no schedule")

    def test_nobody_sees_them(self) -> None:
        """Not in an answer, nor in float; in a chart they are parts of the resource's row."""
        self.solved(TABLE, AWAY, "--out", self.folder / "a.csv", "--record", self.folder / "rec")
        words = (self.folder / "p.csv", self.folder / "a.csv", "--absences", self.folder / "away.csv")
        self.assertEqual(len((self.folder / "a.csv").read_text().splitlines()), 4)
        told = json.loads(plan("solve", *words[:1], *words[2:], "--json").stdout)
        self.assertEqual((told["makespan"], len(told["starts"]), told["durations"]), (11, 5, [3, 2, 4]))
        self.assertEqual(len(plan("float", *words, "--total").stdout.splitlines()), 4)
        self.assertIn("11, and has one that long", plan("verify", words[0], self.folder / "rec", *words[2:]).stdout)
        lines = plan("gantt", *words).stdout.splitlines()
        crane = next(line for line in lines if "crane" in line)
        self.assertEqual((crane.split()[-1], lines[-1].strip()),
                         ("111//111111", "/ units are away, and none is in use"))
        self.assertEqual(plan("gantt", *words, "--svg", self.folder / "a.svg").returncode, 0)
        self.assertEqual((self.folder / "a.svg").read_text().count('class="away"'), 1)

    def test_whatif_and_why(self) -> None:
        self.file("p.csv", TABLE)
        words = ("--absences", self.file("away.csv", AWAY))
        self.assertIn("  optimal 9: crane away from 3 to 5: dropped\n",
                      plan("whatif", self.folder / "p.csv", *words).stdout)
        told = plan("why", self.folder / "p.csv", "--within", 10, *words).stdout
        self.assertIn("These together are impossible, by a proof of psprove; without any one of them there is a "
                      "schedule:\n"
                      "  crane, of which there is 1\n  crane away from 3 to 5\n", told)

    def test_an_overload(self) -> None:
        """What runs while a unit is away is told."""
        self.file("p.csv", TABLE)
        words = ("--absences", self.file("away.csv", AWAY))
        ran = plan("check", self.folder / "p.csv", self.file("a.csv", "name,start\na,0\nb,4\nc,6\n"), *words)
        self.assertEqual((ran.returncode, ran.stdout),
                         (4, "at 4, 1 units of crane are in use, of which there are 0 while 1 is away: 2 (b)\n"))

    def test_faults(self) -> None:
        self.file("p.csv", TABLE)
        for text, told in (("crain,1,2,\n", "row 2, column A (resource): no resource 'crain'; did you mean 'crane'?"),
                           ("crane,5,2,\n", "column C (to): '2' is before '5'"),
                           ("crane,1,2,2\n", "2 of crane can't be away"),
                           ("crane,1,5,\ncrane,4,6,\n",
                            "row 3, column A (resource): with the rows above 2 of crane are away at 4"),
                           ("crane,soon,2,\n", "column B (from): 'soon': not a date"),
                           ("crane,1,2,x\n", "column D (units)")):
            with self.subTest(text):
                away = self.file("away.csv", "resource,from,to,units\n" + text)
                self.refused(plan("solve", self.folder / "p.csv", "--absences", away), 2, "away.csv: ", told)
        self.refused(plan("solve", self.folder / "p.csv", "--absences", self.folder / "gone"), 1, "cannot read")
        self.refused(plan("solve", self.folder / "p.csv", "--absences", self.file("x.csv", "a,b\n")), 2,
                     "name the columns")
