"""Due dates, and the least lateness of the latest activity."""
import json

from .helpers import InFolder, plan

# By hand: one machine. c, due by 1, goes first and ends at 2; then a, due by 5, at 5; then b, due by 6, at 9: 3 late.
# Any other order is later: b before a leaves a at 9 or at 7 with c at 9, and a before c leaves c at 5, 4 late. For the
# makespan of 9 any order will do.
TABLE = "activity,days,machine (1),due\na,3,1,5\nb,4,1,6\nc,2,1,1\nd,1,,\n"

MISSED = "LATE: 2 of 3 due: 2 (b) by 3 days, due 6; 3 (c) by 1 day, due 1\n"


class Due(InFolder):
    def setUp(self) -> None:
        super().setUp()
        self.table = self.file("p.csv", TABLE)
        self.answer, self.record = self.folder / "a.csv", self.folder / "rec"
        self.late = ("--minimize", "lateness")
        ran = plan("solve", self.table, *self.late, "--out", self.answer, "--record", self.record)
        self.assertEqual((ran.returncode, ran.stdout), (0, f"optimal lateness 3\n{MISSED}"), ran.stderr)

    def test_answers(self) -> None:
        self.assertEqual(plan("check", self.table, self.answer, *self.late).stdout, f"feasible lateness 3\n{MISSED}")
        self.assertEqual(plan("check", self.table, self.answer).stdout, f"feasible 9\n{MISSED}")
        told = json.loads(plan("solve", self.table, *self.late, "--json").stdout)
        self.assertEqual([told[key] for key in ("status", "lateness", "bound", "makespan", "starts")],
                         ["optimal", 3, 3, 9, [0, 2, 5, 0, told["starts"][4], 9]])
        again = self.file("again.json", json.dumps(told))
        self.assertEqual(plan("check", self.table, again, *self.late).stdout, f"feasible lateness 3\n{MISSED}")
        plain = self.file("plain", plan("solve", self.table, *self.late).stdout)
        self.assertEqual(plain.read_text().splitlines()[-1], "5 9")
        self.assertEqual(plan("check", self.table, plain, *self.late).stdout, f"feasible lateness 3\n{MISSED}")
        self.assertEqual(plan("solve", self.table, *self.late, "--out", self.answer).stdout,
                         f"optimal lateness 3\n{MISSED}")

    def test_nothing_is_late(self) -> None:
        """By hand: what is due by 20 and ends by 9 is 11 early; a project of a lateness below 0 is one too."""
        table = self.file("q.csv", "activity,days,machine (1),due\na,3,1,\nb,6,1,20\n")
        self.assertEqual(plan("solve", table, *self.late).stdout.partition("\n")[0], "optimal lateness -14")

    def test_records(self) -> None:
        told = plan("verify", self.table, self.record, *self.late).stdout
        self.assertIn("proves that no schedule of", told)
        self.assertIn("has a lateness below 3, and has one that late.", told)
        self.assertEqual(plan("verify", self.table, self.record).returncode, 4)

    def test_charts(self) -> None:
        """A mark in the last period before each due date is over."""
        lines = plan("gantt", self.table, self.answer).stdout.splitlines()
        self.assertEqual([line.split()[-1] for line in lines[3:6]], ["..##+....", ".....+###", "+#......."])
        self.assertEqual(plan("gantt", self.table, self.answer, "--svg", self.folder / "c.svg").returncode, 0)
        self.assertEqual((self.folder / "c.svg").read_text().count('class="due"'), 3)

    def test_whatif_and_why(self) -> None:
        ran = plan("whatif", self.table, *self.late)
        self.assertEqual(ran.stdout.splitlines()[:2],
                         ["As it is: optimal lateness 3.",
                          "  optimal lateness 1: one more of machine, of which there is 1"])
        told = plan("why", self.table, *self.late, "--within", 2).stdout
        self.assertIn("There is no schedule with a lateness of 2 or less.\nThis is impossible, by a proof of psprove; "
                      "without it "
                      "there is a schedule:\n  machine, of which there is 1\n", told)
        told = plan("why", self.table, *self.late, "--within", -1).stdout
        self.assertIn("3 (c) is due by 1", told)

    def test_compare(self) -> None:
        old = self.file("old.csv", "name,start\na,0\nb,3\nc,7\nd,0\n")
        told = plan("compare", self.table, old, self.answer).stdout
        self.assertIn("makespan 9 -> 9\nlateness 8 -> 3, 5 earlier\n", told)

    def test_dates(self) -> None:
        """By hand, from Monday 2 March on, Monday to Friday: six days end on Monday the 9th, due by Friday: one day
        late."""
        table = self.file("q.csv", "activity,days,due\na,6,06.03.2026\n")
        words = ("--from", "2026-03-02", "--workdays", "mon-fri", *self.late)
        self.assertEqual(plan("solve", table, *words).stdout.partition("\n")[0], "optimal lateness 1")

    def test_faults(self) -> None:
        self.refused(plan("solve", self.file("q.csv", "activity,days\na,6\n"), *self.late), 2,
                     "needs a date in a column 'due'")
        self.refused(plan("solve", self.table, "--minimize", "cost"), 2, "--minimize")
