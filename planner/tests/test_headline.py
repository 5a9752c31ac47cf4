"""What is said first: when a project ends, as a date, and which due dates are missed."""
import csv
import io
import re

from .helpers import InFolder, plan
from .watching import Watching, done

# By hand, from Monday 13 April 2026 on, Monday to Saturday, 8.5 hours a day: 12.75 hours end on Tuesday at 10:15; four
# more at 14:15; the last two days end on Thursday at 14:15, 33.75 hours in all. 'einheben' is due on Monday evening:
# 8.25 hours late. By hand for the days: three and two are five, from Monday to Friday; 'lift' ends on Friday, and is
# due on Wednesday.
GERMAN = """from;13.04.2026;;;;
workdays;Mo-Sa;;;;
shift;06:00-14:30;;;;
ID;WBS;Task Name;Duration;Predecessors;due
10;1;Kolonne;;;
20;1.1;Gerüst stellen;1,5 d;;
A-30;1.2;einheben;4 h;20;13.04.2026
40;1.3;abnehmen;2 d;A-30;
"""
ENGLISH = """from,2026-04-13
workdays,mon-fri
ID,Task Name,days,Predecessors,due
7,dig,3,,
9,lift,2,7,2026-04-15
"""


class Headline(InFolder):
    def setUp(self) -> None:
        super().setUp()
        self.answer, self.page = self.folder / "a.csv", self.folder / "r.html"

    def solved(self, text: str) -> list[str]:
        self.answer.unlink(missing_ok=True)
        self.table = self.file("t.csv", text)
        ran = plan("solve", self.table, "--out", self.answer, "--jobs", "1")
        self.assertEqual(ran.returncode, 0, ran.stderr)
        return ran.stdout.splitlines()

    def test_german(self) -> None:
        ends, late = self.solved(GERMAN)
        self.assertEqual(ends, "optimal, ends Thu 16.04. 14:15 (33,75 h)")
        self.assertEqual(late, "LATE: 1 of 1 due: A-30 (einheben) by 8,25 h, due Mon 13.04. 14:30")

    def test_progress(self) -> None:
        """Each schedule and each bound is a date too."""
        told = plan("solve", self.file("t.csv", GERMAN), "--jobs", "1").stderr
        for line in ("schedule Thu 16.04. 14:15 (33,75 h)\n", "bound Thu 16.04. 14:15 (33,75 h)\n",
                     "optimal, ends Thu 16.04. 14:15 (33,75 h), proved: psprove solve"):
            self.assertIn(f" s  {line}", told)

    def test_english(self) -> None:
        ends, late = self.solved(ENGLISH)
        self.assertEqual(ends, "optimal, ends Fri 2026-04-17 (5 days)")
        self.assertEqual(late, "LATE: 1 of 1 due: 9 (lift) by 2 days, due Wed 2026-04-15")

    def test_each_command(self) -> None:
        """Second of `check` and `write`, on standard error where a table is on standard output; above the pages."""
        for text in (GERMAN, ENGLISH):
            _, late = self.solved(text)
            self.assertEqual(plan("check", self.table, self.answer).stdout.splitlines()[1], late)
            written = self.folder / "w.csv"
            self.assertEqual(plan("write", self.table, self.answer, "--out", written).stdout.splitlines()[1], late)
            written.unlink()
            self.assertEqual(plan("write", self.table, self.answer).stderr.splitlines()[1], late)
            self.assertIn(late, plan("gantt", self.table, self.answer).stdout)
            self.assertIn(late, plan("solve", self.table, "--jobs", "1").stderr)
            plan("report", self.table, self.answer, "--out", self.page, "--jobs", "1")
            self.assertIn(f'<p class="late">{late}</p>', self.page.read_text())
            self.page.unlink()
            with Watching(self.table) as watch:
                self.assertIn(f'<p class="late">{late}</p>', watch.until(done("optimal"))["parts"]["headline"])

    def test_nothing_is_late(self) -> None:
        _, due = self.solved(ENGLISH.replace("2026-04-15", "2026-04-17"))
        self.assertEqual(due, "no due date is missed, of 1")
        self.assertEqual(len(self.solved(ENGLISH.replace("2026-04-15", ""))), 1)

    def test_lateness(self) -> None:
        self.table = self.file("t.csv", ENGLISH)
        ran = plan("solve", self.table, "--minimize", "lateness", "--out", self.answer, "--jobs", "1")
        self.assertEqual(ran.stdout.splitlines()[0], "optimal, 2 days late, ends Fri 2026-04-17 (5 days)")


class AsTheTableWritesThem(InFolder):
    """IDs, dates, decimal signs and units are those of the table."""

    def setUp(self) -> None:
        super().setUp()
        self.table, self.answer = self.file("t.csv", GERMAN), self.folder / "a.csv"
        self.assertEqual(plan("solve", self.table, "--out", self.answer, "--jobs", "1").returncode, 0)

    def test_ids(self) -> None:
        """In charts, floats, pages and tables; and an answer with them is read again."""
        chart = [line.split()[0] for line in plan("gantt", self.table, self.answer).stdout.splitlines() if "#" in line]
        self.assertEqual(chart, ["20", "A-30", "40"])
        floats = [line.split()[0] for line in plan("float", self.table, self.answer).stdout.splitlines()[1:]]
        self.assertEqual(floats, ["20", "A-30", "40"])
        written = [*csv.DictReader(io.StringIO(plan("write", self.table, self.answer).stdout))]
        self.assertEqual([row["activity"] for row in written], ["20", "A-30", "40"])
        page = self.folder / "r.html"
        plan("report", self.table, self.answer, "--out", page, "--jobs", "1")
        self.assertEqual(re.findall(r'<th scope="row" title="([^" ]+) ', page.read_text()), ["20", "A-30", "40"])
        self.assertIn("20 (Gerüst stellen)", page.read_text())
        again = self.file("again.csv", plan("write", self.table, self.answer).stdout)
        self.assertEqual(plan("check", self.table, again).returncode, 0)
        starts = {"Gerüst stellen": 0, "einheben": 51, "abnehmen": 60}
        rows = [f"{name},{start},15 minutes" for name, start in starts.items()]
        wrong = self.file("wrong.csv", "\n".join(["name,start,period", *rows]))
        self.assertIn("40 (abnehmen) must start no sooner than A-30 (einheben) ends",
                      plan("check", self.table, wrong).stdout)

    def test_dates_and_lengths(self) -> None:
        """By hand: 20 takes 12.75 hours from Monday at 06:00, which end on Tuesday at 10:15. A column has one unit."""
        written = [*csv.DictReader(io.StringIO(plan("write", self.table, self.answer).stdout))]
        self.assertEqual([(row["from"], row["until"]) for row in written[:1]],
                         [("13.04.2026 06:00", "14.04.2026 10:15")])
        self.assertEqual([row["length"] for row in written], ["12,75 h", "4 h", "17 h"])

    def test_slashes(self) -> None:
        """The order is that of the setting."""
        for order, begin, ends in (("mdy", "4/13/2026", "04/17/2026"), ("dmy", "13/4/2026", "17/04/2026")):
            text = f"dates,{order}\nfrom,{begin}\nworkdays,mon-fri\nactivity,days\ndig,5\n"
            answer = self.folder / f"{order}.csv"
            ran = plan("solve", self.file("s.csv", text), "--out", answer, "--jobs", "1")
            self.assertEqual(ran.stdout, f"optimal, ends Fri {ends} (5 days)\n")
            again = self.file(f"{order}-again.csv", plan("write", self.folder / "s.csv", answer).stdout)
            self.assertIn(ends, again.read_text())
            self.assertEqual(plan("check", self.folder / "s.csv", again).returncode, 0)
