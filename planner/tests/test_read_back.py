"""What plan says that it has read: a line that begins each search, and the settings, the calendar and the absences."""
from .helpers import InFolder, plan
from .watching import Watching, done

# A German table in Excel's manner, and the same in English. By hand: 1.5 days, 4 hours and 2 days at 8.5 hours are
# 12.75 + 4 + 17 hours.
GERMAN = """title;Stillstand;;;;;
from;13.04.2026;;;;;
workdays;Mo-Sa;;;;;
shift;06:00-14:30;;;;;
holidays;frei.txt;;;;;
absences;fehlt.csv;;;;;
status;13.04.2026;;;;;
ID;WBS;Task Name;Duration;Predecessors;Kran 50t (1);due
1;1;Kolonne;;;;
2;1.1;Ger\u00fcst stellen;1,5 d;;;
3;1.2;einheben;4 h;2;1;15.04.2026
4;1.3;abnehmen;2 d;3FS+1 d;;
"""
ENGLISH = GERMAN.replace(";", ",").replace("13.04.2026",
                                           "2026-04-13").replace("15.04.", "15.4.").replace("1,5 d", "1.5 d") \
    .replace("Mo-Sa", "mon-sat").replace("15.4.2026", "2026-04-15")


class ReadBack(InFolder):
    def setUp(self) -> None:
        super().setUp()
        self.file("frei.txt", "2026-05-01\n2026-05-14\n")
        self.file("fehlt.csv", "resource,from,to,units\nKran 50t,14.04.2026,14.04.2026,\n")

    def said(self, text: str) -> str:
        """The line with which a search begins."""
        ran = plan("solve", self.file("t.csv", text), "--jobs", "1")
        self.assertEqual(ran.returncode, 0, ran.stderr)
        return ran.stderr.splitlines()[0].partition(" s  ")[2]

    def test_line(self) -> None:
        """Each figure by hand."""
        for text, days in ((GERMAN, "Mo-Sa"), (ENGLISH, "Mon-Sat")):
            with self.subTest(days):
                line = self.said(text)
                for told in ("3 activities in 1 group, ", "2 lags of ", "1 resource of 1 unit, ",
                             f", {days} 06:00-14:30, ",
                             "2 holidays, ", "1 absence, ", "status Mon ", "due dates of 1"):
                    self.assertIn(told, line)

    def test_what_is_read_otherwise_says_so(self) -> None:
        """A changed cell changes the line: a duration, a lag, a demand, a calendar, a date."""
        line = self.said(GERMAN)
        for was, now in (("4 h", "5 h"), ("3FS+1 d", "3FS+2 d"), (";2;1;15.04", ";2;;15.04"),
                         ("workdays;", "Werkzeuge;"),
                         ("15.04.2026", "16.04.2026"), ("holidays;", "frei;"), ("Mo-Sa", "Mo-Fr"), (";3FS", ";2FS")):
            with self.subTest(was):
                ran = plan("solve", self.file("t.csv", GERMAN.replace(was, now, 1)), "--jobs", "1")
                self.assertTrue(ran.returncode == 2 or ran.stderr.splitlines()[0].partition(" s  ")[2] != line,
                                ran.stderr)

    def test_numbers_alone(self) -> None:
        """By hand: 3 days with one crane and 4 with two are 11 days of cranes."""
        self.assertEqual(self.said("activity,days,crane (2),after\na,3,1,\nb,4,2,a\n"),
                         "2 activities, 1 resource of 2 units, no dates; durations of 7 days, 11 days of resources, 1 "
                         "lag, 1 first and 1 last activities, by lags alone 7 days")

    def test_check(self) -> None:
        """Of a table alone: settings with their rows, work of three weeks, and absences by day. By hand: 13 April 2026
        is a Monday, and a day has 8.5 hours."""
        ran = plan("check", self.file("t.csv", GERMAN))
        self.assertEqual((ran.returncode, ran.stderr), (0, ""))
        lines = [" ".join(line.split()) for line in ran.stdout.splitlines()]
        self.assertIn("3 activities in 1 group", lines[0])
        for told in ("workdays Mo-Sa row 3", "status 13.04.2026 row 7",
                     "the first three weeks: Mon Tue Wed Thu Fri Sat Sun"):
            self.assertIn(told, lines)
        weeks = [line for line in lines if line.startswith("Mon ") and line.endswith(" -")]
        self.assertEqual([len(line.split("-")[-2].split()) > 0 for line in weeks], [True] * 3)
        self.assertIn(": Kran 50t", lines[-1])
        self.assertEqual(lines[-2], "absences:")

    def test_check_of_an_answer_stays(self) -> None:
        table = self.file("q.csv", "activity,days\na,3\n")
        self.assertEqual(plan("check", table, "-", given=b"optimal 3\n0 0\n1 0\n2 3\n").stdout, "feasible 3\n")

    def test_report_and_watch(self) -> None:
        table, answer, page = self.file("t.csv", GERMAN), self.folder / "a.csv", self.folder / "r.html"
        plan("solve", table, "--out", answer, "--jobs", "1")
        self.assertEqual(plan("report", table, answer, "--out", page, "--jobs", "1").returncode, 0)
        self.assertIn("<p id=\"read\">3 activities in 1 group, ", page.read_text())
        with Watching(table) as watch:
            self.assertIn("3 activities in 1 group, ", watch.until(done("optimal"))["parts"]["read"])
