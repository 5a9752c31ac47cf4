"""Dates, lengths and days of the week as people write them, and lags that start at a date."""
from psmax.dates import read_moment, read_shift, read_workdays

from .helpers import InFolder, plan

HEADS = "activity,days,after,at least,not before,end by\n"
# By hand, from Monday 2 March 2026 on, Mo-Fr: the dates, what a cell has, and when a job of two days starts.
MONDAY = ("--from", "02.03.2026", "--workdays", "Mo-Fr")
DATED = (
    (",,2026-03-05,", 3), (",,05.03.2026,", 3), (",,5.3.26,", 3), (",,Thu 5.3.26,", 3), (",,13/3/2026,", 9),
    (",,3/13/2026,", 9),
    (",,2026-03-07,", 5),  # a Saturday: the Monday after
    (",,2026-02-20,", 0), (",,4,", 4), (",,2026-03-05 06:00,", 4),  # Thursday has begun by then
    ("2026-03-05,,,", 3), ("2026-03-05,2,,", 5), ("05.03.2026,1,,", 4),
)


class Dates(InFolder):
    def start(self, cells: str, *words: object) -> int:
        ran = plan("solve", self.file("p.csv", f"{HEADS}job,2,{cells}\n"), *words)
        self.assertEqual((ran.returncode, ran.stdout.split()[0]), (0, "optimal"), ran.stderr)
        return int(ran.stdout.splitlines()[2].split()[1])

    def test_not_before(self) -> None:
        for cells, start in DATED:
            with self.subTest(cells):
                self.assertEqual(self.start(cells, *MONDAY), start)
        self.assertEqual(self.start(",,5/3/2026,", *MONDAY, "--dates", "dmy"), 3)
        self.assertEqual(self.start(",,3/5/2026,", *MONDAY, "--dates", "mdy"), 3)

    def test_end_by(self) -> None:
        """By hand: two days by the 3rd or by period 2 start at 0 at the latest, and by the 2nd there is no schedule.
        The last day is the one that `why` and `check` name."""
        for cell, told in (("2026-03-03", "optimal 2"), ("2", "optimal 2"), ("2026-03-08", "optimal 2"),
                           ("2026-03-02", None),
                           ("1", None)):
            with self.subTest(cell):
                table = self.file("p.csv", f"{HEADS}job,2,,,,{cell}\n")
                first = plan("solve", table, *MONDAY).stdout.partition("\n")[0]
                self.assertEqual(first, told or "no schedule")
        late = self.file("late.csv", "name,start\njob,1\n")
        ran = plan("check", self.file("p.csv", f"{HEADS}job,2,,,,2026-03-03\n"), late, *MONDAY)
        self.assertEqual(ran.stdout, "1 (job) must end by 2026-03-03, and ends on 2026-03-04\n")

    def test_a_milestone_at_a_date(self) -> None:
        """It stands at the begin of its day where the date says so, and else at the end of the work before it."""
        table = self.file("p.csv", f"{HEADS}dig,2,,,,\ndone,0,dig,,,\ndelivery,0,,,2026-03-05,\nlift,1,delivery,,,\n")
        rows = plan("write", table, self.file("a.csv", "name,start\ndig,0\ndone,2\ndelivery,3\nlift,3\n"),
                    *MONDAY).stdout
        self.assertIn("2,done,2,0,2,2026-03-03,2026-03-03\n", rows)
        self.assertIn("3,delivery,3,0,3,2026-03-05,2026-03-05\n", rows)
        self.assertIn("4,lift,3,1,4,2026-03-05,2026-03-05\n", rows)
        back = self.file("b.csv", "name,start\ndig,2026-03-02\ndone,2026-03-03\ndelivery,2026-03-05\nlift,2026-03-05\n")
        self.assertEqual(plan("check", table, back, *MONDAY).stdout, "feasible, ends Thu 2026-03-05 (4 days)\n")

    def test_faults(self) -> None:
        for cells, told in ((",,3/2/2026,", "'3/2/2026': the day or the month may stand first; say which by --dates "
                             "dmy"),
                            (",,soon,", "'soon': not a date such as"), (",,2026-02-30,", "there is no such date"),
                            (",,,31.4.2026", "there is no such date"), (",,Tue 5.3.26,", "that day is a Thursday")):
            with self.subTest(cells):
                self.refused(plan("solve", self.file("p.csv", f"{HEADS}job,2,{cells}\n"), *MONDAY), 2,
                             "p.csv: row 2, column",
                             told)
        table = self.file("p.csv", f"{HEADS}job,2,,,2026-03-05,\n")
        self.refused(plan("solve", table), 2, "row 2, column E (not before): '2026-03-05': a date needs --from")

    def test_texts(self) -> None:
        self.assertEqual(f"{read_moment('Mo, 2.3.2026 7:30').at}", "2026-03-02 07:30:00")
        for text in ("mon-fri", "Mo-Fr", "Montag - Freitag", "mo,di,mi,do,fr", "Mo\u2013Fr", "monday-friday"):
            self.assertEqual(read_workdays(text), {0, 1, 2, 3, 4})
        self.assertEqual(read_shift("07:00-12:00, 13:00-16:00"), ((420, 720), (780, 960)))
        for text in ("7-12", "12:00-07:00", "22:00-06:00", "07:00-12:00,11:00-13:00", "07:00-25:00"):
            self.assertRaises(ValueError, read_shift, text)


class Lengths(InFolder):
    def told(self, heads: str, rows: str, *words: object) -> tuple[str, str]:
        ran = plan("read", self.file("p.csv", f"{heads}\n{rows}"), "--out", self.folder / "p.sch", *words)
        self.assertEqual(ran.returncode, 0, ran.stderr)
        (self.folder / "p.sch").unlink()
        (self.folder / "p.md").unlink()
        found = ran.stdout.partition("it takes ")[2].partition(";")[0]
        return found, ran.stdout

    def test_units(self) -> None:
        """By hand: how many periods the jobs take, and what a period is. A day has eight hours of work, a week five
        days."""
        shift = ("--from", "2026-03-02", "--workdays", "mon-fri", "--shift", "07:00-12:00,13:00-16:00")
        days = "a period is one of"
        for rows, words, wanted, said in (
            ("a,2 d\n", (), "2", ""), ("a,3\n", (), "3", ""), ("a,1 w\n", shift[:4], "5", ""),
            ("a,1 week\n", (), "7", ""), ("a,2 Tage\n", (), "2", ""), ("a,2 days?\n", (), "2", ""),
            ("a,\"1,5 d\"\n", shift, "12", f"{days} hours"), ("a,1.5\n", shift, "12", f"{days} hours"),
            ("a,4 h\n", shift, "4", f"{days} hours"), ("a,2.5 h\n", shift, "5", f"{days} 30 minutes"),
            ("a,40 min\n", shift, "2", f"{days} 20 minutes"), ("a,2 d\n", shift, "2", ""),
            ("a,0.5 w\n", shift, "20", f"{days} hours"),
            ("a,\"1,5 d\"\n", (), "3", f"{days} 4 hours"), ("a,1.5\n", (), "3", f"{days} 4 hours"),
            ("a,4 h\n", (), "4", f"{days} hours"), ("a,0.5 w\n", shift[:4], "5", f"{days} 4 hours"),
            ("a,\"1,5 d\"\nb,2 d\nc,4 h\n", (), "16",
             "a day has 8 of them, 08:00-12:00,13:00-17:00, until --shift says other hours"),
            ("a,1.5\n", ("--shift", "08:00-14:00"), "3", f"{days} 3 hours"),
            ("a,2\n", ("--period", "4 hours"), "4", f"{days} 4 hours"), ("a,0 h\nb,2\n", (), "2", ""),
            ("a,2\n", ("--period", "hours"), "16", f"{days} hours, as --period says; a day"),
            ("a,2\n", ("--period", "days"), "2", ""),
            ("a,16 h\n", ("--period", "days"), "2", "a period is one of days"),
        ):
            with self.subTest(rows=rows, words=words):
                found, told = self.told("activity,days", rows, *words)
                self.assertEqual(found, wanted)
                self.assertIn(said, told)
        self.assertEqual(self.told("activity,duration", "a,2 h\nb,30 min\n")[0], "4")
        self.assertEqual(self.told("activity,duration", "a,2 h\nb,5\n", "--period", "30 minutes")[0], "5")

    def test_lags(self) -> None:
        """By hand: 8 hours, then at least an hour and a half, then 8 hours: 35 half hours."""
        rows = "a,1,,\nb,1,a,\"1,5 h\"\n"
        found, told = self.told("activity,days,after,at least", rows, "--from", "2026-03-02", "--shift", "08:00-16:00")
        self.assertEqual(found, "35")
        self.assertIn("a period is one of 30 minutes, which divide all lengths of", told)

    def test_half_days_and_hours_are_shown_in_hours(self) -> None:
        """By hand: a day and a half from Monday 08:00 on, at eight hours a day; then two days, and four hours until
        Thursday 17:00, which is 32 hours. With an hour more the last one ends on Friday at 09:00."""
        heads = "from,2026-03-02\nworkdays,mon-fri\nactivity,days,after,due\n"
        text = heads + 'strip,"1,5 d",,\nmend,2 d,strip,\nclose,4 h,mend,2026-03-04\n'
        table, answer = self.file("p.csv", text), self.folder / "a.csv"
        self.assertEqual(plan("solve", table, "--out", answer).stdout, "optimal, ends Thu 2026-03-05 17:00 (32 h)\n"
                         "LATE: 1 of 1 due: 3 (close) by 8 h, due Wed 2026-03-04 17:00\n")
        self.assertEqual(plan("write", table, answer).stdout.splitlines()[1:], [
            "1,strip,0,12,12,hours,12 h,2026-03-02 08:00,2026-03-03 12:00",
            "2,mend,12,16,28,hours,16 h,2026-03-03 13:00,2026-03-05 12:00",
            "3,close,28,4,32,hours,4 h,2026-03-05 13:00,2026-03-05 17:00"])
        self.assertIn("(a column is 2 h)\n", plan("gantt", table, answer, "--width", "20").stdout)
        self.assertEqual(plan("why", table, "--within", "31").stdout.splitlines()[-1],
                         "Allow the project to end 1 h later, which is enough, and less is not.")
        page = self.folder / "a.html"
        self.assertEqual(plan("report", table, answer, "--out", page).returncode, 0)
        for told in ("<b>32 h</b>of work", '<td data-key="12">12 h</td>', '<td data-key="8">8 h</td>'):
            self.assertIn(told, page.read_text())
        longer, new = self.file("longer.csv", text.replace("4 h", "5 h")), self.folder / "new.csv"
        plan("solve", longer, "--out", new)
        self.assertEqual(plan("compare", longer, answer, new).stdout.splitlines()[:2], [
            "makespan 32 h -> 33 h, 1 h later (2026-03-05 17:00 -> 2026-03-06 09:00)",
            "lateness 8 h -> 9 h, 1 h later"])

        days = self.file("d.csv", 'activity,days\nstrip,"2,25"\nmend,"0,5"\n')
        rows = plan("write", days, self.file("b.csv", "name,start\nstrip,0\nmend,0\n")).stdout
        self.assertEqual(rows.splitlines()[1:], ['1,strip,0,9,9,2 hours,"2,25 d"', '2,mend,0,2,2,2 hours,"0,5 d"'])

    def test_a_text_without_its_table(self) -> None:
        """Its page has the hours of a day, also those that plan took: a day and a half end at noon."""
        table, answer = self.file("p.csv", "activity,days\na,1.5\n"), self.file("a.csv", "name,start\na,0\n")
        self.assertEqual(plan("read", table, "--from", "2026-03-02").returncode, 0)
        table.unlink()
        self.assertIn("2026-03-02 08:00,2026-03-03 12:00", plan("write", self.folder / "p.sch", answer).stdout)

    def test_faults(self) -> None:
        half = self.file("p.csv", "activity,days\na,1.5\n")
        self.refused(plan("solve", half, "--period", "days"), 2,
                     "'1.5 days' is not a whole number of periods, which are days")
        for rows, told in (("a,2 moons\n", "'2 moons' is not a number, or one with min, h, d, w or cd"),
                           ("a,2 cd\n", "depends on its date"), ("a,-1 d\n", "-1 d is below 0")):
            with self.subTest(rows):
                self.refused(plan("solve", self.file("p.csv", f"activity,days\n{rows}")), 2, "row 2, column B (days)",
                             told)
        mixed = self.file("p.csv", "activity,duration\na,2 d\nb,3\n")
        self.refused(plan("solve", mixed), 2, "row 3, column B (duration): 3 of what? Durations have units; write '2 "
                     "d'")
        mixed = self.file("p.csv", "activity,duration,not before\na,2 d,3\nb,3 h,\n")
        self.refused(plan("solve", mixed), 2, "row 2, column C (not before): 3 of what? Durations have units; write '2 "
                     "d' or")
        self.refused(plan("solve", mixed, "--status", "3"), 2, "status 3: no whole number of periods; write a date")
        for cell, told in (("1 d", "optimal 24"), ("4 h", "optimal 20"), ("0", "optimal 16"), ("1.5 d", "optimal 28")):
            mixed = self.file("p.csv", f"activity,duration,not before\na,2 d,{cell}\nb,3 h,\n")
            self.assertEqual(plan("solve", mixed, "--status", "2 h").stdout.partition("\n")[0],
                             told if cell != "0" else "optimal 18")
        self.refused(plan("solve", mixed, "--status", "99999 w"), 2, "status 99999 w: 5,599,944 periods")
        for cell in ("1 cd", "-1 d", "12.5", "1 moon"):
            mixed = self.file("p.csv", f"activity,duration,not before\na,2 d,{cell}\nb,3 h,\n")
            self.refused(plan("solve", mixed), 2, "row 2, column C (not before): ")
            self.refused(plan("solve", self.file("q.csv", "activity,days\na,2\n"), "--status", cell), 2,
                         f"status {cell}: ")

    def test_numbers_count_what_the_column_counts(self) -> None:
        """By hand: an hour more in a row changes no time of another row: a day is eight hours, from day 2 on, away on
        day 5."""
        heads = "activity,days,crane (1),not before,end by,due\n"
        away = self.file("away.csv", "resource,from,to\ncrane,5,6\n")
        for row, told in (("", "optimal 8"), ("look,1 h,,,,\n", "optimal 64")):
            table = self.file("p.csv", f"{heads}lift,3,1,2,5,5\nset,2,1,,,\nlate,1,,7,,\n{row}")
            ran = plan("solve", table, "--absences", away, "--status", "1")
            self.assertEqual(ran.stdout.partition("\n")[0], told, ran.stderr)
            self.assertEqual(plan("solve", table, "--minimize", "lateness").stdout.partition("\n")[0],
                             "optimal lateness 0")
        old = self.file("old.csv", "name,start\nlift,2\nset,0\nlate,7\nlook,0\n")
        told = plan("solve", table, "--start", old, "--frozen", "3").stderr
        self.assertIn("3 of 4 activities start before 3 in", told)
        early = self.file("a.csv", "name,start\nlift,2\nset,0\nlate,5\nlook,0\n")
        self.assertEqual(plan("check", table, early).stdout,
                         "3 (late) must start at 56 h or later, and starts at 40 h\n")
