"""Periods of hours and minutes within the hours of work, with days off."""
from .helpers import InFolder, plan

# By hand, from Monday 2 March 2026 on: eight hours a day, 07:00 to 12:00 and 13:00 to 16:00.
TABLE = "activity,hours,after\nstrip,6,\nmend,4,strip\ndone,0,mend\npaint,31,mend\n"
WORDS = ("--from", "2026-03-02", "--workdays", "mon-fri", "--shift", "07:00-12:00,13:00-16:00")


class Shifts(InFolder):
    def rows(self, table: str, *words: object) -> list[list[str]]:
        path, answer = self.file("p.csv", table), self.folder / "a.csv"
        answer.unlink(missing_ok=True)
        self.assertEqual(plan("solve", path, *words, "--out", answer).returncode, 0)
        return [line.split(",")[2:] for line in plan("write", path, answer, *words).stdout.splitlines()[1:]]

    def test_by_hand(self) -> None:
        """The sixth hour ends at 14:00, two more on Monday and two on Tuesday; 31 from Tuesday 09:00 are 6, 8, 8, 8 and
        the first of the Monday after."""
        self.assertEqual(self.rows(TABLE, *WORDS), [
            ["0", "6", "6", "2026-03-02 07:00", "2026-03-02 14:00"],
            ["6", "4", "10", "2026-03-02 14:00", "2026-03-03 09:00"],
            ["10", "0", "10", "2026-03-03 09:00", "2026-03-03 09:00"],
            ["10", "31", "41", "2026-03-03 09:00", "2026-03-09 08:00"]])

    def test_a_holiday_and_a_first_hour(self) -> None:
        """From Thursday 10:00 on there are five hours; Friday is off, and the sixth begins on Monday."""
        free = self.file("free.txt", "06.03.2026 a holiday\n")
        words = ("--from", "2026-03-05 10:00", "--holidays", free, *WORDS[2:])
        self.assertEqual(self.rows("activity,hours\nstrip,6\n", *words),
                         [["0", "6", "6", "2026-03-05 10:00", "2026-03-09 08:00"]])

    def test_dates(self) -> None:
        """By hand: Wednesday 07:00 is hour 16, 10:30 is within hour 19, so 20 it is; by the end of Tuesday is by 16."""
        heads = "activity,hours,not before,end by\n"
        for cells, start in (("2026-03-04,", "16"), ("2026-03-04 10:30,", "20"), ("2026-03-04 12:00,", "21"),
                             ("2026-03-07,", "40")):
            with self.subTest(cells):
                self.assertEqual(self.rows(f"{heads}a,2,{cells}\n", *WORDS)[0][0], start)
        told = plan("solve", self.file("p.csv", f"{heads}a,2,2026-03-04 10:30,\n"), *WORDS).stderr
        self.assertIn("row 2: 2026-03-04 10:30 is within a period, and counts as its end\n", told)
        self.assertNotIn("within", plan("solve", self.file("p.csv", f"{heads}a,2,2026-03-04 12:00,2026-03-05\n"),
                                        *WORDS).stderr)
        for cell, told in (("2026-03-02", "optimal 8"), ("2026-03-02 15:00", "no schedule"),
                           ("2026-03-02 16:00", "optimal 8")):
            with self.subTest(cell):
                ran = plan("solve", self.file("p.csv", f"{heads}a,8,,{cell}\n"), *WORDS)
                self.assertEqual(ran.stdout.partition("\n")[0], told)

    def test_answers_with_dates(self) -> None:
        path = self.file("p.csv", TABLE)
        answer = "name,start\nstrip,2026-03-02 07:00\nmend,{}\ndone,10\npaint,10\n"
        ends = "feasible, ends Mon 2026-03-09 08:00 (41 hours)\n"
        for text, told in (("2026-03-02 14:00", ends), ("02.03.2026 14:00", ends)):
            ran = plan("check", path, self.file("a.csv", answer.format(text)), *WORDS)
            self.assertEqual(ran.stdout, told, ran.stderr)
        bad = self.file("a.csv", answer.format("2026-03-02 12:30"))
        self.refused(plan("check", path, bad, *WORDS), 2,
                     "row 3, column B (start): no period of work begins at 2026-03-02 12:30")

    def test_faults(self) -> None:
        path = self.file("p.csv", TABLE)
        self.refused(plan("solve", path, "--from", "2026-03-02", "--shift", "7-16"), 2,
                     "shift 7-16: not hours of a day such as")
        odd = ("--from", "2026-03-02", "--shift", "07:00-12:30", "--period", "hours")
        self.assertIn("a period is one of 30 minutes", plan("read", path, *odd[:4]).stdout)
        self.refused(plan("solve", path, *odd), 2, "--period '30 minutes' has")
        self.refused(plan("solve", path, "--period", "36 hours"), 2, "period 36 hours: longer than a day")
        far = self.file("far.csv", "activity,minutes,not before\na,6,2040-01-01\n")
        self.refused(plan("solve", far, "--from", "2026-03-02"), 2,
                     "row 2, column C (not before): 2040-01-01 is 7,276,320 periods")
        self.refused(plan("solve", path, "--from", "2026-03-02", "--workdays", "mon-fri"), 2,
                     "with --shift, the hours of work")
