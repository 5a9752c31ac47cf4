"""An answer says when activities start, by periods, by dates or by both. Their ends follow."""
from .helpers import InFolder, plan

# By hand, from Friday 6 March 2026 on: lifting on the 6th, 9th and 10th, bolting on the 11th and 12th, then a
# milestone.
TABLE = """from,2026-03-06
workdays,mon-fri
activity,days,crane (1),after
lift,3,1,
bolt,2,1,lift
done,0,,bolt
"""

FIVE = "feasible, ends Thu 2026-03-12 (5 days)\n"


class Answers(InFolder):
    def setUp(self) -> None:
        super().setUp()
        self.table = self.file("p.csv", TABLE)

    def checked(self, text: str, *words: object) -> str:
        ran = plan("check", self.table, self.file("a.csv", text), *words)
        self.assertEqual((ran.returncode, ran.stderr), (0, ""))
        return ran.stdout

    def fault(self, text: str, *told: str) -> None:
        for command in (("check",), ("gantt",), ("write",), ("compare", self.file("b.csv", "name,start\nlift,0\n"))):
            ran = plan(command[0], self.table, *command[1:], self.file("a.csv", text))
            self.refused(ran, 2, *told)

    def test_starts(self) -> None:
        """The same starts as periods, and as dates of several forms; a milestone stands at the end of its day."""
        for starts, words in (((0, 3, 5), ()), (("2026-03-06", "2026-03-11", "2026-03-12"), ()),
                              (("06.03.2026", "11.03.2026", "Thu 12.03.26"), ()), ((0, "2026-03-11", 5), ()),
                              (("3/6/2026", "3/11/2026", "3/12/2026"), ("--dates", "mdy"))):
            with self.subTest(starts):
                text = "name,start\n" + "".join(f"{name},{start}\n"
                                                for name, start in zip(("lift", "bolt", "done"), starts))
                self.assertEqual(self.checked(text, *words), FIVE)

    def test_ends_are_not_read(self) -> None:
        self.assertEqual(self.checked("name,start,end\nlift,0,99\nbolt,3,\ndone,5,soon\n"), FIVE)

    def test_an_edited_date(self) -> None:
        """The period and the date of a row say the same, or the row is told."""
        text = plan("write", self.table, self.file("a.csv", "name,start\nlift,0\nbolt,3\ndone,5\n")).stdout
        self.assertEqual(self.checked(text), FIVE)
        self.fault(text.replace("3,2,5,2026-03-11", "3,2,5,2026-03-10"),
                   "a.csv: row 3, column C (start): 3 is 2026-03-11, and its "
                   "date says 2026-03-10; correct one of them")
        self.fault(text.replace("bolt,3", "bolt,4"), "row 3, column C (start): 4 is 2026-03-12, and its date says "
                   "2026-03-11")
        self.assertEqual(self.checked(text.replace("bolt,3,", "bolt,,")), FIVE)

    def test_dates_that_can_not_be(self) -> None:
        for date, told in (("2026-03-07", "no period of work begins at 2026-03-07"),
                           ("soon", "neither a whole number nor a date"),
                           ("3/6/2026", "the day or the month may stand first"),
                           ("2026-02-30", "there is no such date"),
                           ("2026-03-05", "no period of work begins at"), ("Mon 2026-03-06", "that day is a Friday")):
            with self.subTest(date):
                self.fault(f"name,start\nlift,{date}\nbolt,3\ndone,5\n", "a.csv: row 2, column B (start)", told)
        plain = self.file("plain.csv", TABLE.partition("workdays,mon-fri\n")[2])
        answer = self.file("a.csv", "name,start\nlift,2026-03-06\nbolt,3\ndone,5\n")
        self.refused(plan("check", plain, answer), 2, "'2026-03-06' is a date, and nothing says when the project "
                     "begins")

    def test_other_periods(self) -> None:
        """By hand: a row in hours makes a period an hour, of which a day has eight. An old plan counts days as the
        column does, or what it says: bolting starts after three days, which are 24 hours."""
        old = self.folder / "old.json"
        old.write_text(plan("solve", self.table, "--json").stdout)
        self.table.write_text(TABLE + "look,4 h,,bolt\n")
        rows = "name,start{}\nlift,0{}\nbolt,{}\ndone,{}\nlook,{}\n"
        for heads, unit, starts in (("", "", ("3", "5", "5")), (",period", ",4 hours", ("6,4 hours", "10,", "10,")),
                                    (",period", ",Hours", ("24,Hours", "40,", "40,"))):
            self.assertEqual(self.checked(rows.format(heads, unit, *starts)),
                             "feasible, ends Fri 2026-03-13 12:00 (44 h)\n")
        new = self.file("new.csv", rows.format("", "", "3", "5", "5"))
        told = plan("compare", self.table, old, new).stdout
        self.assertIn("makespan 40 h -> 44 h, 4 h later", told)
        self.assertIn("3 of 4 start as before\n", told)
        alone = self.file("alone.sch", "1 0 0 0\n0 1 0\n1 1 0\n2 1 0\n0 1 0\n1 1 5\n2 1 0\n")
        answer = self.file("b.csv", "activity,start,period\n1,0,weeks\n")
        self.assertEqual(plan("check", alone, answer).stdout, "feasible 5\n")
        for unit, told in (("30 minutes", "row 3, column B (start): 7 30 minutes are no whole number of hours"),
                           ("moons", "its starts count moons, and a period of"),
                           ("periods", "its starts count periods, and"),
                           ("cd", "its starts count cd, and"), ("0 hours", "its starts count 0 hours, and")):
            bad = self.file("a.csv", rows.format(",period", f",{unit}", "7,", "10,", "10,"))
            self.refused(plan("check", self.table, bad), 2, f"a.csv: {told}")
        bad = self.file("a.csv", rows.format(",period", ",days", "3,hours", "5,", "5,"))
        self.refused(plan("check", self.table, bad), 2, "a.csv: row 3, column C (period): 'hours', and above 'days'")
        mixed = self.file("m.csv", "activity,duration\nlift,3 d\nlook,4 h\n")
        self.refused(plan("check", mixed, self.file("a.csv", "name,start\nlift,0\nlook,0\n")), 2,
                     "a.csv: its starts count periods, and a period of",
                     "write dates, or name what they count in a column")

    def test_what_is_no_answer(self) -> None:
        """It is a fault, also of a chart."""
        for text in (b"", b"\n", b"\x00\x01\xff", b"PK\x03\x04", b"record 3\n\x02\x07\x0a", b"proved optimal 7\n"):
            with self.subTest(text):
                self.refused(plan("gantt", self.table, given=text), 2, "standard input: ")
        self.assertEqual(plan("gantt", self.table, given=b"no schedule\n").returncode, 0)
