"""Answers are tied to the activities by their names."""
import json
import os

from .helpers import EXAMPLES, INPUTS, InFolder, plan, psmax

# Two fitters in one pit: by hand 3 + 4 + 2 = 9, one after the other, in this order by the lags.
TABLE = """activity,days,pit (1),after,at least,at most
strip,3,1,,,
mend,4,1,strip,,
close,2,1,mend,,1
"""
INSERTED = TABLE.replace("mend,4,1,strip,,\n", "paint,0,,,,\nmend,4,1,strip,,\n")
MOVED = "activity,days,pit (1),after,at least,at most\nclose,2,1,mend,,1\nmend,4,1,strip,,\nstrip,3,1,,,\n"
ROWS = ["activity,name,start,takes,end", "3,strip,0,3,3", "2,mend,3,4,7", "1,close,7,2,9"]


class Named(InFolder):
    def setUp(self) -> None:
        """A project `p.sch` of the table, and answers of it in each form that plan writes."""
        super().setUp()
        self.project, self.starts, self.sheet = (self.folder / name for name in ("p.sch", "old.st", "old.csv"))
        self.read(TABLE)
        for out in (self.starts, self.sheet):
            self.assertEqual(plan("solve", self.project, "--out", out).stdout, "optimal 9\n")
        self.json = self.file("old.json", plan("solve", self.project, "--json").stdout)
        self.excel = self.folder / "excel.csv"
        self.assertEqual(plan("write", self.project, self.starts, "--excel", "--separator", "semicolon",
                              "--out", self.excel).returncode, 0)
        self.answers = (self.starts, self.sheet, self.json, self.excel)

    def read(self, table: str) -> None:
        self.assertEqual(plan("read", self.file("p.csv", table)).returncode, 0)

    def test_moved_rows(self) -> None:
        self.read(MOVED)
        for answer in self.answers:
            with self.subTest(answer.name):
                ran = plan("write", self.project, answer)
                self.assertEqual((ran.stdout.splitlines(), ran.stderr), (ROWS, ""))
                self.assertIn("check: feasible 9", plan("gantt", self.project, answer).stdout)
                self.assertEqual(plan("check", self.project, answer).stdout, "feasible 9\n")
                ran = plan("solve", self.project, "--start", answer)
                self.assertEqual((ran.returncode, ran.stdout.partition("\n")[0]), (0, "optimal 9"))
                self.assertIn(f"schedule 9: {answer}, by check", ran.stderr)

    def test_a_row_that_was_inserted(self) -> None:
        self.read(INSERTED)
        for answer in self.answers:
            for command in ("write", "gantt", "check", "float"):
                with self.subTest(answer=answer.name, command=command):
                    self.refused(plan(command, self.project, answer), 2, f"{answer}: no start for activity 2 (paint)")
            self.refused(plan("solve", self.project, "--start", answer), 2, "no start for activity 2 (paint)")

    def test_rows_that_are_gone(self) -> None:
        self.read(INSERTED)
        text = (self.folder / "old.csv").read_text()
        self.file("more.csv", text + "4,varnish,0,1,1\n")
        ran = plan("write", self.project, self.folder / "more.csv")
        self.refused(ran, 2, "no start for activity 2 (paint)", "4 (varnish) is no activity of", faults=2)

    def test_what_no_longer_fits(self) -> None:
        """By name and by what the table says: the end of mending, and not an arc."""
        self.read(MOVED.replace("mend,4", "mend,6"))
        for answer in self.answers:
            for command in (("write",), ("solve", "--start")):
                ran = plan(command[0], self.project, *command[1:], answer)
                self.refused(ran, 2, "1 (close) must start no sooner than 2 (mend) ends, and starts 2 before it does",
                             "at 7, 2 units of pit are in use, of which there is 1: 1 (close), 2 (mend)", faults=2)

    def test_a_name_twice(self) -> None:
        """Of two activities of one name nobody can say which is which, unless all stand where they stood."""
        page = "| | Activity | Days | pit |\n|---|---|---|---|\n| 1, 2 | same | 3 | |\n| 3 | other | 2 | |\n"
        self.file("p.md", page)
        out = self.folder / "same.csv"
        starts = self.file("s", "0 0\n1 0\n2 3\n3 7\n4 9\n")
        self.assertEqual(plan("write", self.project, starts, "--out", out).returncode, 0)
        self.assertEqual(plan("check", self.project, out).stdout, "feasible 9\n")
        self.file("p.md", page.replace("| 1, 2 |", "| 2, 3 |").replace("| 3 | o", "| 1 | o"))
        self.assertIn("no start for activity 2 (same)", plan("check", self.project, out).stderr)

    def test_numbers_alone(self) -> None:
        """Another count of activities is told, and so is an answer that is older than the project."""
        given = self.file("plain", psmax("solve", given=self.project.read_bytes()))
        self.read(INSERTED)
        self.refused(plan("write", self.project, given), 2, "starts of 5 activities, and",
                     "has 6 with its start and end")
        table = self.file("plain.csv", "activity,name,start,end\n1,,0,3\n2,,3,7\n3,,7,9\n")
        self.refused(plan("write", self.project, table), 2, "starts of 3 activities, and", "has 4; without names")
        self.read(TABLE.partition("close")[0])
        self.refused(plan("check", self.project, table), 2, "starts of 3 activities, and", "has 2; without names")
        self.read(MOVED)
        os.utime(given, (0, 0))
        ran = plan("gantt", self.project, given)
        self.assertIn("has no names and is older than", ran.stderr)

    def test_psmax_reads_what_plan_writes(self) -> None:
        told = psmax("check", "--project", self.project, given=self.starts.read_bytes())
        self.assertEqual(told, "feasible 9\n")
        first = self.starts.read_text().partition("\n")[0]
        self.assertEqual(json.loads(first.removeprefix("optimal 9 ")),
                         {"names": ["strip", "mend", "close"], "durations": [3, 4, 2], "period": "days"})

    def test_faults_of_tables(self) -> None:
        for text, fault in (("activity,name,start\n1,strip,x\n",
                             "row 2, column C (start): 'x' is neither a whole number nor a date"),
                            ("activity,name,start\n1,strip,0\n1,mend,3\n", "row 3: a second start of activity 1"),
                            ("activity,start\nstrip,\n",
                             "row 2, column B (start): a whole number or a date is missing"),
                            ('optimal 9 {"names": 3}\n0 0\n', "line 1: what it says of the activities can't be read")):
            with self.subTest(text):
                self.refused(plan("check", self.project, self.file("bad", text)), 2, fault)

    def test_names_alone(self) -> None:
        """A table of hers with names and starts, and no numbers."""
        given = self.file("hers.csv", "sep=;\nName;Start\nmend;3\nclose;7\nstrip;0\n")
        self.assertEqual(plan("check", self.project, given).stdout, "feasible 9\n")

    def test_json(self) -> None:
        """`check` and the others read the JSON of psmax as well as that of plan."""
        site = EXAMPLES / "building-site.sch"
        for given in (psmax("solve", "--json", given=site.read_bytes()), plan("solve", site, "--json").stdout):
            self.assertEqual(plan("check", site, given=given.encode()).stdout, "feasible 36\n")
        ran = plan("check", INPUTS / "two-jobs.sch", given=b"0 0\n1 0\n2 2\n3 6\n")
        told = "at 2, 2 units of resource 0 are in use, of which there is 1: 1, 2\n"
        self.assertEqual((ran.returncode, ran.stdout), (4, told))
