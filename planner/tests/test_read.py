import os

from .helpers import INPUTS, PROJECTS, TWO_JOBS, InFolder, plan, psmax

# A small site, and by hand what it means: lags from start to start, "after" counting from the end.
TABLE = """activity,days,crew (5),crane (1),after,at least,at most
excavate,5,2,,,,
blinding,1,2,,excavate,,2
erect scaffold,2,2,1,start,3,
roof,4,3,1,blinding; erect scaffold,1,
,,,,start of excavate,any,30
strike scaffold,1,2,1,roof,,
,,,,start of erect scaffold,,20
"""
PROJECT = """5 2 0 0
0 1 1 3 [3]
1 1 1 2 [5]
2 1 2 1 4 [-7] [2]
3 1 2 4 5 [3] [0]
4 1 2 1 5 [-30] [4]
5 1 1 3 [-20]
6 1 0
0 1 0 0 0
1 1 5 2 0
2 1 1 2 0
3 1 2 2 1
4 1 4 3 1
5 1 1 2 1
6 1 0 0 0
5 1
"""


class Tables(InFolder):
    def test_a_table_by_hand(self) -> None:
        ran = plan("read", self.file("site.csv", TABLE))
        self.assertEqual(ran.returncode, 0, ran.stderr)
        self.assertEqual((self.folder / "site.sch").read_text().split(), PROJECT.split())
        page = (self.folder / "site.md").read_text().splitlines()
        self.assertIn("| | Activity | Days | crew | crane |", page)
        self.assertIn("| 4 | roof | 4 | 3 | 1 |", page)
        self.assertIn("Resources: 5 crew, 1 crane.", page)

    def test_other_separators_and_marks(self) -> None:
        wanted = PROJECT.split()
        both = "blinding; erect scaffold"
        semicolons = f'"{both}"'.join(part.replace(",", ";") for part in TABLE.split(both))
        for name, text in (("semicolons", semicolons), ("tabs", TABLE.replace(",", "\t")), ("mark", "\ufeff" + TABLE),
                           ("lines", TABLE.replace("\n", "\r\n"))):
            with self.subTest(name):
                self.assertEqual(plan("read", self.file(f"{name}.csv", text)).returncode, 0)
                self.assertEqual((self.folder / f"{name}.sch").read_text().split(), wanted)

    def test_read_again(self) -> None:
        """What `plan read` made it may replace; a page of somebody else it leaves."""
        table = self.file("site.csv", TABLE)
        self.assertEqual(plan("read", table).returncode, 0)
        self.assertEqual(plan("read", table).returncode, 0)
        self.file("site.md", "my own words")
        self.refused(plan("read", table), 2, "site.md")
        self.assertEqual((self.folder / "site.md").read_text(), "my own words")

    def test_a_project_of_somebody_else(self) -> None:
        """It stays, unless --out names it."""
        table = self.file("site.csv", TABLE)
        self.file("site.sch", TWO_JOBS)
        self.refused(plan("read", table), 2, "site.sch is there")
        self.assertEqual((self.folder / "site.sch").read_text(), TWO_JOBS)
        self.assertEqual(plan("read", table, "--out", self.folder / "site.sch").returncode, 0)
        self.assertEqual((self.folder / "site.sch").read_text().split(), PROJECT.split())

    def test_the_table_is_not_lost(self) -> None:
        table = self.file("site.csv", TABLE)
        (self.folder / "link.sch").symlink_to(table)
        os.link(table, self.folder / "hard.sch")
        for out in (str(table), f"{self.folder}/../{self.folder.name}/site.csv", "link.sch", "hard.sch"):
            with self.subTest(out):
                self.refused(plan("read", table, "--out", self.folder / out), 2, "is the table, which would be lost")
        for out in ("", ".", f"{self.folder}/site.md"):
            with self.subTest(out):
                self.refused(plan("read", table, "--out", out), 2, "can't be written")
        self.assertEqual(table.read_text(), TABLE)

    def test_names_of_files_that_are_no_text(self) -> None:
        table = self.folder / os.fsdecode(b"t\xff.csv")
        table.write_text(TABLE)
        for _ in range(2):
            self.assertEqual(plan("read", table).returncode, 0)
        self.assertEqual(table.with_suffix(".sch").read_text().split(), PROJECT.split())

    def test_contradicting_lags_are_told(self) -> None:
        ran = plan("read", self.file("t.csv", "activity,days,after,at most\na,3,,\nb,2,a,\n,,start,1\n"))
        self.assertIn("contradict", ran.stdout)
        self.assertEqual(psmax("earliest", given=(self.folder / "t.sch").read_bytes()).split()[0], "positive")

    def test_kept_projects_are_those_of_their_tables(self) -> None:
        tables = [path.with_suffix(".csv") for path in sorted(PROJECTS.glob("*.sch"))]
        self.assertEqual(len(tables), 10)
        for table in tables:
            with self.subTest(table.name):
                self.file(table.name, table.read_bytes())
                self.assertEqual(plan("read", self.folder / table.name).returncode, 0)
                for kept in (table.with_suffix(".sch"), table.with_suffix(".md")):
                    self.assertEqual((self.folder / kept.name).read_bytes(), kept.read_bytes())


class Faults(InFolder):
    def told(self, text: str | bytes, *texts: str) -> None:
        ran = plan("read", self.file("t.csv", text))
        self.refused(ran, 2, "t.csv", *texts, faults=len(ran.stderr.splitlines()))
        self.assertFalse((self.folder / "t.sch").exists())

    def test_cells(self) -> None:
        """One change of the table each, with the row and the column that a spreadsheet shows for it."""
        for old, new, row, column in (
            ("excavate,5", "excavate,five", 2, "B (days)"),
            ("excavate,5", "excavate,", 2, "B (days)"),
            ("excavate,5", "excavate,-5", 2, "B (days)"),
            ("excavate,5", "excavate,1000001", 2, "B (days)"),
            ("excavate,5,2", "excavate,5,2.5", 2, "C (crew (5))"),
            ("blinding,1,2,,excavate", "blinding,1,2,,excavat", 3, "E (after)"),
            ("blinding,1,2,,excavate", "blinding,1,2,,blinding", 3, "E (after)"),
            ("blinding,1,2,,excavate", "excavate,1,2,,excavate", 3, "A (activity)"),
            ("blinding,1,2,,excavate", "start,1,2,,excavate", 3, "A (activity)"),
            ("excavate,,2", "excavate,3,2", 3, "G (at most)"),
            ("excavate,,2", "excavate,any,", 3, "F (at least)"),
            ("excavate,,2", "excavate,,any", 3, "G (at most)"),
            ("excavate,,2", ",,2", 3, "G (at most)"),
            ("excavate,,2", "excavate,,999999", 3, "G (at most)"),
            ("excavate,,2", "excavate,,2,9", 3, "column H"),
            ("blinding; erect", "; erect", 5, "E (after)"),
            (",,,,start of excavate", ",1,,,start of excavate", 6, "A (activity)"),
        ):
            with self.subTest(new):
                self.assertIn(old, TABLE)
                self.told(TABLE.replace(old, new), f"row {row}, ", column)

    def test_heads(self) -> None:
        for old, new, text in (
            ("crew (5)", "crew", "row 1, column C (crew)"),
            ("days", "dayz", "row 1, column B (dayz)"),
            ("crane (1)", "crew (1)", "row 1, column D"),
            ("at most", "after", "row 1, column G"),
            ("activity", "", "row 1 has no column for the name"),
            ("days", "", "row 1 has no column for the duration"),
            ("crew (5)", "crew (1000001)", "row 1, column C"),
        ):
            with self.subTest(new):
                self.told(TABLE.replace(old, new, 1), text)

    def test_not_a_table(self) -> None:
        self.told("", "row 1")
        self.told(b"\xff\xfe\x00", "UTF-8")
        self.told(b"PK\x03\x04", "spreadsheet")
        self.told('activity,days\n"a,3\n', "not a table in CSV")
        self.told("activity,days\n,3\n", "row 2, column A (activity)")
        self.told("activity,days,crew" + " " * 30_000 + "x\n", "row 1, column C (crew x)")
        self.told("activity,days\na,\x1b[2J\n", "row 2, column B (days): '?[2J'")

    def test_limits(self) -> None:
        """1,000 activities and 32 resources (docs/FORMAT.md)."""
        heads = ",".join(f"r{k} (1)" for k in range(33))
        self.told(f"activity,days,{heads}\n", "row 1, column AI (r32 (1))")
        rows = "".join(f"a{i},1\n" for i in range(1001))
        self.told(f"activity,days\n{rows}", "row 1002, column A (activity)")
        rows = "".join(f"a{i},1\n" for i in range(1000))
        most = self.file("most.csv", f"activity,days,{heads[:-8]}\n{rows}")
        self.assertEqual(plan("read", most).returncode, 0)


class Psplib(InFolder):
    def test_clean(self) -> None:
        """A byte order mark and Ctrl-Z go; the rest stays as it is, with tabs, brackets and blanks at the ends."""
        real = (INPUTS / "two-jobs-tabs-crlf.sch").read_bytes().rstrip()
        mark = b"\xef\xbb\xbf"
        for name, data in (("mark", mark + real), ("ctrl-z", real + b"\r\n\x1a"), ("plain", real),
                           ("both", mark + real + b"\x1a\r\n\x1a\x1a")):
            with self.subTest(name):
                clean = self.folder / "clean.sch"
                self.assertEqual(plan("read", self.file(f"{name}.sch", data), "--out", clean).returncode, 0)
                self.assertEqual(clean.read_bytes(), real + b"\n")
                self.assertEqual(psmax("solve", given=clean.read_bytes()).partition("\n")[0], "optimal 7")
        self.assertEqual(plan("read", self.folder / "both.sch").stdout.split(), real.decode().split())

    def test_other_problems(self) -> None:
        modes, spent = TWO_JOBS.replace("1 1 0\n", "1 3 0\n", 1), TWO_JOBS.replace("2 1 0 0", "2 1 2 0", 1)
        for name, text, wanted in (("modes.sch", modes, "row 1: more than one mode; a PSPLIB set with several modes"),
                                   ("spent.sch", spent, "other than renewable; a PSPLIB set with several modes"),
                                   ("more.sch", TWO_JOBS + "x", "word 33: one too many")):
            with self.subTest(name):
                self.refused(plan("read", self.file(name, text)), 2, name, wanted)
