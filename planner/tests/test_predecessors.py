"""Tables as planning tools write them: numbers, predecessors, summary rows, titles."""
from psmax.errors import BadInput
from psmax.planner.project_file import open_project

from .helpers import InFolder, plan, psmax

# By hand, as lags from start to start. 12FS+2: the end of 12, which takes 5, and 2 more. 14SS: its start. 9FF-1 d: 9
# takes 3 and this one 4, so it starts at least 3 - 1 - 4 = -2 after it. 3SF: it ends at the earliest when 3 starts, so
# 4 before at the earliest.
LINKS = (("12FS+2", "12", 7), ("12", "12", 5), ("12FS", "12", 5), ("12FS-1", "12", 4), ("12 FS + 1 d", "12", 6),
         ("14SS", "14", 0), ("14SS+3", "14", 3), ("9FF-1 d", "9", -2), ("9FF", "9", -1), ("3SF", "3", -4),
         ("3SF+6 days", "3", 2), ("12EA+2 Tage", "12", 7), ("14aa", "14", 0), ("12FS+1 w", "12", 12))
HEADS = "ID,Task Name,Duration,Predecessors\n"
OTHERS = "12,dig,5 d,\n14,drain,2 d,\n9,shore,3 d,\n3,fence,1 d,\n"
NUMBER = {"12": 1, "14": 2, "9": 3, "3": 4}


class Predecessors(InFolder):
    def arcs(self, cell: str) -> list[tuple[int, int]]:
        """Which activities have an arc to the fifth, and with what lag."""
        self.file("p.csv", f'{HEADS}{OTHERS}20,pour,4 d,"{cell}"\n')
        ran = plan("read", self.folder / "p.csv")
        self.assertEqual(ran.returncode, 0, ran.stderr)
        found = []
        for line in (self.folder / "p.sch").read_text().splitlines()[1:6]:
            number, _, count, *rest = line.split()
            found += [(int(number), int(lag.strip("[]"))) for head, lag in zip(rest, rest[int(count) :]) if head == "5"]
        return found

    def test_links(self) -> None:
        for cell, number, lag in LINKS:
            with self.subTest(cell):
                self.assertEqual(self.arcs(cell), [(NUMBER[number], lag)])

    def test_numbers_that_end_as_a_link_does(self) -> None:
        table = self.file("p.csv", f"{HEADS}PASS,a,2 d,\n2,b,1 d,PASS\n3,c,1 d,PASSFS+1 d\n")
        self.assertEqual(plan("solve", table).stdout.split(), "optimal 4 0 0 1 0 2 2 3 3 4 4".split())

    def test_several(self) -> None:
        for cell in ("12FS+2; 14SS;9FF-1 d", "12FS+2,14SS,9FF-1 d", "12FS+2 d, 14SS ,9FF-1"):
            with self.subTest(cell):
                self.assertEqual(self.arcs(cell), [(1, 7), (2, 0), (3, -2)])

    def test_faults(self) -> None:
        for cell, told in (("13", "'13': no activity 13"), ("20", "can't come after itself"),
                           ("12FS+50 %%", "'+50 %%' is not a number"), ("9FS+33%", "write the lag as a length"),
                           ("12FS+2 d<1 d", "at most 1 days is less than at least 2 days"),
                           ("12FS<", "'' is not a number"),
                           ("12XX", "no activity 12XX"),
                           ("12FS+1,5", "the comma may stand in a number or between two predecessors"),
                           ("dig", "'dig': no activity dig"), ("12FF+1 cd", "calendar days are for lags to a start")):
            with self.subTest(cell):
                table = self.file("p.csv", f'{HEADS}{OTHERS}20,pour,4 d,"{cell}"\n')
                self.refused(plan("solve", table), 2, "p.csv: row 6, column D (Predecessors): ", told)
        table = self.file("p.csv", "Task Name,Duration,Predecessors\na,1 d,\nb,1 d,1\n")
        self.refused(plan("solve", table), 2, "no column ID has these")
        table = self.file("p.csv", f"{HEADS}1,a,1 d,\n1,b,1 d,\n")
        self.refused(plan("solve", table), 2, "row 3, column A (ID): a second activity of the number 1")

    def test_greatest_lags_and_shares(self) -> None:
        """By hand: 12 takes 5, 14 takes 2, this one 4. At most 3 after the end of 12 is 8 after its start; half of 14
        is 1."""
        for cell, wanted in (("12FS<3 d", {(1, 5, 5), (5, 1, -8)}), ("12FS+1 d<=3 d", {(1, 5, 6), (5, 1, -8)}),
                             ("12SS+1<3", {(1, 5, 1), (5, 1, -3)}), ("12EE \u2264 2 Tage", {(1, 5, 1), (5, 1, -3)}),
                             ("12FS-2 d<0", {(1, 5, 3), (5, 1, -5)}), ("12SS+40%", {(1, 5, 2)}),
                             ("12FS-20 %", {(1, 5, 4)}),
                             ("14FS+50%<100%", {(2, 5, 3), (5, 2, -4)}),
                             ("14FS<3; 3SS", {(2, 5, 2), (5, 2, -5), (4, 5, 0)})):
            with self.subTest(cell):
                path = self.file("p.csv", f'{HEADS}{OTHERS}20,pour,4 d,"{cell}"\n')
                self.assertEqual({*open_project(str(path)).project.arcs}, wanted)

    def test_shares_make_periods(self) -> None:
        """By hand: half of 5 days is 2.5, so a period is half a day, and digging, the wait and pouring take 10 + 5 +
        8."""
        for cell in ("12FS+50%", "12FS+2,5 d", "12SS+150%"):
            path = self.file("p.csv", f'{HEADS}12,dig,5 d,\n20,pour,4 d,"{cell}"\n')
            self.assertEqual(plan("solve", path).stdout.split()[:2], ["optimal", "23"], cell)

    def test_the_same_in_words(self) -> None:
        """A decimal comma within a cell of several, and the columns `after` and `at least` for the same."""
        table = self.file("p.csv", f'{HEADS}1,a,1 d,\n2,b,1 d,"1FS+1,5 d"\n3,c,1 d,"1FS+1,5 d; 2SS"\n')
        other = self.file("q.csv", 'activity,days,after,at least\na,1,,\nb,1,a,"1,5"\nc,1,a,"1,50"\n,,start of b,\n')
        shift = ("--from", "2026-03-02", "--shift", "08:00-16:00")
        for path in (table, other):
            self.assertEqual(plan("read", path, *shift).returncode, 0)
        self.assertEqual((self.folder / "p.sch").read_text(), (self.folder / "q.sch").read_text())


class Outlines(InFolder):
    TABLE = """title;The hall;;;
# printed on Monday;;;;
WBS;ID;Task Name;Duration;Predecessors
1;1;Earthworks;9 d;
1.1;2;Dig;3 d;
1.2;3;Drain;2 d;2
2;4;Frame;4 d;
2.1;5;Columns;4 d;3
"""

    def test_groups(self) -> None:
        """Brackets in charts, from the first start to the last end, without an ID; no activities, no lags."""
        table = self.file("p.csv", self.TABLE)
        answer = self.folder / "a.csv"
        self.assertEqual(plan("solve", table, "--out", answer).stdout, "optimal 9\n")
        lines = plan("gantt", table, answer).stdout.splitlines()
        self.assertEqual([line.split() for line in lines[3:8]], [
            ["Earthworks", "0", "[===]...."], ["2", "Dig", "0", "###......"], ["3", "Drain", "3", "...##...."],
            ["Frame", "5", ".....[==]"], ["5", "Columns", "5", ".....####"]])
        self.assertEqual(len(answer.read_text().splitlines()), 4)
        self.assertEqual(plan("gantt", table, answer, "--svg", self.folder / "c.svg").returncode, 0)
        self.assertIn(">Earthworks</text>", (self.folder / "c.svg").read_text())

    def test_other_ways_to_say_it(self) -> None:
        wanted = plan("read", self.file("p.csv", self.TABLE)).stdout.partition(":")[2].partition(";")[0]
        levels = "level,activity,days,after\n1,Earthworks,,\n2,Dig,3,\n2,Drain,2,Dig\n1,Frame,,\n2,Columns,4,Drain\n"
        summary = ("activity,days,after,summary\nEarthworks,,,yes\nDig,3,,\nDrain,2,Dig,no\n"
                   "Frame,,,x\nColumns,4,Drain,\n")
        for text in (levels, summary):
            ran = plan("read", self.file("q.csv", text))
            self.assertEqual(ran.stdout.partition(":")[2].partition(";")[0], wanted, ran.stderr)
            self.assertEqual((self.folder / "q.sch").read_text(), (self.folder / "p.sch").read_text())
            answer = self.file("a.csv", "name,start\nDig,0\nDrain,3\nColumns,5\n")
            self.assertIn("     Frame           5 .....[==]", plan("gantt", self.folder / "q.csv", answer).stdout)
        self.assertTrue(psmax("earliest", given=(self.folder / "q.sch").read_bytes()).startswith("earliest 9\n"))

    def arcs(self, **cells: str) -> set[tuple[int, int, int]]:
        """Of a group of a and b, which take 3 and 2, and one of c and d, which take 4 and 1, with these cells of a
        row."""
        rows = (("1", "G", "", "yes"), ("2", "a", "3 d", ""), ("3", "b", "2 d", ""),
                ("4", "H", "", "yes"), ("5", "c", "4 d", ""), ("6", "d", "1 d", ""))
        heads = ("ID", "name", "duration", "summary", "predecessors", "after", "at least", "at most")
        more = [cells[head.replace(" ", "_")] if head.replace(" ", "_") in cells else "" for head in heads[4:]]
        lines = [";".join([*row, *(more if row[1] == cells["row"] else ["", "", "", ""])]) for row in rows]
        path = self.file("p.csv", "\n".join([";".join(heads), *lines]) + "\n")
        return {*open_project(str(path)).project.arcs}

    def test_lags_of_a_group(self) -> None:
        """By hand, as lags from start to start of a 1, b 2, c 3 and d 4: after a group is after each of its activities;
        a group that comes after something does so with each."""
        each = {(1, 3, 3), (2, 3, 2)}
        for cells, wanted in (({"row": "c", "predecessors": "1"}, each), ({"row": "c", "after": "G"}, each),
                              ({"row": "c", "predecessors": "1FS+2 d"}, {(1, 3, 5), (2, 3, 4)}),
                              ({"row": "c", "predecessors": "1FF+1 d"}, {(1, 3, 0), (2, 3, -1)}),
                              ({"row": "H", "predecessors": "2"}, {(1, 3, 3), (1, 4, 3)}),
                              ({"row": "H", "after": "start of a", "at_least": "1 d"}, {(1, 3, 1), (1, 4, 1)}),
                              ({"row": "H", "after": "G"}, each | {(1, 4, 3), (2, 4, 2)}),
                              ({"row": "c", "after": "start of G", "at_least": "any", "at_most": "2 d"},
                               {(3, 1, -2), (3, 2, -2)})):
            with self.subTest(cells):
                self.assertEqual(self.arcs(**cells), wanted)

    def test_lags_that_a_group_can_not_have(self) -> None:
        """Whether the first or the last of its activities keeps them is not known before they are planned."""
        first, last = "a group starts with the first of its activities", "a group ends with the last of its activities"
        for cells, told in (({"row": "c", "predecessors": "1SS"}, first),
                            ({"row": "c", "predecessors": "1SF+1 d"}, first),
                            ({"row": "c", "predecessors": "1FS<3 d"}, last), ({"row": "c", "after": "with G"}, first),
                            ({"row": "H", "predecessors": "2FF"}, last),
                            ({"row": "H", "predecessors": "2FS<2 d"}, first),
                            ({"row": "a", "predecessors": "1"},
                             "a group and an activity of it can't come one after the other"),
                            ({"row": "G", "after": "b"}, "a group and an activity of it"),
                            ({"row": "c", "predecessors": "1FS+50%"}, "a group has no duration of which")):
            with self.subTest(cells), self.assertRaisesRegex(BadInput, told):
                self.arcs(**cells)

    def test_dates_of_a_group(self) -> None:
        table = self.TABLE.replace("Duration;", "Duration;due;").replace("9 d;", "9 d;12;")
        self.refused(plan("solve", self.file("p.csv", table)), 2,
                     "row 4, column E (due): a group has no dates or demands")


class Names(InFolder):
    HEADS = "activity,days,after\n"

    def test_did_you_mean(self) -> None:
        for after, told in (("excavate", "no activity 'excavate'; did you mean 'Excavate'?"),
                            ("Exavate", "did you mean 'Excavate'?"),
                            ("start of EXCAVATE", "no activity 'EXCAVATE'; did you mean 'Excavate'?")):
            with self.subTest(after):
                table = self.file("p.csv", f"{self.HEADS}Excavate,1,\nb,1,{after}\n")
                self.refused(plan("solve", table), 2, "p.csv: row 3, column C (after): ", told)
        far = self.file("p.csv", f"{self.HEADS}Excavate,1,\nb,1,paint\n")
        self.assertNotIn("did you mean", plan("solve", far).stderr)

    def test_a_semicolon_in_a_name(self) -> None:
        """By hand: 2 and 3 one after the other, then 1: 6."""
        table = self.file("p.csv", self.HEADS + '"wash; rinse",2,\ndry,3,"""wash; rinse"""\npack,1,"""wash; rinse""; '
                          'dry"\n')
        answer = self.folder / "a.csv"
        self.assertEqual(plan("solve", table, "--out", answer).stdout, "optimal 6\n")
        self.assertIn("1,wash; rinse,0,2,2\n", answer.read_text())
        other = self.file("o.csv", self.HEADS + '"wash; rinse",2,\n"say ""dry""",3,"""start of wash; rinse"""\n'
                          'pack,1,"start of say ""dry"""\n')
        self.assertEqual(plan("solve", other).stdout.partition("\n")[0], "optimal 3")
        self.refused(plan("solve", self.file("q.csv", self.HEADS + '"wash; rinse",2,\ndry,3,wash; rinse\n')), 2,
                     "no activity 'wash'")
