"""A table as a file of Microsoft Project or Primavera: it is the same project again, or what the file can't say is
told."""
import datetime
import itertools
import pathlib
import unittest

from psmax.planner.project_file import ProjectFile, open_project

from .helpers import InFolder, plan
from .test_spreadsheets import is_here

HEAD = "title,Shut\nfrom,2026-03-02 06:00\nshift,00:00-24:00\n"
OFFICE = "from,2026-03-02\nworkdays,mon-fri\nshift,\"08:00-12:00,13:00-17:00\"\n"
BOTH, XML = (".xml", ".xer"), (".xml",)
# What is tried, which files can say it, and a table of it.
SAID = (
    ("names and groups", BOTH,
     f"{HEAD}\nID,WBS,name,hours\n1,1,A & <B>,\n2,1.1,Ä,3\n3,1.2,In,\n4,1.2.1,b,2\n5,2,c,1\n"),
    ("a day off", BOTH, f"{OFFICE}holidays,off.txt\nname,hours,after\na,20,\nb,7,a\n"),
    ("links of all types", BOTH,
     f"{HEAD}ID,name,hours,Predecessors\n1,a,5,\n2,b,3,1FS+2 h\n3,c,4,1SS+1 h\n4,d,9,\"2FF,3SF+4 h\"\n5,e,2,4FS-1 h\n"),
    ("maximum lags", XML,
     f"{HEAD}ID,name,hours,Predecessors\n1,a,5,\n2,b,3,\"1FS+2 h,1FS<9 h\"\n3,c,4,\"2SS<8 h,1FS\"\n"),
    ("what begins together", XML, f"{HEAD}name,hours,after\na,5,\nb,3,with a\nc,1,b\n"),
    ("from and to the start", XML,
     f"{HEAD}name,hours,not before,end by\na,5,2026-03-02 09:00,2026-03-03 12:00\nb,1,,2026-03-04 12:00\n"),
    ("due dates", XML, f"{HEAD}name,hours,due\na,5,2026-03-03 12:00\nb,3,\n"),
    ("absences", XML, f"{HEAD}absences,away.csv\nname,hours,\"crane (2)\"\na,5,1\nb,3,2\n"),
    ("hours of crews", BOTH,
     f"{HEAD}name,hours,\"days (4, 06:00-18:00)\",\"nights (2, nights)\",\"week (1, Mo-Fr 22:00-06:00)\",crane (1)\n"
     "a,5,2,,,1\nb,3,,1,,\nc,2,,,1,\nd,9,3,,,\n"),
    ("what has started", BOTH,
     f"{HEAD}status,2026-03-02 14:00\n\nname,hours,\"crew (4, 06:00-18:00)\",after,started,remaining\n"
     "a,5,1,,2026-03-02 11:00,3 h\nb,5,2,a,,\n"),
    ("what has ended", XML, f"{HEAD}status,2026-03-02 14:00\n\nname,hours,crew (4),after,started,finished\n"
     "a,5,1,,2026-03-02 07:00,2026-03-02 11:00\nb,3,2,a,,\n"),
    ("parts of whole shifts", XML, f"{HEAD}name,hours,\"crew (4, days)\",may pause\na,30,2,yes\nb,5,3,\n"),
)
# What a file can't say, and what is told of it.
UNSAID = (
    (".xml", f"{OFFICE}name,hours,after,at least\na,1,,\nb,1,a,5 cd\n",
     "mspdi has no lags in calendar days: 'a' and 'b'"),
    (".xml", f"{HEAD}name,hours,after,at most\na,1,,\n" + "".join(f"b{i},1,a,90\n" for i in range(30)) + "c,1,b0,\n"
     + "".join(f",,start of b{i},900\n" for i in range(30)), "'c': it has more maximum lags than a field of 255 signs"),
    (".xml", "name,days\na,1\n", "MSPDI needs dates, which follow from the first day of the project"),
    (".xer", f"{HEAD}ID,name,hours,Predecessors\n1,a,5,\n2,b,3,\"1FS,1FS<9 h\"\n", "Primavera has no maximum lags"),
    (".xer", "name,days\na,1\n", "Primavera needs dates"),
)


class ToolFiles(InFolder):
    def setUp(self) -> None:
        super().setUp()
        self.file("off.txt", "2026-03-04\n")
        away = "resource,from,to,units\ncrane,2026-03-02 08:00,2026-03-02 10:00,1\ncrane,2026-03-09,,2\n"
        self.file("away.csv", away)

    def made(self, table: pathlib.Path, suffix: str) -> pathlib.Path:
        path = self.folder / f"made{suffix}"
        ran = plan("read", table, "--out", path)
        self.assertEqual((ran.returncode, ran.stderr), (0, ""))
        return path

    def same(self, one: ProjectFile, other: ProjectFile) -> None:
        """The same numbers, but for the order of lags and those that follow from others; the same names and dates."""
        self.assertEqual(numbers(one), numbers(other))
        self.assertEqual((one.names.activities, one.names.resources), (other.names.activities, other.names.resources))
        self.assertEqual(one.names.ids or {**other.names.ids}, other.names.ids)
        self.assertEqual((one.groups, begins(one)), (other.groups, begins(other)))

    def test_what_is_said(self) -> None:
        for what, suffixes, text in SAID:
            table = self.file("t.csv", text)
            for suffix in suffixes:
                with self.subTest(what, suffix=suffix):
                    self.same(open_project(str(table)), open_project(str(self.made(table, suffix))))

    def test_from_one_to_the_other(self) -> None:
        """What both can say goes from each to the other, and stays where a schedule is written into the file."""
        both = [(what, text) for what, suffixes, text in SAID if suffixes == BOTH]
        for (what, text), (suffix, other) in itertools.product(both, (BOTH, BOTH[::-1])):
            with self.subTest(what, suffix=suffix):
                table, answer = self.file("t.csv", text), self.folder / "a.csv"
                made, again, planned = self.made(table, suffix), self.folder / f"b{other}", self.folder / f"c{suffix}"
                answer.unlink(missing_ok=True)
                for words in (("read", made, "--out", again), ("solve", made, "--jobs", "1", "--out", answer),
                              ("write", made, answer, "--out", planned)):
                    self.assertEqual(plan(*words).returncode, 0)
                for path in (again, planned):
                    self.same(open_project(str(table)), open_project(str(path)))

    def test_what_is_not(self) -> None:
        for suffix, text, told in UNSAID:
            with self.subTest(told):
                self.refused(plan("read", self.file("t.csv", text), "--out", self.folder / f"made{suffix}"), 2, told)
        own = self.file("own.xml", "mine")
        self.refused(plan("read", self.file("t.csv", SAID[0][2]), "--out", own), 2, "own.xml is there, and no project")

    def test_what_is_read(self) -> None:
        """Of the hours of a resource in a file, as of those in a table."""
        table = self.file("t.csv", f"{HEAD}name,hours,\"crew (4, Mo-Fr 06:00-18:00)\"\na,5,2\n")
        for suffix in BOTH:
            made = self.made(table, suffix)
            self.assertIn("crew Mon-Fri 06:00-18:00, hours up to ", plan("solve", made, "--jobs", "1").stderr)
            self.refused(plan("solve", made, "--from", "2026-03-03 06:00"), 2, "need the days and hours of the file")

    def test_days_without_hours(self) -> None:
        """By hand: three days and two, from Thursday on, end on Wednesday, at the end of the usual day."""
        table = self.file("t.csv", "from,2026-03-05\nworkdays,mon-fri\nname,days,after\na,3,\nb,2,a\n")
        for suffix in BOTH:
            ran = plan("solve", self.made(table, suffix), "--jobs", "1", "--out", self.folder / "a.csv")
            self.assertTrue(ran.stdout.startswith("optimal, ends Wed 2026-03-11 17:00 ("), ran.stdout)


def begins(opened: ProjectFile) -> list[datetime.datetime]:
    assert opened.calendar is not None
    return [opened.calendar.begins(time) for time in (0, 1, 5, 50, 500)]


def numbers(opened: ProjectFile) -> dict[str, object]:
    """With the greatest lag from each activity to each other one."""
    return vars(opened.project) | {"arcs": {arc[:2]: arc[2] for arc in sorted(opened.project.arcs)}}


def turnaround() -> str:
    """Of 21 exchangers with six jobs each, for crews by day and by night, on two cranes; and a test of all."""
    rows, crews = list[str](), ('"fitters (6, 06:00-18:00)"', '"night fitters (6, 18:00-06:00)"',
                                '"inspectors (2, Mo-Sa 06:00-18:00)"')
    steps = (("blind", "2 h", 0, 2, 0), ("open", "4 h", 1, 2, 0), ("pull", "2 h", 0, 3, 1), ("wash", "6 h", 1, 1, 0),
             ("inspect", "3 h", 2, 1, 0), ("close", "8 h", 0, 2, 1))
    for unit, (place, (name, length, crew, units, crane)) in itertools.product(range(21), enumerate(steps)):
        if not place:
            rows.append(f"{10 * unit + 1},{unit + 1},E-{unit + 101},,,,,,")
        needs = ["", "", ""]
        needs[crew] = f"{units}"
        after = f"{10 * unit + place + 1}FS+1 h" if place == 4 else f"{10 * unit + place + 1}" if place else ""
        rows.append(f"{10 * unit + place + 2},{unit + 1}.{place + 1},E-{unit + 101}: {name},{length},{after},"
                    f"{','.join(needs)},{crane or ''}")
    last = ",".join(f"{10 * unit + 7}" for unit in range(21))
    rows.append(f'999,22,test all,4 h,"{last}",,,1,')
    return f"{HEAD}\nID,WBS,name,Duration,Predecessors,{','.join(crews)},crane (2)\n" + "\n".join(rows) + "\n"


class Turnaround(InFolder):
    def test_one_plan(self) -> None:
        """As a table, a spreadsheet file, and files of Microsoft Project and Primavera: 127 activities are one project,
        and a schedule of one is one of each."""
        table, answer, checked = self.file("t.csv", turnaround()), self.folder / "a.csv", set[str]()
        opened = open_project(str(table))
        self.assertEqual(opened.project.end - 1, 127)
        self.assertIn(plan("solve", table, "--jobs", "1", "--seconds", "1", "--out", answer).returncode, (0, 3))
        for suffix in (".csv", ".xml", ".xer", *([".xlsx"] if is_here() else [])):
            path = table if suffix == ".csv" else self.book() if suffix == ".xlsx" else self.folder / f"t{suffix}"
            if suffix in BOTH:
                self.assertEqual(plan("read", table, "--out", path).returncode, 0)
            other = open_project(str(path))
            with self.subTest(suffix):
                self.assertEqual(numbers(other), numbers(opened))
                self.assertEqual((other.groups, begins(other)), (opened.groups, begins(opened)))
                checked.add(plan("check", path, answer).stdout.partition(" (")[0])
        self.assertEqual({line[:15] for line in checked}, {"feasible, ends "})
        self.assertEqual(len(checked), 1)

    def book(self) -> pathlib.Path:
        import csv
        import openpyxl
        made = openpyxl.Workbook()
        for row in csv.reader(turnaround().splitlines()):
            made.active.append(row)
        made.save(self.folder / "t.xlsx")
        return self.folder / "t.xlsx"


if __name__ == "__main__":
    unittest.main()
