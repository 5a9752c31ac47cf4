"""Batches of researchers: all formats, several folders, records, published bounds, half a second, and the bar."""
import csv
import os
import pty
import shutil
import subprocess
import sys

import psmax
from planner.tests.helpers import CALLED, INPUTS, PLAN, InFolder, plan
from psmax.planner.published import read_published

from .test_formats import DATA, KNOWN

# Tables of published bounds: what a file is called, its text, and the bounds that it tells.
PUBLISHED = (
    ("a.csv", "name;upper;lower\nj301_1;43;\nj301_2;;40\n", {"j301_1": (None, 43), "j301_2": (40, None)}),
    ("b.csv", "Instance\tLB\tUB\npsp1.sch\t36\t38\n", {"psp1.sch": (36, 38)}),
    ("c.csv", "upper bound,instance\n7,a\n6,a\n", {"a": (None, 6)}),
    ("j30opt.sm", "Instance Set : j30.sm\n=====\nPar  Inst  Make-  CPU-Time[sec.]\n----\n  1  1   43   0.05\n"
     "  1  2   47   0.12\n", {"j301_1": (43, 43), "j301_2": (47, 47)}),
    ("J60LB.SM", "1\t10\t72\n", {"J601_10": (72, None)}),
    ("j60hrs.sm", "48 10 85 A. Author 1999\r\n", {"j6048_10": (None, 85)}),
    ("ubo10.txt", "# 90 5\npsp1 36 38\n\npsp2   41  # closed\n", {"psp1": (36, 38), "psp2": (41, 41)}),
    ("j301_1.opt", "43\n", {"j301_1": (43, 43)}), ("psp7.sol", "36 38", {"psp7": (36, 38)}),
)


class Batches(InFolder):
    def setUp(self) -> None:
        super().setUp()
        for name in ("own", "more", "out", "rec"):
            (self.folder / name).mkdir()
        self.own, self.more = self.folder / "own", self.folder / "more"
        for name in KNOWN:
            if name != "ta01.txt":
                shutil.copy(DATA / name, self.own)
        self.file("own/answer", "1 2\n2 3\n")  # which is no project
        self.file("own/README.md", "# six\n\nProjects.\n")
        shutil.copy(INPUTS / "two-jobs.sch", self.more / "six.sch")

    def leave(self, *names: str) -> None:
        """Takes all other projects out of the folder."""
        for path in self.own.iterdir():
            if path.name not in names:
                path.unlink()

    def rows(self) -> dict[str, dict[str, str]]:
        with open(self.folder / "all.csv", newline="") as file:
            return {row["project"]: row for row in csv.DictReader(file)}

    def test_all_formats(self) -> None:
        words = ("--csv", self.folder / "all.csv", "--out", self.folder / "out", "--record", self.folder / "rec")
        ran = plan("batch", self.own, "--seconds", "20", "--jobs", "2", *words)
        self.assertEqual(ran.returncode, 0, ran.stderr)
        wanted = {name: f"{makespan}" for name, (_, makespan) in KNOWN.items() if name != "ta01.txt"}
        self.assertEqual({name: row["makespan"] for name, row in self.rows().items()}, wanted)
        for name in ("ft06.rec", "six.sm.rec", "six.rcp.rec"):
            project = self.own / (name.removesuffix(".rec") if name != "ft06.rec" else "ft06.jsp")
            ran = plan("verify", project, self.folder / "rec" / name)
            self.assertIn(f"is shorter than {wanted[project.name]}", ran.stdout, ran.stderr)
            self.assertIn("feasible", plan("check", project, self.folder / "out" / f"{name[:-4]}.starts").stdout)

    def test_several_folders(self) -> None:
        """Rows and outputs have their folders; what would be written twice is a fault."""
        (self.folder / "again").mkdir()
        shutil.copytree(self.more, self.folder / "again" / "more")
        words = ("--seconds", "0.5", "--csv", self.folder / "all.csv", "--out", self.folder / "out")
        self.leave("six.sm")
        self.assertEqual(plan("batch", self.own, self.more, *words).returncode, 0)
        row = self.rows()[str(self.more / "six.sch")]
        self.assertEqual((row["makespan"], row["limit"]), ("7", "0.5"))
        self.assertTrue((self.folder / "out" / "more-six.starts").is_file())
        self.refused(plan("batch", self.more, self.folder / "again" / "more", *words), 2,
                     "two projects would be written as more-six")
        there = self.file("there", "my own words\n")
        self.refused(plan("batch", self.more, "--record", there), 1, "there: it is no folder")

    def test_half_a_second(self) -> None:
        shutil.copy(self.hard(), self.more)
        self.assertEqual(plan("batch", self.more, "--seconds", "0.5", "--csv", self.folder / "all.csv").returncode, 0)
        row = self.rows()["hard.sch"]
        self.assertEqual((row["status"], float(row["seconds"]) < 3), ("feasible", True))
        self.refused(plan("batch", self.more, "--seconds", "0"), 2, "'0' is not a number of seconds above 0")

    def test_published_bounds(self) -> None:
        """An answer below a lower bound or above an upper one is told, with exit status 1."""
        def known(text: str) -> tuple[int, str]:
            path = self.file("known.csv", "upper,project,lower\n" + text)
            self.leave("six.sm", "ft06.jsp")
            ran = plan("batch", self.own, "--seconds", "20", "--known", path, "--csv", self.folder / "all.csv")
            return ran.returncode, ran.stderr
        self.assertEqual(known("55,ft06,55\n9,six.sm,\n,six.rcp,9\n")[0], 0)
        status, told = known("54,ft06,\n,six.sm,10\n99,bridge,1\n")
        self.assertEqual(status, 1)
        self.assertIn("ft06.jsp: the bound 55 is above the published makespan 54\n", told)
        self.assertIn("six.sm: the makespan 9 is below the published lower bound 10\n", told)
        self.assertNotIn("bridge", told)
        self.assertIn("row 2: 'x' is no whole number", known("x,a,\n")[1])
        for text, missing in ("a,b\n", "project"), ("name,best\n", "lower"):
            ran = plan("batch", self.own, "--known", self.file("k.csv", text))
            self.refused(ran, 2, f"k.csv: no column '{missing}'")

    def test_published_tables(self) -> None:
        """Each layout, by hand."""
        for name, text, wanted in PUBLISHED:
            with self.subTest(name, text=text):
                found = read_published(str(self.file(name, text)))
                self.assertEqual({project: (one.lower, one.upper) for project, one in found.items()}, wanted)
        for name, text, told in (("j30opt.sm", "Par Inst\n1 x 43\n", "no row of a parameter, an instance and a"),
                                 ("a.txt", "psp1 3 4\npsp2 3 4 5\n", "line 2: 'psp2 3 4 5' is no name with an"),
                                 ("b.txt", "psp1\n", "line 1: 'psp1' is no name"), ("c.txt", "psp1 -3\n", "line 1")):
            with self.subTest(name), self.assertRaisesRegex(psmax.BadInput, f"{name}: {told}"):
                read_published(str(self.file(name, text)))

    def test_bounds_of_two_tables(self) -> None:
        """Of each bound the better one counts, whichever table comes first."""
        self.leave("six.sm")
        (self.own / "six.sm").rename(self.own / "j301_1.sm")
        low, high = self.file("j30lb.sm", "1 1 8\n"), self.file("j30hrs.sm", "1 1 10 CDR\n")
        for better, told in (("1 1 9\n", ""), ("1 1 10\n", "j301_1.sm: the makespan 9 is below the published lower")):
            more = self.file("j30opt.sm", better)
            for files in (low, high, more), (more, high, low):
                ran = plan("batch", self.own, "--known", *files, "--csv", self.folder / "all.csv")
                self.assertEqual(ran.returncode, 1 if told else 0, ran.stderr)
                self.assertIn(told, ran.stderr)

    def test_the_bar(self) -> None:
        """A terminal shows one line, which grows."""
        ours, theirs = pty.openpty()
        words = [sys.executable, str(PLAN), "batch", str(self.more), "--csv", str(self.folder / "all.csv")]
        ran = subprocess.run(words, stderr=theirs, stdout=subprocess.PIPE, env={**os.environ, **CALLED})
        os.close(theirs)
        shown = os.read(ours, 10_000).decode()
        os.close(ours)
        self.assertEqual((ran.returncode, ran.stdout), (0, b""))
        bar, _, rest = shown.partition("\n")
        self.assertEqual(bar.count("\r["), 2, shown)
        self.assertIn("[########################] 1 of 1  six.sch: optimal 7", bar)
        self.assertIn("1 of 1 projects: 1 optimal", rest)
