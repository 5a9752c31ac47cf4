"""From when to when an activity may start while the others stay as they are."""
import csv
import io
from xml.etree import ElementTree

from psmax.project_text import parse
from psmax.psmax import starts_text

from .helpers import EXAMPLES, INPUTS, PSMAX, InFolder, plan, psmax

# By hand: one crane. b is on it from 0 to 3, c from 5 to 7, and a, which takes one day on it, can be there on 3 or 4.
TABLE = """activity,days,crane (1),after,at least
a,1,1,,
b,3,1,,
c,2,1,b,2
end of lifting,0,,c,
paint,1,,,
"""
STARTS = "0 0\n1 4\n2 0\n3 5\n4 7\n5 2\n6 7\n"


class Float(InFolder):
    def setUp(self) -> None:
        super().setUp()
        self.assertEqual(plan("read", self.file("p.csv", TABLE)).returncode, 0)
        self.project, self.answer = self.folder / "p.sch", self.file("p.st", STARTS)

    def test_by_hand(self) -> None:
        ran = plan("float", self.project, self.answer)
        self.assertEqual((ran.returncode, ran.stderr), (0, ""))
        self.assertEqual([line.split() for line in ran.stdout.splitlines()], [
            ["start", "earliest", "latest", "free"],
            ["2", "b", "0", "0", "0", "0"],
            ["5", "paint", "2", "0", "6", "6"],
            ["1", "a", "4", "3", "4", "1"],
            ["3", "c", "5", "5", "5", "0"],
            ["4", "end", "of", "lifting", "7", "7", "7", "0"]])

    def test_csv(self) -> None:
        out = self.folder / "float.csv"
        words = ("--out", out, "--from", "2026-03-02", "--workdays", "mon-fri")
        self.assertEqual(plan("float", self.project, self.answer, *words).stdout, "")
        rows = [*csv.DictReader(io.StringIO(out.read_text()))]
        self.assertEqual(rows[1], {
            "activity": "5", "name": "paint", "start": "2", "takes": "1", "end": "3", "first day": "2026-03-04",
            "last day": "2026-03-04", "earliest": "0", "latest": "6", "free float": "6", "earliest day": "2026-03-02",
            "latest day": "2026-03-10"})
        self.assertEqual([row["name"] for row in rows if row["free float"] == "0"], ["b", "c", "end of lifting"])
        self.assertEqual(plan("check", self.project, out, *words[2:]).stdout,
                         "feasible, ends Tue 2026-03-10 (7 days)\n")

    def test_charts(self) -> None:
        lines = plan("float", self.project, self.answer, "--chart").stdout.splitlines()
        self.assertEqual([line.split()[-1] for line in lines[3:8]],
                         ["...-#..", "###....", ".....##", "......|", "--#----"])
        self.assertEqual(plan("float", self.project, self.answer, "--svg", self.folder / "f.svg").stdout, "")
        picture = ElementTree.parse(self.folder / "f.svg")
        boxes = [node.get("class") for node in picture.iter("{http://www.w3.org/2000/svg}rect")]
        self.assertEqual([boxes.count(kind) for kind in ("critical", "float", "bar")], [0, 2, 4])

    def test_every_start_between_is_one(self) -> None:
        """psmax finds each start of a window feasible at this makespan, and the one before and the one behind not."""
        for name in ("building-site", "plant-shutdown"):
            path = EXAMPLES / f"{name}.sch"
            answer = psmax("solve", given=path.read_bytes())
            starts = [int(line.split()[1]) for line in answer.splitlines()[1:]]
            out = self.folder / "f.csv"
            self.assertEqual(plan("float", path, "--out", out, given=answer.encode()).returncode, 0)
            rows = [*csv.DictReader(io.StringIO(out.read_text()))]
            self.assertEqual(len(rows), parse(path.read_bytes()).end - 1)
            for row in rows[::4]:
                activity, earliest, latest = (int(row[head]) for head in ("activity", "earliest", "latest"))
                for start in range(earliest - 1, latest + 2):
                    with self.subTest(name=name, activity=activity, start=start):
                        moved = starts[:activity] + [start] + starts[activity + 1 :]
                        told = psmax("check", "--project", path, given=starts_text(moved))
                        self.assertEqual(told == f"feasible {starts[-1]}\n", earliest <= start <= latest)

    def test_what_psmax_confirms(self) -> None:
        """One check of the schedule, and two of the three moves, since a and paint may move at once. What it does not
        confirm is told."""
        log = self.folder / "log"
        told = (f'echo "$1" >> {log}\nif [ "$1" = check ] && [ $(grep -c check {log}) -gt {{}} ]; then\n'
                "echo lag 0 5 1; exit 4; fi\n")
        counts = self.program("counts", told.format(9) + f'exec {PSMAX} "$@"')
        ran = plan("float", self.project, self.answer, psmax=counts)
        self.assertEqual((ran.returncode, log.read_text().split().count("check")), (0, 3), ran.stderr)
        log.unlink()
        lies = self.program("lies", told.format(1) + f'exec {PSMAX} "$@"')
        ran = plan("float", self.project, self.answer, psmax=lies)
        self.refused(ran, 1, "psmax does not confirm that each of these may start so alone: activity 5 at 0, activity "
                     "1 at 3")

    def test_faults(self) -> None:
        self.refused(plan("float", INPUTS / "two-jobs.sch", given=b"0 0\n1 0\n2 2\n3 6\n"), 2, "not a schedule")
        self.refused(plan("float", INPUTS / "two-jobs.sch", given=b"no schedule\n"), 2, "no schedule")
