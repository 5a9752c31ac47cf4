"""The turnaround of planner/projects: its dates by a count of hours that is not plan's, and what has started on
Friday."""
import csv
import datetime
import io
import pathlib
import re
import shutil

from .helpers import PROJECTS, InFolder, plan

HOUR = datetime.timedelta(hours=1)
FRIDAY = "2026-03-06 07:00"


def hours(begin: str, end: str) -> int:
    """Hours of work between two moments, counted one by one: Monday to Saturday, 07:00 to 12:00 and 13:00 to 16:00."""
    now, last = datetime.datetime.fromisoformat(begin), datetime.datetime.fromisoformat(end)
    count = 0
    while now < last:
        count += now.weekday() < 6 and now.hour in (7, 8, 9, 10, 11, 13, 14, 15)
        now += HOUR
    return count


ONCE: dict[str, bytes] = {}  # what the search of the turnaround wrote and said, which all tests begin with


def plan_once(table: pathlib.Path, *out: pathlib.Path) -> str:
    """The answer of a search that writes these files; the files of the first one are written again."""
    if not ONCE:
        ONCE["said"] = plan("solve", table, "--jobs", "1", "--out", out[0], "--record", out[1]).stdout.encode()
        ONCE.update({path.name: path.read_bytes() for path in out})
    for path in out:
        path.write_bytes(ONCE[path.name])
    return ONCE["said"].decode()


def hours_told(text: str) -> int:
    """Of an answer that is optimal."""
    found = re.match(r"optimal, ends \w{3} 2026-03-\d\d \d\d:00 \((\d+) h\)\n", text)
    assert found is not None, text
    return int(found[1])


class Turnaround(InFolder):
    def setUp(self) -> None:
        super().setUp()
        for path in PROJECTS.glob("turnaround*.csv"):
            shutil.copy(path, self.folder)
        self.table, self.friday = self.folder / "turnaround.csv", self.folder / "turnaround-friday.csv"
        self.old, self.new = self.folder / "old.csv", self.folder / "new.csv"
        self.makespan = hours_told(plan_once(self.table, self.old, self.folder / "rec"))

    def rows(self, table: object, answer: object) -> dict[str, dict[str, str]]:
        ran = plan("write", table, answer)
        self.assertEqual(ran.returncode, 0, ran.stderr)
        return {row["name"]: row for row in csv.DictReader(io.StringIO(ran.stdout))}

    def test_its_dates(self) -> None:
        """74 activities, each with its hours of work; the end of all is the makespan; the crane has its days off."""
        rows = self.rows(self.table, self.old)
        self.assertEqual(len(rows), 74)
        for name, row in rows.items():
            with self.subTest(name):
                self.assertEqual(hours(row["from"], row["until"]), int(row["takes"]))
                self.assertEqual(hours("2026-03-02 07:00", row["until"]), int(row["end"]))
                if "bundle back" in name or "lift" in name or "pull the" in name:
                    self.assertFalse(row["from"] < "2026-03-08" and row["until"] > FRIDAY, row)
        self.assertEqual(max(int(row["end"]) for row in rows.values()), self.makespan)
        self.assertGreaterEqual(rows["C-1: lift in trays"]["from"], "2026-03-10 07:00")
        self.assertIn("and has one that long", plan("verify", self.table, self.folder / "rec").stdout)

    def test_its_lateness(self) -> None:
        """The greatest of the three ends less their dates, in hours of work, and the same as `check` says."""
        rows = self.rows(self.table, self.old)
        due = {"E-104: pull blinds": "2026-03-13", "P-1: run alone": "2026-03-12", "hand over": "2026-03-15"}
        late = max(hours("2026-03-02 07:00", rows[name]["until"]) - hours("2026-03-02 07:00", f"{day} 00:00")
                   for name, day in due.items())
        told = plan("check", self.table, self.old, "--minimize", "lateness").stdout
        self.assertRegex(told, rf"^feasible, {late} h late, ends .*\nLATE: ")
        best = plan("solve", self.table, "--minimize", "lateness", "--jobs", "1").stdout.split()
        self.assertEqual(best[:2], ["optimal", "lateness"])
        self.assertLessEqual(int(best[2]), late)

    def test_on_friday(self) -> None:
        """What has started stays at its real start, and ends when the table says so; nothing else starts before
        Friday."""
        ran = plan("solve", self.friday, "--start", self.old, "--out", self.new, "--jobs", "1")
        makespan = hours_told(ran.stdout)
        rows = self.rows(self.friday, self.new)
        cells = [*csv.reader(io.StringIO(self.friday.read_text()))]
        started = {row[2]: row[11:14] for row in cells[8:] if row[11]}
        self.assertEqual(len(started), 21)
        for name, row in rows.items():
            with self.subTest(name):
                begin, end, left = started.get(name, ("", "", ""))
                if not begin:
                    self.assertGreaterEqual(row["from"], FRIDAY)
                elif int(row["takes"]):
                    self.assertEqual(row["from"], begin)
                    self.assertEqual(row["until"] if end else hours(FRIDAY, row["until"]), end or int(left.split()[0]))
        told = plan("compare", self.friday, self.old, self.new).stdout
        self.assertTrue(told.startswith(f"makespan {self.makespan} h -> {makespan} h"), told)
        page = self.folder / "page.html"
        self.assertEqual(plan("report", self.friday, self.new, "--jobs", "1", "--out", page).returncode, 0)
