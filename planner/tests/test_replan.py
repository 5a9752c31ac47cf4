"""A schedule of which a part has started is planned again, and two schedules are compared."""
import pathlib

from .helpers import INPUTS, InFolder, Ran, plan, psmax

# By hand: one crane, and what is lifted is bolted at once. 3 + 2 + 4 + 2 = 11 in this order, as the lags ask for.
TABLE = """activity,days,crane (1),after,at least,at most
lift beams,3,1,,,
bolt beams,2,,lift beams,,0
lift roof,4,1,bolt beams,,
cover roof,2,,lift roof,,
"""
LONGER = TABLE.replace("bolt beams,2", "bolt beams,4")  # two days more
INSERTED = TABLE.replace("lift roof,4,1,bolt beams", "test beams,1,1,bolt beams,,\nlift roof,4,1,test beams")


class Replanning(InFolder):
    def setUp(self) -> None:
        super().setUp()
        self.project, self.old, self.new = (self.folder / name for name in ("p.sch", "old.csv", "new.csv"))
        self.read(TABLE)
        self.assertEqual(plan("solve", self.project, "--out", self.old).stdout, "optimal 11\n")
        self.assertEqual(self.starts(self.old), {"lift beams": 0, "bolt beams": 3, "lift roof": 5, "cover roof": 9})

    def read(self, table: str, *words: object) -> None:
        self.assertEqual(plan("read", self.file("p.csv", table), *words).returncode, 0)

    def starts(self, path: object) -> dict[str, int]:
        ran = plan("write", self.project, path)
        self.assertEqual(ran.returncode, 0, ran.stderr)
        rows = [line.split(",") for line in ran.stdout.splitlines()[1:]]
        return {row[1]: int(row[2]) for row in rows}

    def late(self) -> pathlib.Path:
        """The old schedule, with the roof three days later."""
        text = self.old.read_text().replace("lift roof,5,4,9", "lift roof,8,4,12").replace("9,2,11", "12,2,14")
        return self.file("late.csv", text)

    def replanned(self, day: object, *words: object) -> Ran:
        return plan("solve", self.project, "--start", self.old, "--frozen", day, "--out", self.new, *words)

    def test_what_has_started_stays(self) -> None:
        """By hand: bolting takes two days more, so the roof waits for two days; the beams were lifted on day 0."""
        self.read(LONGER)
        ran = self.replanned(4)
        self.assertEqual((ran.returncode, ran.stdout), (0, "optimal 13\n"), ran.stderr)
        self.assertIn("2 of 4 activities start before 4 in", ran.stderr)
        self.assertIn("old.csv: 3 (lift roof) must start no sooner than 2 (bolt beams) ends, and starts 2 before it "
                      "does",
                      ran.stderr)
        self.assertIn("old.csv, repaired", ran.stderr)
        self.assertEqual(self.starts(self.new), {"lift beams": 0, "bolt beams": 3, "lift roof": 7, "cover roof": 11})

    def test_nothing_is_planned_into_the_past(self) -> None:
        """By hand: without anything changed, on day 6 the cover may start on day 9, and nothing else moves; had the
        roof not started by then, it could not start before."""
        ran = self.replanned(6)
        self.assertEqual((ran.returncode, ran.stdout, self.starts(self.new)),
                         (0, "optimal 11\n", self.starts(self.old)))
        late = self.late()
        ran = plan("solve", self.project, "--start", late, "--frozen", 7, "--out", self.folder / "again.csv")
        self.assertEqual((ran.stdout, self.starts(self.folder / "again.csv")["lift roof"]), ("optimal 13\n", 7),
                         ran.stderr)

    def test_new_and_gone(self) -> None:
        """By hand: the beams are tested for a day on the crane, once they are bolted on day 5."""
        self.read(INSERTED)
        ran = self.replanned(1)
        self.assertEqual((ran.returncode, ran.stdout), (0, "optimal 12\n"), ran.stderr)
        self.assertIn("3 (test beams) is new", ran.stderr)
        self.assertEqual(self.starts(self.new)["test beams"], 5)
        self.read(TABLE)
        ran = plan("solve", self.project, "--start", self.new, "--frozen", 1)
        self.assertIn("3 (test beams) is no activity any more\n", ran.stderr)
        self.assertEqual(ran.stdout.partition("\n")[0], "optimal 11")
        ran = plan("solve", self.project, "--start", self.new, "--frozen", 6)
        self.assertIn("3 (test beams) is no activity any more, and had started\n", ran.stderr)

    def test_by_date(self) -> None:
        """By hand: day 4 is Friday; the roof is lifted from day 5 on, the Monday after."""
        self.read(TABLE, "--from", "2026-03-02", "--workdays", "mon-fri")
        for day, started in (("2026-03-06", 2), ("2026-03-08", 2), ("2026-03-10", 3)):
            with self.subTest(day):
                ran = self.replanned(day, "--seconds", "5")
                self.assertIn(f"{started} of 4 activities start before {day}", ran.stderr)

    def test_a_contradiction_in_what_has_started(self) -> None:
        """What has started can't be moved, so what no longer fits there is told by name."""
        self.read(TABLE.replace("lift beams,,0", "lift beams,1,2"))
        self.refused(self.replanned(4), 2,
                     "has started, but 2 (bolt beams) must start at least 1 after 1 (lift beams) ends, and starts 0 "
                     "after")
        self.read(TABLE.replace("bolt beams,2,", "bolt beams,2,1").replace("lift beams,3", "lift beams,5"))
        self.refused(self.replanned(4), 2, "2 (bolt beams) must start no sooner than 1 (lift beams) ends",
                     "2 units of crane are in use", faults=2)

    def test_what_keeps_the_rest_from_starting(self) -> None:
        """By hand: bolting is due on day 3, and on day 5 it has not started."""
        old = self.file("held.csv", "activity,start\nlift beams,0\nbolt beams,6\nlift roof,8\ncover roof,12\n")
        ran = plan("solve", self.project, "--start", old, "--frozen", 5)
        self.assertEqual((ran.returncode, ran.stdout), (0, "no schedule\n"))
        self.assertIn("2 (bolt beams) starts no later than 1 (lift beams) ends", ran.stderr)

    def test_the_file_keeps_what_is_shorter(self) -> None:
        """A schedule of the project that is shorter than what keeps the past isn't replaced by that."""
        late = self.late()
        ran = plan("solve", self.project, "--start", late, "--frozen", 9, "--out", self.old)
        self.refused(ran, 2, "old.csv holds a schedule of 11 that doesn't keep what has started")

    def test_the_answer_is_one_of_the_whole_project(self) -> None:
        self.read(LONGER)
        out = self.folder / "new.starts"
        self.assertEqual(plan("solve", self.project, "--start", self.old, "--frozen", "4", "--out", out).returncode, 0)
        self.assertEqual(psmax("check", "--project", self.project, given=out.read_bytes()), "feasible 13\n")

    def test_faults(self) -> None:
        self.refused(plan("solve", self.project, "--frozen", 4), 2, "--frozen needs --start")
        self.refused(self.replanned("2026-03-06"), 2, "--frozen 2026-03-06", "--from")
        self.refused(self.replanned(1_000_001), 2, "there may be 1,000,000")
        self.refused(self.replanned("soon", "--from", "2026-03-02"), 2, "--frozen soon: not a date")


class Comparing(InFolder):
    """By hand, of a project in which pouring takes a day and curing six."""

    TABLE = "activity,days\ndig,2\nshore,2\ncure,6\npour,1\n"
    OLD = "activity,name,start,takes\n1,dig,0,2\n2,pour,2,1\n3,cure,3,6\n4,strip,9,1\n"
    NEW = "activity,name,start\n1,dig,0\n2,shore,2\n3,cure,5\n4,pour,4\n"
    TOLD = """makespan 10 -> 11, 1 later
  pour   2 -> 4, 2 later
  cure   3 -> 5, 2 later
  shore  new, at 2
  strip  gone, was at 9
1 of 4 start as before
"""

    def compared(self, old: str, new: str, *words: object) -> Ran:
        return plan("compare", self.file("p.csv", self.TABLE), self.file("old.csv", old), self.file("new.csv", new),
                    *words)

    def test_by_hand(self) -> None:
        ran = self.compared(self.OLD, self.NEW)
        self.assertEqual((ran.returncode, ran.stdout), (0, self.TOLD))

    def test_ends_are_computed(self) -> None:
        """An end that is old, or missing, says nothing: cure ends 6 after its start, and strip a day after its."""
        new = self.NEW.replace("start\n", "start,end\n").replace("cure,5", "cure,5,7").replace("dig,0", "dig,0,99")
        old = self.OLD.replace("takes\n", "takes,end\n").replace("9,1\n", "9,1,12\n")
        self.assertEqual(self.compared(old, new).stdout, self.TOLD)
        self.refused(self.compared(self.OLD.replace("takes", "end"), self.NEW), 2,
                     "old.csv: 4 (strip) is no activity of",
                     "no column 'takes' says how long it took")

    def test_dates(self) -> None:
        ran = self.compared(self.OLD, self.NEW, "--from", "2026-03-05", "--workdays", "mon-fri")
        self.assertIn("  pour   2026-03-09 -> 2026-03-11, 2 later\n", ran.stdout)
        self.assertIn("makespan 10 -> 11, 1 later (2026-03-18 -> 2026-03-19)\n", ran.stdout)

    def test_milestones(self) -> None:
        """They stand at the day on which work ends, in the lines of psmax too."""
        for name, day in (("old", 3), ("new", 4)):
            first = f'feasible {day} bound 1 {{"names": ["dig", "done"], "durations": [2, 0]}}'
            self.file(name, f"{first}\n0 0\n1 0\n2 {day}\n3 {day}\n")
        table = self.file("m.csv", "activity,days\ndig,2\ndone,0\n")
        ran = plan("compare", table, self.folder / "old", self.folder / "new", "--from", "2026-03-02")
        self.assertIn("  done  2026-03-04 -> 2026-03-05, 1 later\n", ran.stdout)

    def test_numbers(self) -> None:
        """Answers of psmax, which have no names; those of a page go with them."""
        path = INPUTS / "two-jobs.sch"
        old, new = self.file("old", "optimal 7\n0 0\n1 0\n2 3\n3 7\n"), self.file("new", "0 0\n1 4\n2 0\n3 7\n")
        told = "makespan 7 -> 7\n  {}  3 -> 0, 3 earlier\n  {}  0 -> 4, 4 later\n0 of 2 start as before\n"
        self.assertEqual(plan("compare", path, old, new).stdout, told.format("activity 2", "activity 1"))
        page = self.file("page.md", "| 1 | a | 3 |\n| 2 | b | 4 |\n")
        self.assertEqual(plan("compare", path, old, new, "--names", page).stdout, told.format("b", "a"))
        more = self.file("more", "0 0\n1 4\n2 0\n3 7\n4 7\n")
        self.refused(plan("compare", path, old, more), 2, "starts of 5 activities, and", "without names nobody can say")
        self.refused(plan("compare", path, old, self.file("none", "no schedule\n")), 2, "no schedule")

    def test_why(self) -> None:
        """By hand: two jobs of 3 and 4 on one machine take 7, and one after the other with a gap 9, where 7 will do.
        Once 1 has started at 2, they take 9."""
        path = INPUTS / "two-jobs.sch"
        old, new = self.file("old", "0 0\n1 0\n2 3\n3 7\n"), self.file("new", "0 0\n1 0\n2 5\n3 9\n")
        ran = plan("compare", path, old, new, "--why")
        told = "There is a schedule that ends by 7: psprove has found one of 7."
        self.assertEqual((ran.returncode, ran.stdout.splitlines()[3]), (0, told), ran.stderr)
        self.assertNotIn("There is", plan("compare", path, new, old, "--why").stdout)
        late, later = self.file("late", "0 0\n1 1\n2 4\n3 8\n"), self.file("later", "0 0\n1 1\n2 5\n3 9\n")
        ran = plan("compare", path, late, later, "--why", "--frozen", 2)
        self.assertIn("There is a schedule that ends by 8: psprove has found one of 8.", ran.stdout, ran.stderr)
        ran = plan("why", path, "--start", late, "--frozen", 2, "--within", 7)
        self.assertIn("There is no schedule that ends by 7.", ran.stdout, ran.stderr)
