import csv
import io

from .helpers import INPUTS, PROJECTS, TWO_JOBS, InFolder, plan, psmax


class WhatIf(InFolder):
    def test_a_resource(self) -> None:
        """By hand: two jobs of 3 and 4 take 7 on one machine, and 4 on two."""
        ran = plan("whatif", self.file("two.sch", TWO_JOBS))
        self.assertEqual((ran.returncode, ran.stdout),
                         (0, "As it is: optimal 7.\n  optimal 4: one more of resource 0, of which there is 1\n"),
                         ran.stderr)

    def test_what_opens_a_schedule(self) -> None:
        """By hand: on one machine 2 starts from 0 to 2 after 1, which takes 3. With 3 in place of 2 it follows at once,
        as it does without the lag; if 1 need not come first, it follows 2. On two machines both start at once. The
        other lag, 1 at most 1 after 2, is not enough."""
        ran = plan("whatif", INPUTS / "two-jobs-close-lags.sch")
        first, *lines = ran.stdout.splitlines()
        self.assertEqual((ran.returncode, first), (0, "As it is: no schedule."))
        self.assertEqual(sorted(lines), [
            "  optimal 4: one more of resource 0, of which there is 1",
            "  optimal 7: 1 starts no later than 2 starts: dropped",
            "  optimal 7: 2 starts at most 2 after 1 starts: dropped",
            "  optimal 7: 2 starts at most 2 after 1 starts: one later",
            "None of 1 other changes opens a schedule, which is proved."])

    def test_table(self) -> None:
        """The same as psmax proves, for the paint line with one more of each resource."""
        out = self.folder / "changes.csv"
        ran = plan("whatif", PROJECTS / "paint-line.sch", "--out", out, "--separator", "semicolon")
        self.assertEqual((ran.returncode, ran.stdout), (0, ""), ran.stderr)
        rows = [*csv.DictReader(io.StringIO(out.read_text()), delimiter=";")]
        self.assertEqual([*rows[0]], ["kind", "change", "status", "makespan", "bound", "shorter", "seconds"])
        self.assertEqual({row["kind"] for row in rows}, {"resource", "loosened", "dropped"})
        self.assertEqual([row["makespan"] for row in rows], sorted(row["makespan"] for row in rows))
        *head, units = (PROJECTS / "paint-line.sch").read_text().rstrip().split("\n")
        found = sorted(row["makespan"] for row in rows if row["kind"] == "resource")
        wanted = []
        for place, capacity in enumerate(units.split()):
            more = [*units.split()[:place], f"{int(capacity) + 1}", *units.split()[place + 1 :]]
            wanted.append(psmax("solve", given="\n".join([*head, " ".join(more), ""]).encode()).split()[1])
        self.assertEqual(found, sorted(wanted))

    def test_a_stopped_search(self) -> None:
        """No claim but a bound where the time is over."""
        ran = plan("whatif", self.hard(), "--seconds", "0.8", "--jobs", "1")
        self.assertEqual(ran.returncode, 3)
        self.assertRegex(ran.stdout, r"^As it is: (feasible \d+|unknown) bound \d+\.\n")
        self.assertNotIn("which is proved", ran.stdout)

    def test_as_planners_say_it(self) -> None:
        """By hand: 3, 2 and 4 days on one crane from Monday on, which is away on Thursday and Friday, end on Monday 16
        March. With work on Saturdays 3 days come before that, and 6 from Saturday 7 on end on Friday 13. Two cranes, of
        which one is away then, have 8 days of work in the first week, and 9 are needed. A row of one day in place of 4
        ends on Wednesday. Without the absence it is Thursday 12, and with one day less and Saturdays besides the eighth
        day of work."""
        self.file("away.csv", "resource,from,to,units\ncrane,2026-03-05,2026-03-06,\n")
        table = self.file("p.csv", "from,2026-03-02\nworkdays,Mo-Fr\nabsences,away.csv\nID,activity,days,crane (1)\n"
                          "7,a,3,1\n8,b,2,1\n9,c,4,1\n")
        changes = {"saturdays": "Fri 2026-03-13 (11 days), 3 days sooner",
                   "crane +1": "Mon 2026-03-09 (6 days), 7 days sooner",
                   "9 1 d": "Wed 2026-03-11 (8 days), 5 days sooner",
                   "drop absence Crane": "Thu 2026-03-12 (9 days), 4 days sooner",
                   "ohne Abwesenheiten crane; c -1 d; samstags": "Tue 2026-03-10 (8 days), 6 days sooner"}
        ran = plan("whatif", table, *changes, "--jobs", "1")
        wide = max(map(len, changes))
        self.assertEqual((ran.returncode, ran.stdout.splitlines()), (0, [
            f"{'as it is':{wide}}  optimal, ends Mon 2026-03-16 (11 days)",
            *(f"{change:{wide}}  optimal, ends {told}" for change, told in changes.items())]), ran.stderr)
        out = self.folder / "changes.csv"
        self.assertEqual(plan("whatif", table, "crane +1", "--jobs", "1", "--out", out).returncode, 0)
        rows = [line.split(",")[:5] for line in out.read_text().splitlines()]
        self.assertEqual(rows, [["change", "status", "ends", "makespan", "bound"],
                                ["as it is", "optimal", "2026-03-16", "11", "11"],
                                ["crane +1", "optimal", "2026-03-09", "6", "6"]])

    def test_changes_that_are_none(self) -> None:
        table = self.file("p.csv", "from,2026-03-02\nworkdays,mon-fri\nactivity,days,crane (1)\na,3,1\n")
        for change, told in (("mondays", "that day has work already"), ("crain +1", "did you mean 'crane'?"),
                             ("crane -2", "there are 1 of it"), ("a -4 d", "it takes '3'"),
                             ("drop absence crane", "no absence of"), ("shift 6-22", "shift 6-22: not hours"),
                             ("more cranes", "no change that plan knows, which is such")):
            with self.subTest(change):
                self.refused(plan("whatif", table, change), 2, told)
        text = self.file("two.sch", TWO_JOBS)
        self.refused(plan("whatif", text, "workdays mon-sat"), 2, "is no table")

    def test_faults(self) -> None:
        self.refused(plan("whatif", self.file("bad.sch", "x")), 2, "bad.sch: word 0")
        project = self.file("p.sch", TWO_JOBS)
        self.refused(plan("whatif", project, "--out", project), 2, "which would be lost")
