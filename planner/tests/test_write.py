from .helpers import EXAMPLES, INPUTS, InFolder, plan

STARTS = b"optimal 7\n0 0\n1 4\n2 0\n3 7\n"


class Write(InFolder):
    def test_by_hand(self) -> None:
        ran = plan("write", INPUTS / "two-jobs.sch", given=STARTS)
        self.assertEqual((ran.returncode, ran.stdout), (0, "activity,name,start,takes,end\n2,,0,4,4\n1,,4,3,7\n"))

    def test_days(self) -> None:
        """By hand: from Friday 27 February 2026 on, four days end on 2 March, and three more on 5 March."""
        ran = plan("write", INPUTS / "two-jobs.sch", "--from", "2026-02-27", given=STARTS)
        self.assertEqual(ran.stdout.splitlines(), ["activity,name,start,takes,end,first day,last day",
                                                   "2,,0,4,4,2026-02-27,2026-03-02", "1,,4,3,7,2026-03-03,2026-03-05"])

    def test_hours(self) -> None:
        words = ("--from", "2026-02-28T22:00", "--period", "hours")
        ran = plan("write", INPUTS / "two-jobs.sch", *words, given=STARTS)
        self.assertEqual(ran.stdout.splitlines(), ["activity,name,start,takes,end,from,until",
                                                   "2,,0,4,4,2026-02-28 22:00,2026-03-01 02:00",
                                                   "1,,4,3,7,2026-03-01 02:00,2026-03-01 05:00"])

    def test_names_and_file(self) -> None:
        out = self.folder / "plan.csv"
        ran = plan("write", EXAMPLES / "building-site.sch", EXAMPLES / "building-site-feasible.starts", "--out", out)
        self.assertEqual((ran.returncode, ran.stdout), (0, ""))
        self.assertIn("1,survey and set out,0,2,2", out.read_text().splitlines())

    def test_what_is_no_schedule_is_refused(self) -> None:
        out = self.folder / "plan.csv"
        ran = plan("write", EXAMPLES / "building-site.sch", EXAMPLES / "building-site-infeasible.starts", "--out", out)
        self.refused(ran, 2, "not a schedule: 13 (strike the scaffold) must start at most 18 after 12 (erect the "
                     "scaffold) ends, and starts 21 after it does", "2 units of Excavator are in use", faults=3)
        self.assertFalse(out.exists())
        self.refused(plan("write", INPUTS / "two-jobs.sch", given=b"no schedule\n"), 2, "no schedule")

    def test_dates(self) -> None:
        self.refused(plan("write", INPUTS / "two-jobs.sch", "--from", "soon", given=STARTS), 2, "from soon")
        self.refused(plan("write", INPUTS / "two-jobs.sch", "--from", "9999-12-31", given=STARTS), 2, "9999")
