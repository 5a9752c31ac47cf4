"""Columns of progress: what has started stays at its real start, with the duration that follows, and the rest starts
later."""
from .helpers import InFolder, plan

# By hand: one crane; in the plan lift 0 to 3, bolt 3 to 5, roof 5 to 9, cover 9 to 11.
TABLE = """activity,days,crane (1),after,started,remaining
lift,3,1,,{},{}
bolt,2,,lift,{},{}
roof,4,1,bolt,{},{}
cover,2,,roof,{},{}
"""
OLD = "name,start\nlift,0\nbolt,3\nroof,5\ncover,9\n"


class Progress(InFolder):
    def solved(self, cells: tuple[object, ...], status: object, *words: object,
               heads: str = "started,remaining") -> tuple[str, dict[str, str]]:
        self.file("p.csv", TABLE.replace("started,remaining", heads).format(*cells))
        out = self.folder / "new.csv"
        out.unlink(missing_ok=True)
        ran = plan("solve", self.folder / "p.csv", "--status", status, "--out", out, *words)
        self.assertEqual(ran.returncode, 0, ran.stderr)
        rows = [line.split(",") for line in out.read_text().splitlines()[1:]] if out.exists() else []
        self.told = ran.stderr
        return ran.stdout.partition("\n")[0], {row[1]: f"{row[2]}+{row[3]}" for row in rows}

    told = ""  # by the last call of solved

    def test_by_hand(self) -> None:
        """On day 6: lifting is done; bolting began on day 4 and needs one more, so it takes 3; the roof follows on
        7."""
        old = self.file("old.csv", OLD)
        first, found = self.solved((0, 0, 4, 1, "", "", "", ""), 6, "--start", old)
        self.assertEqual((first, found), ("optimal 13", {"lift": "0+3", "bolt": "4+3", "roof": "7+4", "cover": "11+2"}))
        self.assertIn("2 of 4 activities start before 6 in", self.told)
        self.assertIn("old.csv, repaired", self.told)

    def test_done(self) -> None:
        """Shares of the duration: of the roof a half is left on day 7, which is two days, and a third of 4 is rounded
        up to 3."""
        for share, roof in (("50 %", "5+4"), ("25", "5+5"), ('"33,3 %"', "5+5"), ("0", "5+6")):
            with self.subTest(share):
                _, found = self.solved((0, "100%", 3, "100 %", 5, share, "", "0 %"), 7, heads="started,done")
                self.assertEqual(found["roof"], roof)

    def test_what_ended(self) -> None:
        """A real end counts, and lags from it; without one what is done took its time, but not beyond the status
        date."""
        heads = "started,finished"
        _, found = self.solved((0, 5, "", "", "", "", "", ""), 6, heads=heads)
        self.assertEqual((found["lift"], found["bolt"]), ("0+5", "6+2"))
        _, found = self.solved((0, 0, "", "", "", "", "", ""), 2)
        self.assertEqual((found["lift"], found["bolt"]), ("0+2", "2+2"))

    def test_dates(self) -> None:
        """From Monday 2 March on: on Monday the 9th, day 5, bolting has run since Friday, day 4, and needs a day
        more."""
        words = ("--from", "2026-03-02", "--workdays", "mon-fri")
        _, found = self.solved(("2026-03-02", 0, "06.03.2026", "1 d", "", "", "", ""), "2026-03-09", *words)
        self.assertEqual(found, {"lift": "0+3", "bolt": "4+2", "roof": "6+4", "cover": "10+2"})

    def test_as_planning_tools_write_it(self) -> None:
        """No date is NA there, and what has not started has all of its duration left, and 0 % done."""
        table = self.file("p.csv", "Task Name,Duration,Actual Start,Actual Finish,Remaining Duration,% Complete\n"
                          "dig,3 days,2026-03-02,2026-03-04,0 days,100%\npour,2 days,NA,NA,2 days,0%\n")
        ran = plan("solve", table, "--from", "2026-03-02", "--status", "2026-03-09")
        self.assertEqual(ran.stdout, "optimal 9\n0 0\n1 0\n2 7\n3 9\n", ran.stderr)

    def test_nothing_starts_in_the_past(self) -> None:
        self.assertEqual(self.solved(("",) * 8, 4)[1]["lift"], "4+3")

    def test_what_was_not_kept(self) -> None:
        """Both starts are real: a lag between them says nothing any more, and that is told."""
        first, found = self.solved((0, 0, 2, 1, "", "", "", ""), 3)
        self.assertEqual((first, found["bolt"], found["roof"]), ("optimal 10", "2+2", "4+4"))
        self.assertIn("'lift' and 'bolt' have started, and a lag between them was not kept", self.told)

    def test_other_commands(self) -> None:
        """What has started is no lag that somebody could change, and stays in every answer."""
        self.solved((0, 0, 3, 1, "", "", "", ""), 5, "--record", self.folder / "rec")
        words = (self.folder / "p.csv", "--status", 5)
        self.assertNotIn("starts", plan("whatif", *words).stdout.partition("None of")[0])
        self.assertIn("and has one that long", plan("verify", *words, self.folder / "rec").stdout)
        lines = plan("float", *words, self.folder / "new.csv", "--total").stdout.splitlines()
        self.assertEqual([line.split()[4] for line in lines[1:]], ["started", "started", "0", "0"])
        self.assertEqual([line.endswith("critical") for line in lines[1:]], [False, False, True, True])
        ran = plan("check", *words, self.file("a.csv", "name,start\nlift,0\nbolt,3\nroof,4\ncover,9\n"))
        self.assertEqual((ran.returncode, ran.stdout), (4, "3 (roof) must start at 5 or later, and starts at 4\n"
                                                           "3 (roof) must start no sooner than 2 (bolt) ends, and "
                                                        "starts 2 "
                                                           "before it "
                                                           "does\n"))

    def test_faults(self) -> None:
        for cells, status, told in (((0, 0, 7, "", "", "", "", ""), 6,
                                     "row 3, column E (started): '7' is behind the status date"),
                                    ((0, 0, 1, "", "", "", "", ""), 6,
                                     "row 3, column E (started): it has started, and would have"),
                                    ((0, 0, "", 1, "", "", "", ""), 6,
                                     "row 3, column F (remaining): what has no start")):
            with self.subTest(told):
                table = self.file("p.csv", TABLE.format(*cells))
                self.refused(plan("solve", table, "--status", status), 2, told)
        self.refused(plan("solve", table), 2, "needs --status", faults=len(plan("solve", table).stderr.splitlines()))
        table = self.file("p.csv", TABLE.format(0, 3, "", "", 1, 3, "", ""))
        self.refused(plan("solve", table, "--status", 2), 2,
                     "has started, but at 1, 2 units of crane are in use, of which there is 1")
        done = self.file("d.csv", TABLE.replace("started,remaining", "started,done").format(0, "0.5", *("",) * 6))
        self.refused(plan("solve", done, "--status", 2), 2, "'0.5' may be a share of 1 or of 100; write it with %")
        old = self.file("old.csv", OLD)
        self.refused(plan("solve", done, "--status", 2, "--start", old, "--frozen", 2), 2, "0.5")
        table = self.file("p.csv", TABLE.format(*("",) * 8))
        self.refused(plan("solve", table, "--status", 2, "--start", old, "--frozen", 2), 2,
                     "--frozen is for tables without a status")
