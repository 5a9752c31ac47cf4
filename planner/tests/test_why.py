from unittest import mock

from psmax.project import parts
from psmax.project_text import parse

from .helpers import EXAMPLES, INPUTS, PROJECTS, TWO_JOBS, InFolder, plan, psmax

THESE = "These together are impossible, by a proof of psprove; without any one of them there is a schedule:\n"
ALONE = "This is impossible, by a proof of psprove; without it there is a schedule:\n"


class Why(InFolder):
    def told(self, path: object, *texts: str) -> str:
        ran = plan("why", path)
        self.assertEqual((ran.returncode, ran.stderr), (0, ""))
        for text in texts:
            self.assertIn(text, ran.stdout)
        return ran.stdout

    def test_positive_cycle(self) -> None:
        """By hand: 2 at least 5 after 1, and at most 4 after it: 5 - 4 is 1 too much. Without the second there is one
        of 9: 1 from 0 to 3, 2 from 5 to 9."""
        self.told(INPUTS / "two-jobs-positive-cycle.sch", "There is no schedule.",
                  f"{ALONE}  2 starts at most 1 after 1 ends\n",
                  "2 starts at least 2 after 1 ends", "Together they ask for 1 period more than there is.",
                  "a schedule of 9: 2 starts at most 1 after 1 ends.\n  Allow 2 to start 1 period later, which is "
                  "enough, and less is not: 2 starts at most 2 after 1 ends.")

    def test_needs_more_than_there_is(self) -> None:
        self.told(INPUTS / "one-job-too-big.sch", "There is no schedule.",
                  "Activity 1 needs 2 of resource 0, of which there is 1")

    def test_deadline_too_short(self) -> None:
        """By hand: two jobs of 3 and 4 on one machine take 7, which the deadline of 6 forbids: that and the machine."""
        lag = "the project ends by 6"
        self.told(INPUTS / "two-jobs-deadline-6.sch", f"{THESE}  resource 0, of which there is 1\n  {lag}\n",
                  f"a schedule of 7: {lag}")

    def test_either_lag(self) -> None:
        """2 starts from 0 to 2 after 1, so neither can go first: without either lag one of them can."""
        text = self.told(INPUTS / "two-jobs-close-lags.sch", THESE)
        self.assertEqual(text.count("Without this lag there is a schedule of 7"), 2)

    def test_no_lag_alone(self) -> None:
        """By hand: the deadline of 6 stands twice, so taking one out leaves the other."""
        text = TWO_JOBS.replace("3 1 0\n", "3 1 2 0 0 [-6] [-5]\n", 1)
        self.told(self.file("p.sch", text), "No maximum lag, taken out alone, opens a schedule.")

    def test_names(self) -> None:
        """By hand: the ground stays firm for 3 days, and excavating takes 5."""
        text = (EXAMPLES / "building-site.sch").read_text().replace("[-7] [1]", "[-3] [1]")
        self.file("site.md", (EXAMPLES / "building-site.md").read_bytes())
        self.told(self.file("site.sch", text), "Together they ask for 2 days more than there are.",
                  "3 (blinding concrete) starts at most 3 after 2 (excavate) starts",
                  "Allow 3 (blinding concrete) to start 2 "
                  "days later, which is enough, and less is not: 3 (blinding concrete) starts no later than 2 "
                  "(excavate) ends.")

    def test_there_is_one(self) -> None:
        self.told(EXAMPLES / "building-site.sch", "There is a schedule: psprove has found one of 36.")

    def test_dates(self) -> None:
        """By hand, from Monday 2 March on, Monday to Friday: trusses come on the 6th, lifting takes two days, and the
        roof is due by the 9th: it ends on the 10th at the soonest, a day too late. The circle begins at the start, and
        ends with its limit."""
        table = self.file("p.csv", "activity,days,after,not before,end by\ntrusses,0,,2026-03-06,\nlift,2,trusses,,\n"
                          "roof,1,lift,,2026-03-09\n")
        ran = plan("why", table, "--from", "2026-03-02", "--workdays", "mon-fri")
        self.assertEqual(ran.stdout, """There is no schedule.
This is impossible, by a proof of psprove; without it there is a schedule:
  3 (roof) ends by 2026-03-09
These lags contradict each other:
  1 (trusses) starts on 2026-03-06 or later
  2 (lift) starts no sooner than 1 (trusses) starts
  3 (roof) starts no sooner than 2 (lift) ends
  3 (roof) ends by 2026-03-09
  Together they ask for 1 day more than there is.
Without this lag there is a schedule of 7: 3 (roof) ends by 2026-03-09.
  Allow 3 (roof) to end 1 day later, which is enough, and less is not: 3 (roof) ends by 2026-03-10.
""")

    def test_advice_was_tried(self) -> None:
        """By hand: x takes 3 days and y 2, which is one more than the 4 that y has; but z has the crane from day 4 to
        day 8, so that y ends on day 10. Six days more are enough, and one is not. A lag of the table is never
        shortened."""
        for by, day in (("end by", "4"), ("end by", "05.03.2026")):
            table = self.file("p.csv", f"from;02.03.2026;;;;;\nactivity;days;crane (1);after;at least;{by};not before\n"
                              f"x;3;;;;;\ny;2;1;x;;{day};\nz;4;1;;;09.03.2026;4\n")
            told = plan("why", table).stdout
            self.assertIn("Together they ask for 1 day more than there is.\n", told)
            self.assertIn("Allow 2 (y) to end 6 days later, which is enough, and less is not: 2 (y) ends by "
                          "11.03.2026.", told)
            self.assertNotIn("sooner after", told)
            self.assertNotIn("to end 1 day", told)

    def test_a_deadline(self) -> None:
        """By hand: two jobs of 3 and 4 on one machine take 7, so one day more than 6 is enough."""
        told = plan("why", INPUTS / "two-jobs.sch", "--within", 6).stdout
        self.assertEqual(told.splitlines()[-1], "Allow the project to end 1 period later, which is enough, and less is "
                         "not.")

    def test_starts_that_nobody_wrote(self) -> None:
        """By hand, from Monday 2 March on, with Thursday as status: a has started on Tuesday, and b has not started."""
        table = self.file("p.csv", "from,2026-03-02\nstatus,2026-03-05\nactivity,days,after,end by,started,finished\n"
                          "a,2,,,2026-03-03,2026-03-04\nb,2,,2026-03-05,,\n")
        self.assertIn("2 (b) starts on 2026-03-05 or later, since the status date is 2026-03-05\n",
                      plan("why", table).stdout)
        table.write_text(table.read_text().replace("b,2,,2026-03-05,,", "b,2,,2026-03-09,,\n,,start of a,,,")
                         .replace("after,", "after,at most,").replace("a,2,,", "a,2,,,").replace("b,2,,", "b,2,,,")
                         .replace("start of a,,", "start of a,1,,"))
        told = plan("why", table).stdout
        self.assertIn("1 (a) ends by 2026-03-04, since it has started, as row 4 says\n", told)
        self.assertIn("2 (b) starts on 2026-03-05 or later, since the status date is 2026-03-05\n", told)

    def test_within(self) -> None:
        """By hand: two jobs of 3 and 4 on one machine take 7, so 6 is too early by the machine, and 3 by a lag."""
        lags = "The minimum lags alone contradict each other, by a proof of psprove.\nThese lags contradict"
        for deadline, told in ((6, f"{ALONE}  resource 0, of which there is 1\nNo maximum lag"), (3, lags)):
            ran = plan("why", INPUTS / "two-jobs.sch", "--within", deadline)
            self.assertIn(f"There is no schedule that ends by {deadline}.\n{told}", ran.stdout)
        ran = plan("why", INPUTS / "two-jobs.sch", "--within", 7)
        self.assertEqual(ran.stdout, "There is a schedule that ends by 7: psprove has found one of 7.\n")

    def test_what_proves_it(self) -> None:
        """By hand: 2 starts from 0 to 2 after 1 on the same machine. Neither lag and not the machine can be spared."""
        out = self.folder / "out"
        self.assertEqual(plan("why", INPUTS / "two-jobs-close-lags.sch", "--out", out).returncode, 0)
        told = plan("verify", out / "core.sch", out / "core.record").stdout
        self.assertIn("proves that there is no schedule of", told)
        for place in (1, 2):
            told = plan("check", out / f"without-{place}.sch", out / f"without-{place}.starts").stdout
            self.assertIn("feasible ", told)
        self.refused(plan("why", INPUTS / "two-jobs-close-lags.sch", "--out", out), 2, "is no empty folder")

    def test_each_is_needed(self) -> None:
        """The project that is left has the deadline and what is told, and psmax finds the schedule without each
        feasible."""
        out = self.folder / "out"
        ran = plan("why", PROJECTS / "vaccine-lots.sch", "--within", "104", "--out", out)
        self.assertEqual(ran.returncode, 0, ran.stderr)
        told = ran.stdout.partition(THESE)[2].partition("Without this lag")[0].splitlines()
        self.assertNotIn("not known", ran.stdout)
        self.assertEqual(len(parts(parse((out / "core.sch").read_bytes()))), len(told) + 1)
        for place in range(1, len(told) + 1):
            project, starts = out / f"without-{place}.sch", out / f"without-{place}.starts"
            self.assertIn("feasible ", psmax("check", "--project", project, given=starts.read_bytes()))

    def test_time_is_over(self) -> None:
        with mock.patch("psmax.process.ENDING", 0.1):
            ran = plan("why", EXAMPLES / "building-site.sch", "--seconds", "1",
                       psprove=self.program("slow", "exec sleep 9"))
        self.assertEqual((ran.returncode, ran.stdout[:10]), (3, "Not known:"))

    def test_groups(self) -> None:
        """By hand: a hoist brings a rack in 2 minutes, comes back a minute later, and takes it away in 2. There is no
        time for it to bring the other one in between, so that starts 5 later, and both take 10."""
        rows = "".join(f"bring {rack},2,1,,,\ndip {rack},1,,bring {rack},0,0\ntake {rack},2,1,dip {rack},0,0\n"
                       for rack in "AB")
        ran = plan("why", self.file("racks.csv", f"activity,minutes,hoist (1),after,at least,at most\n{rows}"),
                   "--within", 9)
        self.assertEqual((ran.returncode, ran.stderr), (0, ""))
        self.assertIn("\nSome of these may not wait, so which is first says how much later the other one starts:\n"
                      "  1 (bring A) before 4 (bring B): 5 minutes later, for hoist\n"
                      "  4 (bring B) before 1 (bring A): 5 minutes later, for hoist\n", ran.stdout)
