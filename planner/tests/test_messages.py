"""Messages say what is wrong, where, and what would be right."""
from .helpers import EXAMPLES, INPUTS, TWO_JOBS, InFolder, plan

HEADS = "activity,days,crew (5),after,at least,at most\n"
LAGS = "activity,days,after,at least,at most\n"


class OfTables(InFolder):
    def told(self, rows: str, *texts: str, faults: int = 1, heads: str = HEADS) -> None:
        told = [f"t.csv: {text}" for text in texts]
        self.refused(plan("read", self.file("t.csv", heads + rows)), 2, *told, faults=faults)

    def test_what_read_promises(self) -> None:
        """No schedule where an activity needs more than there is, or where there is none."""
        ran = plan("read", self.file("t.csv", HEADS + "lift,2,6,,,\n"))
        self.assertEqual(ran.stdout.splitlines()[1],
                         "Activity 1 (lift) needs 6 of crew, of which there are 5, so there is no schedule.")
        self.told("", "no activity stands below row 1")
        self.told(",,,,,\n", "no activity stands below row 1")

    def test_an_answer_is_no_table(self) -> None:
        self.told("1,lift,0,2\n", "this is an answer, and no table of activities", heads="activity,name,start,end\n")

    def test_numbers(self) -> None:
        self.told("lift,-3,,,,\n", "row 2, column B (days): -3 is below 0")
        self.told("lift,3,-1,,,\n", "row 2, column C (crew (5)): -1 is below 0")
        self.told("lift,3.5,,,,\n", "row 2, column B (periods): '3.5 periods' is not a whole number of periods",
                  heads=HEADS.replace("days", "periods"))

    def test_a_comma_between_names(self) -> None:
        self.told('a,1,,,,\nb,1,,,,\nc,1,,"a, b",,\n',
                  "row 4, column D (after): no activity 'a, b'; between names stands ';', and not ','")
        self.told("a,1,,,,\nb,1,,,,\nc,1,,a,,,b\n",
                  "row 4, column G: a cell beyond the last column; names in one cell have ';' between them")

    def test_names_that_can_not_be(self) -> None:
        for name, reason in (("Start", "it stands for the start of the project"), ("end", "the end of the project"),
                             ("start of work", "'start of' stands before the name"),
                             ("with crane", "'with' stands before"),
                             ("3.4.2026", "it is a date"), ("a\x1bb", "a sign that can't be printed")):
            with self.subTest(name):
                self.told(f"{name},1,,,,\n", f"row 2, column A (activity): '{name.replace(chr(27), '?')}' can't be the "
                          "name")
                self.assertIn(reason, plan("read", self.folder / "t.csv").stderr)

    def test_all_faults_at_once(self) -> None:
        """In the order of the rows, one line each, and none that follows from another."""
        self.told("dig,five,9999999,,,\nend,1,,dig,3,2\npour,,,digg; end,,\n,,,dig,,x\n",
                  "row 2, column B (days): 'five'", "row 2, column C (crew (5)): 9999999 is more",
                  "row 3, column A (activity): 'end'", "row 3, column F (at most): at most 2 is less than",
                  "row 4, column B (days): a whole number is missing", "row 4, column D (after): no activity 'digg'",
                  "row 5, column F (at most): 'x'", faults=7)
        self.told("a,x,\n", "row 1, column C (crew)", "row 2, column B (days)", faults=2, heads="activity,days,crew\n")
        self.told("", "row 1, column A (job)", "row 1 has no column for the name",
                  "row 1 has no column for the duration",
                  faults=3, heads="job\n")
        self.told("".join(f"a{i},x,,,,\n" for i in range(100)), "row 2, column B", faults=21)
        self.assertIn("plan: and 80 more\n", plan("read", self.folder / "t.csv").stderr)


class OfProjects(InFolder):
    def test_what_is_no_project(self) -> None:
        table, answer = self.file("t.csv", "activity,days\na,1\n"), self.file("best", "optimal 3\n0 0\n")
        other = self.file("t.txt", "sep=;\nName;Weeks\na;1\n")
        self.refused(plan("where", table), 2, "t.csv: this is a table without faults, and no project text")
        self.refused(plan("where", other), 2, "this is a table without faults, and no project text")
        for command in ("solve", "why", "where", "gantt", "write", "check", "float"):
            with self.subTest(command):
                self.refused(plan(command, answer, given=b"0 0\n"), 2, "best: this is an answer, and no project")


class OfAnswers(InFolder):
    def test_what_is_no_answer(self) -> None:
        table = self.file("t.csv", HEADS + "lift,2,,,,\n")
        path = INPUTS / "two-jobs.sch"
        for words in (("write", path), ("gantt", path), ("compare", path, table), ("solve", path, "--start")):
            self.refused(plan(*words, table), 2, "t.csv: This is a table without a column `start`, and no answer.")


class Why(InFolder):
    def told(self, table: str) -> str:
        self.assertEqual(plan("read", self.file("t.csv", table)).returncode, 0)
        ran = plan("why", self.folder / "t.sch")
        self.assertEqual((ran.returncode, ran.stderr), (0, ""))
        return ran.stdout

    def test_two_circles(self) -> None:
        """Both are told, each with its own lags."""
        text = self.told(f"{LAGS}a,5,,,\nc,4,,,\nd,1,c,7,\n,,start of c,any,10\ne,1,a,3,\n,,start of a,any,7\n")
        self.assertEqual(text.count("These lags contradict each other:"), 2)
        self.assertIn("4 (e) starts at most 2 after 1 (a) ends", text)
        self.assertIn("3 (d) starts at most 6 after 2 (c) ends", text)
        self.assertIn("No maximum lag, taken out alone, opens a schedule.", text)

    def test_a_circle_without_a_greatest_lag(self) -> None:
        text = self.told(f"{LAGS}a,5,b,,\nb,3,a,,\n")
        self.assertIn("  Together they ask for 8 days more than there are.\n  Each waits for the others, so one of",
                      text)

    def test_ends_as_in_the_table(self) -> None:
        """By hand: the table says 2 after the end of an activity of 5, which is 7 after its start."""
        text = self.told(f"{LAGS}a,5,,,\nb,3,a,,\nc,1,b,1,\n,,a,any,2\n")
        self.assertIn("3 (c) starts at most 2 after 1 (a) ends", text)
        self.assertIn("3 (c) starts at least 1 after 2 (b) ends", text)

    def test_how_much_is_needed(self) -> None:
        """By hand: c starts 9 after a at the soonest, by b; a shorter way asks for 8. 7 is too little, and so is 8."""
        text = self.told(f"{LAGS}a,5,,,\nb,3,a,,\nc,1,b,1,\n,,a,3,\n,,start of a,any,7\n")
        self.assertIn("which is enough, and less is not: 3 (c) starts at most 4 after 1 (a) ends.", text)

    def test_how_much_resources_need(self) -> None:
        """By hand: two jobs of 3 and 4 on one machine take 7; the deadline of 5 must be 7."""
        text = TWO_JOBS.replace("3 1 0\n", "3 1 1 0 [-5]\n", 1)
        ran = plan("why", self.file("p.sch", text))
        self.assertIn("which is enough, and less is not: the project ends by 7.", ran.stdout)

    def test_needs_more_than_there_is(self) -> None:
        ran = plan("why", INPUTS / "one-job-too-big.sch")
        self.assertIn("Activity 1 needs 2 of resource 0, of which there is 1.", ran.stdout)

    def test_there_is_one(self) -> None:
        self.assertIn("psprove has found one of 36", plan("why", EXAMPLES / "building-site.sch").stdout)
