"""Every command takes the table itself, which is read anew each time. A project text that is older than its table is
refused."""
import pathlib

from .helpers import InFolder, plan

# By hand: one crane, 3 + 4 = 7; with 30 in place of 3 it is 34.
TABLE = "activity,days,crane (1)\nlift beams,3,1\nlift roof,4,1\n"
ANSWER = "activity,name,start,takes,end\n1,lift beams,0,3,3\n2,lift roof,3,4,7\n"
LONGER = TABLE.replace("beams,3", "beams,30")


class Table(InFolder):
    def setUp(self) -> None:
        super().setUp()
        self.table = self.file("st.csv", TABLE)
        self.answer = self.folder / "plan.csv"
        self.answer.write_text(ANSWER)

    def names(self) -> set[str]:
        return {path.name for path in self.folder.iterdir()}

    def test_each_command_takes_it(self) -> None:
        """And none writes a project text or a page that nobody asked for."""
        record, page = self.folder / "plan.rec", self.folder / "page.html"
        for words, told in ((("solve", self.table, "--record", record), "optimal 7\n"),
                            (("check", self.table, self.answer), "7"),
                            (("verify", self.table, record), "has one that long"),
                            (("write", self.table, self.answer), "roof"),
                            (("gantt", self.table, self.answer), "####"), (("float", self.table, self.answer), "free"),
                            (("report", self.table, self.answer, "--out", page), ""),
                            (("compare", self.table, self.answer, self.answer), "2 of 2"),
                            (("why", self.table), "one of 7"),
                            (("whatif", self.table), "optimal 4: one more of crane")):
            with self.subTest(words[0]):
                ran = plan(*words)
                self.assertEqual(ran.returncode, 0, ran.stderr)
                self.assertIn(told, ran.stdout)
        self.assertEqual(self.names(), {"st.csv", "plan.csv", "plan.rec", "page.html"})

    def test_it_is_read_anew(self) -> None:
        self.table.write_text(LONGER)
        self.assertEqual(plan("solve", self.table).stdout.partition("\n")[0], "optimal 34")
        self.refused(plan("write", self.table, self.answer), 2, "2 units of crane are in use")

    def made(self) -> pathlib.Path:
        self.assertEqual(plan("read", self.table).returncode, 0)
        return self.folder / "st.sch"

    def test_a_text_that_is_older_than_its_table(self) -> None:
        text = self.made()
        self.assertEqual(plan("check", text, self.answer).stdout, "feasible 7\n")
        self.table.write_text(LONGER)
        told = (f"{text} is older than its table {self.table}, which was changed; give the table itself, or make the "
                "project")
        for words in (("solve", text), ("check", text, self.answer),
                      ("report", text, self.answer, "--out", self.folder / "p"),
                      ("whatif", text), ("why", text), ("verify", text, text),
                      ("compare", text, self.answer, self.answer)):
            with self.subTest(words[0]):
                self.refused(plan(*words), 2, told)
        self.made()
        self.assertEqual(plan("solve", text).stdout.partition("\n")[0], "optimal 34")

    def test_a_text_that_was_changed_itself(self) -> None:
        text = self.made()
        text.write_text(text.read_text().replace("1\t1\t3\t1", "1\t1\t2\t1"))
        self.refused(plan("solve", text), 2, "st.sch is not what `plan read` makes of", "give the table itself")

    def test_a_text_without_its_table(self) -> None:
        """The page has the names."""
        text = self.made()
        self.table.unlink()
        self.assertIn("lift roof", plan("write", text, self.answer).stdout)

    def test_rows_above_the_table(self) -> None:
        """Titles, and what holds for the project: by hand, from Friday on, the second job begins on the Wednesday
        after."""
        above = "title,The hall,\nfrom,2026-03-06,\nWorkdays:,Mo-Fr,\n,,\n"
        table = self.file("above.csv", above + TABLE)
        self.assertIn("2,lift roof,3,4,7,2026-03-11,2026-03-16", plan("write", table, self.answer).stdout)
        self.assertIn("2026-03-14", plan("write", table, self.answer, "--workdays", "mon-sun", "--from",
                                         "2026-03-08").stdout)
        for rows, told in (("shifts,07:00-12:00\n", "row 1, column A: no setting 'shifts'; did you mean 'shift'?"),
                           ("from,2026-03-06\nFrom:,2026-03-07\n", "row 2, column A: a second row for 'from'")):
            self.refused(plan("solve", self.file("bad.csv", rows + TABLE)), 2, told)
        split = self.file("split.csv", "from,2026-03-02\nworkdays,mon,wed,fri\nshift,08:00-12:00,13:00-17:00\n"
                          "activity,hours\na,20\n")
        self.assertIn("2026-03-02 08:00,2026-03-06 12:00",
                      plan("write", split, self.file("s.csv", "name,start\na,0\n")).stdout)
        self.refused(plan("solve", self.file("bad.csv", above + TABLE.replace("beams,3", "beams,x"))), 2,
                     "row 6, column B")

    def test_a_batch_of_tables(self) -> None:
        self.file("other.sch", "1 0 0 0\n0 1 0\n1 1 0\n2 1 0\n0 1 0\n1 1 5\n2 1 0\n")
        ran = plan("batch", self.folder)
        self.assertEqual([line.split(",")[:4] for line in ran.stdout.splitlines()[1:]],
                         [["other.sch", "1", "optimal", "5"], ["st.csv", "2", "optimal", "7"]], ran.stderr)
