"""What a spreadsheet or a terminal would take for something else, and files that would be lost."""
import csv
import io
import os

from .helpers import InFolder, plan

NAMES = ["=cmd|'/C calc'!A0", "@SUM(1)", "2-3", "1.2", "+1", "May 5", "E-101", "TRUE", "plain words", "1,5", '="x"',
         "-", "7"]


class Spreadsheets(InFolder):
    def test_names(self) -> None:
        """Each is written so that a spreadsheet shows the name, as a formula of a text, and is read back as it is."""
        text = io.StringIO()
        csv.writer(text).writerows([["activity", "days"], *([name, "1"] for name in NAMES if name != '="x"')])
        table, out = self.file("p.csv", text.getvalue()), self.folder / "out.csv"
        answer = self.folder / "a.csv"
        self.assertEqual(plan("solve", table, "--out", answer).returncode, 0)
        self.assertEqual(plan("write", table, answer, "--excel", "--out", out).returncode, 0)
        rows = [*csv.DictReader(io.StringIO(out.read_text("utf-8-sig")))]
        written = [row["name"] for row in rows]
        self.assertEqual({name for name in written if not name.startswith('="')}, {"plain words"})
        self.assertEqual({name[2:-1] for name in written} - {"ain word"}, {*NAMES} - {"plain words", '="x"'})
        self.assertEqual(plan("check", table, out).stdout, "feasible 1\n")
        self.assertNotIn('="', answer.read_text())

    def test_tables(self) -> None:
        """A table that a spreadsheet wrote so is read as what it shows."""
        table = self.file("p.csv", 'activity,days,after\n"=""2-3""",1,\nb,2,2-3\n')
        self.assertEqual(plan("solve", table).stdout.partition("\n")[0], "optimal 3")


class Files(InFolder):
    def test_names_of_files(self) -> None:
        """One in Latin-1, one with an escape sequence: a batch goes on, and shows no such byte."""
        project = b"1 0 0 0\n0 1 0\n1 1 0\n2 1 0\n0 1 0\n1 1 5\n2 1 0\n"
        for name in (b"caf\xe9.sch", b"red\x1b[31m.sch"):
            with open(os.path.join(os.fsencode(self.folder), name), "wb") as file:
                file.write(project)
        for out in ((), ("--csv", self.folder / "all.csv")):
            ran = plan("batch", self.folder, *out)
            self.assertEqual(ran.returncode, 0, ran.stderr)
            self.assertNotIn("\x1b", ran.stdout + ran.stderr)
        told = (self.folder / "all.csv").read_text()
        self.assertIn("red\\x1b[31m.sch,1,optimal,5", told)
        self.assertIn("caf\\udce9.sch,1,optimal,5", told)
        again = plan("batch", self.folder, "--csv", self.folder / "all.csv")
        self.assertEqual((again.returncode, (self.folder / "all.csv").read_text()), (0, told))

    def test_what_stays(self) -> None:
        """No command replaces a plan, a record, a table or a page of somebody else's."""
        table = self.file("t.csv", "activity,days\na,1\n")
        answer, record = self.folder / "p.csv", self.folder / "p.rec"
        self.assertEqual(plan("solve", table, "--out", answer, "--record", record).returncode, 0)
        other, page = self.file("other.csv", "activity,days\nb,1\n"), self.file("page.html", "my own words\n")
        before = {path.name: path.read_bytes() for path in self.folder.iterdir()}
        for there in (answer, record, other, page):
            for words in (("read", table, "--out"), ("gantt", table, answer, "--svg"), ("solve", table, "--svg"),
                          ("whatif", table, "--out"), ("report", table, answer, "--out")):
                with self.subTest(there=there.name, words=words[0]):
                    ran = plan(*words, there)
                    self.refused(ran, 2, "lost")
        for there in (record, other, page):
            self.refused(plan("write", table, answer, "--out", there), 2,
                         "no table of these columns, and would be lost")
            self.refused(plan("solve", table, "--out", there), 2, "would be lost", faults=2)
        self.assertEqual({path.name: path.read_bytes() for path in self.folder.iterdir()}, before)
        for _ in range(2):
            self.assertEqual(plan("write", table, answer, "--out", self.folder / "dates.csv").returncode, 0)
            self.assertEqual(plan("gantt", table, answer, "--svg", self.folder / "chart.svg").returncode, 0)
            self.assertEqual(plan("report", table, answer, "--out", self.folder / "r.html").returncode, 0)
