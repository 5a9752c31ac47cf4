"""A week of replanning: the same command after each edit of the table, and a batch of tables."""
import csv
import io
import pathlib

from .helpers import InFolder, Ran, plan

# By hand, one crane, from Monday 2 March 2026 on, Monday to Friday: 3 + 2 + 4 days end on Thursday of the next week,
# the 12th. Two days more of digging end on Monday the 16th.
GERMAN = ("from;02.03.2026;;\nworkdays;Mo-Fr;;\n"
          "activity;days;Kran (1);after\nAushub;3;1;\nMauer;2;1;Aushub\nDach;4;1;Mauer\n")
ENGLISH = ("from,2026-03-02,,\nworkdays,mon-fri,,\n"
           "activity,days,crane (1),after\ndig,3,1,\nwall,2,1,dig\nroof,4,1,wall\n")
EDITS = ((GERMAN, "Aushub;3", "Aushub;5", "Mon 16.03."), (ENGLISH, "dig,3", "dig,5", "Mon 2026-03-16"))


class Weekly(InFolder):
    def setUp(self) -> None:
        super().setUp()
        self.table, self.answer = self.folder / "t.csv", self.folder / "plan.csv"

    def solved(self, text: str) -> Ran:
        self.table.write_text(text)
        ran = plan("solve", self.table, "--out", self.answer, "--jobs", "1")
        self.assertEqual(ran.returncode, 0, ran.stderr)
        return ran

    def kept(self) -> list[pathlib.Path]:
        return sorted(self.folder.glob("plan-*.csv"))

    def test_after_an_edit(self) -> None:
        """The search begins near to the old plan, which is kept; the new one is in the file that was named."""
        for text, was, now, ends in EDITS:
            self.answer.unlink(missing_ok=True)
            self.solved(text)
            self.answer.chmod(0o600)
            old, before = self.answer.read_bytes(), len(self.kept())
            ran = self.solved(text.replace(was, now))
            self.assertEqual(ran.stdout, f"optimal, ends {ends} (11 days)\n")
            near = (f"plan.csv is a plan of {self.table} before it was changed: the search begins near to it, with 3 "
                    "of 3")
            self.assertIn(near, ran.stderr)
            self.assertIn("--frozen DAY", ran.stderr)
            self.assertIn("plan.csv, repaired", ran.stderr)
            self.assertEqual(len(self.kept()), before + 1)
            self.assertIn(old, [path.read_bytes() for path in self.kept()])
            self.assertIn(f"plan.csv as it was is kept as {self.folder}/plan-", ran.stderr)
            kept = next(path for path in self.kept() if path.read_bytes() == old)
            self.assertEqual(kept.stat().st_mode & 0o777, 0o600)
            self.assertIn("2 later", plan("compare", self.table, kept, self.answer).stdout)

    def test_rows_that_come_and_go(self) -> None:
        """By hand: the roof is gone, and a day of cleaning is new: 3 + 2 + 1."""
        self.solved(ENGLISH)
        ran = self.solved(ENGLISH.replace("roof,4,1,wall", "clean,1,1,wall"))
        self.assertEqual(ran.stdout, "optimal, ends Mon 2026-03-09 (6 days)\n")
        for told in ("with 2 of 3 activities", "3 (clean) is new", "3 (roof) is no activity any more"):
            self.assertIn(told, ran.stderr)

    def test_nothing_changed(self) -> None:
        """The same table goes on from its plan, and nothing is kept besides."""
        self.solved(ENGLISH)
        self.assertNotIn("before it was changed", self.solved(ENGLISH).stderr)
        self.assertEqual(self.kept(), [])

    def test_no_schedule(self) -> None:
        """Where the edited table has no schedule the old plan stays where it is."""
        self.solved(ENGLISH)
        old = self.answer.read_bytes()
        text = ENGLISH.replace("after", "after,end by").replace("dig,3,1,", "dig,3,1,,2026-03-03")
        ran = plan("solve", self.file("t.csv", text), "--out", self.answer)
        self.assertEqual(ran.stdout, "no schedule\n")
        self.assertEqual((self.answer.read_bytes(), self.kept()), (old, []))

    def test_batch(self) -> None:
        """Ends as dates, by hand as above; and its folder is made."""
        folder = self.folder / "tables"
        folder.mkdir()
        (folder / "a.csv").write_text(ENGLISH)
        (folder / "b.csv").write_text("activity,days\ndig,3\n")
        out, records = self.folder / "new" / "plans", self.folder / "records"
        ran = plan("batch", folder, "--out", out, "--record", records)
        rows = {row["project"]: row["ends"] for row in csv.DictReader(io.StringIO(ran.stdout))}
        self.assertEqual(rows, {"a.csv": "2026-03-12", "b.csv": ""}, ran.stderr)
        self.assertEqual(sorted(path.name for path in [*out.iterdir(), *records.iterdir()]),
                         ["a.rec", "a.starts", "b.rec", "b.starts"])
