from .helpers import EXAMPLES, TWO_JOBS, InFolder, plan

# One change of the text of two jobs each: the fault by docs/FORMAT.md, and by hand its place and what is wanted there.
FAULTS = (
    ("2 1 0 0", "1001 1 0 0", "word 0: out of range", "line 1, column 1: '1001'", "the number of activities"),
    ("2 1 0 0", "2 33 0 0", "word 1: out of range", "line 1, column 3: '33'", "the number of resources"),
    ("2 1 0 0", "2 1 0 1", "resources other than renewable", "line 1, column 7: '1'", "0, since"),
    ("1 1 0\n", "2 1 0\n", "row 1: numbered 2", "line 3, column 1: '2'", "1, the number of the activity"),
    ("1 1 0\n", "1 3 0\n", "row 1: more than one mode", "line 3, column 3: '3'", "1, the mode of activity 1"),
    ("1 1 0\n", "1 1 1 4 [0]\n", "row 1: no activity 4",
     "line 3, column 7: '4'", "the activity to which an arc of activity 1"),
    ("1 1 0\n", "1 1 2 2 4 [0] [0]\n", "row 1: no activity 4", "line 3, column 9: '4'", "the activity to which"),
    ("1 1 0\n", "1 1 -1\n", "word 9: out of range", "line 3, column 5: '-1'", "the number of arcs of activity 1"),
    ("1 1 0\n", "1 1 1 2 [5-3]\n", "word 11: not a number",
     "line 3, column 10: '5-3'", "the lag of the arc from activity 1 to activity 2"),
    ("1 1 0\n", "1 1 1 2 [1000001]\n", "word 11: out of range", "line 3, column 10: '1000001'", "the lag of the arc"),
    ("0 1 0 0\n", "0 1 1 0\n", "row 4: a dummy with duration or demand",
     "line 6, column 5: '1'", "the duration of activity 0"),
    ("3 1 0 0\n", "3 1 0 2\n", "row 7: a dummy with duration or demand",
     "line 9, column 7: '2'", "the demand of activity 3 for resource 0"),
    ("1 1 3 1\n", "2 1 3 1\n", "row 5: numbered 2", "line 7, column 1: '2'", "1, the number of the activity"),
    ("1 1 3 1\n", "1 1 1234567890 1\n", "word 22: not a number",
     "line 7, column 5: '1234567890'", "the duration of activity 1"),
    ("1 1 3 1\n", "1 1 3 x\n", "word 23: not a number",
     "line 7, column 7: 'x'", "the demand of activity 1 for resource 0"),
    ("3 1 0 0\n1\n", "3 1 0 0\n1000001\n", "word 32: out of range",
     "line 10, column 1: '1000001'", "the capacity of resource 0"),
    ("3 1 0 0\n1\n", "3 1 0 0\n", "ends before word 32",
     "line 10, column 1: the text ends here", "the capacity of resource 0"),
    ("3 1 0 0\n1\n", "3 1 0 0\n1\nx\n", "word 33: one too many", "line 11, column 1: 'x'", "the project ends before"),
)


class Where(InFolder):
    def test_each_fault(self) -> None:
        for old, new, fault, place, wanted in FAULTS:
            with self.subTest(new):
                text = new.join(TWO_JOBS.rsplit(old, 1)) if old == "3 1 0 0\n" else TWO_JOBS.replace(old, new, 1)
                path = self.file("p.sch", text)
                ran = plan("where", path)
                self.assertEqual((ran.returncode, ran.stderr), (2, ""))
                first, second, third = ran.stdout.splitlines()
                self.assertEqual((first, second), (f"{path}: {fault}", f"  {place}"))
                self.assertIn(wanted, third)

    def test_names(self) -> None:
        text = (EXAMPLES / "building-site.sch").read_text().replace("2 1 5 2 1 0", "2 1 5 2 one 0")
        self.file("site.md", (EXAMPLES / "building-site.md").read_bytes())
        told = plan("where", self.file("site.sch", text)).stdout
        self.assertIn("the demand of activity 2 (excavate) for Excavator", told)

    def test_whole(self) -> None:
        ran = plan("where", EXAMPLES / "building-site.sch")
        self.assertEqual((ran.returncode, ran.stdout), (0, f"{EXAMPLES / 'building-site.sch'}: psmax reads it whole\n"))

    def test_odd_texts(self) -> None:
        for data, text in ((b"", "ends before word 0"), (b"\xff\xfe", "word 0: not a number"),
                           (b"\x00" * 9, "word 0: not a number"), (b" " * 16_777_217, "too long")):
            with self.subTest(text):
                ran = plan("where", self.file("p.sch", data))
                self.assertEqual((ran.returncode, ran.stderr), (2, ""))
                self.assertIn(text, ran.stdout)
