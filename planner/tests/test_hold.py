"""A resource that is held beyond one activity, by an activity of fixed length that starts with another."""
import re

from .helpers import InFolder, plan

# By hand: one scaffold, held for 6 days from the start of each erection on; two walls take 6 + 6 = 12 days.
TABLE = """activity,days,scaffold (1),after,at least,at most
erect north,1,,,,
scaffold at the north wall,6,1,with erect north,,
paint north,3,,erect north,,
strike north,1,,start of erect north,5,5
erect south,1,,,,
scaffold at the south wall,6,1,with erect south,,
paint south,3,,erect south,,
strike south,1,,start of erect south,5,5
"""


class Hold(InFolder):
    def test_by_hand(self) -> None:
        """Lags 0 and 0, both ways, from start to start; the scaffold stands at one wall at a time."""
        self.assertEqual(plan("read", self.file("p.csv", TABLE)).returncode, 0)
        project = self.folder / "p.sch"
        self.assertIn("1\t1\t3\t2\t3\t4\t[0]\t[1]\t[5]\n2\t1\t1\t1\t[0]\n", project.read_text())
        ran = plan("solve", project, "--out", self.folder / "best.csv")
        self.assertEqual(ran.stdout, "optimal 12\n")
        chart = plan("gantt", project, self.folder / "best.csv").stdout
        self.assertEqual(chart.splitlines()[-1].split(), ["scaffold", "of", "1", "1" * 12])

    def test_the_same_by_two_lags(self) -> None:
        short = self.file("short.csv", TABLE)
        long = self.file("long.csv", re.sub("with (erect .*),,", r"start of \1,0,0", TABLE))
        for table in (short, long):
            self.assertEqual(plan("read", table).returncode, 0)
        self.assertEqual(short.with_suffix(".sch").read_bytes(), long.with_suffix(".sch").read_bytes())

    def test_faults(self) -> None:
        for cell, fault in (("with erect east,,", "no activity 'erect east'"),
                            ("with erect north,0,", "has no other lags"),
                            ("with erect north,,9", "has no other lags"), ("with,,", "no activity 'with'"),
                            ("with scaffold at the north wall,,", "an activity can't come after itself")):
            with self.subTest(cell):
                table = self.file("p.csv", TABLE.replace("with erect north,,", cell))
                self.refused(plan("read", table), 2, f"row 3, column D (after): {fault}" if "other" not in fault
                             else fault)
