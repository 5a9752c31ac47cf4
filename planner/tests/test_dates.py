"""Dates and periods are those of the table, on the working days of the calendar."""
import unittest
import zoneinfo
from xml.etree import ElementTree

from .helpers import EXAMPLES, INPUTS, InFolder, Ran, plan

STARTS = "0 0\n1 0\n2 3\n3 3\n4 5\n"
TABLE = "activity,{},after\nbuild,3,\nhandover,0,build\npaint,2,build\n"  # the handover is a milestone


class Dates(InFolder):
    def read(self, unit: str, *words: object) -> None:
        self.assertEqual(plan("read", self.file("p.csv", TABLE.format(unit)), *words).returncode, 0)
        self.file("p.st", STARTS)

    def written(self, *words: object) -> list[list[str]]:
        """The two dates of each row."""
        ran = self.ran("write", *words)
        self.assertEqual((ran.returncode, ran.stderr), (0, ""))
        return [line.split(",")[-2:] for line in ran.stdout.splitlines()]

    def ran(self, command: str, *words: object) -> Ran:
        return plan(command, self.folder / "p.sch", self.folder / "p.st", *words)

    def test_the_period_of_the_table(self) -> None:
        """By hand, from Monday 2 March 2026 on: three weeks end on Sunday 22, and three hours at 9 o'clock."""
        for unit, words, wanted in (
            ("weeks", ["--from", "2026-03-02"], [["2026-03-02", "2026-03-22"], ["2026-03-22", "2026-03-22"],
                                                 ["2026-03-23", "2026-04-05"]]),
            ("hours", ["--from", "2026-03-02T06:00"], [["2026-03-02 06:00", "2026-03-02 09:00"]]),
            ("minutes", ["--from", "2026-03-02T06:00"], [["2026-03-02 06:00", "2026-03-02 06:03"]]),
            ("duration", ["--from", "2026-03-02"], [["2026-03-02", "2026-03-04"]]),
        ):
            with self.subTest(unit=unit, words=words):
                self.read(unit)
                self.assertEqual(self.written(*words)[1 : 1 + len(wanted)], wanted)

    def test_another_period(self) -> None:
        """A period of days makes another project of a table of weeks: by hand 21 days and 14."""
        self.read("weeks")
        self.refused(self.ran("write", "--from", "2026-03-02", "--period", "days"), 2, "was made with another calendar")
        self.read("weeks", "--from", "2026-03-02", "--period", "days")
        self.file("p.st", STARTS.replace("2 3", "2 21").replace("3 3", "3 21"))
        self.assertEqual(self.ran("check").stdout, "feasible, ends Sun 2026-04-05 (35 d)\n")
        self.assertIn("2026-03-02,2026-03-22\n", self.ran("write").stdout)

    @unittest.skipUnless("Europe/Berlin" in zoneinfo.available_timezones(), "no time zones here")
    def test_a_time_zone(self) -> None:
        """By hand: in Berlin clocks go forward at 02:00 on 29 March 2026, and back at 03:00 on 25 October: three hours
        from midnight on end at 04:00 and at 02:00. Without a zone they end at 03:00."""
        self.read("hours")
        for day, zone, end in (("2026-03-29", ("--zone", "Europe/Berlin"), "04:00"), ("2026-03-29", (), "03:00"),
                               ("2026-10-25", ("--zone", "Europe/Berlin"), "02:00"), ("2026-10-24", (), "03:00")):
            with self.subTest(day=day, zone=zone):
                self.assertEqual(self.written("--from", day, *zone)[1], [f"{day} 00:00", f"{day} {end}"])
        self.refused(self.ran("write", "--from", "2026-03-29", "--zone", "Mars/Base"), 2,
                     "zone Mars/Base: no time zone")

    def test_a_period_that_is_said_once(self) -> None:
        self.read("periods", "--from", "2026-03-02T06:00", "--period", "hours")
        self.read("periods")
        self.assertEqual(self.written()[1], ["2026-03-02 06:00", "2026-03-02 09:00"])

    def test_a_page_written_by_hand(self) -> None:
        """The page of the plant shutdown counts in hours."""
        shutdown = EXAMPLES / "plant-shutdown"
        ran = plan("write", f"{shutdown}.sch", f"{shutdown}-feasible.starts", "--from", "2026-03-02T06:00")
        self.assertIn(",from,until\n", ran.stdout)

    def test_working_days(self) -> None:
        """By hand: from Thursday 2 April 2026 on, with Good Friday and Easter Monday off, the three days are the 2nd,
        the 7th and the 8th, and the other two the 9th and the 10th; the handover is at the end of the 8th."""
        self.read("days")
        free = self.file("free.txt", "# Easter\n2026-04-03 Good Friday\n\n2026-04-06\n")
        words = ["--from", "2026-04-02", "--workdays", "mon-fri", "--holidays", free]
        wanted = [["2026-04-02", "2026-04-08"], ["2026-04-08", "2026-04-08"], ["2026-04-09", "2026-04-10"]]
        self.assertEqual(self.written(*words)[1:], wanted)
        self.assertEqual(self.written("--from", "2026-04-04", *words[2:])[1][0], "2026-04-07")
        self.assertEqual(self.written("--from", "2026-03-06", "--workdays", "mon-sat")[1], ["2026-03-06", "2026-03-09"])
        self.assertEqual(self.written("--from", "2026-03-06", "--workdays", "sat-mon,wed")[1],
                         ["2026-03-07", "2026-03-09"])

    def test_once_in_the_page(self) -> None:
        """`plan read` writes the calendar into the page, keeps it there, and all commands take it from there."""
        free = self.file("free.txt", "2026-04-03\n2026-04-06\n")
        self.read("days", "--from", "2026-04-02", "--workdays", "mon-fri", "--holidays", free)
        wanted = [["2026-04-02", "2026-04-08"], ["2026-04-08", "2026-04-08"], ["2026-04-09", "2026-04-10"]]
        self.assertEqual(self.written()[1:], wanted)
        self.read("days")
        self.assertEqual(self.written()[1:], wanted)
        self.assertIn("2026-04-08", self.ran("gantt").stdout)
        self.assertIn("2026-04-09  2026-04-09  2026-04-09     0\n", self.ran("float").stdout)
        self.assertEqual(self.written("--from", "2026-04-08")[1], ["2026-04-08", "2026-04-10"])
        self.assertEqual(plan("solve", self.folder / "p.sch", "--svg", self.folder / "s.svg").returncode, 0)
        self.assertIn("build: 2026-04-02 to 2026-04-08", (self.folder / "s.svg").read_text())

    def test_charts(self) -> None:
        """By hand: a bar for each working day, the dates of the starts beside them; on the ruler of a picture the
        month, the weeks and the days."""
        self.read("days", "--from", "2026-04-02", "--workdays", "mon-fri")
        lines = self.ran("gantt").stdout.splitlines()
        self.assertEqual(lines[1].split(), ["2026-04-02"])
        self.assertEqual([line.split()[2:] for line in lines[3:6]],
                         [["2026-04-02", "###.."], ["2026-04-06", "...|."], ["2026-04-07", "...##"]])
        self.assertEqual(self.ran("gantt", "--svg", self.folder / "p.svg").returncode, 0)
        picture = ElementTree.parse(self.folder / "p.svg")
        texts = [node.text for node in picture.iter("{http://www.w3.org/2000/svg}text")]
        self.assertEqual(texts[1:5], ["April 2026", "CW 14", "CW 15", "Thu 2"])
        self.assertIn("04-07 \u2013 04-08", texts)
        self.assertIn("build: 2026-04-02 to 2026-04-06", (self.folder / "p.svg").read_text())

    def test_charts_of_moments_and_of_starts_before_the_first(self) -> None:
        self.read("hours")
        self.assertIn("2026-03-02 09:00", self.ran("gantt", "--from", "2026-03-02T06:00").stdout)
        self.read("days")
        self.file("p.st", "0 0\n1 -1\n2 3\n3 3\n4 5\n")
        words = ["--from", "2026-03-02", "--period", "days", "--workdays", "mon-fri"]
        self.assertIn("2026-02-27", self.ran("gantt", *words).stdout)

    def test_excel(self) -> None:
        """With a mark, lines ended as a spreadsheet ends them, and the separator of the table or the one that is
        named."""
        self.file("p.csv", TABLE.format("days").replace(",", ";"))
        self.assertEqual(plan("read", self.folder / "p.csv").returncode, 0)
        self.file("p.st", STARTS)
        out = self.folder / "out.csv"
        for words, begin in ((["--excel"], "activity;name;start;takes;end"),
                             (["--excel", "--separator", "tab"], "activity\tname"),
                             (["--excel", "--separator", "comma"], "activity,name")):
            with self.subTest(words):
                self.assertEqual(self.ran("write", *words, "--out", out).returncode, 0)
                self.assertTrue(out.read_bytes().startswith(b"\xef\xbb\xbf" + begin.encode()))
                self.assertIn(b"\r\n", out.read_bytes())
        self.assertEqual(plan("write", INPUTS / "two-jobs.sch", "--excel", given=b"0 0\n1 4\n2 0\n3 7\n").stdout,
                         "\ufeffactivity,name,start,takes,end\r\n2,,0,4,4\r\n1,,4,3,7\r\n")

    def test_tables_of_a_spreadsheet(self) -> None:
        """A line that tells the separator, which a spreadsheet doesn't show, and columns of notes."""
        for first in ("sep=|\n", '"sep=|"\r\n', "\ufeffsep=|\n"):
            with self.subTest(first):
                table = first + "activity|Notes|days|remarks|after\na|with care|3||\nb||2|soon, if it goes|a\n"
                self.assertEqual(plan("read", self.file("n.csv", table), "--out", self.folder / "n.sch").returncode, 0)
                self.refused(plan("read", self.file("n.csv", table.replace("|2|", "|x|"))), 2, "row 3, column C (days)")

    def test_faults(self) -> None:
        self.read("hours")
        free = self.file("free.txt", "2026-04-03\nsoon\n2026-13-01\n")
        first = ("--from", "2026-04-02")
        self.refused(self.ran("write", *first, "--workdays", "mon-fri"), 2, "are for periods of a day", "hours")
        self.read("days")
        self.refused(self.ran("write", *first, "--workdays", "mon-funday"), 2, "workdays mon-funday", "mon-fri")
        self.refused(self.ran("write", *first, "--holidays", free), 2, "free.txt: line 2: 'soon'",
                     "line 3: '2026-13-01'",
                     faults=2)
        self.refused(self.ran("write", *first, "--holidays", self.folder / "gone"), 1, "cannot read")
        self.refused(self.ran("write", "--workdays", "mon-fri"), 2, "--workdays needs --from")
        self.refused(self.ran("write", "--from", "soon"), 2, "from soon: not a date")
        self.refused(self.ran("write", "--from", "9999-12-31"), 2, "9999")
        self.refused(plan("read", self.folder / "p.csv", "--workdays", "x"), 2, "workdays x")
