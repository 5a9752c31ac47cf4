"""The chart of reports, pictures and `plan watch`: who can read it."""
import math
import re
import unittest
from itertools import combinations
from typing import Any

from psmax.calendars import as_timedelta
from psmax.planner.chart import STYLE, Chart
from psmax.planner.drawing import Drawing
from psmax.planner.time_axis import DateAxis
from psmax.work_time import WorkTime

from .helpers import PROJECTS, InFolder, plan

# Linear RGB as somebody sees it who lacks one of two kinds of cones: Vienot, Brettel and Mollon, Digital video
# colourmaps for checking the legibility of displays by dichromats, Color Research and Application 24 (1999).
CONES = ((17.8824, 43.5161, 4.11935), (3.45565, 27.1554, 3.86714), (0.0299566, 0.184309, 1.46709))
LACKS = {"no red cones": ((0, 2.02344, -2.52581), (0, 1, 0), (0, 0, 1)),
         "no green cones": ((1, 0, 0), (0.494207, 0, 1.24827), (0, 0, 1))}
Vector = tuple[float, ...]
Matrix = tuple[Vector, ...]
TOLD_APART = 20.0  # of CIE 1976 differences, of which one sees some 2 side by side


def times(matrix: Matrix, vector: Vector) -> Vector:
    return tuple(sum(a * b for a, b in zip(row, vector)) for row in matrix)


def solved(matrix: Matrix, vector: Vector) -> Vector:
    """By Cramer's rule."""
    def determinant(m: Matrix) -> float:
        return (m[0][0] * (m[1][1] * m[2][2] - m[1][2] * m[2][1]) - m[0][1] * (m[1][0] * m[2][2] - m[1][2] * m[2][0])
                + m[0][2] * (m[1][0] * m[2][1] - m[1][1] * m[2][0]))
    columns = [tuple(tuple(vector[i] if j == k else matrix[i][j] for j in range(3)) for i in range(3))
               for k in range(3)]
    return tuple(determinant(one) / determinant(matrix) for one in columns)


def linear(colour: str) -> Vector:
    """sRGB of a colour such as #0072b2 (IEC 61966-2-1)."""
    parts = [int(colour[place : place + 2], 16) / 255 for place in (1, 3, 5)]
    return tuple(part / 12.92 if part <= 0.04045 else ((part + 0.055) / 1.055) ** 2.4 for part in parts)


def lab(rgb: Vector) -> Vector:
    """CIE 1976 L*a*b* under D65."""
    xyz = times(((0.4124, 0.3576, 0.1805), (0.2126, 0.7152, 0.0722), (0.0193, 0.1192, 0.9505)), rgb)
    x, y, z = (part ** (1 / 3) if part > 0.008856 else 7.787 * part + 16 / 116
               for part in (max(0.0, one / white) for one, white in zip(xyz, (0.9505, 1.0, 1.089))))
    return 116 * y - 16, 500 * (x - y), 200 * (y - z)


def distance(one: Vector, other: Vector) -> float:
    return math.dist(lab(one), lab(other))


class Colours(unittest.TestCase):
    def test_told_apart(self) -> None:
        """Bars of each kind, and use within and above what there is, by everybody."""
        fills = dict(re.findall(r"\.(\w+) \{ fill: (#[0-9a-f]{6})", STYLE))
        bars, uses = ("bar", "critical", "past", "float"), ("use", "over")
        for one, other in [*combinations(bars, 2), *combinations(uses, 2)]:
            seen = linear(fills[one]), linear(fills[other])
            self.assertGreater(distance(*seen), TOLD_APART, (one, other))
            for lack, matrix in LACKS.items():
                left = [solved(CONES, times(matrix, times(CONES, rgb))) for rgb in seen]
                self.assertGreater(distance(*left), TOLD_APART, (one, other, lack))


WEEK: dict[str, Any] = {"workdays": "mon-fri"}
SHIFT: dict[str, Any] = {"period": "hours", "shift": "07:00-12:00,13:00-16:00", "workdays": "mon-sat"}

# When a project starts, how long it is and what its days are; how many pixels it has; the bands of its ruler, and its
# shades, from a calendar on the wall. 2026-03-30 is a Monday, of week 14.
RULERS: list[tuple[str, int, dict[str, Any], int, list[str], list[str]]] = [
    ("2026-03-30", 6, WEEK, 800,
     ["March 2026|April 2026", "CW 14|CW 15", "Mon 30|Tue 31|Wed 1|Thu 2|Fri 3|Sat 4|Sun 5|Mon 6"],
     ["Sat 00:00 Mon 00:00"]),
    ("2026-03-30", 6, {**WEEK, "holidays": ["2026-04-03"]}, 800,
     ["March 2026|April 2026", "CW 14|CW 15", "Mon 30|Tue 31|Wed 1|Thu 2|Fri 3|Sat 4|Sun 5|Mon 6|Tue 7"],
     ["Fri 00:00 Mon 00:00"]),
    ("2026-03-30", 6, {}, 800, ["March 2026|April 2026", "CW 14", "Mon 30|Tue 31|Wed 1|Thu 2|Fri 3|Sat 4"],
     ["Sat 00:00 Sun 00:00"]),
    ("2026-04-03 07:00", 16, SHIFT, 200, ["April 2026", "Fri 3|Sat 4", "00|06|12|18|00|06|12|18"],
     ["Fri 00:00 Fri 07:00", "Fri 12:00 Fri 13:00", "Fri 16:00 Sat 07:00", "Sat 12:00 Sat 13:00",
      "Sat 16:00 Sun 00:00"]),
    ("2026-04-03 07:00", 40, SHIFT, 160, ["April 2026", "CW 14|CW 15", "Fri 3|Sat 4|Sun 5|Mon 6|Tue 7|Wed 8"],
     ["Fri 00:00 Fri 07:00", "Fri 16:00 Sat 07:00", "Sat 16:00 Mon 07:00", "Mon 16:00 Tue 07:00", "Tue 16:00 Wed 07:00",
      "Wed 16:00 Thu 00:00"]),
    ("2026-04-03 20:00", 12, {"period": "hours"}, 800,
     ["April 2026", "Fri 3|Sat 4", "20|21|22|23|00|01|02|03|04|05|06|07"], ["Fri 20:00 Sat 08:00"]),
    ("2026-12-28", 100, WEEK, 400, ["December 2026|January 2027|February 2027|March 2027|April 2027|May 2027",
     "CW 53|CW 1|CW 2|CW 3|CW 4|CW 5|CW 6|CW 7|CW 8|CW 9|CW 10|CW 11|CW 12|CW 13|CW 14|CW 15|CW 16|CW 17|CW 18|CW 19"],
     ["Sat 00:00 Mon 00:00"] * 19),
    ("2026-12-28", 1000, WEEK, 120, ["2026|2027|2028|2029|2030"], []),
]


class Rulers(unittest.TestCase):
    def test_bands_and_shades(self) -> None:
        for first, length, days, width, bands, shades in RULERS:
            with self.subTest(first=first, days=days):
                calendar = WorkTime(first, **days).calendar()
                axis = DateAxis(Drawing("", (), 0, length, (), (), calendar=calendar), calendar, width)
                self.assertEqual(["|".join(band.names[0] for band in row) for row in axis.bands()], bands)
                told = [" ".join(f"{axis.origin + as_timedelta(int(place)):%a %H:%M}"
                                 for place in (one.begins, one.ends))
                        for one in axis.shades()]
                self.assertEqual(told, shades)
                self.assertTrue(all(one.is_free == ("workdays" in days) for one in axis.shades()))

    def test_names_have_room(self) -> None:
        """Whatever width there is, no name is longer than its band, and the coarsest band has one."""
        calendar = WorkTime("2026-03-30", workdays="mon-fri").calendar()
        for length in (1, 5, 30, 200, 3000):
            chart = Chart(Drawing("", (), 0, length, (), (), calendar=calendar), 760, has_shares=False)
            names = [(one, float(one.get("x", ""))) for one in chart.ruler() if one.tag == "text"]
            self.assertTrue(names)
            for (one, x), (after, limit) in zip(names, names[1:]):
                is_same_row = one.get("y") == after.get("y")
                self.assertTrue(not is_same_row or x + 6 * len(one.text or "") <= limit, (length, one.text))


class Pictures(InFolder):
    """By hand, of a picture 900 pixels wide, with 8 free at either edge."""

    def boxes(self, table: str, starts: str, *words: object) -> tuple[dict[str, list[tuple[float, float]]], list[str]]:
        """From when until when each box is, in days, by its class; and the dates."""
        answer, out = self.file("a.csv", f"name,start\n{starts}"), self.folder / "p.svg"
        ran = plan("gantt", self.file("p.csv", table), answer, "--svg", out, *words)
        self.assertEqual(ran.returncode, 0, ran.stderr)
        text, found = out.read_text(), dict[str, list[tuple[float, float]]]()
        day = 884 / len(re.findall('<text class="time"[^>]* y="47"', text))
        for kind, x, width in re.findall('<rect class="([a-z]+)" x="([^"]*)"[^>]* width="([^"]*)"', text):
            begins = (float(x) - 8) / day
            found.setdefault(kind, []).append((round(begins, 1), round(begins + float(width) / day, 1)))
        return found, re.findall('<text class="dates[^>]*>([^<]*)<', text)

    def test_over_a_weekend(self) -> None:
        """From Thursday: a ends on Friday, b begins on Monday, and c goes on over the weekend."""
        table = "from,2026-04-02\nworkdays,mon-fri\nactivity,days,crew (2),after\na,2,1,\nb,2,2,a\nc,3,,\n"
        found, dates = self.boxes(table, "a,0\nb,2\nc,0\n")
        self.assertEqual(found["bar"], [(0, 2), (4, 6), (0, 5)])
        self.assertEqual(found["free"], [(2, 4)] * 2)  # behind all rows, and before the use of the crew
        self.assertEqual(found["use"], [(0, 2), (4, 6)])
        self.assertEqual(dates, ["04-02 \u2013 04-03", "04-06 \u2013 04-07", "04-02 \u2013 04-06"])

    def test_done_and_remains(self) -> None:
        """On Wednesday: a ended on Monday, b has two days of four behind it, and c waits."""
        found, _ = self.boxes("from,2026-03-30\nstatus,2026-04-01\nactivity,days,after,started,finished,done\n"
                              "a,1,,2026-03-30,2026-03-30,\nb,4,,2026-03-30,,50 %\nc,2,b,,,\n", "a,0\nb,0\nc,4\n")
        self.assertEqual((found["past"], found["left"], found["bar"]), ([(0, 1), (0, 2)], [(0, 4)], [(4, 6)]))

    def test_baseline(self) -> None:
        """Where each was, after as long as it took then; d is new."""
        before = self.file("old.csv", "name,start,takes\na,0,3\nb,3,1\nc,4,0\n")
        table = "from,2026-03-30\nactivity,days,after\na,2,\nb,1,a\nc,0,b\nd,1,c\n"
        found, _ = self.boxes(table, "a,0\nb,2\nc,3\nd,3\n", "--baseline", before)
        self.assertEqual(found["before"], [(0, 3), (3, 4)])
        words, page = (self.folder / "p.csv", self.folder / "a.csv", "--baseline", before), self.folder / "p.html"
        self.refused(plan("gantt", *words), 2, "--baseline is for a picture")
        ran = plan("report", *words, "--out", page)
        self.assertEqual(ran.returncode, 0, ran.stderr)
        self.assertEqual(page.read_text().count(' class="before"'), 3 + 1)  # and in the key
        self.assertIn("before: 2026-03-30 to 2026-04-01", page.read_text())


class Tables(InFolder):
    def test_use_of_resources(self) -> None:
        """The page has the chart's figures in tables too. By hand: a crane lifts for 3 days, is away for 2, and lifts
        for 4."""
        table = self.file("p.csv", "from,2026-03-02\nabsences,a.csv\nactivity,days,crane (1),after\na,3,1,\nb,4,1,a\n")
        self.file("a.csv", "resource,from,to\ncrane,2026-03-05,2026-03-06\n")
        answer, out = self.file("p.starts.csv", "name,start\na,0\nb,5\n"), self.folder / "p.html"
        self.assertEqual(plan("report", table, answer, "--out", out).returncode, 0)
        [uses] = re.findall('<tbody id="uses">(.*?)</tbody>', out.read_text(), re.S)
        rows = [re.findall("<td>(.*?)</td>", row) for row in uses.split("\n")]
        self.assertEqual(rows, [["crane", "2026-03-02", "2026-03-04", "1", "", "1"],
                                ["crane", "2026-03-05", "2026-03-06", "", "1", "1"],
                                ["crane", "2026-03-07", "2026-03-10", "1", "", "1"]])

    def test_what_holds_it(self) -> None:
        """By hand: b waits for the crane that a uses, c for the end of b, and a for nothing."""
        table = self.file("p.csv", "activity,days,crane (1),after\na,3,1,\nb,4,1,\nc,1,,b\n")
        answer, out = self.file("p.starts.csv", "name,start\na,0\nb,3\nc,7\n"), self.folder / "p.html"
        self.assertEqual(plan("report", table, answer, "--out", out).returncode, 0)
        held = re.findall('"(held: .*?)"', out.read_text())
        self.assertEqual(held, ["held: the project starts then", "held: 1 of crane, until then in use: 1 (a)",
                                "held: 3 (c) starts no sooner than 2 (b) ends"])

    def test_group_that_holds_another(self) -> None:
        """By hand: a hoist takes rack A away from 3 to 5, so rack B, which it brings then, starts 5 later."""
        rows = "".join(f"bring {rack},2,1,,,\ndip {rack},1,,bring {rack},0,0\ntake {rack},2,1,dip {rack},0,0\n"
                       for rack in "AB")
        table = self.file("p.csv", f"activity,minutes,hoist (1),after,at least,at most\n{rows}")
        answer, out = self.file("p.starts", "0 0\n1 0\n2 2\n3 3\n4 5\n5 7\n6 8\n7 10\n"), self.folder / "p.html"
        self.assertEqual(plan("report", table, answer, "--out", out).returncode, 0)
        held = re.findall('"held: ([^"]* later, [^"]*)"', out.read_text())
        self.assertEqual(held, ["1 (bring A) before 4 (bring B): 5 minutes later, for hoist"])

    def test_columns(self) -> None:
        """None is empty: what nobody needs, and what nothing is due by, has none."""
        answer, out = self.file("a.csv", "name,start\na,0\nb,3\n"), self.folder / "p.html"
        all_have = ["No.", "Activity", "total float", "free float", "start", "end", "takes"]
        for heads, rows, names in (("", "a,3\nb,4\n", all_have), (",crane (1)", "a,3,\nb,4,\n", all_have),
                                   (",crane (1),due", "a,3,1,\nb,4,,8\n", [*all_have, "due", "late", "needs"])):
            with self.subTest(heads=heads):
                table = self.file("p.csv", f"activity,days{heads}\n{rows}")
                self.assertEqual(plan("report", table, answer, "--out", out).returncode, 0)
                found = re.findall('<th><span role="button" tabindex="0">(.*?)</span>', out.read_text())
                self.assertEqual(found, names)

    def test_critical_chain(self) -> None:
        """By hand: b could not start later, since c follows; a could be behind b."""
        table = self.file("p.csv", "activity,days,crane (1),after\na,3,1,\nb,4,1,\nc,1,,b\n")
        answer, out = self.file("p.starts.csv", "name,start\na,0\nb,3\nc,7\n"), self.folder / "p.html"
        self.assertEqual(plan("report", table, answer, "--out", out).returncode, 0)
        [chain] = re.findall('<section id="chain">(.*?)</section>', out.read_text(), re.S)
        rows = [re.sub("<.*?>", "|", row) for row in re.findall("<tr><td>(.*?)</td></tr>", chain)]
        self.assertEqual(rows, ["2||b||3||7||4|||1 of crane, until then in use: 1 (a)|",
                                "3||c||7||8||1|||3 (c) starts no sooner than 2 (b) ends|"])

    def test_a_picture_has_the_same_bars(self) -> None:
        """Of the page, but for where they stand, and with the same style."""
        table, answer = PROJECTS / "paint-line.csv", self.folder / "a.csv"
        self.assertEqual(plan("solve", table, "--out", answer).returncode, 0)
        page, picture = self.folder / "p.html", self.folder / "p.svg"
        self.assertEqual(plan("report", table, answer, "--out", page).returncode, 0)
        self.assertEqual(plan("gantt", table, answer, "--svg", picture).returncode, 0)
        self.assertIn(STYLE, page.read_text())
        counts = [len(re.findall('<rect class="(?:bar|critical)"', path.read_text())) for path in (page, picture)]
        self.assertEqual(counts, [12, 12])
