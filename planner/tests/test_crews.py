"""Resources with hours of their own, and activities that may pause: exact, by all starts, and refused where they are
not."""
import datetime
import itertools
import random
import unittest
from collections.abc import Iterator

from psmax.calendars import Moments
from psmax.crew_hours import off_times, read_hours

from .helpers import InFolder, plan

# By hand, around the clock from Monday 06:00 on. Opening begins with the night, at 18:00, and takes until 02:00. Thirty
# hours of welding are 12, 12 and 6 on Tuesday to Thursday noon; three days of drying end on Sunday noon, and closing is
# of the night.
TABLE = """from,2026-03-02 06:00
ID,activity,hours,"welders (4, 06:00-18:00)",fitters (6; nights),predecessors,may pause
1,open,8,,4,,
2,weld,30,2,,1,yes
3,dry,3 cd,,,2,
4,close,10,,4,3,
"""
FIRST = datetime.date(2026, 3, 5)  # a Thursday
LAST = 24  # no start is later


class ByHand(InFolder):
    def test_a_turnaround(self) -> None:
        table, answer, record = self.file("p.csv", TABLE), self.folder / "a.csv", self.folder / "r.rec"
        ran = plan("solve", table, "--out", answer, "--record", record, "--jobs", "1")
        self.assertEqual((ran.returncode, ran.stdout), (0, "optimal, ends Mon 2026-03-09 04:00 (166 hours)\n"),
                         ran.stderr)
        self.assertIn("welders 06:00-18:00, fitters 18:00-06:00, hours up to ", ran.stderr)
        rows = [line.split(",") for line in plan("write", table, answer).stdout.splitlines()[1:]]
        self.assertEqual([(row[0], row[-2], row[-1]) for row in rows], [
            ("1", "2026-03-02 18:00", "2026-03-03 02:00"), ("2/1", "2026-03-03 06:00", "2026-03-03 18:00"),
            ("2/2", "2026-03-04 06:00", "2026-03-04 18:00"), ("2/3", "2026-03-05 06:00", "2026-03-05 12:00"),
            ("3", "2026-03-05 12:00", "2026-03-08 12:00"), ("4", "2026-03-08 18:00", "2026-03-09 04:00")])
        self.assertIn("is shorter than 166, and has one that long.", plan("verify", table, record).stdout)
        chart = plan("gantt", table, answer).stdout
        self.assertIn("a blank is outside the hours of a resource", chart)
        self.assertRegex(chart, r"fitters +of 6   44\.")
        bad = answer.read_text().replace("4,close,156,10,166", "4,close,150,10,160")
        told = plan("check", table, self.file("b.csv", bad))
        self.assertIn("at 2026-03-08 12:00, 4 units of fitters are in use, outside its hours: 4 (close)", told.stdout)

    def test_a_horizon(self) -> None:
        """Nothing is said to be a shortest schedule that ends when hours are not known any more."""
        ran = plan("solve", self.file("p.csv", TABLE), "--horizon", "2026-03-06", "--jobs", "1")
        self.assertEqual(ran.returncode, 3)
        self.assertTrue(ran.stdout.startswith("unknown bound "), ran.stdout)
        self.assertIn("the hours of resources are known up to 2026-03-06 00:00, and no schedule ends by then, "
                      "which is proved", ran.stderr)
        table = self.file("q.csv", TABLE.replace("1,open", "horizon,2026-03-06\n1,open"))
        self.assertEqual(plan("check", table).returncode, 2)

    def test_a_horizon_before_the_first_time_off(self) -> None:
        """A crew of Monday to Friday, and a horizon on Thursday: nothing is known of what comes after that."""
        table = self.file("p.csv", "from,2026-03-02\nhorizon,4\nactivity,days,crew (1; Mo-Fr),after\na,4,1,\nb,2,1,a\n")
        ran = plan("solve", table, "--jobs", "1")
        self.assertEqual((ran.returncode, ran.stdout[:14]), (3, "unknown bound "), ran.stderr)
        ran = plan("solve", self.file("q.csv", table.read_text().replace("horizon,4\n", "")), "--jobs", "1")
        self.assertEqual(ran.stdout.partition("\n")[0], "optimal 9", ran.stderr)

    def test_many_parts(self) -> None:
        """By hand: 150 hours are twelve shifts of 12 hours and 6 hours of the thirteenth, so 12 days and 6 hours."""
        table = self.file("p.csv", 'from,2026-03-02 06:00\nactivity,hours,"crew (9, days)",may pause\nweld,150,1,yes\n')
        ran = plan("solve", table, "--jobs", "1")
        self.assertEqual(ran.stdout.partition("\n")[0], f"optimal {12 * 24 + 6}", ran.stderr)

    def test_one_unit_more_keeps_the_hours(self) -> None:
        """By hand: two jobs of a crew of one from 06:00 to 18:00, each of 8 hours, end on Tuesday 14:00, and side by
        side on Monday 14:00."""
        table = self.file("p.csv", 'from,2026-03-02 06:00\nactivity,hours,"crew (1, 06:00-18:00)"\na,8,1\nb,8,1\n')
        told = plan("whatif", table, "--jobs", "1").stdout
        self.assertIn("As it is: optimal, ends Tue 2026-03-03 14:00 (32 hours).\n  optimal, ends Mon 2026-03-02 14:00 "
                      "(8 hours)"
                      ": one more of crew, of which there is 1\n", told)

    def test_absences_within_hours(self) -> None:
        """By hand: the crew of two is away on Tuesday, and one of it on Wednesday until 12:00; 8 hours of both fit
        after that, on Thursday."""
        self.file("away.csv", "resource,from,to,units\ncrew,2026-03-03,2026-03-03,\ncrew,2026-03-04,2026-03-04 "
                  "12:00,1\n")
        table = self.file("p.csv", 'from,2026-03-03\nabsences,away.csv\nactivity,hours,"crew (2, '
                          '06:00-18:00)"\na,8,2\n')
        ran = plan("solve", table, "--jobs", "1", "--out", self.folder / "a.csv")
        self.assertEqual(ran.stdout, "optimal, ends Thu 2026-03-05 14:00 (62 hours)\n", ran.stderr)


class Drawn:
    """Three activities of a crew on Monday to Friday, or on Monday, Wednesday and Friday. All starts are tried."""

    def __init__(self, seed: int) -> None:
        chance = random.Random(seed)
        self.crews = [chance.choice("xy") for _ in range(3)]
        self.days = [chance.randint(1, 7 if crew == "x" else 3) for crew in self.crews]
        pairs = [pair for pair in itertools.combinations(range(3), 2) if chance.random() < 0.5]
        self.lags = [(first, last, chance.choice((None, 3, 5))) for first, last in pairs]
        self.work = [{"x": day.weekday() < 5, "y": day.weekday() in (0, 2, 4)} for day in
                     (FIRST + datetime.timedelta(count) for count in range(3 * LAST))]

    def table(self) -> str:
        rows = ["activity,days,x (1; Mo-Fr),\"y (1, mon,wed,fri)\",after,at least,at most,may pause"]
        for i, (days, crew) in enumerate(zip(self.days, self.crews)):
            rows.append(f"{'abc'[i]},{days},{'1,' if crew == 'x' else ',1'},,,,yes")
            rows += [f",,,,{'abc'[first]},0,{'' if most is None else most},"
                     for first, last, most in self.lags if last == i]
        return "\n".join(rows) + "\n"

    def runs(self, i: int) -> dict[int, list[int]]:
        """The days of work of an activity, for each start."""
        crew, days = self.crews[i], self.days[i]
        shift, found = {"x": 5, "y": 1}[crew], {}
        for start in range(LAST):
            is_cut = days > shift
            whole = range(start, start + shift)
            is_begin = start > 0 and not self.work[start - 1][crew] and all(self.work[day][crew] for day in whole)
            run = [day for day in range(start, len(self.work)) if self.work[day][crew]][:days]
            if is_begin if is_cut else run == [*range(start, start + days)]:
                found[start] = run
        return found

    def makespans(self) -> Iterator[int]:
        for runs in itertools.product(*(self.runs(i).values() for i in range(3))):
            apart = all(self.crews[i] != self.crews[j] or {*runs[i]}.isdisjoint(runs[j])
                        for i, j in itertools.combinations(range(3), 2))
            kept = all(0 <= runs[last][0] - runs[first][-1] - 1 <= (99 if most is None else most)
                       for first, last, most in self.lags)
            if apart and kept:
                yield max(run[-1] for run in runs) + 1


class AllStarts(InFolder):
    def test_all_starts(self) -> None:
        for seed in range(8):
            drawn = Drawn(seed)
            with self.subTest(seed):
                ran = plan("solve", self.file("p.csv", drawn.table()), "--from", FIRST, "--jobs", "1")
                least = min(drawn.makespans(), default=None)
                if least is not None:
                    self.assertEqual(ran.stdout.partition("\n")[0], f"optimal {least}", drawn.table() + ran.stderr)
                elif ran.stdout != "no schedule\n":
                    self.assertIn("no schedule ends by then, which is proved", ran.stderr, drawn.table())
                    told = plan("why", self.folder / "p.csv", "--from", FIRST).stdout
                    self.assertTrue(told.startswith("There is no schedule that ends by "), told)


class Hours(unittest.TestCase):
    def test_read(self) -> None:
        for text, days, spans in (("06:00-18:00", None, ((360, 1080),)), ("nights", None, ((1080, 1800),)),
                                  ("Mo-Fr", {0, 1, 2, 3, 4}, ((0, 1440),)),
                                  ("mon,wed 22:00 - 06:00", {0, 2}, ((1320, 1800),)),
                                  ("13:00-17:00, 08:00-12:00", None, ((480, 720), (780, 1020)))):
            with self.subTest(text):
                found = read_hours(text)
                self.assertEqual((found.days, found.spans), (None if days is None else frozenset(days), spans))
        for text in ("soon", "06:00-06:00", "25:00-26:00", "06:00-12:00,11:00-14:00", "20:00-06:00,05:00-07:00"):
            with self.subTest(text), self.assertRaises(ValueError):
                read_hours(text)

    def test_off(self) -> None:
        """By hand, from Friday 6 March 2026 at noon on: nights of Monday to Friday are Friday 18:00 to Saturday 06:00,
        which is 6 to 18, and Monday 18:00, 72 hours after the last."""
        calendar = Moments(datetime.datetime(2026, 3, 6, 12), 60)
        self.assertEqual(off_times(read_hours("Mo-Fr nights"), calendar, 0, 100), ((0, 6), (18, 78), (90, 100)))
        self.assertEqual(off_times(read_hours("nights"), calendar, 20, 50), ((20, 30), (42, 50)))
        with self.assertRaises(ValueError):
            off_times(read_hours("06:30-14:30"), calendar, 0, 100)


class Refused(InFolder):
    def test_faults(self) -> None:
        """Each says the column and what to do."""
        begin = "from,2026-03-02 06:00\nactivity,hours,"
        for text, told in (
            (begin + '"crew (2, soon)"\na,1,1\n', "'soon': not hours such as 06:00-18:00, nights, or Mo-Fr"),
            (begin + "crew (2, 06:00-18:00)\na,1,1\n", "a name with a comma in it stands in quotes"),
            ("activity,hours,crew (2; nights)\na,1,1\n", "hours need --from"),
            ("shift,08:00-16:00\n" + begin + "crew (2; 06:00-14:00)\na,1,1\n",
             "these go beyond the hours of the project"),
            ("from,2026-03-02\nworkdays,mon-fri\nactivity,days,crew (1; Mo-Sa)\na,1,1\n",
             "go beyond the hours of the project"),
            ("from,2026-03-02\nactivity,days,crew (1; nights)\na,1,1\nb,4 h,\n", "until --shift says others"),
            (begin + "crew (2; nights)\na,13,1\n", "13 hours, and all that it needs is there for 12 hours at a time; "
             "'yes' in a column 'may pause' cuts it"),
            (begin + "x (1; days),y (1; nights)\na,1,1,1\n", "all that it needs is never there at once"),
            (begin + "crew (2; 06:00-10:00 12:00-18:00),may pause\na,13,1,yes\n",
             "are not of one length; write a row for "),
            (begin + "crew (2; days),may pause\na,13,1,perhaps\n", "'perhaps' is neither yes nor no"),
            ("horizon,2026-04-01\n" + begin + "note\na,3,\n",
             "row 1: horizon 2026-04-01: no resource has hours of its own"),
            ("shift,08:00-16:00\n" + begin + "note\na,3 cd,\n", "depends on its date"),
            ("period,4 hours\n" + begin + "crew (2; 06:30-18:30)\na,4,1\n",
             "is within a period; choose a shorter --period"),
        ):
            with self.subTest(text):
                ran = plan("check", self.file("p.csv", text))
                self.assertEqual(ran.returncode, 2, ran.stdout + ran.stderr)
                self.assertIn(told, ran.stderr)

    def test_what_has_started(self) -> None:
        """History is as it was, be it outside hours; what remains has to fit, and may have no parts."""
        begin = "from,2026-03-02\nstatus,2026-03-03 16:00\nactivity,hours,crew (2; days),may pause,started,remaining\n"
        for row, told in (("a,9,1,,2026-03-03 04:00,2", ""),
                          ("a,9,1,,2026-03-03 04:00,3", "what remains, 3 hours, goes beyond"),
                          ("a,29,1,yes,2026-03-03 04:00,20", "what has started has no parts any more")):
            with self.subTest(row):
                ran = plan("check", self.file("p.csv", f"{begin}{row}\n"))
                self.assertIn(told, ran.stderr)
                self.assertEqual(ran.returncode, 2 if told else 0, ran.stderr)
