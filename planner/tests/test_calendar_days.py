"""Lags in calendar days, which go on over days off. Each is kept on the dates where it stands, and no schedule is
shorter."""
import datetime
import itertools
import json
import random
from collections.abc import Iterator
from unittest import mock

from .helpers import InFolder, plan

# By hand, Monday to Friday: what ends on a Friday evening has waited for three days on Monday evening, so Tuesday it
# is, one day of work later. From Monday evening on, Tuesday to Thursday are three days of work.
HEADS = "activity,days,after,at least,at most\n"
WEEK = ("--from", "2026-03-02", "--workdays", "mon-fri")

# The table that was read as a longer project. By hand: from Thursday 5 March on, digging ends on Friday evening, and
# the wall begins on Tuesday: Thursday, Friday, Monday and Tuesday are 4 days. Six would be right if digging ended on
# another day.
GERMAN = ("from;05.03.2026;;\nworkdays;Mo-Fr;;\n"
          "ID;Task Name;Duration;Predecessors\n1;Aushub;2 d;\n2;Mauer;1 d;1FS+3 cd\n")
ENGLISH = "from,2026-03-05,,\nworkdays,mon-fri,,\nID,Task Name,Duration,Predecessors\n1,dig,2 d,\n2,wall,1 d,1FS+3 cd\n"


class CalendarDays(InFolder):
    def solved(self, rows: str, *words: object) -> str:
        ran = plan("solve", self.file("p.csv", HEADS + rows), *words)
        self.assertEqual(ran.returncode, 0, ran.stderr)
        return ran.stdout.partition("\n")[0]

    def test_what_was_misread(self) -> None:
        """The answer, the record, the check and the report say 4."""
        for text in (GERMAN, ENGLISH):
            with self.subTest(text):
                table, answer, record = self.file("p.csv", text), self.folder / "a.csv", self.folder / "r.rec"
                page = self.folder / "r.html"
                for path in (answer, record, page):
                    path.unlink(missing_ok=True)
                ran = plan("solve", table, "--out", answer, "--record", record, "--json")
                told = json.loads(ran.stdout)
                self.assertEqual([told[key] for key in ("status", "makespan", "bound", "starts")],
                                 ["optimal", 4, 4, [0, 0, 3, 4]], ran.stderr)
                said = plan("verify", table, record).stdout
                self.assertIn("is shorter than 4, and has one that long.", said)
                self.assertIn("has judged", said)
                self.assertEqual(plan("report", table, answer, "--record", record, "--out", page).returncode, 0)
                self.assertIn("is shorter than 4", page.read_text())

    def test_what_is_broken(self) -> None:
        """By hand: the wall on the second day of work after the Friday is right, and on the first one it is not."""
        table = self.file("p.csv", ENGLISH)
        ran = plan("check", table, self.file("a.csv", "name,start\ndig,0\nwall,2\n"))
        self.assertEqual((ran.returncode, ran.stdout), (4, "2 (wall) must start at least 3 calendar days after 1 (dig) "
                                                        "ends, "
                                                        "and starts on 2026-03-09, which is 1 d too soon\n"))
        self.assertEqual(plan("check", table, self.file("a.csv", "name,start\ndig,0\nwall,3\n")).stdout,
                         "feasible, ends Tue 2026-03-10 (4 d)\n")

    def test_by_hand(self) -> None:
        """From Friday to Tuesday; and if all is a day sooner, from Thursday to Monday, so that painting is a day sooner
        too."""
        self.assertEqual(self.solved("pour,5,,,\nstrip,1,pour,3 cd,\n", *WEEK), "optimal 7")
        self.assertEqual(self.solved("pour,5,,,\nstrip,1,pour,3 cd,\npaint,1,strip,0,4 cd\n", *WEEK), "optimal 8")

    def test_other_cases(self) -> None:
        """By hand: seven days are five of work from any day on; without days off, and from the start of pouring."""
        for rows, words, wanted in (
            ("pour,1,,,\nstrip,1,pour,7 cd,\n", WEEK, "optimal 7"),
            ("pour,1,,,\nstrip,1,pour,3 cd,\n", WEEK[:2], "optimal 5"),
            ("pour,1,,,\nstrip,1,start of pour,3 cd,\n", WEEK, "optimal 4"),
            ("pour,0,,,\nstrip,1,pour,3 cd,\n", WEEK, "optimal 4"),
            ("pour,1,,,\nstrip,1,pour,,3 cd\nwait,4,,,\n", WEEK, "optimal 4"),
        ):
            with self.subTest(rows=rows, words=words):
                self.assertEqual(self.solved(rows, *words), wanted)

    def test_at_most(self) -> None:
        """By hand: at most 3 calendar days after an evening leaves a Friday one day of work, a Monday three. So two
        days of work between pouring and stripping need no Friday, and four are too many on any day."""
        for least, told in ((1, "optimal 3"), (2, "optimal 4"), (3, "optimal 5"), (4, "no schedule")):
            self.assertEqual(self.solved(f"pour,1,,,\nstrip,1,pour,{least},3 cd\n", *WEEK), told)

    def test_at_most_on_a_friday(self) -> None:
        """By hand: pouring takes until Friday; from there two days of work are too many, so it ends on the Monday."""
        self.assertEqual(self.solved("pour,5,,,\nstrip,1,pour,1,3 cd\n", *WEEK), "optimal 7")
        self.assertEqual(self.solved("pour,5,,,\nstrip,1,pour,2,3 cd\n", *WEEK), "optimal 9")

    def test_holidays(self) -> None:
        """By hand: from Thursday 2 April 2026 on, the days to the 6th are off. Of 5 calendar days from Thursday evening
        on only the 7th is work, so with one day between stripping is on the 8th, the third day. What pours on a later
        day has more."""
        words = ("--from", "2026-04-02", "--workdays", "mon-fri", "--holidays",
                 self.file("free.txt", "2026-04-03\n2026-04-06\n"))
        self.assertEqual(self.solved("pour,1,,,\nstrip,1,pour,1,5 cd\n", *words), "optimal 3")
        self.assertEqual(self.solved("pour,1,,,\nstrip,1,pour,2,5 cd\n", *words), "optimal 5")
        self.assertEqual(self.solved("pour,1,,,\nstrip,1,pour,5 cd,\n", *words), "optimal 3")

    def test_hours(self) -> None:
        """By hand: 8 hours a day; after Monday 16:00 two days are 16 hours, so 8 + 16 + 4."""
        self.assertEqual(self.solved("pour,1,,,\nstrip,4 h,pour,2 cd,\n", *WEEK, "--shift", "08:00-16:00"),
                         "optimal 28")

    def test_where_clocks_change(self) -> None:
        """By hand, around the clock from Saturday noon on: until Sunday noon it is 23 hours where clocks are put
        forward."""
        table = self.file("p.csv", "from,2026-03-28 11:00\nactivity,hours,after,at least\npour,1,,\nstrip,1,pour,1 "
                          "cd\n")
        self.assertEqual(plan("solve", table, "--zone", "Europe/Berlin").stdout.partition("\n")[0], "optimal 25")
        self.assertEqual(plan("solve", table).stdout.partition("\n")[0], "optimal 26")

    def test_faults(self) -> None:
        for rows, words, told in (("a,1,,,\nb,1,a,3 cd,\n", (), "calendar days need --from"),
                                  ("a,1,,,\nb,1,a,1.5 cd,\n", WEEK, "calendar days are a whole number"),
                                  ("a,1,,,\nb,1,start,3 cd,\n", WEEK, "count from an activity; write the date")):
            with self.subTest(rows):
                table = self.file("p.csv", HEADS + rows)
                self.refused(plan("solve", table, *words), 2, "row 3, column D (at least)", told)


FIRST = datetime.date(2026, 3, 5)  # a Thursday
OFF = datetime.date(2026, 3, 11)
WORK = [day for day in (FIRST + datetime.timedelta(days=k) for k in range(60)) if day.weekday() < 5 and day != OFF]


class Drawn:
    """Three or four activities, lags in calendar days between them, and two that share a crane. All starts are
    tried."""

    def __init__(self, seed: int) -> None:
        chance = random.Random(seed)
        self.days = [chance.randint(1, 3) for _ in range(chance.choice((3, 3, 4)))]
        self.crane = [chance.randint(0, 1) for _ in self.days]
        pairs = [pair for pair in itertools.combinations(range(len(self.days)), 2) if chance.random() < 0.6]
        drawn = [(first, last, chance.randint(0, 5), chance.choice((0, 0, 3, 5, 6))) for first, last in pairs]
        self.lags = [(first, last, least, most if most >= least else None) for first, last, least, most in drawn]

    def table(self) -> str:
        rows = []
        for i, (days, crane) in enumerate(zip(self.days, self.crane)):
            rows.append(f"{chr(97 + i)},{days},{crane},,,")
            rows += [f",,,{chr(97 + first)},{least} cd,{'' if most is None else f'{most} cd'}"
                     for first, last, least, most in self.lags if last == i]
        return "activity,days,crane (1),after,at least,at most\n" + "\n".join(rows) + "\n"

    def makespans(self) -> Iterator[int]:
        for starts in itertools.product(range(15), repeat=len(self.days)):
            if all(self.is_kept(starts, *lag) for lag in self.lags) and self.is_alone(starts):
                yield max(start + days for start, days in zip(starts, self.days))

    def is_kept(self, starts: tuple[int, ...], first: int, last: int, least: int, most: int | None) -> bool:
        """By dates: whole days between the last day of one activity and the first of the other."""
        between = (WORK[starts[last]] - WORK[starts[first] + self.days[first] - 1]).days - 1
        return least <= between and (most is None or between <= most)

    def is_alone(self, starts: tuple[int, ...]) -> bool:
        spans = [(start, start + days) for start, days, crane in zip(starts, self.days, self.crane) if crane]
        return all(one[1] <= other[0] or other[1] <= one[0] for one, other in itertools.combinations(spans, 2))


class AllStarts(InFolder):
    def test_all_starts(self) -> None:
        """The least makespan of all starts is the answer, and its record proves it; where none fits there is no
        schedule."""
        words = ("--from", f"{FIRST}", "--workdays", "mon-fri", "--holidays", self.file("off.txt", f"{OFF}\n"))
        for seed in range(12):
            drawn, record = Drawn(seed), self.folder / "rec"
            least = min(drawn.makespans(), default=None)
            table = self.file("p.csv", drawn.table())
            with self.subTest(seed):
                ran = plan("solve", table, *words, "--record", record, "--jobs", "1")
                wanted = "no schedule" if least is None else f"optimal {least}"
                self.assertEqual(ran.stdout.partition("\n")[0], wanted, drawn.table() + ran.stderr)
                proved = "there is no schedule" if least is None else f"is shorter than {least}, and has one that long"
                self.assertIn(proved, plan("verify", table, record, *words).stdout)


class Records(InFolder):
    def setUp(self) -> None:
        """By hand, one machine for two jobs of 4 days from Thursday on, each with a day of work 3 calendar days after
        it. The job that is first ends on a Tuesday, and its follower is on Saturday at the soonest, so on Monday; the
        other ends on the next Monday, the eighth day, and its follower is on Friday, the twelfth."""
        super().setUp()
        self.table = self.file("p.csv", "from,2026-03-05\nworkdays,mon-fri\nactivity,days,machine (1),after,at least\n"
                               "a,4,1,,\nb,4,1,,\nc,1,,a,3 cd\nd,1,,b,3 cd\n")
        self.record = self.folder / "rec"
        ran = plan("solve", self.table, "--record", self.record, "--jobs", "1")
        self.assertEqual(ran.stdout.partition("\n")[0], "optimal 12", ran.stderr)

    def damaged(self, **change: object) -> str:
        """What `verify` says of the record with another tree, or another schedule."""
        begin, head, rest = self.record.read_bytes().split(b"\n", 2)
        told = json.dumps(json.loads(head) | change).encode()
        ran = plan("verify", self.table, self.file("bad", b"\n".join([begin, told, rest])))
        self.assertEqual(ran.returncode, 4, ran.stdout + ran.stderr)
        return ran.stdout

    def tree(self) -> list[dict[str, int]]:
        found: list[dict[str, int]] = json.loads(self.record.read_bytes().split(b"\n", 2)[1])["cases"]
        return found

    def test_it_is_right(self) -> None:
        ran = plan("verify", self.table, self.record)
        self.assertIn("is shorter than 12, and has one that long.\n", ran.stdout)

    def test_what_is_damaged(self) -> None:
        """A case that is missing, a case of another time, another schedule, another claim, and a record that is cut."""
        tree = self.tree()
        self.assertIn("cases: form", self.damaged(cases=tree[:-1]))
        self.assertIn("cases: form", self.damaged(cases=tree + tree[-1:]))
        self.assertIn("cases: form", self.damaged(cases=[{"lag": 9, "time": 1}, *tree]))
        self.assertIn("cases: schedule", self.damaged(starts=[0, 0, 4, 5, 9, 10]))
        lower = [node if "lag" in node else node | {"ceiling": 99} for node in tree]
        self.assertIn("proves nothing", self.damaged(cases=lower))
        self.assertEqual(plan("verify", self.table, self.file("cut", self.record.read_bytes()[:-1])).returncode, 4)

    def test_of_another_table(self) -> None:
        """A lag of one day more makes other cases, for which the records prove nothing; or less than that."""
        other = self.file("q.csv", self.table.read_text().replace("3 cd", "4 cd"))
        said = plan("verify", other, self.record).stdout
        self.assertNotIn("has one that long", said)

    def test_time_is_over(self) -> None:
        """What is known then: a schedule, and that none is shorter than what all cases allow."""
        with mock.patch("psmax.cases.CaseSearch.split_least", return_value=False):
            ran = plan("solve", self.table, "--record", self.record, "--jobs", "1")
        self.assertEqual(ran.returncode, 3)
        first = ran.stdout.split("\n")[0].split()
        self.assertEqual([first[0], first[2]], ["feasible", "bound"])
        self.assertGreaterEqual(int(first[1]), 12)
        self.assertLess(int(first[3]), 12)
        said = plan("verify", self.table, self.record).stdout
        self.assertIn(f"is shorter than {first[3]}.\n", said)
