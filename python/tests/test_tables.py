"""Tables of plan in the package: lags in calendar days, parts of what may pause, changes, and answers in files."""
import datetime
import json
import pathlib
from collections.abc import Callable

import psmax
from planner.tests import test_calendar_days, test_crews
from planner.tests.helpers import InFolder, plan

from .test_api import site

WEEK = psmax.WorkTime("2026-03-02", workdays="mon-fri")
ABOVE = "from,2026-03-02\nworkdays,mon-fri\n"


class CalendarDays(InFolder):
    def test_all_starts(self) -> None:
        """The least makespan of all starts is the answer, and its record proves it, also of the project as an
        object."""
        self.file("off.txt", f"{test_calendar_days.OFF}\n")
        above = f"from,{test_calendar_days.FIRST}\nworkdays,mon-fri\nholidays,off.txt\n"
        for seed in range(6):
            drawn = test_calendar_days.Drawn(seed)
            least = min(drawn.makespans(), default=None)
            read = psmax.Project.read(self.file("p.csv", above + drawn.table()))
            for project in (read, psmax.Project.from_dict(read.to_dict())):
                with self.subTest(seed):
                    answer = project.solve(20, 1)
                    self.assertEqual((answer.makespan, answer.bound), (least, least), drawn.table())
                    proved = "proved no schedule" if least is None else f"proved optimal {least}"
                    assert answer.record is not None
                    self.assertEqual(f"{answer.record.verify()}", proved)
                    self.assertEqual(project.verify(answer.record.data), answer.record.verify())

    def test_what_may_pause(self) -> None:
        """The same of rows that are cut into parts, where their shifts are not equally far from each other."""
        for seed in range(6):
            drawn = test_crews.Drawn(seed)
            least = min(drawn.makespans(), default=None)
            project = psmax.Project.read(f"from,{test_crews.FIRST}\n" + drawn.table())
            with self.subTest(seed):
                self.assertEqual(project.solve(20, 1).makespan, least, drawn.table())
                if any(lag.shifts for lag in project.lags):
                    with self.assertRaisesRegex(psmax.BadInput,
                                                "json has no parts tied to shifts that differ: '[abc] .1 of "):
                        project.to_dict()

    def test_by_hand(self) -> None:
        """Monday to Friday: what is poured until Friday has waited three days on Monday evening, so the wall begins on
        the Tuesday, day 6. The four days before that are Friday to Monday, so the gate ends on Thursday or later. Four
        days after a gate of Monday are over on Friday, so the wall would begin then, day 4, or sooner."""
        made = psmax.Project()
        pour, wall, gate = made.activity("pour", 5), made.activity("wall", 1), made.activity("gate", 1)
        made.calendar = WEEK
        after = made.lag(pour.end, wall.start, at_least="3 cd")
        made.lag(gate.end, wall.start, at_most="4 KT")
        self.assertEqual((after.at_least, after.is_in_calendar_days), (3, True))
        answer = made.solve(10, 1)
        self.assertEqual((answer.makespan, answer[wall].start), (7, 6))
        self.assertGreaterEqual(answer[gate].end, 4)
        self.assertEqual((f"{made.solve(10, 1, bound=7)}", f"{made.solve(10, 1, bound=8)}"),
                         ("unknown bound 7", "optimal 7"))
        self.assertEqual(made.why(6, 10, 1).status, "no schedule")
        told = [f"{one}" for one in made.check({pour: 0, wall: 5, gate: 0}).violations]
        starts = "and starts on 2026-03-09, which is 1 day too"
        self.assertEqual(told, [f"wall must start at least 3 calendar days after pour ends, {starts} soon",
                                f"wall must start at most 4 calendar days after gate ends, {starts} late"])
        del made["gate"]
        pour.duration = 4
        self.assertEqual(made.solve(10, 1, record=False).makespan, 6)

    def test_faults(self) -> None:
        made, dig, lift = site()
        dated = made.copy()
        dated.calendar = WEEK
        one, other = dated["dig"], dated["lift"]
        wrong: list[tuple[Callable[[], object], str]] = [
            (lambda: made.lag(dig.end, lift.start, at_least="3 cd"), "needs the project's calendar"),
            (lambda: dated.lag(one.end, other.start, at_least="1.5 cd"), "are a whole number, from 0 to 10,000"),
            (lambda: dated.lag(one.end, other.start, at_most="-1 cd"), "are a whole number, from 0 to 10,000"),
            (lambda: dated.lag(one.end, other.start, at_least="2 cd", at_most=3), "in both of its limits, or in none"),
            (lambda: dated.lag(one.end, other.end, at_least="2 cd"), "from an activity to the start of another one"),
            (lambda: dated.lag(dated.start, other.start, at_least="2 cd"), "from an activity to the start of another"),
            (lambda: dated.lag(other.start, dated.end, at_least="2 cd"),
             "from an activity to the start of another one"),
        ]
        count = len(dated.lags)
        for call, wanted in wrong:
            with self.subTest(wanted), self.assertRaisesRegex(psmax.BadInput, wanted):
                call()
        self.assertEqual(len(dated.lags), count)
        dated.lag(one.end, other.start, at_least="2 cd")
        record = dated.solve(10, 1).record
        after: list[tuple[Callable[[], object], str]] = [
            (lambda: dated.solve(10, 1, proved_by="tree"),
             "proved_by 'tree' is not for a project with lags in calendar"),
            (lambda: dated.solve(10, 1, resume=record), "resume is not for a project with lags in calendar days"),
            (dated.earliest, "psmax knows no lags in calendar days"),
            (lambda: dated.text("mspdi"), "mspdi has no lags in calendar days: 'dig' and 'lift'"),
            (lambda: psmax.Project.from_dict(told(dated, unit="moons")), "a lag's `unit` is neither 'periods' nor"),
        ]
        for call, wanted in after:
            with self.subTest(wanted), self.assertRaisesRegex(psmax.BadInput, wanted):
                call()
        dated.calendar = None
        with self.assertRaisesRegex(psmax.BadInput, "a lag in calendar days needs the project's calendar"):
            dated.solve(10, 1)


def told(project: psmax.Project, **change: str) -> dict[str, object]:
    """The object of a project, with another last lag."""
    found: dict[str, object] = json.loads(project.text("json"))
    lags = found["lags"]
    assert isinstance(lags, list)
    lags[-1] |= change
    return found


class Changes(InFolder):
    def test_a_change(self) -> None:
        """By hand: 3, 2 and 4 days on one crane from Monday on end on the ninth day of work, Thursday 12 March, or with
        Saturdays a day sooner; with two cranes on the fifth day of work, and with one day in place of four on the
        sixth; with one day less and Saturdays on Tuesday."""
        rows = "ID,activity,days,crane (1)\n7,a,3,1\n8,b,2,1\n9,c,4,1\n"
        sources: list[str | pathlib.Path] = [ABOVE + rows, self.file("p.csv", ABOVE + rows)]
        for source in sources:
            for change, wanted in ((None, "2026-03-12"), ("saturdays", "2026-03-11"), ("crane +1", "2026-03-06"),
                                   ("9 1 d", "2026-03-09"), ("c -1 d; saturdays", "2026-03-10")):
                answer = psmax.Project.read(source, change=change).solve(10, 1)
                last = max(span.end_date for _, span in answer.schedule or () if span.end_date)
                with self.subTest(change):
                    self.assertEqual((answer.status, last), ("optimal", datetime.date.fromisoformat(wanted)))
        with self.assertRaisesRegex(psmax.BadInput, "'crain .1': no change that plan knows.*did you mean 'crane'"):
            psmax.Project.read(ABOVE + rows, change="crain +1")
        with self.assertRaisesRegex(psmax.BadInput, "the text: a change is for a table of plan"):
            psmax.Project.read('{"format": "psmax-project 1", "activities": []}', change="crane +1")


class Answers(InFolder):
    def test_read_starts(self) -> None:
        """What plan, psprove and Python write of the same: by names and dates, by names and numbers, and by numbers
        alone."""
        table = self.file("p.csv", ABOVE + "activity,days,crane (1)\na,3,1\nb,2,1\n")
        out, project = self.folder / "plan.csv", psmax.Project.read(table)
        self.assertEqual(plan("solve", table, "--out", out, "--jobs", "1").returncode, 0)
        first, last, found = project["a"], project["b"], project.read_starts(out)
        self.assertIn((found[first], found[last]), ((0, 3), (2, 0)))
        self.assertTrue(project.check(found))
        for text, wanted in (("name,start\nb,2026-03-02\na,2026-03-04\n", {first: 2, last: 0}),
                             ("name,start\nb,4\ngone,9\n", {last: 4}),
                             ("feasible 5\n0 0\n1 2\n2 0\n3 5\n", {first: 2, last: 0})):
            with self.subTest(text):
                self.assertEqual(project.read_starts(self.file("old", text)), wanted)
        with self.assertRaisesRegex(psmax.BadInput, "old: .*no schedule"):
            project.read_starts(self.file("old", "no schedule\n"))
        with self.assertRaisesRegex(psmax.Failed, "cannot read"):
            project.read_starts(pathlib.Path("/gone"))

    def test_replan(self) -> None:
        """By hand: a has begun on Monday and stays, also where the table was read anew; b, which has not begun by
        Wednesday, waits for a, which takes two days more by now."""
        rows = "activity,days,crane (1)\na,3,1\nb,2,1\n"
        before, now = psmax.Project.read(ABOVE + rows), psmax.Project.read(ABOVE + rows.replace("a,3", "a,5"))
        old = self.file("old.csv", "name,start\na,0\nb,3\n")
        starts = {"a": 0, "b": 3}
        for answer in (now.replan(now.read_starts(old), "2026-03-04", 10, 1),
                       now.replan(before.solve(10, 1, frozen=starts), "2026-03-04", 10, 1)):
            self.assertEqual((answer["a"].start, answer["b"].start, answer.status), (0, 5, "optimal"))
        now.lag(now["a"].end, now["b"].start, at_least=1)
        for soon, wanted in ((5, "has started, but b must start at least 1 after a ends, and starts 0 after it does"),
                             (4, "has started, but on 2026-03-06, 2 units of crane are in use")):
            with self.subTest(wanted), self.assertRaisesRegex(psmax.BadInput, wanted):
                now.replan(starts, 6, 10, 1, started={"a": 0, "b": soon})
