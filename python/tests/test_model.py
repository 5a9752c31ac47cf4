"""A project as a collection that changes, its dates, and what it looks like. What is expected is counted by hand."""
import datetime
import importlib.util
import unittest
import xml.dom.minidom
from collections.abc import Callable
from typing import Any, cast

import psmax
from planner.tests.helpers import EXAMPLES, InFolder
from psmax.model import Group

from .test_api import site

MONDAY = datetime.date(2026, 3, 2)
FRIDAY = datetime.date(2026, 3, 6)
WEEK = psmax.WorkTime(MONDAY, workdays="mon-fri", holidays=["2026-03-05"])
SHIFT = psmax.WorkTime("2026-03-02 08:00", "2 hours", "mon-fri", shift="08:00-12:00,13:00-17:00")


def dated(calendar: psmax.WorkTime) -> psmax.Project:
    """The site of the tests with dates."""
    made, *_ = site()
    made.calendar = calendar
    return made


class Collection(InFolder):
    def test_reading(self) -> None:
        made, dig, lift = site()
        self.assertEqual((len(made), [*made], made["dig"]), (2, [dig, lift], dig))
        self.assertTrue("dig" in made and dig in made)
        self.assertEqual(("gone" in made, site()[1] in made, len(psmax.Project())), (False, False, 0))
        self.assertEqual((psmax.Status.OPTIMAL, f"{psmax.Goal.LATENESS}"), ("optimal", "lateness"))

    def test_a_change(self) -> None:
        """A longer dig; a paint beside which four do nothing else, and seven do; and no dig, with which its lag
        goes."""
        made, dig, lift = site()
        before = made.solve(10, 1)
        dig.duration = 5
        self.assertEqual((made.solve(10, 1)[lift].start, before[dig], before.makespan), (6, (0, 3), 6))
        paint = made.activity("paint", 4, {made.resources[0]: 3}, due=3)
        self.assertEqual(made.solve(10, 1).makespan, 11)
        made.resources[0].capacity = 7
        self.assertEqual(made.solve(10, 1).makespan, 8)
        paint.demands, paint.due = {}, None
        self.assertEqual((made.solve(10, 1).makespan, made.solve(10, 1).lateness), (8, None))
        del made["dig"]
        self.assertEqual((made.lags, lift.number, made.solve(10, 1).makespan), ([], 1, 4))
        made.activity("sand", 1)
        for name, kind in ((made["sand"], ValueError), ("sand", KeyError), (3, TypeError)):
            with self.assertRaises(kind):
                before[name]  # type: ignore[index]
        self.assertEqual((before["dig"], before.record and before.record.verify().bound), ((0, 3), 6))

    def test_what_goes_with_an_activity(self) -> None:
        """Its number is that of the next one, by which IDs, groups and real starts are known."""
        made, gone, lift = site()
        made.ids, made.started = {1: "A", 2: "B"}, {2: 3}
        made.groups = [Group("both", range(1, 3)), Group("the first", range(1, 2))]
        del made["dig"]
        self.assertEqual((made.number(lift), made.ids, made.started), (1, {1: "B"}, {1: 3}))
        self.assertEqual(made.groups, [Group("both", range(1, 2))])
        with self.assertRaises(ValueError):
            made.number(gone)

    def test_an_absence_of_all(self) -> None:
        """All that there is stays away when there is more; no less than is away can be there."""
        made, _, lift = site()
        crew, crane = made.resources
        made.absence(crane, 0, 7)
        crane.capacity = 2
        self.assertEqual(made.solve(10, 1)[lift].start, 7)
        made.absence(crew, 0, 9, 3)
        with self.assertRaisesRegex(ValueError, "3 of crew are away at 0, and there are 2"):
            crew.capacity = 2
        trial = made.copy()
        trial.absences.clear()
        self.assertEqual((trial.solve(10, 1).makespan, len(made.absences)), (6, 2))

    def must_raise(self, cases: list[tuple[Callable[[], object], type[Exception], str]]) -> None:
        for call, kind, wanted in cases:
            with self.subTest(wanted), self.assertRaises(kind) as caught:
                call()
            self.assertIn(wanted, f"{caught.exception}")

    def test_wrong_values(self) -> None:
        """Nothing of the project is changed by them."""
        made, dig, lift = site()
        odd: Any = None
        crew: Any = made.resources[0]
        self.must_raise([
            (lambda: setattr(dig, "duration", -1), ValueError, "the duration of dig: -1 is not a whole number"),
            (lambda: setattr(dig, "duration", "1 d"), ValueError, "'1 d' needs the project's calendar"),
            (lambda: setattr(dig, "duration", 1.5), TypeError, "the duration of dig: 1.5 is not a whole number"),
            (lambda: setattr(dig, "name", "x"), AttributeError, "the name of an activity stays as it is"),
            (lambda: setattr(dig, "demands", 3), TypeError, "'3' is not a mapping from resources to demands"),
            (lambda: setattr(crew, "capacity", None), TypeError, "the capacity of crew: None is not a whole number"),
            (lambda: setattr(crew, "number", 3), AttributeError, "the number of a resource stays as it is"),
            (lambda: made["gone"], KeyError, "no activity 'gone'"),
            (lambda: made[odd], TypeError, "'None' is not the name of an activity"),
            (lambda: made.resource(odd, 1), TypeError, "the name of a resource is not a text"),
            (lambda: made.__delitem__(site()[1]), ValueError, "'dig' is no activity of this project"),
            (lambda: setattr(made, "calendar", "mon-fri"), TypeError, "'mon-fri' is not a WorkTime"),
        ])
        self.assertEqual((dig.duration, lift.number, made.calendar), (3, 2, None))

    def test_wrong_calls(self) -> None:
        made, odd = site()[0], cast(Any, None)
        self.must_raise([
            (lambda: psmax.WorkTime(odd), TypeError, "first: None is no date such as 2026-03-02"),
            (lambda: psmax.WorkTime("2026-13-02"), ValueError, "from 2026-13-02: there is no such date"),
            (lambda: psmax.WorkTime(MONDAY, workdays="mon-fry"), ValueError, "workdays mon-fry: not days such as"),
            (lambda: psmax.WorkTime(MONDAY, period=odd), TypeError, "period: None is no text"),
            (lambda: psmax.WorkTime(MONDAY, holidays="2026-03-05"), TypeError, "holidays: '2026-03-05' is no list"),
            (lambda: psmax.WorkTime("9999-12-31", workdays="mon"), ValueError, "'first' is beyond the years 1 to 9999"),
            (lambda: psmax.Project.read(odd), TypeError, "'None' is not a path or a text"),
            (lambda: psmax.Project.from_dict({}), ValueError, "the project has no key 'activities'"),
            (lambda: psmax.Answer.from_dict(made, {}), ValueError, "an answer has no key 'bound'"),
            (lambda: made.float(made.solve(10, 1), odd), TypeError, "seconds: None is not a number above 0"),
            (lambda: psmax.Project(odd), TypeError, "'None' is not a name of a project"),
            (lambda: made.verify(odd), TypeError, "None is no path"),
            (lambda: made.write(odd), TypeError, "None is no path"),
            (lambda: made.text(odd), TypeError, "format None: no name of a format"),
            (lambda: psmax.Project.read("a\nb", cast(Any, 7)), TypeError, "is not the name of a format"),
            (lambda: psmax.Project.read("a\nb", sheet="x"), ValueError, "the text: a sheet is for spreadsheet files"),
            (lambda: made.solve(10, 1, resume=cast(Any, 7)), TypeError, "is no path"),
            (lambda: made.solve(10, 1, minimize=odd), ValueError, "minimize None: neither makespan nor lateness"),
            (lambda: made.why(-1), ValueError, "the deadline: -1 is not a whole number"),
        ])


class Dates(InFolder):
    def test_starts_and_ends(self) -> None:
        """Three days from Monday on, a day between, and Thursday is off: the lift begins on Monday; in two hours a day
        has four, and the lift begins at ten on Tuesday, behind four of them and one more."""
        cases = [(WEEK, (MONDAY, FRIDAY.replace(day=4)), (FRIDAY.replace(day=9), FRIDAY.replace(day=10))),
                 (SHIFT, (datetime.datetime(2026, 3, 2, 8), datetime.datetime(2026, 3, 2, 15)),
                  (datetime.datetime(2026, 3, 3, 8), datetime.datetime(2026, 3, 3, 12)))]
        for calendar, dig, lift in cases:
            answer = dated(calendar).solve(10, 1)
            for name, dates in (("dig", dig), ("lift", lift)):
                self.assertEqual((answer[name].start_date, answer[name].end_date), dates)
        self.assertEqual((site()[0].solve(10, 1)["dig"].start_date, answer["dig"]), (None, (0, 3)))

    def test_lengths(self) -> None:
        """In periods of two hours a day has four, and a week 20."""
        made = dated(SHIFT)
        cases: list[tuple[int | str, int]] = [
            ("1,5 d", 6), ("1.5 d", 6), ("4 h", 2), ("120 min", 1), ("1 w", 20), ("3", 3), (7, 7), ("0 d", 0)]
        for text, periods in cases:
            with self.subTest(text):
                self.assertEqual(made.activity(f"a {text}", text).duration, periods)
        lag = made.lag(made["dig"].end, made["lift"].end, at_least="1 d", at_most="2 d")
        self.assertEqual((lag.at_least, lag.at_most), (4, 8))
        for wrong, wanted in (("3 h", "is no whole number of periods, which are 2 hours"), ("x", "is no whole number"),
                              ("2 cd", "is no whole number"), ("-1 d", "-4 is not a whole number from 0")):
            with self.subTest(wrong), self.assertRaisesRegex(ValueError, wanted):
                made.activity("b", wrong)
        self.assertEqual(dated(WEEK).activity("b", "2 w").duration, 10)

    def test_times(self) -> None:
        """A due day ends with its work, an absence has its last day, and a time is from the first work on."""
        days: list[str | datetime.date] = [
            FRIDAY, "2026-03-06", "06.03.2026", "Fri 2026-03-06", datetime.datetime(2026, 3, 6)]
        for day in days:
            made = dated(WEEK)
            crane = made.resources[1]
            with self.subTest(day):
                away = made.absence(crane, MONDAY, day)
                begins = 3 if isinstance(day, datetime.datetime) else 4
                self.assertEqual((away.begins, away.ends), (0, begins))
                made["lift"].due = day  # type: ignore[assignment]
                self.assertEqual((made["lift"].due, made.solve(10, 1)["lift"].start), (begins, 4))
        made = dated(WEEK)
        answer = made.solve(10, 1, frozen={"dig": "2026-03-03"}, now="2026-03-03")
        self.assertEqual((answer["dig"].start, answer["lift"].start_date), (1, datetime.date(2026, 3, 10)))
        self.assertEqual(made.why(FRIDAY, 10, 1).status, "no schedule")
        self.assertEqual(made.why("2026-03-10", 10, 1).status, "optimal")

    def test_tables(self) -> None:
        """Those of plan, by a path or as a text; what is in the way of an end a day sooner."""
        hall, rows = psmax.Project.read(EXAMPLES / "hall.csv"), ["name,days,after,at least", "dig,3,,", "lift,2,dig,1"]
        text = "\n".join(["from,2026-03-02", *rows])
        self.assertEqual(psmax.Project.read(text).to_dict(), psmax.Project.read(self.file("x.csv", text)).to_dict())
        self.assertEqual(psmax.Project.read(text).solve(10, 1)["lift"].start_date, FRIDAY)
        answer = hall.solve(20, 2)
        assert answer.makespan is not None
        last = max((span.end_date for _, span in answer.schedule or () if span.end_date), default=None)
        self.assertEqual((answer.status, answer.makespan, last), ("optimal", 27, datetime.date(2026, 4, 9)))
        why = hall.why(26, 20, 2)
        self.assertEqual((why.status, why.is_smallest, bool(why.parts)), ("no schedule", True, True))
        with self.assertLogs("psmax", "WARNING") as told:
            psmax.Project.read("name,days,mood\ndig,3,good\n")
        self.assertIn("columns of your own are passed over: 'mood'", told.output[0])
        wrong = self.file("x.csv", "name,duration\ndig,x\n")
        with self.assertRaisesRegex(psmax.BadInput, "row 2, column B .duration.: 'x' is not a number"):
            psmax.Project.read(wrong)

    @unittest.skipUnless(importlib.util.find_spec("openpyxl"), "openpyxl isn't here")
    def test_spreadsheets(self) -> None:
        """The sheet that is named; of a text a sheet can't be named."""
        openpyxl: Any = importlib.import_module("openpyxl")
        book, path = openpyxl.Workbook(), self.folder / "x.xlsx"
        for sheet, days in ((book.active, 3), (book.create_sheet("second"), 4)):
            for row in (["name", "days"], ["dig", days]):
                sheet.append(row)
        book.save(path)
        self.assertEqual(psmax.Project.read(path, sheet="second")["dig"].duration, 4)
        with self.assertRaisesRegex(psmax.BadInput, "no sheet"):
            psmax.Project.read(path, sheet="third")
        with self.assertRaisesRegex(psmax.BadInput, "a spreadsheet file is read by its path"):
            psmax.Project.read(path.read_bytes())

    @unittest.skipIf(importlib.util.find_spec("openpyxl"), "openpyxl is here")
    def test_without_openpyxl(self) -> None:
        with self.assertRaisesRegex(psmax.Failed, "needs the package openpyxl: install python3-openpyxl"):
            psmax.Project.read(self.file("x.xlsx", b"PK\x03\x04"))


class Looks(InFolder):
    def test_rows(self) -> None:
        made = dated(WEEK)
        paint = made.activity("paint", 1)
        answer = made.solve(10, 1)
        free = {"dig": 0, "paint": 5, "lift": 0}
        none = psmax.Float(0, 0, True)
        rows = answer.rows({paint: psmax.Float(5, 5, True), made["dig"]: none, made["lift"]: none})
        heads = ["activity", "start", "end", "start_date", "end_date", "free_float", "float", "is_critical"]
        self.assertEqual([*rows[0]], heads)
        for head in ("float", "free_float"):
            self.assertEqual({row["activity"]: row[head] for row in rows}, free)
        dates = {row["activity"]: row["start_date"] for row in rows}
        self.assertEqual((dates["dig"], dates["lift"]), (MONDAY, datetime.date(2026, 3, 9)))
        self.assertEqual([*site()[0].solve(10, 1).rows()[0]], ["activity", "start", "end", "free_float"])
        with self.assertRaises(ValueError):
            made.solve(10, 1, frozen={"dig": 0, "lift": 0}).rows()

    def test_pictures(self) -> None:
        """SVG and HTML that a parser reads, with the names as they are."""
        made = dated(WEEK)
        made.activity("<b>\"paint\" & 'sand'</b>", 1)
        answer = made.solve(10, 1)
        found = xml.dom.minidom.parseString(answer.chart())
        texts = [one.firstChild.data for one in found.getElementsByTagName("text") if one.firstChild]
        self.assertTrue({"3 <b>\"paint\" & 'sand'</b>", "1 dig"} <= {*texts}, texts)
        none = made.solve(10, 1, frozen={"dig": 0, "lift": 0})
        for html in (made._repr_html_(), answer._repr_html_(), none._repr_html_()):
            xml.dom.minidom.parseString(f"<div>{html}</div>")

    def test_round_trip(self) -> None:
        """Of projects with all that the format has, and of answers; what contradicts the project is refused."""
        for name in ("hall.csv", "formats/bridge.json"):
            project = psmax.Project.read(EXAMPLES / name)
            told = project.to_dict()
            self.assertEqual(psmax.Project.from_dict(told).to_dict(), told)
            answer = project.solve(20, 2, record=False)
            self.assertEqual(psmax.Answer.from_dict(project, answer.to_dict()).to_dict(), answer.to_dict())
        made, *_ = site()
        told = made.solve(10, 1).to_dict()
        changes: list[tuple[dict[str, object], str]] = [
            ({"starts": {"dig": 0, "lift": 1}}, "not a schedule: lift must start at least 1 after dig ends, and starts "
             "2 before"),
            ({"status": "feasible"}, "by its starts and its bound it is 'optimal'")]
        for change, wanted in changes:
            with self.assertRaisesRegex(ValueError, wanted):
                psmax.Answer.from_dict(made, told | change)
