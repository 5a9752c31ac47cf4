"""Primavera's .xer: read, planned, written back and read again, and what of it is refused by name."""
import unittest
from collections.abc import Callable

import psmax
from planner.tests.helpers import InFolder, plan
from psmax.formats import xer_text
from psmax.formats.xer_calendar import calendar_data

from .test_formats import DATA

HALL = (DATA / "hall.xer").read_text()
XML = psmax.Project.read(DATA / "hall.xml")
STARTS = {"dig": 0, "pour": 4, "cure": 5, "lift & bolt": 9, "rails": 10, "watch": 8, "paint": 10, "hand over": 12}
USUAL = "08:00-12:00,13:00-17:00"
NIGHTS, MORNINGS, THREE_DAYS, FRIDAYS = (
    f"%R\t11\tN\t{name}\t\t\t\tCA_Base\t4\t20\t\t\tN\t{calendar_data(days, shift, ())}\n" for name, days, shift in (
        ("Nights", "mon-fri", "18:00-22:00"), ("Mornings", "mon-thu", "08:00-12:00"), ("Three", "mon-wed", USUAL),
        ("Fridays", "thu,fri", USUAL)))


def put(table: str, name: str, column: str, value: str, text: str = HALL) -> str:
    """The text with another cell in the rows of a table that have a cell of this name."""
    lines, columns, own = text.split("\n"), list[str](), ""
    for place, line in enumerate(lines):
        mark, *cells = line.split("\t")
        own = cells[0] if mark == "%T" else own
        columns = cells if mark == "%F" else columns
        if mark == "%R" and own == table and name in cells:
            cells[columns.index(column)] = value
            lines[place] = "\t".join([mark, *cells])
    return "\n".join(lines)


def add(table: str, row: str, text: str = HALL) -> str:
    """The text with one more row of a table, below the names of its columns."""
    begin = text.index("%F", text.index(f"%T\t{table}\n"))
    end = text.index("\n", begin) + 1
    return text[:end] + row + text[end:]


def lags(made: psmax.Project, name: str) -> set[tuple[str, bool, bool, int | None, int | None]]:
    """Those to an activity: from which, from its end, to the end, at least and at most."""
    return {(lag.before.activity.name, lag.before.is_end, lag.after.is_end, lag.at_least, lag.at_most)
            for lag in made.lags if lag.after.activity.name == name}


class Read(unittest.TestCase):
    """By hand, in periods of four hours: half a day."""

    def test_the_same_as_xml(self) -> None:
        """The hall is the same project as that of Microsoft Project, but for the data date."""
        hall = psmax.Project.read(HALL)
        self.assertEqual((hall.calendar, hall.name), (XML.calendar, "A hall"))
        own, other = (sorted(f"{one.name} {one.duration} {[(need.name, units) for need, units in one.demands.items()]}"
                             for one in made.activities) for made in (hall, XML))
        self.assertEqual(own, other)
        self.assertEqual([(one.name, one.capacity) for one in hall.resources], [("crew", 4), ("crane", 1)])
        self.assertEqual(hall.ids[4], "A1040")
        self.assertEqual(lags(hall, "dig"), {("", False, False, 0, 0)})
        self.assertEqual(lags(hall, "cure"), {("pour", False, False, 1, None), ("", False, False, 2, None)})
        self.assertEqual(lags(hall, "rails"), {("lift & bolt", True, True, 2, None), ("", False, False, 2, None)})
        self.assertEqual(lags(hall, "watch"), {("lift & bolt", False, True, 0, None), ("", False, False, 2, None)})
        self.assertEqual({one.due for one in hall.activities}, {16})

    def test_signs(self) -> None:
        """Lines that end as in DOS, code page 1252, decimal commas, and texts of other tables over several lines."""
        odd = put("TASK", "A1010", "task_name", "dig f\u00fcr", HALL.replace("\t3.75", "\t3,75"))
        odd = odd.replace("%T\tTASKACTV", "%T\tTASKMEMO\n%F\tmemo\n%R\tone\ntwo\n%T\tTASKACTV").replace("\n", "\r\n")
        hall = psmax.Project.read(odd.replace("\u20ac", "EUR").encode("cp1252"))
        self.assertEqual(hall["dig f\u00fcr"].duration, 4)

    def test_progress(self) -> None:
        """What is complete stays and needs nothing; what has started goes on from the data date for what remains."""
        text = put("TASK", "A1010", "act_end_date", "2026-03-03 15:20")
        text = put("TASK", "A1010", "status_code", "TK_Complete", text)
        text = put("TASK", "A1020", "act_start_date", "2026-03-04 08:00", text)
        text = put("TASK", "A1020", "status_code", "TK_Active", text)
        hall = psmax.Project.read(put("PROJECT", "HALL", "last_recalc_date", "2026-03-04 13:00", text))
        self.assertEqual((hall["dig"].duration, dict(hall["dig"].demands), lags(hall, "dig")),
                         (4, {}, {("", False, False, 0, 0)}))
        self.assertEqual((hall["pour"].duration, lags(hall, "pour")), (3, {("", False, False, 4, 4)}))
        early = put("TASK", "A1010", "act_start_date", "2026-02-27 08:00")
        self.assertEqual(psmax.Project.read(early)["dig"].duration, 6)

    def test_units(self) -> None:
        """By hour, or else work by hours; an assignment without work left needs nothing."""
        for column, value, wanted in (("remain_qty_per_hr", "", {"crew": 1}), ("remain_qty", "0", {}),
                                      ("remain_qty", "", {"crew": 1})):
            text = put("TASKRSRC", "1005", "target_qty_per_hr", "")
            hall = psmax.Project.read(put("TASKRSRC", "1005", column, value, text))
            with self.subTest(column, value=value):
                self.assertEqual({one.name: units for one, units in hall["rails"].demands.items()}, wanted)
        hall = psmax.Project.read(put("TASKRSRC", "1005", "remain_qty_per_hr", "1.5",
                                      put("TASKRSRC", "1005", "remain_qty", "12")))
        self.assertEqual([one.capacity for one in hall.resources], [400, 100])

    def test_constraints(self) -> None:
        """Each kind; the moment is one o'clock, where period 9 begins, behind the noon where period 8 ends."""
        for kind, wanted in (("CS_MSO", (False, 9, 9)), ("CS_MANDSTART", (False, 9, 9)), ("CS_MSOA", (False, 9, None)),
                             ("CS_MSOB", (False, None, 9)), ("CS_MEO", (True, 9, 9)), ("CS_MANDFIN", (True, 9, 9)),
                             ("CS_MEOA", (True, 10, None)), ("CS_MEOB", (True, None, 9)), ("CS_ALAP", None)):
            hall = psmax.Project.read(put("TASK", "A1070", "cstr_type", kind))
            with self.subTest(kind):
                found = lags(hall, "paint") - {("", False, False, 2, None)}
                self.assertEqual(found, set() if wanted is None else {("", False, *wanted)})
        both = put("TASK", "A1070", "cstr_type2", "CS_MEOB", put("TASK", "A1070", "cstr_date2", "2026-03-10 17:00"))
        self.assertIn(("", False, True, None, 12), lags(psmax.Project.read(both), "paint"))

    def test_periods(self) -> None:
        """A period divides the hours of a constraint; work may go round the clock; a crew may grow on a day."""
        hall = psmax.Project.read(put("TASK", "A1070", "cstr_date", "2026-03-09 14:30"))
        self.assertEqual(hall.calendar and hall.calendar.period, "30 minutes")
        plain = calendar_data("mon-sun", "00:00-12:00,12:00-24:00", ())
        hall = psmax.Project.read(put("CALENDAR", "Standard", "clndr_data", plain))
        self.assertEqual(hall.calendar and (hall.calendar.workdays, hall.calendar.shift), ("mon-sun", "00:00-24:00"))
        hall = psmax.Project.read(add("RSRCRATE", "%R\t413\t400\t6\t\t2026-03-05 08:00\n"))
        self.assertEqual([(one.begins, one.ends, one.units) for one in hall.absences], [(0, 6, 2)])

    def test_hours_of_a_resource(self) -> None:
        """The crew works on other days than the activities, and all that need it depend on it. By hand, in half days:
        Monday to Wednesday is there until 6, and again from 8 on, since Friday of the first week is off; mornings alone
        are too short."""
        text = put("RSRC", "crew", "clndr_id", "11")
        for name in ("A1010", "A1020", "A1040", "A1050", "A1060"):
            text = put("TASK", name, "task_type", "TT_Rsrc", text)
        hall = psmax.Project.read(add("CALENDAR", THREE_DAYS, text))
        [(one, hours)] = hall.hours.items()
        self.assertEqual((one.name, hours.text), ("crew", "mon,tue,wed 08:00-12:00,13:00-17:00"))
        self.assertEqual([(off.begins, off.ends) for off in hall.numbers().off[:2]], [(6, 8), (14, 18)])
        self.assertEqual(psmax.Project.read(hall.text("json")).numbers().off, hall.numbers().off)
        for calendar, told in ((MORNINGS, "A1020 'pour': it takes longer than all that it needs is there at a time"),
                               (FRIDAYS, "resource 'crew' works in the calendar 'Fridays', which has other days off")):
            with self.subTest(told), self.assertRaises(psmax.BadInput) as caught:
                psmax.Project.read(add("CALENDAR", calendar, text))
            self.assertIn(told, f"{caught.exception}")

    def test_what_is_refused(self) -> None:
        """All faults of a file at once, each by the name of what has it."""
        nights = add("CALENDAR", NIGHTS)
        late, friday = "2026-03-20 08:00", calendar_data("mon-thu", "08:00-12:00", ())
        mixed = friday.replace("(0||6()())", "(0||6()((0||0(s|08:00|f|11:00)())))")
        for text, *wanted in (
            (HALL.replace("%E\n", ""), "no %E at its end"),
            (put("PROJECT", "HALL", "last_recalc_date", "soon"), "last_recalc_date is no date such as 2026-03-02"),
            (add("PROJECT", "%R\t101\t10\tOTHER\tY\t\t\t\t\n"), "2 projects (OTHER, HALL)"),
            (put("TASK", "A1030", "clndr_id", "11", nights), "activity A1030 'cure': it has the calendar 'Nights'"),
            (put("RSRC", "crew", "clndr_id", "11", nights), "A1010 'dig': it needs resource 'crew' in the act"),
            (put("CALENDAR", "Standard", "clndr_data", mixed), "calendar 'Standard': its days have different hours"),
            (put("CALENDAR", "Standard", "clndr_data", friday[:-2]), "its clndr_data is cut off"),
            (put("TASKPRED", "PR_SS", "pred_task_id", "77"), "a link from an activity of another project"),
            (HALL.replace("rcal_Predecessor", "rcal_24Hour"), "'cure': a link with a lag, and 1 more, which"),
            (put("TASK", "A1020", "act_start_date", "2026-03-02 08:00"), "A1020 'pour': it has started although its"),
            (put("TASK", "A1010", "act_start_date", late), "behind the data date 2026-03-03 08:00"),
            (put("TASK", "A1010", "suspend_date", "2026-03-03 08:00"), "A1010 'dig': it is suspended"),
            (put("TASK", "A1030", "expect_end_date", late, put("TASKRSRC", "1004", "curv_id", "7")),
             "its assignment of resource 'crew' has a curve", "its assignment of resource 'crane' has a curve",
             "A1030 'cure': an expected finish"),
            (put("TASKRSRC", "1005", "remain_qty_per_hr", "2"), "another time than the activity: 8 hours of work by 2"),
            (put("TASKRSRC", "1005", "relag_drtn_hr_cnt", "2"), "'crew' begins later than the activity"),
            (put("TASKRSRC", "1005", "task_id", "1009"), "A1090 'supervision': it needs resource 'crew'"),
            (put("RSRCRATE", "400", "max_qty_per_hr", ""), "resource 'crew': it has no greatest number of units"),
        ):
            with self.subTest(wanted[0]), self.assertRaises(psmax.BadInput) as caught:
                psmax.Project.read(text)
            self.assertEqual(len(caught.exception.args), len(wanted), caught.exception)
            for one in wanted:
                self.assertIn(one, f"{caught.exception}")

    def test_what_cannot_be_written(self) -> None:
        changes: list[Callable[[psmax.Project], object]] = [
            lambda made: made.lag(made["dig"].end, made["pour"].start, at_most=3),
            lambda made: made.activity("late", 1, due=3), lambda made: made.absence(made.resources[0], 1),
            lambda made: made.lag(made.start, made["pour"].end, at_least=0),
            lambda made: made.lag(made.start, made["dig"].end, at_least=0, at_most=0)]
        for change in changes:
            hall = psmax.Project.read(HALL)
            change(hall)
            with self.assertRaisesRegex(psmax.BadInput, "Primavera has no maximum lags"):
                hall.text("xer")


class Written(InFolder):
    def test_dates_alone(self) -> None:
        """Dates of what has not started, and the end; all else stays, byte for byte, also what is in code page 1252."""
        data = HALL.replace("west", "S\u00fcd").replace("\u20ac", "EUR").replace("\n", "\r\n").encode("cp1252")
        hall = psmax.Project.read(data)
        checked = hall.check(STARTS)
        self.assertTrue(checked)
        planned = xer_text.replanned(data, checked.schedule)
        notes = b"%T\tNOTE\n%F\tnote_id\ttask_id\r\n%R\t1\r\n%R\n%X\todd\r\n\r\n\n\n%T\tTASKNOTE\n%R\t\t\n"
        begin, end = data[: data.index(b"%T")], data[data.index(b"%T") :]
        behind = data[data.index(b"%T\tTASK\r") : data.index(b"%E")]
        self.assertEqual(xer_text.replanned(begin + notes + end + behind, checked.schedule),
                         planned.replace(begin, begin + notes, 1) + behind)
        lines = zip(data.split(b"\n"), planned.split(b"\n"), strict=True)
        pairs = [(old.split(b"\t"), new.split(b"\t")) for old, new in lines]
        moved = {new[8] for old, new in pairs if old != new and b"TK_NotStart" in new}
        self.assertEqual(moved, {one.name.encode() for one in hall.activities} - {b"dig"})
        for old, new in pairs:
            self.assertEqual(len(old), len(new))
            self.assertLessEqual({cell[:5] for cell, other in zip(new, old) if cell != other}, {b"2026-"})
        self.assertIn(b"\t2026-03-09 13:00\t2026-03-09 17:00\t2026-03-03 08:00\t", planned)
        again = psmax.Project.read(planned)
        self.assertEqual(again.numbers(), hall.numbers())
        self.assertEqual(xer_text.replanned(planned, again.check(STARTS).schedule), planned)

    def test_plan(self) -> None:
        """plan solves it, calls activities by their IDs, and writes the dates."""
        path, best, planned = DATA / "hall.xer", self.folder / "best.csv", self.folder / "planned.xer"
        self.assertEqual(plan("solve", path, "--jobs", "1", "--out", best).stdout.partition("\n")[0],
                         "optimal, ends Tue 2026-03-10 17:00 (48 hours)")
        self.assertEqual(plan("write", path, best, "--out", planned).returncode, 0)
        self.assertIn("A1040,lift & bolt,9,1,10,2026-03-09 13:00,2026-03-09 17:00", plan("write", planned, best).stdout)
        self.refused(plan("write", path, best, "--out", self.file("own.xer", "mine")), 2, "own.xer is there, and no")
        self.refused(plan("write", DATA / "hall.xml", best, "--out", planned), 2, "hall.xml is no project of Primavera")
