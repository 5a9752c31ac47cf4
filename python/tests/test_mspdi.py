"""Microsoft Project's XML: read, planned, written back and read again; calendars for phones."""
import datetime
import re
from xml.etree import ElementTree

import psmax
from planner.tests.helpers import InFolder, plan
from psmax.formats import mspdi_text

from .test_formats import DATA

HALL = (DATA / "hall.xml").read_text()
# By hand, in periods of four hours: the hall's tasks start then in a shortest schedule, but for watch and paint.
STARTS = {"dig": 0, "pour": 4, "cure": 5, "lift & bolt": 9, "rails": 10, "hand over": 12}
MONDAY_OFF = "<WeekDays><WeekDay><DayType>2</DayType><DayWorking>0</DayWorking></WeekDay></WeekDays>"
MOVED = ("Start", "Finish", "LevelingDelay", "LevelingDelayFormat", "FinishDate")
LAUGHS = """<?xml version="1.0"?>
<!DOCTYPE Project [<!ENTITY a "ha"><!ENTITY b "&a;&a;&a;&a;">]>
<Project xmlns="http://schemas.microsoft.com/project"><Name>&b;</Name></Project>
"""


def names_and_texts(text: str, left_out: tuple[str, ...]) -> list[tuple[str, str]]:
    """Each element with what it holds, but for some."""
    root = ElementTree.fromstring(text)
    names = ((one.tag.rpartition("}")[2], (one.text or "").strip()) for one in root.iter())
    return [pair for pair in names if pair[0] not in left_out]


class Mspdi(InFolder):
    def test_by_hand(self) -> None:
        """Four links, a holiday on Friday, a constraint, a deadline, half done work and a crane that two tasks need."""
        hall = psmax.Project.read(HALL)
        self.assertEqual(hall.calendar, psmax.WorkTime("2026-03-02 08:00", "4 hours", "mon-fri",
                                                       (datetime.date(2026, 3, 6),), "08:00-12:00,13:00-17:00"))
        self.assertEqual([(one.name, one.capacity) for one in hall.resources], [("crew", 4), ("crane", 1)])
        answer = hall.solve(10, 1)
        self.assertEqual((answer.makespan, answer.status), (12, psmax.Status.OPTIMAL))
        self.assertEqual({name: answer[name].start for name in STARTS}, STARTS)
        self.assertEqual((hall["hand over"].due, answer["watch"].end >= 9), (16, True))
        self.assertIn(answer["paint"].start, (10, 11))

    def test_planned_and_read_again(self) -> None:
        """plan writes the starts into the file. All else stays, and it is the same project when it is read again."""
        path, best, planned = self.file("hall.xml", HALL), self.folder / "best.csv", self.folder / "planned.xml"
        self.assertEqual(plan("solve", path, "--jobs", "1", "--out", best).stdout.partition("\n")[0],
                         "optimal, ends Tue 2026-03-10 17:00 (48 hours)")
        self.assertEqual(plan("write", path, best, "--out", planned).returncode, 0)
        text = planned.read_text()
        self.assertEqual(names_and_texts(text, MOVED), names_and_texts(HALL, MOVED))
        self.assertEqual(psmax.Project.read(text).numbers(), psmax.Project.read(HALL).numbers())
        at = {name: (begins, ends) for name, begins, ends in re.findall(
            "<Name>(.*)</Name>.*\n *<Start>(.*)</Start><Finish>(.*)</Finish>", text)}
        self.assertEqual(at["lift &amp; bolt"], ("2026-03-09T13:00:00", "2026-03-09T17:00:00"))
        self.assertEqual(at["Foundations"], ("2026-03-02T08:00:00", "2026-03-09T12:00:00"))
        self.assertEqual(at["hand over"], ("2026-03-10T17:00:00", "2026-03-10T17:00:00"))
        self.assertEqual(plan("write", planned, best, "--out", self.folder / "again.xml").returncode, 0)
        self.assertEqual((self.folder / "again.xml").read_text(), text)
        self.refused(plan("write", path, best, "--out", path), 2, "which would be lost")
        self.refused(plan("write", path, best, "--out", self.file("own.xml", "mine")), 2,
                     "own.xml is there, and no XML")

    def test_a_delay(self) -> None:
        """What waits for a resource has a delay: paint on Tuesday, 19 hours behind Monday noon."""
        hall = psmax.Project.read(HALL)
        starts = STARTS | {"watch": 8, "paint": 10}
        schedule = hall.check(starts).schedule
        self.assertTrue(hall.check(starts))
        text = mspdi_text.replanned(HALL.encode(), schedule).decode()
        delays = re.findall("<LevelingDelay>(.*?)</LevelingDelay><LevelingDelayFormat>8<", text)
        self.assertEqual(delays, ["0"] * 5 + [f"{19 * 60 * 10}", "0"])
        for task in ElementTree.fromstring(text).iter("{http://schemas.microsoft.com/project}Task"):
            names = [one.tag.rpartition("}")[2] for one in task]
            if "LevelingDelay" in names and "PredecessorLink" in names:
                self.assertLess(names.index("LevelingDelay"), names.index("PredecessorLink"))

    def test_constraints(self) -> None:
        """Each kind, as a lag from the start of the project; the moment is one o'clock, where period 9 begins,
        behind the noon where period 8 ends."""
        for kind, wanted in (("2", (9, 9, False)), ("3", (9, 9, True)), ("4", (9, None, False)),
                             ("5", (None, 9, False)),
                             ("6", (10, None, True)), ("7", (None, 9, True))):
            text = HALL.replace("<ConstraintType>4</ConstraintType><ConstraintDate>2026-03-09T13",
                                f"<ConstraintType>{kind}</ConstraintType><ConstraintDate>2026-03-09T13")
            hall = psmax.Project.read(text)
            found = [lag for lag in hall.lags if lag.after.activity.name == "paint"]
            with self.subTest(kind):
                self.assertEqual([(lag.at_least, lag.at_most, lag.after.is_end) for lag in found], [wanted])

    def test_what_is_refused(self) -> None:
        deep = "<Project>" + "<a>" * 100 + "</a>" * 100 + "</Project>\n"
        for text, wanted in (
            (LAUGHS, "the XML has a document type"), (deep, "more than 64 levels"),
            ("<Project/>\n", "the project has no StartDate"),
            ("<Project xmlns='x'/>\n", "no project of Microsoft Project"),
            (HALL.replace("<LagFormat>7", "<LagFormat>8"), "'cure': a lag in elapsed time or in percent"),
            (HALL.replace("<DurationFormat>7", "<DurationFormat>8"), "'dig': a duration in elapsed time"),
            (HALL.replace("<PredecessorUID>3", "<PredecessorUID>99"), "'cure': a link to 99, which is no task"),
            (HALL.replace("<Name>paint</Name>", "<Name>paint</Name><CalendarUID>7</CalendarUID>"),
             "'paint': a calendar of"),
            (HALL.replace("<Name>inspection</Name><DayWorking>0", "<DayWorking>1"), "has an exception with work"),
            (HALL.replace("<Name>inspection</Name>", "<Type>2</Type>"), "has an exception that comes again and again"),
            (HALL.replace("<ToTime>17", "<ToTime>16", 1), "the days of the base calendar have different hours"),
            (HALL.replace("<BaseCalendarUID>1<", f"{MONDAY_OFF}<BaseCalendarUID>1<"),
             "'dig': it takes longer than all"),
            (HALL.replace("2026-03-20T17", "2926-03-20T17"),
             "'hand over': ConstraintDate is beyond the years 1900 to 2200"),
            (HALL.replace("</Tasks>", "</Task>"), "line 96, column 5: no XML: mismatched tag"),
        ):
            with self.subTest(wanted), self.assertRaises(psmax.BadInput) as caught:
                psmax.Project.read(text)
            self.assertIn(wanted, f"{caught.exception}")

    def test_parts_of_units(self) -> None:
        """Half a crane is counted in percent."""
        text = HALL.replace("<ResourceUID>2</ResourceUID><Units>1.00", "<ResourceUID>2</ResourceUID><Units>0.50")
        hall = psmax.Project.read(text)
        self.assertEqual([one.capacity for one in hall.resources], [400, 100])
        self.assertEqual(hall["paint"].demands[hall.resources[1]], 50)

    def test_calendar(self) -> None:
        """Events of all activities, or of those that need a resource; lines are short and end as they must."""
        path, best = self.file("hall.xml", HALL), self.folder / "best.csv"
        plan("solve", path, "--jobs", "1", "--out", best)
        self.assertEqual(plan("write", path, best, "--out", self.folder / "all.ics").returncode, 0)
        events = (self.folder / "all.ics").read_bytes().decode()
        self.assertEqual((events.count("BEGIN:VEVENT\r\n"), events.count("\n") - events.count("\r\n")), (8, 0))
        self.assertLessEqual(max(map(len, events.split("\r\n"))), 75)
        self.assertIn("DTSTART:20260309T130000\r\nDTEND:20260309T170000\r\nSUMMARY:lift & bolt\r\n"
                      "DESCRIPTION:2 crew\\, 1 crane\r\n", events)
        crane = self.folder / "crane.ics"
        self.assertEqual(plan("write", path, best, "--out", crane, "--resource", "crane").returncode, 0)
        self.assertEqual(crane.read_text().count("BEGIN:VEVENT"), 2)
        bridge = DATA / "bridge.json"
        plan("solve", bridge, "--jobs", "1", "--out", self.folder / "bridge.csv")
        self.assertEqual(plan("write", bridge, self.folder / "bridge.csv", "--out", self.folder / "b.ics").returncode,
                         0)
        self.assertIn("DTSTART;VALUE=DATE:20260318\r\nDTEND;VALUE=DATE:20260320\r\nSUMMARY:pave", (
            self.folder / "b.ics").read_bytes().decode())
        self.refused(plan("write", path, best, "--out", crane, "--resource", "lorry"), 2, "no resource 'lorry'")
        self.refused(plan("write", path, best, "--resource", "crane"), 2,
                     "--resource is for --daily, and for a calendar")
        self.refused(plan("write", path, best, "--out", self.file("x.ics", "mine")), 2,
                     "x.ics is there, and no calendar")
        self.refused(plan("write", bridge, self.folder / "bridge.csv", "--out", self.folder / "b.xml"), 2,
                     "no project of")
