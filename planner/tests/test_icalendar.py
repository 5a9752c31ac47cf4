"""Calendars for phones: a new import moves what was there, and loses nothing."""
import datetime
import re
from collections.abc import Iterable

from psmax.planner.icalendar import calendar_text
from psmax.planner.project_file import open_project
from psmax.planner.settings import Settings

from .helpers import InFolder, plan

TABLE = "title,{}\nfrom,2026-03-26\nworkdays,mon-fri\n\nactivity,days,after\n{}Aushub,2,\nAbnahme,0,Aushub\n"
HOURS = ("ab;26.03.2026\nArbeitstage;Mo-Fr\nArbeitszeit;08:00-12:00,13:00-17:00\nZeitzone;Europe/Berlin\n\n"
         "Vorgang;Stunden;nach\nAushub;12;\nAbnahme;0;Aushub\nPflaster;8;Abnahme\n")
NOW = datetime.datetime(2026, 3, 1, 12, tzinfo=datetime.UTC)
# By hand: clocks in Berlin go forward on 29 March 2026 at 2, on 30 March 2025 at 2, and back on 26 October 2025 at 3.
CHANGES = (("DAYLIGHT", "20250330T020000", "+0100", "+0200", "CEST"),
           ("STANDARD", "20251026T030000", "+0200", "+0100", "CET"),
           ("DAYLIGHT", "20260329T020000", "+0100", "+0200", "CEST"))


class ICalendar(InFolder):
    def written(self, table: str, starts: Iterable[int], name: str = "p.csv", now: datetime.datetime = NOW) -> str:
        """The text in lines that are not folded."""
        path = self.folder / name
        path.parent.mkdir(exist_ok=True)
        path.write_text(table)
        return calendar_text(open_project(str(path), Settings()), (0, *starts), None, now).replace("\r\n ", "")

    def uids(self, text: str) -> dict[str, str]:
        """The UID of each event by its summary."""
        return {summary: uid for uid, summary in re.findall(r"UID:(\S+)\r\n(?:.*\r\n)*?SUMMARY:(.*)\r\n", text)}

    def test_identities(self) -> None:
        """A row on top, another file and another folder change no event; another project has other ones."""
        first = self.uids(self.written(TABLE.format("Halle", ""), (0, 2)))
        self.assertEqual((first.keys(), len({*first.values()})), ({"Aushub", "Abnahme"}, 2))
        more = self.uids(self.written(TABLE.format("Halle", "Einrichten,1,\n"), (0, 0, 2)))
        self.assertEqual({name: more[name] for name in first}, first)
        self.assertEqual(self.uids(self.written(TABLE.format("Halle", ""), (0, 2), "neu/kw12.csv")), first)
        self.assertTrue({*self.uids(self.written(TABLE.format("Turm", ""),
                                                 (0, 2))).values()}.isdisjoint(first.values()))
        alone = [self.uids(self.written(TABLE.replace("title,{}\n", "").format(""), (0, 2), name))
                 for name in ("a/p.csv", "b/p.csv", "a/q.csv", "a/p.csv")]
        self.assertEqual(len({one["Aushub"] for one in alone}), 3)

    def test_milestones(self) -> None:
        """A day has its end behind it; what takes no time has a start alone."""
        self.assertIn("DTSTART;VALUE=DATE:20260327\r\nDTEND;VALUE=DATE:20260328\r\nSUMMARY:Abnahme", self.written(
            TABLE.format("Halle", ""), (0, 2)))
        text = self.written(HOURS, (0, 12, 12))
        self.assertIn("DTSTART;TZID=Europe/Berlin:20260327T120000\r\nSUMMARY:Abnahme", text)
        self.assertIn("DTSTART;TZID=Europe/Berlin:20260327T130000\r\n"
                      "DTEND;TZID=Europe/Berlin:20260330T120000\r\nSUMMARY:P",
                      text)

    def test_the_time_zone(self) -> None:
        text = self.written(HOURS, (0, 12, 12))
        self.assertEqual((text.count("BEGIN:VTIMEZONE\r\nTZID:Europe/Berlin\r\n"), text.count("END:VTIMEZONE")), (1, 1))
        found = re.findall(r"BEGIN:(\w+)\r\nDTSTART:(\w+)\r\nTZOFFSETFROM:(\S+)\r\nTZOFFSETTO:(\S+)\r\nTZNAME:(\w+)",
                           text)
        self.assertEqual(tuple(found[1:]), CHANGES)
        self.assertEqual(found[0][2:], ("+0100", "+0100", "CET"))
        self.assertNotIn("TZID", self.written(HOURS.replace("Zeitzone;Europe/Berlin\n", ""), (0, 12, 12)))
        days = self.file("d.csv", "from,2026-03-26\nactivity,days\na,1\n")
        starts = self.file("a.csv", "name,start\na,0\n")
        self.refused(plan("write", days, starts, "--zone", "Mars"), 2, "zone Mars: no time zone")

    def test_what_comes_later(self) -> None:
        """Each writing has a later stamp and a greater number, by which a client takes it for the newer one."""
        both = [self.written(HOURS, (0, 12, 12), now=NOW + datetime.timedelta(seconds=more)) for more in (0, 90)]
        self.assertEqual([re.findall("DTSTAMP:(.*)\r\n", text)[0] for text in both],
                         ["20260301T120000Z", "20260301T120130Z"])
        numbers = [int(re.findall(r"SEQUENCE:(\d+)\r\n", text)[0]) for text in both]
        self.assertEqual(numbers[1] - numbers[0], 90)
        self.assertLess(numbers[1], 2 ** 31)
