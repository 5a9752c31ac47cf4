"""What other programs read of what plan writes, and write for it to read: GNOME Planner, TaskJuggler, khal and the
package icalendar. A test is left out where its program is missing."""
import functools
import os
import pathlib
import re
import shutil
import subprocess
import sys
import unittest

from .helpers import EXAMPLES, InFolder, plan

HALL = EXAMPLES / "formats" / "hall.xml"
STYLE = pathlib.Path("/usr/share/planner/stylesheets/msp2planner.xsl")  # with which GNOME Planner imports such files
CREW = ("title;Halle\nab;26.03.2026\nArbeitstage;Mo-Fr\nArbeitszeit;08:00-12:00,13:00-17:00\nZeitzone;Europe/Berlin\n\n"
        "Vorgang;Stunden;nach\n{}Aushub;12;\nAbnahme;0;Aushub\nPflaster;8;Abnahme\n")
# By hand: twelve hours from Thursday on end on Friday noon, and eight more on Monday noon, in summer time.
TIMES = [("Aushub", "2026-03-26 08:00", "2026-03-27 12:00"), ("Abnahme", "2026-03-27 12:00", ""),
         ("Pflaster", "2026-03-27 13:00", "2026-03-30 12:00")]
GROUPED = ("from,2026-03-02 06:00\nshift,00:00-24:00\nID,WBS,name,hours,Predecessors,crew (2)\n1,1,Unit A,,,\n"
           "2,1.1,dig,5,,1\n3,1.2,pour,3,\"2FS+2 h,2FS<9 h\",2\n")
KHAL = """[calendars]
[[plan]]
path = {0}/cal
[locale]
local_timezone = Europe/Berlin
default_timezone = Europe/Berlin
timeformat = %H:%M
dateformat = %Y-%m-%d
longdateformat = %Y-%m-%d
datetimeformat = %Y-%m-%d %H:%M
longdatetimeformat = %Y-%m-%d %H:%M
[sqlite]
path = {0}/khal.db
"""
EVENTS = """
import icalendar, sys
for event in icalendar.Calendar.from_ical(open(sys.argv[1], "rb").read()).walk("VEVENT"):
    begins, ends = event["DTSTART"].dt, event.get("DTEND")
    until = ends.dt.isoformat() if ends else ""
    print(event["UID"], event["SUMMARY"], begins.isoformat(), until, int(event["SEQUENCE"]) > 0)
"""
# By hand: three days of work, two, and two more, from 09:00 on, since TaskJuggler writes the time of Berlin an hour
# late.
JUGGLED = """project hall "Hall" 2026-03-02-08:00 +2m {
  timezone "Europe/Berlin"
  now 2026-03-02-08:00
  workinghours mon - fri 8:00 - 12:00, 13:00 - 17:00
  workinghours sat, sun off
}
resource crew "Crew"
task all "All" {
  task dig "Dig" { effort 3d allocate crew }
  task pour "Pour" { effort 2d allocate crew depends !dig }
  task lift "Lift" { length 2d depends !pour }
  task done "Done" { milestone depends !lift }
}
export "out" { formats mspxml }
"""


@functools.cache
def with_icalendar() -> str | None:
    """A Python that has the package, which may be that of the system alone."""
    pythons = [sys.executable, "/usr/bin/python3"]
    return next((one for one in pythons if os.path.exists(one)
                 and subprocess.run([one, "-c", "import icalendar"], capture_output=True).returncode == 0), None)


class Clients(InFolder):
    def ran(self, *words: object) -> str:
        ran = subprocess.run([*map(str, words)], cwd=self.folder, capture_output=True, text=True, timeout=120,
                             env={**os.environ, "LC_ALL": "C.UTF-8"})
        self.assertEqual(ran.returncode, 0, ran.stderr)
        return ran.stdout

    def calendar(self, first: str = "") -> pathlib.Path:
        """The crew's calendar, with a row on top."""
        table, best, out = self.file("crew.csv", CREW.format(first)), self.folder / "best.csv", self.folder / "crew.ics"
        best.unlink(missing_ok=True)
        self.assertEqual(plan("solve", table, "--jobs", "1", "--out", best).returncode, 0)
        self.assertEqual(plan("write", table, best, "--out", out).returncode, 0)
        return out

    @unittest.skipUnless(shutil.which("khal"), "khal isn't here")
    def test_khal(self) -> None:
        """What is imported again moves what was there."""
        words = ("khal", "-c", self.file("khal.conf", KHAL.format(self.folder)))
        (self.folder / "cal").mkdir()
        for first, most in (("", 3), ("Einrichten;4;\n", 4)):
            self.ran(*words, "import", "--batch", "-a", "plan", self.calendar(first))
            self.assertEqual(len([*(self.folder / "cal").iterdir()]), most)
        shown = {*self.ran(*words, "list", "2026-03-26", "5d", "--format", "{title}|{start}|{end}").splitlines()}
        for title, begins, ends in TIMES:
            self.assertTrue([line for line in shown if line.startswith(f"{title}|{begins}|{ends}")], shown)

    @unittest.skipUnless(with_icalendar(), "the package icalendar isn't here: install python3-icalendar")
    def test_icalendar(self) -> None:
        found = [line.split(" ") for line in self.ran(with_icalendar(), "-c", EVENTS, self.calendar()).splitlines()]
        zones = ("+01:00", "+01:00", "+02:00")  # at the ends
        self.assertEqual([row[1:] for row in found], [
            [title, f"{begins.replace(' ', 'T')}:00+01:00", ends and f"{ends.replace(' ', 'T')}:00{zone}", "True"]
            for (title, begins, ends), zone in zip(TIMES, zones)])
        self.assertEqual(len({row[0] for row in found}), 3)

    @unittest.skipUnless(shutil.which("xsltproc") and STYLE.exists(),
                         "xsltproc or GNOME Planner isn't here: install planner")
    def test_gnome_planner(self) -> None:
        """Its importer has the tasks with the starts of the schedule, their links and what they need."""
        path = self.file("hall.xml", HALL.read_text())
        best, planned = self.folder / "best.csv", self.folder / "planned.xml"
        self.assertEqual(plan("solve", path, "--jobs", "1", "--out", best).returncode, 0)
        self.assertEqual(plan("write", path, best, "--out", planned).returncode, 0)
        text = self.ran("xsltproc", STYLE, planned)
        rows = re.findall(r'<task id.* name="(.*?)".* start="(.*?)" end="(.*?)"', text)
        found = {name: (start, end) for name, start, end in rows}
        self.assertEqual(found["lift &amp; bolt"], ("20260309T130000Z", "20260309T170000Z"))
        self.assertEqual(found["hand over"], ("20260310T170000Z", "20260310T170000Z"))
        self.assertIn('predecessor-id="5" type="FF" lag="28800"', text)
        self.assertIn('<allocation task-id="5" resource-id="2" units="100"/>', text)

    @unittest.skipUnless(shutil.which("xsltproc") and STYLE.exists(),
                         "xsltproc or GNOME Planner isn't here: install planner")
    def test_a_table_in_gnome_planner(self) -> None:
        """Its importer has the groups with their activities, the links with their lags and the notes of a table."""
        table, made = self.file("t.csv", GROUPED), self.folder / "t.xml"
        self.assertEqual(plan("read", table, "--out", made).returncode, 0)
        text = self.ran("xsltproc", STYLE, made)
        rows = re.findall(r'<(/?)task(?: id=.*? name="(.*?)" note="(.*?)")?', text)
        self.assertEqual([("</" if end else name, note) for end, name, note in rows if name or end], [
            ("Unit A", ""), ("dig", ""), ("</", ""), ("pour", "Starts at most 9 h of work after dig ends."), ("</", ""),
            ("</", ""), ("</", "")])
        self.assertIn('predecessor-id="2" type="FS" lag="7200"', text)

    @unittest.skipUnless(shutil.which("tj3"), "tj3 isn't here")
    def test_taskjuggler(self) -> None:
        """Its tasks have no Duration, but a start and a finish, and stay where it has planned them."""
        self.ran("tj3", "-o", self.folder, self.file("t.tjp", JUGGLED))
        best = self.folder / "best.csv"
        self.assertEqual(plan("solve", self.folder / "out.xml", "--jobs", "1", "--out", best).returncode, 0)
        rows = [line.split(",")[1:] for line in plan("write", self.folder / "out.xml", best).stdout.splitlines()[1:]]
        self.assertEqual(rows, [["Dig", "0", "24", "24", "2026-03-02 09:00", "2026-03-05 09:00"],
                                ["Pour", "24", "16", "40", "2026-03-05 09:00", "2026-03-09 09:00"],
                                ["Lift", "40", "16", "56", "2026-03-09 09:00", "2026-03-11 09:00"],
                                ["Done", "56", "0", "56", "2026-03-11 09:00", "2026-03-11 09:00"]])
