"""`plan write --daily`: what each crew does on each day."""
import html
import re

from .helpers import InFolder, plan

SITE = "from,2026-04-02\nworkdays,mon-fri\nabsences,away.csv\nactivity,days,crew (3),crane (1),after\n"
HOURS = ("from,2026-04-02\nperiod,hours\nshift,\"07:00-12:00,13:00-16:00\"\nworkdays,mon-fri\n"
         "activity,hours,crew (3),after\n")
BEGUN = "from,2026-04-02\nworkdays,mon-fri\nstatus,2026-04-03\nactivity,days,crew (3),after,started,finished\n"
NIGHT = "from,2026-04-02 20:00\nperiod,hours\nactivity,hours,crew (3),after\n"
AWAY = "resource,from,to,units\ncrew,2026-04-03,2026-04-06,1\n"

# A table, starts, and the sheets: each day with its crews, and what each does; by hand. 2026-04-02 is a Thursday.
SHEETS: list[tuple[str, str, str, list[str]]] = [
    ("over a weekend, with one of the crew away", SITE + "dig <b>,1,2,,\nlift,3,1,1,dig <b>\nhand over,0,,,lift\n",
     "dig <b>,0\nlift,1\nhand over,4\n", [
         "Thursday 2026-04-02, CW 14", "crew (3)", "1 dig <b>|2",
         "Friday 2026-04-03, CW 14", "crew (3)", "1 away", "2 lift|1|until Tue 04-07",
         "crane (1)", "2 lift|1|until Tue 04-07",
         "Monday 2026-04-06, CW 15", "crew (3)", "1 away", "2 lift|1|since Fri 04-03, until Tue 04-07",
         "crane (1)", "2 lift|1|since Fri 04-03, until Tue 04-07",
         "Tuesday 2026-04-07, CW 15", "crew (3)", "2 lift|1|since Fri 04-03", "crane (1)", "2 lift|1|since Fri 04-03",
         "Without a resource", "3 hand over"]),
    ("with hours", HOURS + "a,6,1,\nb,6,2,a\n", "a,0\nb,6\n", [
        "Thursday 2026-04-02, CW 14", "crew (3)", "07:00 \u2013 14:00|1 a|1",
        "14:00 \u2013 16:00|2 b|2|until Fri 04-03 11:00",
        "Friday 2026-04-03, CW 14", "crew (3)", "07:00 \u2013 11:00|2 b|2|since Thu 04-02 14:00"]),
    ("over midnight", NIGHT + "a,6,1,\nb,0,,a\n", "a,0\nb,6\n", [
        "Thursday 2026-04-02, CW 14", "crew (3)", "20:00 \u2013 24:00|1 a|1|until Fri 04-03 02:00",
        "Friday 2026-04-03, CW 14", "crew (3)", "00:00 \u2013 02:00|1 a|1|since Thu 04-02 20:00",
        "Without a resource", "02:00|2 b"]),
    ("from the status date on", BEGUN + "a,1,2,,2026-04-02,2026-04-02\nb,1,1,a,,\n", "a,0\nb,1\n",
     ["Friday 2026-04-03, CW 14", "crew (3)", "2 b|1"]),
    ("at the end", BEGUN + "a,1,2,,2026-04-02,2026-04-02\n", "a,0\n", ["Nothing is left to do."]),
]


class Daily(InFolder):
    def sheets(self, table: str, starts: str, *words: object) -> list[str]:
        self.file("away.csv", AWAY)
        answer, out = self.file("a.csv", f"name,start\n{starts}"), self.folder / "day.html"
        ran = plan("write", self.file("p.csv", table), answer, "--daily", "--out", out, *words)
        self.assertEqual((ran.returncode, ran.stderr), (0, ""))
        found = []
        for tag, text in re.findall("<(h1|h2|p|tr)[^>]*>(.*?)</\\1>", out.read_text().replace("\u2610", "")):
            cells = [html.unescape(re.sub("<.*?>", "", cell)) for cell in text.split("</td><td>")]
            found += ["|".join(filter(None, cells))] if "<th>" not in text else []
        return found

    def test_by_hand(self) -> None:
        for name, table, starts, sheets in SHEETS:
            with self.subTest(name):
                self.assertEqual(self.sheets(table, starts), sheets)

    def test_one_crew(self) -> None:
        _, table, starts, _ = SHEETS[0]
        told = self.sheets(table, starts, "--resource", "crane")
        self.assertEqual([line for line in told if "CW" not in line and "lift" not in line], ["crane (1)"] * 3)
        self.refused(plan("write", self.folder / "p.csv", self.folder / "a.csv", "--daily", "--resource", "x"), 2,
                     "no resource 'x'")

    def test_a_page_for_a_day(self) -> None:
        """And no page but for days with work; a name is text."""
        self.sheets(*SHEETS[0][1:3])
        page = (self.folder / "day.html").read_text()
        self.assertEqual((page.count("<section>"), page.count("<h1")), (4, 4))
        self.assertIn("section + section { break-before: page }", page)
        self.assertNotIn("<b>", page)

    def test_refused(self) -> None:
        table, answer = self.file("p.csv", "activity,days\na,1\n"), self.file("a.csv", "name,start\na,0\n")
        self.refused(plan("write", table, answer, "--daily"), 2, "a daily list needs dates")
        weeks = self.file("w.csv", "from,2026-04-02\nactivity,weeks\na,1\n")
        self.refused(plan("write", weeks, answer, "--daily"), 2, "periods of a day or less")
        self.refused(plan("write", table, answer, "--daily", "--out", self.folder / "x.csv"), 2, "names with .html")
        other = self.file("other.html", "notes\n")
        dated = table, answer, "--from", "2026-04-02"
        self.refused(plan("write", *dated, "--daily", "--out", other), 2, "no page of HTML")
