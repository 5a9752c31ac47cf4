"""Words that a planner reads: none that only those know who wrote psprove; and what is not known yet is said so."""
import pathlib
import re

from psmax.planner.page import Page, View
from psmax.planner.project_file import open_project

from .helpers import TOP, InFolder, plan
from .watching import Watching, done

# By hand: 3 and 4 days on one crane take 7. A rest of one day may be anywhere, so it has a total float of 6 days.
GERMAN = "from;02.03.2026;\nactivity;days;Kran (1)\nheben;3;1\nsetzen;4;1\nwarten;1;\n"
ENGLISH = "activity,days,crane (1)\nlift,3,1\nset,4,1\nwait,1,\n"
STRANGE = re.compile(r"\bbooks?\b|\bdives?\b|\bevents? \d|\btoo, alone\b", re.I)
GLOSSARY = ("baseline", "critical path", "deadline", "elapsed", "night shift", "overlap")


class WordsOfPlan(InFolder):
    def test_nothing_strange(self) -> None:
        """In progress, reports, and on the page of a watch; a wrong record is told without them too."""
        for text in (GERMAN, ENGLISH):
            table, answer = self.file("t.csv", text), self.folder / "a.csv"
            record, page = self.folder / "a.rec", self.folder / "a.html"
            told = plan("solve", table, "--out", answer, "--record", record, "--jobs", "1").stderr
            plan("report", table, answer, "--record", record, "--out", page, "--jobs", "1")
            shown = page.read_text().partition("<script")[0]
            self.assertLess(shown.index("in use"), shown.index("SHA-256"))
            self.assertEqual(shown.count("SHA-256"), 1)
            with Watching(table) as watch:
                state = watch.until(done("optimal"))
            told += plan("verify", table, self.file("bad.rec", b"record 3\n\x02\x07\x10")).stdout
            for name, said in (("told", told), ("page", shown), ("watch", f"{state['parts']} {state['line']}")):
                self.assertIsNone(STRANGE.search(said), name)
            for path in (answer, record, page):
                path.unlink()

    def test_glossary(self) -> None:
        """Each word of planning has a row that links to where it is."""
        text = (TOP / "docs" / "PLANNER.md").read_text()
        rows = {row.split(" | ")[0].removeprefix("| "): row for row in text.splitlines() if row.count(" | ") == 1}
        for word in GLOSSARY:
            self.assertIn("](#", rows.get(word, ""), word)


class NotKnownYet(InFolder):
    def page(self, text: str) -> Page:
        """Of a plan whose floats are not proved."""
        opened = open_project(str(self.file("t.csv", text)))
        return Page(View(opened, (0, 0, 3, 0, 7), "", True))

    def test_until_floats_are_proved(self) -> None:
        """Bars, their words, figures and the table say so, and nothing says that none is critical."""
        for text in (GERMAN, ENGLISH):
            page = self.page(text)
            lines, facts = "".join(row for _, row in page.tables()["lines"]), page.parts()["facts"]
            self.assertEqual((lines.count('class="unknown"'), lines.count('class="bar"')), (3, 0))
            self.assertEqual(lines.count("total float not known yet"), 3)
            self.assertIn("<b>3</b>total float not known yet", facts)
            self.assertNotIn("critical", facts)
            self.assertEqual("".join(row for _, row in page.tables()["rows"]).count(">not known yet<"), 3)

    def test_legend(self) -> None:
        page = (pathlib.Path(TOP) / "python" / "psmax" / "planner" / "page.html").read_text()
        self.assertIn('<i class="unknown"></i>total float not known yet', page)

    def test_once_they_are(self) -> None:
        """By hand: of lifting and setting the second one is critical; the first may be second, and waiting may end with
        all."""
        table, answer, page = self.file("t.csv", ENGLISH), self.folder / "a.csv", self.folder / "a.html"
        plan("solve", table, "--out", answer, "--jobs", "1")
        self.assertEqual(plan("report", table, answer, "--out", page, "--jobs", "1").returncode, 0)
        shown = page.read_text().partition('id="chart"')[2]
        self.assertEqual([shown.count(f'class="{kind}"') for kind in ("critical", "bar", "unknown")], [1, 2, 0])
