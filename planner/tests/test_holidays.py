"""Days without work: public holidays by the package `holidays`, and files with names, ranges and codes."""
import importlib.util
import sys
import unittest
from unittest import mock

from .browser import DEBIAN
from .helpers import InFolder, plan

# Of Bavaria in 2026, by its law on holidays; Easter is on 5 April. Those that fall on Monday to Friday until 4 June.
BAVARIA = ("Thu 2026-01-01", "Tue 2026-01-06", "Fri 2026-04-03", "Mon 2026-04-06", "Fri 2026-05-01", "Thu 2026-05-14",
           "Mon 2026-05-25", "Thu 2026-06-04")
TABLE = "from,2026-04-01\nworkdays,mon-fri\nholidays,{}\nactivity,days\na,2\nb,30\n"


def is_here() -> bool:
    if importlib.util.find_spec("holidays") is None and DEBIAN not in sys.path:
        sys.path.append(DEBIAN)
    return importlib.util.find_spec("holidays") is not None


class Holidays(InFolder):
    def told(self, days: str, *words: object) -> list[str]:
        ran = plan("check", self.file("p.csv", TABLE.format(days)), *words)
        self.assertEqual(ran.returncode, 0, ran.stderr)
        lines = ran.stdout.splitlines()
        place = lines.index("holidays of the first year:")
        return [line.strip() for line in lines[place + 1 :] if line.startswith("  ")]

    @unittest.skipUnless(is_here(), "python3-holidays isn't here")
    def test_of_bavaria(self) -> None:
        """By hand: 2 days of work from Wednesday 1 April to Easter, 4 behind it, 5, 5, 4 before May Day, 5, 3 before
        Ascension and 1 behind it are 29, and Monday 18 May is the thirtieth."""
        told = [line[:14] for line in self.told("DE-BY", "--from", "2025-12-31")]
        self.assertEqual([day for day in told if day[:3] not in ("Sat", "Sun")][: len(BAVARIA)], [*BAVARIA])
        ran = plan("solve", self.folder / "p.csv")
        self.assertIn(", Mon-Fri, holidays of DE-BY;", ran.stderr)
        self.assertIn("optimal, ends Mon 2026-05-18 (30 days)", ran.stderr)

    @unittest.skipUnless(is_here(), "python3-holidays isn't here")
    def test_of_a_part(self) -> None:
        """Epiphany is a holiday in Bavaria, and none in Berlin; there 8 March is one."""
        for code, is_free, is_women_s in (("DE-BY", True, False), ("DE-BE", False, True)):
            days = " ".join(self.told(code, "--from", "2026-01-01"))
            self.assertEqual(("2026-01-06" in days, "2026-03-08" in days), (is_free, is_women_s), code)

    @unittest.skipUnless(is_here(), "python3-holidays isn't here")
    def test_codes_that_are_none(self) -> None:
        for code, told in (("XX", "holidays XX: the package holidays knows no country XX"),
                           ("DE-XX", "holidays DE-XX: DE has no part XX, but BW, BY, ")):
            self.refused(plan("solve", self.file("p.csv", TABLE.format(code))), 2, "p.csv: row 3: ", told)
            free = self.file("free.txt", f"2026-05-04\n{code}\n")
            ran = plan("solve", self.file("p.csv", TABLE.format(free.name)))
            self.refused(ran, 2, f"free.txt: line 2: {code}: ", told.split(": ")[1])

    def test_without_the_package(self) -> None:
        with mock.patch.dict(sys.modules, {"holidays": None}):
            ran = plan("solve", self.file("p.csv", TABLE.format("DE-BY")))
        self.refused(ran, 1, "holidays DE-BY needs the package holidays: install python3-holidays, or `pip install "
                     "psmax[")

    def test_a_file(self) -> None:
        """Days, ranges, names and notes, each on its line, as people write them."""
        text = ("# of the works\n\n2026-04-07 the day after\n2026-05-04 .. 2026-05-06 closed\n"
                "15.05.2026-17.05.2026; bridge, and more\n18.05.2026 bis 18.05.2026\n2026-06-01 - pour\n")
        self.file("free.txt", text)
        self.assertEqual(self.told("free.txt"), [
            "Tue 2026-04-07  the day after", "Mon 2026-05-04  closed", "Tue 2026-05-05  closed",
            "Wed 2026-05-06  closed",
            "Fri 2026-05-15  bridge, and more", "Sat 2026-05-16  bridge, and more", "Sun 2026-05-17  bridge, and more",
            "Mon 2026-05-18", "Mon 2026-06-01  - pour"])

    def test_faults_of_a_file(self) -> None:
        for line, told in (("2026-05-06 .. 2026-05-04", "line 1: '2026-05-04' is before '2026-05-06'"),
                           ("2026-05-06 .. 2066-05-04", "line 1: '2066-05-04': more than 20 years"),
                           ("2026-05-32 closed", "line 1: '2026-05-32': there is no such date"),
                           ("closed 2026-05-04", "line 1: 'closed': not a date")):
            with self.subTest(line):
                self.file("free.txt", f"{line}\n")
                self.refused(plan("solve", self.file("p.csv", TABLE.format("free.txt"))), 2, "free.txt: ", told)
