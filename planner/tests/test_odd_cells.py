"""Each cell of good tables in turn with what people and spreadsheets leave in cells: it is the same plan, or a fault
that names the row, or plan says that it has read something else."""
import re
from collections.abc import Callable, Iterator

from psmax.errors import BadInput
from psmax.planner.project_file import ProjectFile, of_table
from psmax.planner.read_back import read_back_line
from psmax.planner.settings import Settings
from psmax.planner.table import read_table

from .helpers import InFolder

ODD = ["", " ", "\u00a0", "-", "\u2014", "?", "x", "n/a", "NA", "null", "TRUE", "WAHR", "#REF!", "#N/A", "=A1+1", "0",
       "-1",
       "+3", "1e3", "1.000", "1,000", "1.5", "1,5", "1.000,5", "\u00bd", "\uff13", "\u0663", "3d", "3 Tage", "3 h",
       "2 w",
       "46132", "2062-04-20", "31.02.2026", "20.04.2026", "2026-04-21 10:00", "01. Jan", "14:00", "3;4", "a\nb"]
GERMAN = """title;Umbau
from;13.04.2026
workdays;Mo-Fr
absences;away.csv

Nr;PSP-Code;Vorgang;Dauer;Vorgänger;Kran (1);fällig
1;1;Gerüst;;;;
2;1.1;stellen;2,5 d;;1;
3;1.2;heben;3 d;2EA+1 d;1;24.04.2026
"""
ENGLISH = """from,2026-04-13 06:00
shift,"06:00-12:00,13:00-15:00"
status,2026-04-15

activity,hours,crew (4),after,at most,not before,started,remaining
strip,12,3,,,,2026-04-13 06:00,2
mend,6,2,strip,9,2026-04-16,,
"""
AWAY = "resource,from,to,units\nKran,2026-04-14,2026-04-15,1\nKran,20.04.2026 08:00,20.04.2026 12:00,\n"


def cells(text: str, separator: str) -> list[list[str]]:
    """The cells of a table; what stands in quotes stays one."""
    part = re.compile(rf'"[^"]*"|[^{separator}]+|(?<={separator})(?={separator}|$)|^(?={separator})')
    return [[found[0].strip('"') for found in part.finditer(line)] for line in text.splitlines()]


def written(rows: list[list[str]], separator: str) -> str:
    return "".join(separator.join(f'"{one}"' if re.search(r'[,;"\n]', one) else one for one in row) + "\n"
                   for row in rows)


def variants(text: str, separator: str) -> Iterator[tuple[int, str, str, str]]:
    """The row, what stood in a cell and what stands there, and the table."""
    rows = cells(text, separator)
    for number, row in enumerate(rows):
        for place, was in enumerate(row):
            for now in ODD:
                changed = [*row[:place], now, *row[place + 1 :]]
                yield number + 1, was, now, written([*rows[:number], changed, *rows[number + 1 :]], separator)


def told(opened: ProjectFile) -> tuple[str, ...]:
    """What plan says that it has read."""
    return read_back_line(opened), *opened.notes


def planned(opened: ProjectFile) -> tuple[object, ...]:
    """All that a plan and its dates follow from."""
    dates = opened.calendar and [opened.calendar.begins(time) for time in (0, 1, 50)]
    return opened.project, dates, opened.names.resources, opened.mornings, opened.progress.now


class OddCells(InFolder):
    """Some 3,000 variants, read in this process, without a search."""

    def setUp(self) -> None:
        super().setUp()
        self.path = str(self.folder / "p.csv")
        self.file("away.csv", AWAY)

    def opened(self, text: str) -> ProjectFile:
        return of_table(self.path, read_table(self.path, text, Settings(), str(self.folder)), {}, text)

    def test_a_table_in_german(self) -> None:
        self.must_be_clear(self.opened(GERMAN), GERMAN, ";", lambda text: self.opened(text), 6)

    def test_a_table_in_english(self) -> None:
        self.must_be_clear(self.opened(ENGLISH), ENGLISH, ",", lambda text: self.opened(text), 5)

    def test_absences(self) -> None:
        self.must_be_clear(self.opened(GERMAN), AWAY, ",", self.with_absences, 2)

    def with_absences(self, text: str) -> ProjectFile:
        self.file("away.csv", text)
        return self.opened(GERMAN)

    def must_be_clear(self, good: ProjectFile, text: str, separator: str, read: Callable[[str], ProjectFile],
                      head: int) -> None:
        """Each variant of a table of which this row, and those above, say what the rows below mean."""
        said, plan, count, wrong = told(good), planned(good), 0, []
        for row, was, now, variant in variants(text, separator):
            count += 1
            try:
                opened = read(variant)
                is_clear = told(opened) != said or planned(opened) == plan
            except BadInput as fault:
                is_clear = all(re.search(r"row \d", line) for line in map(str, fault.args)) and (
                    row <= head or re.search(rf"row ({row}|{row - 1}|{row + 1})\b", f"{fault}") is not None)
            wrong += [] if is_clear else [(row, was, now)]
        self.assertEqual(wrong, [])
        self.assertGreaterEqual(count, 12 * len(ODD))
