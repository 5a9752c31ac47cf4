"""A schedule in a spreadsheet file (.xlsx): dates and floats in the planner's own sheet, and one that is a chart."""
import io
import zipfile
from collections.abc import Iterator
from copy import copy
from dataclasses import dataclass
from typing import Any

from ..errors import BadInput
from ..files import SPREADSHEET, read_bytes, read_text, read_there, write_whole
from ..spreadsheet import openpyxl, sheet_names, sheet_of, workbook
from ..total import TotalFloat
from . import workbook_chart
from .columns import is_head
from .csv_text import read_sheet
from .headline import describe_schedule
from .project_file import ProjectFile
from .window import Window
from .workbook_chart import put_value
from .write import schedule_rows

FORMS = {"iso": "yyyy-mm-dd", "dots": "dd.mm.yyyy", "dmy": "dd/mm/yyyy", "mdy": "mm/dd/yyyy"}  # of dates, by DateStyle
HEADS = {  # what is written, and what its column may be called already; the first name is that of a new one
    "start": ("start", "first day", "anfang", "beginn"), "end": ("end", "finish", "last day", "ende"),
    "free float": ("free float", "freier puffer"), "total float": ("total float", "gesamtpuffer"),
    "critical": ("critical", "kritisch"), "late": ("late", "verspätet"),
}
GERMAN = {"start": "Anfang", "end": "Ende", "free float": "freier Puffer", "total float": "Gesamtpuffer",
          "critical": "kritisch", "late": "verspätet"}
GERMAN_HEADS = {"dauer", "vorgang", "vorgangsname", "tage", "stunden"}
LOST = ("xl/charts/", "xl/media/", "xl/pivotTables/", "xl/vbaProject", "xl/slicers/", "xl/threadedComments")
WIDTH = 18  # of a new column, in signs


@dataclass(frozen=True)
class Filled:
    """What there is to write of each activity."""

    opened: ProjectFile
    starts: tuple[int, ...]
    windows: dict[int, Window]
    total: TotalFloat | None

    def names(self) -> list[str]:
        """Of the columns."""
        due, total = self.opened.project.due, self.total
        is_there = {"late": bool(due), "total float": bool(total), "critical": bool(total)}
        return [name for name in HEADS if is_there.get(name, True)]

    def value(self, name: str, activities: list[int]) -> object:
        """Of a row, which has several activities where it may pause."""
        first, last = activities[0], activities[-1]
        if name in ("start", "end"):
            return self.time(first if name == "start" else last, name)
        if name == "late":
            by = self.late(last)
            return number_or_text(self.opened.length(by)) if by > 0 else None
        if name == "free float":
            return number_or_text(self.opened.length(min(self.windows[one].float for one in activities)))
        assert self.total is not None
        latest = self.total.found[last]
        if name == "critical":
            return ("ja" if is_german(self.opened) else "yes") if latest.is_critical else None
        return number_or_text(latest.text(self.opened.length))

    def late(self, activity: int) -> int:
        due = self.opened.project.due.get(activity)
        return 0 if due is None else self.starts[activity] + self.opened.project.durations[activity] - due

    def time(self, activity: int, name: str) -> object:
        begins = self.starts[activity]
        if self.opened.calendar is None:
            return number_or_text(self.opened.times(activity, begins)[name == "end"])
        return self.opened.span(activity, begins)[name == "end"]


def number_or_text(text: str) -> object:
    return int(text) if text.isascii() and text.removeprefix("-").isdecimal() else text


def is_german(opened: ProjectFile) -> bool:
    return opened.table is not None and not GERMAN_HEADS.isdisjoint(head.lower() for head in opened.table.columns.heads)


def write_workbook(filled: Filled, out: str) -> list[str]:
    """What there is to say of it."""
    opened = filled.opened
    must_be_own_book(out)
    path = source_of(opened)
    data = read_bytes(path) if path is not None else b""
    is_own = data.startswith(SPREADSHEET)
    book = workbook(data, opened.path) if is_own else of_texts(filled, path)
    if opened.table is not None:
        fill_sheet(sheet_of(book, opened.settings.sheet if is_own else None, opened.path), filled)
    title = describe_schedule(opened, filled.starts, filled.starts[-1])[0]
    workbook_chart.draw_sheet(book, opened, filled.starts, filled.total, title)
    made = io.BytesIO()
    book.save(made)
    write_whole(out, made.getvalue())
    return [f"{out} has no {what} of {opened.path}, which openpyxl does not keep"
            for what in lost(data, made.getvalue())]


def source_of(opened: ProjectFile) -> str | None:
    """The file of the table."""
    if opened.table is None:
        return None
    return opened.sources.get("the table of the project") or opened.sources.get("the table") or opened.path


def of_texts(filled: Filled, path: str | None) -> Any:
    """A new workbook, with the table as its file has it, or with a row for each activity."""
    book = openpyxl(filled.opened.path).Workbook()
    book.active.title = "table"
    if path is None:
        cells: list[list[object]] = schedule_rows(filled.opened, filled.starts)
    else:
        sheet = read_sheet(path, read_text(path), is_head)
        cells = [[*row] for row in [*sheet.above, sheet.heads, *sheet.rows]]
    for number, row in enumerate(cells, 1):
        for place, text in enumerate(row, 1):
            put_value(book.active.cell(number, place), number_or_text(text) if isinstance(text, str) else text)
    return book


def fill_sheet(sheet: Any, filled: Filled) -> None:
    opened, table = filled.opened, filled.opened.table
    assert table is not None
    head_row, heads = table.head_row, table.columns.heads
    for name, place in column_places(filled, heads):
        head = sheet.cell(head_row, place)
        if head.value is None:
            put_value(head, GERMAN[name] if is_german(opened) else name)
            copy_look(sheet.cell(head_row, len(heads)), head)
            sheet.column_dimensions[head.column_letter].width = WIDTH
        for row, activities in rows_with_activities(table.rows):
            cell = sheet.cell(row, place)
            put_value(cell, filled.value(name, activities))
            if place > len(heads):
                copy_look(sheet.cell(row, len(heads)), cell)
            if name in ("start", "end") and opened.calendar is not None:
                clock = "" if opened.calendar.is_by_day else " hh:mm"
                cell.number_format = FORMS[opened.calendar.style.form] + clock


def column_places(filled: Filled, heads: list[str]) -> Iterator[tuple[str, int]]:
    """The number of the column of each, which is a new one behind all others where the sheet has none."""
    after = len(heads)
    lower = [head.lower() for head in heads]
    for name in filled.names():
        there = next((lower.index(head) + 1 for head in HEADS[name] if head in lower), None)
        after += there is None
        yield name, there or after


def rows_with_activities(numbers: tuple[int, ...]) -> list[tuple[int, list[int]]]:
    """The activities of each row."""
    found: dict[int, list[int]] = {}
    for activity, row in enumerate(numbers, 1):
        found.setdefault(row, []).append(activity)
    return [*found.items()]


def copy_look(source: Any, target: Any) -> None:
    for name in ("font", "fill", "border", "alignment"):
        setattr(target, name, copy(getattr(source, name)))


def lost(before: bytes, after: bytes) -> list[str]:
    """What kinds of parts a file had, and has no more."""
    if not before.startswith(SPREADSHEET):
        return []
    old, new = (zipfile.ZipFile(io.BytesIO(data)).namelist() for data in (before, after))
    return [begin.removeprefix("xl/").rstrip("/") for begin in LOST if any(name.startswith(begin) for name in old)
            and not any(name.startswith(begin) for name in new)]


def must_be_own_book(out: str) -> None:
    """A file that is there is one that was written so."""
    there = read_there(out)
    if there.strip() and workbook_chart.TITLE not in (sheet_names(there, out) if there.startswith(SPREADSHEET) else ()):
        raise BadInput(f"{out} is there, and was not written by plan, and would be lost; name another file with --out")
