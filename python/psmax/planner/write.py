"""`plan write`: a schedule as a table in CSV, with names and, from a first day on, with dates; or as a calendar, or in
the file of another tool."""
import datetime
import pathlib
import sys
from dataclasses import dataclass
from typing import TYPE_CHECKING

from ..call_files import lose_none, must_be_like
from ..clock import Clock
from ..errors import BadInput
from ..files import STANDARD_INPUT, decoded, read_bytes, read_there, write_whole
from ..formats import mspdi_sign, xer_sign
from ..psmax import Psmax
from ..spreadsheet import SUFFIX
from . import icalendar
from .answer import feasible
from .answer_text import PERIOD, read_answer
from .headline import MISSED, describe_schedule
from .csv_text import SEPARATORS, Text, read_sheet, write_sheet
from .project_file import ProjectFile
from .window import windows

if TYPE_CHECKING:
    from .floats import Total

HTML, BEGIN = ".html", b"<!DOCTYPE html>"  # how the name of a page ends, and how it begins
HEADS = ["activity", "name", "start", "takes", "end"]  # and what they count, where a period is none of the table's own


@dataclass(frozen=True)
class SheetOptions:
    """What the words of a command say of a table that is written."""

    out: str | None
    excel: bool
    separator: str | None

    def text(self, table: list[list[object]], opened: ProjectFile) -> str:
        """The separator is the one that is named; for a spreadsheet else that of the table, since hers wrote it."""
        return write_sheet(table, self.between(opened), self.excel)

    def between(self, opened: ProjectFile) -> str:
        named = SEPARATORS[self.separator] if self.separator is not None else None
        return named or (opened.separator if self.excel else ",")

    def must_have(self, heads: list[str]) -> None:
        """A file that is there has a table of these columns, or nothing."""
        there = read_there(self.out)
        if self.out is not None and there.strip():
            try:
                found = read_sheet(self.out, there.decode("utf-8", "replace")).heads
            except BadInput:
                found = []
            if found != heads:
                raise BadInput(f"{self.out} is there, and no table of these columns, and would be lost; name another "
                               "file with --out")

    def put(self, table: list[list[object]], opened: ProjectFile) -> None:
        """Into the file that is named, where another of the same columns may be, or to standard output."""
        self.must_have(list(map(str, table[0])))
        put_text(self.text(table, opened), self.out)


def schedule_rows(opened: ProjectFile, starts: tuple[int, ...], with_dates: bool = True) -> list[list[object]]:
    """A row for each activity, in the order of their starts, below the names of the columns."""
    project, calendar = opened.project, opened.calendar if with_dates else None
    units = [] if opened.is_own() else [PERIOD, "length"]
    table: list[list[object]] = [[*HEADS, *units, *(calendar.heads if calendar else ())]]
    for activity in in_order(opened, starts):
        begins, takes = starts[activity], project.durations[activity]
        times = opened.times(activity, begins) if calendar else ()
        name = Text(opened.names.activities.get(activity, ""))
        told = [opened.names.unit, opened.length(takes)] if units else []
        table.append([label_of(opened, activity), name, begins, takes, begins + takes, *told, *times])
    return table


def in_order(opened: ProjectFile, starts: tuple[int, ...]) -> list[int]:
    """The activities in the order of their starts."""
    return sorted(range(1, opened.project.end), key=lambda i: (starts[i], i))


def label_of(opened: ProjectFile, activity: int) -> object:
    """The ID of an activity, which a spreadsheet must not take for something else, or its number."""
    label = opened.names.label(activity)
    return int(label) if label.isascii() and label.isdecimal() and not label.startswith("0") else Text(label)


def put_text(text: str, out: str | None) -> None:
    """Writes a text into a file, or to standard output where none is named."""
    if out is not None:
        write_whole(out, text.encode("utf-8", "replace"))
    else:
        sys.stdout.write(text)


def into_workbook(opened: ProjectFile, starts: tuple[int, ...], out: str, wanted: "Total | None") -> list[str]:
    """What of the table's own file is not in the new one. Total floats are proved where that is wanted."""
    from . import workbook
    total = None if wanted is None else wanted.of(opened, starts)
    found = windows(opened.project, starts, Psmax(Clock(), opened.path))
    return [f"{line}\n" for line in workbook.write_workbook(workbook.Filled(opened, starts, found, total), out)]


def write(opened: ProjectFile, given: str | None, sheet: SheetOptions, resource: str | None = None,
          total: "Total | None" = None, is_daily: bool = False) -> int:
    """As a table, or as what the suffix of the file says."""
    lose_none(opened.inputs() | {"the answer": given or STANDARD_INPUT}, [sheet.out])
    suffix = pathlib.PurePath(sheet.out or "").suffix.lower()
    if total is not None and suffix != SUFFIX:
        raise BadInput(f"--total is for a spreadsheet file, which --out names with {SUFFIX}; plan float has it for "
                       "others")
    if resource is not None and suffix != icalendar.SUFFIX and not is_daily:
        raise BadInput(f"--resource is for --daily, and for a calendar, which --out names with {icalendar.SUFFIX}")
    if is_daily and suffix not in (HTML, ""):
        raise BadInput(f"--daily writes a page of HTML, which --out names with {HTML}")
    known = feasible(opened, read_answer(given), Psmax(Clock(), opened.path))
    if is_daily:
        from .daily import DailyList
        must_be_like(sheet.out, BEGIN, "page of HTML")
        put_text(DailyList(opened, known.starts, resource).page(pathlib.Path(opened.path).stem), sheet.out)
    elif suffix == icalendar.SUFFIX:
        must_be_like(sheet.out, icalendar.BEGIN, "calendar")
        put_text(icalendar.calendar_text(opened, known.starts, resource, datetime.datetime.now(datetime.UTC)),
                 sheet.out)
    elif suffix == SUFFIX:
        sys.stdout.write("".join(into_workbook(opened, known.starts, sheet.out or "", total)))
    elif suffix in (mspdi_sign.SUFFIX, xer_sign.SUFFIX):
        is_xml = suffix == mspdi_sign.SUFFIX
        must_be_like(sheet.out, *((b"<", "XML") if is_xml else (xer_sign.MARK.encode(), "project of Primavera")))
        write_whole(sheet.out or "", into_tool_file(opened, known.starts, is_xml))
    else:
        sheet.put(schedule_rows(opened, known.starts), opened)
    said = describe_schedule(opened, known.starts, known.starts[-1])
    is_told = opened.calendar is not None or bool(said[1:])
    if is_told and sheet.out is not None or said[1:] and said[1].startswith(MISSED):
        print(*said, sep="\n", file=sys.stderr if sheet.out is None else sys.stdout)
    return 0


def into_tool_file(opened: ProjectFile, starts: tuple[int, ...], is_xml: bool) -> bytes:
    """The file of the project with these starts, where it is one of the same tool."""
    from ..answer import Schedule, question
    from ..api import Project
    from ..formats import mspdi_text, xer_text
    data = read_bytes(opened.path)
    if not (mspdi_sign if is_xml else xer_sign).is_like(decoded(data)):
        tool = "Microsoft Project (MSPDI)" if is_xml else "Primavera"
        raise BadInput(f"{opened.path} is no project of {tool}, into which dates could be written")
    schedule = Schedule(question(Project.read(data)), starts)
    return mspdi_text.replanned(data, schedule) if is_xml else xer_text.replanned(data, schedule)
