"""A sheet that is a chart: a row for each activity, a column for each day or week, and bars of coloured cells."""
import datetime
from collections.abc import Iterable, Iterator
from itertools import groupby
from typing import Any

from ..calendars import DAY, Calendar, at_midnight
from ..total import TotalFloat
from . import drawing
from .drawing import Bar, Drawing, Load
from .project_file import ProjectFile

TITLE = "plan chart"  # of the sheet; one of the planner's own has another
FIRST = 5  # the first column of the chart
HEADS, TOP = 3, 4  # the row of days, and the first one of a bar
MOST = 400  # columns; what is longer has a column for each week
BAR, CRITICAL, PAST, GROUP, FREE, USE = "0072B2", "D55E00", "8A949E", "333333", "E6E9ED", "9FB7C6"
NARROW, WIDE = 2.9, {"A": 8, "B": 40, "C": 17, "D": 17}  # widths in signs
MINUTE = datetime.timedelta(minutes=1)


class ChartScale:
    """Which columns a stretch of time takes, and what stands above them."""

    def __init__(self, shown: Drawing) -> None:
        self.calendar, length = shown.calendar, shown.ends - shown.begins
        self.begins = shown.begins
        if self.calendar is not None:
            self.first = self.day(shown.begins)
            length = (self.day(shown.ends, True) - self.first).days + 1
        self.step = 1 if length <= MOST else 7 if self.calendar is not None else -(-length // MOST)
        self.count = -(-length // self.step)

    def day(self, time: int, is_end: bool = False) -> datetime.date:
        assert self.calendar is not None
        return (self.calendar.ended(time) - MINUTE if is_end else self.calendar.begins(time)).date()

    def columns(self, begins: int, ends: int) -> range:
        """Of what takes no time one column."""
        if self.calendar is None:
            first, last = begins - self.begins, max(begins, ends - 1) - self.begins
        else:
            first = (self.day(begins) - self.first).days
            last = max(first, (self.day(ends, True) - self.first).days) if ends > begins else first
        return range(FIRST + first // self.step, FIRST + min(last // self.step, self.count - 1) + 1)

    def heads(self) -> Iterator[tuple[int, str, str, bool]]:
        """Of each column the month and the day, and whether it has no work."""
        for place in range(self.count):
            if self.calendar is None:
                yield FIRST + place, "", f"{self.begins + place * self.step}", False
            else:
                day = self.first + place * self.step * DAY
                yield FIRST + place, f"{day:%m/%Y}", f"{day.day}", self.step == 1 and not has_work(self.calendar, day)


def has_work(calendar: Calendar, day: datetime.date) -> bool:
    first = calendar.from_on(at_midnight(day))
    return calendar.begins(first) < at_midnight(day) + DAY


def draw_sheet(book: Any, opened: ProjectFile, starts: tuple[int, ...], total: TotalFloat | None, title: str) -> None:
    """In place of the one that was drawn before."""
    if TITLE in book.sheetnames:
        del book[TITLE]
    critical = total.critical() if total is not None else ()
    known = drawing.Details(critical=critical, started=[*opened.progress.started])
    shown = drawing.make(opened, starts, title, (), known)
    sheet, scale = book.create_sheet(TITLE), ChartScale(shown)
    put_value(sheet.cell(1, 1), title)
    draw_ruler(sheet, scale)
    for row, bar in enumerate(shown.bars, TOP):
        bar_row(sheet, scale, row, bar)
    for row, load in enumerate(shown.loads, TOP + len(shown.bars) + 1):
        load_row(sheet, scale, row, load)
    sheet.freeze_panes = sheet.cell(TOP, FIRST)
    sheet.page_setup.orientation, sheet.page_setup.fitToHeight = "landscape", 0
    sheet.sheet_properties.pageSetUpPr.fitToPage = True
    sheet.print_title_rows = f"1:{HEADS}"


def draw_ruler(sheet: Any, scale: ChartScale) -> None:
    for name, width in WIDE.items():
        sheet.column_dimensions[name].width = width
    heads = [*scale.heads()]
    for place, _, day, _ in heads:
        cell = sheet.cell(HEADS, place, int(day))
        sheet.column_dimensions[cell.column_letter].width = NARROW
    for month, found in groupby(heads, key=lambda head: head[1]):
        sheet.cell(HEADS - 1, next(found)[0], month)


def bar_row(sheet: Any, scale: ChartScale, row: int, bar: Bar) -> None:
    shade(sheet, scale, row)
    for place, text in enumerate((bar.id, bar.name, bar.first, bar.last), 1):
        put_value(sheet.cell(row, place), text)
    colour = GROUP if bar.activity is None else PAST if bar.has_started else CRITICAL if bar.is_critical else BAR
    if bar.activity is not None and bar.begins == bar.ends:
        sheet.cell(row, scale.columns(bar.begins, bar.ends)[0], "\u25c6")
    else:
        paint(sheet, row, scale.columns(bar.begins, bar.ends), colour)


def load_row(sheet: Any, scale: ChartScale, row: int, load: Load) -> None:
    """The greatest use of each column."""
    shade(sheet, scale, row)
    put_value(sheet.cell(row, 2), load.name)
    sheet.cell(row, 3, f"of {load.capacity}")
    most: dict[int, int] = {}
    for one in load.stretches:
        most |= {place: max(one.units, most.get(place, 0)) for place in scale.columns(one.begins, one.ends)}
    for place, units in most.items():
        sheet.cell(row, place, units)
    paint(sheet, row, most, USE)


def put_value(cell: Any, value: object) -> None:
    """A text is one, whatever signs it begins with."""
    cell.value = None if value == "" else value
    if isinstance(value, str) and value:
        cell.data_type = "s"


def shade(sheet: Any, scale: ChartScale, row: int) -> None:
    paint(sheet, row, [place for place, _, _, is_free in scale.heads() if is_free], FREE)


def paint(sheet: Any, row: int, columns: Iterable[int], colour: str) -> None:
    from openpyxl.styles import PatternFill
    fill = PatternFill("solid", fgColor=colour)
    for place in columns:
        sheet.cell(row, place).fill = fill
