"""Rows of a table of activities: what their cells say, and which of them are groups of those below."""
import datetime
import re
from collections.abc import Iterable, Mapping, Sequence
from dataclasses import dataclass, field, replace
from itertools import accumulate

from ..calendars import Calendar
from ..dates import FAR, FAR_YEARS, Moment, is_before, is_dated, read_moment
from ..letters import short
from ..model import Group
from ..project import MOST_UNITS
from .columns import Column, Columns
from .csv_text import cell
from .faults import CellFault, fault_at
from .quantities import Length, Scale, Unit, day_of_serial, number_text, read_length, time_after

DATED = (Column.STARTED, Column.FINISHED, Column.NOT_BEFORE, Column.END_BY, Column.DUE)
MONTHS = "jan feb mar mär mrz apr may mai jun jul aug sep oct okt nov dec dez"
MONTH = re.compile(rf"\b(?:{'|'.join(MONTHS.split())})\b", re.I)
CODE = re.compile(r"\w+(?:[ ./_-]\w+)*\.?")  # of a work breakdown
YES, NO = ("yes", "y", "x", "true", "ja", "1"), ("", "no", "n", "false", "nein", "0")


@dataclass(frozen=True)
class Terms:
    """By what the cells of a table are read."""

    file: str
    columns: Columns
    scale: Scale
    calendar: Calendar | None
    order: str | None  # of the numbers of a date with slashes
    head_row: int = 1  # the number of the row with the names of the columns
    is_guess: bool = False  # whether the hours of work of a day are those that plan takes where nobody says them
    told: list[str] = field(default_factory=list)  # what is said of cells that are read as something near


@dataclass(frozen=True)
class Row:
    """With its number as a spreadsheet shows it."""

    terms: Terms
    number: int
    cells: list[str]

    def cell(self, column: Column) -> str:
        place = self.terms.columns.places.get(column)
        if place is None or place >= len(self.cells):
            return ""
        text = self.cells[place]
        return "" if text and column in DATED and text.upper() in ("NA", "N/A") else text

    def with_texts(self, texts: Mapping[Column, str]) -> "Row":
        """The same with other texts, where the table has such columns."""
        told = {self.terms.columns.places[one]: text for one, text in texts.items() if one in self.terms.columns.places}
        wide = max([len(self.cells), *(place + 1 for place in told)])
        return replace(self, cells=[told.get(place, cell(self.cells, place)) for place in range(wide)])

    def fault(self, column: int | Column, text: str) -> CellFault:
        place = column if isinstance(column, int) else self.terms.columns.places[column]
        return fault_at(self.terms.file, self.number, place, cell(self.terms.columns.heads, place), text)

    def must_be_below_heads(self) -> None:
        """No cell stands in a column without a name."""
        heads = self.terms.columns.heads
        odd = next((place for place, text in enumerate(self.cells) if text and not cell(heads, place)), None)
        if odd is not None and odd < len(heads):
            raise self.fault(odd, "a cell in a column without a name; a column of your own words is called notes")
        if odd is not None:
            raise self.fault(odd, "a cell beyond the last column; names in one cell have ';' between them")

    def units(self, place: int) -> int:
        """The demand in a cell; empty is none."""
        text = cell(self.cells, place)
        if not text:
            return 0
        if re.fullmatch(r"-[0-9]+", text):
            raise self.fault(place, f"{short(text)} is below 0")
        if not re.fullmatch(r"[0-9]{1,9}", text):
            raise self.fault(place, f"'{short(text)}' is not a whole number")
        if int(text) > MOST_UNITS:
            raise self.fault(place, f"{text} is more than {MOST_UNITS:,}")
        return int(text)

    def length(self, column: Column, text: str) -> Length:
        """The length in a text of this column."""
        try:
            return read_length(text, self.terms.scale.own)
        except ValueError:
            raise self.fault(column, f"'{short(text)}' is not a number, or one with min, h, d, w or cd") from None

    def periods(self, column: int | Column, length: Length, instead: str = "'2 d' or '4 h'") -> int:
        """The same in periods."""
        scale = self.terms.scale
        if length.unit is Unit.CALENDAR_DAYS:
            raise self.fault(column, "calendar days are for durations and lags alone")
        if not length.value:
            return 0
        if scale.is_vague(length):
            raise self.fault(column, f"{number_text(length.value)} of what? Durations have units; write {instead}")
        try:
            found = scale.periods(length)
        except ValueError:
            raise self.fault(column, f"'{length}' is not a whole number of periods, which are {scale.name()}") from None
        if abs(found) > MOST_UNITS:
            raise self.fault(column, f"{found} is more than {MOST_UNITS:,}")
        return found

    def duration(self, column: Column) -> int:
        text = self.cell(column)
        if not text:
            raise self.fault(column, "a whole number is missing")
        length = self.length(column, text)
        if length.value < 0:
            raise self.fault(column, f"{short(text)} is below 0")
        return self.elapsed(column, length) if length.unit is Unit.CALENDAR_DAYS else self.periods(column, length)

    def elapsed(self, column: Column, length: Length) -> int:
        """Calendar days that something takes, which are as many periods on each date."""
        day = self.terms.calendar.periods_a_day() if self.terms.calendar is not None else None
        if day is None:
            raise self.fault(column, f"how long '{short(self.cell(column))}' is depends on its date; with --from, and "
                             "periods around the clock on every day, as with --shift 00:00-24:00, it does not, and "
                             "hours of resources are told as 'crew (4, 06:00-18:00)'")
        periods = length.value * day
        if periods.denominator != 1 or periods > MOST_UNITS:
            raise self.fault(column, f"{short(self.cell(column))} are no whole number of periods up to {MOST_UNITS:,}")
        return int(periods)

    def time_in(self, column: int | Column, text: str) -> int | Moment:
        """A time in periods by a number, which counts what a bare duration does; or a date, which needs a calendar."""
        length = time_after(text, self.terms.scale.own)
        if length is not None and text.isdigit():
            return self.time_or_serial(column, text, self.periods(column, length, "'2 d' or a date"))
        if length is not None:
            return self.periods(column, length, "'2 d' or a date")
        try:
            moment = read_moment(text, self.terms.order)
        except ValueError as fault:
            raise self.fault(column, f"'{short(text)}': {fault}") from None
        if self.terms.calendar is None:
            raise self.fault(column, f"'{short(text)}': a date needs --from, the first day of the project")
        return self.near(column, text, moment, self.terms.calendar)

    def time_or_serial(self, column: int | Column, text: str, periods: int) -> int | Moment:
        """A number of periods, or what a spreadsheet counts as a day, which is told."""
        try:
            found = day_of_serial(text, periods, self.terms.calendar)
        except ValueError as fault:
            raise self.fault(column, f"{short(text)} {fault}") from None
        if found is None or self.terms.calendar is None:
            return periods
        self.tell(f"{short(text)} is {found.at.date()}, as a spreadsheet counts days")
        return self.near(column, text, found, self.terms.calendar)

    def near(self, column: int | Column, text: str, moment: Moment, calendar: Calendar) -> Moment:
        """The same, where no year was misspelt."""
        if abs(moment.at - calendar.begins(0)) > FAR:
            side = "after" if moment.at > calendar.begins(0) else "before"
            raise self.fault(column, f"'{short(text)}' is more than {FAR_YEARS} years {side} the project's start")
        return moment

    def begin(self, column: int | Column, text: str) -> int:
        """The first time that is not before a date."""
        found = self.time_in(column, text)
        return found if isinstance(found, int) else self.from_on(column, text, found.at)

    def close(self, column: int | Column, text: str) -> int:
        """The last time by which a date is over."""
        found = self.time_in(column, text)
        return found if isinstance(found, int) else self.by(column, text, found.next())

    def close_within(self, column: int | Column, text: str) -> int:
        """The same of a date that is not over before the project starts."""
        if self.is_before_project(column, text):
            raise self.fault(column, f"'{short(text)}' is before the project starts")
        return self.close(column, text)

    def is_before_project(self, column: int | Column, text: str) -> bool:
        """Whether a date is over before the project starts."""
        found, calendar = self.time_in(column, text), self.terms.calendar
        if not isinstance(found, Moment) or calendar is None:
            return False
        return is_before(found, Moment(calendar.begins(0), False))

    def from_on(self, column: int | Column, text: str, moment: datetime.datetime) -> int:
        """The first time that is not before a moment, which this text says."""
        calendar = self.terms.calendar
        assert calendar is not None
        self.tell_rounded(text, moment, calendar, "its end")
        return self.bounded(column, text, calendar.from_on(moment))

    def by(self, column: int | Column, text: str, moment: datetime.datetime) -> int:
        """The last time at which all has ended by a moment, which this text says; below 0 before the project."""
        calendar = self.terms.calendar
        assert calendar is not None
        self.tell_rounded(text, moment, calendar, "its begin")
        return self.bounded(column, text, calendar.by(moment))

    def bounded(self, column: int | Column, text: str, time: int) -> int:
        if time > MOST_UNITS:
            raise self.fault(column, f"{short(text)} is {time:,} periods after the start, and may be {MOST_UNITS:,}")
        return time

    def tell_rounded(self, text: str, moment: datetime.datetime, calendar: Calendar, side: str) -> None:
        """A moment within a period counts as one of its sides, which is told once."""
        if moment > calendar.begins(0) and calendar.from_on(moment) > calendar.by(moment):
            self.tell(f"{short(text)} is within a period, and counts as {side}")

    def tell(self, text: str) -> None:
        """What is said of this row, once."""
        told = f"{self.terms.file}: row {self.number}: {text}"
        if told not in self.terms.told:
            self.terms.told.append(told)

    def is_said(self, column: Column) -> bool:
        text = self.cell(column).lower()
        if text not in YES + NO:
            raise self.fault(column, f"'{short(text)}' is neither yes nor no")
        return text in YES


def told_apart(rows: Iterable[Row]) -> list[Row]:
    """Activities of one name that have numbers of their own are called by these too."""
    ids: dict[str, list[str]] = {}
    rows = [*rows]
    for row in rows:
        if row.cell(Column.DURATION):
            ids.setdefault(row.cell(Column.NAME), []).append(row.cell(Column.ID).casefold())
    twice = {name for name, own in ids.items() if len(own) > 1 and all(own) and len({*own}) == len(own)}
    return [row.with_texts({Column.NAME: f"{row.cell(Column.NAME)} ({row.cell(Column.ID)})"})
            if row.cell(Column.NAME) in twice and row.cell(Column.DURATION) else row for row in rows]


def is_reversed(first: int | Moment, last: int | Moment, begins: int, ends: int) -> bool:
    """Whether what goes on from one time to another, which begin and end at these periods, ends before it begins."""
    if isinstance(first, Moment) and isinstance(last, Moment):
        return is_before(last, first)
    return ends < begins


def level(row: Row) -> int:
    """How deep a row stands, by its outline level or else its code; 0 where there is neither."""
    told, code = row.cell(Column.LEVEL), row.cell(Column.WBS)
    if told and not told.isdecimal():
        raise row.fault(Column.LEVEL, "a whole number is missing")
    if is_dated(code) or MONTH.search(code):
        raise row.fault(Column.WBS, f"'{short(code)}' is no code such as 1.2, but the date that a spreadsheet made of "
                        "it; format the column as text")
    if code and not CODE.fullmatch(code):
        raise row.fault(Column.WBS, f"'{short(code)}' is no code such as 1.2, which has points")
    return int(told) if told else len([part for part in code.split(".") if part])


def is_summary(rows: Sequence[Row], depth: Sequence[int], place: int) -> bool:
    """What says so, or what has a deeper row below it."""
    if rows[place].is_said(Column.SUMMARY):
        return True
    if place + 1 == len(rows):
        return False
    code, below = rows[place].cell(Column.WBS), rows[place + 1].cell(Column.WBS)
    if Column.LEVEL in rows[place].terms.columns.places:
        return depth[place + 1] > depth[place]
    return bool(code) and below.startswith(code.rstrip(".") + ".")


def groups_of(rows: Sequence[Row], depth: Sequence[int], summaries: Sequence[bool]) -> list[Group]:
    """Each with the rows below that stand deeper, or, where nothing says how deep, up to the next group."""
    stops = next_above(depth if len({*depth}) > 1 else [not one for one in summaries])
    before = [*accumulate((not one for one in summaries), initial=0)]  # how many activities stand before each row
    return [Group(row.cell(Column.NAME), range(1 + before[place], 1 + before[stops[place]]))
            for place, row in enumerate(rows) if summaries[place]]


def next_above(depth: Sequence[int]) -> list[int]:
    """Of each row the next one that is not deeper, or where the rows end."""
    found, above = [len(depth)] * len(depth), list[int]()
    for place, deep in enumerate(depth):
        while above and depth[above[-1]] >= deep:
            found[above.pop()] = place
        above.append(place)
    return found
