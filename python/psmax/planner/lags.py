"""The lags of a table: what its columns `after`, `at least`, `at most` and `predecessors` say, as arcs from start to
start. A lag to or from a group is one of each of its activities."""
import re
from collections.abc import Collection, Iterable, Mapping, Sequence
from contextlib import suppress
from dataclasses import dataclass, field, replace
from fractions import Fraction

from ..dated import ODD_DAYS, DatedLag, are_days
from ..dates import is_dated
from ..letters import MOST_TOLD, short
from ..model import Group
from ..project import MOST_UNITS, Arc
from .columns import Column
from .faults import CellFault, Faults
from .quantities import NUMBER, WORDS, Length, Unit, number_text, read_length
from .rows import Row

START = "start"  # the start of the project, as something to come after
START_OF = "start of "  # before a name: its start, and not its end
WITH = "with "  # before a name: start to start, with lags 0 and 0
ANY = "any"  # no minimum lag
QUOTED = re.compile(r'\s*(?:"((?:[^"]|"")*)"\s*|([^;]*))(?:;|$)')
GERMAN = {"EA": "FS", "AA": "SS", "EE": "FF", "AE": "SF"}
LINK = re.compile(r"(.*?)\s*(?:(FS|SS|FF|SF|EA|AA|EE|AE)\s*([-+][^<\u2264]*)?(?:(?:<=?|\u2264)(.*))?)?", re.I)
SIGN = r"(?:[-+]|<=?|\u2264)\s*"  # before the number of a lag
DECIMAL = re.compile(rf"({SIGN}\d+),(\d+\s*(?:(?:{'|'.join(WORDS)})\b|%))", re.I)  # a comma elsewhere separates
EITHER = re.compile(rf"{SIGN}\d+,\d+\s*(?:,|$)")
LENGTHS = re.compile(rf"{SIGN}({NUMBER}(?![\d.,]*\s*%)\s*[^\W\d_]*)")
SHARE = re.compile(rf"({NUMBER})\s*%")  # of the duration of the activity from which a lag counts


@dataclass
class Activities:
    """What lags are tied to, by name and by number."""

    names: dict[str, int]
    ids: dict[str, int]
    groups: Mapping[str, Group]  # by their names
    group_ids: Mapping[str, Group]
    durations: Sequence[int]  # of the activities from 1 on, at 0 of the first
    planned: Sequence[int]  # the same by the column of durations, whatever has started
    mornings: dict[int, list[int]] = field(default_factory=dict)  # times at which dates say that an activity may start
    lasts: dict[int, int] = field(default_factory=dict)  # the last part of each first one, of what may pause
    unknown: dict[str, str] = field(default_factory=dict)  # names that no activity has, with what is said of a near one

    def length(self, number: int) -> int:
        return self.durations[number - 1]

    def side(self, number: int, is_end: bool) -> "Side":
        """The start or the end of an activity, or of all of its parts."""
        return Side([self.lasts.get(number, number) if is_end else number], is_end)


@dataclass(frozen=True)
class Side:
    """What a lag is tied to at one of its sides: the start or the end of an activity, or of a group, or the start of
    the project and so many periods behind it."""

    numbers: Sequence[int]
    is_end: bool = False
    is_group: bool = False
    behind: int = 0

    def base(self, activities: Activities, number: int) -> int:
        """How long after the start of one of its activities."""
        return activities.length(number) if self.is_end else self.behind


@dataclass
class Lags:
    """The arcs that are read, and what some of them are in calendar days."""

    activities: Activities
    arcs: list[Arc] = field(default_factory=list)
    dated: list[DatedLag] = field(default_factory=list)

    def read(self, row: Row, own: Side, faults: Faults) -> None:
        if row.cell(Column.AFTER):
            with faults.kept():
                self.read_after(row, own)
        else:
            for column in (Column.AT_LEAST, Column.AT_MOST):
                if row.cell(column):
                    with faults.kept():
                        raise row.fault(column, "a lag, but nothing that it comes after")
        with faults.kept():
            for text in links(row):
                self.read_link(row, own, text)

    def read_after(self, row: Row, own: Side) -> None:
        """For each name that the row comes after, the minimum and the maximum lag."""
        low, high = lag(row, Column.AT_LEAST), lag(row, Column.AT_MOST)
        if row.cell(Column.AT_LEAST).lower() == ANY and high is None:
            raise row.fault(Column.AT_LEAST, f"'{ANY}' without a maximum lag says nothing")
        if low is not None and high is not None and low.unit == high.unit and high.value < low.value:
            raise row.fault(Column.AT_MOST, f"at most {row.cell(Column.AT_MOST)} is less than at least "
                            f"{row.cell(Column.AT_LEAST) or 0}")
        for text in split_names(row):
            before, is_with = find_side(self.activities, row, text)
            must_be_others(row, Column.AFTER, before, own)
            if is_with:
                self.tie(row, Column.AFTER, before, own, Length(Fraction(0), Unit.PERIODS), True)
                self.tie(row, Column.AFTER, before, own, Length(Fraction(0), Unit.PERIODS), False)
                continue
            if low is not None:
                self.tie(row, Column.AT_LEAST, before, own, low, True)
            if high is not None:
                self.tie(row, Column.AT_MOST, before, own, high, False)

    def tie(self, row: Row, column: Column, before: Side, own: Side, length: Length, is_least: bool) -> None:
        """An arc for each two activities, which are one lag where each of them has to keep it."""
        column = column if column in row.terms.columns.places else Column.AFTER
        for side, is_exact in ((before, before.is_end == is_least), (own, own.is_end != is_least)):
            if side.is_group and not is_exact:
                verb, which = ("ends", "last") if side.is_end else ("starts", "first")
                raise row.fault(column, f"a group {verb} with the {which} of its activities, whichever that is; name "
                                "the activity")
        for tail in before.numbers:
            for head in own.numbers:
                base = before.base(self.activities, tail) - own.base(self.activities, head)
                self.add(row, column, tail, head, base, length, is_least)

    def add(self, row: Row, column: Column, before: int, activity: int, base: int, length: Length,
            is_least: bool) -> None:
        """One arc: the activity starts so long after `base` periods after the start of the other, at least or at
        most."""
        if length.unit is Unit.CALENDAR_DAYS:
            self.arcs.append(self.from_calendar(row, column, before, activity, base, length, is_least))
            return
        periods = row.periods(column, length)
        if before == 0 and is_least and not self.activities.length(activity) and is_dated(row.cell(Column.AFTER)):
            self.activities.mornings.setdefault(activity, []).append(base + periods)
        total = bounded(row, column, base + periods)
        self.arcs.append(Arc(before, activity, total) if is_least else Arc(activity, before, -total))

    def from_calendar(self, row: Row, column: Column, before: int, activity: int, base: int, length: Length,
                      is_least: bool) -> Arc:
        """The arc that every date allows."""
        calendar, days = row.terms.calendar, length.value
        if calendar is None:
            raise row.fault(column, "calendar days need --from, the first day of the project")
        if not are_days(days):
            raise row.fault(column, ODD_DAYS)
        if before == 0:
            raise row.fault(column, "calendar days count from an activity; write the date that is meant")
        takes_time = self.activities.length(before) > 0
        one = DatedLag.of(before, activity, base, int(days), is_least, takes_time, calendar)
        bounded(row, column, abs(one.arc.lag))
        self.dated.append(one)
        return one.arc

    def read_link(self, row: Row, own: Side, text: str) -> None:
        """One predecessor, such as 12, 14SS, 9FF-1 d, 12FS+50% or 12FS<3 d."""
        column, ids, groups = Column.PREDECESSORS, self.activities.ids, self.activities.group_ids
        plain = self.activities.lasts.get(ids.get(text.casefold(), 0), ids.get(text.casefold()))
        if plain is not None and not own.is_group and plain != own.numbers[0]:
            self.arcs.append(Arc(plain, own.numbers[0], self.activities.length(plain)))
            return
        called, kind, least, most = split_link(text, groups if text.casefold() in groups else ids)
        number, group = ids.get(called.casefold()), groups.get(called.casefold())
        if number is None and group is None:
            raise row.fault(column, no_predecessor(row, text, called))
        before = self.activities.side(number, kind[0] == "F") if number is not None else \
            Side(group.activities if group is not None else [], kind[0] == "F", True)
        must_be_others(row, column, before, own)
        to_end = kind[1] == "F"
        own = Side(own.numbers, to_end, True) if own.is_group else self.activities.side(own.numbers[0], to_end)
        low, high = self.told(row, text, before, least), None if most is None else self.told(row, text, before, most)
        if kind[1] == "F" and Unit.CALENDAR_DAYS in (low.unit, high and high.unit):
            raise row.fault(column, f"'{short(text)}': calendar days are for lags to a start, FS or SS")
        if high is not None and low.unit == high.unit and high.value < low.value:
            raise row.fault(column, f"'{short(text)}': at most {high} is less than at least {low}")
        self.tie(row, column, before, own, low, True)
        if high is not None:
            self.tie(row, column, before, own, high, False)

    def told(self, row: Row, text: str, before: Side, told: str) -> Length:
        """The length of a lag; a share is one of the duration of the activity before, by its column."""
        share = SHARE.fullmatch(told)
        if share is None:
            return row.length(Column.PREDECESSORS, told)
        if before.is_group or before.numbers[0] in {*self.activities.lasts, *self.activities.lasts.values()}:
            which = "a group" if before.is_group else "what may pause"
            raise row.fault(Column.PREDECESSORS, f"'{short(text)}': {which} has no duration of which a lag could be a "
                            "share")
        duration = self.activities.planned[before.numbers[0] - 1]
        periods = duration * Fraction(share[1].replace(",", ".")) / 100
        if periods.denominator != 1:
            raise row.fault(Column.PREDECESSORS, f"'{short(text)}' is {number_text(periods)} periods, which are "
                            f"{row.terms.scale.name()}; write the lag as a length")
        scale = row.terms.scale
        return Length(periods * (scale.minutes if scale.period is Unit.MINUTES else 1), scale.period)


def lag(row: Row, column: Column) -> Length | None:
    """The lag in a cell; none for 'any', and where an empty cell is no lag."""
    text = row.cell(column)
    if column is Column.AT_LEAST and text.lower() == ANY:
        return None
    return row.length(column, text or "0") if text or column is Column.AT_LEAST else None


def split_names(row: Row) -> list[str]:
    """The names of a cell, with ';' between them; one in quotes may have a ';' of its own."""
    text, found, place = row.cell(Column.AFTER), [], 0
    while place < len(text):
        part = QUOTED.match(text, place)
        if part is None:
            raise row.fault(Column.AFTER, "a quote does not end before a ';'")
        found.append(part[1].replace('""', '"') if part[1] is not None else part[2].strip())
        place = part.end()
    return found + ([""] if text.endswith(";") else [])


def find_side(activities: Activities, row: Row, text: str) -> tuple[Side, bool]:
    """What a text names, and whether it says `with`."""
    if text in activities.names:
        return activities.side(activities.names[text], True), False
    lower = text.lower()
    if lower == START:
        return Side([0]), False
    if is_dated(text):
        return Side([0], behind=row.begin(Column.AFTER, text)), False
    begin = "" if text in activities.groups else next((word for word in (START_OF, WITH) if lower.startswith(word)), "")
    name = text[len(begin) :].strip()
    number, group = activities.names.get(name), activities.groups.get(name)
    if number is None and group is None:
        raise row.fault(Column.AFTER, no_activity(activities, name))
    if begin == WITH and (row.cell(Column.AT_LEAST) or row.cell(Column.AT_MOST)):
        raise row.fault(Column.AFTER, "what starts with another has no other lags; they take a row of their own below")
    if number is not None:
        return activities.side(number, not begin), begin == WITH
    return Side(group.activities if group is not None else [], not begin, True), begin == WITH


def must_be_others(row: Row, column: Column, before: Side, own: Side) -> None:
    """What comes after something is no part of that."""
    if before.is_group and not before.numbers:
        raise row.fault(column, "that group has no activities")
    if {*before.numbers} & {*own.numbers}:
        is_group = before.is_group or own.is_group
        raise row.fault(column, "a group and an activity of it can't come one after the other" if is_group else
                        "an activity can't come after itself")


def no_activity(activities: Activities, name: str) -> str:
    if not name:
        return "a name is missing beside a ';'"
    if all(part.strip() in activities.names for part in name.split(",")):
        return f"no activity '{short(name)}'; between names stands ';', and not ','"
    if name not in activities.unknown and len(activities.unknown) < MOST_TOLD:
        activities.unknown[name] = did_you_mean(name, [*activities.names, *activities.groups])
    return f"no activity '{short(name)}'{activities.unknown.get(name, '')}"


def did_you_mean(name: str, names: list[str]) -> str:
    """The one that differs by its case alone, else the nearest one."""
    from difflib import get_close_matches
    folded = [other for other in names if other.casefold() == name.casefold()]
    near = folded or get_close_matches(name, names, 1, 0.8)
    return f"; did you mean '{short(near[0])}'?" if near else ""


def links(row: Row) -> list[str]:
    """The predecessors of a cell. With a ';' in it, a comma is that of a number."""
    text = row.cell(Column.PREDECESSORS)
    if ";" not in text and EITHER.search(text):
        raise row.fault(Column.PREDECESSORS, f"'{short(text)}': the comma may stand in a number or between two "
                        "predecessors; write ';' between these, or a point in the number")
    parts = text.split(";") if ";" in text else DECIMAL.sub(r"\1.\2", text).split(",")
    return [part.strip() for part in parts if part.strip()]


def links_or_none(row: Row) -> list[str]:
    try:
        return links(row)
    except CellFault:
        return []


def split_link(text: str, ids: Collection[str]) -> tuple[str, str, str, str | None]:
    """The number of a predecessor, which two ends are tied, in English, the least lag and the greatest one."""
    found = LINK.fullmatch(text)
    if found is None or text.casefold() in ids:
        return text, "FS", "0", None
    kind = (found[2] or "FS").upper()
    least = re.sub(r"^([-+])\s+", r"\1", found[3] or "0").strip()
    return found[1], GERMAN.get(kind, kind), least, None if found[4] is None else found[4].strip()


def no_predecessor(row: Row, text: str, number: str) -> str:
    if Column.ID not in row.terms.columns.places:
        return "predecessors are numbers of activities, and no column ID has these"
    example = "" if re.fullmatch(r"\w+", number) else ("; a predecessor is such as 12, 12FS+2, 14SS, 9FF-1 d, 3SF, "
                                                       "12FS+50% or 12FS<3 d")
    return f"'{short(text)}': no activity {short(number)}{example}"


def bounded(row: Row, column: Column, lag: int) -> int:
    if abs(lag) > MOST_UNITS:
        raise row.fault(column, f"a lag of {lag:,} from start to start; it is at most {MOST_UNITS:,}")
    return lag


def lengths_in(row: Row) -> list[str]:
    """The texts of a row that may be lengths, by which the period is chosen."""
    columns = (Column.DURATION, Column.REMAINING, Column.AT_LEAST, Column.AT_MOST)
    return [row.cell(column) for column in columns] + LENGTHS.findall(row.cell(Column.PREDECESSORS))


def shares_in(rows: Iterable[Row], own: Unit) -> list[Length]:
    """The lengths of lags that are shares of a duration. What is no such lag is told where the cell is read."""
    rows = [*rows]
    durations = {row.cell(Column.ID).casefold(): row.cell(Column.DURATION) for row in rows}
    found = []
    for link in (link for row in rows if "%" in row.cell(Column.PREDECESSORS) for link in links_or_none(row)):
        called, _, *told = split_link(link, ())
        for share in (SHARE.fullmatch(text) for text in told if text is not None):
            with suppress(ValueError):
                length = read_length(durations.get(called.casefold(), ""), own)
                if share is not None:
                    found.append(replace(length, value=length.value * Fraction(share[1].replace(",", ".")) / 100))
    return found
