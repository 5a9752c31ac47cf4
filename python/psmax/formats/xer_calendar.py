"""The calendars of a .xer file: the hours of each day of the week, and the days that have others. They stand in a cell
as lists in brackets, `(0||NAME(KEY|VALUE)(LISTS))`, in which days count from Sunday, 1, and dates from 30 December
1899."""
import datetime
import re
from collections.abc import Collection, Iterator, Mapping, Sequence
from dataclasses import dataclass

from ..crew_hours import Span
from ..dates import MIDNIGHT, SHORT_DAYS, clock_text, day_ranges, read_shift, read_workdays, span_text
from ..errors import BadInput
from ..letters import short
from .xer_tables import Row, cell_of

ENTRY = re.compile(r"\(\d\|\|(\w+)\(([^()]*)\)\(|\)\)")
HOURS = re.compile(r"(\d\d?):(\d\d)")
ZERO = datetime.date(1899, 12, 30)
LAST_DATE = 110_000  # in the year 2201
SUNDAY, WEEK = 1, 7
DEEPEST = 10  # lists in lists, of which there are four, and calendars that one is based on
MOST_SIGNS = 2_000_000  # of the calendars that are used; one that another is based on counts again
Spans = tuple[str, ...]  # hours of work, such as 08:00-12:00


@dataclass
class Entry:
    name: str
    told: dict[str, str]
    inner: list["Entry"]


@dataclass(frozen=True)
class CalendarHours:
    """A calendar as far as it matters: from the start of the project on."""

    week: Mapping[int, Spans]  # of the days of the week with work; Monday is 0
    others: Mapping[datetime.date, Spans]  # days with other hours than those

    def is_round_the_clock(self) -> bool:
        return len(self.week) == WEEK and {*self.week.values()} == {("00:00-24:00",)} and not self.others

    def plain(self, called: str) -> tuple[str, str, tuple[datetime.date, ...]]:
        """The days with work, their hours, and days off. All days with work must have the same hours."""
        if not self.week:
            raise BadInput(f"{called} has no work")
        if len({*self.week.values()}) > 1:
            raise BadInput(f"{called}: its days have different hours, and all periods here are alike")
        shift = ",".join(next(iter(self.week.values())))
        try:
            read_shift(shift)
        except ValueError as fault:
            raise BadInput(f"{called}: {fault}") from None
        odd = [day for day, spans in sorted(self.others.items()) if spans]
        if odd:
            raise BadInput(f"{called}: {odd[0]} has hours of its own, and all days with work are alike here")
        return day_ranges(self.week, SHORT_DAYS), shift, tuple(sorted(self.others))


def read_calendar(calendars: Mapping[str, Row], uid: str, first: datetime.date) -> CalendarHours:
    """The hours from a day on. A calendar has the days off of the one that it is based on too."""
    own = calendars[uid]
    called = f"calendar '{short(cell_of(own, 'clndr_name'))}'"
    lists = read_lists(cell_of(own, "clndr_data"), called)
    week = {(int(one.name) - SUNDAY - 1) % WEEK: spans_of(one.inner, called)
            for one in entries_below(lists, "DaysOfWeek")
            if re.fullmatch("[1-7]", one.name)}
    others = dict[datetime.date, Spans]()
    for row in base_first(calendars, uid):
        lists = read_lists(cell_of(row, "clndr_data"), called)
        others |= {date_of(one.told.get("d", ""), called): spans_of(one.inner, called)
                   for one in entries_below(lists, "Exceptions")}
    work = {day: spans for day, spans in sorted(week.items()) if spans}
    return CalendarHours(work, {day: spans for day, spans in others.items()
                                if day >= first and spans != work.get(day.weekday(), ())})


def base_first(calendars: Mapping[str, Row], uid: str) -> list[Row]:
    """A calendar behind the one that it is based on, and so on."""
    found: list[str] = []
    while uid in calendars and uid not in found:
        if len(found) > DEEPEST:
            name = short(cell_of(calendars[found[0]], "clndr_name"))
            raise BadInput(f"calendar '{name}' is based on more than {DEEPEST} others")
        found.append(uid)
        uid = cell_of(calendars[uid], "base_clndr_id")
    return [calendars[one] for one in reversed(found)]


def read_lists(text: str, called: str) -> list[Entry]:
    """The lists that stand in a text one in another."""
    top = list[Entry]()
    stack = [top]
    text, place = "".join(sign for sign in text if sign.isprintable() and sign != " "), 0
    while place < len(text):
        found = ENTRY.match(text, place)
        if found is None or found[1] is None and len(stack) == 1 or len(stack) > DEEPEST:
            raise BadInput(f"{called}: its clndr_data is no list of days and hours: '{short(text[place:])}'")
        if found[1] is not None:
            told = found[2].split("|")
            one = Entry(found[1], dict(zip(told[::2], told[1::2])), [])
            stack[-1].append(one)
            stack.append(one.inner)
        else:
            stack.pop()
        place = found.end()
    if not top or len(stack) > 1:
        raise BadInput(f"{called}: its clndr_data is cut off, or empty")
    return top


def entries_below(lists: list[Entry], name: str) -> Iterator[Entry]:
    """What stands in the lists of this name, however deep these are."""
    for one in lists:
        yield from one.inner if one.name == name else entries_below(one.inner, name)


def spans_of(lists: list[Entry], called: str) -> Spans:
    """The hours of a day, in their order. A part that touches the one before it goes on with that."""
    spans = sorted(span(one.told, called) for one in lists)
    found: list[tuple[int, int]] = []
    for begins, ends in spans:
        if found and found[-1][1] == begins:
            found[-1] = found[-1][0], ends
        else:
            found.append((begins, ends))
    return tuple(map(span_text, found))


def span(told: Mapping[str, str], called: str) -> tuple[int, int]:
    """In minutes of the day. A day ends at 24:00, which Primavera writes as 00:00 or as 23:59."""
    begins, ends = (HOURS.fullmatch(told.get(key, "")) for key in "sf")
    if begins is None or ends is None:
        raise BadInput(f"{called}: hours that are not such as 08:00")
    first, last = (60 * int(one[1]) + int(one[2]) for one in (begins, ends))
    last = 24 * 60 if last in (0, 24 * 60 - 1) else last
    if not first < last <= 24 * 60:
        raise BadInput(f"{called}: hours from {begins[0]} to {ends[0]}, which are none of a day")
    return first, last


def date_of(text: str, called: str) -> datetime.date:
    if not re.fullmatch("[0-9]{1,6}", text) or int(text) > LAST_DATE:
        raise BadInput(f"{called}: a day with other hours that is no number of days since {ZERO}: '{short(text)}'")
    return ZERO + datetime.timedelta(int(text))


def calendar_data(workdays: str, shift: str, free: Collection[datetime.date]) -> str:
    """The cell of a calendar."""
    work, parts = read_workdays(workdays), read_shift(shift)
    return data_of([parts if day in work else () for day in range(WEEK)], free)


def data_of(week: Sequence[Sequence[Span]], free: Collection[datetime.date]) -> str:
    """The same by the hours of Monday to Sunday."""
    days = "".join(f"(0||{day}()({spans_text(week[(day - SUNDAY - 1) % WEEK])}))"
                   for day in range(SUNDAY, SUNDAY + WEEK))
    off = "".join(f"(0||{place}(d|{(day - ZERO).days})())" for place, day in enumerate(sorted(free)))
    return f"(0||CalendarData()((0||DaysOfWeek()({days}))(0||Exceptions()({off}))))"


def spans_text(spans: Sequence[Span]) -> str:
    return "".join(f"(0||{place}(s|{clock_text(begins)}|f|{clock_text(ends % MIDNIGHT)})())"
                   for place, (begins, ends) in enumerate(spans))
