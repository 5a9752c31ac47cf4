"""Dates, days of the week and hours of work, as people write them and as they are written for them."""
import datetime
import re
from collections import Counter
from collections.abc import Collection, Iterable, Sequence
from dataclasses import dataclass
from functools import lru_cache

from .letters import short

DAYS = (  # of the week, in English and in German
    ("mon", "monday", "mo", "montag"),
    ("tue", "tuesday", "tues", "tu", "di", "dienstag"),
    ("wed", "wednesday", "we", "mi", "mittwoch"),
    ("thu", "thursday", "thur", "thurs", "th", "do", "donnerstag"),
    ("fri", "friday", "fr", "freitag"),
    ("sat", "saturday", "sa", "samstag", "sonnabend"),
    ("sun", "sunday", "su", "so", "sonntag"),
)
SHORT_DAYS = tuple(names[0] for names in DAYS)
WEEKDAY = {name: number for number, names in enumerate(DAYS) for name in names}
ORDERS = ("dmy", "mdy")  # of day, month and year, where slashes stand between them
CLOCK = r"(?:(?:T|\s+)(\d{1,2}):(\d\d)(?::00(?:\.0*)?)?)?"
ISO = re.compile(r"(\d{4})-(\d{1,2})-(\d{1,2})" + CLOCK)
DOTS = re.compile(r"(\d{1,2})\.(\d{1,2})\.(\d{4}|\d{2})" + CLOCK)
SLASHES = re.compile(r"(\d{1,2})/(\d{1,2})/(\d{4}|\d{2})" + CLOCK)
NAME = re.compile(r"([A-Za-z]+)[.,]?\s+(?=\d)")  # of a day, in front of its date
SPAN = re.compile(r"(\d{1,2}):(\d\d)\s*[-\u2013]\s*(\d{1,2}):(\d\d)")
EXAMPLE = "not a date such as 2026-03-02, 02.03.2026 or 2026-03-02 06:00"
LONGEST = 100  # signs of a date with blanks around it
MIDNIGHT = 24 * 60
FAR_YEARS = 20  # from the project's start; a date that is farther is a slip
FAR = datetime.timedelta(days=366 * FAR_YEARS)
FORMS = {"iso": "{0.year:04}-{0.month:02}-{0.day:02}", "dots": "{0.day:02}.{0.month:02}.{0.year:04}",
         "dmy": "{0.day:02}/{0.month:02}/{0.year:04}", "mdy": "{0.month:02}/{0.day:02}/{0.year:04}"}
DECIMAL = re.compile(r"[-+]?\d{0,9},\d{1,2}\s*[^\W\d_]*[.?]*")  # with a comma, and perhaps with a unit
MARKS = {"iso": "%m-%d", "dots": "%d.%m.", "dmy": "%d/%m", "mdy": "%m/%d"}


@dataclass(frozen=True)
class Moment:
    at: datetime.datetime
    is_day: bool  # a whole day, without an hour

    def next(self) -> datetime.datetime:
        """The end of the day; the moment itself where it has an hour."""
        return self.at + datetime.timedelta(days=1) if self.is_day else self.at


def is_before(one: Moment, other: Moment) -> bool:
    """Whether one is over before the other begins. A day is not over before a moment of it."""
    return one.next() <= other.at if one.is_day else one.at < other.at


@lru_cache(maxsize=10_000)
def is_dated(text: str) -> bool:
    """Whether a text has the form of a date, whichever it is."""
    if len(text) > LONGEST:
        return False
    text = NAME.sub("", text.strip(), count=1)
    return any(form.fullmatch(text) for form in (ISO, DOTS, SLASHES))


@lru_cache(maxsize=10_000)
def read_moment(text: str, order: str | None = None) -> Moment:
    """A date, perhaps with an hour; ValueError says what is wrong with another text. `order` is that of numbers between
    slashes."""
    named = NAME.match(text.strip())
    weekday = WEEKDAY.get(named[1].lower()) if named else None
    plain = text.strip()[named.end() :] if named and weekday is not None else text.strip()
    found = ISO.fullmatch(plain) or DOTS.fullmatch(plain) or SLASHES.fullmatch(plain)
    if found is None:
        raise ValueError(EXAMPLE)
    if found.re is ISO:
        year, month, day = int(found[1]), int(found[2]), int(found[3])
    else:
        day, month = int(found[1]), int(found[2])
        year = int(found[3]) + (2000 if len(found[3]) == 2 else 0)
    if found.re is SLASHES:
        day, month = day_and_month(day, month, order)
    try:
        at = datetime.datetime(year, month, day, int(found[4] or 0), int(found[5] or 0))
    except ValueError:
        raise ValueError("there is no such date") from None
    if weekday is not None and at.weekday() != weekday:
        raise ValueError(f"that day is a {DAYS[at.weekday()][1].capitalize()}")
    return Moment(at, found[4] is None)


def day_and_month(first: int, second: int, order: str | None) -> tuple[int, int]:
    """The day and the month of a date with slashes."""
    if order is None and first <= 12 and second <= 12 and first != second:
        raise ValueError("the day or the month may stand first; say which by --dates dmy or --dates mdy")
    is_month_first = order == "mdy" if order is not None else second > 12
    return (second, first) if is_month_first else (first, second)


def day_ranges(days: Collection[int], names: Sequence[str]) -> str:
    """Days of the week by these names, such as mon-wed,fri, where some stand one after another."""
    if len(days) == len(names):
        return f"{names[0]}-{names[-1]}"
    found = []
    for first in sorted(day for day in days if (day - 1) % 7 not in days):
        last = first + next(more for more in range(7) if (first + more + 1) % 7 not in days)
        found.append(names[first] if last == first else f"{names[first]}-{names[last % 7]}")
    return ",".join(found)


def clock_text(minutes: int) -> str:
    """A time of the day, which ends at 24:00, or of the next one."""
    rest = minutes if minutes <= MIDNIGHT else minutes - MIDNIGHT
    return f"{rest // 60:02}:{rest % 60:02}"


def span_text(span: tuple[int, int]) -> str:
    """Hours from one minute of the day until another."""
    return f"{clock_text(span[0])}-{clock_text(span[1])}"


def read_workdays(text: str) -> frozenset[int]:
    """The days of the week in a text such as mon-fri, Mo-Fr or mon,wed-fri."""
    found: set[int] = set()
    for part in text.lower().replace("\u2013", "-").split(","):
        ends = [WEEKDAY.get(day.strip(" .")) for day in part.split("-")]
        if len(ends) > 2 or ends[0] is None or ends[-1] is None:
            raise ValueError(f"workdays {short(text)}: not days such as mon-fri, Mo-Sa or mon,wed,fri")
        found |= {(ends[0] + more) % 7 for more in range((ends[-1] - ends[0]) % 7 + 1)}
    return frozenset(found)


def read_shift(text: str) -> tuple[tuple[int, int], ...]:
    """The hours of work of a day, each part from one minute of the day until another."""
    parts: list[tuple[int, int]] = []
    for part in text.split(","):
        found = SPAN.fullmatch(part.strip())
        begins, ends = (60 * int(found[1]) + int(found[2]), 60 * int(found[3]) + int(found[4])) if found else (0, 0)
        if found is None or not begins < ends <= MIDNIGHT or int(found[2]) > 59 or int(found[4]) > 59:
            raise ValueError(f"shift {short(text)}: not hours of a day such as 07:00-12:00,13:00-16:00; a shift over "
                             "midnight is 00:00-06:00,22:00-24:00")
        if parts and begins < parts[-1][1]:
            raise ValueError(f"shift {short(text)}: each part begins after the one before")
        parts.append((begins, ends))
    return tuple(parts)


@dataclass(frozen=True)
class DateStyle:
    """How dates are written: as the planner's table writes them."""

    form: str = "iso"  # one of `FORMS`
    year: int | None = None  # of the project's start, which short dates with dots leave out

    def day(self, day: datetime.date) -> str:
        return FORMS[self.form].format(day)

    def moment(self, at: datetime.datetime) -> str:
        return f"{self.day(at)} {at:%H:%M}"

    def short(self, day: datetime.date) -> str:
        """Without the year where a table with dots would leave it out."""
        return f"{day:%d.%m.}" if self.form == "dots" and day.year == self.year else self.day(day)

    def mark(self, day: datetime.date) -> str:
        """In few letters, for a chart."""
        return f"{day:{MARKS[self.form]}}"


def decimal_sign(texts: Iterable[str]) -> str:
    """A comma where some number has one, such as 1,5 d; else a point, which stands in codes such as 1.2 too."""
    return "," if any(DECIMAL.fullmatch(text.strip()) for text in texts) else "."


def weekday(day: datetime.date) -> str:
    """The day of the week in three letters."""
    return DAYS[day.weekday()][0].capitalize()


def style_of(texts: Iterable[str], order: str | None, first: datetime.date | None) -> DateStyle:
    """By most of the texts that are dates. Dates with slashes need the order of day and month, and are else written as
    2026-03-02, which nobody misreads."""
    found: Counter[str] = Counter()
    for text in texts:
        plain = NAME.sub("", text.strip(), count=1)
        found.update(form for form, pattern in (("iso", ISO), ("dots", DOTS), ("slashes", SLASHES))
                     if pattern.fullmatch(plain))
    form = found.most_common(1)[0][0] if found else "iso"
    return DateStyle((order or "iso") if form == "slashes" else form, None if first is None else first.year)
