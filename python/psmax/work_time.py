"""When the work of a project is: its first day, what a period is, which days and hours have work."""
import datetime
import re
from collections.abc import Collection
from dataclasses import dataclass
from math import gcd

from .calendars import MINUTES, Calendar, Days, Moments, Shifts
from .dates import Moment, read_moment, read_shift, read_workdays
from .errors import BadInput, WrongType
from .letters import short

PERIOD = re.compile(r"([1-9][0-9]{0,5}) (minutes|hours)")


@dataclass(frozen=True)
class WorkTime:
    """When the work of a project is, as people write it. BadInput where something of it can't be.

    first     the day or the moment at which the project starts: `2026-03-02`, or a date of Python
    period    what a period is: `days`, `weeks`, `hours`, `minutes`, or such as `30 minutes`
    workdays  such as `mon-fri`; all days where it is not said
    holidays  days without work, as texts or as dates of Python, which they become
    shift     the hours of work of a day, such as `08:00-12:00,13:00-17:00`, for periods that are shorter than a day
    zone      such as `Europe/Berlin`, for hours around the clock"""

    first: str | datetime.date  # which becomes a text
    period: str = "days"
    workdays: str | None = None
    holidays: Collection[datetime.date | str] = ()
    shift: str | None = None
    zone: str | None = None

    def __post_init__(self) -> None:
        for name in ("period", "workdays", "shift", "zone"):
            value = getattr(self, name)
            if not isinstance(value, str) and (value is not None or name == "period"):
                raise WrongType(f"{name}: {short(repr(value))} is no text")
        object.__setattr__(self, "first", first_text(self.first))
        object.__setattr__(self, "holidays", self.free_days)
        must_be_period(self.period)
        try:
            self.calendar()
        except OverflowError:
            raise BadInput(f"'first' is beyond the years 1 to 9999: {short(f'{self.first}')}") from None

    @property
    def begin(self) -> str:
        return f"{self.first}"

    @property
    def free_days(self) -> tuple[datetime.date, ...]:
        """The holidays as dates, in their order."""
        if isinstance(self.holidays, str) or not isinstance(self.holidays, Collection):
            raise WrongType(f"holidays: {short(repr(self.holidays))} is no list of dates")
        return tuple(sorted({*map(day, self.holidays)}))

    def calendar(self) -> Calendar:
        """The dates of the periods."""
        days = frozenset(self.free_days)
        return dates_of_periods(self.begin, self.period, self.workdays, days, self.shift, self.zone)


def dates_of_periods(begin: str, period: str, days_of_work: str | None, holidays: frozenset[datetime.date],
                     hours: str | None, place: str | None, order: str | None = None) -> Calendar:
    """The dates of periods. `order` is that of numbers between slashes in dates."""
    first, where = moment(begin, "from", order).at, zone(place)
    minutes = minutes_of(period)
    is_by_day = days_of_work is not None or bool(holidays)
    if is_by_day and minutes > MINUTES["days"]:
        raise BadInput("workdays and holidays are for periods of a day or less, and a period here is one of the weeks")
    if minutes < MINUTES["days"] and is_by_day and hours is None:
        raise BadInput("workdays and holidays are for periods of a day, and a period here is one of the "
                       f"{period}; with --shift, the hours of work, there are days off too")
    if minutes < MINUTES["days"] and hours is None:
        return Moments(first, minutes, where)
    days = Days(first.date(), max(1, minutes // MINUTES["days"]), workdays(days_of_work), holidays)
    return days if minutes >= MINUTES["days"] else Shifts(first, minutes, days, shift(hours, minutes))


def first_text(first: object) -> str:
    if isinstance(first, datetime.datetime):
        return first.isoformat(" ", "minutes")
    if not isinstance(first, (str, datetime.date)):
        raise WrongType(f"first: {short(repr(first))} is no date such as 2026-03-02")
    return f"{first}"


def day(value: datetime.date | str) -> datetime.date:
    if isinstance(value, str):
        return moment(value, "holidays", None).at.date()
    if isinstance(value, datetime.date):
        return value.date() if isinstance(value, datetime.datetime) else value
    raise WrongType(f"holidays: no date such as 2026-03-02: {short(repr(value))}")


def must_be_period(text: str) -> None:
    if text not in MINUTES and not PERIOD.fullmatch(text):
        raise BadInput(f"period {short(text)}: not one of {', '.join(MINUTES)}, and not such as '30 minutes'")
    if text != "weeks" and minutes_of(text) > MINUTES["days"]:
        raise BadInput(f"period {short(text)}: longer than a day; such periods are days or weeks")


def minutes_of(unit: str) -> int:
    """How long a period is. A kind of period that has no length by the calendar counts as a day."""
    found = PERIOD.fullmatch(unit)
    return int(found[1]) * MINUTES[found[2]] if found else MINUTES.get(unit, MINUTES["days"])


def zone(text: str | None) -> datetime.tzinfo:
    """By the time zones of the system."""
    if text is None:
        return datetime.UTC
    from zoneinfo import ZoneInfo, ZoneInfoNotFoundError
    try:
        return ZoneInfo(text)
    except (ZoneInfoNotFoundError, ValueError, OSError):
        raise BadInput(f"zone {short(text)}: no time zone that this system knows, such as Europe/Berlin") from None


def shift(text: str | None, minutes: int) -> tuple[tuple[int, int], ...]:
    """The hours of work, which a period must divide; and a first day that begins behind them all has none of them."""
    try:
        parts = read_shift(text or "")
    except ValueError as fault:
        raise BadInput(str(fault)) from None
    odd = [part for part in parts if (part[1] - part[0]) % minutes]
    if odd:
        raise BadInput(f"shift {text}: a part of {odd[0][1] - odd[0][0]} minutes has no whole number of periods "
                       f"of {minutes}; --period '{gcd(minutes, *(ends - begins for begins, ends in parts))} minutes' "
                       "has")
    return parts


def workdays(text: str | None) -> frozenset[int]:
    try:
        return read_workdays("mon-sun" if text is None else text)
    except ValueError as fault:
        raise BadInput(str(fault)) from None


def moment(text: str, name: str, order: str | None) -> Moment:
    try:
        return read_moment(text, order)
    except ValueError as fault:
        raise BadInput(f"{name} {short(text)}: {fault}") from None
