"""Which day, or which moment, a period of a project is. Time t is the end of period t - 1 and the begin of period t."""
import datetime
from bisect import bisect_left
from collections.abc import Sequence
from fractions import Fraction
from math import gcd

from .dates import DateStyle, weekday

MINUTES = {"minutes": 1, "hours": 60, "days": 24 * 60, "weeks": 7 * 24 * 60}  # of each kind of period
DAY = datetime.timedelta(days=1)
MINUTE, ZERO = datetime.timedelta(minutes=1), datetime.timedelta(0)
YEARS = 10  # that are looked at for changes of clocks
WHOLE_DAY = ((0, 24 * 60),)
MOST_DAYS = 4_000_000  # more than there are until the year 9999
BEYOND = "the schedule goes beyond the years 1 to 9999"  # told where a date overflows


class Calendar:
    """What times are called. They may be asked for from before the first one to long after the last."""

    heads: tuple[str, str]
    is_by_day = False  # whether a period has no hours
    style = DateStyle()

    def begins(self, time: int) -> datetime.datetime:
        """When the period that begins at this time begins."""
        raise NotImplementedError

    def ended(self, time: int) -> datetime.datetime:
        """When the period that ends at this time has ended."""
        raise NotImplementedError

    def from_on(self, moment: datetime.datetime) -> int:
        """The first time that is not before the moment; 0 for one before the project."""
        raise NotImplementedError

    def by(self, moment: datetime.datetime) -> int:
        """The last time at which all has ended by the moment; below 0 for one before the project."""
        raise NotImplementedError

    def span(self, begins: int, ends: int, is_morning: bool = False) -> tuple[datetime.datetime, datetime.datetime]:
        """The first and the last day of work, or the moments. What takes no time stands at the end of the work before
        it, or where the next begins."""
        raise NotImplementedError

    def times(self, begins: int, ends: int, is_morning: bool = False) -> tuple[str, str]:
        """The same as dates are written here."""
        first, last = self.span(begins, ends, is_morning)
        return self.told(first), self.told(last)

    def told(self, at: datetime.datetime) -> str:
        return self.style.day(at) if self.is_by_day else self.style.moment(at)

    def brief(self, at: datetime.datetime) -> str:
        """A day or a moment of `span` with its day of the week."""
        return self.brief_day(at) + ("" if self.is_by_day else f" {at:%H:%M}")

    def brief_day(self, at: datetime.datetime) -> str:
        return f"{weekday(at)} {self.style.short(at)}"

    def mark(self, time: int) -> str:
        """A period in few letters."""
        raise NotImplementedError

    def hours_of(self, day: datetime.date) -> Sequence[tuple[int, int]]:
        """The hours of work of a day, in its minutes."""
        return WHOLE_DAY

    def without_holidays(self) -> "Calendar":
        return self

    def round(self) -> int:
        """After so many periods the days of the week are the same again."""
        return 1

    def periods_a_day(self) -> Fraction | None:
        """How many periods any 24 hours have; none where some have fewer."""
        return None

    def holidays_of(self) -> list[datetime.datetime]:
        return []

    def changes(self) -> int:
        """By how many periods days can differ where clocks change."""
        return 0

    def round_or_none(self) -> int | None:
        """The same as `round`, where that holds for ever."""
        return self.round() if not self.changes() else None

    def quiet(self) -> int:
        """The time from which on there are no holidays."""
        return max([0, *(self.from_on(day + DAY) for day in self.holidays_of())])

    def key(self) -> tuple[object, ...]:
        """What it is made of: calendars of the same are the same."""
        raise NotImplementedError

    def __eq__(self, other: object) -> bool:
        return isinstance(other, Calendar) and type(self) is type(other) and self.key() == other.key()

    def __hash__(self) -> int:
        return hash(self.key())


class Days(Calendar):
    """Periods of a working day each, or of so many."""

    heads = ("first day", "last day")
    is_by_day = True

    def __init__(self, first: datetime.date, step: int, workdays: frozenset[int],
                 holidays: frozenset[datetime.date]) -> None:
        self.first = first
        self.step = step
        self.workdays = workdays
        self.holidays = holidays
        self.days = [self.working(first, DAY)]

    def working(self, day: datetime.date, step: datetime.timedelta) -> datetime.date:
        """The first working day from this one on, forward or back."""
        while day.weekday() not in self.workdays or day in self.holidays:
            day += step
        return day

    def day(self, place: int) -> datetime.date:
        """The working day of this place; the first one has the place 0."""
        if abs(place) > MOST_DAYS:
            raise OverflowError
        while len(self.days) <= place:
            self.days.append(self.working(self.days[-1] + DAY, DAY))
        day = self.days[max(place, 0)]
        for _ in range(-place):
            day = self.working(day - DAY, -DAY)
        return day

    def place(self, day: datetime.date) -> int:
        """The place of the first working day that is not before this one; 0 for one before the project."""
        while self.days[-1] < day:
            self.day(len(self.days))
        return bisect_left(self.days, day)

    def begins(self, time: int) -> datetime.datetime:
        return at_midnight(self.day(self.step * time))

    def ended(self, time: int) -> datetime.datetime:
        return at_midnight(self.day(self.step * time - 1)) + DAY

    def from_on(self, moment: datetime.datetime) -> int:
        is_later = moment > at_midnight(moment.date())
        return -(-self.place(moment.date() + DAY * is_later) // self.step)

    def by(self, moment: datetime.datetime) -> int:
        return -1 if moment.date() < self.days[0] else self.place(moment.date()) // self.step

    def span(self, begins: int, ends: int, is_morning: bool = False) -> tuple[datetime.datetime, datetime.datetime]:
        last = self.day(self.step * ends - 1) if ends > 0 and not (is_morning and begins == ends) else \
            self.day(self.step * ends)
        first = self.day(self.step * begins) if ends > begins else last
        return at_midnight(first), at_midnight(last)

    def mark(self, time: int) -> str:
        return self.style.mark(self.day(self.step * time))

    def hours_of(self, day: datetime.date) -> Sequence[tuple[int, int]]:
        return WHOLE_DAY if day.weekday() in self.workdays and day not in self.holidays else ()

    def without_holidays(self) -> Calendar:
        return Days(self.first, self.step, self.workdays, frozenset())

    def periods_a_day(self) -> Fraction | None:
        return Fraction(1, self.step) if len(self.workdays) == 7 and not self.holidays else None

    def round(self) -> int:
        return len(self.workdays)

    def holidays_of(self) -> list[datetime.datetime]:
        return [at_midnight(day) for day in sorted(self.holidays)]

    def key(self) -> tuple[object, ...]:
        return self.first, self.step, self.workdays, self.holidays


class Moments(Calendar):
    """Periods of so many minutes, around the clock. In a time zone a day on which clocks change has an hour less or
    more."""

    heads = ("from", "until")

    def __init__(self, first: datetime.datetime, minutes: int, zone: datetime.tzinfo = datetime.UTC) -> None:
        self.zone = zone
        self.first = self.absolute(first)
        self.length = datetime.timedelta(minutes=minutes)

    def absolute(self, moment: datetime.datetime) -> datetime.datetime:
        return moment.replace(tzinfo=self.zone).astimezone(datetime.UTC)

    def begins(self, time: int) -> datetime.datetime:
        return (self.first + time * self.length).astimezone(self.zone).replace(tzinfo=None)

    def ended(self, time: int) -> datetime.datetime:
        return self.begins(time)

    def from_on(self, moment: datetime.datetime) -> int:
        return max(0, -((self.first - self.absolute(moment)) // self.length))

    def by(self, moment: datetime.datetime) -> int:
        return max(-1, (self.absolute(moment) - self.first) // self.length)

    def span(self, begins: int, ends: int, is_morning: bool = False) -> tuple[datetime.datetime, datetime.datetime]:
        return self.begins(begins), self.begins(ends)

    def mark(self, time: int) -> str:
        return self.begins(time).strftime("%d %H:%M")

    def round(self) -> int:
        """A day, in whole periods; where these don't divide it, as many as a number of days has."""
        return int(DAY / MINUTE) // gcd(int(DAY / MINUTE), int(self.length / MINUTE))

    def periods_a_day(self) -> Fraction:
        return Fraction(int(DAY / MINUTE), int(self.length / MINUTE))

    def changes(self) -> int:
        days = [(self.first + day * DAY).astimezone(self.zone).utcoffset() or ZERO for day in range(YEARS * 366)]
        return -((min(days) - max(days)) // self.length)

    def key(self) -> tuple[object, ...]:
        return self.first, self.length, self.zone


class Shifts(Calendar):
    """Periods of so many minutes, each within the hours of work of a working day."""

    heads = ("from", "until")

    def __init__(self, first: datetime.datetime, minutes: int, days: Days, shift: Sequence[tuple[int, int]]) -> None:
        self.first, self.minutes, self.days, self.shift = first, minutes, days, shift
        self.slots = [begins for part in shift for begins in range(part[0], part[1], minutes)]
        of_day = (first - at_midnight(days.day(0))) / MINUTE
        self.skipped = bisect_left(self.slots, of_day)  # periods of the first day that are over when the project begins

    def slot(self, time: int) -> datetime.datetime:
        day, slot = divmod(time + self.skipped, len(self.slots))
        return at_midnight(self.days.day(day)) + as_timedelta(self.slots[slot])

    def begins(self, time: int) -> datetime.datetime:
        return self.slot(time)

    def ended(self, time: int) -> datetime.datetime:
        return self.slot(time - 1) + as_timedelta(self.minutes)

    def from_on(self, moment: datetime.datetime) -> int:
        return max(0, self.passed(moment, 0))

    def by(self, moment: datetime.datetime) -> int:
        return max(-1, self.passed(moment, self.minutes - 1) if moment >= self.slot(0) else -1)

    def passed(self, moment: datetime.datetime, minutes: int) -> int:
        """How many periods begin so many minutes before the moment, or sooner."""
        place = self.days.place(moment.date())
        is_workday = self.days.day(place) == moment.date()
        of_day = (moment - at_midnight(moment.date())) / MINUTE
        today = bisect_left(self.slots, of_day - minutes) if is_workday else 0
        return place * len(self.slots) + today - self.skipped

    def span(self, begins: int, ends: int, is_morning: bool = False) -> tuple[datetime.datetime, datetime.datetime]:
        last = self.begins(ends) if ends <= 0 or is_morning and begins == ends else self.ended(ends)
        return self.begins(begins) if ends > begins else last, last

    def mark(self, time: int) -> str:
        return self.begins(time).strftime("%d %H:%M")

    def hours_of(self, day: datetime.date) -> Sequence[tuple[int, int]]:
        return self.shift if self.days.hours_of(day) else ()

    def without_holidays(self) -> Calendar:
        days = Days(self.days.first, 1, self.days.workdays, frozenset())
        return Shifts(self.first, self.minutes, days, self.shift)

    def periods_a_day(self) -> Fraction | None:
        is_all_day = len(self.slots) * as_timedelta(self.minutes) == DAY
        return Fraction(len(self.slots)) if is_all_day and self.days.periods_a_day() else None

    def round(self) -> int:
        return len(self.slots) * len(self.days.workdays)

    def holidays_of(self) -> list[datetime.datetime]:
        return self.days.holidays_of()

    def key(self) -> tuple[object, ...]:
        return self.first, self.minutes, self.days, tuple(self.shift)


def at_midnight(day: datetime.date) -> datetime.datetime:
    return datetime.datetime(day.year, day.month, day.day)


def as_timedelta(count: int) -> datetime.timedelta:
    return datetime.timedelta(minutes=count)
