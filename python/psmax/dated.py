"""Lags in calendar days, or to the next shift: how many periods one is depends on when it begins. A project has an
ordinary arc for each, of the lag that every date allows; `cases` keeps the rest."""
from bisect import bisect_left
from collections.abc import Mapping, Sequence
from dataclasses import dataclass
from fractions import Fraction
from functools import lru_cache
from typing import Self

from .calendars import DAY, Calendar
from .project import Arc

LONGEST = 10_000  # starts that are looked at one by one
MOST_DAYS = 10_000  # of a lag
ODD_DAYS = f"calendar days are a whole number, from 0 to {MOST_DAYS:,}"


@dataclass(frozen=True)
class DatedLag:
    """So many calendar days from the end or the start of one activity to the start of another, at least or at most. It
    counts from `base` after the start of the first activity."""

    arc: Arc  # in the project
    days: int
    base: int
    from_end: bool
    is_least: bool
    calendar: Calendar

    @classmethod
    def of(cls, before: int, after: int, base: int, days: int, is_least: bool, takes_time: bool,
           calendar: Calendar) -> Self:
        """From the start of an activity, which may take time, to that of another one."""
        from_end = base > 0 if takes_time else not is_least
        least, most = everywhere(calendar, days, from_end, is_least)
        arc = Arc(before, after, base + least) if is_least else Arc(after, before, -base - most)
        return cls(arc, days, base, from_end, is_least, calendar)

    @property
    def first(self) -> int:
        """The activity from which it counts."""
        return self.arc.tail if self.is_least else self.arc.head

    @property
    def last(self) -> int:
        """The activity that starts after that."""
        return self.arc.head if self.is_least else self.arc.tail

    def limit(self, time: int) -> int:
        """The first start that is late enough where it counts from this time, or the last one that is soon enough. It
        never falls as the time rises."""
        return limit_at(self.calendar, self.days, self.from_end, self.is_least, time)

    def slack(self, starts: Sequence[int] | Mapping[int, int]) -> int:
        """By how much it is kept; below 0 where it is not."""
        found = self.limit(starts[self.first] + self.base)
        return starts[self.last] - found if self.is_least else found - starts[self.last]

    def split(self, time: int) -> tuple[tuple[Arc, ...], tuple[Arc, ...]]:
        """The arcs of two cases, of which each schedule that keeps it has one: it counts from before this time; or from
        then or later, and the last activity starts no sooner than if it were from then. A maximum lag is the other way
        round."""
        start, found = time - self.base, self.limit(time)
        if self.is_least:
            return (Arc(self.first, 0, 1 - start),), (Arc(0, self.first, start), Arc(0, self.last, found))
        return (Arc(0, self.first, start + 1),), (Arc(self.first, 0, -start), Arc(self.last, 0, -found))

    def worst(self) -> Arc:
        """Its arc that keeps it on each date, for what may be too long."""
        least, most = everywhere(self.calendar, self.days, self.from_end, self.is_least)
        return self.arc._replace(lag=self.base + most if self.is_least else -self.base - least)

    def most(self) -> int:
        """The most periods that it can be."""
        return everywhere(self.calendar, self.days, self.from_end, self.is_least)[1]

    def quiet(self) -> int:
        """The time from which on one round of the calendar is like another."""
        return self.calendar.quiet()

    def within(self, soonest: int, latest: int) -> Arc:
        """Its arc where the first activity starts from the soonest to the latest start."""
        if latest - soonest > LONGEST:
            return self.arc
        lags = [self.limit(start + self.base) - start for start in range(soonest, latest + 1)]
        least = (min(lags) if self.is_least else -max(lags)) if lags else self.arc.lag
        return self.arc._replace(lag=max(self.arc.lag, least))


@dataclass(frozen=True)
class ShiftLag(DatedLag):
    """A part starts when the next shift after the one before it begins, whichever that is."""

    shifts: tuple[int, ...] = ()  # when each begins; behind these the arc alone says how far the next one is

    def limit(self, time: int) -> int:
        place = bisect_left(self.shifts, time)
        return self.shifts[place] if place < len(self.shifts) else time + self.most()

    def within(self, soonest: int, latest: int) -> Arc:
        """By the shifts with which the part before may begin."""
        steps = [self.limit(start + self.base) - start for start in self.shifts if soonest <= start <= latest]
        is_all = bool(steps) and latest <= self.shifts[-1]
        return self.arc._replace(lag=max(self.arc.lag, -max(steps))) if is_all else self.arc

    def most(self) -> int:
        return -self.arc.lag - self.base

    def worst(self) -> Arc:
        return self.arc._replace(lag=-min(self.limit(begin + self.base) - begin for begin in self.shifts))

    def quiet(self) -> int:
        return max(super().quiet(), *self.shifts)


def are_days(value: Fraction) -> bool:
    return value.denominator == 1 and 0 <= value <= MOST_DAYS


@lru_cache(maxsize=200_000)
def limit_at(calendar: Calendar, days: int, from_end: bool, is_least: bool, time: int) -> int:
    begin = calendar.ended(time) if from_end and time > 0 else calendar.begins(time)
    first = calendar.from_on(begin + days * DAY)
    return first if is_least or calendar.begins(first) <= begin + days * DAY else first - 1


@lru_cache(maxsize=1_000)
def everywhere(calendar: Calendar, days: int, from_end: bool, is_least: bool) -> tuple[int, int]:
    """The least and the greatest number of periods that such a lag can be, wherever it begins. Far from holidays one
    week is like another. Where clocks change a day has more periods or fewer."""
    plain, least = calendar.without_holidays(), int(from_end)
    lags = {limit_at(plain, days, from_end, is_least, time) - time for time in range(least, plain.round() + 1)}
    for holiday in calendar.holidays_of():
        first, last = calendar.from_on(holiday - (days + 1) * DAY), calendar.from_on(holiday + DAY)
        lags |= {limit_at(calendar, days, from_end, is_least, time) - time
                 for time in range(max(least, first), last + 1)}
    return min(lags) - calendar.changes(), max(lags) + calendar.changes()


def broken(lags: Sequence[DatedLag], starts: Sequence[int]) -> int | None:
    """The place of the lag that is broken by most; none where all are kept."""
    slacks = [one.slack(starts) for one in lags]
    return slacks.index(min(slacks)) if slacks and min(slacks) < 0 else None
