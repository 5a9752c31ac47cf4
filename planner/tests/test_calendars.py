"""Calendars beside a list of all periods, which is made minute by minute and day by day: what begins and ends when, and
which time a moment is; and that lags in calendar days are kept wherever they begin."""
import datetime
import random
import unittest

from psmax.calendars import Calendar, Days, Shifts
from psmax.dated import everywhere

MINUTE, DAY = datetime.timedelta(minutes=1), datetime.timedelta(days=1)
SHIFTS = (((480, 960),), ((420, 720), (780, 960)), ((0, 360), (1320, 1440)), ((0, 1440),))
Period = tuple[datetime.datetime, datetime.datetime]


class Chance:
    """A calendar by chance, with the list of its first periods."""

    def __init__(self, seed: int, by_shift: bool) -> None:
        self.chance = random.Random(seed)
        workdays = frozenset(self.chance.sample(range(7), self.chance.randint(1, 7)))
        holidays = frozenset(datetime.date(2026, 3, self.chance.randint(1, 31))
                             for _ in range(self.chance.randint(0, 6)))
        first = datetime.datetime(2026, 3, self.chance.randint(1, 9), self.chance.choice((0, 9, 13)) if by_shift else 0)
        minutes, shift = self.chance.choice((30, 60)), self.chance.choice(SHIFTS)
        days = Days(first.date(), 1, workdays, holidays)
        self.calendar: Calendar = Shifts(first, minutes, days, shift) if by_shift else days
        parts = [(begin, begin + minutes) for part in shift
                 for begin in range(*part, minutes)] if by_shift else [(0, 1440)]
        self.periods: list[Period] = []
        midnight = datetime.datetime(first.year, first.month, first.day)
        while len(self.periods) < 60:
            if midnight.weekday() in workdays and midnight.date() not in holidays:
                self.periods += [(midnight + begin * MINUTE, midnight + end * MINUTE) for begin, end in parts
                                 if midnight + begin * MINUTE >= first]
            midnight += DAY


class Calendars(unittest.TestCase):
    def test_periods(self) -> None:
        for seed in range(40):
            found = Chance(seed, seed % 2 == 0)
            for time, (begin, end) in enumerate(found.periods[:50]):
                self.assertEqual((found.calendar.begins(time), found.calendar.ended(time + 1)), (begin, end), seed)

    def test_moments(self) -> None:
        """The first time that is not before a moment has before it the periods that begin before; the last one by which
        all has ended those that end by then."""
        for seed in range(80):
            found = Chance(seed, seed % 2 == 0)
            for _ in range(10):
                minutes = found.chance.choice((0, 0, 30, 17))
                moment = datetime.datetime(2026, 3, found.chance.randint(1, 12), found.chance.randint(0, 23), minutes)
                begun = sum(begin < moment for begin, _ in found.periods)
                over = sum(end <= moment for _, end in found.periods)
                if begun < 50:
                    self.assertEqual(found.calendar.from_on(moment), begun, (seed, moment))
                    self.assertEqual(max(0, found.calendar.by(moment)), over, (seed, moment))

    def test_calendar_days(self) -> None:
        """What is planned keeps the lag from every time on, by the moments themselves."""
        for seed in range(0, 40):
            calendar = Chance(seed, seed % 2 == 0).calendar
            days, from_end, is_least = 1 + seed % 5, seed % 3 != 0, seed % 4 < 2
            least, most = everywhere(calendar, days, from_end, is_least)
            periods = most if is_least else least
            for time in range(1, 45):
                begin = calendar.ended(time) if from_end else calendar.begins(time)
                start = calendar.begins(time + periods)
                self.assertTrue(start >= begin + days * DAY if is_least else start <= begin + days * DAY, (seed, time))
