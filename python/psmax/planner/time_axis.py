"""Where times stand in a chart: by the clock where there is a calendar, so that nights and days off have their room,
and by their numbers where there is none."""
import datetime
from collections.abc import Iterator, Sequence
from dataclasses import dataclass

from ..calendars import DAY, MINUTE, WHOLE_DAY, Calendar, at_midnight, as_timedelta
from ..crew_hours import DAY_SHIFT, read_hours
from .drawing import Bar, Drawing, round_step

LETTER = 6.5  # pixels of a letter, about
MARK = 100  # pixels from one number to the next, at least
DAYS = {"year": 365, "month": 28, "week": 7, "day": 1, "6 hours": 0.25, "hour": 1 / 24}  # that a band has at least
ROOM = {"year": 30, "month": 26, "week": 18, "day": 17, "6 hours": 18, "hour": 18}  # pixels of a band, at least
BANDS = {"hour": ("month", "day", "hour"), "6 hours": ("month", "day", "6 hours"), "day": ("month", "week", "day"),
         "week": ("month", "week"), "month": ("year", "month"), "year": ("year",)}  # by the finest one that has room
LEAST = 3  # pixels of a shade
SATURDAY = 5


@dataclass(frozen=True)
class Band:
    """A stretch of the ruler, with its name from the longest to the shortest form."""

    begins: float
    ends: float
    names: tuple[str, ...]


@dataclass(frozen=True)
class Shade:
    begins: float
    ends: float
    is_free: bool  # whether nobody works then; else it is a night or a weekend like any other time


class Axis:
    """Places by the numbers of times; `width` is about how many pixels there are."""

    def __init__(self, shown: Drawing, width: float) -> None:
        self.shown, self.width = shown, width
        self.first, self.last = self.limits()

    def limits(self) -> tuple[float, float]:
        return self.shown.begins, self.shown.ends

    def begin(self, time: int) -> float:
        """Where something begins at this time."""
        return time

    def end(self, time: int) -> float:
        """Where something has ended at this time, which is before a night or a day off."""
        return time

    def of(self, bar: Bar) -> tuple[float, float]:
        """Where a bar begins and ends, which is a point where it takes no time."""
        if bar.begins == bar.ends:
            point = self.begin(bar.begins) if bar.is_morning or bar.begins <= 0 else self.end(bar.begins)
            return point, point
        return self.begin(bar.begins), self.end(bar.ends)

    def pixels(self, length: float) -> float:
        return self.width * length / (self.last - self.first)

    def bands(self) -> list[list[Band]]:
        """The rows of the ruler, from the coarsest on."""
        step = round_step(MARK * (self.last - self.first) / self.width)
        first = -(-self.shown.begins // step) * step
        return [[Band(time, time + step, (self.shown.after(time),))
                 for time in range(first, self.shown.ends + 1, step)]]

    def ticks(self) -> list[float]:
        """Where a line stands in all rows."""
        return [band.begins for band in self.bands()[-1]]

    def shades(self) -> list[Shade]:
        return []


class DateAxis(Axis):
    """Places in minutes by the clock."""

    def __init__(self, shown: Drawing, calendar: Calendar, width: float) -> None:
        self.calendar, self.origin = calendar, at_midnight(calendar.begins(shown.begins).date())
        super().__init__(shown, width)
        self.finest = next(kind for kind in BANDS if self.has_room(kind) or kind == "year")

    def limits(self) -> tuple[float, float]:
        """Whole days, or whole hours of the only one."""
        first, last = self.begin(self.shown.begins), self.end(self.shown.ends)
        whole = 60 if last - first <= DAY / MINUTE / 2 else DAY / MINUTE
        return first // whole * whole, max(-(-last // whole), first // whole + 1) * whole

    def has_room(self, kind: str) -> bool:
        is_told = DAYS[kind] >= 1 or not self.calendar.is_by_day
        return is_told and self.pixels(DAYS[kind] * (DAY / MINUTE)) >= ROOM[kind]

    def place(self, moment: datetime.datetime) -> float:
        return (moment - self.origin) / MINUTE

    def begin(self, time: int) -> float:
        return self.place(self.calendar.begins(time))

    def end(self, time: int) -> float:
        return self.place(self.calendar.ended(time))

    def bands(self) -> list[list[Band]]:
        return [[*self.of_kind(kind)] for kind in BANDS[self.finest]]

    def of_kind(self, kind: str) -> Iterator[Band]:
        """The last one, and the first one, may be cut."""
        moment = begin_of(kind, self.origin + as_timedelta(int(self.first)))
        while self.place(moment) < self.last:
            after = next_of(kind, moment)
            yield Band(max(self.first, self.place(moment)), min(self.last, self.place(after)), names_of(kind, moment))
            moment = after

    def ticks(self) -> list[float]:
        """Midnights, or where a week or a month begins if days have no room."""
        kind = self.finest if "hour" not in self.finest else "day"
        return [band.begins for band in self.of_kind(kind)]

    def shades(self) -> list[Shade]:
        """Hours and days without work. Where there are none, nights and weekends."""
        if self.pixels(7 * (DAY / MINUTE)) < LEAST:
            return []
        days = [self.origin.date() + count * DAY for count in range(int(self.last / (DAY / MINUTE)) + 1)]
        free, is_free = self.between(days, [self.calendar.hours_of(day) for day in days]), True
        if not free:
            light = WHOLE_DAY if self.calendar.is_by_day else read_hours(DAY_SHIFT).spans
            free, is_free = self.between(days, [light if day.weekday() < SATURDAY else () for day in days]), False
        return [Shade(begins, ends, is_free) for begins, ends in free if self.pixels(ends - begins) >= LEAST]

    def between(self, days: Sequence[datetime.date],
                hours: Sequence[Sequence[tuple[int, int]]]) -> list[tuple[float, float]]:
        """The stretches between the hours of these days, from the first place to the last."""
        found, until = list[tuple[float, float]](), self.first
        works = [(self.place(at_midnight(day)) + begins, self.place(at_midnight(day)) + ends)
                 for day, parts in zip(days, hours) for begins, ends in parts]
        for begins, ends in [*works, (self.last, self.last)]:
            if until < min(begins, self.last):
                found.append((until, min(begins, self.last)))
            until = max(until, ends)
        return found


def axis_of(shown: Drawing, width: float) -> Axis:
    return Axis(shown, width) if shown.calendar is None else DateAxis(shown, shown.calendar, width)


def begin_of(kind: str, moment: datetime.datetime) -> datetime.datetime:
    day = at_midnight(moment.date())
    if kind in ("hour", "6 hours"):
        return day.replace(hour=moment.hour if kind == "hour" else moment.hour // 6 * 6)
    if kind == "week":
        return day - day.weekday() * DAY
    return day if kind == "day" else day.replace(day=1, month=day.month if kind == "month" else 1)


def next_of(kind: str, moment: datetime.datetime) -> datetime.datetime:
    if kind in ("year", "month"):
        return begin_of(kind, moment + (366 if kind == "year" else 31) * DAY)
    return moment + DAYS[kind] * DAY


def names_of(kind: str, moment: datetime.datetime) -> tuple[str, ...]:
    week, day = moment.isocalendar().week, moment.day
    return {"year": (f"{moment:%Y}",), "month": (f"{moment:%B %Y}", f"{moment:%b %Y}", f"{moment:%b}"),
            "week": (f"CW {week}", f"{week}"), "day": (f"{moment:%a} {day}", f"{day}"),
            "6 hours": (f"{moment:%H}",), "hour": (f"{moment:%H}",)}[kind]
