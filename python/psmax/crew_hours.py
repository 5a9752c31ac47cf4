"""Hours of a resource of its own, such as 06:00-18:00, nights or Mo-Fr, and the times outside them."""
import datetime
import re
from collections.abc import Collection, Iterator, Mapping, Sequence
from dataclasses import dataclass, replace
from functools import lru_cache

from .calendars import DAY, Calendar, Days, Shifts, at_midnight, as_timedelta
from .dates import MIDNIGHT, SHORT_DAYS, SPAN, read_workdays, span_text
from .errors import BadInput
from .letters import short
from .project import MOST_ACTIVITIES, Numbers, Off
from .serial import serial_end

DAY_SHIFT, NIGHT_SHIFT = "06:00-18:00", "18:00-06:00"  # of two that share a day
WORDS = {word: hours for hours, words in (
    (DAY_SHIFT, "days tags tagschicht"), (NIGHT_SHIFT, "nights nachts nachtschicht"),
) for word in words.split()}
MONDAY = datetime.datetime(2001, 1, 1)  # of some week
WEEK = 7
SPANS = [56 * 2**step for step in range(7)]  # days in which all may have ended
SPARE_DAYS, SPARE_SHARE = 7, 4  # a horizon is a week behind a schedule, or a quarter of it, as that may break lags
EXAMPLE = "not hours such as 06:00-18:00, nights, or Mo-Fr 06:00-18:00"
Stretch = tuple[int, int]  # from one time of the project until another
Span = tuple[int, int]  # of a day, in minutes


@dataclass(frozen=True)
class Hours:
    """A shift over midnight is one of the day on which it begins; without days of its own it is on each night."""

    text: str
    days: frozenset[int] | None  # of the week; none are all of the project's
    spans: tuple[Span, ...]  # one over midnight ends behind it

    def marks(self) -> list[int]:
        """The minutes of the day at which something changes."""
        return sorted({minute % MIDNIGHT for span in self.spans for minute in span} - {0})

    def on(self, first: datetime.date, last: datetime.date) -> Iterator[tuple[datetime.datetime, datetime.datetime]]:
        """From when until when it works on these days."""
        for count in range((last - first).days + 1):
            day = at_midnight(first) + count * DAY
            if self.days is None or day.weekday() in self.days:
                yield from ((day + as_timedelta(begins), day + as_timedelta(ends)) for begins, ends in self.spans)


def read_hours(text: str) -> Hours:
    """ValueError says what is wrong with a text."""
    spans: list[tuple[int, int]] = []
    days: list[str] = []
    for part in re.split(r"[,;\s]+", re.sub(r"\s*[-\u2013]\s*", "-", text.strip())):
        found = SPAN.fullmatch(WORDS.get(part.lower(), part))
        spans += [hour_span(*map(int, found.groups()))] if found else []
        days += [] if found else [part]
    try:
        of_week = read_workdays(",".join(days)) if days else None
    except ValueError:
        raise ValueError(f"'{short(text)}': {EXAMPLE}") from None
    spans.sort()
    if any(one[1] > other[0] for one, other in zip(spans, [*spans[1:], *((b + MIDNIGHT, e) for b, e in spans[:1])])):
        raise ValueError(f"'{short(text)}': one part begins before another ends")
    return Hours(text, of_week, tuple(spans) or ((0, MIDNIGHT),))


def hour_span(begin_hour: int, begin_minute: int, end_hour: int, end_minute: int) -> tuple[int, int]:
    begins, ends = 60 * begin_hour + begin_minute, 60 * end_hour + end_minute
    if max(begins, ends) > MIDNIGHT or max(begin_minute, end_minute) > 59 or begins == ends:
        raise ValueError(f"{begin_hour:02}:{begin_minute:02}-{end_hour:02}:{end_minute:02} are no hours of a day")
    return begins, ends + (MIDNIGHT if ends < begins else 0)


def is_within(hours: Hours, calendar: Calendar) -> bool:
    """Whether the project has work whenever such a resource works. Breaks of the project are breaks of all."""
    days = calendar.days if isinstance(calendar, Shifts) else calendar
    if not isinstance(days, Days):
        return True
    first, last = (calendar.shift[0][0], calendar.shift[-1][1]) if isinstance(calendar, Shifts) else (0, MIDNIGHT)
    for begins, ends in hours.on(MONDAY.date(), (MONDAY + 6 * DAY).date()):
        for day in (at_midnight(begins.date()) + count * DAY for count in range(2)):
            start, end = max(begins, day), min(ends, day + DAY)
            is_free = hours.days is not None and day.weekday() not in days.workdays
            if start < end and (is_free or start < day + as_timedelta(first) or day + as_timedelta(last) < end):
                return False
    return True


@lru_cache(maxsize=100)
def off_times(hours: Hours, calendar: Calendar, now: int, until: int) -> tuple[Stretch, ...]:
    """The times outside them. ValueError where they begin or end within a period."""
    first, last = (calendar.begins(time).date() for time in (now, until))
    found, time = list[Stretch](), now
    for begins, ends in hours.on(first - DAY, last + DAY):
        begin, end = (min(until, max(now, time_at(calendar, moment, hours))) for moment in (begins, ends))
        if begin < end:
            found += [(time, begin)] if time < begin else []
            time = max(time, end)
    return (*found, *([(time, until)] if time < until else []))


def time_at(calendar: Calendar, moment: datetime.datetime, hours: Hours) -> int:
    """The time that is this moment; 0 for one before the project."""
    time = calendar.from_on(moment)
    if moment > calendar.begins(0) and time != calendar.by(moment):
        when = f"{moment:%Y-%m-%d %H:%M}"
        raise ValueError(f"'{short(hours.text)}': {when} is within a period; choose a shorter --period")
    return time


@dataclass(frozen=True)
class Crews:
    """The resources with hours of their own, by their numbers."""

    hours: Mapping[int, Hours]
    calendar: Calendar
    now: int  # what was before that is history, whatever the hours are

    def off(self, until: int) -> tuple[Off, ...]:
        return tuple(Off(crew, *stretch) for crew, hours in self.hours.items()
                     for stretch in off_times(hours, self.calendar, self.now, until))

    def after(self, time: int, days: int) -> int:
        """The time so many days after another, but at least one period."""
        return max(time + 1, self.calendar.from_on(self.calendar.begins(time) + days * DAY))


def hour_windows(off: Collection[Off], crews: Collection[int], now: int, until: int) -> list[Stretch]:
    """The times, each as long as it may be, at which all of these resources work."""
    found, time = list[Stretch](), now
    for one in sorted((one for one in off if one.resource in crews), key=lambda one: one.begins):
        found += [(time, one.begins)] if time < one.begins else []
        time = max(time, one.ends)
    return found + ([(time, until)] if time < until else [])


def with_hours(project: Numbers, crews: Crews, wanted: int | None) -> Numbers:
    """The project with the times outside hours, up to the horizon that is wanted, or to one behind a schedule by
    the minimum lags."""
    if wanted is not None:
        return cut_off(project, crews, max(wanted, crews.now + 1))
    for days in SPANS:
        until = crews.after(crews.now, days)
        found = cut_off(project, crews, until)
        end = serial_end(found, until)
        if end is not None:
            spare = max(end + (end - crews.now) // SPARE_SHARE, crews.after(max(end, crews.now), SPARE_DAYS))
            return cut_off(project, crews, spare)
        if len(found.off) > MOST_ACTIVITIES:
            break
    return found


def cut_off(project: Numbers, crews: Crews, horizon: int) -> Numbers:
    try:
        return replace(project, off=crews.off(horizon), horizon=horizon, crews=frozenset(crews.hours))
    except ValueError as fault:
        raise BadInput(f"hours of a resource: {fault}") from None


def of_week(week: Sequence[Sequence[Span]]) -> Hours | None:
    """The hours of Monday to Sunday, each within its day, as one kind of shift; none where the days differ in these."""
    for spans in (week, over_midnight(week)):
        days = [day for day, own in enumerate(spans) if own]
        if len({tuple(spans[day]) for day in days}) == 1:
            text = f"{','.join(SHORT_DAYS[day] for day in days)} {','.join(map(span_text, spans[days[0]]))}"
            return Hours(text, frozenset(days), tuple(spans[days[0]]))
    return None


def over_midnight(week: Sequence[Sequence[Span]]) -> list[list[Span]]:
    """What ends at midnight and goes on then is one shift, of the day on which it begins."""
    found: list[list[Span]] = []
    for day, spans in enumerate(week):
        goes_on = any(0 < begins and ends == MIDNIGHT for begins, ends in week[day - 1])
        later = [ends for begins, ends in week[(day + 1) % WEEK] if begins == 0]
        found.append([(begins, MIDNIGHT + later[0] if 0 < begins and ends == MIDNIGHT and later else ends)
                      for begins, ends in spans if begins or not goes_on])
    return found


def by_day(hours: Hours, workdays: Collection[int]) -> list[list[Span]]:
    """The hours of Monday to Sunday, each within its day, on the days on which the project has work."""
    found: list[list[Span]] = [[] for _ in range(WEEK)]
    for day in range(WEEK) if hours.days is None else hours.days:
        for begins, ends in hours.spans:
            found[day].append((begins, min(ends, MIDNIGHT)))
            if ends > MIDNIGHT:
                found[(day + 1) % WEEK].append((0, ends - MIDNIGHT))
    return [sorted(spans) if day in workdays else [] for day, spans in enumerate(found)]
