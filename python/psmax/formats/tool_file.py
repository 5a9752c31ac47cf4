"""What the files of planning tools share: faults that are told at once, links, and the hours that they need."""
import datetime
from collections import Counter
from collections.abc import Callable, Iterable, Iterator, Mapping
from contextlib import contextmanager
from dataclasses import dataclass, field, replace
from functools import cached_property
from math import gcd

from ..calendars import MINUTES, Calendar
from ..crew_hours import SPANS, Stretch, hour_windows
from ..dates import read_shift
from ..errors import BadInput
from ..letters import at_most, short
from ..model import Activity, Lag, Parts, Point
from ..work_time import WorkTime, minutes_of

ALL_DAY, USUAL = "00:00-24:00", "08:00-12:00,13:00-17:00"  # where a project says no hours
HALF = "4 hours"  # of a usual day
FIRST_YEAR, LAST_YEAR = 1900, 2200  # of dates


@dataclass
class Gathering:
    faults: list[str] = field(default_factory=list, kw_only=True)

    @contextmanager
    def kept(self) -> Iterator[None]:
        try:
            yield
        except BadInput as fault:
            self.faults += map(str, fault.args)

    def tell(self) -> None:
        """Each once."""
        if self.faults:
            raise BadInput(*at_most([*dict.fromkeys(self.faults)]))


@dataclass(frozen=True)
class Link:
    """From the start or end of one activity to that of another pass so many minutes of work at least."""

    before: str
    after: str
    from_end: bool
    to_end: bool
    minutes: int

    def points(self, project: Parts, own: Mapping[str, Activity]) -> tuple[Point, Point]:
        """Of these activities; the start of the project where the first is none of them."""
        before = Point(own[self.before], self.from_end) if self.before in own else project.start
        return before, Point(own[self.after], self.to_end)


@dataclass(frozen=True)
class Dates:
    """The times of a project as moments of a calendar that has hours."""

    time: WorkTime  # with hours
    factor: int  # how many periods of that are one of the project
    minutes: int  # of work, in a period of the project

    @cached_property
    def calendar(self) -> Calendar:
        return self.time.calendar()

    def begins(self, time: int) -> datetime.datetime:
        return self.calendar.begins(time * self.factor)

    def ended(self, time: int) -> datetime.datetime:
        return self.calendar.ended(time * self.factor)


def dates_of(time: WorkTime | None, tool: str) -> Dates:
    """A day without hours gets the usual ones, and what goes on around the clock all of them."""
    if time is None:
        raise BadInput(f"{tool} needs dates, which follow from the first day of the project: --from 2026-03-02")
    minutes = minutes_of(time.period)
    if time.shift is not None:
        return Dates(time, 1, minutes)
    if minutes >= MINUTES["days"]:
        days = minutes // MINUTES["days"]
        halves = replace(time, first=time.begin.split()[0], period=HALF, shift=USUAL)
        return Dates(halves, 2 * days, days * sum(ends - begins for begins, ends in read_shift(USUAL)))
    found = Dates(replace(time, shift=ALL_DAY, zone=None), 1, minutes)
    if time.zone is not None or found.calendar.begins(0) != time.calendar().begins(0):
        odd = "time zones" if time.zone is not None else f"periods of {time.period} from then on"
        raise BadInput(f"{tool} has no {odd}; choose another first day, or other periods")
    return found


def longest_period(first: datetime.datetime, shift: str, marks: Iterable[int], lengths: Iterable[int]) -> int:
    """How many minutes: the most that divides these lengths and the hours of work, in which a period begins at these
    minutes of the day and at that of the first moment."""
    times = {*marks, 60 * first.hour + first.minute}
    return gcd(*lengths, *(length for begins, ends in read_shift(shift)
                           for length in (ends - begins, *(time - begins for time in times if begins < time < ends))))


def unique_names(names: Mapping[str, str], code: Callable[[str], str]) -> dict[str, str]:
    """The names, by IDs; those of the same name have their codes too."""
    count = Counter(names.values())
    return {uid: name if count[name] == 1 else f"{name} ({code(uid)})" for uid, name in names.items()}


def checked_moment(text: str, read: Callable[[str], datetime.datetime], example: str, called: str) -> datetime.datetime:
    """What a date says, of which a fault tells where it stands."""
    try:
        found = read(text)
    except ValueError:
        raise BadInput(f"{called} is no date such as {example}: '{short(text)}'") from None
    if not FIRST_YEAR <= found.year <= LAST_YEAR:
        raise BadInput(f"{called} is beyond the years {FIRST_YEAR} to {LAST_YEAR}: '{short(text)}'")
    return found


def left_of(project: Parts, activity: Activity) -> int:
    """How many periods of an activity are left at the status date."""
    begun = project.started.get(activity.number)
    return activity.duration if begun is None else max(0, begun + activity.duration - (project.status or 0))


def is_said(project: Parts, lag: Lag) -> bool:
    """Whether a lag from the start of the project follows from the real start of what has started, or from the status
    date."""
    begun = project.started.get(lag.after.activity.number)
    if begun is None:
        return not lag.after.is_end and lag.at_most is None and lag.at_least == project.status
    time = begun + lag.after.offset
    return (lag.at_least is None or lag.at_least <= time) and (lag.at_most is None or time <= lag.at_most)


def must_fit_hours(project: Parts, faults: Gathering, called: Callable[[Activity], str]) -> None:
    """What needs resources with hours of their own goes on without a break."""
    crews = project.crews()
    if crews is None:
        return
    until = crews.after(crews.now, SPANS[0])
    try:
        off = crews.off(until)
    except ValueError as fault:
        raise BadInput(f"hours of a resource: {fault}") from None
    found = dict[frozenset[int], list[Stretch]]()
    for activity in project.activities:
        crew = frozenset(one.number for one, units in activity.demands.items() if units and one in project.hours)
        begun = project.started.get(activity.number)
        rest = activity.duration if begun is None else begun + activity.duration - crews.now
        if crew not in found:
            found[crew] = hour_windows(off, crew, crews.now, until)
        longest = max((last - first for first, last in found[crew] if begun is None or first <= crews.now), default=0)
        if crew and rest > longest:
            faults.faults.append(f"{called(activity)}: it takes longer than all that it needs is there at a time, and "
                                 "activities run without a break; write an activity for each shift")
