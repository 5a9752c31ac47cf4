"""Lengths and dates, as people write them, in the periods of a project."""
import datetime
import operator

from .calendars import MINUTES
from .dated import ODD_DAYS, are_days
from .dates import Moment, read_moment
from .errors import BadInput, WrongType
from .letters import short
from .project import MOST_UNITS
from .work_time import WorkTime, minutes_of, shift, workdays

Time = int | str | datetime.date  # a number of periods; a date or a moment, also as a text


def whole(value: object, what: str, least: int = 0, most: int = MOST_UNITS) -> int:
    """A whole number of any type that counts as one."""
    try:
        number = operator.index(value)  # type: ignore[arg-type]
    except TypeError:
        number = None
    if number is None or isinstance(value, bool) or not least <= number <= most:
        kind = WrongType if number is None or isinstance(value, bool) else BadInput
        raise kind(f"{what}: {short(repr(value))} is not a whole number from {least:,} to {most:,}")
    return number


def length_of(value: object, what: str, work_time: WorkTime | None, least: int = 0) -> int:
    """A number of periods, or a length such as '1,5 d', '4 h' or '30 min' of a project that has a calendar."""
    if not isinstance(value, str):
        return whole(value, what, least)
    from .planner.quantities import Scale, Unit, read_length
    if work_time is None:
        raise BadInput(f"{what}: {short(repr(value))} needs the project's calendar, which says what a period is")
    period, minutes = work_time.period, minutes_of(work_time.period)
    unit = Unit(period) if minutes >= MINUTES["days"] else Unit.MINUTES
    day = None if work_time.shift is None else sum(ends - begins for begins, ends in shift(work_time.shift, 1))
    scale = Scale(unit, minutes, day, len(workdays(work_time.workdays)), Unit.PERIODS, Unit.PERIODS, is_named=True)
    try:
        return whole(scale.periods(read_length(value, Unit.PERIODS)), what, least)
    except BadInput:
        raise
    except ValueError:
        raise BadInput(f"{what}: {short(repr(value))} is no whole number of periods, which are {period}, such as '2 d' "
                       "or '4 h'") from None


def calendar_days(value: object, what: str) -> int | None:
    """Of a length such as '3 cd'; none of any other one."""
    from .planner.quantities import Unit, read_length
    try:
        length = read_length(value, Unit.PERIODS) if isinstance(value, str) else None
    except ValueError:
        length = None
    if length is None or length.unit is not Unit.CALENDAR_DAYS:
        return None
    if not are_days(length.value):
        raise BadInput(f"{what}: {short(repr(value))}: {ODD_DAYS}")
    return int(length.value)


def first_time(value: Time, what: str, work_time: WorkTime | None, least: int = 0) -> int:
    """A time, or the first one that is not before a date."""
    if not isinstance(value, (str, datetime.date)):
        return whole(value, what, least)
    return whole(must_have_calendar(what, value, work_time).calendar().from_on(moment_of(value, what).at), what, least)


def touched_by(value: Time, what: str, work_time: WorkTime | None) -> int:
    """A time, or that of the period in which a moment is."""
    if not isinstance(value, (str, datetime.date)):
        return whole(value, what)
    return max(0, must_have_calendar(what, value, work_time).calendar().by(moment_of(value, what).at))


def last_time(value: Time, what: str, work_time: WorkTime | None, least: int = 0) -> int:
    """A time, or the last one at which all has ended by a moment, or within a day."""
    if not isinstance(value, (str, datetime.date)):
        return whole(value, what, least)
    return whole(must_have_calendar(what, value, work_time).calendar().by(moment_of(value, what).next()), what, least)


def time_behind(value: Time, what: str, work_time: WorkTime | None, least: int = 0) -> int:
    """A time, or the first one behind a moment or a day."""
    if not isinstance(value, (str, datetime.date)):
        return whole(value, what, least)
    calendar = must_have_calendar(what, value, work_time).calendar()
    return whole(calendar.from_on(moment_of(value, what).next()), what, least)


def must_have_calendar(what: str, value: object, work_time: WorkTime | None) -> WorkTime:
    if work_time is None:
        raise BadInput(f"{what}: the date {short(str(value))} needs the project's calendar")
    return work_time


def moment_of(value: str | datetime.date, what: str) -> Moment:
    if isinstance(value, datetime.datetime):
        return Moment(value, False)
    if isinstance(value, datetime.date):
        return Moment(datetime.datetime(value.year, value.month, value.day), True)
    try:
        return read_moment(value)
    except ValueError as fault:
        raise BadInput(f"{what}: '{short(value)}': {fault}") from None
