"""The base calendar of an MSPDI file: its days, hours and holidays."""
import datetime
import re
from collections.abc import Collection, Sequence
from xml.etree.ElementTree import Element, SubElement

from ..crew_hours import WEEK, Span
from ..dates import MIDNIGHT, SHORT_DAYS, clock_text, day_ranges, read_shift, read_workdays
from ..errors import BadInput
from ..letters import short
from .tool_file import USUAL
from .xml_tree import text_of

SUNDAY = 1  # the kind of day; Saturday is 7, and 0 an exception
BASE = "1"  # the UID of the calendar of a project that is written
MOST_HOLIDAYS = 10_000
HOURS = re.compile(r"(\d\d):(\d\d):00")


def of_resource(project: Element, calendar: Element) -> list[list[Span]]:
    """The hours of Monday to Sunday of a calendar with the days off of the project's."""
    if free_days_of(project, calendar) != free_days_of(project, base_calendar(project)):
        raise BadInput("other days off than the project's; they may stand in its availability")
    found = spans(project, calendar)
    try:
        return [[*read_shift(",".join(found[day]))] if day in found else [] for day in range(WEEK)]
    except ValueError as fault:
        raise BadInput(f"{fault}") from None


def base_calendar(project: Element) -> Element | None:
    """The calendar that the project names, or else the first base calendar."""
    own = by_uid(project, text_of(project, "CalendarUID"))
    bases = [one for one in project.findall("Calendars/Calendar") if is_base(one)]
    return bases[0] if own is None and bases else own


def by_uid(project: Element, uid: str | None) -> Element | None:
    return next((one for one in project.findall("Calendars/Calendar") if uid is not None
                 and text_of(one, "UID") == uid), None)


def is_base(calendar: Element) -> bool:
    return text_of(calendar, "IsBaseCalendar") in ("1", "true")


def bases_of(project: Element, calendar: Element | None) -> list[Element]:
    """A calendar, the one that it is based on, and so on."""
    found: list[Element] = []
    while calendar is not None and calendar not in found:
        found.append(calendar)
        calendar = None if is_base(calendar) else by_uid(project, text_of(calendar, "BaseCalendarUID"))
    return found


def is_like_project(project: Element, uid: str | None) -> bool:
    """Whether the calendar of this UID has the days, hours and days off of the project's. None is the project's."""
    own, base = by_uid(project, uid), base_calendar(project)
    try:
        return own is None or (spans(project, own) == spans(project, base)
                               and free_days_of(project, own) == free_days_of(project, base))
    except BadInput:
        return False


def days_and_hours(project: Element) -> tuple[str, str]:
    """The workdays of the project's calendar and the hours of a day with work, such as `mon-fri` and
    `08:00-12:00,13:00-17:00`."""
    found = spans(project, base_calendar(project))
    if not found:
        return "mon-fri", USUAL
    if len({tuple(own) for own in found.values()}) > 1:
        raise BadInput("the days of the base calendar have different hours, and all periods here are alike")
    shift = ",".join(next(iter(found.values())))
    try:
        read_shift(shift)
    except ValueError as fault:
        raise BadInput(f"the hours of the base calendar: {fault}") from None
    return day_ranges(found, SHORT_DAYS), shift


def spans(project: Element, calendar: Element | None) -> dict[int, list[str]]:
    """The hours of each day of the week that has work. A calendar says what is not as in the one that it is based
    on."""
    found: dict[int, list[str]] = {}
    for one in reversed(bases_of(project, calendar)):
        if one.find("WorkWeeks/WorkWeek/WeekDays/WeekDay") is not None:
            raise BadInput("the base calendar has weeks with other days or hours, and all weeks here are alike")
        for day in one.findall("WeekDays/WeekDay"):
            kind = text_of(day, "DayType") or ""
            number = (int(kind) - SUNDAY - 1) % 7 if re.fullmatch("[1-7]", kind) else -1
            found.pop(number, None)
            if number >= 0 and text_of(day, "DayWorking") in ("1", "true"):
                found[number] = [span_of(part) for part in day.findall("WorkingTimes/WorkingTime")] or USUAL.split(",")
    return dict(sorted(found.items()))


def span_of(one: Element) -> str:
    begins, ends = (HOURS.fullmatch(text_of(one, name) or "") for name in ("FromTime", "ToTime"))
    if begins is None or ends is None:
        raise BadInput("the hours of the base calendar are not such as 08:00:00")
    last = "24:00" if ends[0] == "00:00:00" else f"{ends[1]}:{ends[2]}"
    return f"{begins[1]}:{begins[2]}-{last}"


def free_days_of(project: Element, calendar: Element | None) -> tuple[datetime.date, ...]:
    """The exceptions without work. One with work has hours that other days don't have."""
    found: set[datetime.date] = set()
    exceptions = [one for own in bases_of(project, calendar) for one in (
        *own.findall("Exceptions/Exception"),
        *(day for day in own.findall("WeekDays/WeekDay") if text_of(day, "DayType") == "0"))]
    for one in exceptions:
        if text_of(one, "DayWorking") in ("1", "true"):
            raise BadInput("the base calendar has an exception with work, and all days with work are alike here")
        if text_of(one, "Type") not in (None, "1") or text_of(one, "Period") not in (None, "0", "1"):
            raise BadInput("the base calendar has an exception that comes again and again; write each of its days as "
                           "one")
        first, last = (day_of(text_of(one, f"TimePeriod/{name}")) for name in ("FromDate", "ToDate"))
        if not 0 <= (last - first).days <= MOST_HOLIDAYS - len(found):
            raise BadInput(f"an exception of the base calendar from {first} to {last}, or more than {MOST_HOLIDAYS:,} "
                           "days")
        found |= {first + datetime.timedelta(days) for days in range((last - first).days + 1)}
    return tuple(sorted(found))


def day_of(text: str | None) -> datetime.date:
    try:
        return datetime.datetime.fromisoformat(text or "").date()
    except ValueError:
        told = short(text or "")
        raise BadInput(f"a date of the base calendar is not such as 2026-04-03T00:00:00: '{told}'") from None


def add_calendar(project: Element, workdays: str, shift: str, free: Collection[datetime.date]) -> Element:
    """The calendar of the project, and the list of calendars that it is the first of."""
    calendars = SubElement(project, "Calendars")
    calendar = add_head(calendars, BASE, "Standard", "1", "-1")
    work = read_workdays(workdays)
    add_week(calendar, [read_shift(shift) if day in work else () for day in range(WEEK)])
    exceptions = SubElement(calendar, "Exceptions")
    for one in sorted(free):
        exception = SubElement(exceptions, "Exception")
        period = SubElement(exception, "TimePeriod")
        SubElement(period, "FromDate").text, SubElement(period, "ToDate").text = f"{one}T00:00:00", f"{one}T23:59:00"
        SubElement(exception, "DayWorking").text = "0"
    return calendars


def add_resource_calendar(calendars: Element, uid: str, name: str, hours: Sequence[Sequence[Span]]) -> None:
    """One with hours of its own, and with the days off of the project's, on which it is based."""
    add_week(add_head(calendars, uid, name, "0", BASE), hours)


def add_head(calendars: Element, uid: str, name: str, base: str, based_on: str) -> Element:
    calendar = SubElement(calendars, "Calendar")
    for tag, text in (("UID", uid), ("Name", name), ("IsBaseCalendar", base), ("BaseCalendarUID", based_on)):
        SubElement(calendar, tag).text = text
    return calendar


def add_week(calendar: Element, hours: Sequence[Sequence[Span]]) -> None:
    """The hours of Monday to Sunday."""
    week = SubElement(calendar, "WeekDays")
    for kind in range(SUNDAY, SUNDAY + WEEK):
        day, spans = SubElement(week, "WeekDay"), hours[(kind - SUNDAY - 1) % WEEK]
        SubElement(day, "DayType").text, SubElement(day, "DayWorking").text = f"{kind}", f"{int(bool(spans))}"
        times = SubElement(day, "WorkingTimes") if spans else day
        for span in spans:
            time = SubElement(times, "WorkingTime")
            for name, minutes in zip(("FromTime", "ToTime"), span):
                SubElement(time, name).text = f"{clock_text(minutes % MIDNIGHT)}:00"
