"""`plan write` to iCalendar (RFC 5545), for phones: an event for each activity, or for those that need a resource. An
event is known by the project and the name of its activity, so that a new import moves what was there."""
import datetime
import hashlib
import os
from collections.abc import Iterator
from itertools import pairwise

from ..errors import BadInput
from ..letters import short
from ..work_time import zone
from .project_file import ProjectFile

BEGIN = b"BEGIN:VCALENDAR"
SUFFIX = ".ics"
LONGEST = 75  # bytes of a line
DAY = datetime.timedelta(days=1)
YEAR = 400 * DAY  # and more
SECOND = datetime.timedelta(seconds=1)
FIRST = datetime.datetime(2020, 1, 1, tzinfo=datetime.UTC)  # from when seconds are counted, by which events follow
STAMP = "%Y%m%dT%H%M%S"


def calendar_text(opened: ProjectFile, starts: tuple[int, ...], resource: str | None, now: datetime.datetime) -> str:
    """Times are those of the time zone of the project, or where it names none of the place."""
    if opened.calendar is None:
        raise BadInput("a calendar needs dates, and nothing says when the project begins; --from does")
    activities = wanted(opened, resource)
    lines = ["BEGIN:VCALENDAR", "VERSION:2.0", "PRODID:-//psmax//plan//EN", "METHOD:PUBLISH"]
    if activities and opened.settings.zone is not None and not opened.calendar.is_by_day:
        spans = [opened.span(activity, starts[activity]) for activity in activities]
        lines += time_zone(opened.settings.zone, min(first for first, _ in spans), max(last for _, last in spans))
    for activity in activities:
        lines += event(opened, activity, starts[activity], now)
    return "".join(piece + "\r\n" for line in [*lines, "END:VCALENDAR"] for piece in folded(line))


def wanted(opened: ProjectFile, resource: str | None) -> list[int]:
    """All activities, or those that need this resource."""
    inner = range(1, opened.project.end)
    if resource is None:
        return [*inner]
    if resource not in opened.names.resources:
        raise BadInput(f"no resource '{short(resource)}'; there are {', '.join(opened.names.resources) or 'none'}")
    number = opened.names.resources.index(resource)
    return [activity for activity in inner if opened.project.demands[activity][number]]


def event(opened: ProjectFile, activity: int, start: int, now: datetime.datetime) -> Iterator[str]:
    project, names = opened.project, opened.names
    begins, ends = opened.span(activity, start)
    needs = [f"{units} {names.resource(k)}" for k, units in enumerate(project.demands[activity]) if units]
    yield "BEGIN:VEVENT"
    yield f"UID:{event_id(opened, activity)}@psmax"
    yield f"DTSTAMP:{now:{STAMP}}Z"
    yield f"SEQUENCE:{(now - FIRST) // SECOND}"
    if opened.calendar is not None and opened.calendar.is_by_day:
        yield f"DTSTART;VALUE=DATE:{begins:%Y%m%d}"
        yield f"DTEND;VALUE=DATE:{ends + DAY:%Y%m%d}"
    else:
        where = "" if opened.settings.zone is None else f";TZID={opened.settings.zone}"
        yield f"DTSTART{where}:{begins:{STAMP}}"
        yield from [f"DTEND{where}:{ends:{STAMP}}"] if ends > begins else []
    yield f"SUMMARY:{escape_text(names.activities.get(activity, '') or f'activity {activity}')}"
    if needs:
        yield f"DESCRIPTION:{escape_text(', '.join(needs))}"
    yield "END:VEVENT"


def event_id(opened: ProjectFile, activity: int) -> str:
    """By the title of the project, or else its file and its folder, and by the name of the activity, or else its
    number."""
    path = os.path.realpath(opened.path)
    file = os.path.join(os.path.basename(os.path.dirname(path)), os.path.splitext(os.path.basename(path))[0])
    told = f"{opened.settings.title or file}\n{opened.names.activities.get(activity) or activity}"
    return hashlib.sha256(told.encode("utf-8", "replace")).hexdigest()[:32]


def time_zone(name: str, first: datetime.datetime, last: datetime.datetime) -> Iterator[str]:
    """How clocks go in a zone from before the first moment until after the last."""
    where = zone(name)
    moments = [first.replace(tzinfo=datetime.UTC) + day * DAY for day in range(-YEAR // DAY, (last - first) // DAY + 3)]
    yield "BEGIN:VTIMEZONE"
    yield f"TZID:{name}"
    yield from observance(where, moments[0], moments[0])
    for begins, ends in pairwise(moments):
        if clock(where, begins) != clock(where, ends):
            yield from observance(where, begins, find_change(where, begins, ends))
    yield "END:VTIMEZONE"


def clock(where: datetime.tzinfo, moment: datetime.datetime) -> tuple[datetime.timedelta | None, str | None]:
    at = moment.astimezone(where)
    return at.utcoffset(), at.tzname()


def find_change(where: datetime.tzinfo, begins: datetime.datetime, ends: datetime.datetime) -> datetime.datetime:
    """The first second at which clocks go as at the end."""
    while ends - begins > SECOND:
        middle = begins + (ends - begins) // 2 // SECOND * SECOND
        begins, ends = (middle, ends) if clock(where, middle) == clock(where, begins) else (begins, middle)
    return ends


def observance(where: datetime.tzinfo, before: datetime.datetime, moment: datetime.datetime) -> Iterator[str]:
    """How clocks go from a moment on, which is told by the clock before."""
    was, now = before.astimezone(where), moment.astimezone(where)
    kind = "DAYLIGHT" if now.dst() else "STANDARD"
    yield f"BEGIN:{kind}"
    yield f"DTSTART:{moment + (was.utcoffset() or 0 * DAY):{STAMP}}"
    yield f"TZOFFSETFROM:{was:%z}"
    yield f"TZOFFSETTO:{now:%z}"
    yield f"TZNAME:{now.tzname()}"
    yield f"END:{kind}"


def escape_text(text: str) -> str:
    return text.replace("\\", "\\\\").replace(";", "\\;").replace(",", "\\,").replace("\n", "\\n")


def folded(line: str) -> Iterator[str]:
    """The line in pieces of at most so many bytes; each but the first begins with a blank."""
    piece = ""
    for sign in line:
        if len((piece + sign).encode()) > LONGEST:
            yield piece
            piece = " "
        piece += sign
    yield piece
