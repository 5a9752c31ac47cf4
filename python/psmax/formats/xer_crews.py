"""The resources of a .xer file whose calendars have other hours than the activities'. They matter to the activities
that depend on their resources."""
from collections.abc import Container

from ..crew_hours import WEEK, Hours, is_within, of_week
from ..dates import read_shift
from ..errors import BadInput
from ..letters import short
from ..project import MOST_RESOURCES
from .mspdi import calendar_of
from .xer_document import XerDocument, called
from .xer_tables import Row, cell_of

MATERIAL, DEPENDS = "RT_Mat", "TT_Rsrc"
MOST_ASSIGNED = 1_000  # resources of which it is looked whether they are needed


def resources_of(document: XerDocument) -> dict[str, Row]:
    """All that are no material."""
    return {cell_of(row, "rsrc_id"): row for row in document.tables.get("RSRC", [])
            if cell_of(row, "rsrc_type") != MATERIAL}


def call_resource(resource: Row) -> str:
    return f"resource '{short(cell_of(resource, 'rsrc_name') or cell_of(resource, 'rsrc_short_name'))}'"


def activities_needing(document: XerDocument, resources: Container[str]) -> dict[str, list[Row]]:
    """Those that have work left, by the IDs of these resources, which are assigned to them."""
    found: dict[str, list[Row]] = {}
    for row in document.rows("TASKRSRC"):
        uid, task = cell_of(row, "rsrc_id"), cell_of(row, "task_id")
        if uid in resources and document.remaining.get(task):
            found.setdefault(uid, []).append(document.activities[task])
    if len(found) > MOST_ASSIGNED:
        raise BadInput(f"{len(found):,} resources are assigned, and a project has at most {MOST_RESOURCES}")
    return found


def hours_of_crews(document: XerDocument) -> dict[str, Hours]:
    """By the resources' IDs."""
    found: dict[str, Hours] = {}
    known = resources_of(document)
    for uid, rows in activities_needing(document, known).items():
        own = cell_of(known[uid], "clndr_id")
        if own in document.calendars and document.hours(own) != document.hours(document.calendar_id):
            with document.kept():
                if is_needed_in_its_calendar(rows, call_resource(known[uid])):
                    found[uid] = hours_of_calendar(document, own, call_resource(known[uid]))
    return found


def is_needed_in_its_calendar(rows: list[Row], name: str) -> bool:
    """Whether these activities work in the calendar of a resource. All that need it have to, then."""
    others = [one for one in rows if cell_of(one, "task_type") != DEPENDS]
    if len(others) < len(rows) and others:
        raise BadInput(f"{called(others[0])}: it needs {name} in the activities' calendar, and others that depend "
                       "on it in its own; a resource has one here")
    return not others


def hours_of_calendar(document: XerDocument, uid: str, name: str) -> Hours:
    own, whole = document.hours(uid), document.hours(document.calendar_id)
    begin = f"{name} works in the {document.calendar_name(uid)}"
    is_off = {day for day in {*own.others, *whole.others} if own.others.get(day, own.week.get(day.weekday(), ())) == ()}
    if any(own.others.values()) or {day for day in own.others if day not in whole.others} or {*whole.others} - is_off:
        raise BadInput(f"{begin}, which has other days off than that of the activities")
    try:
        week = [[*read_shift(",".join(own.week[day]))] if day in own.week else [] for day in range(WEEK)]
    except ValueError as fault:
        raise BadInput(f"{begin}: {fault}") from None
    found = of_week(week)
    if found is None:
        raise BadInput(f"{begin}, whose days have different hours")
    if not is_within(found, calendar_of(document.work("minutes"))):
        raise BadInput(f"{begin}, which goes beyond that of the activities")
    return found
