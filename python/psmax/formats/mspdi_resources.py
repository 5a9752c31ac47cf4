"""The resources of an MSPDI file that do work, when they are there, and what each task needs of them."""
import datetime
import re
from collections.abc import Iterable, Mapping
from dataclasses import dataclass, field
from fractions import Fraction
from typing import TYPE_CHECKING
from xml.etree.ElementTree import Element

from ..calendars import Calendar
from ..crew_hours import Hours, is_within, of_week
from ..errors import BadInput
from ..letters import printable, short
from ..model import Parts, Resource
from ..project import MOST_RESOURCES
from .mspdi_calendar import by_uid, is_like_project, of_resource
from .xml_tree import text_of

if TYPE_CHECKING:
    from .mspdi import MspdiDocument

PERCENT = 100
LAST_YEAR = 2049  # what is available until its end is available for ever
MINUTE = datetime.timedelta(minutes=1)
# From when until when there are so many units.
Stretch = tuple[datetime.datetime | None, datetime.datetime | None, Fraction]
Away = tuple[int, int | None, Fraction]  # from which time until which how many units lack
Want = tuple[str, str, Fraction]  # an activity, a resource and how many units


@dataclass
class TaskNeeds:
    document: "MspdiDocument"
    of: dict[str, dict[Resource, int]] = field(default_factory=dict)

    def fill(self, project: Parts) -> None:
        """Adds the resources with their absences. Units are in percent where one is no whole number."""
        found = work_resources(self.document.root)
        if len(found) > MOST_RESOURCES:
            raise BadInput(f"{len(found)} resources, and a project has at most {MOST_RESOURCES}")
        stretches = {uid: self.availability(one) for uid, one in found.items()}
        wanted = self.assigned({*found})
        counts = [count for one in stretches.values() for *_, count in one] + [count for *_, count in wanted]
        scale = 1 if all(one.denominator == 1 for one in counts) else PERCENT
        names = {uid: printable(text_of(one, "Name") or f"resource {uid}") for uid, one in found.items()}
        own = add_resources(project, names, stretches, scale, self.document.calendar, self.document.crews)
        self.of = needs_of(own, wanted, scale)

    def availability(self, resource: Element) -> list[Stretch]:
        """How many units there are when; between the periods there are none."""
        called = f"resource '{short(text_of(resource, 'Name') or '')}'"
        found: list[Stretch] = []
        for one in resource.findall("AvailabilityPeriods/AvailabilityPeriod"):
            begins, ends = (self.document.moment(one, name, called) for name in ("AvailableFrom", "AvailableTo"))
            ends = None if ends is None or ends.year >= LAST_YEAR else ends + MINUTE * (ends.minute == 59)
            if begins is not None and ends is not None and ends <= begins:
                raise BadInput(f"{called}: AvailableTo is before AvailableFrom")
            found.append((begins, ends, read_units(one, "AvailableUnits", called)))
        return found or [(None, None, read_units(resource, "MaxUnits", called))]

    def assigned(self, resources: set[str]) -> list[Want]:
        """The task, the resource and the units of each assignment of a resource that does work to a task that is
        active."""
        document, found = self.document, []
        for one in document.root.findall("Assignments/Assignment"):
            task, resource = (text_of(one, name) or "" for name in ("TaskUID", "ResourceUID"))
            if resource in resources and task not in document.outline.passed_over:
                with document.kept():
                    if task not in document.outline.tasks:
                        raise BadInput(f"{document.outline.called(task)}: an assignment, and no work of its own")
                    found.append((task, resource, read_units(one, "Units", document.outline.called(task))))
        return found


def add_resources(project: Parts, names: Mapping[str, str], there: Mapping[str, list[Stretch]], scale: int,
                  calendar: Calendar, hours: Mapping[str, Hours]) -> dict[str, Resource]:
    """By their IDs, in so many parts of a unit, with their absences and hours."""
    own: dict[str, Resource] = {}
    for uid, name in names.items():
        name = name if all(name != other.name for other in project.resources) else f"{name} ({printable(uid)})"
        most = max((count for *_, count in there[uid]), default=Fraction(0))
        own[uid] = project.resource(name, round(most * scale))
        project.hours |= {own[uid]: hours[uid]} if uid in hours else {}
        for begins, ends, away in absences_from(there[uid], most, calendar):
            project.absence(own[uid], begins, ends, round(away * scale))
    return own


def needs_of(own: Mapping[str, Resource], wanted: Iterable[Want], scale: int) -> dict[str, dict[Resource, int]]:
    """By the IDs of activities."""
    found: dict[str, dict[Resource, int]] = {}
    for task, resource, count in wanted:
        row = found.setdefault(task, {})
        row[own[resource]] = row.get(own[resource], 0) + round(count * scale)
    return found


def work_resources(root: Element) -> dict[str, Element]:
    """Those that do work, and have a name."""
    named = {text_of(one, "UID") or "": one for one in root.findall("Resources/Resource")
             if text_of(one, "Type") not in ("0", "2") and text_of(one, "Name")}
    return {uid: one for uid, one in named.items() if uid not in ("0", "")}


def hours_of_resources(document: "MspdiDocument") -> dict[str, Hours]:
    """Of each resource whose calendar has other hours than the project's."""
    found: dict[str, Hours] = {}
    for uid, one in work_resources(document.root).items():
        with document.kept():
            calendar = by_uid(document.root, text_of(one, "CalendarUID"))
            if calendar is not None and not is_like_project(document.root, text_of(calendar, "UID")):
                try:
                    found[uid] = own_hours(document, calendar)
                except BadInput as fault:
                    raise BadInput(f"resource '{short(text_of(one, 'Name') or '')}' has days or hours of its own: "
                                   f"{fault}") from None
    return found


def own_hours(document: "MspdiDocument", calendar: Element) -> Hours:
    found = of_week(of_resource(document.root, calendar))
    if found is None:
        raise BadInput("its days have different hours")
    if not is_within(found, document.clock):
        raise BadInput("they go beyond those of the project, at which all work is")
    return found


def read_units(one: Element, name: str, called: str) -> Fraction:
    text = text_of(one, name) or "1"
    if not re.fullmatch(r"[0-9]{1,6}(\.[0-9]{1,6})?", text):
        raise BadInput(f"{called}: {name} is no number of units: '{short(text)}'")
    return Fraction(text)


def absences_from(stretches: Iterable[Stretch], most: Fraction, calendar: Calendar) -> list[Away]:
    """When how many units lack of the most that there ever are. What lacks for a part of a period lacks for all of
    it."""
    moments = sorted({moment for begins, ends, _ in stretches for moment in (begins, ends) if moment is not None})
    lacks: list[Away] = []
    for begins, ends in zip([None, *moments], [*moments, None]):
        there = sum((units for first, last, units in stretches
                     if (first is None or begins is not None and first <= begins)
                     and (last is None or ends is not None and ends <= last)), Fraction(0))
        time = 0 if begins is None else max(0, calendar.by(begins))
        lacks.append((time, None if ends is None else calendar.from_on(ends), most - there))
    return without_overlap([one for one in lacks if one[2] > 0 and (one[1] is None or one[0] < one[1])])


def without_overlap(lacks: list[Away]) -> list[Away]:
    """The most that lacks at each time."""
    times = sorted({time for begins, ends, _ in lacks for time in (begins, ends) if time is not None})
    found: list[Away] = []
    for begins, ends in zip(times, [*times[1:], None]):
        away = max((units for first, last, units in lacks if first <= begins and (last is None or begins < last)),
                   default=0)
        if away and found and found[-1][1] == begins and found[-1][2] == away:
            found[-1] = (found[-1][0], ends, found[-1][2])
        elif away:
            found.append((begins, ends, Fraction(away)))
    return found
