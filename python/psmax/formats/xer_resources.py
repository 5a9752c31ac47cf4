"""What each activity of a .xer file needs, in units by time, and how many units there are when."""
from collections.abc import Mapping
from dataclasses import dataclass, field
from fractions import Fraction

from ..calendars import Calendar
from ..crew_hours import Hours
from ..errors import BadInput
from ..letters import printable
from ..model import Parts, Resource
from ..project import MOST_RESOURCES
from .mspdi_resources import Stretch, Want, add_resources, needs_of
from .xer_crews import call_resource, resources_of
from .xer_document import XerDocument, called
from .xer_tables import HOUR, Row, cell_of, read_date, number_in

SCALES = (1, 100, 10_000)  # units, in percent, and in hundredths of that
NEAR = Fraction(1, 100)  # the share by which units and hours may differ, since both are rounded


@dataclass
class ActivityNeeds:
    document: XerDocument
    calendar: Calendar
    hours: Mapping[str, Hours]
    of: dict[str, dict[Resource, int]] = field(default_factory=dict)

    def fill(self, project: Parts) -> None:
        """Adds the resources that something needs, with their absences."""
        wanted, known = self.wanted(), resources_of(self.document)
        needed = {resource for _, resource, _ in wanted}
        used = [uid for uid in known if uid in needed]
        if len(used) > MOST_RESOURCES:
            raise BadInput(f"{len(used)} resources, and a project has at most {MOST_RESOURCES}")
        there = {uid: self.there(uid, known[uid]) for uid in used}
        counts = [count for one in there.values() for *_, count in one] + [count for *_, count in wanted]
        scale = next((one for one in SCALES if all((count * one).denominator == 1 for count in counts)), None)
        if scale is None:
            raise BadInput("units by time have more than four digits behind the point")
        names = {uid: printable(cell_of(known[uid], "rsrc_name") or cell_of(known[uid], "rsrc_short_name")
                                or f"resource {uid}")
                 for uid in used}
        self.of = needs_of(add_resources(project, names, there, scale, self.calendar, self.hours), wanted, scale)

    def wanted(self) -> list[Want]:
        """What is complete needs nothing any more, and what takes no time nothing at all."""
        document, found, spanning = self.document, list[Want](), list[tuple[str, str]]()
        known = resources_of(document)
        for row in document.rows("TASKRSRC"):
            task, resource = cell_of(row, "task_id"), cell_of(row, "rsrc_id")
            if resource in known and task in document.spanning:
                spanning.append((task, resource))
            elif resource in known and document.remaining.get(task):
                with document.kept():
                    units = self.units(task, known[resource], row)
                    found += [(task, resource, units)] if units else []
        needed = {resource for _, resource, _ in found}
        for task, resource in spanning:
            if resource in needed:
                document.faults.append(f"{called(document.spanning[task])}: it needs {call_resource(known[resource])} "
                                       "as long as others take, and activities here have a duration of their own")
        return found

    def units(self, task: str, resource: Row, row: Row) -> Fraction:
        """By hour, for all of what remains."""
        document, activity = self.document, self.document.activities[task]
        name = f"{called(activity)}: its assignment of {call_resource(resource)}"
        hours = Fraction(document.remaining[task], HOUR)
        if any(number_in(row, one, name) for one in ("target_lag_drtn_hr_cnt", "relag_drtn_hr_cnt")):
            raise BadInput(f"{name} begins later than the activity")
        if cell_of(row, "curv_id"):
            raise BadInput(f"{name} has a curve, and units stay the same here")
        whole, each = (next((told for told in (number_in(row, f"{kind}{what}", name) for kind in ("remain_", "target_"))
                             if told is not None), None) for what in ("qty", "qty_per_hr"))
        if whole is None and each is None:
            raise BadInput(f"{name} says no units")
        each = Fraction(0) if whole == 0 else each or (whole or 0) / hours
        if each < 0 or whole is not None and abs(whole - each * hours) > max(NEAR * whole, NEAR):
            raise BadInput(f"{name} takes another time than the activity: {float(whole or 0):g} hours of work by "
                           f"{float(each):g} an hour, in {float(hours):g} hours")
        return each

    def there(self, uid: str, resource: Row) -> list[Stretch]:
        """How many units there are when. The first that are told were there before too."""
        called, rates = call_resource(resource), self.document.tables.get("RSRCRATE", [])
        rows = sorted((row for row in rates if cell_of(row, "rsrc_id") == uid),
                      key=lambda row: cell_of(row, "start_date"))
        told = [(read_date(row, "start_date", called), number_in(row, "max_qty_per_hr", called)) for row in rows]
        told = told or [(None, number_in(resource, "max_qty_per_hr", called))]
        if any(count is None or count < 0 for _, count in told):
            raise BadInput(f"{called}: it has no greatest number of units by time (max_qty_per_hr)")
        begins = [None, *(at for at, _ in told[1:])]
        ends = [*begins[1:], None]
        return [(first, last, count or Fraction(0)) for first, last, (_, count) in zip(begins, ends, told)]
