"""What a .xer file says of times: what has started and what remains of it, constraints, and dates by which all should
end."""
import datetime
from dataclasses import dataclass
from functools import cached_property

from ..calendars import Calendar
from ..crew_hours import Hours
from ..errors import BadInput
from ..letters import short
from ..model import Activity, Parts
from ..work_time import WorkTime
from .mspdi import calendar_of, period_name
from .mspdi_limits import limit_of
from .tool_file import Link
from .xer_crews import hours_of_crews
from .xer_document import XerDocument, called
from .xer_tables import cell_of, read_date

# The kinds of constraints as Microsoft Project counts them. As late as possible says nothing of when.
KINDS = {"CS_ALAP": "1", "CS_MSO": "2", "CS_MANDSTART": "2", "CS_MEO": "3", "CS_MANDFIN": "3", "CS_MSOA": "4",
         "CS_MSOB": "5", "CS_MEOA": "6", "CS_MEOB": "7"}
SOONEST = "CS_MSOA"
DATES = (("cstr_type", "cstr_date"), ("cstr_type2", "cstr_date2"), (SOONEST, "external_early_start_date"))


@dataclass
class Actuals:
    """Minutes become periods here. What has started touches whole periods; all else is exact."""

    document: XerDocument

    @cached_property
    def crews(self) -> dict[str, Hours]:
        """The resources with hours of their own."""
        return hours_of_crews(self.document)

    @cached_property
    def constraints(self) -> dict[str, list[tuple[str, datetime.datetime]]]:
        """The kinds and the dates of each activity that has not started."""
        found: dict[str, list[tuple[str, datetime.datetime]]] = {}
        for uid in self.document.activities:
            if uid not in self.document.begun:
                with self.document.kept():
                    found[uid] = self.constraints_of(uid)
        return found

    def constraints_of(self, uid: str) -> list[tuple[str, datetime.datetime]]:
        row, found = self.document.activities[uid], list[tuple[str, datetime.datetime]]()
        for kind, date in DATES:
            at, told = read_date(row, date, called(row)), kind if kind == SOONEST else cell_of(row, kind)
            if told and told not in KINDS:
                raise BadInput(f"{called(row)}: a constraint of the unknown kind '{short(told)}'")
            if at is not None and told:
                found.append((told, at))
        return found

    @cached_property
    def minutes(self) -> int:
        dates = [at for told in self.constraints.values() for _, at in told]
        marks = {mark for hours in self.crews.values() for mark in hours.marks()}
        return self.document.period([self.document.data_date, *dates], marks)

    @cached_property
    def work_time(self) -> WorkTime:
        return self.document.work(period_name(self.minutes))

    @cached_property
    def calendar(self) -> Calendar:
        return calendar_of(self.work_time)

    @cached_property
    def now(self) -> int:
        return self.calendar.from_on(self.document.data_date)

    def start(self, uid: str) -> int:
        """Of what has started."""
        at = self.document.begun[uid]
        return self.calendar.from_on(at) if self.document.is_milestone(uid) else max(0, self.calendar.by(at))

    def duration(self, uid: str) -> int:
        """What has started goes on from the data date for what remains."""
        document, row = self.document, self.document.activities[uid]
        left = document.remaining[uid] // self.minutes
        if uid not in document.begun or document.is_milestone(uid):
            return left
        if not document.is_complete(uid):
            if cell_of(row, "suspend_date"):
                document.faults.append(f"{called(row)}: it is suspended, and activities here run without a pause")
            return max(0, self.now - self.start(uid)) + left
        with document.kept():
            ended = read_date(row, "act_end_date", called(row))
            if ended is None:
                raise BadInput(f"{called(row)}: it is complete, and has no act_end_date")
            if ended < document.begun[uid]:
                raise BadInput(f"{called(row)}: its end {ended} is before its start {document.begun[uid]}")
            return max(0, self.calendar.from_on(ended) - self.start(uid))
        return 0

    def due_dates(self) -> dict[str, int]:
        """The project's date by which it must finish, and that of links to other projects. They move nothing in
        Primavera."""
        document, found = self.document, dict[str, int]()
        whole = read_date(document.project, "plan_end_date", "the project")
        for uid, row in document.activities.items():
            with document.kept():
                told = [one for one in (whole, read_date(row, "external_late_end_date", called(row)))
                        if one is not None]
                time = self.calendar.by(min(told)) if told else None
                if time is not None and time < 0:
                    raise BadInput(f"{called(row)}: it is due at {min(told)}, before the project starts")
                if time is not None and not document.is_complete(uid):
                    found[uid] = time
        return found

    def fill(self, project: Parts) -> None:
        """Adds the links, what has started, and the constraints."""
        document, project.status = self.document, self.now or None
        own = {uid: project[name] for uid, name in document.names.items()}
        for link in document.links:
            if link.after in document.begun:
                with document.kept():
                    self.must_be_history(link, own)
            else:
                project.lag(*link.points(project, own), at_least=link.minutes // self.minutes)
        for uid, activity in own.items():
            if uid in document.begun:
                project.started[activity.number] = self.start(uid)
                project.lag(project.start, activity.start, at_least=self.start(uid), at_most=self.start(uid))
            elif self.now:
                project.lag(project.start, activity.start, at_least=self.now)
            row = document.activities[uid]
            if cell_of(row, "expect_end_date") and not document.is_complete(uid):
                document.faults.append(f"{called(row)}: an expected finish, from which Primavera takes its duration")
        self.constrain(project, own)

    def constrain(self, project: Parts, own: dict[str, Activity]) -> None:
        for uid, told in self.constraints.items():
            for kind, at in told:
                found = limit_of(KINDS[kind], self.calendar, at)
                if found is not None:
                    point = own[uid].end if found.is_end else own[uid].start
                    project.lag(project.start, point, at_least=found.least, at_most=found.most)

    def must_be_history(self, link: Link, own: dict[str, Activity]) -> None:
        """A link to what is complete says nothing any more, and one to what has started is kept by what was done.
        Where it is not, Primavera has the rest wait, by an option."""
        document = self.document
        if document.is_complete(link.after):
            return
        is_known = document.is_complete(link.before) or not link.from_end and link.before in document.begun
        time = self.start(link.before) + (own[link.before].duration if link.from_end else 0) if is_known else 0
        end = self.start(link.after) + own[link.after].duration if link.to_end else self.now
        if not is_known or time + link.minutes // self.minutes > end:
            raise BadInput(f"{called(document.activities[link.after])}: it has started although its link from "
                           f"{called(document.activities[link.before])} is not kept; take the link away, or give it "
                           "a lag")
