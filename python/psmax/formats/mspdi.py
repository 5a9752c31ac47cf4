"""Microsoft Project's XML (MSPDI), which ProjectLibre, GanttProject and TaskJuggler write too, as a project."""
import datetime
import re
from dataclasses import dataclass
from functools import cached_property
from xml.etree.ElementTree import Element

from ..calendars import BEYOND, Calendar
from ..crew_hours import Hours
from ..errors import BadInput
from ..letters import printable, short
from ..model import Parts
from ..work_time import WorkTime
from .mspdi_calendar import base_calendar, by_uid, free_days_of, days_and_hours, is_like_project
from .mspdi_lags import WHOLE, read_entries
from .mspdi_limits import Constraints, due_dates
from .mspdi_outline import Outline, is_set
from .mspdi_resources import TaskNeeds, hours_of_resources
from .tool_file import Gathering, Link, checked_moment, longest_period, must_fit_hours
from .xml_tree import parse_xml, text_of

SPACE = "http://schemas.microsoft.com/project"
LENGTH = re.compile(r"PT(\d{1,7})H(\d{1,3})M(\d{1,3})(?:\.\d+)?S")
ENDS = {"0": (True, True), "1": (True, False), "2": (False, True), "3": (False, False)}  # of links: FF, FS, SF and SS
ELAPSED = {f"{kind + more}" for kind in (4, 6, 8, 10, 12, 20) for more in (0, 32)}  # lengths in time that passes
SHARES = {"19", "51"}  # lags that are a part of a duration
TENTHS = 10  # of a minute, in which lags are told


@dataclass
class MspdiDocument(Gathering):
    """An MSPDI file as far as it is read."""

    root: Element

    @cached_property
    def outline(self) -> Outline:
        return Outline(self.root)

    @property
    def tasks(self) -> dict[str, Element]:
        return self.outline.tasks

    @property
    def names(self) -> dict[str, str]:
        return self.outline.names

    def called(self, uid: str) -> str:
        return self.outline.called(uid)

    @cached_property
    def durations(self) -> dict[str, int]:
        """Of the tasks, in minutes of work."""
        found = dict.fromkeys(self.tasks, 0)
        for uid in found:
            with self.kept():
                found[uid] = self.duration(uid)
        return found

    @cached_property
    def links(self) -> list[Link]:
        found: list[Link] = []
        for uid, task in self.outline.all.items():
            for one in task.findall("PredecessorLink"):
                with self.kept():
                    found += self.link(uid, one)
        return found

    @cached_property
    def most(self) -> list[Link]:
        """The maximum lags of the field that MSPDI has for none."""
        found: list[Link] = []
        for uid, task in self.tasks.items():
            with self.kept():
                for before, from_end, to_end, minutes in read_entries(self.root, task):
                    if before not in self.tasks and before != f"{WHOLE}":
                        raise BadInput(f"{self.called(uid)}: a maximum lag from {before}, which is no task with work")
                    found.append(Link(before, uid, from_end, to_end, minutes))
        return found

    @cached_property
    def crews(self) -> dict[str, Hours]:
        return hours_of_resources(self)

    @cached_property
    def minutes(self) -> int:
        """How long a period is: the longest that divides all lengths, the hours of work, also of resources, and what
        lies before tasks that are scheduled by hand and before the start of the project."""
        marks = [mark for hours in self.crews.values() for mark in hours.marks()]
        lags = (abs(link.minutes) for link in [*self.links, *self.most])
        return longest_period(self.first, self.hours[1], marks,
                              [*self.durations.values(), *lags, *self.by_hand.values()])

    @cached_property
    def by_hand(self) -> dict[str, int]:
        """How many minutes of work lie before each task that is scheduled by hand, and stays there."""
        found: dict[str, int] = {}
        for uid, task in self.tasks.items():
            with self.kept():
                at = self.first_moment(uid, "ManualStart", "Start") if is_set(task, "Manual") else None
                if at is not None:
                    found[uid] = self.clock.from_on(self.not_before_project(at, uid))
        return found

    @cached_property
    def hours(self) -> tuple[str, str]:
        return days_and_hours(self.root)

    @cached_property
    def first(self) -> datetime.datetime:
        found = self.moment(self.root, "StartDate", "the project")
        if found is None:
            raise BadInput("the project has no StartDate")
        return found

    def work(self, period: str) -> WorkTime:
        workdays, shift = self.hours
        return WorkTime(self.first.isoformat(" ", "minutes"), period, workdays,
                        free_days_of(self.root, base_calendar(self.root)), shift)

    @cached_property
    def clock(self) -> Calendar:
        """The calendar of minutes."""
        return calendar_of(self.work("minutes"))

    @cached_property
    def work_time(self) -> WorkTime:
        return self.work(period_name(self.minutes))

    @cached_property
    def calendar(self) -> Calendar:
        return calendar_of(self.work_time)

    def moment(self, parent: Element, name: str, called: str) -> datetime.datetime | None:
        """What a date says, without its seconds; none where there is no date."""
        text = text_of(parent, name)
        if text is None or text in ("NA", "0"):
            return None
        found = checked_moment(text, datetime.datetime.fromisoformat, "2026-03-02T08:00:00", f"{called}: {name}")
        return found.replace(second=0, microsecond=0, tzinfo=None)

    def first_moment(self, uid: str, *names: str) -> datetime.datetime | None:
        """That of the first of these names that a task has."""
        found = (self.moment(self.outline.all[uid], name, self.called(uid)) for name in names)
        return next((one for one in found if one is not None), None)

    def not_before_project(self, at: datetime.datetime, uid: str) -> datetime.datetime:
        """The same, where it is not before the day on which the project starts."""
        if at.date() < self.first.date():
            raise BadInput(f"{self.called(uid)}: it starts at {at}, and the project at {self.first}")
        return at

    def duration(self, uid: str) -> int:
        """In minutes of work. Where it isn't said it lies between the start and the end."""
        task = self.tasks[uid]
        calendar = text_of(task, "CalendarUID")
        is_there = by_uid(self.root, calendar) is not None
        if calendar not in (None, "-1") and not (is_there and is_like_project(self.root, calendar)):
            raise BadInput(f"{self.called(uid)}: a calendar of its own; psmax keeps the base calendar alone")
        text = text_of(task, "Duration") or text_of(task, "ManualDuration")
        if text is None:
            return self.between(uid)
        found = LENGTH.fullmatch(text)
        if found is None:
            raise BadInput(f"{self.called(uid)}: Duration is not such as PT8H0M0S: '{short(text)}'")
        minutes = 60 * int(found[1]) + int(found[2])
        if minutes and text_of(task, "DurationFormat") in ELAPSED:
            raise BadInput(f"{self.called(uid)}: a duration in elapsed time; psmax counts time of work alone")
        return minutes

    def between(self, uid: str) -> int:
        """The minutes of work from the start of a task to its end."""
        begins = self.first_moment(uid, "ActualStart", "ManualStart", "Start")
        ends = self.first_moment(uid, "ActualFinish", "ManualFinish", "Finish")
        if is_set(self.tasks[uid], "Milestone"):
            return 0
        if begins is None or ends is None:
            raise BadInput(f"{self.called(uid)}: no Duration, and no Start and Finish that give one")
        minutes = self.clock.from_on(ends) - self.clock.from_on(self.not_before_project(begins, uid))
        if minutes < 0:
            raise BadInput(f"{self.called(uid)}: its Finish {ends} is before its Start {begins}")
        return minutes

    def link(self, uid: str, link: Element) -> list[Link]:
        """A link as those between tasks with work. One from the end of a summary is one from the end of each task below
        it, and one to its start is one to the start of each. None where an end of it is not active."""
        before, kind = text_of(link, "PredecessorUID") or "", text_of(link, "Type") or "1"
        if before in self.outline.passed_over:
            return []
        if before not in self.outline.all:
            raise BadInput(f"{self.called(uid)}: a link to {short(before) or 'nothing'}, which is no task")
        if kind not in ENDS:
            raise BadInput(f"{self.called(uid)}: a link of the unknown type '{short(kind)}'")
        from_end, to_end = ENDS[kind]
        tails, heads = (self.outline.below.get(one, [one]) for one in (before, uid))
        if (len(tails) > 1 and not from_end) or (len(heads) > 1 and to_end):
            side = f"from the start of {self.called(before)}" if len(tails) > 1 and not from_end else "to its end"
            raise BadInput(f"{self.called(uid)}: a link {side}, which is that of whichever task below it is first or "
                           "last; link its tasks")
        if {*tails} & {*heads}:
            raise BadInput(f"{self.called(uid)}: a link to itself, or between a summary and a task of its own")
        return [Link(tail, head, from_end, to_end, self.lag(uid, link)) for tail in tails for head in heads]

    def lag(self, uid: str, link: Element) -> int:
        text, unit = text_of(link, "LinkLag") or "0", text_of(link, "LagFormat")
        if not re.fullmatch("-?[0-9]{1,9}", text) or int(text) % TENTHS:
            raise BadInput(f"{self.called(uid)}: LinkLag is no number of whole minutes, in tenths: '{short(text)}'")
        if int(text) and (unit in ELAPSED or unit in SHARES):
            raise BadInput(f"{self.called(uid)}: a lag in elapsed time or in percent; psmax counts time of work alone")
        return int(text) // TENTHS


def calendar_of(time: WorkTime) -> Calendar:
    try:
        return time.calendar()
    except OverflowError:
        raise BadInput(BEYOND) from None


def period_name(minutes: int) -> str:
    if minutes in (1, 60):
        return "minutes" if minutes == 1 else "hours"
    return f"{minutes // 60} hours" if minutes % 60 == 0 else f"{minutes} minutes"


def read(text: str, project: Parts) -> None:
    root = parse_xml(text)
    if root.tag != "Project" or root.get("xmlns", SPACE) != SPACE:
        raise BadInput("the XML is no project of Microsoft Project (MSPDI)")
    document = MspdiDocument(root)
    project.name = printable(text_of(root, "Title") or "")
    needs = TaskNeeds(document)
    project.calendar = document.work_time
    with document.kept():
        needs.fill(project)
    due = due_dates(document)
    for uid in document.tasks:
        project.activity(document.names[uid], document.durations[uid] // document.minutes, needs.of.get(uid),
                         due.get(uid))
    own = {uid: project[name] for uid, name in document.names.items()}
    for link in document.links:
        project.lag(*link.points(project, own), at_least=link.minutes // document.minutes)
    for link in document.most:
        project.lag(*link.points(project, own), at_most=link.minutes // document.minutes)
    Constraints(document, project, own).add()
    project.groups, project.ids = document.outline.groups(), document.outline.ids()
    must_fit_hours(project, document, lambda activity: f"task '{short(activity.name)}'")
    document.tell()
