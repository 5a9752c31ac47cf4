"""The dates of an MSPDI file: what has started, what is scheduled by hand, constraints and deadlines, also of
summaries."""
import datetime
from collections.abc import Mapping
from dataclasses import dataclass, field
from functools import cached_property
from typing import TYPE_CHECKING
from xml.etree.ElementTree import Element

from ..calendars import Calendar
from ..errors import BadInput
from ..letters import short
from ..model import Activity, Parts
from .xml_tree import text_of

if TYPE_CHECKING:
    from .mspdi import MspdiDocument

KINDS = "01234567"  # of constraints; as soon as possible (0) and as late as possible (1) say nothing of when


@dataclass(frozen=True)
class Limit:
    """A start or an end is not before a time, not after one, or both."""

    is_end: bool
    least: int | None
    most: int | None


def limit_of(kind: str, calendar: Calendar, at: datetime.datetime) -> Limit | None:
    """What a constraint of this kind says; none of one that says nothing."""
    begin, end = calendar.from_on(at), calendar.by(at)
    latest = begin if calendar.begins(begin) <= at else begin - 1
    soonest = end if end > 0 and calendar.ended(end) >= at else max(end, 0) + 1
    return {"2": Limit(False, begin, begin), "3": Limit(True, end, end), "4": Limit(False, begin, None),
            "5": Limit(False, None, latest), "6": Limit(True, soonest, None), "7": Limit(True, None, end)}.get(kind)


def due_dates(document: "MspdiDocument") -> dict[str, int]:
    """When each task with a deadline is due. One of a summary is one of each task below it."""
    found: dict[str, int] = {}
    for uid, task in document.outline.all.items():
        with document.kept():
            at = document.moment(task, "Deadline", document.called(uid))
            time = None if at is None else document.calendar.by(at)
            if time is not None and time < 0:
                raise BadInput(f"{document.called(uid)}: its Deadline {at} is before the project starts")
            if time is not None:
                found |= {one: min(time, found.get(one, time)) for one in document.outline.below.get(uid, [uid])}
    return found


@dataclass
class Constraints:
    document: "MspdiDocument"
    project: Parts
    own: Mapping[str, Activity]
    stays: dict[str, int] = field(default_factory=dict)  # the start of each task that stays where it is
    begun: set[str] = field(default_factory=set)

    def add(self) -> None:
        self.project.status = self.status or None
        for uid, task in self.document.tasks.items():
            with self.document.kept():
                self.limit(uid, task)
        for uid, below in self.document.outline.below.items():
            with self.document.kept():
                self.limit_summary(uid, below)

    @cached_property
    def status(self) -> int:
        """The time from which on all starts that has not started."""
        at = self.document.moment(self.document.root, "StatusDate", "the project")
        return 0 if at is None else self.document.calendar.from_on(at)

    def limit(self, uid: str, task: Element) -> None:
        """What has started or is scheduled by hand stays where it is. All else keeps its constraint and starts from the
        status date on."""
        document, activity = self.document, self.own[uid]
        begun = document.moment(task, "ActualStart", document.called(uid))
        if begun is None and (text_of(task, "PercentComplete") or "0") != "0":
            begun = document.moment(task, "Start", document.called(uid))
        if begun is not None:
            self.begun.add(uid)
            self.stays[uid] = document.calendar.from_on(document.not_before_project(begun, uid))
            self.project.started[activity.number] = self.stays[uid]
        elif uid in document.by_hand:
            self.stays[uid] = document.by_hand[uid] // document.minutes
        if uid in self.stays:
            self.project.lag(self.project.start, activity.start, at_least=self.stays[uid], at_most=self.stays[uid])
            return
        if self.status > 0:
            self.project.lag(self.project.start, activity.start, at_least=self.status)
        found = self.constraint(uid, task)
        if found is not None:
            self.put(uid, found.is_end, found.least, found.most)
            if found.least == found.most and found.least is not None:
                self.stays[uid] = found.least - activity.duration * found.is_end

    def constraint(self, uid: str, task: Element) -> Limit | None:
        kind, called = text_of(task, "ConstraintType") or "0", self.document.called(uid)
        at = self.document.moment(task, "ConstraintDate", called)
        if at is not None and kind not in KINDS:
            raise BadInput(f"{called}: a constraint of the unknown type '{short(kind)}'")
        return None if at is None else limit_of(kind, self.document.calendar, at)

    def put(self, uid: str, is_end: bool, least: int | None, most: int | None) -> None:
        if (least is not None or most is not None) and uid not in self.begun:
            point = self.own[uid].end if is_end else self.own[uid].start
            self.project.lag(self.project.start, point, at_least=least, at_most=most)

    def limit_summary(self, uid: str, below: list[str]) -> None:
        """A summary starts with the first task below it and ends with the last one: what none of these may go beyond
        each of them keeps, and what one of them has to reach is known where it stays where it is."""
        found = self.constraint(uid, self.document.outline.all[uid])
        if found is None or not below:
            return
        if len(below) == 1:
            self.put(below[0], found.is_end, found.least, found.most)
            return
        each, reached = (found.most, found.least) if found.is_end else (found.least, found.most)
        for one in below:
            self.put(one, found.is_end, *((None, each) if found.is_end else (each, None)))
        there = [self.stays[one] + self.own[one].duration * found.is_end for one in below if one in self.stays]
        if reached is not None and not (there and (max(there) >= reached if found.is_end else min(there) <= reached)):
            raise BadInput(f"{self.document.called(uid)}: a constraint that whichever task below it is "
                           f"{'last' if found.is_end else 'first'} has to keep; give it to a task")
