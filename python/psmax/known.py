"""What is known of a project: by a search that goes on or has ended, by a program's answer, or by a record."""
import json
from collections.abc import Sequence
from dataclasses import dataclass

from .project import Goal
from .project_text import ProjectText
from .record_file import RecordFile

ODD = (ValueError, LookupError, TypeError)


@dataclass(frozen=True)
class Known:
    """The least value of what is minimized that was found, with its starts, and a bound; none where there is no
    schedule."""

    goal: Goal
    value: int | None = None
    bound: int | None = None
    starts: tuple[int, ...] | None = None
    record: RecordFile | None = None  # that proves the bound; psmax writes none where a limit stopped it
    conflicts: int = 0  # of all searches
    was_asked: bool = True  # and not out of time before that
    found: str = ""  # how psprove came by the schedule, where it tells that while it searches

    @property
    def none(self) -> bool:
        return self.bound is None

    @property
    def settled(self) -> bool:
        return self.value == self.bound or self.none

    @property
    def gap(self) -> float | None:
        """By which part of itself the value is above the bound; none where one of both is not known."""
        if self.value is None or self.bound is None:
            return None
        return (self.value - self.bound) / max(1, abs(self.value))

    def status(self) -> str:
        if self.none:
            return "no schedule"
        if self.value is None:
            return "unknown"
        return "optimal" if self.settled else "feasible"

    def first_line(self) -> str:
        """The same in the words of psmax."""
        if self.none:
            return self.status()
        if self.value is None:
            return f"{self.status()} {self.goal.words(f'bound {self.bound}')}"
        return f"{self.status()} {self.goal.words(self.value)}" + ("" if self.settled else f" bound {self.bound}")


def of_answer(out: bytes, record: RecordFile | None, spelled: ProjectText) -> Known:
    """What a program answers in JSON, with its record, if it wrote one. Any other answer raises one of `ODD`."""
    answer = json.loads(out)
    starts = None if answer["starts"] is None else known_starts(answer["starts"], spelled)
    value, bound = (None if answer[key] is None else spelled.value(answer[key]) for key in ("makespan", "bound"))
    value = None if starts is None else value
    is_there = record is not None and record.size() > 0
    return Known(spelled.project.goal, value, bound, starts, record if is_there else None, answer.get("conflicts", 0))


def of_report(line: str, spelled: ProjectText) -> Known:
    """What psprove's book holds while it searches, in JSON. Any other line raises one of `ODD`."""
    told = json.loads(line)
    starts = known_starts(told["starts"], spelled) if "starts" in told else None
    value = None if starts is None else starts[-1]
    return Known(spelled.project.goal, value, spelled.value(told["bound"]), starts, found=told.get("found", ""))


def known_starts(told: Sequence[int], spelled: ProjectText) -> tuple[int, ...] | None:
    """The starts of the project; none where something needs a resource when its hours are not known any more. A bound
    that the program proves is one all the same, since the text leaves more schedules than there are."""
    starts = spelled.outward(tuple(told))
    return None if spelled.project.beyond(starts) else starts


def not_asked(spelled: ProjectText) -> Known:
    """What is known of a project where there is no time left."""
    return Known(spelled.project.goal, bound=spelled.value(0), was_asked=False)
