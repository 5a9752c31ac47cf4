"""What the programs answer, by the names of a project."""
import datetime
from collections.abc import Iterator, Mapping
from dataclasses import dataclass, field
from enum import StrEnum
from functools import cached_property
from typing import NamedTuple, Self

from .calendars import Calendar
from .errors import BadInput, UnknownName
from .known import Known
from .letters import short
from .model import Absence, Activity, Lag, Parts, Resource, must_be_a
from .project import Goal
from .project import Numbers
from .record import Record, record_in
from .whatif import ChangeKind


class Status(StrEnum):
    """As the programs say it."""

    OPTIMAL = "optimal"
    FEASIBLE = "feasible"
    NO_SCHEDULE = "no schedule"
    UNKNOWN = "unknown"


class Times(NamedTuple):
    start: int
    end: int


class Span(Times):
    """When an activity starts and ends, in periods; a pair. Where the project has a calendar, also by dates."""

    calendar: Calendar | None = None

    @classmethod
    def of(cls, start: int, end: int, calendar: Calendar | None) -> Self:
        made = cls(start, end)
        made.calendar = calendar
        return made

    @property
    def start_date(self) -> datetime.date | None:
        """The first day of work; a datetime where periods are shorter than a day, and none without a calendar."""
        return self.dates()[0]

    @property
    def end_date(self) -> datetime.date | None:
        """The last day of work, or the moment of its end."""
        return self.dates()[1]

    def dates(self) -> tuple[datetime.date | None, datetime.date | None]:
        """Both. BadInput where they are beyond the year 9999."""
        if self.calendar is None:
            return None, None
        try:
            first, last = self.calendar.span(*self)
        except OverflowError:
            raise BadInput("the schedule goes beyond the years 1 to 9999") from None
        return (first.date(), last.date()) if self.calendar.is_by_day else (first, last)


@dataclass(frozen=True)
class Question:
    """A project as it was when something was asked of it, with what is minimized."""

    project: Parts
    numbers: Numbers
    activities: tuple[Activity, ...]
    calendar: Calendar | None

    def number(self, activity: Activity | str) -> int:
        """The number of an activity, which is handed in or named. BadInput where it was none of the project."""
        must_be_a((Activity, str), activity, "an activity")
        if activity in self.places:
            return self.places[activity]
        if isinstance(activity, str):
            raise UnknownName(f"no activity '{short(activity)}'")
        raise BadInput(f"'{short(activity.name)}' is no activity of this project")

    @cached_property
    def places(self) -> Mapping[Activity | str, int]:
        numbered = [*enumerate(self.activities, 1)]
        return {**{one: place for place, one in numbered}, **{one.name: place for place, one in numbered}}


def question(project: Parts, minimize: str = Goal.MAKESPAN.value) -> Question:
    calendar = None if project.calendar is None else project.calendar.calendar()
    return Question(project, project.numbers(minimize), (*project.activities,), calendar)


@dataclass(frozen=True)
class Schedule:
    """A start for each activity of a project as it was then."""

    question: Question = field(repr=False)
    starts: tuple[int, ...]  # by the numbers of the activities, with the project's start first

    @property
    def project(self) -> Parts:
        return self.question.project

    def __getitem__(self, activity: Activity | str) -> Span:
        """When an activity starts and ends, which is named or handed in."""
        return self.span(self.question.number(activity))

    def __iter__(self) -> Iterator[tuple[Activity, Span]]:
        """The activities in the order of their starts."""
        order = sorted(enumerate(self.question.activities, 1), key=lambda pair: self.starts[pair[0]])
        return ((one, self.span(number)) for number, one in order)

    def span(self, number: int) -> Span:
        start = self.starts[number]
        return Span.of(start, start + self.question.numbers.durations[number], self.question.calendar)

    @property
    def makespan(self) -> int:
        return max([0, *self.question.numbers.ends(self.starts)])

    @property
    def lateness(self) -> int | None:
        """How late the latest is behind its due date; none where nothing is due."""
        return max((self.span(number).end - due for number, due in self.question.numbers.due.items()), default=None)

    def to_dict(self) -> dict[str, int]:
        return {one.name: self.starts[number] for number, one in enumerate(self.question.activities, 1)}


@dataclass(frozen=True)
class Progress:
    """What is known of a project some seconds after its search began."""

    question: Question = field(repr=False)
    known: Known = field(repr=False)
    seconds: float

    @cached_property
    def schedule(self) -> Schedule | None:
        """The best so far."""
        return None if self.known.starts is None else Schedule(self.question, self.known.starts)

    @property
    def value(self) -> int | None:
        """Of what is minimized, in the schedule."""
        return self.known.value

    @property
    def bound(self) -> int | None:
        """Of what is minimized: no schedule has less. None where there is no schedule."""
        return self.known.bound

    @property
    def gap(self) -> float | None:
        """By which part of itself the value is above the bound, such as 0.05."""
        return self.known.gap

    @property
    def makespan(self) -> int | None:
        return None if self.schedule is None else self.schedule.makespan

    @property
    def lateness(self) -> int | None:
        return None if self.schedule is None else self.schedule.lateness

    @property
    def is_proved(self) -> bool:
        """Always: what psprove tells while it searches its book has proved."""
        return True

    def __str__(self) -> str:
        told = [f"{word} {number}" for word, number in (("schedule", self.value), ("bound", self.bound))
                if number is not None]
        return f"{self.seconds:.2f} s: {', '.join(told) or 'no schedule'}"


@dataclass(frozen=True)
class Answer(Progress):
    """What a search knows at its end."""

    @property
    def project(self) -> Parts:
        return self.question.project

    @property
    def status(self) -> Status:
        return Status(self.known.status())

    @property
    def minimize(self) -> Goal:
        return self.known.goal

    @property
    def conflicts(self) -> int:
        """Of all searches by psprove."""
        return self.known.conflicts

    @cached_property
    def record(self) -> Record | None:
        """Proves the bound, or that there is no schedule; none where nobody wanted one, or psprove died or was
        killed."""
        return None if self.known.record is None else record_in(self.known.record, self.question.numbers)

    def __repr__(self) -> str:
        return f"Answer({self.known.first_line()!r}, seconds={self.seconds:.3f})"

    def __str__(self) -> str:
        return self.known.first_line()

    def __getitem__(self, activity: Activity | str) -> Span:
        """When an activity starts and ends. BadInput where there is no schedule, or no such activity."""
        return self.must_have_schedule()[activity]

    def must_have_schedule(self) -> Schedule:
        if self.schedule is None:
            raise BadInput(f"the answer is `{self.status}`, so there are no starts")
        return self.schedule

    def to_dict(self) -> dict[str, object]:
        """With the keys of `psmax solve --json`, but for the starts, which are by name."""
        late = {"lateness": self.lateness} if self.minimize is Goal.LATENESS else {}
        return {"bound": self.bound, "makespan": self.makespan,
                "starts": None if self.schedule is None else self.schedule.to_dict(), "status": self.status.value,
                **late,
                "conflicts": self.conflicts, "seconds": round(self.seconds, 3)}

    @classmethod
    def from_dict(cls, project: Parts, told: Mapping[str, object]) -> Self:
        """The answer that `to_dict` tells, without its record. BadInput where it is none, or psmax finds that its
        starts are no schedule of the project."""
        from .starts import answer_from
        return cls(*answer_from(project, told))

    def rows(self, floats: "Mapping[Activity, Float] | None" = None) -> list[dict[str, object]]:
        """A row for each activity, in the order of their starts, such as pandas.DataFrame takes: activity, start, end,
        start_date and end_date where there is a calendar, free_float by psmax, and where the floats of `Project.float`
        are handed in, float and is_critical. BadInput where there is no schedule."""
        from .look import rows_of
        return rows_of(self.must_have_schedule(), floats)

    def chart(self) -> str:
        """The schedule as a picture in SVG, as `plan gantt` draws it. BadInput where there is no schedule."""
        from .look import chart
        return chart(self)

    def _repr_html_(self) -> str:
        """The chart, for a notebook."""
        from .look import chart_html
        return chart_html(self)


class ViolationKind(StrEnum):
    START = "start"
    LAG = "lag"
    OVERLOAD = "overload"


@dataclass(frozen=True)
class Violation:
    """A lag that isn't kept, or a time at which more of a resource is in use than there is."""

    kind: ViolationKind
    activities: tuple[Activity, ...]  # whose lag it is, or which run then
    resource: Resource | None
    time: int | None
    text: str

    def __str__(self) -> str:
        return self.text


@dataclass(frozen=True)
class Checked:
    """Whether starts are a feasible schedule, and otherwise every violation."""

    schedule: Schedule
    violations: tuple[Violation, ...]

    @property
    def is_feasible(self) -> bool:
        return not self.violations

    def __bool__(self) -> bool:
        return self.is_feasible


@dataclass(frozen=True)
class Float:
    """How much later an activity can start in some schedule that is no longer: at least and at most so much. Proved,
    both are one."""

    least: int
    most: int
    is_proved: bool

    @property
    def is_critical(self) -> bool:
        return self.is_proved and self.most == 0


@dataclass(frozen=True)
class Changed:
    """What a change of the project gives."""

    kind: ChangeKind
    subject: Resource | Lag | Absence  # what is changed
    status: Status
    value: int | None  # of what is minimized, in the shortest schedule
    bound: int | None
    seconds: float


@dataclass(frozen=True)
class Why:
    """Why there is no schedule: what contradicts each other, besides minimum lags."""

    status: Status  # `no schedule`, or there is one, or psprove could not say
    parts: tuple[Resource | Lag | Absence, ...]
    is_smallest: bool  # whether there is a schedule without any one of them
    schedule: Schedule | None  # that psprove found, where there is one


Starts = Schedule | Answer | Mapping[Activity, int] | Mapping[str, int]
