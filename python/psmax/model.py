"""A project as one writes it in Python, by names: resources, activities and the lags between their starts and ends."""
from collections.abc import Collection, Iterator, Mapping, Sequence, Sized
from dataclasses import dataclass, field, replace
from typing import Any, TypeVar

from .crew_hours import SPANS, Crews, Hours, with_hours
from .errors import BadInput, UnknownName, WrongType
from .letters import short
from .dated import DatedLag, ShiftLag
from .periods import Time, calendar_days, time_behind, last_time, length_of, touched_by, whole
from .project import MOST_ACTIVITIES, MOST_ARCS, MOST_RESOURCES, MOST_UNITS, Arc, Away, Goal, Numbers
from .work_time import WorkTime


Told = TypeVar("Told")


@dataclass(eq=False)
class Resource:
    """Something scarce, of which there are so many units at any time. A new `capacity` is checked; the name stays."""

    name: str
    capacity: int
    number: int = field(repr=False)  # among the resources of its project, from 0
    project: "Parts | None" = field(default=None, repr=False)

    def __setattr__(self, key: str, value: object) -> None:
        project = vars(self).get("project")
        super().__setattr__(key, value if project is None else project._checked_of_resource(self, key, value))


@dataclass(eq=False)
class Activity:
    """Takes so many periods without a break, and so many units of each resource meanwhile. A new `duration`, new
    `demands` and a new `due` are checked as `Project.activity` does; the name stays."""

    name: str
    duration: int
    demands: Mapping[Resource, int] = field(repr=False)
    number: int = field(repr=False)  # among the activities of its project, from 1
    due: int | None = field(default=None, repr=False)  # when it should have ended
    project: "Parts | None" = field(default=None, repr=False)

    def __setattr__(self, key: str, value: object) -> None:
        project = vars(self).get("project")
        super().__setattr__(key, value if project is None else project._checked_of_activity(self.name, key, value))

    @property
    def start(self) -> "Point":
        return Point(self, False)

    @property
    def end(self) -> "Point":
        return Point(self, True)


@dataclass(frozen=True)
class Point:
    """The start or the end of an activity."""

    activity: Activity
    is_end: bool

    @property
    def offset(self) -> int:
        """How long after the activity's start it is."""
        return self.activity.duration if self.is_end else 0


@dataclass(frozen=True)
class Lag:
    """From one point until another at least and at most so many periods pass; none of these is no limit."""

    before: Point
    after: Point
    at_least: int | None = None
    at_most: int | None = None
    is_in_calendar_days: bool = False  # which go on over days off
    shifts: tuple[int, ...] = ()  # when these begin, where `after` waits for the next one: in parts of what may pause

    @property
    def is_dated(self) -> bool:
        """Whether its periods depend on the date."""
        return self.is_in_calendar_days or bool(self.shifts)


@dataclass(frozen=True)
class Absence:
    """Units of a resource that are away from one time until another, or for ever."""

    resource: Resource
    begins: int
    ends: int | None
    away: int | None = None  # units; none where all are

    @property
    def units(self) -> int:
        return self.resource.capacity if self.away is None else self.away


@dataclass(frozen=True)
class Group:
    """A summary row of a work breakdown, which charts show as a bracket over the activities below it."""

    name: str
    activities: range  # by their numbers, which stand one after another

    def without(self, number: int) -> "Group":
        """The same where the activity of this number is gone, and those behind it are counted anew."""
        first, last = (place - (place > number) for place in (self.activities.start, self.activities.stop))
        return Group(self.name, range(first, last))


class Parts:
    """The resources, activities, lags and absences of a project. Names are unique, and none is empty. It is a
    collection of its activities: `len(project)`, `for activity in project`, `"dig" in project`, `project["dig"]` and
    `del project["dig"]`."""

    def __init__(self, name: str = "") -> None:
        must_be_a(str, name, "a name of a project")
        self.name = name
        self._work_time: WorkTime | None = None
        self.resources: list[Resource] = []
        self.activities: list[Activity] = []
        self.lags: list[Lag] = []
        self.absences: list[Absence] = []
        self.ids: dict[int, str] = {}  # by which a planning tool knows the activities of these numbers
        self.hours: dict[Resource, Hours] = {}  # of the resources that have hours of their own
        self.groups: list[Group] = []  # from the outer one to those in it
        self.status: int | None = None  # up to when it is known what was done
        self.started: dict[int, int] = {}  # when the activities of these numbers did, which lags keep there
        self._source, self._sink = Activity("", 0, {}, 0), Activity("", 0, {}, -1)
        self._named: dict[str, Activity] = {}

    @property
    def calendar(self) -> WorkTime | None:
        """Which days and hours the periods are; none where that is not known. Lengths and dates as texts need it."""
        return self._work_time

    @calendar.setter
    def calendar(self, value: WorkTime | None) -> None:
        if value is not None:
            must_be_a(WorkTime, value, "a WorkTime, such as psmax.WorkTime('2026-03-02', workdays='mon-fri')")
        self._work_time = value

    @property
    def work_time(self) -> WorkTime | None:
        """The name of `calendar` before 1.1."""
        return self.calendar

    @work_time.setter
    def work_time(self, value: WorkTime | None) -> None:
        self.calendar = value

    @property
    def start(self) -> Point:
        """The start of the project, at time 0."""
        return self._source.start

    @property
    def end(self) -> Point:
        """The end of the project, when the last activity has ended."""
        return self._sink.start

    def resource(self, name: str, capacity: int) -> Resource:
        """A new resource, with 0 to 1,000,000 units. BadInput where the name is not new or can't be printed, or there
        are 32 resources already."""
        must_be_new(name, {one.name for one in self.resources}, "resource")
        must_be_room(self.resources, MOST_RESOURCES, "resources")
        made = Resource(name, whole(capacity, f"the capacity of {name}"), len(self.resources), self)
        self.resources.append(made)
        return made

    def activity(self, name: str, duration: int | str, demands: Mapping[Resource, int] | None = None,
                 due: Time | None = None) -> Activity:
        """A new activity. The duration is 0 to 1,000,000 whole periods, or where the project has a calendar a length
        such as '1,5 d'. `demands` has units by resource. `due` is the time by which it should have ended, or a date, at
        whose end. BadInput where the name is not new, something is out of range, or there are 1,000 activities
        already."""
        must_be_new(name, self._named, "activity")
        must_be_room(self.activities, MOST_ACTIVITIES, "activities")
        told = {"duration": duration, "demands": {} if demands is None else demands, "due": due}
        checked = {key: self._checked_of_activity(name, key, value) for key, value in told.items()}
        made = Activity(name, number=len(self.activities) + 1, project=self, **checked)
        self.activities.append(made)
        self._named[name] = made
        return made

    def lag(self, before: Point, after: Point, *, at_least: int | str | None = None,
            at_most: int | str | None = None) -> Lag:
        """A new lag: from one point to another at least and at most so many periods pass, each from -1,000,000 to
        1,000,000, or a length such as '2 d'. A point is the start or the end of an activity or of the project. From an
        activity to the start of another one it may have calendar days, such as '3 cd', which go on over days off.
        BadInput where no limit is said, or a point is none of this project."""
        for point in (before, after):
            must_be_a(Point, point, "a start or an end")
            self.number(point.activity)
        told = (at_least, at_most)
        if told == (None, None):
            raise BadInput("a lag has a least length, a greatest one, or both")
        days = [calendar_days(limit, "a lag") for limit in told]
        is_in_days = days != [None, None]
        if is_in_days:
            must_be_both(told, days)
        low, high = days if is_in_days else [None if limit is None
                                             else length_of(limit, "a lag", self.calendar, -MOST_UNITS)
                                             for limit in told]
        made = Lag(before, after, low, high, is_in_days)
        self.dated(made)
        must_be_room(self.lags, MOST_ARCS, "lags")
        self.lags.append(made)
        return made

    def absence(self, resource: Resource, begins: Time, ends: Time | None = None, units: int | None = None) -> Absence:
        """Units of a resource that are away from one time until another, or from a first day to a last one; without
        `ends` for ever, and without `units` all of them. BadInput where it ends before it begins, or more are away than
        there are."""
        self._own(resource)
        away = None if units is None else whole(units, f"what is away of {resource.name}", 1, resource.capacity)
        first = touched_by(begins, f"when {resource.name} is away", self.calendar)
        until = f"until when {resource.name} is away"
        last = None if ends is None else time_behind(ends, until, self.calendar, first + 1)
        made = Absence(resource, first, last, away)
        must_be_enough([*(one for one in self.absences if one.resource is resource), made])
        self.absences.append(made)
        return made

    def __len__(self) -> int:
        return len(self.activities)

    def __iter__(self) -> Iterator[Activity]:
        return iter(self.activities)

    def __contains__(self, one: object) -> bool:
        """Whether an activity, or one of this name, is one of the project."""
        return one in self._named if isinstance(one, str) else one in self.activities

    def __getitem__(self, name: str) -> Activity:
        must_be_a(str, name, "the name of an activity")
        if name not in self._named:
            raise UnknownName(f"no activity '{short(name)}'")
        return self._named[name]

    def __delitem__(self, one: str | Activity) -> None:
        """Without the activity, its lags, and what else is said of it."""
        gone = self[one] if isinstance(one, str) else one
        number = self.number(gone)
        if gone not in self.activities:
            raise BadInput("the start and the end of the project stay")
        self.lags = [lag for lag in self.lags if gone not in (lag.before.activity, lag.after.activity)]
        del self.activities[number - 1], self._named[gone.name]
        for later_one in self.activities[number - 1 :]:
            vars(later_one)["number"] -= 1
        self.ids, self.started = without_number(self.ids, number), without_number(self.started, number)
        self.groups = [left for left in (group.without(number) for group in self.groups) if left.activities]
        vars(gone)["project"] = None

    def _checked_of_activity(self, name: str, key: str, value: Any) -> Any:
        """What a field of an activity becomes."""
        if key == "duration":
            return length_of(value, f"the duration of {name}", self.calendar)
        if key == "due":
            return None if value is None else last_time(value, f"when {name} is due", self.calendar)
        if key == "demands":
            must_be_a(Mapping, value, "a mapping from resources to demands")
            return {self._own(resource): whole(units, f"the demand of {name} for {resource.name}")
                    for resource, units in value.items()}
        raise AttributeError(f"the {key} of an activity stays as it is")

    def _checked_of_resource(self, one: Resource, key: str, value: object) -> int:
        """What a field of a resource becomes. Where fewer are there than are away, nothing does."""
        if key != "capacity":
            raise AttributeError(f"the {key} of a resource stays as it is")
        units = whole(value, f"the capacity of {one.name}")
        own = [each for each in self.absences if each.resource is one]
        must_be_enough([replace(each, away=units if each.away is None else each.away) for each in own], units)
        return units

    def number(self, activity: Activity) -> int:
        """The number of an activity of this project, with its start and its end."""
        must_be_a(Activity, activity, "an activity")
        if activity is self._sink:
            return len(self.activities) + 1
        own = [self._source] if activity.number == 0 else self.activities[activity.number - 1 : activity.number]
        if own != [activity]:
            raise BadInput(f"'{short(activity.name)}' is no activity of this project")
        return activity.number

    def _own(self, resource: Resource) -> Resource:
        must_be_a(Resource, resource, "a resource")
        if self.resources[resource.number : resource.number + 1] != [resource]:
            raise BadInput(f"'{short(resource.name)}' is no resource of this project")
        return resource

    def _must_have_lateness(self) -> None:
        """With the lateness the programs' end stands for that, and not for the end of the project."""
        if all(one.due is None for one in self.activities):
            raise BadInput("nothing is due, so there is no lateness to minimize")
        if any(self.end in (lag.before, lag.after) for lag in self.lags):
            raise BadInput("with the lateness the project's end has no lags; give them to its activities")

    def arcs(self) -> list[tuple[Arc, Lag]]:
        """Each lag as the arcs of lags from start to start that it is."""
        found = []
        for lag in self.lags:
            if lag.is_dated:
                found += [(one.arc, lag) for one in self.dated(lag)]
                continue
            before, after = (self.number(point.activity) for point in (lag.before, lag.after))
            shift = lag.before.offset - lag.after.offset
            if lag.at_least is not None:
                found.append((Arc(before, after, lag.at_least + shift), lag))
            if lag.at_most is not None:
                found.append((Arc(after, before, -(lag.at_most + shift)), lag))
        return found

    def dated(self, lag: Lag) -> list[DatedLag]:
        """What each limit of a lag is on each date, where that depends on it."""
        if not lag.is_dated:
            return []
        first, last, base = self.number(lag.before.activity), self.number(lag.after.activity), lag.before.offset
        if self.calendar is None:
            raise BadInput("a lag in calendar days needs the project's calendar")
        if lag.before.activity not in self.activities or lag.after.activity not in self.activities or lag.after.is_end:
            raise BadInput("a lag in calendar days goes from an activity to the start of another one")
        calendar, takes_time = self.calendar.calendar(), lag.before.activity.duration > 0
        if lag.shifts:
            arc = Arc(last, first, -(lag.at_most or 0) - base)
            return [ShiftLag(arc, 0, base, True, False, calendar, lag.shifts)]
        return [DatedLag.of(first, last, base, days, is_least, takes_time, calendar)
                for days, is_least in ((lag.at_least, True), (lag.at_most, False)) if days is not None]

    def numbers(self, minimize: str = Goal.MAKESPAN.value) -> Numbers:
        """The project as numbers, for the programs."""
        arcs = [arc for arc, _ in self.arcs()]
        must_fit_text(arcs)
        all_of_it = [self._source, *self.activities, self._sink]
        rows = (tuple(one.demands.get(resource, 0) for resource in self.resources) for one in all_of_it)
        due = {one.number: one.due for one in self.activities if one.due is not None}
        goal = goal_of(minimize)
        if goal is Goal.LATENESS:
            self._must_have_lateness()
        found = Numbers(
            (0, *(one.duration for one in self.activities), 0), tuple(rows),
            tuple(one.capacity for one in self.resources),
            tuple(arcs), tuple(Away(one.resource.number, one.begins, one.ends, one.units) for one in self.absences),
            due, goal, tuple(one for lag in self.lags for one in self.dated(lag)))
        crews = self.crews()
        return found if crews is None else with_hours(found, crews, None)

    def crews_off(self) -> None:
        """ValueError where hours of resources begin or end within a period."""
        crews = self.crews()
        if crews is not None:
            crews.off(crews.after(crews.now, SPANS[0]))

    def crews(self) -> Crews | None:
        """The resources with hours of their own; none where there is no such resource."""
        if not self.hours or self.calendar is None:
            return None
        hours = {one.number: own for one, own in self.hours.items()}
        return Crews(hours, self.calendar.calendar(), self.status or 0)


def goal_of(minimize: str) -> Goal:
    try:
        return Goal(minimize)
    except ValueError:
        raise BadInput(f"minimize {short(str(minimize))}: neither {' nor '.join(Goal)}") from None


def without_number(told: dict[int, Told], gone: int) -> dict[int, Told]:
    """The same without what is said of this number; those behind it are counted anew."""
    return {number - (number > gone): value for number, value in told.items() if number != gone}


def must_be_a(kind: type | tuple[type, ...], value: object, what: str) -> None:
    if not isinstance(value, kind):
        raise WrongType(f"'{short(str(value))}' is not {what}")


def must_be_new(name: str, there: Collection[str], what: str) -> None:
    if not isinstance(name, str) or not name.strip() or not name.isprintable():
        kind = BadInput if isinstance(name, str) else WrongType
        article = "an" if what.startswith("a") else "a"
        raise kind(f"the name of {article} {what} is not a text that can be printed: {short(repr(name))}")
    if name in there:
        raise BadInput(f"a second {what} '{short(name)}'")


def must_be_both(told: Sequence[object], days: Sequence[int | None]) -> None:
    if any(limit is not None and count is None for limit, count in zip(told, days)):
        raise BadInput("a lag counts calendar days in both of its limits, or in none; make two lags of it")


def must_be_room(there: Sized, most: int, what: str) -> None:
    if len(there) >= most:
        raise BadInput(f"a project has at most {most:,} {what}")


def must_be_enough(absences: Sequence[Absence], capacity: int | None = None) -> None:
    """No more units of a resource are away at once than there are."""
    for time in sorted({one.begins for one in absences}):
        away = sum(one.units for one in absences if one.begins <= time and (one.ends is None or time < one.ends))
        there = absences[0].resource.capacity if capacity is None else capacity
        if away > there:
            raise BadInput(f"{away} of {absences[0].resource.name} are away at {time}, and there are {there}")


def must_fit_text(arcs: list[Arc]) -> None:
    far = next((arc.lag for arc in arcs if abs(arc.lag) > MOST_UNITS), None)
    if far is not None:
        raise BadInput(f"a lag from start to start of {far:,} is needed, and one has at most {MOST_UNITS:,}")
    if len(arcs) > MOST_ARCS:
        raise BadInput(f"a project has at most {MOST_ARCS:,} lags")
