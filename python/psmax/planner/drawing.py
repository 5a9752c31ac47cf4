"""What a chart shows, whether as text or as SVG: a bar for each activity, the use of each resource over time."""
from collections.abc import Callable, Collection, Mapping
from dataclasses import dataclass, field

from ..calendars import Calendar
from .project_file import ProjectFile
from .window import Stretch, Window, away, off, stretches

PICTURE = b"<svg "  # how one begins


@dataclass(frozen=True)
class Bar:
    """An activity, or a group, which has no number."""

    activity: int | None
    name: str
    begins: int
    ends: int
    first: str  # when it begins and ends, in dates where there is a calendar
    last: str
    window: Window | None = None  # in which it may start while the others stay
    is_critical: bool = False
    due: int | None = None
    has_started: bool = False
    was: tuple[int, int] | None = None  # when it began and ended in the plan before
    id: str = ""  # its ID in the table, or its number
    is_open: bool = False  # whether its total float is not known yet
    is_morning: bool = False  # of what takes no time: whether it stands where a day begins
    dates: str = ""  # when it begins and ends, in few letters

    @property
    def label(self) -> str:
        return f"{self.id} {self.name}".strip()


@dataclass(frozen=True)
class Load:
    name: str
    capacity: int
    stretches: tuple[Stretch, ...]
    away: tuple[Stretch, ...] = ()
    off: tuple[Stretch, ...] = ()  # outside of its hours


@dataclass(frozen=True)
class Drawing:
    title: str
    notes: tuple[str, ...]
    begins: int
    ends: int
    bars: tuple[Bar, ...]
    loads: tuple[Load, ...]
    is_plan: bool = True  # and not the starts of a plan before, where there is no schedule
    calendar: Calendar | None = None
    length: Callable[[int], str] = str  # of so many periods, as the table writes lengths
    after: Callable[[int], str] = str  # a time, where there is no calendar
    now: int | None = None  # the status date

    def span(self, begins: int, ends: int) -> str:
        """From when to when something is, in dates where there is a calendar."""
        first, last = self.calendar.times(begins, ends) if self.calendar else (self.after(begins), self.after(ends))
        return f"{first} to {last}"

    def mark(self, time: int, is_first: bool) -> str:
        """A time on the ruler: a short date, but for the first one."""
        if self.calendar is None:
            return self.after(time)
        return self.calendar.times(time, time + 1)[0] if is_first else self.calendar.mark(time)


@dataclass(frozen=True)
class Details:
    """What is known of the activities of a schedule, besides their starts."""

    windows: Mapping[int, Window] = field(default_factory=dict)
    critical: Collection[int] = ()
    started: Collection[int] = ()
    was: Mapping[int, tuple[int, int]] = field(default_factory=dict)  # when each began and ended in the plan before
    open: Collection[int] = ()  # whose total float is not known yet


def make(opened: ProjectFile, starts: tuple[int, ...], title: str, notes: tuple[str, ...] = (),
         known: Details = Details(), is_plan: bool = True) -> Drawing:
    project = opened.project
    begins = min(0, *starts[:-1])
    due = [time for time in project.due.values() if time > 0]
    ends = max([begins + 1, starts[-1], *project.ends(starts), *due, *(ends for _, ends in known.was.values())])
    bars: list[Bar] = []
    for i in range(1, project.end):
        bars += [bracket(opened, starts, group.name, group.activities) for group in opened.groups
                 if group.activities.start == i and len(group.activities)]
        has_started = i in known.started or i in opened.progress.started
        bars.append(Bar(i, opened.names.activities.get(i, ""), starts[i], starts[i] + project.durations[i],
                        *opened.times(i, starts[i]), known.windows.get(i), i in known.critical, project.due.get(i),
                        has_started, known.was.get(i), opened.names.label(i), i in known.open,
                        starts[i] in opened.mornings.get(i, ()), beside(opened, (i, starts[i]), (i, starts[i]))))
    loads = tuple(Load(opened.names.resource(k), units, join_stretches(stretches(project, starts, k)),
                       cut(away(project, k, ends), ends), cut(off(project, k), ends))
                  for k, units in enumerate(project.capacities))
    return Drawing(title, notes, begins, ends, tuple(bars), loads, is_plan, opened.calendar, opened.length,
                   opened.after, opened.progress.now)


def bracket(opened: ProjectFile, starts: tuple[int, ...], name: str, activities: range) -> Bar:
    """A group, from the first start to the last end of its activities."""
    first = min(activities, key=lambda i: starts[i])
    last = max(activities, key=lambda i: starts[i] + opened.project.durations[i])
    begins, ends = starts[first], starts[last] + opened.project.durations[last]
    return Bar(None, name, begins, ends, opened.times(first, begins)[0], opened.times(last, starts[last])[1],
               dates=beside(opened, (first, begins), (last, starts[last])))


def beside(opened: ProjectFile, first: tuple[int, int], last: tuple[int, int]) -> str:
    """From the begin of one activity with its start to the end of another, in few letters."""
    if opened.calendar is None:
        ends_at = last[1] + opened.project.durations[last[0]]
        return " \u2013 ".join(dict.fromkeys(map(opened.after, (first[1], ends_at))))
    calendar, begins, ends = opened.calendar, opened.span(*first)[0], opened.span(*last)[1]
    told = [calendar.style.mark(begins) + ("" if calendar.is_by_day else f" {begins:%H:%M}")]
    if ends != begins:
        told.append(" ".join([calendar.style.mark(ends)] * (ends.date() != begins.date())
                             + [f"{ends:%H:%M}"] * (not calendar.is_by_day)))
    return " \u2013 ".join(told)


def join_stretches(found: tuple[Stretch, ...]) -> tuple[Stretch, ...]:
    """The same, with one stretch for those that meet in a time at which as many units go as come."""
    whole: list[Stretch] = []
    for one in found:
        meets = whole and whole[-1].ends == one.begins and whole[-1].units == one.units
        whole.append(Stretch(whole.pop().begins if meets else one.begins, one.ends, one.units))
    return tuple(whole)


def cut(found: tuple[Stretch, ...], ends: int) -> tuple[Stretch, ...]:
    """What of it a chart has room for."""
    return tuple(Stretch(one.begins, min(one.ends, ends), one.units) for one in found if one.begins < ends)


def round_step(least: float) -> int:
    """The least of 1, 2, 5, 10, 20, 50 and so on that is not below."""
    step = 1
    while True:
        for factor in (1, 2, 5):
            if step * factor >= least:
                return step * factor
        step *= 10
