"""Lags, absences and violations in a planner's words: from the end of an activity, where a lag counts from there, and
by dates, where there is a calendar."""
from collections.abc import Collection, Sequence

from ..dated import DatedLag, ShiftLag
from ..project import Away, Arc, Goal
from ..psmax import Breach
from .group_delays import Delay
from .project_file import ProjectFile


class Words:
    """Speaks of a project by its names. `kept` are arcs by which what has started before a day stays."""

    def __init__(self, opened: ProjectFile, kept: Sequence[Arc] = ()) -> None:
        self.opened = opened
        self.project = opened.project
        self.names = opened.names.with_dummies(opened.project.end)
        self.kept, self.now = {*kept}, {*opened.project.arcs[opened.changeable() :]}
        self.written = {*opened.project.arcs[: opened.changeable()]}
        self.dated = {one.arc: one for one in opened.project.dated}

    def time(self, time: int) -> str:
        """A time at which something begins."""
        calendar = self.opened.calendar
        return calendar.times(time, time + 1)[0] if calendar is not None else self.opened.after(time)

    def at(self, time: int) -> str:
        return on(self.time(time))

    def by(self, time: int) -> str:
        """A time by which something has ended: the last day of it."""
        calendar = self.opened.calendar
        return calendar.times(time - 1, time)[1] if calendar is not None else self.opened.after(time)

    def brief(self, time: int, is_end: bool = False) -> str:
        """A time with its day of the week: where something begins, or by when it has ended."""
        calendar = self.opened.calendar
        if calendar is None:
            return self.opened.after(time)
        return calendar.brief(calendar.span(time - 1, time)[1] if is_end else calendar.span(time, time + 1)[0])

    def many(self, periods: int) -> str:
        """So many periods, by their own name."""
        if not self.opened.is_own():
            return self.opened.length(periods)
        unit = self.opened.names.unit or "periods"
        if " " in unit:
            count, unit = unit.split(" ", 1)
            periods *= int(count)
        return f"{periods} {unit[:-1] if periods == 1 and unit.endswith('s') else unit}"

    def lag(self, arc: Arc, verb: str = "starts") -> str:
        """An arc as a sentence: a negative lag is a greatest one the other way round."""
        if arc in self.dated:
            return self.calendar_lag(self.dated[arc], verb)
        if arc.lag < 0 or arc.head == 0:
            return self.greatest(arc, verb)
        if arc.head == self.project.end:
            return self.of_end(arc, verb)
        name = self.names.activity(arc.head)
        if arc.tail == 0:
            return f"{name} {verb} {on(self.opened.times(arc.head, arc.lag)[0])} or later"
        return f"{name} {verb} {self.distance('at least', arc.lag, arc.tail)}"

    def origin(self, arc: Arc) -> str:
        """Where a start comes from that no row has as a lag or a date: behind a comma, and else empty."""
        activity = arc.head or arc.tail
        if arc in self.kept:
            stays = activity in self.started(self.kept)
            return ", since it stays as in the old plan" if stays else ", since it has not started by then"
        if arc not in self.now or arc in self.written:
            return ""
        table = self.opened.table
        if table is not None and arc in table.pauses:
            return ", since what may pause goes on with the next shift"
        row = f"row {table.rows[activity - 1]}" if table is not None else "the table"
        if activity in self.opened.progress.started:
            return f", since it has started, as {row} says"
        return f", since the status date is {self.time(self.opened.progress.now or 0)}"

    def started(self, arcs: Collection[Arc]) -> set[int]:
        """What has a start that stays: with an arc to the start of the project."""
        return {arc.tail for arc in arcs if not arc.head}

    def allowed(self, arc: Arc, periods: int) -> str:
        """A maximum lag, and so much more."""
        if arc.tail == self.project.end and self.project.goal is Goal.LATENESS:
            return f"Allow a lateness of {self.many(periods)} more"
        if arc.tail == self.project.end:
            return f"Allow the project to end {self.many(periods)} later"
        return f"Allow {self.names.activity(arc.tail)} to {'start' if arc.head else 'end'} {self.many(periods)} later"

    def calendar_lag(self, one: DatedLag, verb: str) -> str:
        limit, first = "at least" if one.is_least else "at most", self.names.activity(one.first)
        if isinstance(one, ShiftLag):
            return f"{self.names.activity(one.last)} {verb} with the first shift after {first} ends"
        days = f"{one.days} calendar day{'' if one.days == 1 else 's'}"
        return f"{self.names.activity(one.last)} {verb} {limit} {days} after {first} {'ends' if one.base else 'starts'}"

    def of_end(self, arc: Arc, verb: str) -> str:
        """Why the end can't be sooner."""
        ends = "must end" if verb == "must start" else "ends"
        name, beyond = self.names.activity(arc.tail), arc.lag - self.project.durations[arc.tail]
        if self.project.goal is Goal.LATENESS and arc.tail in self.project.due:
            return f"{name} is due by {self.by(self.project.due[arc.tail])}"
        if arc.tail == 0:
            return f"the project {ends} {self.at(arc.lag)} or later"
        far = f"at least {self.opened.length(beyond)} after" if beyond else "no sooner than"
        return f"the project {ends} {far} {name}"

    def greatest(self, arc: Arc, verb: str = "starts") -> str:
        """A lag that is at most 0, or one to the start, as the maximum lag that it is."""
        if arc in self.dated:
            return self.calendar_lag(self.dated[arc], verb)
        if arc.tail == self.project.end:
            far = self.distance("at most", -arc.lag, arc.head)
            return self.deadline(-arc.lag) if arc.head == 0 else f"the project ends {far}"
        name = self.names.activity(arc.tail)
        if arc.head == self.project.end:
            return self.of_end(arc, verb)
        if arc.head == 0:
            must = "must end" if verb == "must start" else "ends"
            return f"{name} {must} by {self.by(self.project.durations[arc.tail] - arc.lag)}"
        return f"{name} {verb} {self.distance('at most', -arc.lag, arc.head)}"

    def deadline(self, value: int) -> str:
        if self.project.goal is Goal.LATENESS:
            late = self.many(abs(value))
            return f"nothing is more than {late} late" if value >= 0 else f"all is {late} early"
        return f"the project ends by {self.by(value)}"

    def distance(self, limit: str, lag: int, before: int) -> str:
        """So long after an activity ends, where the lag is no shorter than it; else after it starts."""
        name, beyond = self.names.activity(before), lag - self.project.durations[before]
        if not before:
            return f"{limit} {self.at(lag)}"
        at_once = "no sooner than" if limit == "at least" else "no later than"
        if beyond >= 0 and self.project.durations[before]:
            return f"{limit} {self.opened.length(beyond)} after {name} ends" if beyond else f"{at_once} {name} ends"
        return f"{limit} {self.opened.length(lag)} after {name} starts" if lag else f"{at_once} {name} starts"

    def delay(self, delay: Delay) -> str:
        """How much later one group starts than another one before it."""
        first, second = self.names.activity(delay.first), self.names.activity(delay.second)
        *more, last = map(self.names.resource, delay.resources)
        needs = f"{', '.join(more)} and {last}" if more else last
        return f"{first} before {second}: {self.many(delay.periods)} later, for {needs}"

    def absence(self, one: Away) -> str:
        """What is away, and when."""
        what = f"{self.away(one)} away"
        if one.ends is None:
            return f"{what} from {self.time(one.begins)} on"
        return f"{what} from {self.time(one.begins)} to {self.by(one.ends)}"

    def away(self, one: Away) -> str:
        """The resource of an absence, or so many units of it."""
        name = self.names.resource(one.resource)
        return name if one.units == self.project.capacities[one.resource] else f"{one.units} of {name}"

    def needs(self, activity: int) -> str:
        """What this activity needs more of than there is."""
        pairs = enumerate(zip(self.project.demands[activity], self.project.capacities))
        told = [f"{need} of {self.names.resource(k)}, of which there {are(units)}"
                for k, (need, units) in pairs if need > units]
        return f"{self.names.activity(activity)} needs {', '.join(told)}"

    def violation(self, violation: Breach, starts: Sequence[int]) -> str:
        """What must be, and what is."""
        if violation.kind == "lag":
            return self.broken(Arc(*violation.numbers), starts)
        if violation.kind == "dated":
            one = self.project.dated[violation.numbers[0]]
            told = self.opened.times(one.last, starts[one.last])[0]
            by = f"{self.many(-one.slack(starts))} too {'soon' if one.is_least else 'late'}"
            return f"{self.calendar_lag(one, 'must start')}, and starts {on(told)}, which is {by}"
        if violation.kind == "overload":
            return self.overload(violation.numbers[0], violation.numbers[1], starts)
        if violation.kind == "horizon":
            return self.too_far(violation.numbers[0], starts)
        return f"the project must start at 0, and starts at {violation.numbers[0]}"

    def too_far(self, activity: int, starts: Sequence[int]) -> str:
        """What ends when the hours of its resources are not known any more."""
        ends, known = on(self.opened.times(activity, starts[activity])[1]), self.by(self.project.horizon or 0)
        return (f"{self.names.activity(activity)} ends {ends}, and the hours of what it needs are known up to {known}; "
                "a later --horizon says more")

    def nothing_within(self, bound: int | None) -> str:
        """What is said where no schedule is known that ends by the horizon, by what is proved."""
        horizon, is_makespan = self.project.horizon or 0, self.project.goal is Goal.MAKESPAN
        is_proved = is_makespan and bound is not None and bound > horizon
        return (f"the hours of resources are known up to {self.by(horizon)}, and no schedule "
                + ("ends by then, which is proved; a later --horizon looks further, and `plan why` says what is in the "
                   "way"
                   if is_proved else "by then was found; a later --horizon looks further"))

    def broken(self, arc: Arc, starts: Sequence[int]) -> str:
        """A lag that isn't kept."""
        is_greatest = arc.lag < 0 or arc.head == 0
        first, last = (arc.head, arc.tail) if is_greatest else (arc.tail, arc.head)
        said = self.lag(arc, "must start")
        if last == self.project.end:
            return f"{said}, and ends at {starts[last]}"
        if first == 0:
            first_day, last_day = self.opened.times(last, starts[last])
            return f"{said}, and " + (f"ends {on(last_day)}" if is_greatest else f"starts {on(first_day)}")
        from_end = abs(arc.lag) >= self.project.durations[first] > 0
        apart = starts[last] - starts[first] - (self.project.durations[first] if from_end else 0)
        return f"{said}, and starts {self.opened.length(abs(apart))} {'after' if apart >= 0 else 'before'} it does"

    def overload(self, time: int, resource: int, starts: Sequence[int]) -> str:
        project = self.project
        running = project.users(resource, starts, time)
        used, away = sum(project.demands[i][resource] for i in running), project.away(resource, time)
        there = project.capacities[resource] - away
        left = f"of which there {are(there)}" + (f" while {away} {'is' if away == 1 else 'are'} away" if away else "")
        left = "outside its hours" if project.is_off(resource, time) else left
        return (f"{self.at(time)}, {used} units of {self.names.resource(resource)} are in use, {left}: "
                + ", ".join(map(self.names.activity, running)))


def on(told: str) -> str:
    """A day, or a moment or the number of a period."""
    return f"on {told}" if len(told) == len("2026-03-02") else f"at {told}"


def are(units: int) -> str:
    return f"is {units}" if units == 1 else f"are {units}"
