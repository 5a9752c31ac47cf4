"""A table as a project by names, which other formats can write."""
from collections.abc import Iterable, Sequence
from dataclasses import replace

from ..api import Project
from ..dated import DatedLag, ShiftLag
from ..model import Activity, Parts, Point
from ..project import Arc, leads
from ..work_time import WorkTime
from .project_file import ProjectFile
from .settings import holidays


def as_parts(opened: ProjectFile) -> Project:
    """The same project."""
    made = Project()
    fill_from_table(made, opened)
    return made


def fill_from_table(made: Parts, opened: ProjectFile) -> None:
    """Reads it into an empty one."""
    numbers, table, settings = opened.project, opened.table, opened.settings
    assert table is not None
    made.name, made.calendar = settings.title or "", work_time_of(opened)
    units = [made.resource(opened.names.resource(k), count) for k, count in enumerate(numbers.capacities)]
    made.hours = {units[k]: hours for k, hours in table.columns.hours().items()}
    for i in range(1, numbers.end):
        needs = {units[k]: count for k, count in enumerate(numbers.demands[i]) if count}
        made.activity(opened.names.activities[i], numbers.durations[i], needs, numbers.due.get(i))
    for one in numbers.absences:
        made.absence(units[one.resource], one.begins, one.ends, one.units)
    made.ids, made.groups = {**opened.names.ids}, [*opened.groups]
    made.status, made.started = opened.progress.now or None, {**opened.progress.started}
    soonest = {arc.head: arc.lag for arc in sorted(numbers.arcs) if arc.tail == 0}
    add_lags(made, dict.fromkeys(arc for arc in numbers.arcs if arc.tail or soonest[arc.head] == arc.lag),
             numbers.dated)


def work_time_of(opened: ProjectFile) -> WorkTime | None:
    if opened.calendar is None:
        return None
    settings, first = opened.settings, opened.calendar.begins(0)
    begin = f"{first.date()}" if opened.calendar.is_by_day else first.isoformat(" ", "minutes")
    return WorkTime(begin, settings.period or opened.names.unit, settings.workdays, holidays(settings), settings.shift,
                    settings.zone)


def add_lags(made: Parts, arcs: Iterable[Arc], dated: Sequence[DatedLag]) -> None:
    """What is 0 or more is a least length. What is below 0 is a greatest one the other way round where minimum lags
    lead that way, and else a least one too. Each counts from the end of an activity where it is no shorter than
    that."""
    before: dict[int, set[int]] = {}  # from which activities minimum lags lead to each
    for arc in arcs:
        if arc.lag >= 0 and arc.tail:
            before.setdefault(arc.head, set()).add(arc.tail)
    for one in dated:
        add_dated(made, one)
    by_date = {one.arc for one in dated}
    for arc in (arc for arc in arcs if arc not in by_date):
        tail = made.activities[arc.tail - 1] if 0 < arc.tail <= len(made.activities) else None
        head = made.activities[arc.head - 1] if 0 < arc.head <= len(made.activities) else None
        if tail is None or head is None:
            add_to_project(made, arc, tail, head)
        elif arc.lag >= 0 or not leads(lambda i: before.get(i, ()), arc.head, arc.tail):
            add_least(made, tail, head, arc.lag)
        else:
            from_end = -arc.lag >= head.duration
            made.lag(Point(head, from_end), tail.start, at_most=-arc.lag - head.duration * from_end)


def add_dated(made: Parts, one: DatedLag) -> None:
    first, last = made.activities[one.first - 1], made.activities[one.last - 1]
    limit: int | str = -one.arc.lag - one.base if isinstance(one, ShiftLag) else f"{one.days} cd"
    lag = made.lag(Point(first, one.base > 0), last.start, at_least=limit if one.is_least else None,
                   at_most=None if one.is_least else limit)
    if isinstance(one, ShiftLag):
        made.lags[-1] = replace(lag, shifts=one.shifts)


def add_to_project(made: Parts, arc: Arc, tail: Activity | None, head: Activity | None) -> None:
    """From the start of the project, or to its start or end."""
    if tail is None and head is not None and arc.tail == 0:
        made.lag(made.start, head.start, at_least=arc.lag)
    elif tail is not None and arc.head == 0:
        made.lag(made.start, tail.start, at_most=-arc.lag)
    elif tail is not None:
        made.lag(tail.start, made.end, at_least=arc.lag)
    elif head is not None:
        made.lag(made.end, head.start, at_least=arc.lag)


def add_least(made: Parts, tail: Activity, head: Activity, lag: int) -> None:
    """From the end to the start, from the end to the end, or from the start to the start."""
    if lag >= tail.duration:
        made.lag(tail.end, head.start, at_least=lag - tail.duration)
    elif lag == tail.duration - head.duration:
        made.lag(tail.end, head.end, at_least=0)
    else:
        made.lag(tail.start, head.start, at_least=lag)
