"""Rows that may pause: such an activity is cut into parts. Each but the last takes a whole shift of what it needs. The
first one begins with a shift, and each other one with the next. That is a rule of the table, which lags say exactly."""
from collections.abc import Sequence
from contextlib import suppress
from dataclasses import dataclass, field

from ..crew_hours import SPANS, Crews, Stretch, hour_windows
from ..dated import DatedLag, ShiftLag
from ..errors import BadInput
from ..project import Arc, Numbers
from .columns import Column
from .crews import needed
from .faults import CellFault, Faults
from .lags import Activities
from .progress import TOLD
from .quantities import Unit
from .rows import Row

OF_FIRST = (Column.AFTER, Column.AT_LEAST, Column.AT_MOST, Column.PREDECESSORS, Column.NOT_BEFORE)
OF_LAST = (Column.END_BY, Column.DUE)
UNEQUAL = "the shifts of what it needs are not of one length; write a row for each part"


@dataclass
class Cut:
    """The parts of a row, by their names, and the lags between them."""

    row: Row
    parts: list[str]
    crew: frozenset[int]
    shift: int  # how long it is


@dataclass
class Cuts:
    """All of a table."""

    crews: Crews
    found: list[Cut] = field(default_factory=list)

    def rows(self, row: Row, faults: Faults) -> list[Row]:
        """The parts of a row, or it alone. What is wrong with its cells is told where they are read."""
        with suppress(CellFault):
            duration, places = row.duration(Column.DURATION), row.terms.columns.resources
            crew = needed([row.units(place) for place in places], self.crews)
            if not row.is_said(Column.PAUSES) or not crew:
                return [row]
            with faults.kept():
                return self.parts(row, duration, crew)
        return [row]

    def parts(self, row: Row, duration: int, crew: frozenset[int]) -> list[Row]:
        lengths = {ends - begins for begins, ends in self.shifts(crew)[1:-1]}
        if duration <= max(lengths, default=0):
            return [row]
        if len(lengths) != 1:
            raise row.fault(Column.PAUSES, UNEQUAL if lengths else "all that it needs is never there at once")
        if any(row.cell(column) for column in TOLD):
            raise row.fault(Column.PAUSES, "what has started has no parts any more; write what is done as a row that "
                            "has finished, and the rest as one of its own")
        if self.crews.calendar.changes():
            raise row.fault(Column.PAUSES, "where clocks change shifts are not of one length; leave out --zone")
        [shift] = lengths
        count = -(-duration // shift)
        names = [f"{row.cell(Column.NAME)} ({number} of {count})" for number in range(1, count + 1)]
        found = Cut(row, names, crew, shift)
        self.found.append(found)
        return [cut_part(found, number, min(shift, duration - shift * number)) for number in range(count)]

    def shifts(self, crew: frozenset[int], time: int | None = None) -> list[Stretch]:
        """Those within some weeks after a time. The first and the last one may be cut."""
        now = self.crews.now
        until = self.crews.after(now if time is None else time, SPANS[0])
        return hour_windows(self.crews.off(until), crew, now, until)

    def name(self, activities: Activities) -> None:
        """A lag to a row that was cut is tied to its first part or to its last one."""
        for one in self.found:
            first, name = activities.names.get(one.parts[0]), one.row.cell(Column.NAME)
            id_ = one.row.cell(Column.ID).casefold()
            if first is not None:
                activities.lasts[first] = activities.names[one.parts[-1]]
                activities.names = {name: first} | activities.names
                activities.ids = ({id_: first} if id_ else {}) | activities.ids

    def order(self, names: dict[str, int]) -> list[Arc]:
        """By which each part begins no sooner than a shift after the one before, wherever that is."""
        steps = {one.crew: steps_between(self.shifts(one.crew)[1:-1]) for one in self.found}
        return [Arc(names[first], names[last], min(steps[one.crew], default=one.shift)) for one in self.found
                for first, last in zip(one.parts, one.parts[1:])]

    def lags(self, project: Numbers, names: dict[str, int]) -> tuple[list[Arc], list[DatedLag]]:
        """By which each part begins with the shift after that of the one before."""
        arcs, dated = list[Arc](), list[DatedLag]()
        for one in self.found:
            shifts = self.shifts(one.crew, project.horizon)
            if any(ends - begins != one.shift for begins, ends in shifts[1:-1]):
                raise BadInput(f"{one.row.fault(Column.PAUSES, UNEQUAL)}")
            whole = [(begin, end) for begin, end in shifts if end - begin == one.shift or end == shifts[-1][1]]
            begins, steps = [begin for begin, _ in whole], steps_between(whole)
            for first, last in zip(one.parts, one.parts[1:]):
                arcs.append(Arc(names[first], names[last], min(steps)))
                arcs.append(Arc(names[last], names[first], -max(steps)))
                if len(steps) > 1:
                    dated.append(ShiftLag(arcs[-1], 0, one.shift, True, False, self.crews.calendar, tuple(begins)))
        return arcs, dated


def steps_between(shifts: Sequence[Stretch]) -> set[int]:
    """How long it is from the begin of one to that of the next."""
    return {later - sooner for (sooner, _), (later, _) in zip(shifts, shifts[1:])}


def cut_part(cut: Cut, number: int, periods: int) -> Row:
    """The lags and dates of the row's start are those of the first part, the dates of its end those of the last."""
    row, scale = cut.row, cut.row.terms.scale
    unit = {Unit.MINUTES: "min", Unit.DAYS: "d", Unit.WEEKS: "w"}.get(scale.period, "periods")
    length = periods * scale.minutes if scale.period is Unit.MINUTES else periods
    texts = {Column.NAME: cut.parts[number], Column.DURATION: f"{length} {unit}", Column.PAUSES: ""}
    texts |= {Column.ID: f"{row.cell(Column.ID)}/{number + 1}"} if row.cell(Column.ID) else {}
    others = (*(OF_FIRST if number else ()), *(OF_LAST if number + 1 < len(cut.parts) else ()))
    texts |= {column: "" for column in others}
    return row.with_texts(texts)
