"""The resources of a table that have hours of their own: the period that these need, and which activities fit into
them."""
from collections.abc import Collection, Iterable, Sequence
from fractions import Fraction

from ..crew_hours import SPANS, Crews, Stretch, is_within, off_times, hour_windows
from ..dates import MIDNIGHT
from ..letters import short
from ..work_time import moment, shift
from .columns import Column, Columns
from .faults import Faults, fault_at
from .quantities import Length, Unit
from .rows import Row, Terms
from .settings import Settings


def parts_of_day(settings: Settings, marks: Collection[int] = ()) -> list[Stretch]:
    """The hours of work of a day, in more parts where the project starts within them or the hours of a resource change
    there, so that a period begins there."""
    first = None if settings.first is None else moment(settings.first, "from", settings.dates).at
    times = sorted({*marks, 0 if first is None else 60 * first.hour + first.minute})
    found = []
    for begins, ends in shift(settings.shift, 1):
        inner = [begins, *(time for time in times if begins < time < ends), ends]
        found += [*zip(inner, inner[1:])]
    return found


def marks_of(columns: Columns) -> set[int]:
    """The minutes of the day at which the hours of some resource change."""
    return {minute for hours in columns.hours().values() for minute in hours.marks()}


def lengths_between(columns: Columns, settings: Settings) -> list[Length]:
    """How long it is between these, which a whole number of periods has to take."""
    marks = marks_of(columns)
    if not marks or settings.first is None:
        return []
    if settings.shift is not None:
        found = [ends - begins for begins, ends in parts_of_day(settings, marks)]
    else:
        first = moment(settings.first, "from", settings.dates).at
        found = [(minute - 60 * first.hour - first.minute) % MIDNIGHT or MIDNIGHT for minute in marks]
    return [Length(Fraction(minutes), Unit.MINUTES) for minutes in found]


def crews_of(terms: Terms, settings: Settings, now: int) -> Crews | None:
    """None where no resource has hours of its own. What can't be kept exactly is a fault of its column."""
    hours, faults, calendar = terms.columns.hours(), Faults(), terms.calendar
    for number, one in hours.items():
        place = terms.columns.resources[number]
        with faults.kept():
            why = ""
            if calendar is None:
                why = "hours need --from, the first day of the project"
            elif not is_within(one, calendar):
                own = settings.shift or "whole days"
                own += " until --shift says others" if terms.is_guess else ""
                why = f"these go beyond the hours of the project, which are {own}, {settings.workdays or 'every day'}" \
                      "; those have to be all at which somebody works, such as --shift 00:00-24:00"
            else:
                why = why_inexact(Crews({number: one}, calendar, now))
            if why:
                raise fault_at(terms.file, terms.head_row, place, terms.columns.heads[place], why)
    faults.tell()
    return Crews(hours, calendar, now) if hours and calendar is not None else None


def why_inexact(crews: Crews) -> str:
    """What is wrong where hours begin within a period, or there are none."""
    until = crews.after(crews.now, SPANS[0])
    for hours in crews.hours.values():
        try:
            if off_times(hours, crews.calendar, crews.now, until) == ((crews.now, until),):
                return f"'{short(hours.text)}': no such hour is one of the project's within {SPANS[0]} days"
        except ValueError as fault:
            return f"{fault}"
    return ""


def needed(demands: Sequence[int], crews: Crews) -> frozenset[int]:
    """Which of these an activity with such demands needs."""
    return frozenset(number for number in crews.hours if demands[number])


def must_fit(rows: Iterable[Row], durations: Sequence[int], demands: Sequence[Sequence[int]], started: dict[int, int],
             crews: Crews, faults: Faults) -> None:
    """A fault where something fits into no time at which all that it needs is there."""
    until = crews.after(crews.now, SPANS[0])
    off = crews.off(until)
    for number, row in enumerate(rows, 1):
        crew, duration = needed(demands[number - 1], crews), durations[number - 1]
        found = hour_windows(off, crew, crews.now, until) if crew and duration else []
        with faults.kept():
            if crew and duration and number in started:
                must_go_on(row, max(0, started[number] + duration - crews.now), found, crews.now)
            elif crew and duration and not row.is_said(Column.PAUSES):
                must_fit_one(row, duration, max((ends - begins for begins, ends in found), default=0))


def must_go_on(row: Row, rest: int, found: Sequence[Stretch], now: int) -> None:
    """What has started goes on without a break."""
    if rest and (not found or found[0][0] > now or found[0][1] < now + rest):
        raise row.fault(Column.DURATION, f"what remains, {period_text(row, rest)}, goes beyond the hours of what it "
                        "needs; write what is done as a row that has finished, and the rest as one of its own")


def must_fit_one(row: Row, duration: int, longest: int) -> None:
    if duration > longest > 0:
        raise row.fault(Column.DURATION, f"{period_text(row, duration)}, and all that it needs is there for "
                        f"{period_text(row, longest)} at a time; 'yes' in a column 'may pause' cuts it into whole "
                        "shifts")
    if duration > longest:
        raise row.fault(Column.DURATION, "all that it needs is never there at once")


def period_text(row: Row, periods: int) -> str:
    text, name = row.terms.scale.text(periods), row.terms.scale.name()
    return text if not text.isdigit() else f"{text} {name.removesuffix('s') if periods == 1 else name}"
