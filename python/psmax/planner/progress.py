"""How far a project has come: what has started stays at its real start, and takes what follows; the rest starts from
the status date on."""
import re
from collections.abc import Sequence
from fractions import Fraction
from math import ceil

from ..history import Standing
from ..letters import short
from .columns import Column
from .faults import Faults
from .rows import Row, is_reversed

TOLD = (Column.STARTED, Column.FINISHED, Column.REMAINING, Column.DONE)
PERCENT = re.compile(r"([0-9]{1,3}(?:[.,][0-9]{1,3})?)\s*%?")


def read_progress(standing: Standing, rows: Sequence[Row], durations: list[int], faults: Faults) -> None:
    """Takes the real starts, and changes the durations of what has started."""
    for number, row in enumerate(rows, 1):
        with faults.kept():
            told = [column for column in TOLD if row.cell(column)
                    and not is_nothing(row, column, durations[number - 1])]
            if told and standing.now is None:
                raise row.fault(told[0], "how far the project has come needs --status, the date at which that is so")
            if told and Column.STARTED not in told:
                raise row.fault(told[0], "what has no start in the column 'started' has not started")
            if told and standing.now is not None:
                standing.started[number], durations[number - 1] = so_far(row, standing.now, durations[number - 1])


def is_nothing(row: Row, column: Column, planned: int) -> bool:
    """Nothing done and all remaining say that an activity has not started."""
    if row.cell(Column.STARTED):
        return False
    return share(row) == 0 if column is Column.DONE else column is Column.REMAINING and row.duration(column) == planned


def so_far(row: Row, now: int, planned: int) -> tuple[int, int]:
    """The real start, and the duration that follows from what has been done."""
    start = real_start(row, now, planned)
    if row.cell(Column.FINISHED):
        return start, real_end(row, now, start) - start
    left = what_remains(row, planned)
    if left is None:
        if start + planned <= now and planned:
            raise row.fault(Column.STARTED, f"it has started, and would have ended by the status date in its {planned} "
                            "periods; say what remains, or that 100 % is done")
        return start, planned
    if left == 0:
        return start, min(planned, now - start)
    return start, now - start + left


def real_end(row: Row, now: int, start: int) -> int:
    """What began and ended within a period took no time in periods."""
    begun, ended = (row.time_in(column, row.cell(column)) for column in (Column.STARTED, Column.FINISHED))
    end = row.close(Column.FINISHED, row.cell(Column.FINISHED))
    if end > now:
        raise row.fault(Column.FINISHED, "an end behind the status date; what has ended is before it")
    if is_reversed(begun, ended, start, end):
        raise row.fault(Column.FINISHED, f"'{short(row.cell(Column.FINISHED))}' is before "
                        f"'{short(row.cell(Column.STARTED))}', where it started")
    return max(start, end)


def real_start(row: Row, now: int, planned: int) -> int:
    """What takes no time stands at the end of its day, as everywhere."""
    text = row.cell(Column.STARTED)
    start = row.begin(Column.STARTED, text) if planned else min(now, row.close(Column.STARTED, text))
    if start > now:
        raise row.fault(Column.STARTED, f"'{short(text)}' is behind the status date")
    if start < 0 or row.is_before_project(Column.STARTED, text):
        raise row.fault(Column.STARTED, f"'{short(text)}' is before the project starts")
    return start


def what_remains(row: Row, planned: int) -> int | None:
    """In periods; none where nothing says so."""
    if row.cell(Column.REMAINING):
        left = row.duration(Column.REMAINING)
        if row.cell(Column.DONE) and (share(row) == 1) != (left == 0):
            raise row.fault(Column.DONE, "this and what remains contradict each other")
        return left
    return ceil(planned * (1 - share(row))) if row.cell(Column.DONE) else None


def share(row: Row) -> Fraction:
    text = row.cell(Column.DONE)
    found = PERCENT.fullmatch(text)
    value = Fraction(found[1].replace(",", ".")) / 100 if found else Fraction(-1)
    if 0 < value <= Fraction(1, 100) and "%" not in text:
        raise row.fault(Column.DONE, f"'{short(text)}' may be a share of 1 or of 100; write it with %, as in 40 %")
    if not 0 <= value <= 1:
        raise row.fault(Column.DONE, f"'{short(text)}' is not a share such as 40 %")
    return value
