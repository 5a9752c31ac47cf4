"""The columns of a table of activities: docs/PLANNER.md says what each has."""
import re
from contextlib import suppress
from dataclasses import dataclass, field
from enum import Enum
from functools import lru_cache

from ..crew_hours import Hours, read_hours
from ..dates import is_dated
from ..errors import BadInput
from ..letters import short
from ..project import MOST_RESOURCES, MOST_UNITS
from .csv_text import MOST_COLUMNS, Sheet, cell
from .faults import Faults, fault_at
from .quantities import WORDS, Unit

WITH_NUMBER = re.compile(r"[-+<>]?\s*[.,]?\d|(?:yes|no|ja|nein|x|true|false)$", re.I)
RESOURCE = re.compile(r"(.*\S)\s*\(\s*(\d+)\s*(?:[,;]\s*([^()]*[^()\s])\s*)?\)")


class Column(Enum):
    """What a column has. The value is what it is called in faults. Each is looked up for each cell, so its hash is the
    one of an object, which takes no call of Python."""

    __hash__ = object.__hash__

    NAME = "name"
    DURATION = "duration"
    ID = "number of the activity"
    PREDECESSORS = "predecessors"
    AFTER = "after"
    AT_LEAST = "at least"
    AT_MOST = "at most"
    NOT_BEFORE = "not before"
    END_BY = "end by"
    DUE = "due"
    STARTED = "started"
    FINISHED = "finished"
    REMAINING = "remaining"
    DONE = "done"
    WBS = "wbs"
    LEVEL = "outline level"
    SUMMARY = "summary"
    PAUSES = "may pause"
    NOTE = "notes"
    COMPUTED = "what plan computes"
    RESOURCE = "resource"


HEADS = {head: column for column, heads in (  # in English, then in German
    (Column.NAME, "activity, name, task name, task, vorgang, vorgangsname, aktivität, tätigkeit, arbeitsgang, aufgabe"),
    (Column.DURATION, "duration, weeks, days, hours, minutes, periods, dauer, wochen, tage, stunden, minuten"),
    (Column.ID, "id, no, no., #, nr, nr., nummer"),
    (Column.PREDECESSORS, "predecessors, predecessor, vorgänger"),
    (Column.AFTER, "after, nach"),
    (Column.AT_LEAST, "at least, mindestens"),
    (Column.AT_MOST, "at most, höchstens"),
    (Column.NOT_BEFORE, "not before, nicht vor, frühestens"),
    (Column.END_BY, "end by, ende bis"),
    (Column.DUE, "due, due date, fällig, fällig am"),
    (Column.STARTED, "started, actual start, begonnen, tatsächlicher anfang"),
    (Column.FINISHED, "finished, actual finish, beendet, tatsächliches ende"),
    (Column.REMAINING, "remaining, remaining duration, rest, verbleibende dauer"),
    (Column.DONE, "done, done %, done (%), % done, % complete, erledigt, % abgeschlossen"),
    (Column.WBS, "wbs, outline number, psp-code, gliederungsnummer"),
    (Column.LEVEL, "outline level, level, gliederungsebene"),
    (Column.SUMMARY, "summary, sammelvorgang, gruppe"),
    (Column.PAUSES, "may pause, pauses, darf pausieren, unterbrechbar"),
    (Column.NOTE, "note, notes, remark, remarks, comment, comments, notiz, notizen, bemerkung, bemerkungen, kommentar"),
    (Column.COMPUTED, "start, end, finish, first day, last day, free float, total float, critical, late, "
     "beginn, anfang, ende, freier puffer, gesamtpuffer, kritisch, verspätet"),
) for head in heads.split(", ")}
ELSEWHERE = {head: instead for heads, instead in (  # what tables say in other columns, where it would not be read
    ("resource, resources, resource names, ressource, ressourcen, ressourcennamen",
     "each resource has a column of its own, with its capacity, as in 'crew (5)'"),
    ("status", "how far an activity has come stands in started, finished, remaining or done; the status date stands "
     "above"),
) for head in heads.split(", ")}
NEAR = 0.8  # of two heads, from when on one may be meant for the other
MANY = (Column.NOTE, Column.COMPUTED, Column.RESOURCE)  # of which a table may have several
LAGS = (Column.AFTER, Column.AT_LEAST, Column.AT_MOST, Column.PREDECESSORS)


@dataclass(frozen=True)
class Columns:
    """Where in a row each thing stands, and what the columns are called."""

    heads: list[str]
    places: dict[Column, int] = field(default_factory=dict)
    resources: list[int] = field(default_factory=list)
    own: list[int] = field(default_factory=list)  # of words for people alone, which plan passes over

    def hours(self) -> dict[int, Hours]:
        """Those of the resources that have some, by their numbers. What is wrong with others was told where heads are
        read."""
        found: dict[int, Hours] = {}
        for number, place in enumerate(self.resources):
            with suppress(ValueError):
                hours = hours_of(self.heads[place])
                found |= {} if hours is None else {number: hours}
        return found

    def unit(self) -> Unit:
        """What a bare duration counts."""
        head = self.heads[self.places[Column.DURATION]].lower()
        return Unit.PERIODS if head in ("duration", "dauer") else WORDS[head]


@lru_cache(maxsize=1_000)
def column_of(head: str) -> Column | None:
    found = HEADS.get(head.lower())
    return Column.RESOURCE if found is None and RESOURCE.fullmatch(head) else found


def is_head(row: list[str]) -> bool:
    """Whether a row names the columns of a table of activities."""
    return {Column.NAME, Column.DURATION} <= {column_of(head) for head in row}


def count_heads(row: list[str]) -> int:
    """How many columns of a table of activities a row names."""
    return len({column_of(head) for head in row} - {None})


def read_heads(file: str, sheet: Sheet, faults: Faults) -> Columns:
    columns = Columns(sheet.heads)
    for place, head in enumerate(sheet.heads):
        found = column_of(head)
        with faults.kept():
            if found is None and head and is_own(sheet, place):
                columns.own.append(place)
            elif found is None and head:
                raise fault_at(file, sheet.head_row, place, head, why_not_own(sheet.heads, place))
            if found is Column.RESOURCE:
                why = why_no_resource(columns, head)
                columns.resources.append(place)
                if why:
                    raise fault_at(file, sheet.head_row, place, head, why)
            elif found in columns.places and found not in MANY and found is not None:
                raise fault_at(file, sheet.head_row, place, head, f"a second column for the {found.value}")
            elif found is not None:
                columns.places[found] = place
    if len(columns.resources) > MOST_RESOURCES:
        faults.tell()  # before the demands for each are read
    missing = [f"{file}: row {sheet.head_row} has no column for the {kind.value}, such as '{example}'"
               for kind, example in ((Column.NAME, "activity"), (Column.DURATION, "days"))
               if kind not in columns.places]
    if missing:  # which a column of the planner's own may be
        own = [fault_at(file, sheet.head_row, place, sheet.heads[place], why_not_own(sheet.heads, place))
               for place in columns.own]
        told = sorted([*faults.found, *own], key=lambda fault: fault.place)
        raise BadInput(*map(str, told), *missing)
    return columns


def is_own(sheet: Sheet, place: int) -> bool:
    """Whether a column has words for people alone: its name is like none that plan knows, and some cell is neither a
    number nor a date. What may be meant for something else is a fault."""
    head, cells = sheet.heads[place].lower(), [cell(row, place) for row in sheet.rows]
    is_words = any(text and not is_dated(text) and not WITH_NUMBER.match(text) for text in cells)
    return is_words and head not in ELSEWHERE and "(" not in head and not like(head)


@lru_cache(maxsize=MOST_COLUMNS)
def like(head: str) -> str:
    """The name of a column that a head may be meant for."""
    from difflib import get_close_matches
    return next(iter(get_close_matches(head, HEADS, 1, NEAR)), "")


def why_not_own(heads: list[str], place: int) -> str:
    head = heads[place].lower()
    if head in ELSEWHERE:
        return ELSEWHERE[head]
    if like(head):
        return f"not a column that plan knows; did you mean '{like(head)}'?"
    is_half = re.fullmatch(r".*\(\s*\d+", heads[place]) and cell(heads, place + 1).endswith(")")
    return ("not a column that plan knows; a resource has its capacity, as in 'crew (5)', and a column of your own "
            "words is called notes" + ("; a name with a comma in it stands in quotes" if is_half else ""))


def why_no_resource(columns: Columns, head: str) -> str:
    name, units = split_resource(head)
    try:
        hours_of(head)
    except ValueError as fault:
        return f"{fault}"
    if len(columns.resources) >= MOST_RESOURCES:  # told once
        return f"a project has at most {MOST_RESOURCES} resources" if len(columns.resources) == MOST_RESOURCES else ""
    if len(units) > 9 or int(units) > MOST_UNITS:
        return f"a capacity is at most {MOST_UNITS:,}"
    if name in [split_resource(columns.heads[other])[0] for other in columns.resources]:
        return f"a second resource '{short(name)}'"
    return ""


def split_resource(head: str) -> tuple[str, str]:
    """The name and the capacity that the column of a resource has as its own."""
    found = RESOURCE.fullmatch(head)
    assert found is not None
    return found[1], found[2]


def hours_of(head: str) -> Hours | None:
    """The hours of its own that a resource has, if it has some; ValueError says what is wrong with them."""
    found = RESOURCE.fullmatch(head)
    return read_hours(found[3]) if found is not None and found[3] else None
