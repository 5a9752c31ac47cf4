"""Changes of a project as planners say them: sundays, shift 06:00-22:00, crew +2, weld -2 d, drop absence crane."""
import os
import re
from collections.abc import Callable
from dataclasses import dataclass, field, replace
from fractions import Fraction

from ..dates import DAYS, WEEKDAY, read_workdays
from ..errors import BadInput
from ..letters import short
from ..project import MOST_UNITS, Kind, Part, without
from .above import WORDS, spelled
from .columns import Column, count_heads, is_head
from .csv_text import Sheet, cell, read_sheet, write_sheet
from .lags import did_you_mean
from .project_file import ProjectFile, of_table
from .quantities import NUMBER, Length, Unit, number_text, read_length
from .settings import Settings
from .table import Table, read_table

SETTINGS = {"shift": "shift", "workdays": "workdays", "holidays": "holidays", "from": "first"}  # that may be changed
DROP = re.compile(r"(?:drop|without|ohne)\s+(?:absences?|abwesenheit(?:en)?)\s+(.+)", re.I)
UNITS = re.compile(r"(.+?)\s*([-+]\s*[0-9]{1,7})")
LENGTH = re.compile(rf"([-+]?)\s*({NUMBER}\s*[^\W\d_]*)")
UNIT_WORDS = {Unit.MINUTES: "min", Unit.HOURS: "h", Unit.DAYS: "d", Unit.WEEKS: "w", Unit.CALENDAR_DAYS: "cd",
              Unit.PERIODS: ""}
EXAMPLES = "'sundays', 'shift 06:00-22:00', 'crew +2', 'weld hanger -2 d' or 'drop absence crane'"


@dataclass
class Scenario:
    """The project with one change or several, which ';' separates."""

    opened: ProjectFile  # as it is
    text: str
    settings: dict[str, str] = field(default_factory=dict)
    durations: dict[int, str] = field(default_factory=dict)  # other texts, by the places of rows below the columns
    units: dict[int, int] = field(default_factory=dict)  # more of a resource, or less
    present: set[int] = field(default_factory=set)  # resources without absences

    def project(self) -> ProjectFile:
        for part in self.text.split(";"):
            kinds: tuple[Callable[[str], bool], ...] = (self.is_drop, self.is_day, self.is_units, self.is_setting,
                                                        self.is_duration)
            if not any(read(part.strip()) for read in kinds):
                named = [*self.opened.names.resources, *self.opened.names.activities.values()]
                name = UNITS.sub(r"\1", part.strip())
                raise self.fault(part, f"no change that plan knows, which is such as {EXAMPLES}"
                                 f"{did_you_mean(name, named)}")
        return self.with_units(self.read_again() if self.settings or self.durations else self.opened)

    def fault(self, part: str, text: str) -> BadInput:
        return BadInput(f"'{short(part.strip())}': {text}")

    def is_drop(self, part: str) -> bool:
        found, names = DROP.fullmatch(part), self.opened.names.resources
        if found is None:
            return False
        number = next((place for place, name in enumerate(names) if name.casefold() == found[1].casefold()), None)
        if number is None or all(one.resource != number for one in self.opened.project.absences):
            raise self.fault(part, f"no absence of '{short(found[1])}'{did_you_mean(found[1], names)}")
        self.present.add(number)
        return True

    def is_day(self, part: str) -> bool:
        """A day of the week, which has work then."""
        day = next((WEEKDAY[word] for word in (part.lower(), part.lower()[:-1]) if word in WEEKDAY), None)
        if day is None:
            return False
        days = read_workdays(self.settings.get("workdays") or self.opened.settings.workdays or "mon-sun")
        if day in days or self.opened.calendar is None:
            raise self.fault(part, "that day has work already" if day in days else "that needs --from, the first day")
        self.settings["workdays"] = ",".join(DAYS[one][0] for one in sorted({*days, day}))
        return True

    def is_units(self, part: str) -> bool:
        found = UNITS.fullmatch(part)
        names = [name.casefold() for name in self.opened.names.resources]
        if found is None or found[1].casefold() not in names:
            return False
        place = names.index(found[1].casefold())
        self.units[place] = self.units.get(place, 0) + int(re.sub(r"\s", "", found[2]))
        if not 0 <= self.opened.project.capacities[place] + self.units[place] <= MOST_UNITS:
            raise self.fault(part, f"there are {self.opened.project.capacities[place]} of it")
        return True

    def is_setting(self, part: str) -> bool:
        word, _, value = part.partition(" ")
        name = SETTINGS.get(WORDS.get(spelled(word), ""))
        if name is None or not value.strip():
            return False
        self.settings[name] = value.strip()
        return True

    def is_duration(self, part: str) -> bool:
        """The name or the number of an activity, and its duration, or what is added to that."""
        table = self.opened.table
        if table is None:
            return False
        for place, name in rows_by_name(self.sheet(), table):
            found = LENGTH.fullmatch(part[len(name) :].strip())
            if part.casefold().startswith(name.casefold() + " ") and found is not None:
                before = cell(self.sheet().rows[place], self.column(table))
                self.durations[place] = self.duration(part, before, *found.groups())
                return True
        return False

    def duration(self, part: str, before: str, sign: str, told: str) -> str:
        assert self.opened.table is not None
        scale = self.opened.table.scale
        try:
            old, more = read_length(before, scale.own), read_length(told, scale.own)
            if old.unit is not more.unit and sign:
                minutes = scale.period is Unit.MINUTES
                old, more = (Length(Fraction(scale.periods(one) * (scale.minutes if minutes else 1)), scale.period)
                             for one in (old, more))
        except ValueError:
            raise self.fault(part, f"a length such as '2 d' or '4 h' is needed beside '{short(before)}'") from None
        value = {"": more.value, "+": old.value + more.value, "-": old.value - more.value}[sign]
        if value < 0:
            raise self.fault(part, f"it takes '{short(before)}'")
        return f"{number_text(value)} {UNIT_WORDS[more.unit]}".strip().replace(".", self.opened.decimal)

    def column(self, table: Table) -> int:
        return table.columns.places[Column.DURATION]

    def path(self) -> str:
        return self.opened.sources.get("the table of the project") or self.opened.path

    def sheet(self) -> Sheet:
        return read_sheet(self.path(), self.opened.text, is_head, count_heads)

    def read_again(self) -> ProjectFile:
        """The table with other settings and durations."""
        table = self.opened.table
        if table is None:
            raise BadInput(f"'{short(self.text)}': {self.opened.path} is no table, of which that could be changed")
        sheet, path = self.sheet(), self.path()
        rows = [[*row] for row in sheet.rows]
        for place, text in self.durations.items():
            rows[place][self.column(table)] = text
        text = write_sheet([*sheet.above, sheet.heads, *rows])
        words: Settings = replace(self.opened.settings, **self.settings)
        found = read_table(path, text, words, os.path.dirname(path))
        return of_table(path, found, self.opened.sources, text)

    def with_units(self, opened: ProjectFile) -> ProjectFile:
        project = opened.project
        units = tuple(count + self.units.get(place, 0) for place, count in enumerate(project.capacities))
        gone = {Part(Kind.ABSENCE, place) for place, one in enumerate(project.absences) if one.resource in self.present}
        left = without(project, gone)
        kept = (one._replace(units=min(one.units, units[one.resource])) for one in left.absences)
        left = replace(left, absences=tuple(one for one in kept if one.units))
        if any(left.absent(one.resource, one.begins) > units[one.resource] for one in left.absences):
            raise BadInput(f"'{short(self.text)}': then more would be away than there are")
        return replace(opened, project=replace(left, capacities=units))


def rows_by_name(sheet: Sheet, table: Table) -> list[tuple[int, str]]:
    """The rows by the names and the numbers that one of them alone has; the longest first, as one may begin another."""
    found: dict[str, list[int]] = {}
    for place, row in enumerate(sheet.rows):
        for column in (Column.NAME, Column.ID):
            text = cell(row, table.columns.places.get(column))
            if text:
                found.setdefault(text, []).append(place)
    single = [(places[0], name) for name, places in found.items() if len(places) == 1]
    return sorted(single, key=lambda one: -len(one[1]))
