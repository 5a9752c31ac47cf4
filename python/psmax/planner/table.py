"""Tables of activities in CSV: docs/PLANNER.md says what the columns are. Faults name the row and the column."""
from collections.abc import Iterable, Sequence
from contextlib import suppress
from dataclasses import dataclass, replace

from ..calendars import Calendar
from ..crew_hours import Crews, with_hours
from ..dated import DatedLag
from ..dates import is_dated
from ..errors import BadInput
from ..history import Standing
from ..letters import printable, short
from ..model import Group
from ..project import MOST_ACTIVITIES, MOST_ARCS, Arc, Goal, Numbers
from ..work_time import minutes_of, moment, workdays
from .above import Above, read_above
from .absences import read_absences
from .columns import LAGS, Column, Columns, count_heads, is_head, read_heads, split_resource
from .crews import crews_of, lengths_between, must_fit, parts_of_day
from .csv_text import Sheet, cell, read_sheet
from .decimals import with_one_sign
from .faults import Faults
from .lags import START, START_OF, WITH, Activities, Lags, Side, lengths_in, shares_in
from .names import Names
from .pauses import Cuts
from .progress import read_progress
from .quantities import Length, Scale, Unit, read_length, scale_of, units_of
from .rows import Row, Terms, groups_of, is_summary, level, told_apart
from .settings import HOURS_OF_WORK, Settings, calendar, checked, time_of

MOST_ROWS = 10_000  # of activities, and of what more is said of them


@dataclass(frozen=True)
class Table:
    """What a table of activities says."""

    project: Numbers
    names: Names
    settings: Settings
    calendar: Calendar | None
    groups: tuple[Group, ...]
    mornings: dict[int, list[int]]  # times at which a date says that an activity without duration may be, by activity
    progress: Standing
    scale: Scale
    rows: tuple[int, ...]  # in which the activities stand, as a spreadsheet numbers them
    notes: tuple[str, ...]  # what is to be said of it before anything is done with it
    above: Above
    columns: Columns
    head_row: int  # in which their names stand
    crews: Crews | None = None  # the resources with hours of their own
    pauses: tuple[Arc, ...] = ()  # between the parts of rows that may pause


def read_table(file: str, text: str, words: Settings, folder: str, page: Settings = Settings()) -> Table:
    """The words of the command go over the rows above the table, and these over the page of names."""
    sheet, faults = read_sheet(file, text, is_head, count_heads), Faults()
    if len(sheet.rows) > MOST_ROWS:
        raise BadInput(f"{file}: a table of activities has at most {MOST_ROWS:,} rows, and this one "
                       f"{len(sheet.rows):,}")
    above = read_above(file, sheet, folder)
    settings = checked(words.over(above.settings).over(page))
    above.must_have_files(file, settings)
    columns = read_heads(file, sheet, faults)
    sheet = with_one_sign(file, sheet, columns.places, faults)
    with above.named(file):
        terms = terms_of(file, sheet, columns, settings)
        if terms.is_guess and settings.first is not None:
            settings = replace(settings, shift=HOURS_OF_WORK)
        reading = Reading(terms, settings, faults)
        for number, cells in sheet.numbered():
            reading.add_row(Row(terms, number, cells))
        return reading.table(above)


def terms_of(file: str, sheet: Sheet, columns: Columns, settings: Settings) -> Terms:
    """By the lengths of all cells: the period that divides them, where none is named, and so the calendar."""
    head, named = columns.unit(), settings.period
    if head is Unit.PERIODS and named in [unit.value for unit in Unit]:
        head = Unit(named)
    week, own = len(workdays(settings.workdays)), head
    blank = Terms(file, columns, Scale(own, 0, None, week, own, head), None, settings.dates, sheet.head_row)
    rows = [Row(blank, number, cells) for number, cells in sheet.numbered()]
    units = units_of(lengths([row.cell(Column.DURATION) for row in rows], own))
    if own is Unit.PERIODS and len(units) == 1:
        [own] = units  # a column `duration` with one unit in all of its cells
    found = lengths([text for row in rows for text in lengths_in(row)], own) + shares_in(rows, own)
    found += lengths_between(columns, settings)
    scale = scale_of(found, own, head, None if settings.shift is None else parts_of_day(settings), week)
    is_guess = settings.shift is None and (scale is None or needs_hours(units_of(found) | {own}, named))
    if scale is None or is_guess:
        settings = replace(settings, shift=HOURS_OF_WORK)
        scale = scale_of(found, own, head, parts_of_day(settings), week)
    assert scale is not None
    if named in (Unit.DAYS.value, Unit.WEEKS.value):
        scale = replace(scale, period=Unit(named), minutes=0, is_named=True)
    elif named is not None:
        scale = replace(scale, period=Unit.MINUTES, minutes=minutes_of(named), is_named=True)
    return replace(blank, scale=scale, calendar=calendar(replace(settings, period=None), scale.name()),
                   is_guess=is_guess)


def needs_hours(units: set[Unit], named: str | None) -> bool:
    """Whether a period that is named is tied to these units by the hours of work of a day."""
    by_day, by_clock = {Unit.DAYS, Unit.WEEKS}, {Unit.HOURS, Unit.MINUTES}
    is_by_day = named in [unit.value for unit in by_day]
    return named is not None and bool(units & (by_clock if is_by_day else by_day))


def lengths(texts: Iterable[str], own: Unit) -> list[Length]:
    """Those that are lengths; what is none is a fault that is told where the cell is read."""
    found = []
    for text in texts:
        with suppress(ValueError):
            found.append(read_length(text, own))
    return found


class Reading:
    """A table as it is read, one row after another, and then column by column."""

    def __init__(self, terms: Terms, settings: Settings, faults: Faults) -> None:
        self.terms, self.settings, self.faults = terms, settings, faults
        self.named: list[Row] = []  # activities and groups
        self.more: list[tuple[Row, int]] = []  # rows that say more about the one of these above, by its place
        self.rows: list[Row] = []  # of the activities
        self.groups: dict[int, Row] = {}  # of these, by their places
        self.parts: dict[int, Group] = {}  # what is in each
        self.depth: list[int] = []
        self.names: dict[str, int] = {}  # the number of each activity
        self.durations: list[int] = []
        self.planned: list[int] = []  # the same, whatever has started
        self.demands: list[tuple[int, ...]] = []

    def add_row(self, row: Row) -> None:
        with self.faults.kept():
            if row.cell(Column.NAME):
                self.named.append(row)
            else:
                check_continuation(row, bool(self.named))
                self.more.append((row, len(self.named) - 1))
            row.must_be_below_heads()

    def table(self, above: Above) -> Table:
        terms, progress = self.terms, Standing(self.time(self.settings.status, "status"))
        crews = crews_of(terms, self.settings, progress.now or 0)
        self.named = told_apart(self.named)
        cuts = self.cut(crews)
        self.part()
        for row in self.rows[: MOST_ACTIVITIES + 1]:
            self.add_activity(row)
        if len(self.rows) > MOST_ACTIVITIES:
            self.faults.tell()  # before each is compared with all others
        self.planned = [*self.durations]
        read_progress(progress, self.rows, self.durations, self.faults)
        if crews is not None:
            must_fit(self.rows, self.durations, self.demands, progress.started, crews, self.faults)
        lags, due = self.lags(cuts), self.due()
        self.faults.tell()
        for number in progress.waiting(self.durations):
            lags.activities.mornings.setdefault(number, []).append(progress.now or 0)
        arcs, broken = without_history(lags.arcs, progress, lags.dated)
        called = {number: name for name, number in self.names.items()}
        project, names = self.project((*arcs, *progress.arcs(len(self.rows))), due, called)
        names.ids = {number: row.cell(Column.ID) for number, row in enumerate(self.rows, 1) if row.cell(Column.ID)}
        project = replace(project, dated=tuple(one for one in lags.dated if one.arc in arcs))
        project, pauses = self.with_crews(project, crews, cuts)
        notes = [*self.said_of_period(), *self.said_of_start(), *self.said_of_own(), *self.terms.told]
        notes += [said_of_history(arc, called) for arc in broken]
        mornings = lags.activities.mornings
        return Table(project, names, self.settings, terms.calendar, (*self.parts.values(),), mornings, progress,
                     terms.scale, tuple(row.number for row in self.rows), tuple(notes), above, terms.columns,
                     terms.head_row, crews, pauses)

    def with_crews(self, project: Numbers, crews: Crews | None, cuts: Cuts | None) -> tuple[Numbers, tuple[Arc, ...]]:
        """With the times outside hours, and with what ties the parts of rows that may pause, which stands behind all
        other arcs."""
        if crews is None or cuts is None:
            if self.settings.horizon is not None:
                raise BadInput(f"horizon {short(self.settings.horizon)}: no resource has hours of its own")
            return project, ()
        ordered = replace(project, arcs=(*project.arcs, *cuts.order(self.names)))
        found = with_hours(ordered, crews, self.time(self.settings.horizon, "horizon"))
        project = replace(found, arcs=project.arcs)
        arcs, dated = cuts.lags(project, self.names)
        return replace(project, arcs=(*project.arcs, *arcs), dated=(*project.dated, *dated)), tuple(arcs)

    def time(self, text: str | None, name: str) -> int | None:
        """Of a setting, where it is said."""
        return None if text is None else time_of(text, name, self.settings, self.terms.calendar, self.terms.scale)

    def cut(self, crews: Crews | None) -> Cuts | None:
        """Puts the parts of what may pause in place of its rows."""
        if crews is None:
            return None
        cuts, places, whole = Cuts(crews), list[int](), self.named
        self.named = []
        for row in whole:
            places.append(len(self.named))
            self.named += cuts.rows(row, self.faults)
        self.more = [(row, places[place] if place >= 0 else place) for row, place in self.more]
        return cuts

    def part(self) -> None:
        """What is an activity, and what a group."""
        for row in self.named:
            with self.faults.kept():
                self.depth.append(level(row))
        if len(self.depth) < len(self.named):
            self.faults.tell()  # alone, since which rows are groups follows from it
        with self.faults.kept():
            self.groups = {place: row for place, row in enumerate(self.named)
                           if is_summary(self.named, self.depth, place)}
        self.rows = [row for place, row in enumerate(self.named) if place not in self.groups]
        found = groups_of(self.named, self.depth, [place in self.groups for place in range(len(self.named))])
        self.parts = dict(zip(sorted(self.groups), found))
        if not self.rows:
            self.faults.tell()
            raise BadInput(f"{self.terms.file}: no activity stands below row {self.terms.head_row}")

    def add_activity(self, row: Row) -> None:
        """A name that can't be one counts all the same, so that rows which come after it have no fault for that."""
        name, units = row.cell(Column.NAME), [0] * len(row.terms.columns.resources)
        with self.faults.kept():
            if name in self.names:
                raise row.fault(Column.NAME, f"a second activity '{short(name)}'")
            if len(self.durations) == MOST_ACTIVITIES:
                raise row.fault(Column.NAME, f"a project has at most {MOST_ACTIVITIES:,} activities")
        self.durations.append(0)
        self.names.setdefault(name, len(self.durations))
        with self.faults.kept():
            self.durations[-1] = row.duration(Column.DURATION)
        for place, column in enumerate(row.terms.columns.resources):
            with self.faults.kept():
                units[place] = row.units(column)
        self.demands.append(tuple(units))
        with self.faults.kept():
            if why_no_name(name):
                raise row.fault(Column.NAME, f"'{short(name)}' can't be the name of an activity: {why_no_name(name)}")

    def lags(self, cuts: Cuts | None) -> Lags:
        names = {row.cell(Column.NAME): self.parts[place] for place, row in reversed(self.groups.items())}
        ids = {row.cell(Column.ID).casefold(): self.parts[place]
               for place, row in self.groups.items() if row.cell(Column.ID)}
        activities = Activities(self.names, self.ids(), names, ids, self.durations, self.planned)
        if cuts is not None:
            cuts.name(activities)
        lags, number, more = Lags(activities), 0, dict[int, list[Row]]()
        for row, place in self.more:
            more.setdefault(place, []).append(row)
        for place, row in enumerate(self.named):
            number += place not in self.groups
            for one in [row, *more.get(place, [])]:
                if place in self.groups:
                    self.must_be_group(one)
                    lags.read(one, Side(self.parts[place].activities, is_group=True), self.faults)
                else:
                    lags.read(one, Side([number]), self.faults)
                    self.limit(lags, one, number)
        return lags

    def ids(self) -> dict[str, int]:
        found: dict[str, int] = {}
        has_ids = any(row.cell(Column.ID) for row in self.rows)
        for number, row in enumerate(self.rows, 1):
            text = row.cell(Column.ID).casefold()
            with self.faults.kept():
                if has_ids and not text:
                    raise row.fault(Column.ID, f"'{short(row.cell(Column.NAME))}' has no number, and others have; a "
                                    "group says so in a column 'summary'")
                if text in found:
                    raise row.fault(Column.ID, f"a second activity of the number {short(text)}")
            found |= {text: number} if text else {}
        return found

    def limit(self, lags: Lags, row: Row, activity: int) -> None:
        """The lags from the start that dates make."""
        length = lags.activities.length(activity)
        with self.faults.kept():
            if row.cell(Column.NOT_BEFORE):
                begin = row.begin(Column.NOT_BEFORE, row.cell(Column.NOT_BEFORE))
                lags.arcs += [Arc(0, activity, begin)] if begin else []
                if not length and is_dated(row.cell(Column.NOT_BEFORE)):
                    lags.activities.mornings.setdefault(activity, []).append(begin)
        with self.faults.kept():
            if row.cell(Column.END_BY):
                lags.arcs.append(Arc(activity, 0, length - row.close_within(Column.END_BY, row.cell(Column.END_BY))))

    def due(self) -> dict[int, int]:
        found = {}
        for number, row in enumerate(self.rows, 1):
            with self.faults.kept():
                if row.cell(Column.DUE):
                    found[number] = row.close_within(Column.DUE, row.cell(Column.DUE))
        return found

    def must_be_group(self, row: Row) -> None:
        """A group has the dates and demands that its activities have, and none of its own."""
        with self.faults.kept():
            if row.is_said(Column.PAUSES):
                raise row.fault(Column.PAUSES, "a group does not pause; its activities may")
        places = [row.terms.columns.places.get(column) for column in (Column.NOT_BEFORE, Column.END_BY, Column.DUE)]
        for column in [*(place for place in places if place is not None), *row.terms.columns.resources]:
            text = cell(row.cells, column)
            if text and text != "0":
                with self.faults.kept():
                    raise row.fault(column, "a group has no dates or demands of its own; its activities have them")

    def project(self, arcs: tuple[Arc, ...], due: dict[int, int], called: dict[int, str]) -> tuple[Numbers, Names]:
        """With its absences, and with what is minimized."""
        file, settings = self.terms.file, self.settings
        if len(arcs) > MOST_ARCS:
            raise BadInput(f"{file}: {len(arcs):,} lags, and a project has at most {MOST_ARCS:,}")
        goal = Goal.MAKESPAN if settings.minimize is None else Goal(settings.minimize)
        if goal is Goal.LATENESS and not due:
            raise BadInput(f"{file}: to minimize the lateness some activity needs a date in a column 'due'")
        resources = [split_resource(self.terms.columns.heads[place]) for place in self.terms.columns.resources]
        none = (0,) * len(resources)
        capacities = tuple(int(units) for _, units in resources)
        found = Numbers((0, *self.durations, 0), (none, *self.demands, none), capacities, arcs, (), due, goal)
        names = Names(called, [name for name, _ in resources], self.terms.scale.name(), source=printable(file))
        if settings.absences is not None:
            found = replace(found, absences=tuple(read_absences(settings.absences, found, names, self.terms)))
        return found, names

    def said_of_period(self) -> list[str]:
        """What a period is, where it is no unit of the table's own, and which hours a day has, where nobody has said
        it."""
        scale = self.terms.scale
        if not self.terms.is_guess and (scale.period in (scale.own, Unit.PERIODS) or scale.name() == scale.counts()):
            return []
        day = f"; a day has {scale.day // scale.minutes} of them" if scale.period is Unit.MINUTES and scale.day else ""
        day += f", {HOURS_OF_WORK}, until --shift says other hours" if self.terms.is_guess else ""
        why = "as --period says" if scale.is_named else f"which divide all lengths of {self.terms.file}"
        return [f"a period is one of {scale.name()}, {why}{day}"]

    def said_of_own(self) -> list[str]:
        """Which columns are for people alone."""
        heads = [f"'{short(self.terms.columns.heads[place])}'" for place in self.terms.columns.own]
        return [f"{self.terms.file}: columns of your own are passed over: {', '.join(heads)}"] if heads else []

    def said_of_start(self) -> list[str]:
        """When the project starts, where no period begins at the moment that is named."""
        first, calendar = self.settings.first, self.terms.calendar
        at = None if first is None else moment(first, "from", self.settings.dates)
        if at is None or at.is_day or calendar is None or calendar.begins(0) == at.at:
            return []
        return [f"from {first}: no period begins then, so the project starts at {calendar.begins(0):%Y-%m-%d %H:%M}"]


def without_history(arcs: Sequence[Arc], progress: Standing, dated: Sequence[DatedLag]) -> tuple[list[Arc], list[Arc]]:
    """The lags but for those between two that have started where they weren't kept, and these. Both starts are real, so
    such a lag says nothing of what comes."""
    starts = progress.started | {0: 0}
    late = [one.arc for one in dated if {one.first, one.last} <= starts.keys() and one.slack(starts) < 0]
    broken = [arc for arc in arcs if arc.tail in starts and arc.head in starts
              and (starts[arc.head] < starts[arc.tail] + arc.lag or arc in late)]
    return [arc for arc in arcs if arc not in broken], broken


def said_of_history(arc: Arc, called: dict[int, str]) -> str:
    if arc.tail and arc.head:
        return f"'{called[arc.tail]}' and '{called[arc.head]}' have started, and a lag between them was not kept"
    return f"'{called[arc.tail or arc.head]}' has started, and a date of its row was not kept"


def why_no_name(name: str) -> str:
    lower = name.lower()
    if lower in (START, "end"):
        return f"it stands for the {lower} of the project"
    if is_dated(name):
        return "it is a date"
    for begin, meaning in ((START_OF, "what comes after the start of an activity"),
                           (WITH, "what starts with an activity")):
        if lower.startswith(begin):
            return f"'{begin.strip()}' stands before the name of another, for {meaning}"
    return "" if name.isprintable() else "it has a sign that can't be printed"


def check_continuation(row: Row, has_activity: bool) -> None:
    """A row without a name has nothing but lags, and stands below an activity."""
    columns = row.terms.columns
    if any(cell(row.cells, place) for place in (columns.places[Column.DURATION], *columns.resources)):
        raise row.fault(Column.NAME, "a duration or a demand, but no name of an activity")
    if not has_activity and any(row.cell(column) for column in LAGS):
        raise row.fault(Column.NAME, "the name of the activity is missing")
    other = [column for column in Column if column not in (*LAGS, Column.NOTE, Column.COMPUTED) and row.cell(column)]
    if other and has_activity:
        raise row.fault(other[0], "a row without a name has nothing but lags of the activity above")
