"""A project as it is opened: a table, which is read anew each time, a .sch file with its page of names, or a text of
another format."""
import datetime
import os
import re
from dataclasses import dataclass, field, replace

from ..calendars import Calendar
from ..clock import Clock
from ..crew_hours import Crews
from ..dates import decimal_sign, style_of
from ..errors import BadInput
from ..files import SPREADSHEET, decoded, is_in_code_page, read_bytes, read_text, without_blank_rows
from ..formats import FORMATS, must_be_readable, read
from ..formats.sch import CTRL_Z
from ..history import Standing
from ..model import Group, Parts
from ..project import Goal
from ..project import Numbers
from ..psmax import Psmax
from ..project_text import ProjectText, parse
from .columns import is_head
from .csv_text import read_sheet
from .answer_text import KEYS, LINE, WITH_STARTS, answer_sheet, json_object
from .names import Names, names_in
from .settings import Settings, calendar, checked, from_rows, time_of
from .table import Table, read_table

BLANK = " \t\r\n"
PROJECT = re.compile(rb"\s*\d+[ \t]+\d+[ \t]+0[ \t]+0\s")


@dataclass(frozen=True)
class ProjectFile:
    path: str
    project: Numbers
    names: Names
    settings: Settings
    calendar: Calendar | None
    sources: dict[str, str]  # what it was read from, and what else lies there as its own, by what that is
    table: Table | None = None
    separator: str = ","
    mornings: dict[int, list[int]] = field(default_factory=dict)
    decimal: str = "."  # in numbers, as the table writes it
    text: str = ""  # of the table, as it was read
    parts: Parts | None = None  # the project of another format, by names

    @property
    def groups(self) -> tuple[Group, ...]:
        if self.parts is not None:
            return (*self.parts.groups,)
        return self.table.groups if self.table is not None else ()

    @property
    def crews(self) -> Crews | None:
        """The resources with hours of their own."""
        if self.parts is not None:
            return self.parts.crews()
        return self.table.crews if self.table is not None else None

    @property
    def progress(self) -> Standing:
        return self.table.progress if self.table is not None else Standing(None)

    @property
    def notes(self) -> tuple[str, ...]:
        return self.table.notes if self.table is not None else ()

    def inputs(self) -> dict[str, str]:
        """What no output may replace."""
        return self.sources | self.settings.files()

    def times(self, activity: int, begins: int) -> tuple[str, str]:
        """When an activity begins and ends, where it begins at this time: as dates, or else as lengths from the
        start."""
        if self.calendar is None:
            return self.after(begins), self.after(begins + self.project.durations[activity])
        first, last = self.span(activity, begins)
        return self.calendar.told(first), self.calendar.told(last)

    def span(self, activity: int, begins: int) -> tuple[datetime.datetime, datetime.datetime]:
        """The same as the first and the last day, or as moments; only where there is a calendar."""
        assert self.calendar is not None
        ends = begins + self.project.durations[activity]
        return self.calendar.span(begins, ends, begins in self.mornings.get(activity, ()))

    def length(self, periods: int) -> str:
        """So many periods as the table writes lengths; their number where a period is what its column names."""
        return self.table.scale.text(periods).replace(".", self.decimal) if self.table is not None else f"{periods}"

    def after(self, time: int) -> str:
        """A time, where there are no dates."""
        return self.table.scale.time(time).replace(".", self.decimal) if self.table is not None else f"{time}"

    def is_own(self) -> bool:
        return self.table is None or self.table.scale.is_own()

    def changeable(self) -> int:
        """How many of the project's arcs are lags that one could change; those behind keep what has started, and tie
        the parts of what may pause."""
        pauses = self.table.pauses if self.table is not None else ()
        return len(self.project.arcs) - len(self.progress.arcs(self.project.end - 1)) - len(pauses)

    def time(self, text: str, name: str) -> int:
        """A date or a number, as a word of the command says it."""
        scale = self.table.scale if self.table is not None else None
        return time_of(text, name, self.settings, self.calendar, scale)


def must_be_ordinary(opened: ProjectFile, out: str | None) -> None:
    """A folder of project texts with records has no place for cases, which lags in calendar days need."""
    if out is not None and opened.project.dated:
        raise BadInput(f"{opened.path} has lags in calendar days, of which no project text says all; leave out --out")


def page_of(project: str) -> str:
    return os.path.splitext(project)[0] + ".md"


def open_project(path: str, words: Settings = Settings(), page: str | None = None) -> ProjectFile:
    """The project in a file, with the names of the page that is named, which must be there, or of the one beside it."""
    data = without_blank_rows(read_bytes(path))
    if data.startswith(SPREADSHEET):
        return open_table(path, words, page)
    must_be_readable(path, data)
    text = decoded(data)
    if text.startswith(WITH_STARTS) or (not is_table(path, text) and answer_sheet(text) is not None):
        raise BadInput(f"{path}: this is an answer, and no project")
    if is_table(path, text):
        return open_table(path, words, page)
    if is_other(text):
        return open_other(path, data, words, page)
    if not FORMATS["sch"].is_like(text) and not path.lower().endswith(FORMATS["sch"].suffixes):
        raise BadInput(f"{path}: no table of activities, and no text of a project that plan knows, which is one of "
                       f"{', '.join(FORMATS)}")
    return open_text(path, text.rstrip(BLANK + CTRL_Z).encode() + b"\n", words, page)


def is_other(text: str) -> bool:
    """Whether a text has a format that is neither psmax's own nor a table."""
    return next((name for name, one in FORMATS.items() if one.is_like(text)), "sch") != "sch"


def open_other(path: str, data: bytes, words: Settings, page: str | None) -> ProjectFile:
    """The project of another format, which may have a work time of its own; the words say what it doesn't."""
    from ..api import Project
    made = Project()
    read(data, made, path)
    names = Names({one.number: one.name for one in made.activities}, [one.name for one in made.resources], ids=made.ids)
    told, days = Settings(title=made.name or None), frozenset[datetime.date]()
    if made.calendar is not None:
        time = made.calendar
        told = Settings(time.begin, time.period, time.workdays, shift=time.shift, zone=time.zone, title=told.title)
        names.unit, days = time.period, frozenset(time.free_days)
    if page is not None:
        words = words.over(from_rows(names_in(page).settings, os.path.dirname(page)))
    settings = checked(words.over(told))
    for name in ("absences", "status", "horizon", "sheet"):
        if getattr(settings, name) is not None:
            raise BadInput(f"{path}: --{name} is for tables")
    numbers, dates = made.numbers(settings.minimize or Goal.MAKESPAN.value), calendar(settings, names.unit, days)
    if made.hours and (made.calendar is None or dates != made.calendar.calendar()):
        raise BadInput(f"{path}: resources have hours of their own, which need the days and hours of the file; leave "
                       "out --from and other words for these")
    return ProjectFile(path, numbers, names, settings, dates, {"the project": path}, parts=made)


def is_starts(text: str) -> bool:
    """Whether a text is one of starts, or an answer in JSON."""
    lines = [line for line in text.splitlines() if line.strip()]
    return all(LINE.fullmatch(line) for line in lines) or KEYS <= json_object(text).keys()


def is_table(path: str, text: str) -> bool:
    """Whether a file has activities with names and durations, or is called as one that should have."""
    if PROJECT.match(text.encode("utf-8", "replace")) or FORMATS["xer"].is_like(text):
        return False
    try:
        sheet = read_sheet(path, text, is_head)
        return is_head(sheet.heads) or (path.lower().endswith(".csv") and answer_sheet(text) is None)
    except BadInput:
        return path.lower().endswith(".csv")


def has_activities(path: str) -> bool:
    """Whether a file is a table of activities, by its columns."""
    try:
        return is_head(read_sheet(path, read_text(path), is_head).heads)
    except BadInput:
        return False


def is_project(path: str) -> bool:
    """Whether a file is a project text of any format, and no answer."""
    data = without_blank_rows(read_bytes(path))
    try:
        must_be_readable(path, data)
    except BadInput:
        return False
    text = decoded(data)
    return (not text.startswith(WITH_STARTS) and not is_starts(text)
            and any(one.is_like(text) for one in FORMATS.values()))


def open_table(path: str, words: Settings, page: str | None = None) -> ProjectFile:
    """The page beside a table is no part of it; one that is named says what the words and the table don't."""
    if page is not None:
        words = words.over(from_rows(names_in(page).settings, os.path.dirname(page)))
    text = read_text(path, words.sheet)
    found = read_table(path, text, words, os.path.dirname(path))
    if is_in_code_page(read_bytes(path)):
        found = replace(found, notes=(f"{path} is no UTF-8, and is read in code page 1252, that of Windows",
                                      *found.notes))
    return of_table(path, found, {"the table": path} | ({} if page is None else {"the page of names": page}), text)


def open_table_text(called: str, text: str) -> ProjectFile:
    """The same of a text that is in no file."""
    return of_table(called, read_table(called, text, Settings(), ""), {}, text)


def of_table(path: str, found: Table, sources: dict[str, str], text: str) -> ProjectFile:
    """Dates and numbers are written as in the table."""
    sheet = read_sheet(path, text, is_head)
    cells = [one for row in [*sheet.above, *sheet.rows] for one in row]
    if found.calendar is not None:
        begin = found.calendar.begins(0)
        found.calendar.style = style_of([*cells, found.settings.first or ""], found.settings.dates, begin)
    return ProjectFile(path, found.project, found.names, found.settings, found.calendar, sources, found,
                       sheet.separator, found.mornings, decimal_sign(cells), text)


def open_text(path: str, data: bytes, words: Settings, page: str | None) -> ProjectFile:
    """A .sch file. Where its page says which table it was made of, and that is there, the table is read too."""
    at = page if page is not None else page_of(path)
    names = names_in(at) if page is not None or os.path.isfile(at) else Names()
    told = from_rows(names.settings, os.path.dirname(at))
    table = os.path.join(os.path.dirname(at), names.source) if names.source else None
    sources = {"the project": path, "the page of names": at, "the page beside the project": page_of(path)}
    beside = os.path.splitext(path)[0] + ".csv"
    sources |= {} if table is None else {"the table of the project": table}
    sources |= {} if is_answer(beside) else {"the table beside the project": beside}
    if table is not None and os.path.isfile(table):
        return made_of(path, data, names, told, words, table, sources)
    settings = checked(words.over(told))
    for name in ("absences", "status", "minimize", "horizon", "sheet"):
        if getattr(settings, name) is not None:
            raise BadInput(f"{path}: --{name} needs the table of the project"
                           + (f", {table}" if table is not None else ""))
    Psmax(Clock(), path).earliest_of_text(data)
    found = calendar(settings, names.unit)
    is_there = os.path.isfile(beside) and not is_answer(beside)
    separator = read_sheet(beside, read_text(beside)).separator if is_there else ","
    return ProjectFile(path, parse(data), names, settings, found, sources, separator=separator)


def made_of(path: str, data: bytes, names: Names, told: Settings, words: Settings, table: str,
            sources: dict[str, str]) -> ProjectFile:
    """What the table says, once it is sure that the project is what `plan read` makes of it."""
    from hashlib import sha256
    advice = f"give the table itself, or make the project again by `plan read {table}`"
    if names.digest and sha256(read_bytes(table)).hexdigest() != names.digest:
        raise BadInput(f"{path} is older than its table {table}, which was changed; {advice}")
    text, folder = read_text(table, words.over(told).sheet), os.path.dirname(table)
    found = read_table(table, text, Settings(), folder, told)
    if ProjectText(found.project).text.split() != data.split():
        raise BadInput(f"{path} is not what `plan read` makes of {table} today; {advice}")
    project = found.project
    if words != Settings():
        found = read_table(table, text, words, folder, told)
        if replace(found.project, goal=project.goal) != project:
            raise BadInput(f"{path} was made with another calendar; {advice}")
    return of_table(path, replace(found, names=replace(found.names, source=names.source)), sources, text)


def is_answer(path: str) -> bool:
    """Whether a file is an answer in CSV, which is no table of activities."""
    return os.path.isfile(path) and answer_sheet(decoded(read_bytes(path))) is not None
