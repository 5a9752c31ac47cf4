"""What plan has read from a table, in the planner's own measures: a line that begins each search, and for `plan check`
without an answer the settings with their rows, the calendar of the first three weeks, and absences by day. Whatever a
table says changes some figure of the line."""
import datetime
from collections.abc import Iterator
from dataclasses import fields

from ..calendars import DAY, Calendar, Days, Shifts, at_midnight
from ..dates import SHORT_DAYS, day_ranges, span_text, weekday
from ..project import Arc, least_starts
from .above import Above
from .columns import column_of
from .csv_text import letters
from .project_file import ProjectFile
from .free_days import CODE
from .settings import Settings, row_name, named_holidays
from .wording import Words

NOT_BEFORE = "'not before'"
YEAR = 365  # days
ALL_DAY = "00:00-24:00"
WEEKS = 3  # that `plan check` shows
GERMAN = ("mo", "di", "mi", "do", "fr", "sa", "so")


def read_back_line(file: ProjectFile) -> str:
    """What there is, the calendar and the dates; behind the semicolon figures by which a misread cell shows."""
    project = file.project
    groups = f" in {count_of(len(file.groups), 'group')}" if file.groups else ""
    told = [f"{count_of(project.end - 1, 'activity')}{groups}"]
    if project.capacities:
        told.append(f"{count_of(len(project.capacities), 'resource')} of {count_of(sum(project.capacities), 'unit')}")
    told += [describe_calendar(file), *describe_hours(file)]
    told += [count_of(len(project.absences), "absence")] if project.absences else []
    return f"{', '.join([*told, *dates(file)])}; {', '.join(figures(file))}"


def opening_lines(file: ProjectFile) -> list[str]:
    """The line with which a command begins; none for a text of numbers, in which a planner has written nothing."""
    return [read_back_line(file)] if file.table is not None or file.calendar is not None else []


def count_of(count: int, what: str) -> str:
    several = {"activity": "activities"}.get(what, f"{what}s")
    return f"{count} {what if count == 1 else several}"


def figures(file: ProjectFile) -> Iterator[str]:
    """How long all activities and lags are, how much work that is, how many ends are open, and when all can have ended
    by lags alone."""
    project, words = file.project, Words(file)
    yield f"durations of {words.many(sum(project.durations))}"
    if project.capacities:
        work = sum(duration * sum(needs) for duration, needs in zip(project.durations, project.demands))
        yield f"{words.many(work)} of resources"
    between = [arc for arc in file.project.arcs[: file.changeable()] if arc.tail and arc.head]
    least, most = ([arc for arc in between if is_greatest(file, arc) == kind] for kind in (False, True))
    waits = sum(beyond(file, arc.tail, arc.lag) for arc in least)
    yield count_of(len(least), "lag") + (f" of {words.many(waits)}" if waits else "")
    if most:
        long = sum(beyond(file, arc.head, -arc.lag) for arc in most)
        yield f"{count_of(len(most), 'maximum lag')} of {words.many(long)}"
    least += file.table.pauses if file.table is not None else ()
    inner, tails, heads = {*range(1, project.end)}, {arc.tail for arc in least}, {arc.head for arc in least}
    yield f"{len(inner - heads)} first and {len(inner - tails)} last activities"
    soonest = least_starts(project)
    if soonest is not None:
        ends = max([0, *project.ends(soonest)])
        yield "by lags alone " + (words.many(ends) if file.calendar is None else f"until {words.brief(ends, True)}")
    if project.absences:
        away = sum((one.ends - one.begins) * one.units for one in project.absences if one.ends is not None)
        ever = sum(one.ends is None for one in project.absences)
        yield f"absences of {words.many(away)}" + (f", {ever} for ever" if ever else "")


def is_greatest(file: ProjectFile, arc: Arc) -> bool:
    """Whether it bounds from above how long one activity starts after another that takes time."""
    return arc.lag < 0 or arc.lag == 0 and file.project.durations[arc.tail] > 0


def beyond(file: ProjectFile, before: int, lag: int) -> int:
    """A lag without the duration of the activity from whose end it counts, where it is no shorter."""
    duration = file.project.durations[before]
    return lag - duration if lag >= duration else lag


def describe_calendar(file: ProjectFile) -> str:
    """From when on there is work, on which days and in which hours, and how many holidays there are."""
    found = file.calendar
    if found is None:
        return "no dates"
    days = found.days if isinstance(found, Shifts) else found
    text = f"from {found.style.short(found.begins(0))}"
    text += f", {describe_workdays(file, days.workdays)}" if isinstance(days, Days) else ", around the clock"
    if isinstance(found, Shifts):
        text += " " + ",".join(map(span_text, found.shift))
    if CODE.fullmatch(file.settings.holidays or ""):
        return f"{text}, holidays of {file.settings.holidays}"
    return text + (f", {count_of(len(found.holidays_of()), 'holiday')}" if found.holidays_of() else "")


def describe_hours(file: ProjectFile) -> Iterator[str]:
    """Those of each resource that has its own, and up to when they are known."""
    crews = file.crews
    if crews is None or file.project.horizon is None:
        return
    for number, one in crews.hours.items():
        spans = ",".join(map(span_text, one.spans))
        days = "" if one.days is None else describe_workdays(file, one.days, one.text)
        yield " ".join([file.names.resource(number), *([days] if days else []), *([] if spans == ALL_DAY else [spans])])
    yield f"hours up to {Words(file).brief(file.project.horizon, True)}"


def describe_workdays(file: ProjectFile, days: frozenset[int], text: str | None = None) -> str:
    """Days of the week, in the language in which the table names them."""
    told = (text or file.settings.workdays or "").lower().replace("\u2013", "-").replace("-", ",").split(",")
    is_german = all(one.strip(" .") in GERMAN or one.strip(" .").endswith(("tag", "woch", "abend")) for one in told)
    names = [one.capitalize() for one in GERMAN] if is_german else [one.capitalize() for one in SHORT_DAYS]
    return "every day" if len(days) == 7 else day_ranges(days, names)


def dates(file: ProjectFile) -> Iterator[str]:
    """The status date, what has started and ended, and the dates of single activities."""
    words, project, progress = Words(file), file.project, file.progress
    if progress.now is not None:
        ended = sum(start + project.durations[i] <= progress.now for i, start in progress.started.items())
        yield f"status {words.brief(progress.now)}"
        if progress.started:
            yield f"{len(progress.started)} started, {ended} of them ended"
    own = project.arcs[: file.changeable()]
    for name, found in ((NOT_BEFORE, [arc.lag for arc in own if not arc.tail and arc.head < project.end]),
                        ("'end by'", [project.durations[arc.tail] - arc.lag for arc in own if not arc.head]),
                        ("due dates", [*project.due.values()])):
        if found:
            yield f"{name} of {len(found)}, the last {words.brief(max(found), name != NOT_BEFORE)}"
    if file.settings.minimize:
        yield f"the {file.settings.minimize} is minimized"


def read_back(file: ProjectFile) -> list[str]:
    """All that `plan check` says of a table without an answer."""
    lines = [read_back_line(file), *file.notes, *put_under("columns", columns(file)),
             *put_under("settings", settings_read(file))]
    if file.calendar is not None:
        lines += weeks(file, file.calendar) + put_under("holidays of the first year", free_days(file, file.calendar))
    return lines + put_under("absences", describe_absences(file))


def columns(file: ProjectFile) -> list[str]:
    """What each is read as."""
    found = file.table.columns if file.table is not None else None
    if found is None:
        return []
    said = {place: f"resource, {count_of(units, 'unit')}"
            for place, units in zip(found.resources, file.project.capacities)}
    said |= {place: kind.value for place, kind in enumerate(map(column_of, found.heads)) if kind and place not in said}
    heads = [(place, head) for place, head in enumerate(found.heads) if head]
    wide = max(len(head) for _, head in heads)
    return [f"{letters(place):2} {head:{wide}}  {said.get(place, 'passed over')}" for place, head in heads]


def put_under(head: str, lines: list[str]) -> list[str]:
    """The lines under a heading; nothing where there are none."""
    return [f"{head}:", *(f"  {line}" for line in lines)] if lines else []


def settings_read(file: ProjectFile) -> list[str]:
    """Each setting, with the row that says it; without where the command line or a page does."""
    rows = dict(settings_rows(file.table.above, file.settings)) if file.table is not None else {}
    told = [(row_name(field.name), getattr(file.settings, field.name)) for field in fields(file.settings)]
    found = [(name, text, f"   row {rows[name]}" if name in rows else "") for name, text in told if text is not None]
    wide = max([0, *(len(name) for name, _, _ in found)])
    return [f"{name:{wide}}  {text}{row}" for name, text, row in found]


def settings_rows(above: Above, settings: Settings) -> Iterator[tuple[str, int]]:
    """The number of the row above the table that says a setting."""
    for field in fields(settings):
        text = getattr(above.settings, field.name)
        if text is not None and text == getattr(settings, field.name):
            yield row_name(field.name), above.rows[row_name(field.name)]


def weeks(file: ProjectFile, found: Calendar) -> list[str]:
    """A line for each week, with how much work each day of it has."""
    first = found.begins(0)
    monday = at_midnight(first.date()) - first.weekday() * DAY
    lines = [f"{'the first three weeks:':24}" + "".join(f"{weekday(monday + day * DAY):>8}" for day in range(7))]
    for week in range(WEEKS):
        days = [monday + (7 * week + day) * DAY for day in range(7)]
        lines.append(f"  {found.brief_day(days[0]):22}" + "".join(f"{of_day(file, found, day):>8}" for day in days))
    return lines


def free_days(file: ProjectFile, found: Calendar) -> list[str]:
    """The holidays of twelve months, each with its name."""
    first = found.begins(0)
    named = {at_midnight(day): name for day, name in named_holidays(file.settings).items()}
    near = [day for day in sorted(named) if first - DAY < day < first + YEAR * DAY]
    return [f"{found.brief_day(day)}  {named[day]}".rstrip() for day in near]


def of_day(file: ProjectFile, found: Calendar, day: datetime.datetime) -> str:
    """How much work a day has; - where it has none."""
    begins, ends = found.from_on(day), found.from_on(day + DAY)
    is_work = ends > begins and found.begins(begins) >= day
    return ("yes" if found.is_by_day else file.length(ends - begins)) if is_work else "-"


def describe_absences(file: ProjectFile) -> list[str]:
    """What is away from which day to which, by the first."""
    words, project = Words(file), file.project
    found = sorted(project.absences, key=lambda one: (one.begins, one.resource))
    return [f"{words.brief(one.begins)} " + ("on" if one.ends is None else f"to {words.brief(one.ends, True)}")
            + f": {words.away(one)}" for one in found]
