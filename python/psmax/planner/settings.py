"""What holds for a whole project: its calendar, what is away, how far it has come, what is minimized. The words of the
command say it, else rows above the table, else the page of names."""
import datetime
import os
from collections.abc import Mapping
from dataclasses import dataclass, fields, replace

from ..calendars import Calendar
from ..dates import ORDERS, is_dated
from ..errors import BadInput
from ..letters import short
from ..project import MOST_UNITS
from ..work_time import dates_of_periods, moment, must_be_period
from .free_days import CODE, named_days
from .quantities import Scale, Unit, day_of_serial, time_after

FILES = {"holidays": "the file of holidays", "absences": "the table of absences"}  # the settings that name files
HOURS_OF_WORK = "08:00-12:00,13:00-17:00"  # of a day, where its length is needed and nobody says it
GOALS = ("makespan", "lateness")


@dataclass(frozen=True)
class Settings:
    """Each as it is written; names of files count from the folder in which the command runs."""

    first: str | None = None
    period: str | None = None
    workdays: str | None = None
    holidays: str | None = None
    shift: str | None = None
    zone: str | None = None
    dates: str | None = None
    absences: str | None = None
    status: str | None = None
    minimize: str | None = None
    horizon: str | None = None
    sheet: str | None = None
    title: str | None = None

    def over(self, other: "Settings") -> "Settings":
        """These, and where they say nothing the others."""
        told = {name: text for name, text in vars(self).items() if text is not None}
        return replace(other, **told)

    def files(self) -> dict[str, str]:
        """The files that these name, by what they are."""
        told = {name: getattr(self, name) for name in FILES if getattr(self, name) is not None}
        return {FILES[name]: text for name, text in told.items() if names_file(name, text)}

    def rows(self, folder: str) -> dict[str, str]:
        """The same as rows of a page in this folder."""
        told = {row_name(field.name): getattr(self, field.name) for field in fields(self)}
        paths = {name: os.path.relpath(text, folder or ".") for name, text in told.items()
                 if text is not None and names_file(name, text)}
        return {name: text for name, text in {**told, **paths}.items() if text is not None}


def row_name(name: str) -> str:
    return "from" if name == "first" else name


NAMES = tuple(row_name(field.name) for field in fields(Settings))  # as rows are called


def from_rows(rows: Mapping[str, str], folder: str) -> Settings:
    """Of the rows of a page or a table that lies in this folder."""
    told = {("first" if name == "from" else name): text for name, text in rows.items() if name in NAMES}
    told |= {name: os.path.join(folder, text) for name, text in told.items() if names_file(name, text)}
    return Settings(**told)


def checked(settings: Settings) -> Settings:
    """The same where each of few words is one of those; faults are told before anything is done with them."""
    for name, texts in (("dates", ORDERS), ("minimize", GOALS)):
        text = getattr(settings, name)
        if text is not None and text not in texts:
            raise BadInput(f"{name} {short(text)}: neither {' nor '.join(texts)}")
    if settings.period is not None:
        must_be_period(settings.period)
    return settings


def calendar(settings: Settings, unit: str, days: frozenset[datetime.date] = frozenset()) -> Calendar | None:
    """None where nothing says when the project begins. A period is what the settings say, and else such a unit. There
    is no work on these days either."""
    if settings.first is None:
        for name in ("workdays", "holidays", "zone"):
            if getattr(settings, name) is not None:
                raise BadInput(f"--{name} needs --from, the first day of the project")
        return None
    return dates_of_periods(settings.first, settings.period or unit, settings.workdays, holidays(settings) | days,
                            settings.shift, settings.zone, settings.dates)


def holidays(settings: Settings) -> frozenset[datetime.date]:
    return frozenset(named_holidays(settings))


def named_holidays(settings: Settings) -> dict[datetime.date, str]:
    """The days without work that the settings say, and what each is called."""
    if settings.holidays is None:
        return {}
    return named_days(settings.holidays, settings.dates, moment(settings.first or "", "from", settings.dates).at.date())


def names_file(name: str, text: str) -> bool:
    """Whether a setting names a file, and not the code of a country's holidays."""
    return name in FILES and not (name == "holidays" and CODE.fullmatch(text))


def must_be_periods(text: str, name: str, time: int, found: Calendar | None) -> None:
    """A number is no day as a spreadsheet counts them."""
    try:
        day = day_of_serial(text, time, found) if text.isdigit() else None
    except ValueError as fault:
        raise BadInput(f"{name} {short(text)} {fault}") from None
    if day is not None:
        raise BadInput(f"{name} {short(text)}: a spreadsheet counts {day.at.date()} so; write that date")


def time_of(text: str, name: str, settings: Settings, found: Calendar | None, scale: Scale | None) -> int:
    """The first time that is not before a date; or a number, which counts what a bare duration of a table does, or has
    a unit of its own."""
    length = time_after(text, Unit.PERIODS if scale is None else scale.own)
    if length is not None:
        try:
            time = int(text) if scale is None else scale.periods(length)
        except ValueError:
            raise BadInput(f"{name} {short(text)}: no whole number of periods; write a date or '2 d'") from None
        must_be_periods(text, name, time, found)
    elif found is not None:
        time = found.from_on(moment(text, name, settings.dates).at)
    else:
        reason = "" if is_dated(text) else "neither a number nor a date; "
        raise BadInput(f"{name} {short(text)}: {reason}a date needs --from, the first day of the project")
    if time > MOST_UNITS:
        raise BadInput(f"{name} {short(text)}: {time:,} periods after the start, and there may be {MOST_UNITS:,}")
    return time
