"""The rows above a table: settings, a title, and notes behind #. What is none of these is a fault."""
import os
import re
from collections.abc import Callable, Iterator, Mapping
from contextlib import contextmanager
from dataclasses import dataclass

from ..dates import read_moment, read_shift, read_workdays
from ..errors import BadInput
from ..letters import short
from ..work_time import must_be_period, zone
from .csv_text import Sheet
from .faults import Faults, fault_at
from .quantities import Unit, time_after
from .settings import FILES, Settings, checked, from_rows, names_file

WORDS = {word: name for name, words in (  # what a setting is called, and how rows spell it
    ("title", "title, project, titel, projekt"),
    ("from", "from, start, start date, project start, ab, von, beginn, start des projekts, projektbeginn, "
             "projektstart"),
    ("period", "period, periode"),
    ("workdays", "workdays, work days, working days, arbeitstage, werktage"),
    ("holidays", "holidays, public holidays, feiertage"),
    ("shift", "shift, hours of work, work hours, working hours, schicht, arbeitszeit, arbeitszeiten"),
    ("zone", "zone, time zone, zeitzone"),
    ("dates", "dates, order of dates, datumsformat"),
    ("absences", "absences, abwesenheiten"),
    ("status", "status, status date, data date, statusdatum, stichtag"),
    ("minimize", "minimize, minimise, minimiere, minimieren"),
    ("horizon", "horizon, horizont, planungshorizont"),
) for word in words.split(", ")}
NOTE = "#"  # before what is said to people alone
PARTED = re.compile(r"([^\W\d_][^:=,;\t]*)[:=,;\t](.*)", re.S)  # a name and its value in one cell
NEAR = 0.75  # of two words, from when on one may be meant for the other


@dataclass
class Above:
    """What the rows say, and in which row each setting stands."""

    settings: Settings
    rows: dict[str, int]

    @contextmanager
    def named(self, file: str) -> Iterator[None]:
        """A fault that begins with the name of a setting names the row too in which that stands."""
        try:
            yield
        except BadInput as fault:
            raise BadInput(*(self.placed(file, f"{told}") for told in fault.args)) from None

    def must_have_files(self, file: str, settings: Settings) -> None:
        """The files that are read are there, or else the row is told that names one."""
        for name in FILES:
            path = getattr(settings, name)
            is_own = path is not None and path == getattr(self.settings, name) and names_file(name, path)
            if name in self.rows and is_own and not os.path.exists(path):
                raise BadInput(f"{file}: row {self.rows[name]}: {name} {short(path)}: there is no such file")

    def placed(self, file: str, told: str) -> str:
        row = self.rows.get(re.split("[ :]", told.removeprefix("--"), maxsplit=1)[0])
        return told if row is None else f"{file}: row {row}: {told}"


def read_above(file: str, sheet: Sheet, folder: str) -> Above:
    """All of the rows above the columns of a table that lies in this folder. All faults are told at once."""
    faults = Faults()
    told = named_values(file, sheet, faults)
    order = told["dates"][2] if "dates" in told else None
    for name, (number, place, text) in told.items():
        with faults.kept():
            why = why_no_setting(name, text, order) if text else ""
            if why:
                raise fault_at(file, number, place, "", why)
    faults.tell()
    return Above(from_rows({name: text for name, (*_, text) in told.items() if text}, folder),
                 {name: number for name, (number, *_) in told.items()})


def named_values(file: str, sheet: Sheet, faults: Faults) -> dict[str, tuple[int, int, str]]:
    """Each setting with its row, the column of its name, and its value."""
    found: dict[str, tuple[int, int, str]] = {}
    for number, row in enumerate(sheet.above, 1):
        place = next((place for place, text in enumerate(row) if text), None)
        if place is not None and not row[place].startswith(NOTE):
            with faults.kept():
                name, text = setting_in(file, number, place, row)
                if name in found:
                    raise fault_at(file, number, place, "", f"a second row for '{name}'")
                found[name] = number, place, text
    return found


def setting_in(file: str, number: int, place: int, row: list[str]) -> tuple[str, str]:
    """The setting of a row and its value: what stands behind it in the same cell or in those behind, since a comma in
    it may have split it."""
    values = [text for text in row[place + 1 :] if text]
    name, text = row[place].rstrip(" :="), ",".join(values)
    parted = PARTED.fullmatch(row[place])
    if spelled(name) not in WORDS and parted is not None:
        name, text = parted[1].strip(), ",".join([parted[2].strip(" ,;\t"), *values])
    if spelled(name) not in WORDS:
        raise fault_at(file, number, place, "", f"no setting '{short(name)}'{meant(name)}")
    return WORDS[spelled(name)], text


def spelled(name: str) -> str:
    return " ".join(name.lower().split())


def meant(name: str) -> str:
    """What the name of a setting may be meant for, or what else may stand above a table."""
    from difflib import get_close_matches
    lower = spelled(name)
    near = [word for word in WORDS if re.match(rf"{word}\b", lower)] or get_close_matches(lower, WORDS, 1, NEAR)
    if near:
        return f"; did you mean '{near[0]}'?"
    return "; write a title behind 'title', and a note for people behind '#'"


def why_no_setting(name: str, text: str, order: str | None) -> str:
    """What is wrong with the value of a setting by itself; nothing where it may be one."""
    try:
        CHECKS.get(name, lambda *_: None)(text, order)
    except ValueError as fault:
        told = f"{fault}"
        return told if told.startswith(name) else f"{name} {short(text)}: {told}"
    except BadInput as fault:
        return f"{fault}"
    return ""


def must_be_time(text: str, order: str | None) -> None:
    if time_after(text, Unit.PERIODS) is None:
        read_moment(text, order)


CHECKS: Mapping[str, Callable[[str, str | None], object]] = {
    "from": read_moment, "status": must_be_time, "horizon": must_be_time,
    "workdays": lambda text, *_: read_workdays(text), "shift": lambda text, *_: read_shift(text),
    "period": lambda text, *_: must_be_period(text), "zone": lambda text, *_: zone(text),
    "dates": lambda text, *_: checked(Settings(dates=text)),
    "minimize": lambda text, *_: checked(Settings(minimize=text))}
