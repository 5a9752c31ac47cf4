"""Arguments of several commands: the project with its settings, the limits of a search, and what it begins with."""
import argparse
import os
import re
from collections.abc import Callable
from dataclasses import fields
from typing import TYPE_CHECKING

from ..dates import ORDERS
from .settings import GOALS, Settings, checked

if TYPE_CHECKING:
    from .beginning import Start
    from .project_file import ProjectFile

SECONDS, MOST_SECONDS = 60.0, 1_000_000
MOST_JOBS = 64  # of psprove
PROCESSORS = min(len(os.sched_getaffinity(0)), MOST_JOBS)


def whole_number(least: int, most: int) -> Callable[[str], int]:
    """What reads a whole number in digits, from the least to the most."""
    def read_number(text: str) -> int:
        if not re.fullmatch("-?[0-9]{1,9}", text) or not least <= int(text) <= most:
            raise argparse.ArgumentTypeError(f"'{text}' is not a whole number from {least} to {most}")
        return int(text)
    return read_number


def number_of_seconds(text: str) -> float:
    """A number of seconds, which may be less than one."""
    if not re.fullmatch(r"[0-9]{1,7}(\.[0-9]{1,3})?", text) or not 0 < float(text) <= MOST_SECONDS:
        raise argparse.ArgumentTypeError(f"'{text}' is not a number of seconds above 0 and up to {MOST_SECONDS}")
    return float(text)


def add_project(one: argparse.ArgumentParser) -> None:
    one.add_argument("project", metavar="PROJECT", help="a table of activities or a project text; - for standard input")
    one.add_argument("--names", metavar="PAGE", help="the page of names (default: the .md file beside a .sch file)")
    add_settings(one)


def opened(options: argparse.Namespace) -> "ProjectFile":
    from .project_file import open_project
    return open_project(options.project, settings(options), options.names)


def add_settings(one: argparse.ArgumentParser) -> None:
    """Of the project. Rows above the table, or else the page of names, say what these options do not."""
    project = one.add_argument_group("settings of the project, which rows above the table may say too")
    project.add_argument("--from", dest="first", metavar="DATE",
                         help="the day or the moment at which the project starts")
    project.add_argument("--period", metavar="P", help="the unit of time: minutes, hours, days, weeks, or '30 minutes' "
                         "for example (default: as the table says)")
    project.add_argument("--workdays", metavar="DAYS", help="the days with work, such as mon-fri or Mo-Fr (default: "
                         "every day)")
    project.add_argument("--holidays", metavar="DAYS", help="days without work: the public holidays of a country "
                         "or a part of it, such as DE or DE-BY, or a file with a day or some a line")
    project.add_argument("--shift", metavar="HOURS", help="the hours of work of a day, such as 07:00-12:00,13:00-16:00")
    project.add_argument("--zone", metavar="ZONE", help="the time zone of periods and of calendars, such as "
                         "Europe/Berlin")
    project.add_argument("--dates", choices=ORDERS, help="what stands first in a date such as 3/2/2026: the day or the "
                         "month")
    project.add_argument("--absences", metavar="FILE", help="a table of what is away when: resource, from, to, units")
    project.add_argument("--status", metavar="DATE", help="the day at which the table says how far the project has "
                         "come")
    project.add_argument("--minimize", choices=GOALS, help="what is minimized (default: makespan)")
    project.add_argument("--horizon", metavar="DATE", help="up to when the hours of resources are known")
    project.add_argument("--sheet", metavar="NAME", help="the sheet of a spreadsheet file (default: the first)")
    project.add_argument("--title", metavar="TEXT", help="what the project is called (default: as its file and folder)")


def settings(options: argparse.Namespace) -> Settings:
    return checked(Settings(**{field.name: getattr(options, field.name) for field in fields(Settings)}))


def add_limits(one: argparse.ArgumentParser) -> None:
    one.add_argument("--seconds", type=number_of_seconds, default=SECONDS, metavar="S",
                     help="stop after S seconds (default 60)")
    one.add_argument("--jobs", type=whole_number(1, MOST_JOBS), default=PROCESSORS, metavar="N",
                     help="run N searches side by side (default: the number of processors)")


def add_start(one: argparse.ArgumentParser) -> None:
    one.add_argument("--start", metavar="ANSWER", help="start from this schedule")
    one.add_argument("--frozen", metavar="DAY", help="keep what starts before this day or period in --start")


def start(options: argparse.Namespace) -> "Start":
    from .beginning import Start
    return Start(options.start, options.frozen)


def add_schedule(one: argparse.ArgumentParser) -> None:
    add_project(one)
    one.add_argument("answer", metavar="ANSWER", nargs="?",
                     help="an answer of plan, psmax or psprove, or starts (default: standard input)")
