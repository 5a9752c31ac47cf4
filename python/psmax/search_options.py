"""What a search is asked for, checked."""
import logging
import os
from collections.abc import Callable, Mapping
from dataclasses import dataclass

from .answer import Progress, Starts
from .clock import Clock
from .errors import BadInput, WrongType
from .files import named_path
from .letters import short
from .model import Activity
from .periods import Time, whole
from .project import MOST_UNITS, Numbers
from .psprove import Limits
from .record import Record
from .record_file import record_at

MOST_JOBS = 64  # of both programs
MOST_MEMORY = 1_048_576  # MiB
PROVED_BY = ("lemmas", "tree")  # psprove or psmax
LOG = logging.getLogger("psmax")

Path = str | os.PathLike[str]
Frozen = Starts | Mapping[Activity, Time] | Mapping[str, Time]  # starts of some activities


@dataclass(frozen=True)
class SearchOptions:
    """Those of a search, which `Project.search` describes."""

    start: Starts | None
    hint: Starts | None
    frozen: Frozen | None
    now: Time | None
    record: bool | Path | None
    proved_by: str
    minimize: str
    seed: int | None
    conflicts: int | None
    memory: int | None
    resume: Path | Record | None
    bound: int | None
    gap: float | None
    until: Callable[[Progress], object] | None


def checked_jobs(jobs: int | None) -> int:
    """So many as are said, else as there are processors."""
    there = min(len(os.sched_getaffinity(0)), MOST_JOBS)
    return there if jobs is None else whole(jobs, "jobs", 1, MOST_JOBS)


def clock_of(seconds: float) -> Clock:
    """What it tells goes to the log `psmax`."""
    return Clock(real(seconds, "seconds", 0, MOST_UNITS), lambda at, text: LOG.info("%.2f s: %s", at, text))


def real(value: object, what: str, above: float, most: float) -> float:
    if isinstance(value, bool) or not isinstance(value, (int, float)):
        raise WrongType(f"{what}: {short(repr(value))} is not a number above {above:,} and up to {most:,}")
    if not above < value <= most:
        raise BadInput(f"{what}: {short(repr(value))} is not a number above {above:,} and up to {most:,}")
    return value


def must_be_function(value: object, what: str) -> None:
    if value is not None and not callable(value):
        raise WrongType(f"{what}: {short(repr(value))} is no function")


def path_of(record: bool | Path | None) -> str | None:
    """The file that a record is wanted in."""
    if isinstance(record, (bool, type(None))):
        return None
    if not isinstance(record, (str, os.PathLike)):
        raise WrongType(f"record: {short(repr(record))} is neither a path nor True nor False")
    return os.fspath(record)


def checked_limits(options: SearchOptions, seconds: float, jobs: int) -> Limits:
    if options.proved_by not in PROVED_BY:
        raise BadInput(f"proved_by {short(str(options.proved_by))}: neither {' nor '.join(PROVED_BY)}")
    if options.start is not None and options.hint is not None:
        raise BadInput("a start and a hint: a search begins with one of both")
    of_lemmas = {"hint": options.hint, "seed": options.seed, "conflicts": options.conflicts, "memory": options.memory,
                 "resume": options.resume, "bound": options.bound}
    other = [name for name, value in of_lemmas.items() if value is not None and options.proved_by == "tree"]
    if other:
        raise BadInput(f"{other[0]} is for a search by lemmas")
    checked = {name: None if of_lemmas[name] is None else whole(of_lemmas[name], name, least, most)
               for name, least, most in (("seed", 0, MOST_UNITS), ("conflicts", 0, 10**9), ("memory", 1, MOST_MEMORY),
                                         ("bound", -10**9, 10**9))}
    resume = options.resume.path if isinstance(options.resume, Record) else options.resume
    return Limits(seconds, jobs, checked["conflicts"], checked["seed"], checked["memory"], checked["bound"],
                  None if resume is None else record_at(named_path(resume)).path, options.record is not False)


def must_know_dates(options: SearchOptions, project: Numbers) -> None:
    """psprove is asked of each case of lags in calendar days, and no record has a case of another search."""
    if project.dated and (options.proved_by == "tree" or options.resume is not None):
        what = "proved_by 'tree'" if options.proved_by == "tree" else "resume"
        raise BadInput(f"{what} is not for a project with lags in calendar days")


def enough(options: SearchOptions) -> Callable[[Progress], object]:
    """Whether a search has come far enough, by its gap and by `until`."""
    must_be_function(options.until, "until")
    gap, until = options.gap, options.until
    if gap is not None and (isinstance(gap, bool) or not isinstance(gap, (int, float))):
        raise WrongType(f"gap: {short(repr(gap))} is not a number from 0 on, such as 0.05")
    if gap is not None and not gap >= 0:
        raise BadInput(f"gap: {short(repr(gap))} is not a number from 0 on, such as 0.05")

    def is_enough(told: Progress) -> object:
        is_near = gap is not None and told.gap is not None and told.gap <= gap
        return is_near or (until is not None and until(told))

    return is_enough
