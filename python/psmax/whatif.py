"""What changes of a project give: one unit more of a resource, one absence less, a maximum lag loosened or dropped.
psprove proves each."""
import math
from collections.abc import Sequence
from concurrent.futures import ThreadPoolExecutor
from dataclasses import dataclass, replace
from enum import StrEnum

from .incumbent import Incumbent
from .known import Known
from .project import MOST_UNITS, Kind, Numbers, Part, parts, with_lag, without
from .psprove import Limits, Psprove
from .search import search

SHARE = 4  # the project as it is gets one of so many parts of the time


class ChangeKind(StrEnum):
    """One unit more of a resource, an absence that is dropped, a maximum lag that is longer by one period or
    dropped."""

    RESOURCE = "resource"
    ABSENCE = "absence"
    LOOSENED = "loosened"
    DROPPED = "dropped"


@dataclass(frozen=True)
class Change:
    kind: ChangeKind
    part: Part  # of the project that is changed
    project: Numbers  # with the change


@dataclass(frozen=True)
class Outcome:
    change: Change
    known: Known
    seconds: float

    def rank(self) -> tuple[float, float]:
        """The shortest schedule first, and of those the least bound; what has no schedule last."""
        value, bound = (math.inf if one is None else one for one in (self.known.value, self.known.bound))
        return value, bound


def changes(project: Numbers, changeable: int | None = None) -> list[Change]:
    """All changes; of the lags only so many can be changed, where that is said."""
    found = []
    for part in parts(project):
        place = part.number
        if part.kind is Kind.ABSENCE:
            found.append(Change(ChangeKind.ABSENCE, part, without(project, {part})))
        elif part.kind is Kind.RESOURCE and project.capacities[place] < MOST_UNITS:
            more = tuple(units + (k == place) for k, units in enumerate(project.capacities))
            found.append(Change(ChangeKind.RESOURCE, part, replace(project, capacities=more)))
        elif part.kind is Kind.LAG and (changeable is None or place < changeable):
            lag = project.arcs[place].lag
            if -lag < MOST_UNITS:
                found.append(Change(ChangeKind.LOOSENED, part, with_lag(project, place, lag - 1)))
            found.append(Change(ChangeKind.DROPPED, part, without(project, {part})))
    return found


def ask_each(projects: Sequence[Numbers], psprove: Psprove, jobs: int,
             start: tuple[int, ...] | None = None) -> list[tuple[Known, float]]:
    """What becomes known of each by one job beside others, in its share of the time that is left, and its seconds."""
    clock = psprove.clock

    def ask(place: int) -> tuple[Known, float]:
        begun, left = clock.elapsed(), clock.left()
        limits = Limits(min(left, left * jobs / (len(projects) - place)), is_recorded=False)
        return psprove.ask(projects[place], limits, start), clock.elapsed() - begun

    with ThreadPoolExecutor(jobs) as pool:
        return [*pool.map(ask, range(len(projects)))]


def try_changes(project: Numbers, psprove: Psprove, jobs: int,
                changeable: int | None = None) -> tuple[Known, list[Outcome]]:
    """What is known of the project as it is, which gets a share of the time, and of its changes, of which the one with
    the shortest schedule comes first."""
    clock = psprove.clock
    seconds, clock.seconds = clock.seconds, clock.seconds / SHARE
    base = Incumbent(clock, project)
    search(project, psprove, base, Limits(math.inf, jobs, is_recorded=False))
    clock.seconds, found = seconds, changes(project, changeable)
    told = ask_each([one.project for one in found], psprove, jobs, base.known.starts)
    return base.known, sorted((Outcome(one, *known) for one, known in zip(found, told)), key=Outcome.rank)
