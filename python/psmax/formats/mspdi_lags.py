"""The lags of a project as MSPDI has them: links, constraints, and a field of the task for what these can't say, such
as maximum lags and links that would close a circle. A note says the same to people."""
import re
from collections.abc import Iterable, Iterator
from dataclasses import dataclass, field
from graphlib import CycleError, TopologicalSorter
from xml.etree.ElementTree import Element

from ..errors import BadInput
from ..letters import short
from ..model import Activity, Lag, Parts, Point
from ..project import leads
from .mspdi_outline import texts_of_field
from .tool_file import Gathering, is_said

FIELD = "maximum lags"
LONGEST = 255  # signs of a field
ENTRY = re.compile(r"(\d{1,9})([FS])([FS])<=(-?\d{1,9}) min")
WHOLE = 0  # the project, whose start a lag may count from
HOUR = 60


@dataclass
class Ties:
    """What stands in each task, by the number of its activity."""

    links: dict[int, list[Lag]] = field(default_factory=dict)
    limits: dict[int, list[Lag]] = field(default_factory=dict)  # from the start of the project, for a constraint
    most: dict[int, list[Lag]] = field(default_factory=dict)  # for the field


def ties_of(project: Parts, faults: Gathering) -> Ties:
    found, links = Ties(), list[Lag]()
    for lag in project.lags:
        if project.end in (lag.before, lag.after):
            own = lag.before if lag.after == project.end else lag.after
            faults.faults.append(f"{must_not(own, 'lags to or from the end of the project')}")
        elif project.start in (lag.before, lag.after):
            with faults.kept():
                add_limit(found, project, lag)
        else:
            links += [Lag(lag.before, lag.after, lag.at_least)] if lag.at_least is not None else []
            if lag.at_most is not None:
                most = Lag(lag.before, lag.after, None, lag.at_most)
                found.most.setdefault(lag.after.activity.number, []).append(most)
    add_links(found, links)
    return found


def add_links(found: Ties, links: Iterable[Lag]) -> None:
    """Where some close a circle, one after the other."""
    def above(activity: int) -> Iterator[int]:
        return (one.before.activity.number for one in found.links.get(activity, ()))

    has_circle = is_circular(links)
    for lag in links:
        if has_circle and leads(above, lag.after.activity.number, lag.before.activity.number):
            most = Lag(lag.after, lag.before, None, negative(lag.at_least))
            found.most.setdefault(lag.before.activity.number, []).append(most)
        else:
            found.links.setdefault(lag.after.activity.number, []).append(lag)


def must_not(point: Point, what: str) -> BadInput:
    return BadInput(f"activity '{short(point.activity.name)}': MSPDI has no {what}")


def add_limit(found: Ties, project: Parts, lag: Lag) -> None:
    """A lag from the start of the project, or to it."""
    if lag.after == project.start:
        lag = Lag(project.start, lag.before, negative(lag.at_most), negative(lag.at_least))
    number = lag.after.activity.number
    if is_said(project, lag):
        return
    own = found.limits.setdefault(number, [])
    parts = [lag] if lag.at_least == lag.at_most or None in (lag.at_least, lag.at_most) else [
        Lag(lag.before, lag.after, lag.at_least), Lag(lag.before, lag.after, None, lag.at_most)]
    for one in parts:
        soonest = [other for other in own if other.at_least is not None]
        if one.at_least is None and own:
            found.most.setdefault(number, []).append(one)
        elif one.at_least is not None and soonest:
            raise must_not(lag.after, "second date before which an activity does not start or end")
        elif one.at_least is not None and own:
            found.most.setdefault(number, []).extend(own)
            found.limits[number] = own = [one]
        else:
            own.append(one)


def negative(value: int | None) -> int | None:
    return None if value is None else -value


def is_circular(links: Iterable[Lag]) -> bool:
    graph = TopologicalSorter[int]()
    for lag in links:
        graph.add(lag.after.activity.number, lag.before.activity.number)
    try:
        graph.prepare()
    except CycleError:
        return True
    return False


def field_text(project: Parts, activity: Activity, lags: Iterable[Lag], minutes: int) -> str:
    """What the field of a task holds."""
    found = []
    for lag in lags:
        number = WHOLE if lag.before == project.start else lag.before.activity.number
        found.append(f"{number}{side(lag.before)}{side(lag.after)}<={(lag.at_most or 0) * minutes} min")
    text = "; ".join(found)
    if len(text) > LONGEST:
        raise BadInput(f"activity '{short(activity.name)}': it has more maximum lags than a field of {LONGEST} signs "
                       "has room for")
    return text


def side(point: Point) -> str:
    return "F" if point.is_end else "S"


def note(project: Parts, lags: Iterable[Lag], minutes: int) -> str:
    """The same to people."""
    found = []
    for lag in lags:
        length = (lag.at_most or 0) * minutes
        told = f"{length // HOUR} h" if length % HOUR == 0 else f"{length} min"
        before = "the project" if lag.before == project.start else lag.before.activity.name
        found.append(f"{'Ends' if lag.after.is_end else 'Starts'} at most {told} of work after {before} "
                     f"{'ends' if lag.before.is_end else 'starts'}.")
    return "\n".join(found)


def read_entries(project: Element, task: Element) -> list[tuple[str, bool, bool, int]]:
    """From which task, from and to its end or not, and how many minutes at most."""
    found = list[tuple[str, bool, bool, int]]()
    for part in ";".join(texts_of_field(project, task, FIELD)).split(";"):
        entry = ENTRY.fullmatch(part.strip())
        if entry is None and part.strip():
            raise BadInput(f"the field '{FIELD}' is not such as '4FS<=480 min': '{short(part)}'")
        found += [(entry[1], entry[2] == "F", entry[3] == "F", int(entry[4]))] if entry else []
    return found
