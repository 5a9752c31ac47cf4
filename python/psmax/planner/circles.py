"""Lags that contradict each other: circles around which they add up to more than 0."""
from collections.abc import Iterator

from ..project import Arc, Numbers, lags_only
from ..psmax import Psmax
from .wording import Words

MOST = 10


def circles(project: Numbers, psmax: Psmax) -> Iterator[list[Arc]]:
    """One circle after another, each once psmax finds it positive by itself. The maximum lag of each is left out for
    the next ones, so that all contradictions are met, and none twice."""
    arcs = project.rules()
    for _ in range(MOST):
        circle = [Arc(*arc) for arc in positive_cycle([(*arc,) for arc in arcs], len(project.durations))]
        if not circle or psmax.earliest(lags_only(project, circle)) is not None:
            return
        yield circle
        arcs.remove(min((arc for arc in circle if arc in project.arcs), key=lambda arc: arc.lag))


def in_words(circle: list[Arc], words: Words) -> list[str]:
    circle = as_read(circle)
    over = sum(arc.lag for arc in circle)
    lead = "These lags contradict each other:" if len(circle) > 1 else "This lag contradicts itself:"
    is_knot = all(arc.lag >= 0 and arc.head for arc in circle)
    knot = ["  Each waits for the others, so one of these lags can't be meant."] if is_knot else []
    return [lead, *(f"  {words.lag(arc)}{words.origin(arc)}" for arc in circle),
            f"  Together they ask for {words.many(over)} more than there {'is' if over == 1 else 'are'}.", *knot]


def as_read(circle: list[Arc]) -> list[Arc]:
    """The circle from the start of the project on where it comes by there, and with a maximum lag last."""
    places = range(len(circle))
    first = min(places, key=lambda place: (circle[place].tail != 0, circle[place].lag < 0, circle[place - 1].lag >= 0))
    return circle[first:] + circle[:first]


def positive_cycle(arcs: list[tuple[int, int, int]], count: int) -> list[tuple[int, int, int]]:
    """The arcs of a closed walk of positive weight that visits no activity twice; empty where there is none."""
    weight = [0] * count
    came_by: list[tuple[int, int, int] | None] = [None] * count
    last = None
    for _ in range(count + 1):
        last = None
        for arc in arcs:
            tail, head, lag = arc
            if weight[tail] + lag > weight[head]:
                weight[head] = weight[tail] + lag
                came_by[head] = arc
                last = head
        if last is None:
            return []
    return walk_back(came_by, last, count)


def walk_back(came_by: list[tuple[int, int, int] | None], last: int | None, count: int) -> list[tuple[int, int, int]]:
    """The closed walk that one meets on the way back from an activity whose weight rose in the last round."""
    place = last
    for _ in range(count):
        arc = came_by[place] if place is not None else None
        place = arc[0] if arc else place
    cycle: list[tuple[int, int, int]] = []
    begin = place
    while not cycle or place != begin:
        arc = came_by[place] if place is not None else None
        if arc is None:
            return []
        cycle.append(arc)
        place = arc[0]
    return cycle[::-1]
