"""Searches of a project, which run until everything is known or the time is over.

What psprove's book holds is known as soon as psprove tells it, so whatever ends the search loses none. psmax answers
only at its end, so it searches in slices of nodes, each from the best schedule so far: what a search that is stopped
knows is what the slices before know. The first slice goes depth first, which finds a schedule soon; the others raise
the bound, and have a record."""
from collections.abc import Iterator, Mapping
from contextlib import suppress
from dataclasses import replace
from types import MappingProxyType

from .clock import tell
from .errors import TimeUp
from .incumbent import Incumbent
from .project import MOST_ARCS, Arc, Numbers, with_order
from .psmax import Psmax
from .psprove import Limits, Psprove

SECONDS, CONFLICTS = 10, 10_000  # of a repair by psprove
SHARE = 0.1  # of the time that is left, which it takes at most
NOTHING: Mapping[int, int] = MappingProxyType({})
FIRST = 1_000  # nodes of the first slice
GROWTH = 10  # each one takes so many times the nodes of the one before
MOST = 1_000_000  # nodes of the last slice, which stay in memory: a million take some 1,600 MB


def search(project: Numbers, psprove: Psprove, best: Incumbent, limits: Limits, old: Mapping[int, int] = NOTHING,
           called: str = "") -> None:
    """A search by psprove until the clock is over, near to old starts where there are some; what is known stands in
    `best`."""
    if best.known.starts is None and old:
        repair(psprove, best, project, old, called)
    clock = psprove.clock
    limits = replace(limits, seconds=clock.left())
    try:
        answer = psprove.solve(project, limits, best.known.starts, best.hear)
        best.learn(answer, " ".join(["psprove solve", *limits.arguments()]))
    except TimeUp as fault:
        if fault.args:
            tell(clock, f"{fault}: what it told stands, without a record")
    if not best.known.settled and clock.over():
        tell(clock, clock.why_over())


def repair(psprove: Psprove, best: Incumbent, project: Numbers, old: Mapping[int, int], called: str) -> None:
    """A schedule like old starts, without a search; else by a search of the first of the orders that has one."""
    from .serial import near
    starts = near(project, old)
    if starts is not None and Psmax(psprove.clock, psprove.project).check(project, starts).value is not None:
        return best.offer(starts, f"{called}, repaired")
    for one in orders(project, old):
        seconds = min(SECONDS, SHARE * psprove.clock.left())
        answer = psprove.ask(one, Limits(seconds, conflicts=CONFLICTS, is_recorded=False))
        if answer.starts is not None:
            return best.offer(answer.starts, f"{called}, repaired")


def orders(project: Numbers, old: Mapping[int, int]) -> Iterator[Numbers]:
    """The project in the order of an old schedule: first with no start before the old one, then without that."""
    ordered = with_order(project, old)
    later = tuple(Arc(0, i, start) for i, start in old.items())[: MOST_ARCS - len(ordered.arcs)]
    yield replace(ordered, arcs=ordered.arcs + later)
    yield ordered


class TreeSearch:
    """A search by psmax; what is known stands in `best`."""

    def __init__(self, project: Numbers, psmax: Psmax, best: Incumbent, jobs: int) -> None:
        self.project, self.psmax, self.best, self.jobs = project, psmax, best, jobs

    def run(self) -> None:
        clock = self.psmax.clock
        with suppress(TimeUp):
            if self.best.known.starts is None:
                self.dive()
            self.slices()
        if not self.best.known.settled and clock.over():
            tell(clock, clock.why_over())

    def dive(self) -> None:
        """A schedule, if one is found; its bound comes again with a record."""
        answer = self.psmax.solve(self.project, FIRST, None)
        if answer.starts is not None:
            self.best.offer(answer.starts, f"psmax solve --nodes {FIRST}")

    def slices(self) -> None:
        nodes = FIRST
        while not self.best.known.settled and nodes <= MOST:
            answer = self.psmax.solve(self.project, nodes, self.jobs, self.best.known.starts)
            self.best.learn(answer, f"psmax solve --nodes {nodes} --workers {self.jobs}")
            nodes *= GROWTH
