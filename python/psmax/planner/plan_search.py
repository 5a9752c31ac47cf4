"""A search for a plan in a thread of its own. What it knows is on the screen as soon as psprove's book holds it."""
import os
import threading
from dataclasses import dataclass, replace

from ..clock import Clock
from ..incumbent import Incumbent
from ..known import Known
from ..project import Arc
from ..psmax import Psmax
from ..psprove import STOPPED, Limits, Psprove
from ..search import search
from ..total import TotalFloat
from .beginning import Beginning
from .circles import circles, in_words
from .faults import explained
from .project_file import ProjectFile
from .screen import Screen
from .why import Causes
from .window import windows
from .wording import Words


@dataclass(frozen=True)
class SearchLimits:
    """Of each search, and where its record goes."""

    seconds: float
    jobs: int
    record: str | None


class PlanSearch(threading.Thread):
    def __init__(self, screen: Screen, number: int, beginning: Beginning, limits: SearchLimits, folder: str) -> None:
        super().__init__(daemon=True)
        self.screen, self.number, self.beginning, self.limits, self.folder = screen, number, beginning, limits, folder
        self.opened: ProjectFile = screen.plans[number].opened
        self.is_ended = False
        self.clock = self.new_clock()

    def new_clock(self) -> Clock:
        """For the next step, unless it was asked to end."""
        self.clock = Clock(self.limits.seconds, self.hear)
        if self.is_ended:
            self.clock.stop()
        return self.clock

    def hear(self, _: float, text: str) -> None:
        """Of what a search tells, only why it has stopped is not on the screen."""
        if text.startswith(STOPPED):
            self.learn(trouble=(text,))

    def end(self) -> None:
        """Ends it, with what is known by then."""
        self.is_ended = True
        self.clock.stop()
        self.join()

    def learn(self, **news: object) -> None:
        self.screen.learn(self.number, **news)

    def run(self) -> None:
        try:
            known = self.search()
            if known.none:
                self.explain()
            elif known.starts is not None and not self.is_ended:
                self.float(known.starts)
        except Exception as fault:
            if not self.is_ended:
                self.learn(trouble=explained(fault)[1])
        finally:
            self.learn(stage="")

    def search(self) -> Known:
        best = Incumbent(self.clock, self.beginning.project)
        best.listener = lambda known: self.learn(known=replace(known, record=None))
        for starts, called in self.beginning.schedules:
            best.offer(starts, called)
        psprove = Psprove(self.clock, self.opened.path, self.folder)
        limits = Limits(self.limits.seconds, self.limits.jobs)
        search(self.beginning.project, psprove, best, limits, self.beginning.old)
        known = best.known
        if known.value is None and not known.none and self.opened.project.horizon is not None:
            self.learn(trouble=(Words(self.opened).nothing_within(known.bound),))
        if known.record is not None:
            if self.limits.record is not None:
                known.record.write(self.limits.record)
            path = os.path.join(self.folder, f"{self.number}.record")
            self.learn(known=replace(known, record=known.record.keep(path)))
        return known

    def explain(self) -> None:
        """Why there is no schedule, as `plan why` says it; before that a circle of lags, where there is one, since it
        is found at once."""
        clock, words = self.new_clock(), Words(self.opened, self.beginning.frozen)
        circle = next(circles(self.beginning.project, Psmax(clock, self.opened.path)), list[Arc]())
        if circle:
            self.learn(circle=(*circle,), why=(*in_words(circle, words),))
        lines: list[str] = []
        causes = Causes(self.opened, self.beginning.project, clock, self.limits.jobs, None, lines.append)
        causes.tell_all(None)
        self.learn(circle=(*dict.fromkeys(causes.arcs),), why=(*lines,))

    def float(self, starts: tuple[int, ...]) -> None:
        """The free floats, by psmax, and then the total floats, which take longer. Their proofs aren't kept."""
        self.learn(stage="floats", windows=windows(self.opened.project, starts, Psmax(self.clock, self.opened.path)))
        psprove = Psprove(self.new_clock(), self.opened.path)
        total = TotalFloat(self.beginning.project, starts, self.beginning.started, psprove, is_recorded=False)
        total.run(self.limits.jobs)
        if not self.is_ended:
            self.learn(total=total)
