"""What is known of a project while it is searched: the incumbent, which is the best schedule so far, and the lower
bound."""
from collections.abc import Callable, Sequence
from dataclasses import replace

from .clock import Clock, tell
from .errors import Failed
from .known import Known
from .project import Numbers
from .project_text import ProjectText
from .psmax import starts_text


class Incumbent:
    def __init__(self, clock: Clock, project: Numbers) -> None:
        self.clock, self.project = clock, project
        self.better: Callable[[], None] = lambda: None  # what is done each time the schedule gets shorter
        self.listener: Callable[[Known], None] = lambda _: None  # what is done each time something new is known
        self.called: Callable[[int | None], str] = project.goal.words  # what a value is called in progress
        self.line: Callable[[Known], str] = Known.first_line  # what is known, in a line of progress
        self.known = Known(project.goal, bound=ProjectText(project).value(0))

    def offer(self, starts: Sequence[int], by: str) -> None:
        """Takes starts that are a feasible schedule, by what is said of them."""
        tell(self.clock, f"schedule {self.called(starts[-1])}: {by}")
        self.put(tuple(starts), self.known.bound)

    def hear(self, told: Known) -> None:
        """Takes what psprove's book holds while it searches."""
        before = self.known
        self.take(told, "psprove solve")
        if self.known.value != before.value:
            tell(self.clock, f"schedule {self.called(self.known.value)}")
        if self.known.bound != before.bound:
            tell(self.clock, f"bound {self.called(self.known.bound)}")

    def learn(self, answer: Known, by: str) -> None:
        """Takes what a search answers at its end."""
        self.take(answer, by)
        is_proof = answer.bound == self.known.bound and (answer.settled or self.known.record is None)
        self.known = replace(self.known, conflicts=self.known.conflicts + answer.conflicts,
                             record=answer.record if is_proof else self.known.record)
        tell(self.clock, f"{self.line(self.known)}, proved: {by}")

    def take(self, told: Known, by: str) -> None:
        """Takes what a program has proved."""
        known = self.known
        most = min((value for value in (known.value, told.value) if value is not None), default=None)
        least = told.bound if told.bound is None or known.bound is None else max(told.bound, known.bound)
        if most is not None and (least is None or least > most):
            name = by.partition(" ")[0]
            raise Failed(f"{name} contradicts itself: a schedule of {most}, and {told.first_line()}, by {by}")
        self.put(told.starts, least)

    def put(self, starts: tuple[int, ...] | None, bound: int | None) -> None:
        """Keeps the bound, and the starts where they are shorter. The record of another bound goes."""
        before = self.known
        is_shorter = starts is not None and (before.value is None or starts[-1] < before.value)
        self.known = replace(before, bound=bound, record=before.record if bound == before.bound else None)
        if starts is not None and is_shorter:
            self.known = replace(self.known, value=starts[-1], starts=starts)
            self.better()
        if is_shorter or bound != before.bound:
            self.listener(self.known)

    def answer(self) -> bytes:
        """What is known, in the words of psmax; `psmax check` and `plan gantt` read it."""
        starts = self.known.starts
        return starts_text(self.project.plain(starts) if starts else (), self.known.first_line())
