"""Searches by psprove. Whatever it answers, its proved book has taken, and the record has the log of that."""
import math
import os
import tempfile
from collections.abc import Callable
from dataclasses import dataclass, replace

from .case_record import record_of
from .cases import CaseSearch
from .clock import tell
from .errors import BadInput, Failed, TimeUp
from .known import ODD, Known, not_asked, of_answer, of_report
from .programs import Program
from .project import Numbers
from .project_text import ProjectText
from .psmax import Psmax, starts_text
from .record_file import new_file

Hear = Callable[[Known], object]

STOPPED = "psprove: the search stopped: "  # how a line begins that says why, other than by a limit of the arguments


@dataclass(frozen=True)
class Limits:
    """Where a search stops, and how it goes. psprove counts whole seconds, so a part of one ends by a file."""

    seconds: float
    jobs: int = 1
    conflicts: int | None = None
    seed: int | None = None
    memory: int | None = None  # MiB of the lemmas of each job
    below: int | None = None  # only schedules with less are looked for
    resume: str | None = None  # the record of a search before
    is_recorded: bool = True

    def arguments(self) -> list[str]:
        told = {"--seconds": math.ceil(self.seconds), "--jobs": self.jobs, "--conflicts": self.conflicts,
                "--seed": self.seed, "--memory": self.memory, "--resume": self.resume}
        return [word for option, value in told.items() if value is not None for word in (option, f"{value}")]

    def are_over(self) -> bool:
        return self.seconds <= 0 or self.conflicts == 0


class Psprove(Program):
    name = "psprove"

    def solve(self, project: Numbers, limits: Limits, start: tuple[int, ...] | None = None,
              hear: Hear = lambda told: None) -> Known:
        """A search within limits, from starts that are feasible where there are some. Meanwhile what psprove's book
        holds is heard. Where the clock stops, the answer is what it holds then. Lags in calendar days are searched by
        cases."""
        if not project.dated:
            return self.search(project, limits, start, hear)
        begun, limits = self.clock.elapsed(), replace(limits, is_recorded=True)

        def left(conflicts: int) -> Limits:
            seconds = limits.seconds - (self.clock.elapsed() - begun)
            return replace(limits, seconds=min(seconds, self.clock.left()),
                           conflicts=None if limits.conflicts is None else max(0, limits.conflicts - conflicts))

        psmax = Psmax(self.clock, self.project)
        found = CaseSearch(project, self.search, lambda starts: psmax.check(project, starts).value, hear)
        answer = found.run(left, start)
        return replace(answer, record=record_of(found.root, found.starts, self.folder))

    def search(self, project: Numbers, limits: Limits, start: tuple[int, ...] | None, hear: Hear) -> Known:
        """The same of an ordinary project."""
        if limits.seconds <= 0:
            raise TimeUp
        spelled, record = ProjectText(project), new_file(self.folder) if limits.is_recorded else None
        with tempfile.TemporaryDirectory(prefix="plan-") as folder:
            text, first, end = (os.path.join(folder, name) for name in ("project", "start", "end"))
            with open(text, "wb") as file:
                file.write(spelled.text)
            arguments = ["solve", "--json", "--progress", "json", *limits.arguments(), "--until", end, "--project",
                         text, "--follow", *([] if record is None else ["--record", record.path])]
            if limits.below is not None:
                arguments += ["--below", f"{max(0, limits.below + spelled.offset)}"]
            if start is not None and spelled.has(start):
                with open(first, "wb") as file:
                    file.write(starts_text(spelled.inward(start)))
                arguments += ["--start", first]
            try:
                _, out = self.call(arguments, None, limits.seconds, lambda line: self.heard(line, spelled, hear), end)
            except Failed as fault:
                _, told, text = str(fault).partition(f": {limits.resume}: ")
                raise BadInput(f"{limits.resume}: {text}") if told else fault from None
            try:
                return of_answer(out, record, spelled)
            except ODD:
                raise self.odd("solve") from None

    def ask(self, project: Numbers, limits: Limits, start: tuple[int, ...] | None = None) -> Known:
        """The same where the time may be over: what is known then is what psprove told last."""
        told = [not_asked(ProjectText(project))]
        try:
            return self.solve(project, limits, start, told.append)
        except TimeUp:
            return told[-1]

    def heard(self, line: str, spelled: ProjectText, hear: Hear) -> None:
        """What the book holds, or why a search stopped."""
        if line.startswith(STOPPED):
            tell(self.clock, line)
        if line.startswith("{"):
            try:
                told = of_report(line, spelled)
            except ODD:
                raise self.odd("solve") from None
            hear(told)
