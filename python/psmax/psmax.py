"""What psmax says of a project: its least starts by the lags alone, whether starts are feasible, and what a search
finds."""
import os
import re
import tempfile
from collections.abc import Sequence
from dataclasses import dataclass, replace
from typing import NamedTuple

from .errors import Failed
from .known import ODD, Known, of_answer
from .programs import Program
from .project import Arc, Goal, Numbers
from .project_text import ProjectText
from .record_file import new_file


@dataclass(frozen=True)
class Judgement:
    """What is minimized where the starts are a feasible schedule, and otherwise every violation."""

    value: int | None
    violations: tuple["Breach", ...]


class Breach(NamedTuple):
    """A start of activity 0 that isn't 0; a lag that isn't kept, as its arc; one in calendar days, by its place; an
    overload: a time, a resource, a use; or an activity that ends when the hours of a resource are not known any
    more."""

    kind: str
    numbers: tuple[int, ...]


class Psmax(Program):
    name = "psmax"
    asked: ProjectText | None = None  # the project of the last check, of which there may be many

    def earliest(self, project: Numbers) -> int | None:
        """What is minimized, by the lags alone; none where they contradict each other."""
        spelled = ProjectText(project)
        found = self.earliest_of_text(spelled.text)
        return None if found is None else spelled.value(found)

    def earliest_of_text(self, text: bytes) -> int | None:
        starts = self.earliest_starts(text)
        return None if starts is None else starts[-1]

    def earliest_starts(self, text: bytes) -> tuple[int, ...] | None:
        """The least start of each activity of a text; none where the lags contradict each other."""
        status, out = self.call(["earliest"], text)
        if status != 0 or not re.fullmatch(rb"(earliest \d+\n(\d+ -?\d+\n)+|positive cycle \d+\n)", out):
            raise self.odd("earliest")
        return tuple(int(line.split()[1]) for line in out.splitlines()[1:]) or None

    def solve(self, project: Numbers, nodes: int, workers: int | None, start: tuple[int, ...] | None = None) -> Known:
        """A search of so many nodes, until the clock is over, from starts that are feasible where there are some.
        Without workers it goes depth first, and has neither a start nor a record."""
        spelled, record = ProjectText(project), None if workers is None else new_file(self.folder)
        with tempfile.TemporaryDirectory(prefix="plan-") as own:
            first = os.path.join(own, "start")
            arguments = ["solve", "--json", "--nodes", f"{nodes}"]
            arguments += [] if record is None else ["--workers", f"{workers}", "--record", record.path]
            if start is not None:
                with open(first, "wb") as file:
                    file.write(starts_text(spelled.inward(start)))
                arguments += ["--start", first]
            _, out = self.call(arguments, spelled.text, self.clock.left())
            try:
                return of_answer(out, record, spelled)
            except ODD:
                raise self.odd("solve") from None

    def check(self, project: Numbers, starts: tuple[int, ...]) -> Judgement:
        """What psmax says of the starts. Whatever is minimized, a schedule is feasible by its lags and resources. Lags
        in calendar days are kept or not by their dates."""
        if project.horizon is not None:
            known = self.check(replace(project, horizon=None), starts)
            late = [Breach("horizon", (activity,)) for activity in project.beyond(starts)]
            return Judgement(None, (*known.violations, *late)) if late else known
        if project.dated:
            known = self.check(replace(project, dated=()), starts)
            late = [Breach("dated", (place,)) for place, one in enumerate(project.dated) if one.slack(starts) < 0]
            arcs = {project.dated[one.numbers[0]].arc for one in late}
            rest = [one for one in known.violations if one.kind != "lag" or Arc(*one.numbers) not in arcs]
            return Judgement(None, (*rest, *late)) if late else known
        if project.goal is Goal.LATENESS:
            known = self.check(replace(project, goal=Goal.MAKESPAN), project.plain(starts))
            return known if known.value is None else Judgement(starts[-1], ())
        if self.asked is None or self.asked.project != project:
            self.asked = ProjectText(project)
        spelled = self.asked
        status, out = self.judge("check", spelled.text, starts_text(spelled.inward(starts)))
        found = re.fullmatch(rb"feasible (-?\d+)\n", out)
        if status == 0 and found is not None:
            return Judgement(starts[-1], ())
        if status == 4 and out:
            lines = out.decode("utf-8", "replace").splitlines()
            return Judgement(None, tuple(violation(line, spelled) for line in lines))
        raise self.odd("check")


def violation(line: str, spelled: ProjectText) -> Breach:
    """A line of `check`, in the numbers of the project."""
    found = re.fullmatch(r"(start|lag|overload)((?: -?\d+)+)", line)
    numbers = tuple(int(word) for word in found[2].split()) if found else ()
    if found is None or len(numbers) != {"start": 1, "lag": 3, "overload": 3}[found[1]]:
        raise Failed(f"psmax check gave an answer that plan does not know: {line}")
    if found[1] == "lag":
        tail, head, lag = numbers
        lag += (spelled.offset if tail == spelled.end else 0) - (spelled.offset if head == spelled.end else 0)
        numbers = (spelled.shown(tail), spelled.shown(head), lag)
    return Breach(found[1], numbers)


def starts_text(starts: Sequence[int], first: str = "") -> bytes:
    """The starts as lines `activity start`, after a first line of an answer where there is one."""
    lines = [first] if first else []
    lines += [f"{activity} {start}" for activity, start in enumerate(starts)]
    return "".join(line + "\n" for line in lines).encode()
