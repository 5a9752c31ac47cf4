"""Why a project has no schedule: a smallest set of its parts that contradict each other. psprove proves it."""
import os
from dataclasses import dataclass, field

from .files import write_whole
from .known import Known
from .project import Numbers, Part, parts, without
from .project_text import ProjectText
from .psmax import starts_text
from .psprove import Limits, Psprove
from .record_file import RecordFile

FIRST = 1_000  # conflicts of a first search, which mostly finds a schedule where there is one
LEAST = 2_000  # conflicts that a search for a core may have; more where the first proof took many
MANY = 4  # times those of the first proof


@dataclass
class Core:
    """A smallest set of maximum lags, resources and absences that contradict each other: without any one of them there
    is a schedule."""

    project: Numbers  # which has no schedule
    fixed: set[Part]  # that nobody asks about: a deadline, and what has started
    record: RecordFile | None  # proves that there is none, also without what is gone
    gone: set[Part] = field(default_factory=set)
    schedules: dict[Part, tuple[int, ...]] = field(default_factory=dict)  # of what is left without that part

    def parts(self) -> list[Part]:
        return [part for part in parts(self.project) if part not in self.fixed and part not in self.gone]

    def shrink(self, psprove: Psprove, conflicts: int) -> None:
        """Leaves out one part after the other where psprove proves that there is still no schedule. The first proof
        took so many conflicts. What is left when the time is over may have parts that are not needed."""
        for part in self.parts():
            limits = Limits(psprove.clock.left(), conflicts=max(LEAST, MANY * conflicts))
            answer = psprove.ask(without(self.project, {*self.gone, part}), limits)
            if answer.none:
                self.gone.add(part)
                self.record = answer.record
            elif answer.starts is not None:
                self.schedules[part] = answer.starts

    def write(self, folder: str) -> None:
        """What is left and the record, and for each part what is left without it and a schedule."""
        os.makedirs(folder, exist_ok=True)
        files = {"core.sch": ProjectText(without(self.project, self.gone)).text,
                 "core.record": b"" if self.record is None else self.record.read()}
        for place, part in enumerate(self.parts(), 1):
            if part in self.schedules:
                spelled = ProjectText(without(self.project, {*self.gone, part}))
                files[f"without-{place}.sch"] = spelled.text
                files[f"without-{place}.starts"] = starts_text(spelled.inward(self.schedules[part]))
        for name, data in files.items():
            write_whole(os.path.join(folder, name), data)


def find_core(project: Numbers, fixed: set[Part], psprove: Psprove, jobs: int) -> tuple[Known, Core | None]:
    """What is known of the project, and the core where it has no schedule. TimeUp where there is no time to know it."""
    answer = psprove.solve(project, Limits(psprove.clock.left(), conflicts=FIRST))
    if not answer.none and answer.starts is None:
        answer = psprove.solve(project, Limits(psprove.clock.left(), jobs))
    if not answer.none:
        return answer, None
    found = Core(project, fixed, answer.record)
    found.shrink(psprove, answer.conflicts)
    return answer, found
