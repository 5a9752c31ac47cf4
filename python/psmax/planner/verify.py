"""`plan verify`: what a record proves of a project, and who has checked it."""
import json
import re
from collections.abc import Mapping
from dataclasses import dataclass, field

from ..clock import Clock
from ..cubes.machines import CHECK, Cluster, Machines, Processes
from ..cubes.parts import RecordParts
from ..files import read_bytes
from ..programs import find_program
from ..project import Goal
from ..project_text import ProjectText
from ..psmax import Psmax
from ..psprove import Psprove
from ..record import OF_PSMAX, WRONG, Record, record_in
from ..record_file import RecordFile, record_at
from .beginning import Start, begin_with
from .project_file import ProjectFile

STEP, STEP_IN_WORDS = re.compile(r"\bevent (\d+): (\w+)"), r"its step \1 is wrong (\2)"  # as psprove says it, and here


@dataclass(frozen=True)
class Verdict:
    """What `verify` of a program says of a record, which may be its first fault."""

    path: str
    record: Record
    which: str  # project
    program: str
    script: str  # that judges the record without the program
    told: str
    wrong: bool
    parts: int = 1  # in which it was checked
    own: tuple[int, ...] = (1,)  # those that were judged here
    believed: Mapping[str, tuple[int, ...]] = field(default_factory=dict)  # the others, by who says that they are right

    @property
    def bound(self) -> int | None:
        """A lower bound of what is minimized; none where there is no schedule."""
        return self.record.bound_by(self.told)

    def sentence(self) -> str:
        if self.wrong:
            return f"{self.path} proves nothing of {self.which}: {STEP.sub(STEP_IN_WORDS, self.told)}"
        if self.bound is None:
            return f"{self.path} proves that there is no schedule of {self.which}."
        project = self.record.spelled.project
        is_late = project.goal is Goal.LATENESS
        is_known = project.horizon is None or not is_late and self.bound <= project.horizon
        ends = f", and has one that {'late' if is_late else 'long'}" if "optimal" in self.told and is_known else ""
        least = f"has a lateness below {self.bound}" if is_late else f"is shorter than {self.bound}"
        return f"{self.path} proves that no schedule of {self.which} {least}{ends}."

    def judges(self) -> str:
        parts, cases = "" if self.parts == 1 else f" in {self.parts} parts", self.record.cases()
        if cases:
            which = "the record of one case, which has all schedules" if cases == 1 else \
                f"the records of {cases} cases, which have all schedules between them"
            return (f"It has {which}, by the calendar of the table. `{self.program} verify`, which is proved itself, "
                    f"has judged {'it' if cases == 1 else 'each'}.")
        if self.believed:
            drawn = "a part, drawn" if len(self.own) == 1 else f"{len(self.own)} parts, drawn"
            told = ", ".join(f"{name} ({len(numbers)})" for name, numbers in self.believed.items())
            return (f"`{self.program} verify`, which is proved itself, has judged {drawn} at random of {self.parts}, "
                    f"on this machine. The others are believed of the workers that judged them: {told}. {self.script} "
                    f"judges all of it without {self.program}.")
        return (f"`{self.program} verify`, which is proved itself, has judged it{parts}; {self.script} judges it "
                f"without {self.program}.")

    def as_json(self) -> str:
        """One line."""
        return json.dumps({"record": self.path, "project": self.which, "program": self.program, "parts": self.parts,
                           "own": [*self.own],
                           "believed": {name: [*numbers] for name, numbers in self.believed.items()},
                           "says": self.told, "bound": None if self.wrong else self.bound, "wrong": self.wrong})


@dataclass(frozen=True)
class Shares:
    """Where the parts of a record are checked."""

    jobs: int  # of this machine, where there is no cluster
    cluster: str | None

    def here(self) -> Machines:
        return Processes(self.jobs, find_program(Psprove.name), CHECK)

    def parts(self, path: str, text: bytes) -> RecordParts:
        if self.cluster is None:
            return RecordParts(path, text, self.here(), Clock())
        return RecordParts(path, text, Cluster(self.cluster, CHECK), Clock(), self.here())


def verdict(opened: ProjectFile, path: str, start: Start, shares: Shares | None = None) -> Verdict:
    """The verdict on a record of the project, or of it with what has started kept."""
    keeps = "" if start.frozen is None else f" that keeps what {start.answer} starts before {start.frozen}"
    project, which = begin_with(opened, start).project, f"{opened.path}{keeps}"
    begin = b"" if shares is None else read_bytes(path, len(OF_PSMAX) - 1)
    if shares is None or begin == OF_PSMAX or project.dated:
        return judge_record(record_in(record_at(path), project), path, which)
    spelled = ProjectText(project)
    found = shares.parts(path, spelled.text).check()
    return Verdict(path, Record(RecordFile(path), spelled), which, Psprove.name, "verify_log.py", found.says,
                   found.is_wrong, found.count, found.own, found.believed)


def judge_record(record: Record, path: str, which: str) -> Verdict:
    """The verdict on a record in a file, of this project."""
    program = record.judge(path)
    told, is_wrong = record.told(program)
    script = "verify.py" if program.name == Psmax.name else "verify_log.py"
    return Verdict(path, record, which, program.name, script, told, is_wrong)


def verify(opened: ProjectFile, record: str, start: Start, shares: Shares | None, is_json: bool) -> int:
    found = verdict(opened, record, start, shares)
    print(found.as_json() if is_json else found.sentence())
    if not found.wrong and not is_json:
        print(found.judges())
    return WRONG if found.wrong else 0
