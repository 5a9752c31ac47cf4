"""Records of searches, which `verify` of the programs judges."""
import math
import os
import pathlib
import re
from dataclasses import dataclass

from .case_record import read_cases
from .clock import Clock
from .errors import BadInput, Failed
from .files import named_path
from .known import ODD
from .programs import Program
from .project import Numbers
from .project_text import ProjectText
from .psmax import Psmax
from .psprove import Psprove
from .record_file import RecordFile, file_of

BEGIN = b"record "  # of each
OF_PSMAX = b"record 1\n"  # how a record of a tree begins; any other one is of lemmas
PROVED = re.compile(r"proved (no schedule|(bound|optimal) (\d+))")
WRONG = 4  # the exit status of the programs for a record that is wrong


@dataclass(frozen=True)
class Proof:
    """What a record proves: that no schedule has less than the bound, and perhaps that one has that, or that there is
    none."""

    says: str  # such as `proved optimal 6`, or `proved bound lateness 3`
    bound: int | None  # of what is minimized; none where there is no schedule
    is_optimal: bool

    def __str__(self) -> str:
        return self.says


@dataclass(frozen=True)
class Record:
    """A record of a project, in a file. It needs no trust in the search that wrote it."""

    file: RecordFile
    spelled: ProjectText

    @property
    def path(self) -> str:
        """The file, which goes with the last record of it where it has no name of its own."""
        return self.file.path

    @property
    def data(self) -> bytes:
        """All of it, which may be too long for memory."""
        return self.file.read()

    def __repr__(self) -> str:
        return f"Record({self.path!r}, {self.file.size():,} bytes)"

    def judge(self, called: str = "the record") -> Program:
        """The program that judges it, with what it is called in faults."""
        kind = Psmax if self.file.begins_with(OF_PSMAX) else Psprove
        return kind(Clock(), called)

    def told(self, program: Program) -> tuple[str, bool]:
        """What a program says of it, and whether that is its first fault."""
        status, told = program.verify(self.spelled.text, pathlib.Path(self.path))
        if status != WRONG and not PROVED.fullmatch(told):
            raise Failed(f"{program.name} verify gave an answer that plan does not know: {told}")
        return told, status == WRONG

    def bound_by(self, told: str) -> int | None:
        """The bound of what is minimized that a program says is proved."""
        found = PROVED.fullmatch(told)
        return self.spelled.value(int(found[3])) if found and found[3] else None

    def verify(self) -> Proof:
        """What it proves of what is minimized. BadInput has its first wrong line or event."""
        told, is_wrong = self.told(self.judge())
        if is_wrong:
            raise BadInput(f"the record: {told}")
        bound, is_optimal = self.bound_by(told), "optimal" in told
        kind = "optimal" if is_optimal else "bound"
        says = told if bound is None else f"proved {kind} {self.spelled.project.goal.words(bound)}"
        return Proof(says, bound, is_optimal)

    def write(self, path: str | os.PathLike[str]) -> None:
        """A copy under this name, whole or not at all."""
        self.file.write(named_path(path))

    def cases(self) -> int:
        """How many records of cases it has; 0 for one of a project without lags in calendar days."""
        return 0


class CaseRecord(Record):
    """The record of a project with lags in calendar days, which has one of each case."""

    def judge(self, called: str = "the record") -> Program:
        return Psprove(Clock(), called)

    def told(self, program: Program) -> tuple[str, bool]:
        project = self.spelled.project
        try:
            leaves, starts = read_cases(self.data, project)
        except (*ODD, RecursionError, OverflowError):
            return "cases: form", True
        least = math.inf
        for number, leaf in enumerate(leaves, 1):
            record = Record(file_of(leaf.record), ProjectText(leaf.ordinary(project)))
            told, is_wrong = record.told(program)
            if is_wrong:
                return f"case {number} of {len(leaves)}: {told}", True
            least = min(least, leaf.bound(record.bound_by(told)))
        value = None if starts is None else Psmax(Clock(), program.project).check(project, starts).value
        if starts is not None and (value is None or value < least):
            return "cases: schedule", True
        if least == math.inf:
            return "proved no schedule", False
        return f"proved {'optimal' if value == least else 'bound'} {int(least)}", False

    def bound_by(self, told: str) -> int | None:
        found = re.fullmatch(r"proved (?:bound|optimal) (-?\d+)", told)
        return int(found[1]) if found else None

    def cases(self) -> int:
        return len(read_cases(self.data, self.spelled.project)[0])


def record_in(file: RecordFile, project: Numbers) -> Record:
    """What stands in a file, as a record of this project."""
    return (CaseRecord if project.dated else Record)(file, ProjectText(project))
