"""`plan check`: whether a schedule is feasible, and otherwise what of it is not, by name; of a table alone what was
read."""
from ..clock import Clock
from ..psmax import Psmax
from .answer import judge_answer
from .answer_text import read_answer
from .headline import describe_schedule
from .project_file import ProjectFile
from .read_back import read_back

VIOLATED = 4  # the exit status of psmax for the same


def check(opened: ProjectFile, given: str | None) -> int:
    if given is None and opened.table is not None:
        print(*read_back(opened), sep="\n")
        return 0
    known = judge_answer(opened, read_answer(given), Psmax(Clock(), opened.path))
    if known.value is not None:
        print(*describe_schedule(opened, known.starts, known.value), sep="\n")
        return 0
    print(*known.violations, sep="\n")
    return VIOLATED
