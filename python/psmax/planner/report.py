"""`plan report`: one page of HTML that needs nothing else: the schedule with its lags, the use of resources, the float
of each activity, and what is proved by which record."""
import pathlib
from dataclasses import dataclass

from ..call_files import lose_none, must_be_like
from ..clock import Clock
from ..errors import BadInput
from ..files import STANDARD_INPUT, sha256_of, write_whole
from ..known import Known
from ..psmax import Psmax
from .answer import JudgedStarts, feasible, read_baseline
from .answer_text import read_answer
from .beginning import Start
from .floats import Total
from .headline import headline
from .headline import describe_schedule as verdict_line
from .page import Page, View, html
from .project_file import ProjectFile
from .verify import Verdict, verdict
from .window import windows
from .write import BEGIN


@dataclass(frozen=True)
class ReportOptions:
    record: str | None
    out: str
    paper: str
    seconds: float
    jobs: int
    baseline: str | None = None


def proof(answer: JudgedStarts, found: Verdict | None) -> str:
    """What is proved, and by whom."""
    which = answer.project.goal
    told = (f"`psmax check` finds this schedule of {which.words(answer.value)} feasible: it keeps each lag and each "
            "resource. ")
    if found is None:
        return told + "No record was handed in, so nothing is said of shorter ones."
    return f"{told}{found.sentence()} {found.judges()}"


def describe_digest(found: Verdict | None) -> str:
    """By which one knows the record again."""
    if found is None:
        return ""
    file = found.record.file
    return f"The record has {file.size():,} bytes and the SHA-256 {sha256_of(file.path)}."


def headline_of(answer: JudgedStarts, found: Verdict | None, opened: ProjectFile) -> tuple[str, ...]:
    """What is known of a schedule with the verdict on its record, if there is one."""
    if found is None:
        return (*verdict_line(opened, answer.starts, answer.starts[-1]),)
    return (*headline(opened, Known(answer.project.goal, answer.value, found.bound, answer.starts)),)


def report(opened: ProjectFile, given: str | None, start: Start, options: ReportOptions) -> int:
    files = {"the record": options.record, "the baseline": options.baseline}
    inputs = {"the answer": given or STANDARD_INPUT} | {what: path for what, path in files.items() if path is not None}
    lose_none(opened.inputs() | start.inputs() | inputs, [options.out])
    must_be_like(options.out, BEGIN, "page of HTML")
    psmax = Psmax(Clock(), opened.path)
    answer = feasible(opened, read_answer(given), psmax)
    found = verdict(opened, options.record, start) if options.record is not None else None
    if found is not None and found.wrong:
        raise BadInput(found.sentence())
    was = read_baseline(opened, options.baseline)
    total = Total(options.seconds, options.jobs, start).of(opened, answer.starts)
    is_shortest = found is not None and found.bound == answer.value
    view = View(opened, answer.starts, proof(answer, found), is_shortest, windows(opened.project, answer.starts, psmax),
                total, was, headline=headline_of(answer, found, opened), digest=describe_digest(found))
    write_whole(options.out, render_page(view, options.paper))
    return 3 if total.open() else 0


def render_page(view: View, paper: str) -> bytes:
    page = Page(view, paper)
    tables = {name: "\n".join(row for _, row in rows) for name, rows in page.tables().items()}
    title = pathlib.Path(view.opened.path).stem
    return html(title, paper, page.parts() | tables, page.told(), view.is_shortest).encode("utf-8", "replace")
