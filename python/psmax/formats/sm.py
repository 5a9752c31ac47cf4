"""PSPLIB's single-mode text of RCPSP (`.sm`; the sets j30, j60, j90 and j120)."""
import re

from ..errors import BadInput
from ..model import Parts
from ..project import MOST_RESOURCES
from .numbers import Reader, lines_of
from .precedence import MOST_JOBS, Jobs, jobs_of

NAME, SUFFIX = "PSPLIB's single-mode text", ".sm"
RULE = "*" * 72
PRECEDENCES, REQUESTS, CAPACITIES = "PRECEDENCE RELATIONS", "REQUESTS/DURATIONS", "RESOURCEAVAILABILITIES"
MODES = ("a multi-mode project (MRCPSP): one chooses how each activity is done, or uses up resources. psmax solves "
         "projects with one mode for each activity")

Lines = list[tuple[int, str]]


def is_like(text: str) -> bool:
    return PRECEDENCES in text or re.match(r"\s*\*{10}", text) is not None


def read(text: str, project: Parts) -> None:
    parts = sections(text)
    count = stated(parts[""], "jobs (incl. supersource/sink )", 2, MOST_JOBS)
    resources = stated(parts[""], "- renewable", 0, MOST_RESOURCES)
    if any(stated(parts[""], f"- {kind}", 0, MOST_RESOURCES) for kind in ("nonrenewable", "doubly constrained")):
        raise BadInput(MODES)
    successors = read_successors(Reader(parts[PRECEDENCES]), count)
    durations, demands = read_requests(Reader(parts[REQUESTS]), count, resources)
    numbers = Reader(parts[CAPACITIES])
    capacities = numbers.row("the units of resource", resources)
    numbers.must_end()
    Jobs(durations, demands, successors).fill(project, capacities)


def sections(text: str) -> dict[str, Lines]:
    """The lines of each section that have numbers; the first one is what stands above them all."""
    found: dict[str, Lines] = {"": []}
    name = ""
    for number, line in lines_of(text):
        head = line.strip().rstrip(":")
        if head in (PRECEDENCES, REQUESTS, CAPACITIES):
            if head in found:
                raise BadInput(f"line {number}: a second section {head}")
            name, found[head] = head, []
        elif not name or not is_rule(line):
            found[name].append((number, line))
    missing = next((head for head in (PRECEDENCES, REQUESTS, CAPACITIES) if head not in found), None)
    if missing is not None:
        raise BadInput(f"there is no section {missing}")
    return {head: lines if not head else lines[1:] for head, lines in found.items()}  # without the names of its columns


def is_rule(line: str) -> bool:
    return re.fullmatch(r"\s*(\*{3,}|-{3,})\s*", line) is not None


def stated(lines: Lines, name: str, least: int, most: int) -> int:
    """The number behind this name above the sections."""
    for number, line in lines:
        before, colon, after = line.partition(":")
        if colon and " ".join(before.split()).lower() == " ".join(name.split()):
            return Reader([(number, after)]).take(name, least, most)
    raise BadInput(f"there is no line `{name}:`")


def read_successors(numbers: Reader, count: int) -> list[list[int]]:
    found = []
    for job in range(1, count + 1):
        numbers.must_be("the number of a job", job)
        if numbers.take(f"the modes of job {job}", 1) > 1:
            raise BadInput(MODES)
        heads = numbers.take(f"the count of successors of job {job}", 0, count)
        found.append(numbers.row(f"of job {job} successor", heads, 1, count))
    numbers.must_end()
    return found


def read_requests(numbers: Reader, count: int, resources: int) -> tuple[list[int], list[list[int]]]:
    durations, demands = [], []
    for job in range(1, count + 1):
        numbers.must_be("the number of a job", job)
        numbers.must_be(f"the mode of job {job}", 1)
        durations.append(numbers.take(f"the duration of job {job}"))
        demands.append(numbers.row(f"of job {job} the demand for resource", resources))
    numbers.must_end()
    return durations, demands


def write(project: Parts) -> str:
    numbers, jobs = jobs_of(project, NAME)
    count, resources = len(jobs.durations), range(1, len(numbers.capacities) + 1)
    columns = "  ".join(f"R {k}" for k in resources)
    lines = [RULE, "projects                      :  1", f"jobs (incl. supersource/sink ):  {count}",
             f"horizon                       :  {sum(jobs.durations)}", "RESOURCES",
             f"  - renewable                 :  {len(numbers.capacities)}   R",
             "  - nonrenewable              :  0   N", "  - doubly constrained        :  0   D", RULE,
             f"{PRECEDENCES}:", "jobnr.    #modes  #successors   successors"]
    lines += [" ".join(f"{number:4}" for number in (job, 1, len(heads), *heads))
              for job, heads in enumerate(jobs.successors, 1)]
    lines += [RULE, f"{REQUESTS}:", f"jobnr. mode duration  {columns}", "-" * 72]
    lines += [" ".join(f"{number:4}" for number in (job, 1, duration, *needs))
              for job, (duration, needs) in enumerate(zip(jobs.durations, jobs.demands), 1)]
    lines += [RULE, f"{CAPACITIES}:", f"  {columns}", " ".join(f"{units:4}" for units in numbers.capacities), RULE]
    return "\n".join(lines) + "\n"
