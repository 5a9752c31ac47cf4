"""Patterson's text of RCPSP (`.rcp`)."""
from ..model import Parts
from ..project import MOST_RESOURCES
from .numbers import Reader, all_numbers, first_lines, lines_of
from .precedence import MOST_JOBS, Jobs, jobs_of

NAME, SUFFIX = "Patterson's text", ".rcp"


def is_like(text: str) -> bool:
    """The number of jobs and of resources, and then a line with the units of each."""
    lines = first_lines(lines_of(text))
    has_sizes = len(lines) == 2 and len(lines[0]) == 2 and all_numbers(" ".join(lines[0]))
    return has_sizes and len(lines[1]) == int(lines[0][1])


def read(text: str, project: Parts) -> None:
    numbers = Reader(lines_of(text))
    count = numbers.take("the number of jobs", 2, MOST_JOBS)
    resources = numbers.take("the number of resources", 0, MOST_RESOURCES)
    capacities = numbers.row("the units of resource", resources)
    jobs = Jobs([], [], [])
    for job in range(1, count + 1):
        jobs.durations.append(numbers.take(f"the duration of job {job}"))
        jobs.demands.append(numbers.row(f"of job {job} the demand for resource", resources))
        heads = numbers.take(f"the count of successors of job {job}", 0, count)
        jobs.successors.append(numbers.row(f"of job {job} successor", heads, 1, count))
    numbers.must_end()
    jobs.fill(project, capacities)


def write(project: Parts) -> str:
    numbers, jobs = jobs_of(project, NAME)
    rows = [[len(jobs.durations), len(numbers.capacities)], [*numbers.capacities]]
    rows += [[duration, *needs, len(heads), *heads]
             for duration, needs, heads in zip(jobs.durations, jobs.demands, jobs.successors)]
    return "".join(" ".join(map(str, row)) + "\n" for row in rows)
