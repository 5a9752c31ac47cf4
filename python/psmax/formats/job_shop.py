"""Job shops of the OR-Library and of JSPLIB: a line for each job, with machine and time of each operation."""
import re
from collections.abc import Iterator, Sequence
from itertools import dropwhile, islice

from ..errors import BadInput
from ..model import Parts
from ..project import MOST_ACTIVITIES
from .numbers import MOST_SIGNS, Reader, all_numbers, lines_of
from .shops import Operation, fill_from_shop, job_shop_of, read_sizes

NAME, SUFFIX = "a job shop by lines", ".jsp"
INSTANCE = re.compile(r"^[ \t]*instance[ \t]+\w[^\s]*[ \t\r]*$", re.I | re.M)  # its title in the OR-Library


def is_like(text: str) -> bool:
    """The number of jobs and of machines, and then a line with two numbers for each machine, or a line for each job."""
    lines = [line[:MOST_SIGNS] for _, line in islice(own_lines(text), MOST_ACTIVITIES + 2)]
    sizes = lines[0].split() if len(lines) > 1 else []
    if len(sizes) != 2 or not all_numbers(" ".join(sizes)):
        return False
    return len(lines[1].split()) == 2 * int(sizes[1]) or has_a_line_for_each(int(sizes[0]), lines[1:])


def has_a_line_for_each(jobs: int, lines: Sequence[str]) -> bool:
    """Whether each line has the numbers of some operations."""
    return len(lines) == jobs > 0 and all(len(line.split()) % 2 == 0 and all_numbers(line) for line in lines)


def own_lines(text: str) -> Iterator[tuple[int, str]]:
    """Without the comments of JSPLIB, and without the rules and titles of the OR-Library, which stand above."""
    title = INSTANCE.search(text)
    above = text.count("\n", 0, title.start()) if title else 0
    lines = ((number, line) for number, line in lines_of(text) if number > above and line.lstrip()[0] not in "#+")
    return dropwhile(lambda one: not one[1].lstrip()[0].isdecimal(), lines)


def read(text: str, project: Parts) -> None:
    lines = [*own_lines(text)]
    numbers, rows = Reader(lines), [line for _, line in lines[1:]]
    jobs, machines = read_sizes(numbers)
    counts = [len(row.split()) // 2 for row in rows] if has_a_line_for_each(jobs, rows) else [machines] * jobs
    shop = []
    for job, count in enumerate(counts, 1):
        row = []
        for place in range(1, count + 1):
            called = f"of job {job}, operation {place}"
            row.append(Operation(numbers.take(f"the machine {called}", 0, machines - 1),
                                 numbers.take(f"the time {called}")))
        if len({step.machine for step in row}) < count:
            raise BadInput(f"job {job} has two operations on one machine, and each machine has one of each job at most")
        shop.append(row)
    numbers.must_end()
    fill_from_shop(project, shop, machines)


def write(project: Parts) -> str:
    shop = job_shop_of(project)
    rows = [[len(shop), len(project.resources)], *([number for step in row for number in step] for row in shop)]
    return "".join(" ".join(map(str, row)) + "\n" for row in rows)
