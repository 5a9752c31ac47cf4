"""Taillard's texts of job shops and open shops: a line of sizes, then the times and the machines of all operations."""
import re
from dataclasses import dataclass
from itertools import islice

from ..errors import BadInput
from ..model import Parts
from .numbers import Reader, lines_of
from .shops import Operation, Shop, fill_from_shop, job_shop_of, no_shop, open_shop_of, read_sizes

HEAD = re.compile(r"\s*(Nb|number) of jobs\s*,", re.I)
BEFORE = "the number of jobs", "the number of machines", "the seed of the times", "the seed of the machines"


@dataclass(frozen=True)
class Layout:
    """The words of one of his texts."""

    head: str
    times: str
    machines: str
    is_open: bool


JOB_SHOP = Layout("Nb of jobs, Nb of Machines, Time seed, Machine seed, Upper bound, Lower bound", "Times", "Machines",
                  False)
OPEN_SHOP = Layout("number of jobs, number of machines, time seed, machine seed, upper bound, lower bound :",
                   "processing times :", "machines :", True)


def is_like_job_shop(text: str) -> bool:
    return HEAD.match(text) is not None and not is_like_open_shop(text)


def is_like_open_shop(text: str) -> bool:
    return HEAD.match(text) is not None and "processing times" in text.lower()


def read_job_shop(text: str, project: Parts) -> None:
    shop = read(text)
    fill_from_shop(project, shop, len(shop[0]))


def read_open_shop(text: str, project: Parts) -> None:
    shop = read(text)
    fill_from_shop(project, shop, len(shop[0]), is_open=True)


def read(text: str) -> Shop:
    numbers = Reader((line, words) for line, words in lines_of(text) if not re.match(r"\s*[A-Za-z]", words))
    jobs, machines = read_sizes(numbers)
    for name in (*BEFORE[2:], "the upper bound", "the lower bound"):
        numbers.skip(name)
    if not re.search(r"^\s*machines", text, re.I | re.M):
        raise BadInput("there is no section of machines; a flow shop is another problem")
    times = [numbers.row(f"of job {job} time", machines) for job in range(1, jobs + 1)]
    orders = [numbers.row(f"of job {job} machine", machines, 1, machines) for job in range(1, jobs + 1)]
    numbers.must_end()
    twice = next((job for job, order in enumerate(orders, 1) if len({*order}) < machines), None)
    if twice is not None:
        raise BadInput(f"job {twice} has two operations on one machine, and each machine has one of each job")
    return [[Operation(machine - 1, time) for machine, time in zip(order, row)] for order, row in zip(orders, times)]


def bounds(text: str) -> tuple[int, int]:
    """The lower and the upper bound of an instance."""
    numbers = Reader(islice((one for one in lines_of(text) if not re.match(r"\s*[A-Za-z]", one[1])), 1))
    for name in BEFORE:
        numbers.skip(name)
    upper, lower = numbers.take("the upper bound"), numbers.take("the lower bound")
    return lower, upper


def write_job_shop(project: Parts) -> str:
    shop = job_shop_of(project)
    if any(len(row) < len(project.resources) for row in shop):
        raise no_shop("of Taillard's has an operation on each machine in each job")
    return shop_text(shop, JOB_SHOP)


def write_open_shop(project: Parts) -> str:
    return shop_text(open_shop_of(project), OPEN_SHOP)


def shop_text(shop: Shop, layout: Layout) -> str:
    """The text of a shop that no seed is known of."""
    lines = [layout.head, f" {len(shop)} {len(shop[0])} 0 0 0 0", layout.times]
    lines += [" ".join(f"{step.time:2}" for step in row) for row in shop]
    lines += [layout.machines, *(" ".join(f"{step.machine + 1:2}" for step in row) for row in shop)]
    return "\n".join(lines) + "\n"
