"""Shops as projects: an operation is an activity, and a machine a resource with one unit. In an open shop each job is a
resource with one unit too, since its operations come in any order."""
from typing import NamedTuple

from ..errors import BadInput
from ..model import Activity, Parts
from ..project import MOST_ACTIVITIES, MOST_RESOURCES
from ..project import Numbers
from .numbers import Reader
from .precedence import plain_numbers

JOB_SHOP = "a job shop"


class Operation(NamedTuple):
    machine: int  # from 0 on
    time: int


Shop = list[list[Operation]]  # a row for each job


def read_sizes(numbers: Reader) -> tuple[int, int]:
    """How many jobs and machines there are."""
    jobs = numbers.take("the number of jobs", 1, MOST_ACTIVITIES)
    return jobs, numbers.take("the number of machines", 1, min(MOST_RESOURCES, MOST_ACTIVITIES // jobs))


def fill_from_shop(project: Parts, shop: Shop, count: int, is_open: bool = False) -> None:
    """Of so many machines."""
    machines = [project.resource(f"machine {number}", 1) for number in range(1, count + 1)]
    owners = [project.resource(f"job {number}", 1) for number in range(1, len(shop) + 1)] if is_open else []
    for job, row in enumerate(shop, 1):
        before: Activity | None = None
        for place, (machine, time) in enumerate(row, 1):
            needs = {machines[machine]: 1} | ({owners[job - 1]: 1} if is_open else {})
            made = project.activity(f"job {job}, operation {place}", time, needs)
            if before is not None and not is_open:
                project.lag(before.end, made.start, at_least=0)
            before = made


def job_shop_of(project: Parts) -> Shop:
    """The project as a job shop, in which each job has an operation at most on each machine."""
    numbers = plain_numbers(project, JOB_SHOP)
    after: dict[int, int] = {}
    for tail, head, lag in numbers.arcs:
        if lag != numbers.durations[tail] or not 0 < tail < numbers.end or not 0 < head < numbers.end or tail in after:
            raise no_shop("has one lag at most from the end of an operation to the start of another one")
        after[tail] = head
    if len({*after.values()}) != len(after):
        raise no_shop("has one lag at most to an operation")
    rows = [follow_job(first, after) for first in range(1, numbers.end) if first not in after.values()]
    shop = [[Operation(machine_of(numbers, one), numbers.durations[one]) for one in row] for row in rows]
    is_whole = sum(map(len, rows)) == numbers.end - 1 > 0
    if not is_whole or any(len({one.machine for one in row}) < len(row) for row in shop):
        raise no_shop("has an operation at most on each machine in each job")
    return shop


def follow_job(first: int, after: dict[int, int]) -> list[int]:
    row = [first]
    while row[-1] in after:
        row.append(after[row[-1]])
    return row


def machine_of(numbers: Numbers, activity: int) -> int:
    """The one resource that an activity needs, one unit of it, which is all there is."""
    needs = [k for k, units in enumerate(numbers.demands[activity]) if units]
    if len(needs) != 1 or numbers.demands[activity][needs[0]] != 1 or numbers.capacities[needs[0]] != 1:
        raise no_shop("has operations that need one machine each, of which there is one")
    return needs[0]


def open_shop_of(project: Parts) -> Shop:
    """The project as an open shop, whose first resources are the machines and whose others are the jobs. Each job has
    an operation on each machine."""
    numbers = plain_numbers(project, "an open shop")
    resources = len(numbers.capacities)
    for machines in range(1, resources):
        found = {(job - machines, machine) for machine, job in pairs(numbers, machines)}
        if len(found) == numbers.end - 1 == machines * (resources - machines):
            break
    else:
        raise no_shop("has an operation on each machine for each job", "an open shop")
    if numbers.arcs or {*numbers.capacities} != {1}:
        raise no_shop("has no lags, and one unit of each resource", "an open shop")
    shop: Shop = [[] for _ in range(resources - machines)]
    for activity, (machine, job) in enumerate(pairs(numbers, machines), 1):
        shop[job - machines].append(Operation(machine, numbers.durations[activity]))
    return shop


def pairs(numbers: Numbers, machines: int) -> list[tuple[int, int]]:
    """The machine and the job of each activity, where the first resources are the machines; empty where one has other
    needs."""
    found = []
    for row in numbers.demands[1:-1]:
        needs = [k for k, units in enumerate(row) if units]
        if len(needs) != 2 or {row[k] for k in needs} != {1} or not needs[0] < machines <= needs[1]:
            return []
        found.append((needs[0], needs[1]))
    return found


def no_shop(why: str, name: str = JOB_SHOP) -> BadInput:
    return BadInput(f"{name} {why}; write this project as .sch or JSON")
