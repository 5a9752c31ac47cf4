"""Projects whose lags are precedences: an activity starts no sooner than another one ends (RCPSP). The texts of such
projects number their activities from 1 on, with the start first and the end last."""
from collections.abc import Sequence
from dataclasses import dataclass

from ..errors import BadInput
from ..model import Parts
from ..project import MOST_ACTIVITIES
from ..project import Numbers

MOST_JOBS = MOST_ACTIVITIES + 2  # with the start and the end


@dataclass
class Jobs:
    """The activities of a text with its start and its end, each list by their numbers."""

    durations: list[int]
    demands: list[list[int]]
    successors: list[list[int]]  # which are numbers of the text

    def fill(self, project: Parts, capacities: Sequence[int]) -> None:
        """Makes this the project. Precedences of its start and of its end hold of themselves."""
        last = len(self.durations)
        for number in (1, last):
            if self.durations[number - 1] or any(self.demands[number - 1]):
                raise BadInput(f"job {number}: the {'start' if number == 1 else 'end'} takes time or resources")
        own = [project.resource(f"R {k}", units) for k, units in enumerate(capacities, 1)]
        for number in range(2, last):
            needs = {resource: units for resource, units in zip(own, self.demands[number - 1]) if units}
            project.activity(f"job {number}", self.durations[number - 1], needs)
        for number, heads in enumerate(self.successors, 1):
            for head in heads:
                if 1 < number < last and 1 < head < last:
                    project.lag(project[f"job {number}"].end, project[f"job {head}"].start, at_least=0)


def jobs_of(project: Parts, name: str) -> tuple[Numbers, Jobs]:
    """The project as numbers, and as a text of this format has it. A project with other lags has no such text."""
    numbers = plain_numbers(project, name)
    last, successors = numbers.end, [[] for _ in range(numbers.end + 1)]  # type: tuple[int, list[list[int]]]
    for tail, head, lag in numbers.arcs:
        is_implied = tail == 0 and lag == 0 or head == last and lag == numbers.durations[tail]
        if not is_implied and (lag != numbers.durations[tail] or tail == last or head == 0):
            raise BadInput(f"{name} has no maximum lags, and of minimum lags those alone after which an activity "
                           "starts when another one ends; write this project as .sch or JSON")
        if 0 < tail and head < last and head not in successors[tail]:
            successors[tail].append(head)
    late = {head for heads in successors for head in heads}
    successors[0] = [number for number in range(1, last) if number not in late] or [last]
    for number in range(1, last):
        successors[number] = successors[number] or [last]
    texts = [[head + 1 for head in heads] for heads in successors]
    return numbers, Jobs([*numbers.durations], [[*row] for row in numbers.demands], texts)


def plain_numbers(project: Parts, name: str) -> Numbers:
    """The project as numbers, if it has nothing but activities, resources and lags."""
    numbers = project.numbers()
    if numbers.absences or numbers.due:
        raise BadInput(f"{name} has no absences and no due dates; write this project as JSON")
    return numbers
