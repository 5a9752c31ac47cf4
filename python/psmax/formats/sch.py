"""psmax's own text (`.sch`), after PSPLIB's single-mode files of RCPSP/max."""
import re

from ..clock import Clock
from ..model import Parts
from ..project_text import ProjectText, parse
from ..psmax import Psmax

SUFFIX = ".sch"
HEAD = re.compile(r"\s*\d+[ \t]+\d+[ \t]+0[ \t]+0\s")
CTRL_Z = "\x1a"  # the end of a file to old systems


def is_like(text: str) -> bool:
    return HEAD.match(text) is not None


def read(text: str, project: Parts) -> None:
    """What psmax reads; its fault, if it doesn't. Activities are named by their numbers."""
    data = text.rstrip(" \t\r\n" + CTRL_Z).encode("utf-8", "replace") + b"\n"
    Psmax(Clock(), "the text").earliest_of_text(data)
    numbers = parse(data)
    own = [project.resource(f"R {k}", units) for k, units in enumerate(numbers.capacities, 1)]
    for number in range(1, numbers.end):
        needs = {resource: units for resource, units in zip(own, numbers.demands[number]) if units}
        project.activity(f"{number}", numbers.durations[number], needs)
    points = [project.start, *(activity.start for activity in project.activities), project.end]
    for tail, head, lag in numbers.arcs:
        if lag >= 0:
            project.lag(points[tail], points[head], at_least=lag)
        else:
            project.lag(points[head], points[tail], at_most=-lag)


def write(project: Parts) -> str:
    return ProjectText(project.numbers()).text.decode()
