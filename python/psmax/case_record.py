"""A record of cases: a first line, a line of JSON with the best schedule and the tree of cases, and the records of its
leaves one after another. Nothing in it is believed: each case is derived from the project again, a program judges its
record, and psmax the schedule."""
import json
import math
from collections.abc import Sequence
from dataclasses import dataclass

from .cases import Case, ordinary
from .project import MOST_UNITS, Arc, Numbers
from .record_file import RecordFile, new_file

BEGIN = b"record cases 1\n"


def record_of(root: Case, starts: Sequence[int] | None, folder: str | None) -> RecordFile | None:
    """A file in this folder; none where some case has no record."""
    records = [leaf.record for leaf in root.leaves()]
    if None in records:
        return None
    head = json.dumps({"cases": [*map(node_of, root.all())], "starts": None if starts is None else [*starts]})
    made = new_file(folder)
    with open(made.path, "wb") as file:
        file.write(BEGIN + head.encode() + b"\n")
        file.writelines(part for record in records if record is not None for part in record.chunks())
    return made


def node_of(case: Case) -> dict[str, int | None]:
    """Of a case that was split: its lag, and the time. Of a leaf: how many bytes its record has, and up to which
    schedules."""
    if case.split is not None:
        return {"lag": case.split[0], "time": case.split[1]}
    return {"bytes": 0 if case.record is None else case.record.size(), "ceiling": case.ceiling}


@dataclass(frozen=True)
class Leaf:
    arcs: tuple[Arc, ...]
    ceiling: int | None
    record: bytes

    def ordinary(self, project: Numbers) -> Numbers:
        return ordinary(project, self.arcs, self.ceiling)

    def bound(self, proved: int | None) -> float:
        """Of its case, by the bound of its record, which has none where there is no schedule up to the ceiling."""
        if proved is not None:
            return proved
        return math.inf if self.ceiling is None else self.ceiling + 1


def read_cases(data: bytes, project: Numbers) -> tuple[list[Leaf], tuple[int, ...] | None]:
    """The leaves, which have all schedules of the project between them, and the best schedule. What is no record of
    cases raises one of `ODD`."""
    head, _, records = data.removeprefix(BEGIN).partition(b"\n")
    told = json.loads(head)
    waiting, leaves, place = [tuple[Arc, ...]()], list[Leaf](), 0
    for node in told["cases"]:
        arcs = waiting.pop()
        if "lag" in node:
            cases = project.dated[natural(node["lag"])].split(natural(node["time"]))
            waiting += [(*arcs, *more) for more in reversed(cases)]
        else:
            end, ceiling = place + natural(node["bytes"]), node["ceiling"]
            leaves.append(Leaf(arcs, None if ceiling is None else read_whole(ceiling), records[place:end]))
            place = end
    starts = None if told["starts"] is None else tuple(map(read_whole, told["starts"]))
    is_whole = data.startswith(BEGIN) and not waiting and place == len(records)
    if not is_whole or len(starts or project.durations) != project.end + 1:
        raise ValueError
    return leaves, starts


def read_whole(number: object) -> int:
    if type(number) is not int or abs(number) > MOST_UNITS:
        raise ValueError
    return number


def natural(number: object) -> int:
    found = read_whole(number)
    if found < 0:
        raise ValueError
    return found
