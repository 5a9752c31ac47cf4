#!/usr/bin/env python3
"""Checks a record of a search against a project, as docs/RECORD.md says, and shares nothing with psmax.

    verify.py PROJECT.sch RECORD

Prints `proved optimal C` or `proved no schedule`; else, on standard error, the first fault as psmax names it,
with exit status 2 for a text that is no record and 4 for a record that is not right. The project's text is taken
to be right.
"""

import functools
import itertools
import os
import re
import sys
from collections.abc import Callable, Sequence

Rows = list[list[int]]  # the greatest weights of walks between any two activities
TreeLine = tuple[int, str, list[int]]  # a line's number, kind and numbers
MAX_BYTES = 268_435_456
NUMBER = re.compile(rb"0|[1-9][0-9]{0,9}")
# No walk: below any sum of weights. What is less than half of it is no walk either.
NONE = -(10**18)
LOW = NONE // 2


class Fault(Exception):
    def __init__(self, line: int, why: str, status: int) -> None:
        super().__init__(why if line == 0 else f"line {line}: {why}")
        self.status = status


# ---- the project


class Project:
    """Durations, demands by activity, capacities, and all arcs, those of the start and the end among them."""

    def __init__(self, text: bytes) -> None:
        words = iter(int(word) for word in re.split(rb"[ \t\r\n\[\]]+", text) if word)
        count, resources = next(words) + 2, next(words)
        next(words), next(words)
        self.arcs: list[tuple[int, int, int]] = []
        for activity in range(count):
            next(words), next(words)
            ends = [next(words) for _ in range(next(words))]
            self.arcs += [(activity, end, next(words)) for end in ends]
        rows = [[next(words) for _ in range(3 + resources)] for _ in range(count)]
        self.durations, self.demands = [row[2] for row in rows], [row[3:] for row in rows]
        self.capacities = [next(words) for _ in range(resources)]
        self.count, self.end = count, count - 1
        self.arcs += [(0, activity, 0) for activity in range(1, count)]
        self.arcs += [(activity, self.end, self.durations[activity]) for activity in range(self.end)]

    def takes_time(self, activity: int) -> bool:
        return activity < self.count and self.durations[activity] > 0

    def exceeds(self, resource: int, activities: Sequence[int]) -> bool:
        return sum(self.demands[i][resource] for i in activities) > self.capacities[resource]

    @functools.cached_property
    def rivals(self) -> set[tuple[int, int]]:
        """Two activities, the lesser first, that take time and together need more of a resource than there is."""
        running = [i for i in range(self.count) if self.durations[i] > 0]
        return {pair for pair in itertools.combinations(running, 2)
                if any(self.exceeds(k, pair) for k in range(len(self.capacities)))}

    def is_feasible(self, starts: Sequence[int]) -> bool:
        if len(starts) != self.count or starts[0] != 0:
            return False
        if any(starts[a] + weight > starts[b] for a, b, weight in self.arcs):
            return False
        for time in set(starts):
            running = [i for i in range(self.count) if starts[i] <= time < starts[i] + self.durations[i]]
            if any(self.exceeds(k, running) for k in range(len(self.capacities))):
                return False
        return True


# ---- the record's text


def numbers(row: bytes, word: bytes) -> list[int] | None:
    """The numbers after a word, or None where the row is another."""
    fields = row.split(b" ")
    if fields[0] != word or not all(NUMBER.fullmatch(field) for field in fields[1:]):
        return None
    return [int(field) for field in fields[1:]]


def tree_line(row: bytes) -> tuple[str, list[int]] | None:
    """The kind of a line of the tree and its numbers, or None."""
    if row in (b"solved", b"cut", b"dead"):
        return row.decode(), []
    found = numbers(row, b"force")
    if found is not None and len(found) == 2:
        return "force", found
    found = numbers(row, b"split")
    if found is not None and len(found) >= 2:
        return "split", found
    return None


def read_record(text: bytes) -> tuple[int | None, list[int], list[TreeLine]]:
    """The makespan that is claimed (None: no schedule), the starts, and the tree's lines with their numbers."""
    if len(text) > MAX_BYTES:
        raise Fault(0, "too long", 2)
    *rows, tail = text.split(b"\n")

    def row(line: int) -> bytes:
        if line > len(rows):
            raise Fault(line, "form" if tail else "short", 2)
        return rows[line - 1]

    if row(1) != b"record 1":
        raise Fault(1, "form", 2)
    makespan, starts, line = None, [], 3
    if row(2) != b"no schedule":
        claimed = numbers(row(2), b"optimal")
        if claimed is None or len(claimed) != 1:
            raise Fault(2, "form", 2)
        makespan, starts, line = claimed[0], numbers(row(3), b"starts") or [], 4
        if not starts:
            raise Fault(3, "form", 2)
    tree: list[TreeLine] = []
    due = 1
    while due > 0:
        found = tree_line(row(line))
        if found is None:
            raise Fault(line, "form", 2)
        kind, fields = found
        if kind == "split":
            members = len(fields) - 1
            due += members * (members - 1)
        if kind != "force":
            due -= 1
        tree.append((line, kind, fields))
        line += 1
    if line <= len(rows) or tail:
        raise Fault(line, "trailing", 2)
    return makespan, starts, tree


# ---- greatest weights of walks


def root_matrix(project: Project) -> Rows | None:
    """The greatest weights of walks over the project's arcs, or None where a closed walk is positive."""
    size = range(project.count)
    rows = [[0 if a == b else NONE for b in size] for a in size]
    for a, b, weight in project.arcs:
        rows[a][b] = max(rows[a][b], weight)
    for via in size:
        if rows[via][via] > 0:
            return None
        for row in rows:
            if row[via] > LOW:
                first = row[via]
                for b, last in enumerate(rows[via]):
                    if last > LOW and first + last > row[b]:
                        row[b] = first + last
    return rows


def with_pair(project: Project, rows: Rows | None, pair: Sequence[int]) -> Rows | None:
    """The weights with the arc of one pair more, or None. Rows that stay are shared."""
    if rows is None:
        return None
    before, after = pair
    weight = project.durations[before]
    if rows[after][before] > LOW and rows[after][before] + weight > 0:
        return None
    if rows[before][after] >= weight:
        return rows
    ways = rows[after]
    made = []
    for row in rows:
        first = row[before]
        if first > LOW and first + weight > row[after]:
            first += weight
            row = [first + last if last > LOW and first + last > old else old for old, last in zip(row, ways)]
        made.append(row)
    return made


def bound(project: Project, rows: Rows) -> int:
    """The greatest of the critical weight and all numbers a + b + ceil(W / R)."""
    best = rows[0][project.end]
    for resource, capacity in enumerate(project.capacities):
        if capacity == 0:
            continue
        tasks = []
        for i, duration in enumerate(project.durations):
            work = duration * project.demands[i][resource]
            if work > 0:
                tasks.append((rows[0][i], rows[i][project.end] - duration, work))
        tasks.sort(reverse=True)
        for least_tail in {tail for _, tail, _ in tasks}:
            total = 0
            for head, tail, work in tasks:
                if tail >= least_tail:
                    total += work
                    best = max(best, head + least_tail - (-total // capacity))
    return best


# ---- each line


def is_forced(project: Project, rows: Rows, pair: Sequence[int]) -> bool:
    before, after = pair
    if (min(pair), max(pair)) not in project.rivals:
        return False
    return rows[before][after] > LOW and rows[before][after] > -project.durations[after]


def is_right_set(project: Project, resource: int, members: Sequence[int]) -> bool:
    if resource >= len(project.capacities):
        return False
    if any(a >= b for a, b in zip(members, members[1:])):
        return False
    return all(map(project.takes_time, members)) and project.exceeds(resource, members)


def is_right(project: Project, rows: Rows | None, makespan: int | None, kind: str, fields: list[int]) -> bool:
    """Whether a line is right in a node with these weights, None for a dead one."""
    if rows is None or kind == "dead":
        return rows is None and kind == "dead"
    if kind == "force":
        return is_forced(project, rows, fields)
    if kind == "split":
        return is_right_set(project, fields[0], fields[1:])
    if makespan is None:
        return False
    if kind == "cut":
        return bound(project, rows) >= makespan
    return rows[0][project.end] >= makespan and project.is_feasible(rows[0])


WHY = {"force": "force", "split": "set", "solved": "leaf", "cut": "leaf", "dead": "leaf"}


def verify(project: Project, makespan: int | None, starts: Sequence[int], tree: Sequence[TreeLine]) -> str:
    if makespan is not None and not (project.is_feasible(starts) and starts[-1] == makespan):
        raise Fault(3, "start", 4)
    # The nodes that are due: the weights of the node above, and the pair that is added, the next node last.
    due: list[tuple[Rows | None, Sequence[int] | None]] = [(root_matrix(project), None)]
    for line, kind, fields in tree:
        rows, pair = due.pop()
        if pair is not None:
            rows = with_pair(project, rows, pair)
        if not is_right(project, rows, makespan, kind, fields):
            raise Fault(line, WHY[kind], 4)
        if kind == "force":
            due.append((rows, fields))
        elif kind == "split":
            members = fields[1:]
            pairs = [(i, j) for i in members for j in members if i != j]
            due.extend((rows, pair) for pair in reversed(pairs))
    return "proved no schedule" if makespan is None else f"proved optimal {makespan}"


def read(path: str) -> bytes:
    try:
        with open(path, "rb") as file:
            return file.read()
    except OSError as fault:
        raise Fault(0, f"cannot read {path}: {fault.strerror}", 1) from None


def read_project(path: str) -> Project:
    text = read(path)
    try:
        project = Project(text)
        if all(0 <= end < project.count for _, end, _ in project.arcs):
            return project
    except (ValueError, StopIteration):
        pass
    raise Fault(0, f"{path}: not a project", 2)


def status_of(program: str, action: Callable[[], None]) -> int:
    """Does this, and prints a fault as the program names it; the exit status."""
    try:
        action()
    except Fault as fault:
        print(f"{program}: {fault}", file=sys.stderr)
        return fault.status
    except (MemoryError, BrokenPipeError, KeyboardInterrupt) as fault:
        os.dup2(os.open(os.devnull, os.O_WRONLY), 1)
        print(f"{program}: ended by {type(fault).__name__}", file=sys.stderr)
        return 1
    return 0


def run(program: str, words: Sequence[str], verdict: Callable[[Project, bytes], str]) -> int:
    """Prints the verdict on PROJECT.sch and RECORD, or the fault; the exit status."""
    def judge() -> None:
        if len(words) != 2:
            raise Fault(0, f"the words are {os.path.basename(sys.argv[0])} PROJECT.sch RECORD", 2)
        print(verdict(read_project(words[0]), read(words[1])), flush=True)

    return status_of(program, judge)


if __name__ == "__main__":
    sys.exit(run("psmax", sys.argv[1:], lambda project, text: verify(project, *read_record(text))))
