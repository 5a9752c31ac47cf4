"""What the lines of a record say of all feasible schedules of a small project, event by event and line by line. No line
of a proof is looked at here, only what is said: a lemma, a node that is cut, a bound. A checker that accepts what is
false of the schedules is wrong, whatever stands in the record."""
import itertools
from collections.abc import Iterator, Sequence

from all_schedules import Schedules
from log_bytes import number_at, numbers_of
from verify_log import SLOTS, TITLE, Arc

Node = int  # a set of schedules
CLAIMS = ["optimal", "bound", "no"]


def unzigzag(value: int) -> int:
    return -1 - value // 2 if value % 2 else value // 2


class Numbers:
    """The numbers of an event, read one after another."""

    def __init__(self, body: bytes) -> None:
        self.rest = iter(numbers_of(body))

    def next(self) -> int:
        return next(self.rest)

    def arc(self) -> Arc:
        at, kind = divmod(self.next(), 3)
        if kind == 2:
            return at, self.next(), unzigzag(self.next())
        return (at, 0, -unzigzag(self.next())) if kind else (0, at, unzigzag(self.next()))


class Log:
    """What the events of a log say that were accepted so far."""

    def __init__(self, schedules: Schedules) -> None:
        self.schedules, self.best = schedules, False
        self.ceiling, self.lemmas = schedules.horizon + 1, set[int]()

    def in_question(self) -> Node:
        return self.schedules.shorter(self.ceiling)

    def lemma(self, slot: int, arcs: Sequence[Arc]) -> str | None:
        meet = self.in_question()
        for arc in arcs:
            meet &= self.schedules.meeting(*arc)
        if meet:
            return f"{self.schedules.one_of(meet)} meets all arcs of a lemma: {arcs}"
        if len(arcs) > 1 and (slot >= SLOTS or slot in self.lemmas):
            return f"a lemma is in slot {slot}, which is not free"
        self.lemmas |= {slot} if len(arcs) > 1 else set()
        return None

    def drop(self, slot: int) -> str | None:
        if slot not in self.lemmas:
            return f"slot {slot} is emptied, which is empty"
        self.lemmas.remove(slot)
        return None

    def schedule(self, starts: Sequence[int]) -> str | None:
        if not self.schedules.are_feasible(starts) or starts[-1] >= self.ceiling:
            return f"{starts} are no feasible schedule below {self.ceiling}"
        self.best, self.ceiling = True, starts[-1]
        return None

    def event(self, body: bytes) -> str | None:
        """What is false of an event that was accepted."""
        numbers = Numbers(body)
        at, kind = divmod(numbers.next(), 4)
        if kind == 0:
            return self.lemma(at, [numbers.arc() for _ in range(numbers.next())])
        if kind == 1:
            return self.drop(at)
        if kind == 2:
            return self.schedule([unzigzag(numbers.next()) for _ in range(at)])
        value = "schedule" if at == 2 else f"{unzigzag(numbers.next())}"
        return falsehood_of_claim(self.schedules, f"proved {CLAIMS[at]} {value}")


def events_of(log: bytes) -> Iterator[bytes]:
    """The events of a log that are whole, without the numbers of their bytes."""
    at = len(TITLE)
    while at < len(log):
        size, at = number_at(log, at)
        if log[at - 1] < 128 and at + size <= len(log):
            yield log[at:at + size]
        at += size


def falsehood_of_log(schedules: Schedules, log: bytes, accepted: int | None) -> str | None:
    """What is false among the first so many events, or None."""
    said = Log(schedules)
    for number, body in enumerate(itertools.islice(events_of(log), accepted), 1):
        false = said.event(body)
        if false:
            return f"event {number} is accepted, and {false}"
    return None


def falsehood_of_claim(schedules: Schedules, claim: str) -> str | None:
    """What is false of a line of a checker: `proved optimal C`, `proved bound B`, `proved no schedule`."""
    _, kind, number = claim.split()
    shortest = schedules.shortest
    if kind == "bound":
        is_true = shortest is None or int(number) <= shortest
    else:
        is_true = (number if kind == "optimal" else None) == (None if shortest is None else str(shortest))
    return None if is_true else f"`{claim}` is printed, and a shortest schedule has {shortest}"


class Tree:
    """What the lines of a tree say that were accepted so far: the nodes that are due, the next one last."""

    def __init__(self, schedules: Schedules, makespan: int | None) -> None:
        self.schedules, self.due = schedules, [schedules.all]
        self.shorter = schedules.all if makespan is None else schedules.shorter(makespan)

    def leaf(self, kind: str, node: Node) -> str | None:
        lost = node if kind == "dead" else node & self.shorter
        return f"{self.schedules.one_of(lost)} is lost" if lost else None

    def force(self, node: Node, before: int, after: int) -> str | None:
        kept = node & self.schedules.keeping(before, after)
        self.due.append(kept)
        return None if kept == node else f"{self.schedules.one_of(node & ~kept)} does not keep the pair"

    def split(self, node: Node, members: Sequence[int]) -> str | None:
        children = [node & self.schedules.keeping(i, j) for i in members for j in members if i != j]
        self.due += reversed(children)
        for child in children:
            node &= ~child
        return f"{self.schedules.one_of(node)} keeps none of the pairs" if node else None

    def line(self, text: str) -> str | None:
        kind, *fields = text.split()
        node, numbers = self.due.pop(), list(map(int, fields))
        if kind == "force":
            return self.force(node, *numbers)
        return self.split(node, numbers[1:]) if kind == "split" else self.leaf(kind, node)


def falsehood_of_record(schedules: Schedules, record: bytes, accepted: int | None) -> str | None:
    """What is false among the first so many lines of a record whose text is right, or None."""
    lines = record.decode().splitlines()[:accepted]
    makespan, begin = None, 2
    if lines[1:2] != ["no schedule"] and len(lines) > 2:
        makespan, begin = int(lines[1].split()[1]), 3
        starts = list(map(int, lines[2].split()[1:]))
        if starts[-1] != makespan or not schedules.are_feasible(starts):
            return f"{starts} are no feasible schedule of {makespan}"
    said = Tree(schedules, makespan)
    for number, line in enumerate(lines[begin:], begin + 1):
        false = said.line(line)
        if false:
            return f"line {number} is accepted, and {false}"
    return None
