#!/usr/bin/env python3
"""Checks a log of lemmas against a project, as docs/LEMMAS.md says, and shares nothing with psprove.

    verify_log.py PROJECT.sch [--partial] < LOG

Prints what is proved; else, on standard error, the first fault as psprove names it, with exit status 4. Events count
from 1, and the title is event 0. With --partial a log that is cut proves what holds there. The project's text is taken
to be right. The log is read event by event: only the lemmas that are live are kept.
"""
import argparse
import itertools
import sys
from collections.abc import Callable, Iterable, Iterator, Sequence
from typing import BinaryIO, NamedTuple

from verify import Fault, Project, Rows, read_project, root_matrix, status_of

TITLE = b"record 3\n"
MAX_DIGITS = 9  # bytes of a number
MAX_WEIGHT = 1_002_000_000  # of an arc, and of its negative
MAX_TIME = 9_999_999_999  # of an end of a window, and of its negative
SLOTS = 1_048_576
MAX_ARCS = 1_024  # of a lemma
MAX_BYTES = 1_048_576  # of a lemma's event, without the number of them
PIECE = 65_536  # bytes that are read at a time
Arc = tuple[int, int, int]
Weight = Callable[[int, int], int]  # an entry of a block's weights


class Load(NamedTuple):
    resource: int
    start: int
    end: int


class Clique(NamedTuple):
    start: int
    end: int
    members: list[int]


class Interval(NamedTuple):
    activity: int
    at: int  # periods from its start on until the interval begins
    length: int

    @property
    def end(self) -> int:
        return self.at + self.length


class Tour(NamedTuple):
    start: int
    end: int
    intervals: list[Interval]


Over = Load | Clique | Tour


class Use(NamedTuple):
    slot: int


class Force(NamedTuple):
    before: int
    after: int


class Push(NamedTuple):
    over: Over
    arc: Arc | None


class Lemma(NamedTuple):
    slot: int
    arcs: list[Arc]
    lines: list[Use | Force | Push]


class Drop(NamedTuple):
    slot: int


class Schedule(NamedTuple):
    starts: list[int]


class Claim(NamedTuple):
    said: str


Line = Use | Force | Push
Event = Lemma | Drop | Schedule | Claim


# ---- the log's bytes


class Form(Exception):
    """Bytes that are no event."""


class Long(Form):
    """The bytes of a lemma of more arcs or bytes than it may have."""


class LogFault(Fault):
    def __init__(self, event: int, why: str) -> None:
        super().__init__(0, f"event {event}: {why}", 4)
        self.is_cut = why == "short"


def number_of(next_byte: Callable[[], int]) -> int:
    """A number of 7 bits a byte, lowest first; all bytes but the last are 128 or more."""
    value = 0
    for place in range(MAX_DIGITS):
        byte = next_byte()
        value += byte % 128 << 7 * place
        if byte < 128:
            return value
    raise Form


class Body:
    """An event's bytes, without the number of them."""

    def __init__(self, data: bytes) -> None:
        self.data, self.at = data, 0

    def is_left(self) -> bool:
        return self.at < len(self.data)

    def byte(self) -> int:
        if not self.is_left():
            raise Form
        self.at += 1
        return self.data[self.at - 1]

    def number(self) -> int:
        return number_of(self.byte)

    def signed(self) -> int:
        half, odd = divmod(self.number(), 2)
        return -1 - half if odd else half

    def arc(self) -> Arc:
        at, kind = divmod(self.number(), 3)
        if kind == 0:
            return 0, at, self.signed()
        if kind == 1:
            return at, 0, -self.signed()
        return at, self.number(), self.signed()

    def window(self, is_short: bool = False) -> tuple[int, int]:
        start = self.signed()
        return start, start + (1 if is_short else self.signed())

    def over(self, kind: int, at: int) -> Load | Clique:
        if kind in (2, 3, 4):
            return Load(at, *self.window(kind == 3))
        if kind in (5, 6):
            return Clique(*self.window(), [self.number() for _ in range(at)])
        raise Form

    def tour(self, count: int) -> Push:
        window, shows = self.window(), self.number()
        if shows > 1:
            raise Form
        intervals = [Interval(self.number(), self.signed(), self.number()) for _ in range(count)]
        return Push(Tour(*window, intervals), self.arc() if shows else None)

    def line(self) -> Line:
        at, kind = divmod(self.number(), 8)
        if kind == 7:
            return self.tour(at)
        if kind == 0:
            return Use(at)
        if kind == 1:
            return Force(at, self.number())
        return Push(self.over(kind, at), None if kind in (2, 5) else self.arc())

    def lemma(self, slot: int) -> Lemma:
        if len(self.data) > MAX_BYTES:
            raise Long
        count = self.number()
        if count > MAX_ARCS:
            raise Long
        arcs = [self.arc() for _ in range(count)]
        return Lemma(slot, arcs, list(iter(lambda: self.line() if self.is_left() else None, None)))

    def claim(self, kind: int) -> Claim:
        if kind > 2:
            raise Form
        return Claim("no schedule" if kind == 2 else f"{('optimal', 'bound')[kind]} {self.signed()}")

    def event(self) -> Event:
        at, kind = divmod(self.number(), 4)
        if kind == 0:
            return self.lemma(at)
        if kind == 1:
            return Drop(at)
        return Schedule([self.signed() for _ in range(at)]) if kind == 2 else self.claim(at)


class Log:
    """A log that is read event by event."""

    def __init__(self, stream: BinaryIO) -> None:
        self.stream, self.number = stream, 0

    def fault(self, why: str) -> LogFault:
        return LogFault(self.number, why)

    def title(self) -> None:
        read = self.stream.read(len(TITLE))
        if read != TITLE:
            raise self.fault("short" if TITLE.startswith(read) else "form")

    def byte(self) -> int:
        read = self.stream.read(1)
        if not read:
            raise self.fault("short")
        return read[0]

    def bytes(self, count: int) -> bytes:
        """So many bytes. A count may be huge, so no more are asked for than a piece."""
        read = bytearray()
        while piece := self.stream.read(min(count - len(read), PIECE)):
            read += piece
        if len(read) < count:
            raise self.fault("short")
        return bytes(read)

    def event(self) -> Event:
        try:
            body = Body(self.bytes(number_of(self.byte)))
            event = body.event()
            if not body.is_left():
                return event
        except Long:
            raise self.fault("long")
        except Form:
            pass
        raise self.fault("form")

    def events(self) -> Iterator[Event]:
        """All events, of which the last is the claim."""
        self.title()
        for self.number in itertools.count(1):
            event = self.event()
            yield event
            if isinstance(event, Claim):
                break
        self.number += 1
        if self.stream.read(1):
            raise self.fault("trailing")


# ---- greatest weights of walks, by rows; None where a closed walk is positive


def with_arc(rows: Rows | None, arc: Arc) -> Rows | None:
    """The weights with one arc more. Rows that stay are shared, and the old weights stay as they are."""
    i, j, v = arc
    if rows is None or rows[j][i] + v > 0:
        return None
    if rows[i][j] >= v:
        return rows
    ways = rows[j]

    def over(row: list[int]) -> list[int]:
        first = row[i] + v
        return [x if x >= first + y else first + y for x, y in zip(row, ways)] if first > row[j] else row

    return [over(row) for row in rows]


class Root:
    """The weights by the arcs of the root. For a block a row is one whole number, so that Python adds to all entries at
    once, and compares them at once: a digit is an entry plus a middle, which keeps it above 0, and its highest bit, the
    guard, is 0. An entry of a block is the weight of a walk that visits no activity twice, so of fewer than `count`
    arcs of the root and of the block. Digits have room for two such walks."""

    def __init__(self, rows: Rows) -> None:
        self.rows, count = rows, len(rows)
        greatest = max(MAX_WEIGHT, *(max(max(row), -min(row)) for row in rows))
        bits: int = (4 * (count + 1) * greatest).bit_length()
        self.middle, self.width = 1 << bits, bits + 2
        self.digit = 2 * self.middle - 1  # all bits of a digit but the guard
        self.ones = sum(1 << self.width * place for place in range(count))
        self.guards = self.ones << self.width - 1
        self.made: dict[int, int] = {}  # rows as numbers, by activity

    def row(self, a: int) -> int:
        if a not in self.made:
            self.made[a] = sum(weight + self.middle << self.width * b for b, weight in enumerate(self.rows[a]))
        return self.made[a]

    def entry(self, row: int, b: int) -> int:
        return (row >> self.width * b & self.digit) - self.middle

    def greater(self, first: int, other: int) -> int:
        """The greater of both in each digit. A guard outlives the subtraction where the first is not less; less its own
        lowest bit it is a mask of its digit."""
        guards = (first | self.guards) - other & self.guards
        return other ^ (first ^ other) & guards - (guards >> self.width - 1)


def rooted(rows: Rows | None) -> Root | None:
    return None if rows is None else Root(rows)


class Block:
    """The weights by the arcs of the root and those of a block. Few rows are asked for, so each is made when it is."""

    def __init__(self, root: Root) -> None:
        self.root, self.is_dead = root, False
        self.arcs: list[tuple[Arc, int]] = []  # each with the row of its end before it came
        self.rows: dict[int, tuple[int, int]] = {}  # by activity: its row by so many of these arcs

    def row(self, a: int) -> int:
        root, width, digit = self.root, self.root.width, self.root.digit
        row, count = self.rows.get(a, (root.row(a), 0))
        if count == len(self.arcs):
            return row
        for (i, j, v), ways in self.arcs[count:]:
            first = (row >> width * i & digit) + v
            if first > row >> width * j & digit:
                row = root.greater(row, ways + (first - root.middle) * root.ones)
        self.rows[a] = row, len(self.arcs)
        return row

    def weight(self, a: int, b: int) -> int:
        return self.root.entry(self.row(a), b)

    def implies(self, arc: Arc) -> bool:
        i, j, v = arc
        return self.root.rows[i][j] >= v or self.weight(i, j) >= v

    def add(self, arc: Arc) -> None:
        """Adds an arc. The block is dead if that closes a positive walk."""
        i, j, v = arc
        if not self.is_dead and not self.implies(arc):
            self.is_dead = self.weight(j, i) + v > 0
            self.arcs.append((arc, self.row(j)))


def reverse(arc: Arc) -> Arc:
    i, j, v = arc
    return j, i, 1 - v


def with_reverse(block: Block, arc: Arc) -> Weight:
    """An entry of the weights with the arc's reverse, which closes no positive walk."""
    i, j, v = arc
    ways = block.row(i)
    return lambda a, b: max(block.weight(a, b), block.weight(a, j) + 1 - v + block.root.entry(ways, b))


# ---- what a line shows of a block that closes no positive walk, by an entry of its weights


def are_members(project: Project, members: Sequence[int]) -> bool:
    return all(map(project.takes_time, members)) and all(a < b for a, b in zip(members, members[1:]))


def are_rivals(project: Project, *pair: int) -> bool:
    return (min(pair), max(pair)) in project.rivals


def least_part(duration: int, start: int, end: int, head: int, back: int) -> int:
    """How long an activity runs in the window at least, whenever it starts."""
    return max(0, min(duration, end - start, head + duration - start, end + back))


def is_load(project: Project, weight: Weight, resource: int, start: int, end: int) -> bool:
    if resource >= len(project.capacities) or start >= end:
        return False
    asking = [i for i in range(project.count) if project.demands[i][resource] > 0]
    parts = [least_part(project.durations[i], start, end, weight(0, i), weight(i, 0)) for i in asking]
    load = sum(part * project.demands[i][resource] for part, i in zip(parts, asking))
    return load > project.capacities[resource] * (end - start)


def run_apart(project: Project, weight: Weight, a: int, b: int) -> bool:
    if are_rivals(project, a, b):
        return True
    return weight(a, b) >= project.durations[a] or weight(b, a) >= project.durations[b]


def is_clique(project: Project, weight: Weight, start: int, end: int, members: Sequence[int]) -> bool:
    if len(members) < 2 or not are_members(project, members):
        return False
    lengths = [project.durations[i] for i in members]
    inside = all(weight(0, i) >= start and weight(i, 0) >= p - end for i, p in zip(members, lengths))
    if sum(lengths) <= end - start or not inside:
        return False
    return all(run_apart(project, weight, a, b) for a, b in itertools.combinations(members, 2))


class Delays:
    """By two activities and by the slot of a lemma: how long the second starts after the first, or else the first after
    the second."""

    def __init__(self) -> None:
        self.by_slot: dict[tuple[int, int], dict[int, tuple[int, int]]] = {}

    def put(self, slot: int, arcs: Sequence[Arc]) -> None:
        """A lemma of two arcs, one each way, says delays."""
        if len(arcs) == 2 and arcs[0][:2] == arcs[1][1::-1]:
            (i, j, there), (_, _, back) = arcs
            self.by_slot.setdefault((j, i), {})[slot] = 1 - there, 1 - back
            self.by_slot.setdefault((i, j), {})[slot] = 1 - back, 1 - there

    def drop(self, slot: int, arcs: Sequence[Arc]) -> None:
        for i, j, _ in arcs:
            self.by_slot.get((i, j), {}).pop(slot, None)

    def are(self, pair: tuple[int, int], there: int, back: int) -> bool:
        """Whether one lemma says at least these."""
        return any(there <= first and back <= second for first, second in self.by_slot.get(pair, {}).values())


def lie_apart(weight: Weight, delays: Delays, m: Interval, k: Interval) -> bool:
    there, back = m.end - k.at, k.end - m.at
    ordered = weight(m.activity, k.activity) >= there or weight(k.activity, m.activity) >= back
    return ordered or delays.are((m.activity, k.activity), there, back)


def is_interval(project: Project, interval: Interval) -> bool:
    return interval.activity < project.count and max(abs(interval.at), interval.length) <= MAX_WEIGHT


def is_tour(project: Project, weight: Weight, delays: Delays, tour: Tour) -> bool:
    start, end, intervals = tour
    rise = all(m.activity < k.activity for m, k in zip(intervals, intervals[1:]))
    if not intervals or not rise or not all(is_interval(project, m) for m in intervals):
        return False
    inside = all(weight(0, m.activity) >= start - m.at and weight(m.activity, 0) >= m.end - end for m in intervals)
    if sum(m.length for m in intervals) <= end - start or not inside:
        return False
    return all(lie_apart(weight, delays, m, k) for m, k in itertools.combinations(intervals, 2))


def is_overload(project: Project, weight: Weight, delays: Delays, over: Over) -> bool:
    if max(abs(over.start), abs(over.end)) > MAX_TIME:
        return False
    match over:
        case Load():
            return is_load(project, weight, *over)
        case Clique():
            return is_clique(project, weight, *over)
        case Tour():
            return is_tour(project, weight, delays, over)


def asks_too_much(project: Project) -> bool:
    """Whether an activity alone asks for more of a resource than there is."""
    takes_time = filter(project.takes_time, range(project.count))
    return any(project.exceeds(k, (i,)) for i in takes_time for k in range(len(project.capacities)))


def is_arc(project: Project, arc: Arc) -> bool:
    return max(arc[:2]) < project.count and abs(arc[2]) <= MAX_WEIGHT


class Ledger:
    """What is proved: the length of the best schedule, the weights by the arcs of the root, and lemmas by slots."""

    def __init__(self, project: Project) -> None:
        self.project, self.best = project, False
        stretches = list(project.durations)
        for activity, _, lag in project.arcs:
            stretches[activity] = max(stretches[activity], lag)
        self.ceiling = sum(stretches) + 1
        self.root = None if asks_too_much(project) else rooted(with_arc(root_matrix(project), self.deadline()))
        self.lemmas: dict[int, list[Arc]] = {}
        self.delays = Delays()

    @property
    def rows(self) -> Rows | None:
        return None if self.root is None else self.root.rows

    def deadline(self) -> Arc:
        return self.project.end, 0, 1 - self.ceiling

    def used(self, block: Block, slot: int) -> Arc | None:
        """The reverse of the arc that a lemma leaves, if all others are implied."""
        if slot not in self.lemmas:
            return None
        lemma = self.lemmas[slot]
        left = list(itertools.islice(itertools.filterfalse(block.implies, lemma), 2))
        return None if len(left) > 1 else reverse((left or lemma)[0])

    def forced(self, block: Block, a: int, b: int) -> Arc | None:
        is_forced = are_rivals(self.project, a, b) and block.weight(a, b) > -self.project.durations[b]
        return (a, b, self.project.durations[a]) if is_forced else None

    def pushed(self, block: Block, over: Over, arc: Arc | None) -> Arc | None:
        if arc is None:
            return (0, 0, 1) if is_overload(self.project, block.weight, self.delays, over) else None
        if not is_arc(self.project, arc):
            return None
        is_implied = block.implies(arc)
        return arc if is_implied or is_overload(self.project, with_reverse(block, arc), self.delays, over) else None

    def shown(self, block: Block, line: Line) -> Arc | None:
        """The arc that the line shows, which is met by each schedule in question that meets those of the block."""
        match line:
            case Use(slot):
                return self.used(block, slot)
            case Force(before, after):
                return self.forced(block, before, after)
            case Push(over, arc):
                return self.pushed(block, over, arc)

    def is_refuted(self, arcs: Iterable[Arc], lines: Iterable[Line]) -> bool:
        """Whether lines show that no schedule in question meets all these arcs."""
        if self.root is None:
            return True
        block = Block(self.root)
        for arc in arcs:
            block.add(arc)
        for line in lines:
            if block.is_dead:
                return True
            shown = self.shown(block, line)
            if shown is None:
                return False
            block.add(shown)
        return block.is_dead

    def lemma(self, slot: int, arcs: list[Arc], lines: Iterable[Line]) -> bool:
        has_room = len(arcs) < 2 or slot < SLOTS and slot not in self.lemmas
        if not has_room or not all(is_arc(self.project, arc) for arc in arcs) or not self.is_refuted(arcs, lines):
            return False
        if len(arcs) < 2:
            self.root = rooted(with_arc(self.rows, reverse(arcs[0]))) if arcs else None
        else:
            self.lemmas[slot] = arcs
            self.delays.put(slot, arcs)
        return True

    def drop(self, slot: int) -> bool:
        arcs = self.lemmas.pop(slot, None)
        self.delays.drop(slot, arcs or [])
        return arcs is not None

    def schedule(self, starts: Sequence[int]) -> bool:
        if not self.project.is_feasible(starts) or starts[-1] >= self.ceiling:
            return False
        self.best, self.ceiling = True, starts[-1]
        self.root = rooted(with_arc(self.rows, self.deadline()))
        return True

    def claim(self) -> str:
        if self.rows is not None:
            return f"bound {min(self.rows[0][self.project.end], self.ceiling)}"
        return f"optimal {self.ceiling}" if self.best else "no schedule"

    def takes(self, event: Event) -> bool:
        match event:
            case Lemma(slot, arcs, lines):
                return self.lemma(slot, arcs, lines)
            case Drop(slot):
                return self.drop(slot)
            case Schedule(starts):
                return self.schedule(starts)
            case Claim(said):
                return said == self.claim()


def verify(project: Project, stream: BinaryIO, partial: bool = False) -> str:
    ledger, log = Ledger(project), Log(stream)
    try:
        for event in log.events():
            if not ledger.takes(event):
                raise log.fault(type(event).__name__.lower())
    except LogFault as fault:
        if not (partial and fault.is_cut):
            raise
    return f"proved {ledger.claim()}"


def main() -> int:
    parser = argparse.ArgumentParser(description=__doc__, formatter_class=argparse.RawDescriptionHelpFormatter)
    parser.add_argument("project")
    parser.add_argument("--partial", action="store_true")
    o = parser.parse_args()

    def judge() -> None:
        print(verify(read_project(o.project), sys.stdin.buffer, o.partial), flush=True)

    return status_of("psprove", judge)


if __name__ == "__main__":
    sys.exit(main())
