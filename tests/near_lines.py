"""Lemmas that are false of a small project, each with a line that is wrong by as little as it may be: a load that just
fits, a clique that has just room, rivals of which one just ends before the other starts. A checker that is off by one
takes them."""
import functools
import itertools
import random
from collections.abc import Iterator, Sequence
from typing import NamedTuple

import verify
from verify import Rows
from verify_log import Arc, Clique, Force, Interval, Ledger, Lemma, Line, Load, Push, Tour, Use, least_part, with_arc

Window = tuple[int, int]


class Near(NamedTuple):
    """A line, and by how much it is wrong."""
    line: Line
    by: int


class Finder:
    """Lines that show nothing of a block that a schedule meets."""

    def __init__(self, ledger: Ledger, rows: Rows, starts: Sequence[int]) -> None:
        self.ledger, self.project, self.rows, self.starts = ledger, ledger.project, rows, starts
        self.timely = [i for i in range(self.project.count) if self.project.durations[i] > 0]

    def windows(self) -> Iterator[Window]:
        times = {start + by for start in self.starts for by in (0, 1)}
        times |= {self.starts[i] + self.project.durations[i] for i in self.timely}
        return itertools.combinations(sorted(times), 2)

    def loads(self) -> Iterator[Near]:
        for start, end in self.windows():
            parts = [least_part(p, start, end, self.rows[0][i], self.rows[i][0])
                     for i, p in enumerate(self.project.durations)]
            for k, capacity in enumerate(self.project.capacities):
                load = sum(part * row[k] for part, row in zip(parts, self.project.demands))
                yield Near(Push(Load(k, start, end), None), capacity * (end - start) + 1 - load)

    def apart_by(self, a: int, b: int) -> int:
        """How much two activities lack to run one at a time."""
        p = self.project
        excess = max((p.demands[a][k] + p.demands[b][k] - c for k, c in enumerate(p.capacities)), default=0)
        ordered = max(self.rows[a][b] - p.durations[a], self.rows[b][a] - p.durations[b])
        return max(0, min(1 - excess, -ordered))

    def clique_by(self, window: Window, members: Sequence[int]) -> int:
        lengths = [self.project.durations[i] for i in members]
        early = sum(max(0, window[0] - self.rows[0][i]) for i in members)
        late = sum(max(0, p - self.rows[i][0] - window[1]) for i, p in zip(members, lengths))
        apart = sum(self.apart_by(a, b) for a, b in itertools.combinations(members, 2))
        return early + late + apart + max(0, window[1] - window[0] + 1 - sum(lengths))

    def cliques(self) -> Iterator[Near]:
        for size in (1, 2, 3, 4):
            for members in itertools.combinations(self.timely, size):
                start = min(self.rows[0][i] for i in members)
                end = max(self.project.durations[i] - self.rows[i][0] for i in members)
                for window in ((start, end), (start + 1, end), (start, end - 1)):
                    yield Near(Push(Clique(*window, list(members)), None), self.clique_by(window, members) + (size < 2))

    def lie_apart_by(self, m: Interval, k: Interval) -> int:
        """How much two intervals lack to have no time in common."""
        pair, there, back = (m.activity, k.activity), m.end - k.at, k.end - m.at
        known = self.ledger.delays.by_slot.get(pair, {}).values()
        lacks = [max(there - first, back - second) for first, second in known]
        return max(0, min([there - self.rows[pair[0]][pair[1]], back - self.rows[pair[1]][pair[0]], *lacks]))

    def tour_by(self, window: Window, intervals: Sequence[Interval]) -> int:
        early = sum(max(0, window[0] - m.at - self.rows[0][m.activity]) for m in intervals)
        late = sum(max(0, m.end - window[1] - self.rows[m.activity][0]) for m in intervals)
        apart = sum(self.lie_apart_by(m, k) for m, k in itertools.combinations(intervals, 2))
        return early + late + apart + max(0, window[1] - window[0] + 1 - sum(m.length for m in intervals))

    def tours(self) -> Iterator[Near]:
        shifts = [(0, 0), (-1, 1), (1, 0), (0, 1), (0, -1)]
        for size in (1, 2, 3):
            for members in itertools.combinations(self.timely, size):
                at, more = shifts[sum(members) % len(shifts)]
                intervals = [Interval(i, at, max(0, self.project.durations[i] + more)) for i in members]
                start = min(self.rows[0][m.activity] + m.at for m in intervals)
                end = max(m.end - self.rows[m.activity][0] for m in intervals)
                for window in ((start, end), (start + 1, end), (start, end - 1)):
                    yield Near(Push(Tour(*window, intervals), None), self.tour_by(window, intervals))

    def forces(self) -> Iterator[Near]:
        p = self.project
        for a, b in itertools.permutations(self.timely, 2):
            excess = max((p.demands[a][k] + p.demands[b][k] - c for k, c in enumerate(p.capacities)), default=0)
            yield Near(Force(a, b), max(0, 1 - excess) + max(0, 1 - p.durations[b] - self.rows[a][b]))

    def uses(self, slot: int) -> Iterator[Near]:
        """A lemma of which two arcs are left, or one by little; and the lemma that these lines are to show."""
        for other, arcs in self.ledger.lemmas.items():
            lacks = sorted(max(0, v - self.rows[i][j]) for i, j, v in arcs)
            yield Near(Use(other), lacks[-2])
        yield Near(Use(slot), 1)

    def all(self, slot: int) -> list[Near]:
        return [*self.loads(), *self.cliques(), *self.tours(), *self.forces(), *self.uses(slot)]


def fixed(rng: random.Random, starts: Sequence[int]) -> list[Arc]:
    """Arcs that a schedule meets: they fix all starts, or few of them, or hold some within a period or two."""
    some = [i for i in range(1, len(starts)) if rng.random() < rng.choice([1, 1, 0.5])] or [1]
    slack = rng.choice([0, 0, 0, 1, 2])
    firsts = [(0, i, starts[i] - rng.randint(0, slack)) for i in some]
    lasts = [(i, 0, -starts[i] - rng.randint(0, slack)) for i in some]
    pairs = list(itertools.combinations(range(1, len(starts)), 2))
    return firsts + lasts + [(i, j, starts[j] - starts[i])
                             for i, j in rng.sample(pairs, min(len(pairs), rng.randrange(3)))]


def shown_arcs(project: verify.Project, rng: random.Random, starts: Sequence[int]) -> list[Arc | None]:
    """Arcs that the schedule does not meet, by one."""
    i, j = rng.randrange(project.count), rng.randrange(project.count)
    return [None, None, (0, i, starts[i] + 1), (i, 0, 1 - starts[i]), (i, j, starts[j] - starts[i] + 1)]


def false_lemma(rng: random.Random, ledger: Ledger, starts: Sequence[int]) -> Lemma:
    """A lemma whose arcs a schedule in question meets, with a line or two that are wrong by little."""
    arcs = fixed(rng, starts)
    slot = rng.choice([slot for slot in range(len(ledger.lemmas) + 3) if slot not in ledger.lemmas])
    rows = functools.reduce(with_arc, arcs, ledger.rows)
    assert rows is not None, "no schedule in question meets a dead block"
    found = [near for near in Finder(ledger, rows, starts).all(slot) if near.by > 0]
    kinds: dict[str, list[Near]] = {}
    for near in found:
        kinds.setdefault(f"{type(near.line).__name__}{type(getattr(near.line, 'over', None)).__name__}",
                         []).append(near)
    lines: list[Line] = []
    for _ in range(rng.choice([1, 1, 2])):
        alike = rng.choice(list(kinds.values()))
        least = min(near.by for near in alike)
        line = rng.choice([near.line for near in alike if near.by <= least + rng.choice([0, 0, 0, 1])])
        arc = rng.choice(shown_arcs(ledger.project, rng, starts))
        lines.append(line._replace(arc=arc) if isinstance(line, Push) else line)
    return Lemma(slot, arcs, lines)
