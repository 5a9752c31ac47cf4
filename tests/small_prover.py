"""Makes logs of lemmas of small projects. A lemma is learnt for each choice that a search takes back: an order of two
activities or a latest start. Which kinds of lines it looks for, and in which order, is drawn by a seed."""
import functools
import itertools
import random
from collections.abc import Iterator, Sequence

import verify
from verify import Rows
from verify_log import (
    Arc, Block, Claim, Clique, Drop, Event, Force, Interval, Ledger, Lemma, Line, Load, Push, Schedule, Tour, Use)
from verify_log import Root, are_rivals, reverse, rooted, with_arc

Pair = tuple[int, int]


class Stopped(Exception):
    """The log has as many events as it may have."""


class Prover:
    def __init__(self, project: verify.Project, rng: random.Random, most: int) -> None:
        self.project, self.rng, self.most = project, rng, most
        self.ledger, self.events = Ledger(project), list[Event]()
        self.activities = range(1, project.end)
        self.rivals = [pair for pair in itertools.permutations(self.activities, 2) if are_rivals(project, *pair)]
        makers = [self.forces, self.wide_loads, self.cliques, self.late_starts, self.early_starts, self.orders]
        self.makers = [self.uses, self.loads, *rng.sample(makers, rng.randrange(len(makers) + 1))]
        rng.shuffle(self.makers)
        if rng.random() < 0.4:
            self.makers = [self.cliques, self.orders, *self.makers]
        self.is_short, self.is_tidy = rng.random() < 0.5, rng.random() < 0.7
        self.has_tours = rng.random() < 0.5
        if self.has_tours:
            self.makers = [self.tours, self.ordered_tours, *self.makers]

    def take(self, event: Event) -> None:
        if not self.ledger.takes(event):
            raise AssertionError(f"the ledger does not take {event}")
        self.events.append(event)
        if len(self.events) >= self.most:
            raise Stopped

    # ---- lines that may show something

    def resources(self) -> range:
        return range(len(self.project.capacities))

    def uses(self, rows: Rows) -> Iterator[Line]:
        return map(Use, list(self.ledger.lemmas))

    def forces(self, rows: Rows) -> Iterator[Line]:
        return itertools.starmap(Force, self.rivals)

    def loads(self, rows: Rows) -> Iterator[Line]:
        times = sorted(set(rows[0]))
        return (Push(Load(k, time, time + 1), None) for k in self.resources() for time in times)

    def wide_loads(self, rows: Rows) -> Iterator[Line]:
        windows = itertools.combinations(sorted({rows[0][i] for i in self.activities} | {-row[0] for row in rows}), 2)
        return (Push(Load(k, *window), None) for k in self.resources() for window in windows)

    def clique(self) -> list[int]:
        """Rivals of one activity, each a rival of those before."""
        members: list[int] = []
        for i in self.rng.sample(self.activities, len(self.activities)):
            if all((i, j) in self.rivals for j in members):
                members.append(i)
        return sorted(members)

    def window(self, rows: Rows, members: Sequence[int]) -> Pair:
        """The window in which these run."""
        return min(rows[0][i] for i in members), max(self.project.durations[i] - rows[i][0] for i in members)

    def cliques(self, rows: Rows) -> Iterator[Line]:
        members = self.clique()
        return iter([Push(Clique(*self.window(rows, members), members), None)])

    def late_starts(self, rows: Rows) -> Iterator[Line]:
        """An activity can't start at its earliest start, by a load."""
        return (
            Push(Load(k, rows[0][i], rows[0][i] + max(1, self.project.durations[i] - by)), (0, i, rows[0][i] + 1))
            for i in self.activities for k in self.resources() for by in range(2)
        )

    def early_starts(self, rows: Rows) -> Iterator[Line]:
        """An activity can't start at its latest start, by a load."""
        return (
            Push(Load(k, -rows[i][0] + by, -rows[i][0] + by + 1), (i, 0, rows[i][0] + 1))
            for i in self.activities for k in self.resources() for by in range(self.project.durations[i])
        )

    def orders(self, rows: Rows) -> Iterator[Line]:
        """An activity comes before another, as a clique has no room or a load has none if it does not."""
        for a, b in self.rng.sample(self.rivals, min(4, len(self.rivals))):
            members = sorted({a, b, *self.clique()})
            window = self.window(rows, members)
            load, clique = Load(self.rng.choice(self.resources()), *window), Clique(*window, members)
            yield Push(load if self.rng.random() < 0.3 else clique, (a, b, self.project.durations[a]))

    # ---- tours

    def intervals(self) -> list[Interval]:
        """Intervals of rivals, most of which are as long as these."""
        shifts = [(0, 0), (0, 0), (0, 0), (-1, 1), (0, 1), (1, -1)]
        drawn = ((i, self.rng.choice(shifts)) for i in self.clique())
        return [Interval(i, at, max(0, self.project.durations[i] + more)) for i, (at, more) in drawn]

    def tour(self, rows: Rows) -> Tour:
        """In the window in which they lie."""
        intervals = self.intervals()
        begin = min(rows[0][m.activity] + m.at for m in intervals)
        return Tour(begin, max(m.end - rows[m.activity][0] for m in intervals), intervals)

    def tours(self, rows: Rows) -> Iterator[Line]:
        return iter([Push(self.tour(rows), None) for _ in range(2)])

    def ordered_tours(self, rows: Rows) -> Iterator[Line]:
        """An activity starts later than at its earliest start, or earlier than at its latest, or after another."""
        tour, i = self.tour(rows), self.rng.choice(self.activities)
        j = self.rng.choice(self.activities)
        shown = [(0, i, rows[0][i] + 1), (i, 0, rows[i][0] + 1), (i, j, rows[i][j] + self.rng.randint(1, 3))]
        return (Push(tour, arc) for arc in shown)

    def learn_delays(self) -> None:
        """Lemmas of two arcs, of rivals or of any two: one starts so long after the other, or the other after it."""
        drawn = [(self.rng.choice(self.activities), self.rng.choice(self.activities)) for _ in range(2)]
        pairs = [*self.rivals, *drawn]
        for i, j in self.rng.sample(pairs, len(pairs)):
            first, second = (self.project.durations[k] + self.rng.choice([-1, 0, 0, 0, 1, 2]) for k in (i, j))
            arcs = self.rng.sample([(j, i, 1 - first), (i, j, 1 - second)], 2)
            rows, lines = self.propagated(arcs)
            if rows is None and self.ledger.rows is not None:
                self.take(Lemma(self.free_slot(), arcs, lines))

    # ---- a lemma

    def is_new(self, root: Root, line: Line) -> bool:
        arc = self.ledger.shown(Block(root), line)
        return arc is not None and root.rows[arc[0]][arc[1]] < arc[2]

    def candidates(self, rows: Rows) -> Iterator[Line]:
        return (line for maker in self.makers for line in maker(rows))

    def stepped(self, rows: Rows, lines: list[Line]) -> Rows | None:
        """The weights with the arcs of those candidates that show something, which are added to the lines."""
        root = rooted(rows)
        for line in self.candidates(rows):
            if root is not None and self.is_new(root, line):
                lines.append(line)
                root = rooted(with_arc(root.rows, self.ledger.shown(Block(root), line) or (0, 0, 1)))
        return None if root is None else root.rows

    def propagated(self, arcs: Sequence[Arc]) -> tuple[Rows | None, list[Line]]:
        """The weights with all that lines show beside these arcs, and the lines."""
        rows, lines, before = functools.reduce(with_arc, arcs, self.ledger.rows), list[Line](), -1
        while rows is not None and len(lines) > before:
            before = len(lines)
            rows = self.stepped(rows, lines)
        return rows, lines

    def shortened(self, arcs: list[Arc], lines: list[Line]) -> tuple[list[Arc], list[Line]]:
        """Without lines and arcs that are not needed."""
        for line in reversed(lines):
            others = [other for other in lines if other is not line]
            lines = others if self.ledger.is_refuted(arcs, others) else lines
        for arc in arcs:
            fewer = [other for other in arcs if other != arc]
            arcs = fewer if self.ledger.is_refuted(fewer, lines) else arcs
        return arcs, lines

    def free_slot(self) -> int:
        slots = [slot for slot in range(len(self.ledger.lemmas) + 3) if slot not in self.ledger.lemmas]
        return self.rng.choice(slots)

    def learn(self, arcs: list[Arc], lines: list[Line]) -> None:
        if self.is_short:
            arcs, lines = self.shortened(arcs, lines)
        self.take(Lemma(self.free_slot() if len(arcs) > 1 else 0, arcs, lines))

    def tidy(self, slots: set[int]) -> None:
        """Lets lemmas go that were learnt for the one that was learnt last."""
        for slot in sorted(slots & set(self.ledger.lemmas)):
            self.take(Drop(slot))

    # ---- the search

    def choice(self, rows: Rows) -> Arc | None:
        """An arc that may be met or not: an order of two, or a latest start; none where all starts are fixed."""
        orders = [(a, b, self.project.durations[a]) for a, b in self.rivals]
        ends = [(i, 0, -time) for i in self.activities for time in range(rows[0][i], -rows[i][0])]
        free = [arc for arc in orders if rows[arc[0]][arc[1]] < arc[2] and rows[arc[1]][arc[0]] < 1 - arc[2]]
        either = free if free and (self.rng.random() < 0.7 or not ends) else ends
        return self.rng.choice(either) if either else None

    def refute(self, arcs: list[Arc]) -> None:
        """Learns that no schedule in question meets these arcs, or fewer."""
        below = set(self.ledger.lemmas)
        rows, lines = self.propagated(arcs)
        while rows is not None:
            choice = self.choice(rows)
            if self.project.is_feasible(rows[0]):
                self.take(Schedule(rows[0]))
            elif choice is not None:
                self.refute([*arcs, choice] if self.rng.random() < 0.8 else [*arcs, reverse(choice)])
            else:
                raise AssertionError("all starts are fixed, and no load shows that they are no schedule")
            rows, lines = self.propagated(arcs)
        news = set(self.ledger.lemmas) - below
        self.learn(arcs, lines)
        if self.is_tidy:
            self.tidy(news)


def proved(project: verify.Project, rng: random.Random, most: int = 120) -> list[Event]:
    """The events of a log of so many at most, with its claim."""
    prover = Prover(project, rng, rng.randrange(1, 12) if rng.random() < 0.2 else most - 1)
    try:
        if prover.has_tours:
            prover.learn_delays()
        while prover.ledger.rows is not None:
            prover.refute([])
    except Stopped:
        pass
    return [*prover.events, Claim(prover.ledger.claim())]
