"""A project as sums over 0-1 variables, for pseudo-Boolean solvers: order literals (Crawford and Baker 1994, Tamura et
al. 2009).

- A variable says that an activity starts at t or before, for each t of the window that lags and a ceiling leave it.
- A lag is a clause for each t.
- A variable for each two rivals whose order is open says which is first; it is transitive.
- Where activities that may run at a time could need too much of a resource, a variable for each says that it runs.

The goal is the number of times at which the project has not ended."""
import itertools
from collections.abc import Callable, Iterator, Sequence

from models import all_arcs, users
from projects import Arc, Project

NONE = -10**9  # less than the weight of any walk
Pair = tuple[int, int]
Literal = int | bool  # a variable from 1 on, negated below 0; or what always or never holds


class Walks:
    """The greatest weights of walks over arcs, by their first and last activity."""

    def __init__(self, project: Project) -> None:
        self.to: list[dict[int, int]] = [{i: 0} for i in range(len(project.durations))]
        for i, j, lag in all_arcs(project):
            self.to[i][j] = max(lag, self.at(i, j))
        for over in range(len(self.to)):
            self.go_over(list(self.to[over].items()), [(row, row[over]) for row in self.to if over in row])

    def at(self, i: int, j: int) -> int:
        return self.to[i].get(j, NONE)

    @staticmethod
    def go_over(ways: list[tuple[int, int]], rows: list[tuple[dict[int, int], int]]) -> None:
        for row, first in rows:
            for j, weight in ways:
                if row.get(j, NONE) < first + weight:
                    row[j] = first + weight

    def add(self, i: int, j: int, lag: int) -> None:
        if self.at(i, j) < lag:
            self.go_over(list(self.to[j].items()), [(row, row[i] + lag) for row in self.to if i in row])

    def are_wrong(self) -> bool:
        """Whether a closed walk has positive weight."""
        return any(self.at(i, i) > 0 for i in range(len(self.to)))

    def latest(self, i: int, most: int) -> int:
        """The latest start in a schedule of this makespan at most."""
        by_end = most - self.at(i, len(self.to) - 1)
        return min(by_end, -self.to[i][0]) if 0 in self.to[i] else by_end


def rivals(project: Project) -> list[Pair]:
    durations, demands, capacities, _ = project
    running = [i for i, duration in enumerate(durations) if duration]
    return [(a, b) for a, b in itertools.combinations(running, 2)
            if any(x + y > capacity for x, y, capacity in zip(demands[a], demands[b], capacities))]


def settle(project: Project, walks: Walks, pairs: list[Pair], most: int) -> list[Pair] | None:
    """The pairs whose order is open in schedules of this makespan at most; the walks get the other orders. None where
    no schedule is left."""
    ends = range(len(project.durations))

    def fits(i: int, j: int) -> bool:
        by_window = walks.at(0, i) + project.durations[i] <= walks.latest(j, most)
        return by_window and walks.at(j, i) + project.durations[i] <= 0

    before = None
    while before != pairs:
        if walks.are_wrong() or any(walks.at(0, i) > walks.latest(i, most) for i in ends):
            return None
        before, pairs = pairs, []
        for a, b in before:
            both = fits(a, b), fits(b, a)
            if not any(both):
                return None
            if all(both):
                pairs.append((a, b))
            else:
                i, j = (a, b) if both[0] else (b, a)
                walks.add(i, j, project.durations[i])
    return pairs


class Sums:
    """Sums in the format OPB."""

    def __init__(self) -> None:
        self.variables, self.rows = 0, list[str]()

    def new(self, many: int = 1) -> int:
        """The first of so many new variables."""
        self.variables += many
        return self.variables - many + 1

    def least(self, terms: Sequence[tuple[int, int]], bound: int) -> None:
        """The sum of the weights of the literals that hold is at least this."""
        text = " ".join(f"{weight:+} {'~' if literal < 0 else ''}x{abs(literal)}" for weight, literal in terms)
        self.rows.append(f"{text} >= {bound};\n")

    def clause(self, *literals: Literal) -> None:
        """One of the literals holds."""
        if True not in [literal for literal in literals if isinstance(literal, bool)]:
            self.least([(1, literal) for literal in literals if not isinstance(literal, bool)], 1)

    def chain(self, other: int | None, first: int, second: int, many: int) -> None:
        """Another literal holds, or a variable does not, or one does; and so on for so many variables after the two."""
        before = "" if other is None else f"+1 {'~' if other < 0 else ''}x{abs(other)} "
        self.rows += [f"{before}+1 ~x{first + x} +1 x{second + x} >= 1;\n" for x in range(many)]

    def text(self, goal: Sequence[int]) -> str:
        """The sums, and to have as few as can be of the goal that don't hold."""
        rows = [f"* #variable= {self.variables} #constraint= {len(self.rows)}\n"]
        if goal:
            rows.append("min: " + " ".join(f"+1 ~x{literal}" for literal in goal) + ";\n")
        return "".join(rows + self.rows)


def negated(literal: Literal) -> Literal:
    return not literal if isinstance(literal, bool) else -literal


class Model:
    """The schedules of a project of this makespan at most. `is_dead` says that there is none."""

    def __init__(self, project: Project, most: int) -> None:
        self.project, self.sums = project, Sums()
        self.walks = walks = Walks(project)
        self.apart = set(rivals(project))
        demands, capacities = project.demands, project.capacities
        is_small = all(all(map(int.__le__, row, capacities)) for row, p in zip(demands, project.durations) if p)
        pairs = None if walks.are_wrong() or not is_small else settle(project, walks, sorted(self.apart), most)
        self.is_dead = pairs is None
        if pairs is None:
            return
        count = range(len(project.durations))
        self.earliest = [walks.at(0, i) for i in count]
        self.latest = [walks.latest(i, most) for i in count]
        self.begin = [self.sums.new(b - a) for a, b in zip(self.earliest, self.latest)]
        for begin, least, last in zip(self.begin, self.earliest, self.latest):
            self.sums.chain(None, begin, begin + 1, last - least - 1)
        for arc in self.arcs():
            self.add_arc(arc)
        self.add_orders(pairs)
        for resource in range(len(project.capacities)):
            self.add_resource(resource)

    def by(self, i: int, time: int) -> Literal:
        """Activity i starts at this time or before."""
        if not self.earliest[i] <= time < self.latest[i]:
            return time >= self.latest[i]
        return self.begin[i] + time - self.earliest[i]

    def arcs(self) -> Iterator[Arc]:
        """The strongest of each two activities, and the orders that are settled."""
        known = {(i, j): NONE for i, j, _ in all_arcs(self.project)}
        for i, j, lag in all_arcs(self.project):
            known[i, j] = max(known[i, j], lag)
        for a, b in self.apart:
            for i, j in (a, b), (b, a):
                if self.walks.at(i, j) >= self.project.durations[i]:
                    known[i, j] = max(known.get((i, j), NONE), self.project.durations[i])
        return ((i, j, lag) for (i, j), lag in sorted(known.items()) if i != j)

    def add_arc(self, arc: Arc, unless: int | None = None) -> None:
        """The arc holds, or a literal does: if j starts at t + lag or before, i starts at t or before, for each t."""
        i, j, lag = arc
        from_time = max(self.earliest[i], self.earliest[j] - lag)
        to_time = min(self.latest[i], self.latest[j] - lag)
        first, second = self.begin[j] + from_time + lag - self.earliest[j], self.begin[i] + from_time - self.earliest[i]
        self.sums.chain(unless, first, second, to_time - from_time)
        for time in self.earliest[i] - 1, self.latest[j] - lag:
            if self.earliest[i] - 1 <= time < self.latest[i]:
                self.sums.clause(unless or False, negated(self.by(j, time + lag)), self.by(i, time))

    def add_orders(self, pairs: Sequence[Pair]) -> None:
        first: dict[Pair, int] = {}
        after: dict[int, set[int]] = {}
        for a, b in pairs:
            first[a, b] = order = self.sums.new()
            after.setdefault(a, set()).add(b)
            self.add_arc((a, b, self.project.durations[a]), -order)
            self.add_arc((b, a, self.project.durations[b]), order)
        for (a, b), x in first.items():
            for c in after[a] & after.get(b, set()):
                y, z = first[b, c], first[a, c]
                self.sums.clause(-x, -y, z)
                self.sums.clause(x, y, -z)

    def running(self, i: int, time: int) -> int:
        """A new variable that holds where activity i runs at a time."""
        runs = self.sums.new()
        self.sums.clause(negated(self.by(i, time)), self.by(i, time - self.project.durations[i]), runs)
        return runs

    def add_resource(self, resource: int) -> None:
        durations, demands, capacities, _ = self.project
        who = users(self.project, resource)
        if all(pair in self.apart for pair in itertools.combinations(who, 2)):
            return
        times = {time for i in who for time in range(self.earliest[i], self.latest[i] + durations[i])}
        for time in sorted(times):
            now = [i for i in who if self.earliest[i] <= time < self.latest[i] + durations[i]]
            if sum(demands[i][resource] for i in now) > capacities[resource]:
                terms = [(-demands[i][resource], self.running(i, time)) for i in now]
                self.sums.least(terms, -capacities[resource])

    def text(self) -> str:
        end = len(self.project.durations) - 1
        return self.sums.text(range(self.begin[end], self.begin[end] + self.latest[end] - self.earliest[end]))

    def starts(self, holds: Callable[[int], bool]) -> list[int]:
        """The starts where these variables hold."""
        return [least + sum(not holds(begin + x) for x in range(most - least))
                for begin, least, most in zip(self.begin, self.earliest, self.latest)]
