"""Makes records of searches of small projects. Which pairs are forced, which sets are split, and which leaves close a
node is drawn by a seed. With lies some lines are not right, mostly by one: the others are as they would be below such a
line."""
import itertools
import random
from collections.abc import Sequence

import small_projects
import verify
from verify import Rows

LINES = 150  # a tree of so many lines ends with wrong leaves


class Maker:
    def __init__(self, project: verify.Project, rng: random.Random, makespan: int | None, lies: float) -> None:
        self.project, self.rng, self.makespan, self.lies = project, rng, makespan, lies
        self.lines: list[str] = []
        self.timely = [i for i in range(project.count) if project.durations[i] > 0]
        self.resources = range(len(project.capacities))
        self.forces, self.extras = rng.choice([0, 0.3, 1]), rng.choice([0, 0, 0.3])
        self.early = rng.choice([1, 0.5, 0.2])  # how often a node is closed that may also be split

    # ---- lines that are right

    def forced(self, rows: Rows) -> list[Sequence[int]]:
        """Pairs that each feasible schedule of the node keeps, and that its least schedule does not."""
        pairs = itertools.permutations(self.timely, 2)
        found = [pair for pair in pairs if verify.is_forced(self.project, rows, pair)]
        return [(a, b) for a, b in found if rows[a][b] < self.project.durations[a] or self.rng.random() < 0.05]

    def a_set(self, rows: Rows) -> tuple[int, list[int]] | None:
        """A set that the node's least schedule does not part, and its resource; with others now and then."""
        members = small_projects.overload(self.project, rows[0])
        if not members:
            return None
        if self.rng.random() < self.extras:
            members = sorted({*members, self.rng.choice(self.timely)})
        over = [k for k in self.resources if verify.is_right_set(self.project, k, members)]
        return (self.rng.choice(over), sorted(members)) if over else None

    def leaf(self, rows: Rows) -> str | None:
        """How the node is closed, if it may be."""
        ways = ["solved", "cut"]
        found = [way for way in ways if verify.is_right(self.project, rows, self.makespan, way, [])]
        return self.rng.choice(found) if found else None

    # ---- lines that are not

    def wrong_forces(self, rows: Rows) -> list[Sequence[int]]:
        """Pairs whose second activity may just end before the first one starts; and some that may run at a time."""
        pairs: list[Sequence[int]] = [
            pair for pair in itertools.permutations(self.timely, 2) if not verify.is_forced(self.project, rows, pair)]
        near = [(a, b) for a, b in pairs if rows[a][b] == -self.project.durations[b]]
        apart = [(a, b) for a, b in pairs if self.full([a, b]) is not None]
        return near * 3 + apart * 2 + self.rng.sample(pairs, min(2, len(pairs))) + [(a, a) for a in self.timely[:1]]

    def full(self, members: Sequence[int]) -> int | None:
        """A resource that these use up and do not ask more for."""
        found = [k for k in self.resources if sum(self.project.demands[i][k] for i in members)
                 == self.project.capacities[k]]
        return self.rng.choice(found) if found else None

    def wrong_sets(self, rows: Rows) -> list[tuple[int, list[int]]]:
        sets = [list(some) for size in (2, 3) for some in itertools.combinations(self.timely, size)]
        full = [(k, some) for some in self.rng.sample(sets, min(8, len(sets))) if (k := self.full(some)) is not None]
        twice = [(k, sorted([a, a])) for a in self.timely for k in self.resources
                 if 2 * self.project.demands[a][k] > self.project.capacities[k]]
        idle = [i for i in range(self.project.count) if i not in self.timely]
        right = self.a_set(rows)
        others = [(right[0], sorted([*right[1], self.rng.choice(idle)])), (len(self.resources), right[1]),
                  (right[0], right[1][::-1])] if right else []
        return full * 2 + twice + others

    def lie(self, rows: Rows) -> tuple[str, list[int]]:
        forces, sets = self.wrong_forces(rows), self.wrong_sets(rows)
        kind = self.rng.choice(["leaf", *["force"] * bool(forces), *["split"] * bool(sets)])
        if kind == "force":
            return kind, list(self.rng.choice(forces))
        if kind == "split":
            resource, members = self.rng.choice(sets)
            return kind, [resource, *members]
        return self.rng.choice(["solved", "cut", "dead"]), []

    # ---- the tree

    def put(self, kind: str, fields: Sequence[int]) -> None:
        self.lines.append(" ".join([kind, *map(str, fields)]))

    def split(self, rows: Rows, fields: Sequence[int]) -> None:
        self.put("split", fields)
        members = fields[1:]
        for i, j in ((i, j) for i in members for j in members if i != j):
            self.node(verify.with_pair(self.project, rows, (i, j)))
        for _ in range(sum(1 for i, j in itertools.permutations(members, 2) if i == j)):
            self.node(rows)

    def node(self, rows: Rows | None) -> None:
        while rows is not None and self.rng.random() < self.lies:
            kind, fields = self.lie(rows)
            if kind != "force":
                return self.split(rows, fields) if kind == "split" else self.put(kind, [])
            self.put(kind, fields)
            rows = verify.with_pair(self.project, rows, fields)
        while rows is not None and (pairs := self.forced(rows)) and self.rng.random() < self.forces:
            pair = self.rng.choice(pairs)
            self.put("force", pair)
            rows = verify.with_pair(self.project, rows, pair)
        if rows is None:
            return self.put("dead", [])
        leaf, split = self.leaf(rows), self.a_set(rows)
        is_closed = leaf is not None and (self.rng.random() < self.early or len(self.lines) > LINES / 2)
        if split and not is_closed and len(self.lines) < LINES:
            return self.split(rows, [split[0], *split[1]])
        self.put(leaf or self.rng.choice(["solved", "cut", "dead"]), [])


def record_of(project: verify.Project, rng: random.Random, starts: Sequence[int] | None, lies: float = 0) -> bytes:
    """A record that claims these starts, or that there is no schedule. It is right if that is true, without lies."""
    makespan = None if starts is None else starts[-1]
    maker = Maker(project, rng, makespan, lies)
    maker.node(verify.root_matrix(project))
    claim = ["no schedule"] if starts is None else [f"optimal {makespan}", " ".join(["starts", *map(str, starts)])]
    return "".join(f"{line}\n" for line in ["record 1", *claim, *maker.lines]).encode()
