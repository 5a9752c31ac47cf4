"""Tables by chance, with predecessors, dates and progress, beside a trial of all starts that reads the same cells by
their meaning."""
import itertools
import random
from dataclasses import dataclass, field

from .helpers import InFolder, plan

HORIZON = 14  # no start is later
Link = tuple[int, int, str, int]  # before, after, which ends are tied, lag


@dataclass
class Chance:
    """Three or four activities on one crane."""

    seed: int
    links: list[Link] = field(default_factory=list)

    def __post_init__(self) -> None:
        chance = random.Random(self.seed)
        self.count = chance.choice((3, 4))
        self.planned = [chance.randint(0, 3) for _ in range(self.count)]
        self.crane = [chance.randint(0, 1) for _ in range(self.count)]
        for i, j in itertools.permutations(range(self.count), 2):
            if chance.random() < 0.2:
                self.links.append((i, j, chance.choice(("FS", "SS", "FF", "SF")), chance.randint(-2, 3)))
        self.not_before = [chance.randint(0, 4) if chance.random() < 0.3 else None for _ in self.planned]
        self.end_by = [chance.randint(3, 9) if chance.random() < 0.25 else None for _ in self.planned]
        self.now = chance.randint(1, 4) if chance.random() < 0.5 else 0
        self.started = [chance.randint(0, self.now) if days and self.now and chance.random() < 0.4 else None
                        for days in self.planned]
        self.remaining = [None if start is None else chance.randint(0, 3) for start in self.started]
        self.takes = [self.real(i) for i in range(self.count)]

    def real(self, i: int) -> int:
        """How long it takes, by what was done and what remains."""
        start, left = self.started[i], self.remaining[i]
        if start is None or left is None:
            return self.planned[i]
        return self.now - start + left if left else min(self.planned[i], self.now - start)

    def table(self) -> str:
        rows = ["ID,name,days,crane (1),Predecessors,not before,end by,started,remaining"]
        for j in range(self.count):
            links = "; ".join(f"{i + 1}{kind}{lag:+d}" for i, after, kind, lag in self.links if after == j)
            cells = (self.not_before[j], self.end_by[j], self.started[j], self.remaining[j])
            told = ",".join("" if cell is None else f"{cell}" for cell in cells)
            rows.append(f"{j + 1},t{j},{self.planned[j]},{self.crane[j]},{links},{told}")
        return "\n".join(rows) + "\n"

    def shortest(self) -> int | None:
        spaces = [[time for time in range(HORIZON) if self.is_within(i, time)] if start is None else [start]
                  for i, start in enumerate(self.started)]
        return min((max(self.ends(starts)) for starts in itertools.product(*spaces) if self.keeps(starts)),
                   default=None)

    def is_within(self, i: int, start: int) -> bool:
        """Whether the dates of what has not started allow it to start then."""
        return max(self.now, self.not_before[i] or 0) <= start <= (self.end_by[i] or HORIZON * 2) - self.takes[i]

    def ends(self, starts: tuple[int, ...]) -> list[int]:
        return [start + days for start, days in zip(starts, self.takes)]

    def keeps(self, starts: tuple[int, ...]) -> bool:
        """What has started says nothing of what has started."""
        ends = self.ends(starts)
        times = {"F": ends, "S": list(starts)}
        has_started = [start is not None for start in self.started]
        if any(times[kind[1]][j] < times[kind[0]][i] + lag for i, j, kind, lag in self.links
               if not (has_started[i] and has_started[j])):
            return False
        return all(sum(self.crane[i] for i in range(self.count) if starts[i] <= time < ends[i]) <= 1
                   for time in range(max(ends)))


class Exact(InFolder):
    def test_all_starts(self) -> None:
        for seed in range(40):
            with self.subTest(seed):
                found = Chance(seed)
                table, shortest = self.file("p.csv", found.table()), found.shortest()
                ran = plan("solve", table, "--jobs", "1", *(["--status", found.now] if found.now else []))
                if ran.returncode == 2:
                    self.assertIn("has started, but ", ran.stderr)
                    self.assertIsNone(shortest)
                else:
                    wanted = "no schedule" if shortest is None else f"optimal {shortest}"
                    self.assertEqual(ran.stdout.partition("\n")[0], wanted, found.table())
