"""A plan of a table that was changed: starts near to the old ones, which are found by hand and without a search."""
import random
from collections.abc import Sequence

from psmax.planner.project_file import ProjectFile, open_project
from psmax.serial import near

from .brute import Small, small
from .helpers import InFolder, plan

HEADS = "activity,days,crane (1),after,at least,at most\n"

# A table, old starts, and the new ones: by hand.
CASES: list[tuple[str, str, list[int], list[int] | None]] = [
    ("nothing changed, and nothing gets sooner", "a,3,1,,,\nb,4,1,,,\n", [0, 5], [0, 5]),
    ("what runs longer moves what needs the same", "a,4,1,,,\nb,4,1,,,\nc,1,,b,,\n", [0, 3, 7], [0, 4, 8]),
    ("in the old order, and not in that of the rows", "a,4,1,,,\nb,4,1,,,\n", [3, 0], [4, 0]),
    ("a maximum lag: x waits, since y comes later", "x,1,,,,\ng,3,1,,,\ny,2,1,start of x,,4\n", [0, 0, 2], [0, 0, 3]),
    ("and here it must", "x,1,,,,\ng,3,1,,,\ny,2,1,start of x,,1\n", [0, 0, 1], [2, 0, 3]),
    ("w waits with x, behind g, which stays", "w,1,1,,,\nx,1,,w,0,0\ng,3,1,,,\ny,2,1,start of x,,1\n",
     [0, 1, 1, 2], [4, 5, 1, 5]),
    ("lags that contradict each other", "a,3,,,,\nb,1,,start of a,3,\n,,,start of a,,2\n", [0, 2], None),
]


def opened(folder: InFolder, table: str) -> ProjectFile:
    return open_project(str(folder.file("p.csv", table)))


def keeps(one: Small, starts: Sequence[int]) -> bool:
    """Each lag, and what there is of the crane and the fitters."""
    behind = [(starts[own] - starts[first], least, most) for first, own, least, most in one.lags]
    return all(least <= lag and (most is None or lag <= most) for lag, least, most in behind) and one.is_enough(
        tuple(starts))


class Near(InFolder):
    def test_by_hand(self) -> None:
        for name, rows, old, new in CASES:
            with self.subTest(name):
                found = near(opened(self, HEADS + rows).project, dict(enumerate(old, 1)))
                self.assertEqual(None if found is None else [*found[1:-1]], new)

    def test_small_projects(self) -> None:
        """Whatever the old starts are, what is found is a schedule in which nothing is sooner; and that one stays."""
        count = 0
        for seed in range(40):
            chance, one = random.Random(seed), small(seed)
            self.file("away.csv", one.absences())
            project = opened(self, f"absences,away.csv\n{one.table()}").project
            old = {i: chance.randint(0, 8) for i in range(1, len(one.days) + 1)}
            found = near(project, old)
            if found is not None and found[-1] < 1000:
                count += 1
                self.assertTrue(keeps(one, found[1:-1]), (seed, found))
                self.assertTrue(all(found[i] >= time for i, time in old.items()), (seed, old, found))
                self.assertEqual(near(project, dict(enumerate(found[1:-1], 1))), found, seed)
        self.assertGreater(count, 15)

    def test_without_a_search(self) -> None:
        """psprove, which finds nothing here, is asked for nothing but to go on from there."""
        table = self.file("p.csv", HEADS + "a,4,1,,,\nb,4,1,,,\nc,1,,b,,\n")
        old = self.file("old.csv", "name,start\na,0\nb,3\nc,7\n")
        psprove = self.stand_in(tells=[{"bound": 4}], then="answers")
        ran = plan("solve", table, "--start", old, "--frozen", "1", "--seconds", "5", psprove=psprove)
        self.assertEqual((ran.returncode, ran.stdout.split("\n")[0]), (3, "feasible 9 bound 4"), ran.stderr)
        self.assertIn("schedule 9: ", ran.stderr)
