"""What a project is like: its sizes, its order strength and its resource strength (docs/REFERENCE.md has their
definitions)."""
from collections.abc import Sequence

from networks import peak
from psmax.project import Numbers, least_starts


def order_strength(project: Numbers) -> float:
    """The share of the pairs of activities of which a path of minimum lags leads from one to the other."""
    after: list[int] = [1 << i for i in range(project.end + 1)]
    grows = True
    while grows:
        grows = False
        for tail, head, lag in project.arcs:
            if lag >= 0 and after[head] & ~after[tail]:
                after[tail] |= after[head]
                grows = True
    inner = range(1, project.end)
    ordered = sum(bool((after[i] >> j | after[j] >> i) & 1) for j in inner for i in range(1, j))
    return ordered / max(1, len(inner) * (len(inner) - 1) // 2)


def rooms(project: Numbers, starts: Sequence[int]) -> tuple[int, int]:
    """How many units the resources have above what the neediest activity needs of each, and how many more than that all
    need at most at these starts."""
    there = wanted = 0
    for k, capacity in enumerate(project.capacities):
        least = max(row[k] for row in project.demands)
        there += capacity - least
        wanted += max(least, peak(project.durations, project.demands, starts, k)) - least
    return there, wanted


def measured(project: Numbers) -> dict[str, str]:
    """The columns of it."""
    starts = least_starts(project)
    there, wanted = rooms(project, starts) if starts else (0, 0)
    return {
        "activities": str(project.end - 1), "resources": str(len(project.capacities)), "arcs": str(len(project.arcs)),
        "order strength": f"{order_strength(project):.3f}",
        "resource strength": f"{there / wanted:.3f}" if wanted else "",
    }
