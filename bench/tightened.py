#!/usr/bin/env python3
"""bench/tightened.py FILE [SHARE] > PROJECT.sch

Writes the project of a text with tighter maximum lags; without SHARE it has none. The room of a maximum lag is how much
longer it is than the longest path of minimum lags between its two activities. SHARE hundredths of it stay, rounded
down: 100 is the project itself, 0 leaves no room. A maximum lag without such a path, or without room, stays as it
is."""
import argparse
import pathlib
import sys
from collections.abc import Sequence

sys.path.append(str(pathlib.Path(__file__).resolve().parent.parent / "python"))
from projects import Arc, Project  # noqa: E402
from psmax.project_text import parse  # noqa: E402


def longest(arcs: Sequence[Arc], first: int) -> dict[int, int]:
    """The weight of the longest path from an activity to each that it leads to; arcs close no circle."""
    weights, is_done = {first: 0}, False
    while not is_done:
        is_done = True
        for i, j, lag in arcs:
            if i in weights and weights[i] + lag > weights.get(j, -1):
                weights[j], is_done = weights[i] + lag, False
    return weights


def tighter(arc: Arc, least: Sequence[Arc], share: int) -> Arc:
    tail, head, lag = arc
    room = -lag - longest(least, head).get(tail, -lag)
    return (tail, head, lag + room - room * share // 100) if lag < 0 < room else arc


def project(text: bytes, share: int | None) -> Project:
    """The project of a text where so much of the room is left; without maximum lags if none is said."""
    given = parse(text)
    least = [(i, j, lag) for i, j, lag in given.arcs if lag >= 0]
    all_arcs = [tighter(arc, least, share) for arc in given.arcs] if share is not None else least
    return Project([*given.durations], [[*row] for row in given.demands], [*given.capacities], all_arcs)


def main() -> None:
    parser = argparse.ArgumentParser(description=__doc__, formatter_class=argparse.RawDescriptionHelpFormatter)
    parser.add_argument("file", type=pathlib.Path)
    parser.add_argument("share", type=int, nargs="?")
    o = parser.parse_args()
    try:
        sys.stdout.buffer.write(project(o.file.read_bytes(), o.share).text())
    except (OSError, ValueError, IndexError) as fault:
        sys.exit(f"{o.file}: no project text that can be read: {fault}")


if __name__ == "__main__":
    main()
