"""The pictures of docs/REFERENCE.md, drawn as `plan` draws charts: a bar for each number of activities and each
resource strength of the projects after ProGen/max."""
import math
from collections.abc import Iterable, Iterator
from itertools import groupby

from psmax.planner.drawing import Bar, Drawing
from psmax.planner.svg import draw

from .values import Row, is_closed

LEAST = 0.01  # seconds; the table has hundredths
SCALE = 100  # steps of a power of ten


def groups(rows: Iterable[Row]) -> Iterator[tuple[int, str, list[Row]]]:
    """The projects of each number of activities and resource strength, which their words say."""
    def key(row: Row) -> tuple[int, int]:
        words = row["words"].split()
        return int(row["activities"]), int(words[words.index("--strength") + 1])

    chosen = sorted((row for row in rows if row["family"] == "progen"), key=key)
    for (n, strength), found in groupby(chosen, key):
        yield n, f"activities, strength {strength / 100:g}", list(found)


def proved(rows: Iterable[Row]) -> str:
    bars = []
    for n, name, found in groups(rows):
        closed = sum(map(is_closed, found))
        share = round(100 * closed / len(found))
        label = f"{name}: {closed} of {len(found)}"
        bars.append(Bar(n, label, 0, share, "0", f"{share} in a hundred", is_critical=share < 100))
    title = "Projects after ProGen/max that are proved, in a hundred"
    return draw(Drawing(title, ("Orange: some are open.",), 0, 100, tuple(bars), ()))


def place(seconds: float) -> int:
    return round(SCALE * math.log10(seconds))


def length(time: int) -> str:
    return f"{10 ** (time / SCALE):.2g} s"


def seconds(rows: Iterable[Row]) -> str:
    bars = []
    for n, name, found in groups(rows):
        took = [max(LEAST, float(row["seconds"])) for row in found if row["seconds"]]
        least, most = min(took, default=LEAST), max(took, default=LEAST)
        is_open = not all(map(is_closed, found))
        bars.append(Bar(n, name, place(least), place(most), f"{least} s", f"{most} s", is_critical=is_open))
    title = "Seconds of a processor for a project, from the fastest to the slowest"
    notes = ("Orange: some ended at their limit of conflicts.",)
    ends = max([bar.ends for bar in bars] + [place(1)])
    return draw(Drawing(title, notes, place(LEAST), ends, tuple(bars), (), after=length))
