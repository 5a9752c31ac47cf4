"""`plan status`: how far a search in cubes has come, while a driver runs or after that."""
import pathlib
from collections.abc import Sequence

from ..cubes.folder import is_driven, must_be_whole
from ..cubes.tree import Tree
from ..record import PROVED

# A time is told where the same rule, used at these parts of the seconds so far, has said how much is refuted now, this
# nearly.
PAST, NEARLY = (0.25, 0.5), 0.25
UNITS = (("d", 86_400), ("h", 3_600), ("min", 60), ("s", 1))


def status(folder: str) -> int:
    must_be_whole(pathlib.Path(folder))
    tree = Tree(pathlib.Path(folder))
    if not is_driven(tree.folder):
        tree.abandon_all()
    print(tree.state())
    print(f"best schedule: {'none' if tree.starts is None else tree.starts[-1] - tree.offset}")
    print(f"bound: {bound(tree)}")
    print(f"so far: {time_text(tree.seconds)}, {time_text(tree.spent)} of processors, {tree.conflicts:,} conflicts")
    left = seconds_left(tree.shares)
    if tree.waiting or tree.running:
        print(f"left: {'no estimate has been right so far' if left is None else f'about {time_text(left)}'}")
    return 0


def bound(tree: Tree) -> str:
    """That of the last join, as far as one is proved."""
    file = tree.folder / "proved"
    found = PROVED.search(file.read_text()) if file.exists() else None
    if found is None:
        return "none, until the logs are joined"
    return f"{int(found[3]) - tree.offset}, by the last join" if found[3] else "no schedule"


def seconds_left(shares: Sequence[tuple[float, float]]) -> float | None:
    """As long as the tree takes by its mean speed, if that has been right in the past: then it is as much as was
    said."""
    seconds, share = shares[-1]
    for past in PAST:
        said = share_at(shares, past * seconds) / past
        if share == 0 or abs(said - share) > NEARLY * share:
            return None
    return seconds * (1 - share) / share


def share_at(shares: Sequence[tuple[float, float]], time: float) -> float:
    """What was refuted by then."""
    return next(share for seconds, share in reversed(shares) if seconds <= time)


def time_text(seconds: float) -> str:
    """With its two greatest units."""
    parts, left = list[str](), round(seconds)
    for unit, length in UNITS:
        if left >= length or (unit == "s" and not parts):
            parts.append(f"{left // length} {unit}")
        left %= length
    return " ".join(parts[:2])
