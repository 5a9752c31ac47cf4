"""Published bounds of projects, which no answer may contradict: tables in CSV, PSPLIB's, Taillard's projects, and plain
columns."""
import os
import re
from collections.abc import Iterator
from dataclasses import dataclass
from typing import Self

from ..errors import BadInput
from ..files import read_text
from ..formats import pieces, taillard
from ..formats.numbers import lines_of
from ..letters import short
from .batch_table import Row
from .csv_text import cell, read_sheet

# What a table's columns are called, by what is in them.
HEADS = {"project": ("project", "name", "instance"), "lower": ("lower", "lb", "lower bound"),
         "upper": ("upper", "ub", "upper bound")}
BOUND = re.compile("[0-9]{0,9}")
# PSPLIB's tables of a set, by what their numbers are: the optima, lower bounds, or makespans.
PSPLIB = re.compile(r"(?P<set>.+?)(?P<kind>opt|lb|hrs|ub)\.sm", re.I)
PSPLIB_ROW = re.compile(r"\s*(\d{1,4})\s+(\d{1,4})\s+(\d{1,9})(\s|$)")  # a parameter, an instance, and a number
PLAIN_ROW = re.compile(r"\s*(?P<name>\S*[^\s\d]\S*\s+)?(?P<lower>\d{1,9})(\s+(?P<upper>\d{1,9}))?\s*")


@dataclass(frozen=True)
class Published:
    """No makespan is below the lower bound, and some schedule has the upper one; either may be unknown."""

    lower: int | None
    upper: int | None

    def with_more(self, other: Self) -> "Published":
        """What both tell: of each bound the better one."""
        lower = [one.lower for one in (self, other) if one.lower is not None]
        upper = [one.upper for one in (self, other) if one.upper is not None]
        return Published(max(lower, default=None), min(upper, default=None))


def read_published(*paths: str) -> dict[str, Published]:
    """What the tables tell of each project, which is called as its file, with the suffix or without."""
    found: dict[str, Published] = {}
    for path in paths:
        for name, bounds in rows_of(path, read_text(path)):
            found[name] = bounds.with_more(found.get(name, bounds))
    return found


def rows_of(path: str, text: str) -> Iterator[tuple[str, Published]]:
    of_psplib = PSPLIB.fullmatch(os.path.basename(path))
    if taillard.HEAD.match(text):
        return taillard_rows(path, text)
    if of_psplib:
        return psplib_rows(path, text, of_psplib["set"], of_psplib["kind"].lower())
    if re.match(rf"[^\n]*[,;]|({'|'.join(HEADS['project'])})\t", text, re.I):
        return table_rows(path, text)
    return plain_rows(path, text)


def table_rows(path: str, text: str) -> Iterator[tuple[str, Published]]:
    sheet = read_sheet(path, text)
    heads = [head.strip().lower() for head in sheet.heads]
    places = {key: next((heads.index(name) for name in names if name in heads), None) for key, names in HEADS.items()}
    if places["project"] is None or places["lower"] is places["upper"] is None:
        missing = "project" if places["project"] is None else "lower"
        raise BadInput(f"{path}: no column '{missing}'; a table of published bounds has {', '.join(HEADS)}")
    for number, row in sheet.numbered():
        name, *bounds = (cell(row, places[key]).strip() for key in HEADS)
        wrong = next((text for text in bounds if not BOUND.fullmatch(text)), None)
        if wrong is not None:
            raise BadInput(f"{path}: row {number}: '{short(wrong)}' is no whole number")
        yield name, Published(*(int(text) if text else None for text in bounds))


def taillard_rows(path: str, text: str) -> Iterator[tuple[str, Published]]:
    """His projects tell their own bounds."""
    for name, piece in pieces(text, os.path.splitext(os.path.basename(path))[0]).items():
        yield name, Published(*taillard.bounds(piece))


def psplib_rows(path: str, text: str, of: str, kind: str) -> Iterator[tuple[str, Published]]:
    """Rows of a parameter, an instance and a number; titles and the names of columns stand around them."""
    rows = [row for row in map(PSPLIB_ROW.match, text.splitlines()) if row]
    if not rows:
        raise BadInput(f"{path}: no row of a parameter, an instance and a makespan, as a table of PSPLIB has")
    for row in rows:
        lower = int(row[3]) if kind in ("opt", "lb") else None
        yield f"{of}{row[1]}_{row[2]}", Published(lower, int(row[3]) if kind != "lb" else None)


def plain_rows(path: str, text: str) -> Iterator[tuple[str, Published]]:
    """A name, and the optimum or both bounds; a file of one project needs no name but its own."""
    stem = os.path.splitext(os.path.basename(path))[0]
    for number, line in lines_of(text):
        row = PLAIN_ROW.fullmatch(line.partition("#")[0])
        if row is not None:
            yield (row["name"] or stem).strip(), Published(int(row["lower"]), int(row["upper"] or row["lower"]))
        elif not line.lstrip().startswith("#"):
            raise BadInput(f"{path}: line {number}: '{short(line.strip())}' is no name with an optimum, or with a "
                           "lower and an upper bound")


def contradictions(row: Row, published: dict[str, Published]) -> list[str]:
    """What the row of a batch says that cannot be where these bounds are right."""
    name = row["project"].rpartition("/")[2]
    known = published.get(name) or published.get(name.rpartition(".")[0])
    if known is None:
        return []
    makespan, bound = (int(row[head]) if row[head] else None for head in ("makespan", "bound"))
    told = []
    if known.lower is not None and makespan is not None and makespan < known.lower:
        told.append(f"the makespan {makespan} is below the published lower bound {known.lower}")
    if known.upper is not None and bound is not None and bound > known.upper:
        told.append(f"the bound {bound} is above the published makespan {known.upper}")
    if known.upper is not None and row["status"] == "no schedule":
        told.append(f"there is no schedule, and one of {known.upper} is published")
    return [f"{row['project']}: {text}" for text in told]
