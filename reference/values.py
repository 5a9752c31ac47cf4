"""The table of reference values, values.csv: a row for each project, in the order of the families."""
import pathlib
from collections.abc import Iterable, Mapping

from psmax.errors import BadInput
from psmax.files import read_text, write_whole
from psmax.planner.csv_text import cell, read_sheet, write_sheet

from . import TOP

VALUES, RECORDS, RECIPES, PUBLISHED = (
    TOP / "reference" / name for name in ("values.csv", "records", "recipes", "published.csv"))
HEADS = ["name", "family", "words", "activities", "resources", "arcs", "order strength", "resource strength",
         "status", "makespan", "bound", "published", "source", "project",
         "limit", "conflicts", "seconds", "bytes", "record", "version"]
SUBMITTED = "submitted"  # the version of a row whose record somebody sent

Row = Mapping[str, str]


def read(table: pathlib.Path = VALUES) -> dict[str, Row]:
    """The rows by name; none where there is no table."""
    if not table.exists():
        return {}
    sheet = read_sheet(str(table), read_text(str(table)))
    if sheet.heads != HEADS:
        raise BadInput(f"{table}: its columns are not {', '.join(HEADS)}")
    rows = [dict(zip(HEADS, [cell(row, column) for column in range(len(HEADS))])) for _, row in sheet.numbered()]
    return {row["name"]: row for row in rows}


def write(rows: Iterable[Row], table: pathlib.Path = VALUES) -> None:
    write_whole(str(table), write_sheet([HEADS, *([row[head] for head in HEADS] for row in rows)]).encode())


def keep_record(name: str, record: bytes | None) -> None:
    """A small record stands in the repository; where there is none, nothing does that stood there before."""
    path = RECORDS / f"{name}.log"
    if record is not None:
        write_whole(str(path), record)
    else:
        path.unlink(missing_ok=True)


def row_of(name: str) -> Row:
    found = read().get(name)
    if found is None:
        raise BadInput(f"{VALUES.name} has no row {name}")
    return found


def is_closed(row: Row) -> bool:
    return row["status"] in ("optimal", "no schedule")


def claim(row: Row) -> str:
    """What the record of a row proves, in the words of `psprove verify`."""
    if row["status"] == "no schedule":
        return "proved no schedule"
    return f"proved optimal {row['makespan']}" if is_closed(row) else f"proved bound {row['bound']}"


def known(row: Row) -> str:
    """What is known, in the words of `psprove solve`."""
    return " ".join(filter(None, [row["status"], row["makespan"], "" if is_closed(row) else f"bound {row['bound']}"]))


def rank(row: Row) -> tuple[bool, int, int]:
    """The greater, the more is known: a closed row, then a greater bound, then a shorter schedule."""
    makespan = int(row["makespan"]) if row["makespan"] else 10**9
    return is_closed(row), int(row["bound"] or 0), -makespan
