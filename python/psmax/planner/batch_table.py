"""The table of a batch: a row for each project, kept in a file; and several tables made one."""
import os
from collections.abc import Sequence

from ..call_files import lose_none
from ..errors import BadInput
from ..files import read_text, write_whole
from .csv_text import cell, read_sheet, write_sheet
from .write import put_text

HEADS = ["project", "activities", "status", "makespan", "ends", "bound", "seconds", "conflicts", "limit", "plan",
         "psprove",
         "fault"]
WITHOUT_ENDS = [head for head in HEADS if head != "ends"]  # of plan 1.0 and before
FAULT = "fault"  # the status of a project that could not be searched

Row = dict[str, str]
Rows = dict[str, Row]  # by project


def keep_row(row: Row, csv: str | None) -> None:
    """Adds a row to the table in the file, which is written whole, or to standard output."""
    if csv is None:
        print(write_sheet([[row[head] for head in HEADS]]), end="", flush=True)
        return
    rows = read_batch(csv) if os.path.exists(csv) else {}
    write_whole(csv, batch_text(rows | {row["project"]: row}).encode())


def batch_text(rows: Rows) -> str:
    return write_sheet([HEADS, *([row[head] for head in HEADS] for _, row in sorted(rows.items()))])


def read_batch(path: str) -> Rows:
    sheet = read_sheet(path, read_text(path))
    if sheet.heads not in (HEADS, WITHOUT_ENDS):
        raise BadInput(f"{path}: not a table of `plan batch`")
    places = {head: sheet.heads.index(head) for head in HEADS if head in sheet.heads}
    rows = [{head: cell(row, places.get(head)) for head in HEADS} for _, row in sheet.numbered()]
    return {row["project"]: row for row in rows}


def join_tables(paths: Sequence[str], csv: str | None) -> int:
    """One table of several. A project that stands in two of them must have the same row in both, or a fault in one."""
    lose_none({f"the table {path}": path for path in paths}, [csv])
    joined: Rows = {}
    for path in paths:
        for project, row in read_batch(path).items():
            there = joined.get(project, row)
            if there != row and FAULT not in (there["status"], row["status"]):
                raise BadInput(f"{path}: a second row for {project}, which says something else")
            joined[project] = row if there["status"] == FAULT else there
    lost = sorted(read_batch(csv).keys() - joined.keys()) if csv is not None and os.path.exists(csv) else []
    if lost:
        raise BadInput(f"{csv} has a row for {lost[0]}, which would be lost; name another file with --csv")
    put_text(batch_text(joined), csv)
    return 0
