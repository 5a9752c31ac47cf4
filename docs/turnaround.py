#!/usr/bin/env python3
"""docs/turnaround.py

Makes the spreadsheet files of the turnaround in docs/PLANNER.md: examples/reformer.xlsx, and the same on Wednesday,
with what was done until then. Needs openpyxl."""
import datetime
import pathlib
from collections.abc import Iterator
from typing import Any

import openpyxl
from openpyxl.styles import Alignment, Font, PatternFill

EXAMPLES = pathlib.Path(__file__).resolve().parent.parent / "examples"
Row = dict[str, Any]
Jobs = tuple[tuple[str, Any, str], ...]  # of each what it is called, how long it takes, and what it needs

CREWS = {"F": "fitters (8, 06:00-18:00)", "N": "night fitters (6, nights)", "W": "welders (3, 06:00-18:00)",
         "I": "inspectors (2, Mo-Sa 06:00-18:00)", "B": "wash bay (1)", "C": "crane (1)"}
HEADS = ["ID", "WBS", "Task Name", "Area", "Duration", "Predecessors", *CREWS.values(), "may pause", "due", "started",
         "finished", "remaining"]
FIRST, STATUS = datetime.datetime(2026, 3, 2, 6), datetime.datetime(2026, 3, 4, 6)
# Of what has started by then the ID, and from when to when, in hours after the first one; else how many hours remain.
ENDED = {2: (0, 8), 3: (8, 20), 4: (20, 24), 5: (24, 24), 7: (24, 28), 8: (36, 42), 19: (26, 28), 20: (32, 36),
         28: (28, 30), 37: (28, 30), 46: (28, 30), 55: (28, 30), 64: (30, 32), 73: (30, 32), 82: (30, 32), 91: (30, 32),
         100: (32, 34), 127: (24, 26), 128: (26, 46), 132: (24, 26), 133: (26, 46), 137: (26, 28)}
GOES_ON = {9: (42, "2 h"), 138: (28, "8 h")}
WELD = 12, "48 h"  # its ID, and what it takes then
PERMITS = 5  # their ID
MORE: dict[str, Row] = {"weld the nozzle": {"may pause": "yes"},
                        "hand over": {"due": datetime.datetime(2026, 3, 13, 18)}}
WIDTHS = dict(zip("ABCDEFGHIJKLMNOPQ", (6, 7, 25, 7, 9, 13, 14, 16, 14, 20, 10, 10, 8, 17, 17, 17, 11)))  # of columns
PLAIN, BOLD = Font(name="DejaVu Sans", size=10), Font(name="DejaVu Sans", size=10, bold=True)
# What a job needs are the first letters of crews, with how many of each.
EXCHANGER = (("fit blinds", "2 h", "F2"), ("open the heads", "4 h", "F2"), ("pull the bundle", "2 h", "F3 C1"),
             ("wash the bundle", "5 h", "B1"), ("inspect the bundle", "3 h", "I1"), ("bundle back", "3 h", "N3 C1"),
             ("close the heads", "5 h", "N3"), ("pull blinds", "2 h", "F2"))
COLUMN = (("fit blinds", "4 h", "F4"), ("open manholes", "4 h", "N3"), ("ventilate", "8 h", ""),
          ("raise the scaffold", "12 h", "N6"), ("inspect the shell", "12 h", "I1"), ("weld the nozzle", "30 h", "W3"),
          ("x-ray the nozzle", "12 h", "I1"), ("let the lining cure", "2 cd", ""),
          ("strike the scaffold", "12 h", "N6"), ("close manholes", "6 h", "F4"), ("pull blinds", "6 h", "F4"))
PUMP = (("uncouple", "2 h", "F2"), ("overhaul", "20 h", ""), ("mount", "4 h", "F2 C1"), ("align and run", "3 h", "F1"))
SHUTDOWN = (("stop the unit", "8 h", ""), ("cool down and drain", "12 h", ""), ("purge", "4 h", "N2"),
            ("permits signed", 0, ""))
START = (("leak test of the unit", "8 h", "F4"), ("hand over", 0, ""), ("heat up", "12 h", ""))
PARTS: list[tuple[str, str, Jobs]] = [
    ("Shutdown", "Unit", SHUTDOWN), ("Column C-1", "North", COLUMN),
    *((f"Exchanger E-{101 + k}", "North" if k < 6 else "South", EXCHANGER) for k in range(12)),
    *((f"Pump P-{1 + k}", "South", PUMP) for k in range(3)), ("Start-up", "Unit", START)]


def rows() -> Iterator[Row]:
    """All begins after the permits, and the start-up comes last."""
    number, ends = 0, list[int]()
    for place, (group, area, jobs) in enumerate(PARTS, 1):
        before = "" if place == 1 else ", ".join(map(str, ends)) if place == len(PARTS) else PERMITS
        found = [*rows_of(f"{place}", number + 1, group, area, jobs, before)]
        number += len(found)
        ends += [number] if place > 1 else []
        yield from found


def rows_of(wbs: str, first: int, group: str, area: str, jobs: Jobs, before: object) -> Iterator[Row]:
    """A group, and its jobs, which follow each other."""
    yield {"ID": first, "WBS": wbs, "Task Name": group}
    for place, (name, length, needs) in enumerate(jobs, 1):
        yield {"ID": first + place, "WBS": f"{wbs}.{place}", "Area": area, "Duration": length,
               "Task Name": name if area == "Unit" else f"{group.split()[1]}: {name}",
               "Predecessors": before if place == 1 else first + place - 1,
               **{CREWS[need[0]]: int(need[1:]) for need in needs.split()}, **MORE.get(name, {})}


def hour(number: int) -> datetime.datetime:
    return FIRST + datetime.timedelta(hours=number)


def done(row: Row) -> Row:
    """The same on Wednesday."""
    number = row["ID"]
    if number in ENDED:
        begins, ends = ENDED[number]
        return row | {"started": hour(begins), "finished": hour(ends)}
    if number in GOES_ON:
        begins, left = GOES_ON[number]
        return row | {"started": hour(begins), "remaining": left}
    return row | {"Duration": WELD[1]} if number == WELD[0] else row


def made(above: list[list[str]], jobs: list[Row]) -> openpyxl.Workbook:
    book = openpyxl.Workbook()
    sheet = book.active
    sheet.title = "Turnaround"
    for cells in (*above, [], HEADS, *([row.get(head) for head in HEADS] for row in jobs)):
        sheet.append(cells)
    head_row = len(above) + 2
    for cell in sheet[head_row]:
        cell.fill, cell.alignment = PatternFill("solid", fgColor="D9E2EC"), Alignment(wrap_text=True, vertical="top")
        cell.font = BOLD
    sheet.row_dimensions[head_row].height = 30
    for row in sheet.iter_rows(min_row=head_row + 1):
        is_group = row[HEADS.index("Duration")].value is None
        for cell in row:
            cell.font, cell.alignment = BOLD if is_group else PLAIN, Alignment(horizontal="left")
            cell.number_format = "yyyy-mm-dd hh:mm" if isinstance(cell.value, datetime.datetime) else cell.number_format
    for letters, width in WIDTHS.items():
        sheet.column_dimensions[letters].width = width
    sheet.freeze_panes = sheet.cell(head_row + 1, 4)
    sheet.page_setup.orientation, sheet.page_setup.fitToHeight = "landscape", 0
    sheet.sheet_properties.pageSetUpPr.fitToPage = True
    return book


def main() -> None:
    above = [["title", "Turnaround of the reformer"], ["from", written(FIRST)], ["shift", "00:00-24:00"]]
    made(above, [*rows()]).save(EXAMPLES / "reformer.xlsx")
    made([*above, ["status", written(STATUS)]], [*map(done, rows())]).save(EXAMPLES / "reformer-wednesday.xlsx")


def written(moment: datetime.datetime) -> str:
    return f"{moment:%Y-%m-%d %H:%M}"


if __name__ == "__main__":
    main()
