"""`plan where`: the line, the column and the activity of a fault that psmax finds in a project text."""
import os
import re

from ..clock import Clock
from ..errors import BadInput
from ..files import LARGEST, read_bytes
from ..letters import short
from ..project_text import Place, Word, layout, words
from ..psmax import Psmax
from .answer_text import WITH_STARTS
from .names import Names, names_in
from .project_file import is_other, is_table, open_project, page_of

NUMBER = re.compile(rb"-?[0-9]{1,9}")
ROW_FAULTS = {  # the end of psmax's text, and the kinds of place that it is about
    "numbered": ("id",),
    "more": ("mode",),
    "no": ("successor",),
    "a": ("duration", "demand"),
}


def where(path: str) -> int:
    data = read_bytes(path)
    if len(data) <= LARGEST:
        must_be_text(path, data)
    try:
        Psmax(Clock(), path).earliest_of_text(data)
    except BadInput as fault:
        text = str(fault).removeprefix(f"{path}: ")
        page = page_of(path)
        names = names_in(page) if os.path.isfile(page) else Names()
        print(f"{path}: {text}", *details(data, text, names), sep="\n")
        return 2
    print(f"{path}: psmax reads it whole")
    return 0


def must_be_text(path: str, data: bytes) -> None:
    """A table, an answer or a spreadsheet file is no project text; where it has faults these are told."""
    text = data.decode("utf-8-sig", "replace")
    if is_table(path, text) or text.startswith(WITH_STARTS) or data.startswith(b"PK"):
        open_project(path)
        raise BadInput(f"{path}: this is a table without faults, and no project text")
    if is_other(text):
        open_project(path)
        raise BadInput(f"{path}: a text without faults of another format; psmax itself reads .sch alone")


def details(data: bytes, fault: str, called: Names) -> list[str]:
    """Where the fault is, what stands there and what should."""
    if fault == "too long":
        return [f"  a text has at most {LARGEST:,} bytes"]
    found = words(data)
    place_of_fault = find_fault(found, fault)
    if place_of_fault is None:
        return []
    index, place = place_of_fault
    if index < len(found):
        told = [f"  {position(data, found[index].begins)}: '{short(found[index].text.decode('utf-8', 'replace'))}'"]
    else:
        told = [f"  {position(data, len(data))}: the text ends here"]
    if place is None:
        return [*told, "  the project ends before that word"]
    return [*told, f"  expected: {expected(place, called)}"]


def find_fault(found: list[Word], fault: str) -> tuple[int, Place | None] | None:
    """The word that a fault of psmax is about, and its place; no place where the project has none more."""
    values = [int(word.text) if NUMBER.fullmatch(word.text) else 0 for word in found]
    by_word = re.match(r"word (\d+):|ends before word (\d+)$", fault)
    if by_word:
        wanted = int(by_word[1] or by_word[2])
        places = layout(values[:wanted])
        return wanted, None if fault.endswith("one too many") else [next(places) for _ in range(wanted + 1)][-1]
    by_row = re.match(r"row (\d+): (\w+)", fault)
    for index, place in enumerate(layout(values)):
        if fault == "resources other than renewable" and place.kind == "zero" and values[index] != 0:
            return index, place
        in_row = by_row is not None and place.row == int(by_row[1]) and place.kind in ROW_FAULTS.get(by_row[2], ())
        if in_row and not fits(place, values, index):
            return index, place
    return None


def fits(place: Place, values: list[int], index: int) -> bool:
    """Whether the number at a place of a row is one that may stand there."""
    if place.kind == "id":
        return values[index] == place.activity
    if place.kind == "mode":
        return values[index] == 1
    if place.kind == "successor":
        return 0 <= values[index] <= values[0] + 1
    return values[index] == 0


def expected(place: Place, called: Names) -> str:
    who = "" if place.activity is None else f"activity {called.activity(place.activity)}"
    other = "" if place.other is None else f"activity {called.activity(place.other)}"
    what = "" if place.resource is None else called.resource(place.resource)
    return {
        "activities": "the number of activities, 0 to 1,000",
        "resources": "the number of resources, 0 to 32",
        "zero": "0, since there are renewable resources alone",
        "id": f"{place.activity}, the number of the activity whose row begins here",
        "mode": f"1, the mode of {who}",
        "count": f"the number of arcs of {who}, at least 0, and at most 100,000 in all",
        "successor": f"the activity to which an arc of {who} goes",
        "lag": f"the lag of the arc from {who} to {other}, -1,000,000 to 1,000,000",
        "duration": f"the duration of {who}, 0 to 1,000,000, and 0 for the start and the end",
        "demand": f"the demand of {who} for {what}, 0 to 1,000,000, and 0 for the start and the end",
        "capacity": f"the capacity of {what}, 0 to 1,000,000",
    }[place.kind]


def position(data: bytes, begins: int) -> str:
    """The line and the column of a byte, both from 1."""
    line = data.count(b"\n", 0, begins) + 1
    column = len(data[data.rfind(b"\n", 0, begins) + 1 : begins].decode("utf-8", "replace")) + 1
    return f"line {line}, column {column}"
