"""Tables of absences: which units of a resource are away from when until when."""
from dataclasses import replace

from ..errors import BadInput
from ..files import read_text
from ..letters import short
from ..project import Away, Numbers
from .above import NOTE, WORDS
from .columns import HEADS, Column, Columns
from .csv_text import Sheet, cell, read_sheet
from .decimals import with_one_sign
from .faults import Faults, fault_at
from .lags import did_you_mean
from .names import Names
from .rows import Row, Terms, is_reversed

HEAD = {word: head for head, words in (  # in English, then in German
    ("resource", "resource ressource"), ("from", "from von ab"), ("to", "to until bis"),
    ("units", "units einheiten anzahl"),
) for word in words.split()}


def read_absences(path: str, project: Numbers, names: Names, terms: Terms) -> list[Away]:
    """By dates, of which the last is the last day away, or by the numbers of periods, as a resource's use is written.
    No first one is from the start on, no last one for ever, and no units are all. A period of which a part is away is
    away."""
    sheet, faults, found = read_sheet(path, read_text(path), is_absence_head), Faults(), []
    heads = [HEAD.get(head.lower(), head.lower()) for head in sheet.heads]
    if not {"resource", "from", "to"} <= {*heads}:
        raise BadInput(f"{path}: row 1 has to name the columns resource, from, to and units")
    places = {head: heads.index(head) for head in HEAD.values() if head in heads}
    for place, head in enumerate(heads):
        with faults.kept():
            if head and head not in HEAD.values() and HEADS.get(head) is not Column.NOTE:
                raise fault_at(path, sheet.head_row, place, head,
                               "not a column of absences, which are resource, from, to, "
                               "units and notes")
            if head in heads[:place] and head in HEAD.values():
                raise fault_at(path, sheet.head_row, place, sheet.heads[place], f"a second column '{short(head)}'")
    must_be_titles(path, sheet, faults)
    columns = Columns(sheet.heads)
    sheet = with_one_sign(path, sheet, {Column.STARTED: places["from"], Column.FINISHED: places["to"]}, faults)
    for number, cells in sheet.numbered():
        row = Row(replace(terms, file=path, columns=columns), number, cells)
        with faults.kept():
            row.must_be_below_heads()
            one = read_absence(row, {head: cell(cells, place) for head, place in places.items()}, places, project,
                               names)
            found += [one] if one.ends is None or one.begins < one.ends else []
            must_be_there(row, places["resource"], project, names, found)
    faults.tell()
    return found


def is_absence_head(row: list[str]) -> bool:
    return {"resource", "from"} <= {HEAD.get(head.lower()) for head in row}


def must_be_titles(path: str, sheet: Sheet, faults: Faults) -> None:
    """Above the columns stand titles and notes alone, which say so."""
    for number, row in enumerate(sheet.above, 1):
        place = next((place for place, text in enumerate(row) if text), 0)
        with faults.kept():
            if any(row) and not row[place].startswith(NOTE) and WORDS.get(row[place].lower()) != "title":
                raise fault_at(path, number, place, "",
                               f"'{short(row[place])}' stands above the columns; write a title behind "
                               f"'title', and a note for people behind '{NOTE}'")


def read_absence(row: Row, told: dict[str, str], places: dict[str, int], project: Numbers, names: Names) -> Away:
    if told["resource"] not in names.resources:
        raise row.fault(places["resource"], f"no resource '{short(told['resource'])}'"
                        f"{did_you_mean(told['resource'], names.resources)}")
    resource = names.resources.index(told["resource"])
    begins, ends = periods_away(row, told, places)
    units = row.units(places["units"]) if told.get("units") else project.capacities[resource]
    if units > project.capacities[resource]:
        raise row.fault(places["units"], f"{units} of {short(told['resource'])} can't be away, of which there are "
                        f"{project.capacities[resource]}")
    return Away(resource, begins, ends, units)


def periods_away(row: Row, told: dict[str, str], places: dict[str, int]) -> tuple[int, int | None]:
    """From the first period that it touches, be it for a minute, until the end of the last one."""
    first = row.time_in(places["from"], told["from"]) if told["from"] else 0
    last = row.time_in(places["to"], told["to"]) if told["to"] else None
    begins = first if isinstance(first, int) else max(0, row.by(places["from"], told["from"], first.at))
    if last is None:
        return begins, None
    ends = last if isinstance(last, int) else row.from_on(places["to"], told["to"], last.next())
    if is_reversed(first, last, begins, ends):
        raise row.fault(places["to"], f"'{short(told['to'])}' is before '{short(told['from'])}'")
    return begins, ends


def must_be_there(row: Row, place: int, project: Numbers, names: Names, found: list[Away]) -> None:
    """No more units are away at once than there are."""
    last = found[-1] if found else None
    if last is not None:
        others = [one for one in found if one.resource == last.resource]
        for time in sorted({one.begins for one in others}):
            away = sum(one.units for one in others if one.begins <= time and (one.ends is None or time < one.ends))
            if away > project.capacities[last.resource]:
                raise row.fault(place, f"with the rows above {away} of {short(names.resources[last.resource])} are "
                                f"away at {time}, and there are {project.capacities[last.resource]}")
