"""One table has one decimal sign: a point, or a comma. By that 1.000 is one, or a thousand; where nothing says it, a
fault."""
import re
from collections.abc import Iterator, Mapping
from dataclasses import dataclass, replace

from ..dates import is_dated
from ..letters import short
from .columns import Column
from .csv_text import Sheet, cell
from .faults import Faults, fault_at
from .quantities import WORDS

SIGNS = {".": "point", ",": "comma"}
PARTS = r"\d*(?:[.,]\d+)+"
NUMBER = re.compile(rf"[-+]?\s*({PARTS})")  # with which a cell begins
LAG = re.compile(rf"(?:(?:FS|SS|FF|SF|EA|AA|EE|AE)\s*[-+]|<=?|\u2264)\s*"
                 rf"({PARTS}(?=\s*(?:(?:{'|'.join(WORDS)})\b|%))|\d+\.\d+(?![\d.,]))", re.I)
THOUSANDS = re.compile(r"[1-9]\d{0,2}([.,])\d{3}(?:\1\d{3})*")
LENGTHS = (Column.DURATION, Column.REMAINING, Column.DONE, Column.AT_LEAST, Column.AT_MOST, Column.NOT_BEFORE,
           Column.END_BY, Column.DUE, Column.STARTED, Column.FINISHED)


@dataclass(frozen=True)
class Found:
    """A number with a sign, and the cell in which it stands."""

    row: int
    column: int
    text: str
    number: str

    @property
    def sign(self) -> str:
        """The decimal sign that the number has, or by its signs of thousands may have alone; empty where it may be
        either."""
        signs = [sign for sign in self.number if sign in SIGNS]
        if THOUSANDS.fullmatch(self.number):
            return "" if len(signs) == 1 else next(sign for sign in SIGNS if sign != signs[0])
        return signs[-1]

    def plain(self, sign: str) -> str | None:
        """The number without signs of thousands; none where it is none with this decimal sign."""
        whole, has, rest = self.number.rpartition(sign) if sign in self.number else (self.number, "", "")
        if re.search("[.,]", whole) and (sign in whole or not THOUSANDS.fullmatch(whole)):
            return None
        return re.sub("[.,]", "", whole) + has + rest

    def readings(self) -> str:
        """The two numbers that it may be."""
        whole, sign, rest = re.split("([.,])", self.number)
        return f"{whole}{rest}, or {(whole + sign + rest).rstrip('0').rstrip(sign)}"


def with_one_sign(file: str, sheet: Sheet, places: Mapping[Column, int], faults: Faults) -> Sheet:
    """The same sheet without signs of thousands in the cells that have lengths."""
    found = [*numbers_in(sheet, places)]
    first = next((one for one in found if one.sign), None)
    rows = [[*row] for row in sheet.rows]
    for one in found:
        with faults.kept():
            plain = None if first is None else one.plain(first.sign)
            if plain is None:
                raise fault_at(file, one.row, one.column, sheet.heads[one.column], why_no_number(one, first))
            cells = rows[one.row - sheet.head_row - 1]
            cells[one.column] = cells[one.column].replace(one.number, plain, 1)
    return replace(sheet, rows=rows)


def numbers_in(sheet: Sheet, places: Mapping[Column, int]) -> Iterator[Found]:
    for number, row in sheet.numbered():
        for column, place in places.items():
            text = cell(row, place)
            if column is Column.PREDECESSORS:
                parts = [part[1] for part in LAG.finditer(text)]
            else:
                begin = NUMBER.match(text) if column in LENGTHS and not is_dated(text) else None
                parts = [] if begin is None else [begin[1]]
            yield from (Found(number, place, text, part) for part in parts)


def why_no_number(one: Found, first: Found | None) -> str:
    if first is None:
        return f"'{short(one.text)}' may be {one.readings()}; write that"
    return (f"'{short(one.text)}' has not the decimal {SIGNS[first.sign]} that row {first.row} has in "
            f"'{short(first.text)}'; one table has one decimal sign")
