"""Texts in CSV, as spreadsheets write and open them: tables, answers and batches."""
import csv
import io
import re
from collections.abc import Callable, Iterable, Sequence
from dataclasses import dataclass
from functools import lru_cache

from ..errors import BadInput
from ..files import MOST_BYTES
from ..letters import composed

SEPARATORS = {"comma": ",", "semicolon": ";", "tab": "\t"}
SEP_LINE = re.compile(r'"?sep=(.)"?[ ,;\t]*\r?\n', re.I)  # what a spreadsheet puts first to tell the separator
MOST_ROWS, MOST_CELLS, MOST_SIGNS = 100_000, 250_000, 32_767  # of a table; of a cell, as in spreadsheets
MOST_COLUMNS = 2_000
MOST_TITLES, LONGEST = 40, 200_000  # rows above the columns, and signs of such a row that are looked at
FORCED = re.compile(r'="(?:[^"]|"")*"')
ODD = re.compile(r"[-=+@\t\r]|[^\w\s]*\d|[^\W\d_]+[\s./-]*\d+(?:[\s.,/-]+\d+)?$|(?:true|false|wahr|falsch)$", re.I)
ODD_BLANKS = re.compile(r"[^\S ]+")
MARK = "\ufeff"  # the byte order mark, by which a spreadsheet knows that a text is UTF-8


@dataclass(frozen=True)
class Sheet:
    """Rows of trimmed cells, one of which names the columns."""

    heads: list[str]
    rows: list[list[str]]  # those below
    separator: str
    above: list[list[str]]  # the rows above: titles

    @property
    def head_row(self) -> int:
        """Its number, as a spreadsheet shows it."""
        return len(self.above) + 1

    def numbered(self) -> list[tuple[int, list[str]]]:
        """The rows that aren't empty, with the numbers that a spreadsheet shows for them."""
        return [(number, row) for number, row in enumerate(self.rows, self.head_row + 1) if any(row)]


def letters(column: int) -> str:
    """The letters that a spreadsheet gives a column: A, B, .., Z, AA."""
    text = ""
    column += 1
    while column:
        column, letter = divmod(column - 1, 26)
        text = chr(ord("A") + letter) + text
    return text


def cell(row: Sequence[str], column: int | None) -> str:
    """The text of a cell; empty where the row is shorter, or the table has no such column."""
    return row[column] if column is not None and column < len(row) else ""


def read_sheet(file: str, text: str, names_columns: Callable[[list[str]], bool] = lambda row: True,
               count_heads: Callable[[list[str]], int] = lambda row: 0) -> Sheet:
    """The separator is the one that a line `sep=` tells, else the one of comma, semicolon and tab that most rows have
    at least once. The first row that names the columns is asked for; where none does, it is the first one that has most
    of their names. Heads have one blank between words."""
    must_be_small(file, text, SEPARATORS.values())
    text = composed(text.removeprefix(MARK))
    told = SEP_LINE.match(text)
    text = text[told.end() :] if told else text
    if told:
        must_be_small(file, text, told[1])
    separator = told[1] if told else separator_of(text, names_columns)
    rows = split(file, text, separator)
    place = head_of(rows, names_columns, count_heads)
    if not rows or not any(rows[place]):
        raise BadInput(f"{file}: row 1 is empty; it must name the columns")
    return Sheet(heads(rows[place]), rows[place + 1 :], separator, rows[:place])


def separator_of(text: str, names_columns: Callable[[list[str]], bool]) -> str:
    """The one that row 1 has most of; with titles above the columns the one by which a row names these."""
    for line in text.split("\n", MOST_TITLES)[:MOST_TITLES]:
        separator = max(SEPARATORS.values(), key=line.count)
        try:
            if names_columns(heads([one for row in csv.reader([line[:LONGEST]], delimiter=separator) for one in row])):
                return separator
        except csv.Error:
            pass
    return max(SEPARATORS.values(), key=text.partition("\n")[0].count)


@lru_cache(maxsize=2)
def split(file: str, text: str, separator: str) -> list[list[str]]:
    """Of a text once, however often it is looked at; nobody changes what it is."""
    found = csv.reader(io.StringIO(text, newline=""), delimiter=separator, strict=True)
    try:
        return [trim_cells(file, number, row) for number, row in enumerate(found, 1)]
    except (csv.Error, ValueError) as fault:
        raise BadInput(f"{file}: not a table in CSV: {fault}") from None


def trim_cells(file: str, number: int, row: list[str]) -> list[str]:
    """Those of a row of this number, as they are read."""
    if len(row) > MOST_COLUMNS and any(one.strip() for one in row[MOST_COLUMNS:]):
        raise BadInput(f"{file}: row {number}: a table has at most {MOST_COLUMNS:,} columns, and this one {len(row):,}")
    cells = [plain_blanks(unforced(one.strip())) for one in row]
    long = next((place for place, one in enumerate(cells) if len(one) > MOST_SIGNS), None)
    if long is not None:
        raise BadInput(f"{file}: row {number}, column {letters(long)}: a cell has at most {MOST_SIGNS:,} signs")
    return cells


def must_be_small(file: str, text: str, separators: Iterable[str]) -> None:
    """Counted before anything is made of it, since a text has many rows or cells in little room."""
    if len(text) > MOST_BYTES:
        raise BadInput(f"{file}: too long: it has more than {MOST_BYTES:,} bytes")
    rows = max(text.count("\n"), text.count("\r"))
    if rows > MOST_ROWS:
        raise BadInput(f"{file}: a table has at most {MOST_ROWS:,} rows, and this one {rows:,}")
    cells = rows + max(map(text.count, separators))
    if cells > MOST_CELLS:
        raise BadInput(f"{file}: a table has at most {MOST_CELLS:,} cells, and this one {cells:,}")


def head_of(rows: list[list[str]], names_columns: Callable[[list[str]], bool],
            count_heads: Callable[[list[str]], int]) -> int:
    first = rows[:MOST_TITLES]
    nearest = max(range(len(first)), key=lambda place: (count_heads(heads(first[place])), -place), default=0)
    return next((place for place, row in enumerate(first) if names_columns(heads(row))), nearest)


def heads(row: list[str]) -> list[str]:
    return [" ".join(head.split()) for head in row]


def unforced(cell: str) -> str:
    """What a spreadsheet shows of a cell that it is told to take for a text: `="2-3"` is 2-3."""
    return cell[2:-1].replace('""', '"') if cell.startswith("=") and FORCED.fullmatch(cell) else cell


def plain_blanks(cell: str) -> str:
    """The cell with a blank for each line break and each blank of another kind."""
    return cell if cell.isascii() and cell.isprintable() else ODD_BLANKS.sub(" ", cell)


class Text(str):
    """Words of the planner's, which a spreadsheet must not take for a formula, a number or a date."""


def as_shown(cell: object) -> object:
    """What makes a spreadsheet show just these words; reading makes the words of it again."""
    return '="' + cell.replace('"', '""') + '"' if isinstance(cell, Text) and ODD.match(cell) else cell


def write_sheet(rows: Iterable[Sequence[object]], separator: str = ",", excel: bool = False) -> str:
    """The rows as a text; for a spreadsheet with a byte order mark, lines that end as it ends them, and words that it
    shows as they are."""
    text = io.StringIO()
    made = ([as_shown(cell) for cell in row] for row in rows) if excel else rows
    csv.writer(text, delimiter=separator, lineterminator="\r\n" if excel else "\n").writerows(made)
    return (MARK if excel else "") + text.getvalue()
