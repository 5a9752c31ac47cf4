"""The tables of a .xer file, which Primavera P6 exports. A line is a table's name behind %T, the names of its columns
behind %F, or a row's cells behind %R, with tabs between; %E ends the file."""
import datetime
import re
from collections.abc import Iterator
from fractions import Fraction
from itertools import islice

from ..errors import BadInput
from ..letters import short
from .tool_file import checked_moment

Row = dict[str, str]
HEAD, TABLE, COLUMNS, CELLS, LAST = "ERMHDR", "%T", "%F", "%R", "%E"
# What is read. Texts of other tables may go on in the next line.
READ = {"CALENDAR", "PROJECT", "PROJWBS", "RSRC", "RSRCRATE", "SCHEDOPTIONS", "TASK", "TASKPRED", "TASKRSRC"}
NAMED = re.compile(r"\n%T(?![^\t\r\n])(?:\t([^\t\r\n]*))?[^\n]*")  # the line with the name of a table
END = re.compile(r"\n%E(?![^\t\r\n])")  # where a file ends
NUMBER = re.compile(r"-?(\d{1,9}([.,]\d{0,12})?|[.,]\d{1,12})")
MOST_TABLES, MOST_COLUMNS, MOST_CELLS = 1_000, 1_000, 500_000  # of a file, of a table, and of all tables that are read
HOUR = 60
NEAR = Fraction(1, 100)  # of a minute, since hours have six digits behind the point


def read_tables(text: str) -> dict[str, list[Row]]:
    """The rows of each table that is read."""
    found: dict[str, list[Row]] = {}
    count = 0
    for number, name, lines in tables_of(text):
        count += lines.count("\n") + lines.count("\t")
        if count > MOST_CELLS:
            raise BadInput(f"line {number}: what is read of a file has at most {MOST_CELLS:,} cells")
        found.setdefault(name, []).extend(table_rows(number, name, lines))
    return found


def tables_of(text: str) -> Iterator[tuple[int, str, str]]:
    """Each table that is read: the number of the line with its name, the name, and what stands below. Others are passed
    over, whatever their texts are."""
    if not text.startswith(HEAD):
        raise BadInput(f"the file does not begin with {HEAD}")
    end = END.search(text)
    if end is None:
        raise BadInput("the file has no %E at its end, so it was cut off")
    marks = [*islice(NAMED.finditer(text, 0, end.start()), MOST_TABLES + 1)]
    if len(marks) > MOST_TABLES:
        raise BadInput(f"a file has at most {MOST_TABLES:,} tables")
    number, place = 1, 0
    for mark, stop in zip(marks, [*(mark.start() for mark in marks[1:]), end.start()]):
        number, place, name = number + text.count("\n", place, mark.end()), mark.end(), (mark[1] or "").strip()
        if name in READ:
            yield number, name, text[place:stop]


def table_rows(number: int, name: str, lines: str) -> Iterator[Row]:
    """The rows of a table that is named in the line of this number."""
    columns = list[str]()
    for line, text in enumerate(lines.split("\n")[1:], number + 1):
        mark, *cells = text.removesuffix("\r").split("\t", MOST_COLUMNS + 1)
        if len(cells) > MOST_COLUMNS:
            raise BadInput(f"line {line}: a table has at most {MOST_COLUMNS:,} columns")
        if mark == COLUMNS:
            columns = cells
        elif mark == CELLS:
            yield make_row(line, name, columns, cells)
        elif text.strip():
            raise BadInput(f"line {line}: neither a row of {name} nor a table: '{short(text)}'")


def make_row(line: int, name: str, columns: list[str], cells: list[str]) -> Row:
    if len(cells) > len(columns):
        raise BadInput(f"line {line}: {len(cells)} cells, and {name} has {len(columns)} columns")
    return dict(zip(columns, cells))


def cell_of(row: Row, name: str) -> str:
    return row.get(name, "").strip()


def number_in(row: Row, name: str, called: str) -> Fraction | None:
    """What a number says; none where the cell is empty. Its decimal sign is that of the machine that wrote it."""
    text = cell_of(row, name)
    if text and not NUMBER.fullmatch(text):
        raise BadInput(f"{called}: {name} is no number: '{short(text)}'")
    return Fraction(f"0{text}".replace("0-", "-0").replace(",", ".").removesuffix(".")) if text else None


def minutes(row: Row, name: str, called: str) -> int | None:
    """A length in hours as minutes."""
    hours = number_in(row, name, called)
    found = None if hours is None else round(hours * HOUR)
    if hours is not None and found is not None and abs(hours * HOUR - found) > NEAR:
        raise BadInput(f"{called}: {name} has no whole minutes: '{short(cell_of(row, name))}'")
    return found


def read_date(row: Row, name: str, called: str) -> datetime.datetime | None:
    """What a date says, without its seconds; none where the cell is empty."""
    text = cell_of(row, name)
    if not text:
        return None

    def read(told: str) -> datetime.datetime:
        return datetime.datetime.strptime(told[:16], "%Y-%m-%d %H:%M")

    return checked_moment(text, read, "2026-03-02 08:00", f"{called}: {name}")
