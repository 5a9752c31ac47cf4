"""Spreadsheet files (.xlsx), by openpyxl: one sheet as a text in CSV, each cell as the sheet shows it."""
import csv
import datetime
import io
import re
import zipfile
from collections.abc import Iterator
from contextlib import contextmanager
from functools import partial
from typing import TYPE_CHECKING, Any, NamedTuple

from .dates import decimal_sign
from .errors import BadInput, Failed
from .extras import extra
from .files import LARGEST
from .letters import short
from .process_limits import keep_limits, limited

if TYPE_CHECKING:
    from types import ModuleType

SUFFIX = ".xlsx"
MOST_UNPACKED = 64 << 20  # bytes of all parts
MOST_ROWS, MOST_CELLS = 100_000, 100_000  # of a sheet; openpyxl reads so many cells in two seconds
MOST_SIGNS, MOST_KEPT = 8_000_000, 1_000_000  # < with which tags begin, of a file, and of one that is written again
MOST_MADE = 100_000  # cells of a file that is written again
PIECE, LONGEST = 1 << 20, 4 * 32_767  # bytes that are read at once, and of the text of a cell
SPREAD = {"mergeCell", "hyperlink"}  # what openpyxl makes all cells of a range for
LAST_ROW, LAST_COLUMN = 1_048_576, 16_384  # of any sheet
MINUTE = datetime.timedelta(minutes=1)
DAY_0 = datetime.datetime(1899, 12, 31)
HOURS = "[h"  # how the format of a length begins, such as [h]:mm
UNIT = re.compile(r'"\s*([^\W\d_]+\.?)\s*"')  # in the format of a number, such as 0.0 "h"
DOTS = re.compile(r"d+\\?\.\\?m+\\?\.\\?y+", re.I)  # in the format of a date
EXTRA = "xlsx"  # of the package, which needs openpyxl


class Number(NamedTuple):
    value: float
    unit: str  # that the sheet shows behind it


def openpyxl(called: str) -> "ModuleType":
    return extra("openpyxl", f"{called}: a spreadsheet file", EXTRA)


def workbook(data: bytes, called: str) -> Any:
    """All of a file, to be written again, where openpyxl makes few cells of it."""
    shown = reader_of(data, called, MOST_KEPT, read_only=True)
    with readable(called):
        count = sum(cells_in(shown.archive, part.target) for _, part in shown.parser.find_sheets())
    if count > MOST_MADE:
        raise BadInput(f"{called}: a file into which dates are written has at most {MOST_MADE:,} cells in its sheets, "
                       f"with all that are merged or a link, and this one has {count:,}")
    return reader_of(data, called, MOST_KEPT).wb


def reader_of(data: bytes, called: str, most: int = MOST_SIGNS, **options: bool) -> Any:
    """What has read a file. One that is none, or that has much in little room, is a fault."""
    if len(data) > LARGEST:
        raise BadInput(f"{called}: too long: it has more than {LARGEST:,} bytes")
    openpyxl(called)
    from openpyxl.reader.excel import ExcelReader
    with readable(called):
        with zipfile.ZipFile(io.BytesIO(data)) as parts:
            must_be_plain(parts, called, most)
        reader = ExcelReader(io.BytesIO(data), **options)
        reader.read()
        return reader


def must_be_plain(parts: zipfile.ZipFile, called: str, most: int) -> None:
    """Counted before anything is made of it, since tags take a hundred times the room of a text."""
    if "mimetype" in parts.namelist():
        raise BadInput(f"{called}: a file of OpenDocument; save it as {SUFFIX} or as CSV")
    if sum(part.file_size for part in parts.infolist()) > MOST_UNPACKED:
        raise BadInput(f"{called}: too long: unpacked it has more than {MOST_UNPACKED:,} bytes")
    signs = {part: signs_in(parts, part.filename) for part in parts.infolist()}
    if sum(signs.values()) > most:
        raise BadInput(f"{called}: too long: unpacked it has more than {most:,} signs <")
    if any(part.filename.endswith(".xml") and part.file_size > LONGEST * (count + 1) for part, count in signs.items()):
        raise BadInput(f"{called}: a text in it is longer than a cell may have")


def signs_in(parts: zipfile.ZipFile, name: str) -> int:
    """With which tags begin."""
    with parts.open(name) as file:
        return sum(piece.count(b"<") for piece in iter(partial(file.read, PIECE), b""))


def cells_in(parts: zipfile.ZipFile, name: str) -> int:
    """How many cells openpyxl makes of a sheet, to write it again."""
    from xml.etree.ElementTree import iterparse

    from openpyxl.utils.cell import range_boundaries
    count = 0
    with parts.open(name) as file:
        for _, one in iterparse(file):
            kind = one.tag.rpartition("}")[2]
            count += kind == "c"
            if kind in SPREAD:
                left, top, right, bottom = range_boundaries(one.get("ref", ""))
                count += (1 + (right or LAST_COLUMN) - (left or 1)) * (1 + (bottom or LAST_ROW) - (top or 1))
            one.clear()
    return count


@contextmanager
def readable(called: str) -> Iterator[None]:
    """What is damaged in a file gives exceptions of many kinds."""
    try:
        yield
    except (BadInput, Failed, MemoryError):
        raise
    except Exception as fault:
        raise BadInput(f"{called}: this is a spreadsheet file, and it can't be read: {short(repr(fault))}") from None


def sheet_of(book: Any, name: str | None, called: str) -> Any:
    """The sheet of this name, or the first one that is shown."""
    shown = [one for one in book.worksheets if one.sheet_state == "visible"] or book.worksheets
    wanted = shown if name is None else [one for one in book.worksheets if one.title == name]
    found = next(iter(wanted), None)
    if found is None:
        raise BadInput(f"{called}: no sheet '{short(name or '')}'; it has "
                       + ", ".join(f"'{short(one.title)}'" for one in book.worksheets))
    return found


def sheet_names(data: bytes, called: str) -> list[str]:
    """Of all sheets, within the same limits as their cells."""
    return limited(called, read_names, data, called).splitlines()


def read_names(data: bytes, called: str) -> str:
    openpyxl(called)
    keep_limits()
    return "\n".join(reader_of(data, called, read_only=True).wb.sheetnames)


def as_csv(data: bytes, called: str, name: str | None = None) -> str:
    """The rows stand where they stand in the sheet. No limit on the bytes says how long openpyxl takes, so it has
    limits of its own."""
    return limited(called, read_csv, data, called, name)


def read_csv(data: bytes, called: str, name: str | None) -> str:
    openpyxl(called)
    keep_limits()
    return csv_of(data, called, name)


def csv_of(data: bytes, called: str, name: str | None) -> str:
    with readable(called):
        rows = [[*row] for row in cells_of(data, called, name)]
    texts = [one for row in rows for one in row if isinstance(one, str)]
    comma = decimal_sign(texts) == ","
    text = io.StringIO()
    writer = csv.writer(text, lineterminator="\n")
    writer.writerows([text_of_number(one, comma) for one in row] for row in without_blank(rows))
    return text.getvalue()


def without_blank(rows: list[list[object]]) -> list[list[object]]:
    last = max((place for place, row in enumerate(rows) if any(one != "" for one in row)), default=-1)
    return rows[: last + 1]


def cells_of(data: bytes, called: str, name: str | None) -> Iterator[list[object]]:
    """The text of each cell, or its number. A formula is its value, which the spreadsheet has left in the file."""
    reader = reader_of(data, called, read_only=True, data_only=True)
    sheet = sheet_of(reader.wb, name, called)
    path = next(part.target for one, part in reader.parser.find_sheets() if one.name == sheet.title)
    sheet.reset_dimensions()
    count, faults = 0, list[str]()
    for number, row in enumerate(sheet.iter_rows(), 1):
        count += len(row)
        if number > MOST_ROWS or count > MOST_CELLS:
            raise BadInput(f"{called}: a table has at most {MOST_ROWS:,} rows and {MOST_CELLS:,} cells")
        faults += [f"{called}: cell {one.coordinate}: {short(str(one.value))}" for one in row if one.data_type == "e"]
        yield [cell_shown(one) for one in row]
    faults += [f"{called}: cell {one}: a formula without its value; open and save the file in a spreadsheet"
               for one in unvalued(reader.archive, path)]
    if faults:
        raise BadInput(*faults)


def unvalued(parts: zipfile.ZipFile, name: str) -> Iterator[str]:
    """The cells of a sheet whose formulas have no value. Only the file says so: openpyxl shows the one or the other."""
    from xml.etree.ElementTree import iterparse
    with parts.open(name) as file:
        for _, one in iterparse(file):
            kind = one.tag.rpartition("}")[2]
            if kind == "c" and one.find("{*}f") is not None and one.get("t", "n") == "n" and not one.findtext("{*}v"):
                yield one.get("r", "")
            if kind == "row":
                one.clear()


def cell_shown(cell: Any) -> object:
    """A text as the sheet shows it, or a number, whose decimal sign is that of the sheet's texts."""
    value, form = cell.value, getattr(cell, "number_format", "") or ""
    if isinstance(value, bool):
        return str(value).lower()
    if form.lower().startswith(HOURS) and isinstance(value, datetime.datetime | datetime.time | datetime.timedelta):
        return Number(minutes_in(value), "min")
    if isinstance(value, datetime.datetime):
        return moment_text(value, form)
    if isinstance(value, datetime.time):
        return f"{value:%H:%M}"
    if isinstance(value, int | float) and "%" in form:
        return Number(100 * value, "%")
    if isinstance(value, int | float):
        unit = UNIT.search(form)
        return Number(value, unit[1] if unit else "")
    return "" if value is None else str(value)


def minutes_in(value: datetime.datetime | datetime.time | datetime.timedelta) -> float:
    """Of a length, which openpyxl takes for a moment of a day, or of days from the beginning of 1900 on."""
    if isinstance(value, datetime.time):
        return 60 * value.hour + value.minute + value.second / 60
    return (value - DAY_0 if isinstance(value, datetime.datetime) else value) / MINUTE


def moment_text(value: datetime.datetime, form: str) -> str:
    """With the hour where the sheet shows one. Days are counted in fractions, so a minute may be a little less."""
    near = value + MINUTE / 2
    value = near.replace(second=0, microsecond=0) if abs(near.second - 30) < 2 else value
    day = f"{value:%d.%m.%Y}" if DOTS.search(form) else f"{value:%Y-%m-%d}"
    has_hour = "h" in form.lower() or (value.hour, value.minute, value.second) != (0, 0, 0)
    return day if not has_hour else f"{day} {value:%H:%M:%S}".removesuffix(":00")


def text_of_number(cell: object, comma: bool) -> str:
    if not isinstance(cell, Number):
        return f"{cell}"
    text = f"{cell.value:.10g} {cell.unit}".rstrip()
    return text.replace(".", ",") if comma else text
