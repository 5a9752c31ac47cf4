"""Answers as they are handed in: the lines of psmax or of a file of starts, JSON, or a table in CSV."""
import json
import re
from collections.abc import Mapping
from dataclasses import dataclass, field

from ..dates import is_dated
from ..errors import BadInput
from ..files import SPREADSHEET, decoded, must_be_short, read_input, text_in
from ..letters import composed, short
from .columns import is_head
from .csv_text import Sheet, cell, letters, read_sheet

WITH_STARTS = ("optimal ", "feasible ", "earliest ")  # the beginnings of those that have starts below
LINE = re.compile(r"[ \t]*([0-9]{1,4})[ \t]+(-?[0-9]{1,10})[ \t\r]*")
START = re.compile(r"-?[0-9]{1,10}")
PROJECT = re.compile(r"\d+[ \t]+\d+[ \t]+0[ \t]+0\s")  # the beginning of a project
KEYS = {"bound", "makespan", "starts", "status"}  # of an answer in JSON (docs/FORMAT.md)
NAMED = {"activity", "name", "task name", "task", "vorgang", "vorgangsname"}  # columns by which an activity is known
STARTS = {"start", "anfang", "beginn"}  # columns that say when it starts
VIOLATIONS = "these are violations that `check` found, and no starts"
WITHOUT = {  # the beginning of an answer without starts, and what it means
    "no schedule": "there is none to show; `plan why` says why",
    "unknown ": "no schedule was found before the search stopped, so there is none to show",
    "positive cycle ": "the lags contradict each other, so there is no schedule to show; `plan why` says which",
}
NO_ANSWER = {  # the beginning of what is no answer, and what it is
    "start ": VIOLATIONS,
    "lag ": VIOLATIONS,
    "overload ": VIOLATIONS,
    "proved ": "this is what a record proves, and there are no starts in it",
    "record ": "this is the record of a search, which `plan verify` checks, and no starts",
    "psmax: ": "this is a fault that psmax told, and no answer",
}
PERIOD = "period"  # the column that says what starts count
HEADS = {  # of an answer's columns
    "activity": ("activity",),
    "name": ("name", "task name", "task", "vorgang", "vorgangsname"),
    "start": ("start", "anfang", "beginn"),
    "day": ("first day", "from"),
    "takes": ("takes",),
    PERIOD: (PERIOD,),
}


@dataclass(frozen=True)
class Begin:
    """When an activity starts, as an answer says it: the number of a period, or a date, or both."""

    period: int | None
    date: str
    place: str = ""  # of these in the file, for faults


@dataclass(frozen=True)
class AnswerText:
    """Starts by the numbers that the activities had then, and by the same numbers their names, where it has them."""

    called: str  # in faults
    starts: dict[int, Begin] = field(default_factory=dict)
    names: dict[int, str] = field(default_factory=dict)
    takes: dict[int, int] = field(default_factory=dict)  # how long the activities took then, where the answer says so
    period: str = ""  # what a period was then, where the answer says so
    said: str = ""  # the first line of the answer, if it has one
    instead: str = ""  # a sentence for an answer without starts
    is_table: bool = False  # which has neither the start nor the end of the project

    def must_have_starts(self) -> "AnswerText":
        if self.instead:
            raise BadInput(f"{self.called}: {self.instead}")
        return self


def read_answer(path: str | None) -> AnswerText:
    """The answer in a file, or on standard input where none is named."""
    return answer_of(read_input(path), path or "standard input")


def answer_of(data: bytes, called: str) -> AnswerText:
    must_be_short(called, data)
    text = text_in(data, called) if data.startswith(SPREADSHEET) else decoded(data)
    sheet = named_sheet(text)
    if sheet is not None and not STARTS.isdisjoint(map(str.lower, sheet.heads)):
        return from_sheet(sheet, called)
    if sheet is not None:
        raise BadInput(f"{called}: This is a table without a column `start`, and no answer.")
    if text.lstrip().startswith("{"):
        return from_json(text, called)
    return from_lines(text, called, {})


def from_lines(text: str, called: str, activities: Mapping[str, object]) -> AnswerText:
    """The lines of psmax, or of a file of starts. What else is known of the activities stands in the first line, as
    JSON."""
    lines = text.split("\n")
    said, brace, told = lines[0].strip().partition(" {")
    instead = sentence(text.strip(), called)
    if instead:
        return AnswerText(called, instead=instead)
    if not text.startswith(WITH_STARTS):
        return AnswerText(called, begins(starts_in(lines, 1, called)))
    if brace:
        activities = json_object("{" + told)
    names, durations = activities.get("names", []), activities.get("durations", [])
    if not isinstance(names, list) or not isinstance(durations, list) or not all(type(one) is int for one in durations):
        raise BadInput(f"{called}: line 1: what it says of the activities can't be read")
    starts = starts_in(lines[1:], 2, called)
    named = {i: composed(f"{name}") for i, name in enumerate(names, 1)} if any(names) else {}
    takes, period = {i: length for i, length in enumerate(durations, 1)}, str(activities.get(PERIOD) or "")
    return AnswerText(called, begins(starts), named, takes, period, short(said))


def begins(starts: dict[int, int]) -> dict[int, Begin]:
    return {activity: Begin(start, "") for activity, start in starts.items()}


def starts_in(lines: list[str], number: int, called: str) -> dict[int, int]:
    """The starts in lines `activity start`, of which the first has this number."""
    found: dict[int, int] = {}
    for number, line in enumerate(lines, number):
        fields = LINE.fullmatch(line)
        if fields is None and line.strip():
            raise BadInput(f"{called}: line {number}: not an activity and a start")
        if fields is not None and int(fields[1]) in found:
            raise BadInput(f"{called}: line {number}: repeated")
        if fields is not None:
            found[int(fields[1])] = int(fields[2])
    return found


def sentence(text: str, called: str) -> str:
    """A sentence for an answer without starts; empty where there are starts to read. What is no answer is a fault."""
    first, _, rest = text.partition("\n")
    first = first.partition(" {")[0].strip()
    if not first:
        raise BadInput(f"{called}: The answer is empty.")
    if PROJECT.match(text):
        raise BadInput(f"{called}: This is a project, and no answer.")
    no_answer = next((meaning for begin, meaning in NO_ANSWER.items() if first.startswith(begin)), "")
    if no_answer:
        raise BadInput(f"{called}: The answer is `{short(first)}`: {no_answer}.")
    if first.startswith(WITH_STARTS) and not rest:
        raise BadInput(f"{called}: The answer is `{short(first)}`: there are no starts below it, so there is no "
                       "schedule to show.")
    meaning = next((meaning for begin, meaning in WITHOUT.items() if first.startswith(begin)), "")
    return meaning and f"The answer is `{short(first)}`: {meaning}."


def from_json(text: str, called: str) -> AnswerText:
    """An answer of `psmax solve --json` or `plan solve --json`, as the lines that it stands for."""
    told = json_object(text)
    starts = told.get("starts") or []
    first = plain_first_line(told) if told.keys() >= KEYS else None
    if first is None or not isinstance(starts, list) or not all(type(start) is int for start in starts):
        raise BadInput(f"{called}: line 1: not an activity and a start, and no answer in JSON")
    return from_lines("\n".join([first, *(f"{i} {start}" for i, start in enumerate(starts))]), called, told)


def json_object(text: str) -> dict[str, object]:
    try:
        told = json.loads(text)
    except (ValueError, RecursionError):
        return {}
    return told if isinstance(told, dict) else {}


def plain_first_line(told: dict[str, object]) -> str | None:
    """The first line of the plain answer, or none where this is no answer."""
    bound = told["bound"]
    lateness = told.get("lateness")
    value = told["makespan"] if lateness is None else f"lateness {lateness}"
    lines = {
        "optimal": f"optimal {value}",
        "no schedule": "no schedule",
        "feasible": f"feasible {value} bound {bound}",
        "unknown": f"unknown bound {bound}",
    }
    return lines.get(str(told["status"]))


def answer_sheet(text: str) -> Sheet | None:
    """The rows of an answer in CSV, as `plan write` makes it; none where the text is none, or is a table of
    activities."""
    sheet = named_sheet(text)
    has_starts = sheet is not None and not STARTS.isdisjoint(map(str.lower, sheet.heads))
    return sheet if sheet is not None and has_starts and not is_head(sheet.heads) else None


def named_sheet(text: str) -> Sheet | None:
    """The rows of a table in which activities have names or numbers; none where the text is none."""
    first = text[:10_000].lower()
    if not any(head in first for head in NAMED):
        return None
    try:
        sheet = read_sheet("", text, is_answer_head)
    except BadInput:
        return None
    return sheet if NAMED & {head.lower() for head in sheet.heads} else None


def is_answer_head(row: list[str]) -> bool:
    heads = {head.lower() for head in row}
    return bool(NAMED & heads) and bool(STARTS & heads)


def from_sheet(sheet: Sheet, called: str) -> AnswerText:
    """A table with a row for each activity. A column `activity` has numbers, or names where there is no other. The end
    is not read: it follows from the start."""
    heads = [head.lower() for head in sheet.heads]
    columns = {kind: heads.index(head) for kind, known in HEADS.items() for head in known if head in heads}
    given = AnswerText(called, is_table=True, period=period_of(sheet, called, columns))
    keys = [cell(row, columns.get("activity")) for _, row in sheet.numbered()]
    has_number = all(re.fullmatch("[0-9]{1,4}", key) for key in keys)
    for key, (number, row) in zip(keys, sheet.numbered()):
        activity = int(key) if has_number else len(given.starts) + 1
        if activity in given.starts:
            raise BadInput(f"{called}: row {number}: a second start of activity {activity}")
        given.names[activity] = cell(row, columns.get("name")) or ("" if has_number else key)
        given.starts[activity] = read_begin(sheet, called, number, row, columns)
        if START.fullmatch(cell(row, columns.get("takes"))):
            given.takes[activity] = int(cell(row, columns.get("takes")))
    if not any(given.names.values()):
        given.names.clear()
    return given


def period_of(sheet: Sheet, called: str, columns: dict[str, int]) -> str:
    """What the starts count, which is the same in all rows that say it."""
    first = ""
    for number, row in sheet.numbered():
        text = cell(row, columns.get(PERIOD))
        if text and first and text != first:
            raise BadInput(f"{called}: row {number}, column {letters(columns[PERIOD])} ({PERIOD}): '{short(text)}', "
                           f"and above '{short(first)}'; all starts of an answer count the same")
        first = first or text
    return first


def read_begin(sheet: Sheet, called: str, number: int, row: list[str], columns: dict[str, int]) -> Begin:
    """The start in a row. A date in its own column says the same once more."""
    column, text, day = columns["start"], cell(row, columns["start"]), cell(row, columns.get("day"))
    place = f"{called}: row {number}, column {letters(column)} ({short(sheet.heads[column])})"
    if START.fullmatch(text):
        return Begin(int(text), day, place)
    if is_dated(text):
        return Begin(None, text, place)
    if not text and day:
        return Begin(None, day, place)
    raise BadInput(f"{place}: " + (f"'{short(text)}' is neither a whole number nor a date" if text
                                   else "a whole number or a date is missing"))
