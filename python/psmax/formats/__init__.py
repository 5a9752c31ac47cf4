"""The texts of projects that are read and written, a module each. docs/FORMATS.md says what they are."""
import pathlib
import re
from collections import Counter
from collections.abc import Callable
from dataclasses import dataclass
from importlib import import_module
from typing import Any

from ..errors import BadInput, WrongType
from ..files import LARGEST, decoded, must_be_short
from ..letters import at_most, composed, short
from ..model import Parts
from . import job_shop, json_text, mspdi_sign, rcp, sch, sm, taillard, xer_sign

SHOPS = "job-shop", "taillard", "open-shop"
# Where an instance begins in a text of Taillard's, or, with a name, of the OR-Library.
PIECE = re.compile(r"^[ \t]*(?:(?:Nb|number) of jobs[ \t]*,|instance[ \t]+(\w[\w.-]*)[ \t\r]*$)", re.I | re.M)
COMPOUND = b"\xd0\xcf\x11\xe0\xa1\xb1\x1a\xe1"  # how older files of Microsoft begin


@dataclass(frozen=True)
class Format:
    """A kind of text: what it is called, how its files are, how it is known, and what reads and writes it."""

    name: str
    suffixes: tuple[str, ...]
    is_like: Callable[[str], bool]
    read: Callable[[str, Parts], None]
    write: Callable[[Parts], str]
    has_hours: bool = False  # of resources, of their own
    has_dated_lags: bool = False  # in calendar days


def imported(module: str, name: str) -> Callable[..., Any]:
    """A function of a module that is imported once it is called, since few need it."""
    return lambda *given: getattr(import_module(f".{module}", __name__), name)(*given)


# In the order in which a text is looked at.
FORMATS = {one.name: one for one in (
    Format("json", (json_text.SUFFIX,), json_text.is_like, json_text.read, json_text.write, True, True),
    Format("mspdi", (mspdi_sign.SUFFIX,), mspdi_sign.is_like, imported("mspdi", "read"),
           imported("mspdi_text", "write"), True),
    Format("xer", (xer_sign.SUFFIX,), xer_sign.is_like, imported("xer", "read"), imported("xer_text", "write"), True),
    Format("sm", (sm.SUFFIX,), sm.is_like, sm.read, sm.write),
    Format("open-shop", (), taillard.is_like_open_shop, taillard.read_open_shop, taillard.write_open_shop),
    Format("taillard", (), taillard.is_like_job_shop, taillard.read_job_shop, taillard.write_job_shop),
    Format("sch", (sch.SUFFIX,), sch.is_like, sch.read, sch.write),
    Format("job-shop", (job_shop.SUFFIX,), job_shop.is_like, job_shop.read, job_shop.write),
    Format("rcp", (rcp.SUFFIX,), rcp.is_like, rcp.read, rcp.write),
)}


def format_named(name: str) -> Format:
    if not isinstance(name, str):
        raise WrongType(f"format {short(repr(name))}: no name of a format, such as {', '.join(FORMATS)}")
    if name not in FORMATS:
        raise BadInput(f"format '{short(name)}': none of {', '.join(FORMATS)}")
    return FORMATS[name]


def must_say_all(project: Parts, one: Format) -> None:
    """A fault where a format has no place for something of a project."""
    if project.hours and not one.has_hours:
        raise BadInput(f"{one.name} has no hours of resources; write this project as "
                       f"{' or '.join(one.name for one in FORMATS.values() if one.has_hours)}")
    what = {True: "parts tied to shifts that differ", False: "lags in calendar days"}
    faults = [f"{one.name} has no {what[bool(lag.shifts)]}: '{short(lag.before.activity.name)}' and "
              f"'{short(lag.after.activity.name)}'"
              for lag in project.lags if lag.shifts or lag.is_dated and not one.has_dated_lags]
    if faults:
        raise BadInput(*at_most(faults))


def is_like_some(text: str) -> bool:
    """Whether a text has one of the formats."""
    return any(one.is_like(text) for one in FORMATS.values())


def found(text: str) -> Format:
    """The format of a text, by what it holds."""
    one = next((one for one in FORMATS.values() if one.is_like(text)), None)
    if one is None:
        raise BadInput(f"no text of a project that psmax knows, which is one of {', '.join(FORMATS)}")
    return one


def read(data: bytes, project: Parts, called: str, name: str | None = None) -> Format:
    """Reads a project into an empty one. Faults begin with what the text is called."""
    must_be_readable(called, data)
    text = composed(decoded(data))
    try:
        one = found(text) if name is None else format_named(name)
        count = len(pieces(text, called)) if one.name in SHOPS else 1
        if count > 1:
            raise BadInput(f"it holds {count} instances; `plan read FILE --out FOLDER/` writes a file of each")
        one.read(text, project)
    except BadInput as fault:
        raise BadInput(*(f"{called}: {re.sub('^the text: ', '', str(told))}" for told in fault.args)) from None
    return one


def is_shop(text: str) -> bool:
    return any(FORMATS[name].is_like(text) for name in SHOPS)


def pieces(text: str, called: str) -> dict[str, str]:
    """The instances of a text of shops, by their names, or else by what the text is called and their number; one alone
    is the text as it is."""
    places = [*PIECE.finditer(text)]
    if len(places) < 2:
        return {called: text}
    ends = [*(place.start() for place in places[1:]), len(text)]
    names = [place[1] or f"{called}-{number}" for number, place in enumerate(places, 1)]
    twice, count = Counter(names).most_common(1)[0]
    if count > 1:
        raise BadInput(f"two instances are called {twice}")
    return {name: text[place.start() : end] for name, place, end in zip(names, places, ends)}


def must_be_readable(called: str, data: bytes) -> None:
    """A fault where a text is too long: psmax's own and those of planning tools may have so many bytes as psmax reads,
    others fewer."""
    if data.startswith(COMPOUND):
        raise BadInput(f"{called}: a file of Microsoft Project (.mpp) or of an old Excel (.xls); save it as XML or as "
                       ".xlsx")
    begin = decoded(data[:10_000])
    if not any(one.is_like(begin) for one in (sch, mspdi_sign, xer_sign)):
        must_be_short(called, data)
    if len(data) > LARGEST:
        raise BadInput(f"{called}: too long: it has more than {LARGEST:,} bytes")


def format_of_file(path: str) -> str:
    """The name of the format that files of this suffix have."""
    suffix = pathlib.PurePath(path).suffix.lower()
    one = next((one.name for one in FORMATS.values() if suffix in one.suffixes), None)
    if one is None:
        raise BadInput(f"{path}: its suffix names no format; name one of {', '.join(FORMATS)}")
    return one
