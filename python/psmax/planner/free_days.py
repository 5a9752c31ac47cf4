"""Days without work, with their names: the public holidays of a country or a part of it, or what a file says."""
import datetime
import re
from collections.abc import Iterator

from ..dates import FAR, FAR_YEARS, read_moment
from ..errors import BadInput
from ..extras import extra
from ..files import read_text
from ..letters import at_most, short

CODE = re.compile(r"([A-Z]{2})(?:-([A-Z0-9]{1,3}))?")  # of a country, and of a part of it (ISO 3166)
YEARS = 10  # from the project's first day on, for which public holidays are taken
DAY = datetime.timedelta(days=1)
MOST_SIGNS, MOST_LINES, MOST_CODES, MOST_DAYS = 1_000_000, 10_000, 20, 100_000  # of a file
DATE = r"\d{4}-\d{1,2}-\d{1,2}|\d{1,2}[./]\d{1,2}[./]\d{2,4}"
LINE = re.compile(rf"(\S*?)(?:\s*(?:\.\.|\u2013|-|\bto\b|\bbis\b)\s*({DATE}))?(?:[,;\s]+(.*))?")
Days = dict[datetime.date, str]


def named_days(told: str, order: str | None, first: datetime.date) -> Days:
    """What a setting says: a code such as DE-BY, or the name of a file."""
    if CODE.fullmatch(told):
        return public_holidays(told, first, f"holidays {told}")
    return days_in_file(told, order, first)


def public_holidays(code: str, first: datetime.date, told: str) -> Days:
    """From the year of the first day on. A country or a part that the package doesn't know is a fault."""
    found, package = CODE.fullmatch(code), extra("holidays", told)
    country, part = (found[1], found[2]) if found is not None else (code, None)
    years = range(first.year, first.year + YEARS + 1)
    make = getattr(package, "country_holidays", package.CountryHoliday)
    name = "subdiv" if hasattr(package, "country_holidays") else "prov"
    try:
        parts = parts_of_country(type(make(country, years=[first.year])))
        if part is not None and part not in parts:
            raise BadInput(f"{told}: {country} has no part {part}, but {', '.join(parts) or 'none'}")
        more = {} if part is None else {"state" if name == "prov" and country in ("US", "AU") else name: part}
        return dict(make(country, years=years, **more))
    except (KeyError, NotImplementedError):
        raise BadInput(f"{told}: the package holidays knows no country {country}") from None


def parts_of_country(country: type) -> list[str]:
    """The codes of its parts, by the names that versions of the package have for them."""
    return [*dict.fromkeys(one for name in ("subdivisions", "PROVINCES", "STATES")
                           for one in getattr(country, name, ()))]


def days_in_file(path: str, order: str | None, first: datetime.date) -> Days:
    """A day a line, or a range such as 2026-12-24 .. 2027-01-06, and behind it a name; or a code, whose holidays are
    added. A line that begins with # is a note."""
    days: Days = {}
    faults, count = list[str](), 0
    for number, text in day_lines(path).items():
        try:
            found = of_line(text, order, first, f"{path}: line {number}")
            days |= found
            count += len(found)
        except BadInput as fault:
            faults.append(f"{fault}")
        except ValueError as fault:
            faults.append(f"{path}: line {number}: {fault}")
        if count > MOST_DAYS:
            raise BadInput(f"{path}: line {number}: up to here there are more than {MOST_DAYS:,} days without work")
    if faults:
        raise BadInput(*at_most(faults))
    return days


def day_lines(path: str) -> dict[int, str]:
    """Those that are neither blank nor notes, by their numbers."""
    text = read_text(path)
    if len(text) > MOST_SIGNS:
        raise BadInput(f"{path}: too long: a list of days without work has at most {MOST_SIGNS:,} signs")
    found = {number: line.strip() for number, line in enumerate(text.splitlines(), 1)
             if line.strip()[:1] not in ("", "#")}
    if len(found) > MOST_LINES:
        raise BadInput(f"{path}: a list of days without work has at most {MOST_LINES:,} lines, and this one "
                       f"{len(found):,}")
    if sum(CODE.match(line) is not None for line in found.values()) > MOST_CODES:
        raise BadInput(f"{path}: a list of days without work names at most {MOST_CODES} countries")
    return found


def of_line(text: str, order: str | None, first: datetime.date, place: str) -> Days:
    word = text.split()[0].rstrip(",;")
    if CODE.fullmatch(word):
        return public_holidays(word, first, f"{place}: {word}")
    found = LINE.fullmatch(text)
    begin, end, name = (found[1], found[2], found[3]) if found is not None else (word, None, None)
    return {day: name or "" for day in between(begin, end, order, first)}


def between(begin: str, end: str | None, order: str | None, first: datetime.date) -> Iterator[datetime.date]:
    """The days of a range, of which each end is near to the project's start."""
    days = []
    for text in (begin, end or begin):
        try:
            days.append(read_moment(text, order).at.date())
        except ValueError as fault:
            raise ValueError(f"'{short(text)}': {fault}") from None
        if abs(days[-1] - first) > FAR:
            raise ValueError(f"'{short(text)}': more than {FAR_YEARS} years from the project's start")
    if days[1] < days[0]:
        raise ValueError(f"'{short(end or '')}' is before '{short(begin)}'")
    for count in range((days[1] - days[0]).days + 1):
        yield days[0] + count * DAY
