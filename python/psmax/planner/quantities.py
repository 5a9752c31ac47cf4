"""Lengths of time as people write them, the period that divides them all, and days as spreadsheets count them."""
import datetime
import re
from collections.abc import Iterable
from dataclasses import dataclass, replace
from enum import Enum
from fractions import Fraction
from functools import lru_cache, reduce
from math import gcd

from ..calendars import Calendar
from ..dates import Moment

NUMBER = r"[-+]?(?:[0-9]{1,9}(?:[.,][0-9]{1,6})?|[.,][0-9]{1,6})"
DAY = 8 * 60  # minutes of work, where nothing says the hours of a day
LENGTH = re.compile(rf"({NUMBER})\s*([^\W\d_]*)[.?]*")
DAY_0 = datetime.datetime(1899, 12, 30)  # from which Excel, LibreOffice and their like count days
LEAST_DAY, MOST_DAY = 36_526, 73_050  # of the years 2000 to 2099
TEN_YEARS = datetime.timedelta(days=3653)
FEWEST = 521  # periods in ten years, which are weeks then


class Unit(Enum):
    """What a number counts. A period is whatever the table's own column means by it."""

    PERIODS = "periods"
    MINUTES = "minutes"
    HOURS = "hours"
    DAYS = "days"
    WEEKS = "weeks"
    CALENDAR_DAYS = "calendar days"


WORDS = {word: unit for unit, words in (
    (Unit.MINUTES, "min mins minute minutes minuten"),
    (Unit.HOURS, "h hr hrs hour hours std stunde stunden"),
    (Unit.DAYS, "d dy dys day days t tag tage"),
    (Unit.WEEKS, "w wk wks week weeks wo woche wochen"),
    (Unit.CALENDAR_DAYS, "cd kt"),
    (Unit.PERIODS, "period periods"),
) for word in words.split()}


@dataclass(frozen=True)
class Length:
    value: Fraction
    unit: Unit

    def __str__(self) -> str:
        return f"{number_text(self.value)} {self.unit.value}"


def number_text(value: Fraction) -> str:
    return f"{value.numerator}" if value.denominator == 1 else f"{float(value):.6f}".rstrip("0")


@lru_cache(maxsize=10_000)
def read_length(text: str, unit: Unit) -> Length:
    """A number with its unit, or else with this one; ValueError where the text is none."""
    found = LENGTH.fullmatch(text.strip())
    word = found[2].lower() if found else ""
    if found is None or (word and word not in WORDS):
        raise ValueError
    return Length(Fraction(found[1].replace(",", ".")), WORDS[word] if word else unit)


def time_after(text: str, own: Unit) -> Length | None:
    """How long after the start a time is: a whole number, or one with its unit, as 2 d; none for what may be a date."""
    found = LENGTH.fullmatch(text)
    if found is None or not (found[2] or text.isdigit()) or text.startswith("-"):
        return None
    if found[2].lower() not in ("", *WORDS):
        return None
    return read_length(text, own)


def day_of_serial(text: str, periods: int, calendar: Calendar | None) -> Moment | None:
    """The day that a spreadsheet left as a number in a column of dates, where that is more periods than ten years have;
    none where it is such a number of periods. ValueError says why it can be neither, or may be both."""
    number = int(text)
    is_like = LEAST_DAY <= number <= MOST_DAY
    if periods <= FEWEST:
        return None
    if calendar is None:
        if is_like and periods > TEN_YEARS.days:
            raise ValueError(f"may be {counted_day(number):%Y-%m-%d}, as a spreadsheet counts days, and a date needs "
                             "--from")
        return None
    start = calendar.begins(0)
    if periods > calendar.from_on(start + TEN_YEARS):
        if not is_like:
            raise ValueError("is more periods than ten years have, and no date; write a date, or its unit too, as in "
                             "2 d")
        return Moment(counted_day(number), True)
    if is_like and abs(counted_day(number) - start) <= TEN_YEARS:
        raise ValueError(f"may be so many periods after the start, or {counted_day(number):%Y-%m-%d}, as a spreadsheet "
                         "counts days; write that date, or the unit too, as in 2 d")
    return None


def counted_day(number: int) -> datetime.datetime:
    return DAY_0 + datetime.timedelta(number)


@dataclass(frozen=True)
class Scale:
    """How many periods a length takes."""

    period: Unit
    minutes: int  # of a period, where it is one of so many minutes
    day: int | None  # how many minutes of work it has, where they are known
    week: int  # how many days of work it has
    own: Unit  # of a number without a unit
    head: Unit  # that the column of durations names
    has_hours: bool = False  # whether some lengths are in hours or minutes
    is_named: bool = False  # whether somebody has said what a period is

    def is_vague(self, length: Length) -> bool:
        """Whether nothing says what a number counts, since other lengths have units."""
        return length.value != 0 and length.unit is Unit.PERIODS is not self.period and not self.is_named

    def periods(self, length: Length) -> int:
        if self.is_vague(length):
            raise ValueError
        found = length.value and length.value * self.of(length.unit)
        if found.denominator != 1:
            raise ValueError
        return int(found)

    def ratio(self, period: str) -> Fraction:
        """How many periods one of this name takes; ValueError where nothing says so."""
        length = read_length(period if period[:1].isdigit() else f"1 {period}", Unit.PERIODS)
        if length.value <= 0 or length.unit is Unit.PERIODS:
            raise ValueError
        return length.value * replace(self, day=self.day or DAY).of(length.unit)

    def of(self, unit: Unit) -> Fraction:
        """How many periods one of these takes; ValueError where nothing says so."""
        if unit is Unit.CALENDAR_DAYS:
            raise ValueError
        if unit is Unit.PERIODS or unit is self.period is not Unit.MINUTES:
            return Fraction(1)
        if self.period is Unit.DAYS and unit is Unit.WEEKS:
            return Fraction(self.week)
        minutes = in_minutes(unit, self.day, self.week)
        is_unknown = minutes is None or self.period is Unit.DAYS and self.day is None
        if minutes is None or is_unknown or self.period in (Unit.PERIODS, Unit.WEEKS):
            raise ValueError
        return Fraction(minutes, (self.day or 0) if self.period is Unit.DAYS else self.minutes)

    def name(self) -> str:
        """What the calendar calls a period."""
        if self.period is not Unit.MINUTES:
            return str(self.period.value)
        hours, more = divmod(self.minutes, 60)
        count, unit = (self.minutes, Unit.MINUTES) if more else (hours, Unit.HOURS)
        return unit.value if count == 1 else f"{count} {unit.value}"

    def is_own(self) -> bool:
        """Whether a period is what the column of durations names, or what numbers in it count where it names
        nothing."""
        return self.name() == self.head.value or (self.is_named and self.own is Unit.PERIODS)

    def time(self, periods: int) -> str:
        """A time so long after the start; a number where that counts periods in a table too."""
        return f"{periods}" if self.name() == self.counts() else self.text(periods)

    def counts(self) -> str:
        """What a number without a unit counts."""
        return self.name() if self.is_named and self.own is Unit.PERIODS else self.own.value

    def text(self, periods: int) -> str:
        """A length as the table writes it: in periods of its own; else in days, or where it has hours too in hours. All
        lengths of a table have one unit."""
        if self.is_own() or periods == 0:
            return f"{periods}"
        if self.period is not Unit.MINUTES:
            return f"{periods} {self.period.value[0]}"
        for word, minutes in (("d", None if self.has_hours else self.day), ("h", 60)):
            if minutes and 1000 % Fraction(self.minutes, minutes).denominator == 0:
                return f"{number_text(Fraction(periods * self.minutes, minutes))} {word}"
        return f"{periods * self.minutes} min"


def in_minutes(unit: Unit, day: int | None, week: int) -> int | None:
    """How many minutes of work one of these has."""
    if unit is Unit.MINUTES or unit is Unit.HOURS:
        return 60 if unit is Unit.HOURS else 1
    return None if day is None else day * {Unit.DAYS: 1, Unit.WEEKS: week}[unit]


def scale_of(lengths: Iterable[Length], own: Unit, head: Unit, shift: Iterable[tuple[int, int]] | None,
             week: int) -> Scale | None:
    """The longest period that divides all lengths, and that is no longer than an hour where some are in hours, and so
    on; one of minutes only where the table's own unit is that. Where it is shorter than a day it divides the hours of
    work too; none where it needs these and nothing says them."""
    lengths = [*lengths]
    parts = None if shift is None else [ends - begins for begins, ends in shift]
    day = None if parts is None else sum(parts)
    units = units_of(lengths) | {own}
    units = units - {Unit.PERIODS} or units
    is_whole = all(length.value.denominator == 1 for length in lengths)
    for unit in (Unit.PERIODS, Unit.WEEKS, Unit.DAYS):
        others = {Unit.WEEKS} if unit is Unit.DAYS else set()
        if is_whole and unit in units and units <= {unit} | others:
            return Scale(unit, 0, day, week, own, head)
    if units == {Unit.PERIODS}:
        return Scale(own, 0, day, week, own, head)
    known: dict[Unit, int | None] = {unit: in_minutes(unit, day, week) for unit in units}
    if None in known.values():
        return None
    steps = [Fraction(known[unit] or 0) for unit in units if unit is not Unit.MINUTES or unit is own]
    steps += [abs(length.value) * (known[length.unit] or 0) for length in lengths if length.unit in known]
    step = reduce(common, [*steps, *map(Fraction, parts or ())])
    has_hours = not units.isdisjoint({Unit.HOURS, Unit.MINUTES})
    return Scale(Unit.MINUTES, int(step) if step.denominator == 1 else 1, day, week, own, head, has_hours)


def units_of(lengths: Iterable[Length]) -> set[Unit]:
    """Those that lengths of work have."""
    return {length.unit for length in lengths if length.value} - {Unit.CALENDAR_DAYS}


def common(one: Fraction, other: Fraction) -> Fraction:
    """The greatest number of which both are multiples."""
    return Fraction(gcd(one.numerator * other.denominator, other.numerator * one.denominator),
                    one.denominator * other.denominator)
