"""Whole numbers of a text in turn, each with its line for faults."""
import re
from collections.abc import Iterable, Iterator
from itertools import islice

from ..errors import BadInput
from ..letters import short
from ..project import MOST_UNITS

NUMBER = re.compile("-?[0-9]{1,9}")
MOST_WORDS = 500_000  # of a text; a project has fewer numbers
MOST_SIGNS = 100_000  # of a line by which a format is known


def lines_of(text: str) -> Iterator[tuple[int, str]]:
    """The lines that have words, with their numbers from 1 on."""
    return ((number, line) for number, line in enumerate(text.split("\n"), 1) if line.strip())


def first_lines(lines: Iterable[tuple[int, str]]) -> list[list[str]]:
    """The words of the first two, as far as they are needed to know a format."""
    return [line[:MOST_SIGNS].split() for _, line in islice(lines, 2)]


def all_numbers(line: str) -> bool:
    return all(NUMBER.fullmatch(word) for word in line.split())


class Reader:
    def __init__(self, lines: Iterable[tuple[int, str]]) -> None:
        words = ((number, word) for number, line in lines for word in line.split(None, MOST_WORDS))
        self.words = [*islice(words, MOST_WORDS + 1)]
        if len(self.words) > MOST_WORDS:
            raise BadInput(f"the text has more than {MOST_WORDS:,} words")
        self.place = 0

    def take(self, what: str, least: int = 0, most: int = MOST_UNITS) -> int:
        """The next number, which has to be one from the least to the most."""
        if self.place == len(self.words):
            raise BadInput(f"the text ends before {what}")
        line, word = self.words[self.place]
        if not NUMBER.fullmatch(word) or not least <= int(word) <= most:
            raise BadInput(f"line {line}: {what}: '{short(word)}' is not a whole number from {least:,} to {most:,}")
        self.place += 1
        return int(word)

    def row(self, what: str, count: int, least: int = 0, most: int = MOST_UNITS) -> list[int]:
        return [self.take(f"{what} {place}", least, most) for place in range(1, count + 1)]

    def skip(self, what: str) -> None:
        """Passes over a number of any size."""
        if self.place < len(self.words) and self.words[self.place][1].isdecimal():
            self.place += 1
        else:
            self.take(what)

    def must_be(self, what: str, value: int) -> None:
        self.take(what, value, value)

    def must_end(self) -> None:
        if self.place < len(self.words):
            line, word = self.words[self.place]
            raise BadInput(f"line {line}: one word too many: '{short(word)}'")
