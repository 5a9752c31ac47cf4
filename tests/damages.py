"""Damages to a record's text: each makes other lines of its lines."""
import random
import re

LEAVES = [b"solved", b"cut", b"dead"]
NUMBER = re.compile(rb"[0-9]+")


def without_line(rng: random.Random, lines: list[bytes]) -> None:
    del lines[rng.randrange(len(lines))]


def line_twice(rng: random.Random, lines: list[bytes]) -> None:
    lines.insert(rng.randrange(len(lines) + 1), rng.choice(lines))


def lines_swapped(rng: random.Random, lines: list[bytes]) -> None:
    a, b = rng.randrange(len(lines)), rng.randrange(len(lines))
    lines[a], lines[b] = lines[b], lines[a]


def other_leaf(rng: random.Random, lines: list[bytes]) -> None:
    leaves = [place for place, line in enumerate(lines) if line in LEAVES]
    if leaves:
        lines[rng.choice(leaves)] = rng.choice(LEAVES)


def other_number(rng: random.Random, lines: list[bytes]) -> None:
    place = rng.randrange(len(lines))
    found = list(NUMBER.finditer(lines[place]))
    if found:
        number = rng.choice(found)
        value = int(number.group())
        value = rng.choice([value + 1, max(0, value - 1), rng.randrange(20), rng.randrange(10**11)])
        lines[place] = lines[place][:number.start()] + b"%d" % value + lines[place][number.end():]


def spelled_otherwise(rng: random.Random, lines: list[bytes]) -> None:
    """A number in a form that other texts allow."""
    found = [(place, part) for place, line in enumerate(lines) for part in NUMBER.finditer(line)]
    if found:
        place, part = rng.choice(found)
        forms = [(b"0", b""), (b"0", b""), (b"+", b""), (b" ", b""), (b"", b" "), (b"", b"\r"), (b"\t", b"")]
        before, after = rng.choice(forms)
        lines[place] = lines[place][:part.start()] + before + part.group() + after + lines[place][part.end():]


def other_claim(rng: random.Random, lines: list[bytes]) -> None:
    if rng.randrange(2) or lines[1] == b"no schedule":
        lines[1] = b"optimal %d" % rng.randrange(60)
    else:
        lines[1:3] = [b"no schedule"]


def other_byte(rng: random.Random, lines: list[bytes]) -> None:
    place = rng.randrange(len(lines))
    at = rng.randrange(len(lines[place]) + 1)
    lines[place] = lines[place][:at] + bytes([rng.randrange(256)]) + lines[place][at + rng.randrange(2):]


def cut_off(rng: random.Random, lines: list[bytes]) -> None:
    text = b"\n".join(lines)
    lines[:] = text[:rng.randrange(len(text))].split(b"\n")


def spliced(rng: random.Random, record: bytes, other: bytes) -> bytes:
    """The record with some of the lines of another one, in place of some of its own or beside them."""
    lines, others = record.split(b"\n"), other.split(b"\n")
    at, begin = rng.randrange(1, len(lines)), rng.randrange(1, len(others))
    lines[at:at + rng.randrange(4)] = others[begin:begin + rng.randint(1, 4)]
    return b"\n".join(lines)


def claimed_later(record: bytes) -> bytes:
    """The record with a makespan that is greater by one, in its claim and in its starts."""
    lines = record.split(b"\n")
    if lines[1] != b"no schedule":
        for place in (1, 2):
            before, _, last = lines[place].rpartition(b" ")
            lines[place] = b"%s %d" % (before, int(last) + 1)
    return b"\n".join(lines)


DAMAGES = (
    without_line, line_twice, lines_swapped, other_leaf, other_number, spelled_otherwise, other_claim, other_byte,
    cut_off,
)


def damaged(rng: random.Random, record: bytes) -> bytes:
    """The record with one to three damages."""
    lines = record.split(b"\n")
    for _ in range(rng.randint(1, 3)):
        if len(lines) > 2:
            rng.choice(DAMAGES)(rng, lines)
    return b"\n".join(lines)
