"""The bytes of logs of lemmas: events as bytes, and bytes as the numbers that they spell."""
import itertools
from collections.abc import Iterable, Sequence

from verify_log import TITLE, Arc, Body, Claim, Clique, Drop, Event, Force, Lemma, Line, Over, Push, Schedule, Tour, Use

CLAIMS = {"optimal": 0, "bound": 1, "no": 2}


def number(value: int, least: int = 1) -> bytes:
    """A number in so many bytes at least."""
    digits = [value % 128]
    while value := value // 128:
        digits.append(value % 128)
    digits += [0] * (least - len(digits))
    return bytes([*(digit + 128 for digit in digits[:-1]), digits[-1]])


def zigzag(value: int) -> int:
    return 2 * value if value >= 0 else -2 * value - 1


def of_arc(arc: Arc) -> list[int]:
    i, j, v = arc
    if i == 0:
        return [3 * j, zigzag(v)]
    if j == 0:
        return [3 * i + 1, zigzag(-v)]
    return [3 * i + 2, j, zigzag(v)]


def of_push(over: Over, is_bare: bool) -> list[int]:
    window = [zigzag(over.start), zigzag(over.end - over.start)]
    if isinstance(over, Tour):
        intervals = [(activity, zigzag(at), length) for activity, at, length in over.intervals]
        return [8 * len(intervals) + 7, *window, 0 if is_bare else 1, *itertools.chain.from_iterable(intervals)]
    if isinstance(over, Clique):
        return [8 * len(over.members) + (5 if is_bare else 6), *window, *over.members]
    if is_bare:
        return [8 * over.resource + 2, *window]
    return [8 * over.resource + 3, window[0]] if window[1] == 2 else [8 * over.resource + 4, *window]


def of_line(line: Line) -> list[int]:
    match line:
        case Use(slot):
            return [8 * slot]
        case Force(before, after):
            return [8 * before + 1, after]
        case Push(over, arc):
            return of_push(over, arc is None) + ([] if arc is None else of_arc(arc))


def of_event(event: Event) -> list[int]:
    """The numbers that an event is, without that of its bytes."""
    match event:
        case Lemma(slot, arcs, lines):
            parts = [*map(of_arc, arcs), *map(of_line, lines)]
            return [4 * slot, len(arcs), *itertools.chain.from_iterable(parts)]
        case Drop(slot):
            return [4 * slot + 1]
        case Schedule(starts):
            return [4 * len(starts) + 2, *map(zigzag, starts)]
        case Claim(said):
            word, *value = said.split()
            return [4 * CLAIMS[word] + 3, *(zigzag(int(v)) for v in value if word != "no")]


def framed(body: bytes) -> bytes:
    return number(len(body)) + body


def body_of(numbers: Iterable[int]) -> bytes:
    return b"".join(map(number, numbers))


def log_of(bodies: Iterable[bytes]) -> bytes:
    return TITLE + b"".join(map(framed, bodies))


def text_of(events: Iterable[Event]) -> bytes:
    return log_of(body_of(of_event(event)) for event in events)


def number_at(data: bytes, at: int) -> tuple[int, int]:
    """The number at a place, and the place after it; the last byte may be missing."""
    value = shift = 0
    while at < len(data):
        value += data[at] % 128 << shift
        shift, at = shift + 7, at + 1
        if data[at - 1] < 128:
            break
    return value, at


def numbers_of(body: bytes) -> list[int]:
    numbers, at = [], 0
    while at < len(body):
        value, at = number_at(body, at)
        numbers.append(value)
    return numbers


def bodies_of(log: bytes) -> Sequence[bytes]:
    """The events of a log without the numbers of their bytes."""
    bodies, at = [], len(TITLE)
    while at < len(log):
        size, at = number_at(log, at)
        bodies.append(log[at:at + size])
        at += size
    return bodies


def claim_of(log: bytes) -> str:
    """What a log claims that is right."""
    event = Body(bodies_of(log)[-1]).event()
    return event.said if isinstance(event, Claim) else ""
