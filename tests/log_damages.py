"""Damages to a log of lemmas: to its events, to the numbers of one, and to bytes. Some leave it right."""
import random
from collections.abc import Callable

from log_bytes import bodies_of, body_of, framed, log_of, number, numbers_of, of_event
from verify_log import (
    MAX_ARCS, MAX_TIME, MAX_WEIGHT, SLOTS, TITLE, Arc, Body, Clique, Drop, Event, Force, Form, Interval, Lemma, Line,
    Load, Over, Push, Tour, Use)

Bodies = list[bytes]  # events without the numbers of their bytes
Damage = Callable[[random.Random, Bodies], None]
LIMITS = [2 * edge + beyond for edge in (MAX_WEIGHT, MAX_TIME) for beyond in (-3, -2, -1, 0, 1, 2)]
SLOT_LIMITS = [4 * (SLOTS + beyond) for beyond in (-2, -1, 0)]
HUGE = [2**59, 2**60, 2**62 - 1, 2**62, 2**63 - 1, 2**63, 2**64]


def place_of(rng: random.Random, bodies: Bodies) -> int:
    return rng.randrange(len(bodies))


# ---- events


def event_gone(rng: random.Random, bodies: Bodies) -> None:
    del bodies[place_of(rng, bodies)]


def event_twice(rng: random.Random, bodies: Bodies) -> None:
    bodies.insert(rng.randrange(len(bodies) + 1), rng.choice(bodies))


def events_swapped(rng: random.Random, bodies: Bodies) -> None:
    a, b = place_of(rng, bodies), place_of(rng, bodies)
    bodies[a], bodies[b] = bodies[b], bodies[a]


def drop_more(rng: random.Random, bodies: Bodies) -> None:
    bodies.insert(place_of(rng, bodies), body_of(of_event(Drop(rng.randrange(6)))))


def spliced(rng: random.Random, log: bytes, other: bytes) -> bytes:
    """The log with some of the events of another one, in place of some of its own or beside them."""
    bodies, others = list(bodies_of(log)), bodies_of(other)
    at, begin = rng.randrange(len(bodies)), rng.randrange(len(others))
    bodies[at:at + rng.randrange(3)] = others[begin:begin + rng.randint(1, 4)]
    return log_of(bodies)


def other_claim(rng: random.Random, bodies: Bodies) -> None:
    """Another claim at the end; one that is near where there is a number."""
    *_, value = [0, *numbers_of(bodies[-1])]
    kind, by = rng.randrange(4), rng.choice([-4, -2, 2, 4])
    bodies[-1] = body_of([4 * kind + 3, *([max(0, value + by * rng.randrange(3))] if kind < 2 else [])])


def claimed_otherwise(rng: random.Random, log: bytes) -> bytes:
    """The log with another claim alone."""
    bodies = list(bodies_of(log))
    other_claim(rng, bodies)
    return log_of(bodies)


# ---- numbers


def other_number(rng: random.Random, bodies: Bodies) -> None:
    place = place_of(rng, bodies)
    numbers = numbers_of(bodies[place]) or [0]
    at = rng.randrange(len(numbers))
    near = numbers[at] + rng.choice([-16, -8, -6, -4, -3, -2, -1, 1, 2, 3, 4, 6, 8, 16])
    far = [rng.randrange(40), *(rng.choice(values) for values in (LIMITS, SLOT_LIMITS, HUGE))]
    numbers[at] = rng.choice([max(0, near)] * 6 + far)
    bodies[place] = body_of(numbers)


def numbers_moved(rng: random.Random, bodies: Bodies) -> None:
    """A number more or fewer, or two that change places."""
    place = place_of(rng, bodies)
    numbers = numbers_of(bodies[place]) or [0]
    a, b = rng.randrange(len(numbers)), rng.randrange(len(numbers))
    numbers[a], numbers[b] = numbers[b], numbers[a]
    if rng.randrange(3):
        numbers[a:a + rng.randrange(2)] = [rng.randrange(30)] * rng.randrange(2)
    bodies[place] = body_of(numbers)


def longer_number(rng: random.Random, bodies: Bodies) -> None:
    """A number in more bytes than it needs; ten are too many."""
    place = place_of(rng, bodies)
    parts = [number(value) for value in numbers_of(bodies[place])] or [b"\0"]
    at = rng.randrange(len(parts))
    parts[at] = number(numbers_of(parts[at])[0], rng.choice([2, 3, 9, 9, 10]))
    bodies[place] = b"".join(parts)


def huge_count(rng: random.Random, bodies: Bodies) -> None:
    """An event that says that it has very many arcs, starts or members."""
    count = rng.choice(HUGE)
    lemmas = [[0, count], [0, 0, 8 * count + 5, 0, 2, 1], [8, 0, 8 * count + 6],
              [0, 0, 8 * count + 7, 0, 2, 0, 1, 0, 3]]
    bodies.insert(place_of(rng, bodies), body_of(rng.choice([*lemmas, [4 * count + 2, 0, 0], [4 * count + 3]])))


# ---- lemmas


def some_arc(rng: random.Random) -> Arc:
    i, j = rng.randrange(9), rng.randrange(9)
    ends = rng.choice([(0, j), (i, 0), (i, j)])
    return *ends, rng.choice([*range(-9, 10), rng.choice([-1, 1]) * rng.choice(LIMITS) // 2])


def some_line(rng: random.Random) -> Line:
    arc = rng.choice([None, some_arc(rng), some_arc(rng)])
    start, size = rng.randrange(12), rng.choice([1, 1, 2, 3, 5, 0, -1, MAX_TIME])
    members = sorted(rng.sample(range(9), rng.randrange(5)))
    intervals = [Interval(member, rng.randrange(-2, 3), rng.randrange(5)) for member in members]
    window = start, start + size
    overs: list[Over] = [Load(rng.randrange(4), *window), Clique(*window, members), Tour(*window, intervals)]
    lines: list[Line] = [Use(rng.randrange(6)), Force(rng.randrange(9), rng.randrange(9)), Push(rng.choice(overs), arc)]
    return rng.choice(lines)


def lemma_of(body: bytes) -> Lemma | None:
    try:
        event: Event = Body(body).event()
    except Form:
        return None
    return event if isinstance(event, Lemma) else None


def on_lemma(rng: random.Random, bodies: Bodies, change: Callable[[Lemma], Lemma]) -> None:
    """Changes one of the lemmas, if there are any."""
    found = [(place, lemma) for place, lemma in enumerate(map(lemma_of, bodies)) if lemma]
    if found:
        place, lemma = rng.choice(found)
        bodies[place] = body_of(of_event(change(lemma)))


def line_more(rng: random.Random, bodies: Bodies) -> None:
    """A line more: after those that refute the lemma it is idle."""
    def change(lemma: Lemma) -> Lemma:
        at = rng.choice([0, rng.randrange(len(lemma.lines) + 1), len(lemma.lines)])
        return lemma._replace(lines=[*lemma.lines[:at], some_line(rng), *lemma.lines[at:]])

    on_lemma(rng, bodies, change)


def limit_arc(rng: random.Random, bodies: Bodies) -> None:
    """An arc more, of a lemma or after `shows`, whose weight is at the limit; it asks for nothing."""
    i, j, weight = rng.randrange(9), rng.randrange(9), -MAX_WEIGHT - rng.randrange(-1, 2)

    def change(lemma: Lemma) -> Lemma:
        if rng.randrange(2):
            return lemma._replace(arcs=[(i, j, weight), *lemma.arcs])
        return lemma._replace(lines=[Push(Load(rng.randrange(4), 2, 1), (i, j, weight)), *lemma.lines])

    on_lemma(rng, bodies, change)


def limit_arcs(rng: random.Random, bodies: Bodies) -> None:
    """A lemma of as many arcs as it may have, or one more. Those that come to it ask for nothing."""
    arc, most = (rng.randrange(3), rng.randrange(3), -MAX_WEIGHT), MAX_ARCS + rng.randrange(2)

    def change(lemma: Lemma) -> Lemma:
        return lemma._replace(arcs=[*lemma.arcs, *[arc] * (most - len(lemma.arcs))])

    on_lemma(rng, bodies, change)


def line_of_nothing(rng: random.Random, bodies: Bodies) -> None:
    """A clique or a tour of nothing in a window that ends before it begins, or a load in one as wide as it may be or
    wider."""
    wide = Load(rng.randrange(3), -MAX_TIME - rng.randrange(2), MAX_TIME + rng.randrange(2))
    overs: list[Over] = [wide, wide, wide, Clique(4, 0, []), Tour(4, 0, [])]
    over = rng.choice(overs)
    on_lemma(rng, bodies, lambda lemma: lemma._replace(lines=[Push(over, None), *lemma.lines]))


def other_window(rng: random.Random, bodies: Bodies) -> None:
    """Windows that begin or end a little earlier or later, for one line or some."""
    by = rng.choice([(0, 1), (0, -1), (1, 0), (-1, 0), (0, -2), (2, 0)])

    def other(line: Line) -> Line:
        if not isinstance(line, Push) or rng.randrange(2):
            return line
        return line._replace(over=line.over._replace(start=line.over.start + by[0], end=line.over.end + by[1]))

    on_lemma(rng, bodies, lambda lemma: lemma._replace(lines=list(map(other, lemma.lines))))


def far_slot(rng: random.Random, bodies: Bodies) -> None:
    """A lemma in a slot at the limit."""
    slot = SLOTS - rng.randrange(-1, 3)
    on_lemma(rng, bodies, lambda lemma: lemma._replace(slot=slot))


def lemma_late(rng: random.Random, bodies: Bodies) -> None:
    """A lemma more before the claim, where the root is often dead."""
    arcs = [some_arc(rng) for _ in range(rng.randrange(4))]
    bodies.insert(len(bodies) - 1, body_of(of_event(Lemma(rng.randrange(4), arcs, [some_line(rng)]))))


def other_lines(rng: random.Random, bodies: Bodies) -> None:
    """Lines in another order, some of them twice or not at all."""
    def change(lemma: Lemma) -> Lemma:
        return lemma._replace(lines=rng.choices(lemma.lines, k=len(lemma.lines))) if lemma.lines else lemma

    on_lemma(rng, bodies, change)


def line_gone(rng: random.Random, bodies: Bodies) -> None:
    on_lemma(rng, bodies, lambda lemma: lemma._replace(lines=rng.sample(lemma.lines, max(0, len(lemma.lines) - 1))))


def other_arcs(rng: random.Random, bodies: Bodies) -> None:
    """An arc of a lemma twice or not at all, or another one more."""
    def change(lemma: Lemma) -> Lemma:
        mores: list[list[Arc]] = [[], rng.sample(lemma.arcs, min(1, len(lemma.arcs))), [some_arc(rng)]]
        arcs = [*lemma.arcs, *rng.choice(mores)]
        return lemma._replace(arcs=rng.sample(arcs, max(0, len(arcs) - rng.randrange(2))))

    on_lemma(rng, bodies, change)


def arcs_twice(rng: random.Random, bodies: Bodies) -> None:
    """Each lemma of two arcs or more has one of them twice."""
    for place, lemma in enumerate(map(lemma_of, bodies)):
        if lemma and len(lemma.arcs) > 1:
            bodies[place] = body_of(of_event(lemma._replace(arcs=[*lemma.arcs, rng.choice(lemma.arcs)])))


def wider_arc(rng: random.Random, bodies: Bodies) -> None:
    """An arc of a lemma that asks for more or less."""
    def change(lemma: Lemma) -> Lemma:
        by = rng.choice([-2, -1, 1, 2])
        return lemma._replace(arcs=[(i, j, v + (by if rng.randrange(2) else 0)) for i, j, v in lemma.arcs])

    on_lemma(rng, bodies, change)


def use_of_itself(rng: random.Random, bodies: Bodies) -> None:
    on_lemma(rng, bodies, lambda lemma: lemma._replace(lines=[Use(lemma.slot), *lemma.lines]))


def member_twice(rng: random.Random, bodies: Bodies) -> None:
    """A clique or a tour that has one of its members twice, or its members in another order."""
    def other(line: Line) -> Line:
        match line:
            case Push(Clique(start, end, members), arc):
                return Push(Clique(start, end, rng.choice([sorted([*members, *members[:1]]), members[::-1]])), arc)
            case Push(Tour(start, end, intervals), arc):
                return Push(Tour(start, end, rng.choice([sorted([*intervals, *intervals[:1]]), intervals[::-1]])), arc)
        return line

    on_lemma(rng, bodies, lambda lemma: lemma._replace(lines=list(map(other, lemma.lines))))


def other_interval(rng: random.Random, bodies: Bodies) -> None:
    """Intervals of tours that begin earlier or later, are longer or shorter, or are of another activity, or at a
    limit."""
    limit = MAX_WEIGHT + rng.randrange(-1, 2)
    changes = [(0, 0, 1), (0, 0, 1), (0, 1, 0), (0, -1, 0), (0, -1, 1), (0, 1, -1), (1, 0, 0), (0, limit, 0),
               (0, 0, limit)]

    def other(line: Line) -> Line:
        if not isinstance(line, Push) or not isinstance(line.over, Tour) or not line.over.intervals:
            return line
        intervals, by = list(line.over.intervals), rng.choice(changes)
        place = rng.randrange(len(intervals))
        activity, at, length = (value + more for value, more in zip(intervals[place], by))
        intervals[place] = Interval(activity, at, max(0, length))
        return line._replace(over=line.over._replace(intervals=intervals))

    on_lemma(rng, bodies, lambda lemma: lemma._replace(lines=list(map(other, lemma.lines))))


def deep_uses(rng: random.Random, bodies: Bodies) -> None:
    """A lemma that is shown by one that is shown by one, and so on."""
    found = [(place, lemma) for place, lemma in enumerate(map(lemma_of, bodies)) if lemma and len(lemma.arcs) > 1]
    if found:
        place, lemma = rng.choice(found)
        slots = [lemma.slot, *range(50, 50 + rng.randrange(2, 60))]
        chain = [lemma._replace(slot=slot, lines=[Use(below)]) for below, slot in zip(slots, slots[1:])]
        bodies[place + 1:place + 1] = [body_of(of_event(link)) for link in chain]


# ---- bytes


def other_byte(rng: random.Random, log: bytes) -> bytes:
    at = rng.randrange(len(log) + 1)
    return log[:at] + bytes([rng.randrange(256)]) * rng.randrange(2) + log[at + rng.randrange(2):]


def cut_off(rng: random.Random, log: bytes) -> bytes:
    return log[:rng.choice([rng.randrange(len(log)), rng.randrange(2 * len(TITLE))])]


def cut_between(rng: random.Random, log: bytes) -> bytes:
    """Without events at the end, so that it ends before one."""
    bodies = bodies_of(log)
    return log_of(bodies[:rng.randrange(len(bodies))] if bodies else bodies)


def other_frame(rng: random.Random, log: bytes) -> bytes:
    """An event that says that it has other bytes than it has."""
    frames = [framed(body) for body in bodies_of(log)]
    at = place_of(rng, frames) if frames else 0
    size = len(frames[at]) + rng.choice([-3, -2, 0, 1, 2]) if frames else 0
    frames[at:at + 1] = [number(rng.choice([max(0, size), rng.choice(HUGE)])) + b"".join(bodies_of(log)[at:at + 1])]
    return TITLE + b"".join(frames)


def more_bytes(rng: random.Random, log: bytes) -> bytes:
    return log + rng.choice([b"\0", b"\n", log, b"\1\13", bytes(rng.choices(range(256), k=9))])


DAMAGES: list[Damage] = [
    event_gone, event_twice, events_swapped, drop_more, other_claim,
    other_number, other_number, numbers_moved, longer_number, huge_count,
    line_more, line_more, other_lines, line_gone, line_of_nothing, other_window, other_window, use_of_itself,
    member_twice, other_interval,
    deep_uses, other_arcs, arcs_twice, wider_arc, limit_arc, limit_arcs, far_slot, lemma_late,
]
DAMAGES_OF_BYTES = [other_byte, other_byte, cut_off, cut_between, other_frame, more_bytes]


def damaged(rng: random.Random, log: bytes) -> bytes:
    """The log with one to three damages, mostly to its events."""
    bodies = list(bodies_of(log))
    for _ in range(rng.choice([1, 1, 1, 2, 3])):
        if bodies:
            rng.choice(DAMAGES)(rng, bodies)
    return rng.choice(DAMAGES_OF_BYTES)(rng, log_of(bodies)) if rng.random() < 0.2 else log_of(bodies)
