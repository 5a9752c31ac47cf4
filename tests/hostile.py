#!/usr/bin/env python3
"""tests/hostile.py PROGRAM [--bytes N] [--seconds S] [--script M] [--keep FOLDER]

Has `PROGRAM verify` judge logs of lemmas that are made to take long, each of about N bytes (1,600,000 by default). What
is said of each has to be true, within S processor seconds (2 by default). Prints what each took. Both PROGRAM and
tests/verify_log.py judge the same logs of M bytes (16,000 by default). With --keep the texts stay in that folder. The
last line counts all."""
import functools
import os
import resource
from collections.abc import Callable, Iterable, Iterator, Sequence
from pathlib import Path
from typing import NamedTuple

import harness
import judges
import projects
import verify
from harness import Verdict, Verdicts
from log_bytes import framed, number, of_arc, of_event, of_line
from verify_log import MAX_ARCS, MAX_BYTES, MAX_TIME, MAX_WEIGHT, SLOTS, TITLE, Arc, Claim, Clique, Drop, Event, Force
from verify_log import Interval, Line, Load, Push, Tour, Use

LONG = 1_000  # periods of each activity


class Text(NamedTuple):
    """A project, a log, and what is said of it."""
    project: projects.Project
    log: bytes
    says: str


def crowd(n: int, arcs: Sequence[Arc] = (), rivals: int | None = None, duration: int = LONG) -> projects.Project:
    """A project of n activities of the same duration. The first so many, or all, are rivals."""
    asking = [1 if i < (n if rivals is None else rivals) else 0 for i in range(n)]
    return projects.Project([0, *[duration] * n, 0], [[0], *([demand] for demand in asking), [0]], [1], sorted(arcs))


def text_of(event: Event) -> bytes:
    return framed(b"".join(map(number, of_event(event))))


def log_of(parts: Iterable[bytes]) -> bytes:
    return TITLE + b"".join(parts)


def lines_of(lines: Iterable[Line]) -> bytes:
    return b"".join(number(value) for line in lines for value in of_line(line))


def lemma_of(slot: int, arcs: Sequence[Arc], lines: bytes) -> bytes:
    """A lemma whose lines are bytes."""
    numbers = [4 * slot, len(arcs), *(value for arc in arcs for value in of_arc(arc))]
    return framed(b"".join(map(number, numbers)) + lines)


def pieces(size: int) -> list[int]:
    """So many bytes of lines, for as few lemmas as may have them."""
    count = size // (MAX_BYTES * 9 // 10) + 1
    return [size // count] * count


def bound(value: int) -> bytes:
    return text_of(Claim(f"bound {value}"))


# ---- what is refuted by a line: of two rivals one comes first


def first_not_second(a: int, b: int) -> list[Arc]:
    """Neither ends before the other starts. `force` refutes these."""
    return [(a, b, 1 - LONG), (b, a, 1 - LONG)]


def orders(a: int, b: int, count: int) -> Iterator[list[Arc]]:
    """Arcs that `force A B` refutes, each of which leaves a greater arc where the first of them is implied."""
    return ([(a, b, 1 - LONG), (b, a, LONG - 2 - by)] for by in range(count))


# ---- the texts


def long_lemma(size: int) -> Text:
    """A lemma of very many arcs, all implied but one, which is used very often."""
    arcs = [(1, 2, 1 - LONG), (2, 1, 1 - LONG), *[(0, 3, 0)] * (size // 3)]
    uses = lemma_of(1, [(1, 2, 1 - LONG), (1, 3, 0)], bytes(size // 3))
    return Text(crowd(3), log_of([lemma_of(0, arcs, lines_of([Force(1, 2)])), uses]), "event 1: long")


def wide_lemma(size: int) -> Text:
    """The same, of as many arcs as it may have."""
    n = 60
    implied = [(i, j, -MAX_WEIGHT) for i in range(1, n) for j in range(1, n)][:MAX_ARCS - 2]
    first = lemma_of(0, [*implied, *first_not_second(1, 2)], lines_of([Force(1, 2)]))
    arcs, force = [(1, 2, 1 - LONG), *first_not_second(3, 4)], lines_of([Force(3, 4)])
    others = (lemma_of(slot, arcs, bytes(part) + force) for slot, part in enumerate(pieces(size), 1))
    return Text(crowd(n), log_of([first, *others, bound(LONG)]), f"proved bound {LONG}")


def long_event(size: int) -> Text:
    """A lemma of lines that are not looked at; of more bytes than it may have, if that is so many."""
    lemma = lemma_of(0, first_not_second(1, 2), lines_of([Force(1, 2)]) + bytes(size))
    return Text(crowd(3), log_of([lemma, bound(LONG)]), "event 1: long" if size > MAX_BYTES else f"proved bound {LONG}")


def many_arcs(size: int) -> Text:
    """A block that gets ever more arcs, and then lines that show nothing new."""
    n, each = 40, 2 * LONG - 2
    pairs = [(a, b) for a in range(1, 9) for b in range(9, n + 1)][:size // 4 // (20 * each) + 1]
    made = [(arcs, pair) for pair in pairs for arcs in orders(*pair, each)][:size // 4 // 20]
    lemmas = [lemma_of(slot, arcs, lines_of([Force(*pair)])) for slot, (arcs, pair) in enumerate(made)]
    known = [(a, b, 1 - LONG) for a, b in pairs]
    shown = b"".join(number(8 * slot) for slot in range(len(made)))
    arcs, force = [*known, *first_not_second(7, 8)], lines_of([Force(8, 7)])
    parts = enumerate(pieces(size * 3 // 4))
    last = (lemma_of(SLOTS - 1 - k, arcs, shown + bytes(part - len(shown)) + force) for k, part in parts)
    return Text(crowd(n), log_of([*lemmas, *last, bound(LONG)]), f"proved bound {LONG}")


def many_roots(size: int) -> Text:
    """Lemmas of one arc, each of which raises an arc of the root that many walks go over."""
    n, far = 60, 1_000_000
    arcs = [(1, 2, 1 - far), *((i, 1, 0) for i in range(3, 32)), *((2, j, 0) for j in range(32, n + 1))]
    line = lines_of([Force(1, 2)])
    roots = (lemma_of(0, [(2, 1, far - 2 - by)], line) for by in range(size // 11))
    return Text(crowd(n, arcs, duration=far), log_of([*roots, bound(far)]), f"proved bound {far}")


def deep_uses(size: int) -> Text:
    """Each lemma is shown by the one before."""
    arcs = first_not_second(1, 2)
    first = lemma_of(0, arcs, lines_of([Force(1, 2)]))
    links = (lemma_of(slot, arcs, lines_of([Use(slot - 1)])) for slot in range(1, size // 17))
    return Text(crowd(60), log_of([first, *links, bound(LONG)]), f"proved bound {LONG}")


def before_last(n: int) -> list[Arc]:
    """All others end before the last activity starts."""
    return [(i, n, LONG) for i in range(1, n)]


def huge_cliques(size: int) -> Text:
    """All activities run before the last one ends, and one at a time. Each line shows one period more."""
    n = 200
    members, first = list(range(1, n + 1)), LONG + 1
    parts, each = pieces(size), len(lines_of([Push(Clique(0, first, members), (0, n, first))]))
    lines = lines_of(Push(Clique(0, v - 1 + LONG, members), (0, n, v)) for v in range(first, first + parts[0] // each))
    lines += lines_of([Force(1, 2)])
    lemmas = (lemma_of(slot, first_not_second(1, 2), lines) for slot in range(len(parts)))
    return Text(crowd(n, before_last(n)), log_of([*lemmas, bound(2 * LONG)]), f"proved bound {2 * LONG}")


def wide_loads(size: int) -> Text:
    """The same by loads. Those of every other line are in a window as wide as it may be, and of no use."""
    n = 60
    first, parts = LONG + 1, pieces(size)
    count = min(parts[0] // 30, (n - 2) * LONG)
    lines = [[Push(Load(0, 0, v - 1 + LONG), (0, n, v)), Push(Load(0, -MAX_TIME, MAX_TIME), (0, n, v))]
             for v in range(first, first + count)]
    shown = b"".join(map(lines_of, lines)) + lines_of([Force(1, 2)])
    lemmas = (lemma_of(slot, first_not_second(1, 2), shown) for slot in range(len(parts)))
    return Text(crowd(n, before_last(n)), log_of([*lemmas, bound(2 * LONG)]), f"proved bound {2 * LONG}")


def many_drops(size: int) -> Text:
    """A lemma comes and goes, over and over, in the last slot."""
    pair = lemma_of(SLOTS - 1, [(1, 2, 0), (2, 1, 1)], b"") + text_of(Drop(SLOTS - 1))
    return Text(crowd(60), log_of([*[pair] * (size // len(pair)), bound(LONG)]), f"proved bound {LONG}")


def unseen(size: int) -> Text:
    """Lemmas that the matrix of all their arcs shows, and not the weights from the start and back to it."""
    arcs = [(1, 3, -9), (3, 4, -9), (4, 2, -9), (2, 1, 1 - LONG)]
    lemma = lemma_of(0, arcs, lines_of([Force(1, 2)])) + text_of(Drop(0))
    return Text(crowd(60), log_of([*[lemma] * (size // len(lemma)), bound(LONG)]), f"proved bound {LONG}")


def late_arc(size: int) -> Text:
    """A lemma has an arc over and over that is the last of a block, which uses it as often as there is room."""
    n = 60
    none = [(i, j, -MAX_WEIGHT) for i in range(1, n) for j in range(1, n)][:3 * n]
    first = lemma_of(0, [*[(1, 2, 1 - LONG)] * (MAX_ARCS - 1), (2, 1, 1 - LONG)], lines_of([Force(1, 2)]))
    arcs, force = [*none, (1, 2, 1 - LONG), *first_not_second(3, 4)], lines_of([Force(3, 4)])
    others = (lemma_of(slot, arcs, bytes(part) + force) for slot, part in enumerate(pieces(size), 1))
    return Text(crowd(n), log_of([first, *others, bound(LONG)]), f"proved bound {LONG}")


def long_chains(size: int) -> Text:
    """Blocks of a chain that comes from its end. Each line tries a later start of its beginning, beside an overload
    that is there in any case."""
    n, lines = 60, 3 * LONG
    none = [(i, j, -MAX_WEIGHT) for i in range(1, n) for j in range(1, n)][:2 * n]
    chain = [(i, i + 1, 1) for i in range(n - 3, 0, -1)]
    late = [Push(Load(0, 0, 1), (1, 0, v)) for v in range(-2 * lines, -lines)]
    block = lemma_of(0, [*none, *chain], lines_of([*late, Push(Load(0, 0, 1), None)])) + text_of(Drop(0))
    busy = crowd(n, [(n - 1, 0, 0), (n, 0, 0)])
    return Text(busy, log_of([*[block] * (size // len(block) + 1), bound(LONG)]), f"proved bound {LONG}")


def extreme_arcs(size: int) -> Text:
    """Lemmas of as many arcs as they may have, of the least weights, and a chain that comes from its end."""
    n = 60
    none = [(i, j, -MAX_WEIGHT) for i in range(1, n) for j in range(1, n)][:MAX_ARCS - n]
    chain = [(i, i + 1, 1) for i in range(n - 1, 0, -1)]
    lemma = lemma_of(0, [*none, *chain, (n, 1, 0)], b"") + text_of(Drop(0))
    return Text(crowd(n), log_of([*[lemma] * (size // len(lemma)), bound(LONG)]), f"proved bound {LONG}")


def dead_root(size: int) -> Text:
    """Lines that are not looked at, since no schedule is in question, of numbers in nine bytes."""
    project = projects.Project([0, 1, 0], [[0], [2], [0]], [1], [])
    odd = number(8 * 5 + 1, 9) + number(77, 9)
    lemmas = (lemma_of(slot, [(0, 1, 5), (1, 0, 7)], bytes(part // 2) + odd * (part // 2 // len(odd)))
              for slot, part in enumerate(pieces(size)))
    return Text(project, log_of([*lemmas, text_of(Claim("no schedule"))]), "proved no schedule")


def crossed_delays(size: int) -> Text:
    """Lemmas of delays of the same two activities, of which the last alone says those that tours need. Each line shows
    one period more, by the orders of the third with both."""
    far, n = 1_000_000, 3
    arcs, force = [(1, 2, 1 - far), (2, 1, 1 - far)], lines_of([Force(1, 2)])
    count = size // 2 // len(lemma_of(SLOTS - 1, arcs, force))
    weak = [lemma_of(slot, [(1, 2, 1 - far), (2, 1, 1 - far + 1 + slot)], force) for slot in range(count)]
    first, parts = far + 1, pieces(size // 2)
    intervals = [Interval(i, 0, far) for i in range(1, n + 1)]
    each = len(lines_of([Push(Tour(0, 2 * far, intervals), (0, n, first))]))
    lines = lines_of(Push(Tour(0, v - 1 + far, intervals), (0, n, v)) for v in range(first, first + parts[0] // each))
    lemmas = (lemma_of(count + 1 + k, arcs, lines + force) for k in range(len(parts)))
    texts = [*weak, lemma_of(count, arcs, force), *lemmas, bound(2 * far)]
    return Text(crowd(n, [(i, n, far) for i in (1, 2)], duration=far), log_of(texts), f"proved bound {2 * far}")


TEXTS: list[Callable[[int], Text]] = [
    long_lemma, long_event, wide_lemma, many_arcs, many_roots, deep_uses, huge_cliques, wide_loads, many_drops, unseen,
    late_arc, long_chains, extreme_arcs, dead_root, crossed_delays,
]


def judged(program: str, project: Path, log: Path, seconds: int) -> tuple[harness.Ended, float]:
    """What is said of a log by a program that has so many processor seconds, and how many it took."""
    def limit() -> None:
        resource.setrlimit(resource.RLIMIT_CPU, (seconds, seconds))

    before = os.times()
    with open(log, "rb") as text:
        ended = harness.ended([program, "verify", "--project", project], stdin=text, preexec_fn=limit)
    after = os.times()
    return ended, after.children_user + after.children_system - before.children_user - before.children_system


def said_of(text: Text, ended: harness.Ended) -> str | None:
    """What is wrong with how a run over a text ended."""
    said = (ended[2].partition(b": ")[2] or ended[1]).decode().removesuffix("\n")
    return None if said == text.says else f"the program says {said or ended}, not {text.says}"


def look(program: str, folder: Path, make: Callable[[int], Text], size: int, seconds: int) -> Verdict:
    """A large text."""
    text, project, log = make(size), folder / f"{make.__name__}.sch", folder / f"{make.__name__}.log"
    project.write_bytes(text.project.text())
    log.write_bytes(text.log)
    ended, took = judged(program, project, log, seconds)
    print(f"{make.__name__:14} {len(text.log):9} bytes {took:6.2f} s  {text.says}", flush=True)
    return make.__name__, said_of(text, ended)


def compare(program: str, folder: Path, size: int, make: Callable[[int], Text]) -> Verdict:
    """A small text, by the script as well."""
    text, file = make(size), folder / f"small_{make.__name__}.sch"
    file.write_bytes(text.project.text())
    ended = judges.by_program(program, file, text.log)
    by_script = judges.by_script_of_logs(verify.Project(text.project.text()), text.log)
    fault = said_of(text, ended) or (None if ended == by_script else f"the script says {by_script}")
    return f"{make.__name__}, {len(text.log)} bytes", fault


def verdicts(words: Sequence[str]) -> Verdicts:
    parser = harness.Words(__doc__, "program")
    parser.add_argument("--bytes", type=int, default=1_600_000)
    parser.add_argument("--seconds", type=int, default=2)
    parser.add_argument("--script", type=int, default=16_000)
    parser.add_argument("--keep", type=Path)
    o = parser.parse_args(words)
    with harness.new_folder() as made:
        folder = o.keep or made
        for make in TEXTS:
            yield look(o.program, folder, make, o.bytes, o.seconds)
        yield from harness.side_by_side(functools.partial(compare, o.program, folder, o.script), TEXTS)


if __name__ == "__main__":
    harness.run(verdicts)
