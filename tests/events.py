#!/usr/bin/env python3
"""tests/events.py PROGRAM [--lists N] [--refused N]

Puts N seeded lists of events (10,000 by default) to search books of small projects, by the program of
crates/book_events, and compares each reply, and the counts after it, with those of a plain model of a book that is
written here. Workers take nodes, reports are checked in, often under names that they aren't of, twice, with ceilings
that are too low or for another project, nodes are given back that nobody has, and schedules are offered. So are twelve
hostile events, and these with each of them left out and with each of them doubled.

Then puts N such lists (24 by default), and a report that is checked in again, to books once for each allocation in
them, which is refused: a check-in or a node that is given back may then be told so, and the book has to be as before;
all that comes after is again as in the model.

The last line counts the lists and the runs."""
import collections
import functools
import itertools
import pathlib
import random
import re
from collections.abc import Iterator, Sequence

import harness
from harness import INPUTS, Verdicts
from refusing import Refusing, library, one

DEPTH = 3  # so far below the roots are nodes expanded
LISTS_AT_ONCE = 50
# Each project, another that has the same activities, and schedules of each, which may be offered.
PROJECTS: list[tuple[str, str, list[str], list[str]]] = [
    ("two-jobs", "two-jobs-longest-duration", ["0,5,0,8", "0,0,3,7", "0,4,0,7", "0,6,0,9"], ["0,4,0,1000004"]),
    ("three-jobs-capacity-two", "three-jobs-lags", ["0,0,2,4,6", "0,0,0,2,4", "0,1,1,3,5"], ["0,0,2,1,5"]),
    ("three-jobs-lags", "three-jobs-capacity-two", ["0,3,0,4,6", "0,0,2,1,5", "0,1,3,2,6"], ["0,0,0,2,4"]),
    ("forced-order", "three-jobs-capacity-two", ["0,6,2,0,9", "0,6,2,0,10"], ["0,0,0,2,4"]),
    ("two-jobs-close-lags", "two-jobs", [], ["0,0,3,7"]),
    ("energy-above-critical", "nine-jobs", ["0,0,5,9,13,16", "0,0,9,5,13,16"], []),
]
# Twelve events for a book of two jobs and two workers. Node 3 is the second child of the root.
HOSTILE = ("take:0 back:0 take:1 check:0:0: check:0:0: check:3:0: take:0 offer:0,0,3,7 check:2:3: take:1 halt "
           "take:0").split()
# A report that is checked in again, and the trail that tells of it once.
AGAIN = "record:1:1000 take:0 check:0:0: check:0:0: trail".split()
SPLIT_ONCE = "4 activities, root split 0 [1, 2] opened 1 opened 2, 0 1-2 open, 0 2-1 open"


Replies = collections.Counter[str]  # how often each came


class Node:
    """A node: whose project it is of, its pairs and bound, and what an expansion without a ceiling gives."""

    def __init__(self, foreign: bool, pairs: list[str], bound: int = 0) -> None:
        self.foreign, self.pairs, self.bound = foreign, pairs, bound
        self.found: int | None = None
        self.children: list[Node] | None = None


class Model:
    """A book as its description says: open nodes and hands by plain lists, each rule in turn."""

    def __init__(self, root: Node, workers: int, takes: int) -> None:
        self.workers, self.limit, self.halted = workers, takes, False
        self.best: int | None = None
        self.open: dict[int, Node] = {0: root}
        self.hands: dict[int, tuple[int, Node]] = {}  # of each worker, the name and the node
        self.opened, self.checked, self.cut, self.taken = 1, 0, 0, 0

    def bounds(self) -> list[int]:
        nodes = [*self.open.values(), *(node for _, node in self.hands.values())]
        return [node.bound for node in nodes] + ([] if self.best is None else [self.best])

    def told(self) -> str:
        bounds = self.bounds()
        numbers = [self.opened, self.checked, self.cut, self.taken, len(self.open), len(self.hands),
                   shown(self.best), shown(min(bounds) if bounds else None)]
        return " ".join(map(str, numbers))

    def take(self, worker: int) -> str:
        if worker >= self.workers:
            return "nobody"
        if worker in self.hands:
            return "full"
        if self.halted:
            return "halted"
        if self.open and self.best is not None and min(node.bound for node in self.open.values()) >= self.best:
            self.cut += len(self.open)
            self.open = {}
        if not self.open:
            return "idle" if self.hands else "done"
        if self.taken == self.limit:
            return "limit"
        name = min(self.open, key=lambda name: (self.open[name].bound, -name))
        node = self.open.pop(name)
        self.hands[worker] = name, node
        self.taken += 1
        return " ".join(["ticket", str(name), shown(self.best), str(node.bound), *node.pairs])

    def in_hand(self, name: int) -> int | None:
        """The worker whose hand has the node of this name."""
        return next((worker for worker, (held, _) in self.hands.items() if held == name), None)

    def refusal(self, name: int, node: Node, ceiling: int | None) -> str | None:
        worker = self.in_hand(name)
        if worker is None:
            return self.absent(name)
        if self.hands[worker][1].pairs != node.pairs:
            return "other node"
        if node.foreign:
            return "other project"
        if ceiling is not None and (self.best is None or self.best > ceiling):
            return f"ahead {shown(self.best)}"
        return None

    def check(self, name: int, node: Node, ceiling: int | None) -> str:
        refused = self.refusal(name, node, ceiling)
        if refused:
            return refused
        self.hands = {worker: held for worker, held in self.hands.items() if held[0] != name}
        self.checked += 1
        cut_off = ceiling is not None and node.bound >= ceiling
        found = None if cut_off else node.found
        improved = found is not None and (self.best is None or found < self.best)
        if improved:
            self.best = found
        made = [] if cut_off else node.children or []
        children = [child for child in made if ceiling is None or child.bound < ceiling]
        children = [child for child in children if self.best is None or child.bound < self.best]
        for child in children:
            self.open[self.opened] = child
            self.opened += 1
        return f"opened {len(children)} {'improved' if improved else 'as before'}"

    def absent(self, name: int) -> str:
        return "unknown" if name >= self.opened else "gone"

    def back(self, name: int) -> str:
        worker = self.in_hand(name)
        if worker is None:
            return self.absent(name)
        self.open[name] = self.hands.pop(worker)[1]
        return "back"

    def halt(self) -> str:
        self.halted = True
        return "halt"

    def offer(self, starts: str, foreign: bool) -> str:
        if foreign:
            return f"other project {starts.replace(',', ' ')}"
        makespan = int(starts.split(",")[-1])
        if self.best is not None and makespan >= self.best:
            return "kept"
        self.best = makespan
        return "shorter"


def shown(number: int | None) -> str:
    return "-" if number is None else str(number)


class Board:
    """Two projects, their nodes, and the words by which the program is told to find these."""

    def __init__(self, program: str, own: str, other: str, offers: list[str], others: list[str]) -> None:
        self.program, self.offers, self.others = program, offers, others
        self.text = b";".join((INPUTS / f"{name}.sch").read_bytes() for name in (own, other))
        self.words, self.nodes = ["expand:0", "expand:1"], list[Node]()
        for _ in range(DEPTH):
            self.nodes = self.found(self.play(self.words))
            self.words = [f"expand:{place}" for place in range(len(self.nodes))]
        lines = self.play(self.words)
        self.found_lines, self.nodes = len(lines), self.found(lines)[: len(self.words)]

    def play(self, words: Sequence[str]) -> list[str]:
        status, out, fault = harness.ended([self.program, *words], self.text)
        return out.decode().splitlines() + ([] if status == 0 else [f"exit {status}: {fault.decode()}"])

    def found(self, lines: Sequence[str]) -> list[Node]:
        """All nodes that were printed: a block for each that was expanded, the node first and then its children."""
        nodes, place = [Node(False, []), Node(True, [])], -1
        for line in lines:
            kind, *words = line.split()
            if kind == "node":
                place += 1
                nodes[place].bound = int(words[0])
                children = nodes[place].children = []
            elif kind == "found":
                nodes[place].found = int(words[-1])
            elif kind == "kid":
                child = Node(nodes[place].foreign, words[1:], int(words[0]))
                children.append(child)
                nodes.append(child)
        return nodes

    def list_of_events(self, rng: random.Random) -> list[str]:
        """A new book and a list of events, as words."""
        workers, takes = rng.randint(1, 3), rng.choice([1, 2, 3, 1000, 1000, 1000])
        words = [f"{rng.choice(['open', 'record'])}:{workers}:{takes}"]
        model = self.model(words[0])
        for _ in range(rng.randint(1, 30)):
            words.append(self.event(rng, model))
            self.reply(model, words[-1])
        return words

    def model(self, first: str) -> Model:
        _, workers, takes = first.split(":")
        return Model(self.nodes[0], int(workers), int(takes))

    def reply(self, model: Model, word: str) -> str:
        """What an event does to a model."""
        kind, *rest = word.split(":")
        if kind == "take":
            return model.take(int(rest[0]))
        if kind == "check":
            name, place, ceiling = rest
            return model.check(int(name), self.nodes[int(place)], int(ceiling) if ceiling else None)
        if kind == "back":
            return model.back(int(rest[0]))
        if kind in ("offer", "other"):
            return model.offer(rest[0], kind == "other")
        return SPLIT_ONCE if kind == "trail" else model.halt()

    def event(self, rng: random.Random, model: Model) -> str:
        kind = rng.choices(["take", "check", "back", "offer", "other", "halt"], [36, 40, 10, 8, 3, 1])[0]
        if kind == "take":
            return f"take:{rng.randint(0, model.workers) if rng.random() < 0.1 else rng.randrange(model.workers)}"
        if kind == "check":
            return self.check(rng, model)
        if kind == "back":
            return f"back:{rng.randint(0, model.opened)}"
        offers = self.offers if kind == "offer" else self.others
        return f"{kind}:{rng.choice(offers)}" if offers and kind != "halt" else "halt"

    def check(self, rng: random.Random, model: Model) -> str:
        """A report on a node in hand, or on any node under any name."""
        name, node = rng.randint(0, model.opened), rng.choice(self.nodes)
        if model.hands and rng.random() < 0.8:
            name, held = rng.choice(list(model.hands.values()))
            same = [other for other in self.nodes if other.pairs == held.pairs]
            node = held if held.children is not None and rng.random() < 0.8 else rng.choice(same or self.nodes)
        ceilings = [None, None, model.best, model.best, node.bound, node.bound + 1, rng.randint(0, 20)]
        ceiling = rng.choice(ceilings)
        place = next(place for place, other in enumerate(self.nodes) if other is node)
        return f"check:{name}:{place}:{'' if ceiling is None else ceiling}"


def hostile_lists() -> Iterator[list[str]]:
    """The hostile events, for a book without and with a trail: whole, with each left out, and with each doubled."""
    for first in ("open:2:1000", "record:2:1000"):
        yield [first, *HOSTILE]
        for place in range(len(HOSTILE)):
            yield [first, *HOSTILE[:place], *HOSTILE[place + 1:]]
            yield [first, *HOSTILE[:place], *HOSTILE[place:place + 1] * 2, *HOSTILE[place + 1:]]


def disagreement(board: Board, words: Sequence[str], lines: Iterator[str], replies: Replies,
                 refused: bool = False) -> str | None:
    """The first reply or counts that aren't the model's, or None. A refused allocation may end the program, or be told
    once."""
    model = board.model(words[0])
    for word in words:
        got = next(lines, "nothing")
        if refused and got == "nothing":
            return None
        if refused and word.split(":")[0] in ("check", "back") and got == "memory;" + model.told():
            refused, want = False, got
        else:
            reply = "open" if word == words[0] else board.reply(model, word)
            want = f"{reply};{model.told()}"
        replies[re.sub(r" [-\d].*", "", got.split(";")[0])] += 1
        if got != want:
            return f"{' '.join(words)}: at {word} {got!r}, not {want!r}"
    return None


def judged(board: Board, lists: Sequence[list[str]], replies: Replies) -> Iterator[str | None]:
    """For each list the first reply or counts that aren't the model's, or None."""
    lines = iter(board.play([*board.words, *(word for words in lists for word in words)])[board.found_lines:])
    for words in lists:
        told = iter([next(lines, "nothing") for _ in words])
        yield disagreement(board, words, told, replies)


def refused(made: pathlib.Path, replies: Replies, board: Board, words: Sequence[str]) -> Iterator[str | None]:
    """The same for each allocation in a list, which is refused."""
    known = Refusing(made, [board.program, *board.words], board.text).count()
    refusing = Refusing(made, [board.program, *board.words, *words], board.text)
    for allocation in range(known + 1, refusing.count() + 1):
        (status, out, fault), _ = refusing.run(one(allocation))
        lines = out.decode().splitlines()[board.found_lines:]
        wrong = disagreement(board, words, iter(lines), replies, True)
        well = status == 0 and len(lines) == len(words) or status == 1 and fault.startswith(b"Error: ")
        yield wrong or (None if well else f"{' '.join(words)}: exit {status}, {fault!r}")


def faults(program: str, count: int, count_refused: int, replies: Replies) -> Iterator[str | None]:
    """What is wrong with each list and each run, or None."""
    rng = random.Random(1)
    boards = [Board(program, *names) for names in PROJECTS]
    yield from judged(boards[0], [*hostile_lists()], replies)
    for start, board in zip(range(0, count, LISTS_AT_ONCE), itertools.cycle(boards)):
        lists = [board.list_of_events(rng) for _ in range(min(LISTS_AT_ONCE, count - start))]
        yield from judged(board, lists, replies)
    given = [(board, board.list_of_events(rng)) for board, _ in zip(itertools.cycle(boards), range(count_refused))]
    if given:
        with harness.new_folder() as folder:
            judge = functools.partial(refused, library(folder), replies)
            for runs in harness.side_by_side(lambda one_list: [*judge(*one_list)], [*given, (boards[0], AGAIN)]):
                yield from runs


def verdicts(words: Sequence[str]) -> Verdicts:
    parser = harness.Words(__doc__, "program")
    parser.add_argument("--lists", type=int, default=10_000)
    parser.add_argument("--refused", type=int, default=24)
    o = parser.parse_args(words)
    replies: Replies = collections.Counter()
    for number, fault in enumerate(faults(o.program, o.lists, o.refused, replies)):
        yield f"run {number}", fault
    print(", ".join(f"{reply} {count}" for reply, count in sorted(replies.items())))


if __name__ == "__main__":
    harness.run(verdicts)
