#!/usr/bin/env python3
"""bench/progen.py N SEED [--order O] [--redundancy R] [--cycles C] [--slack W] [--factor F] [--strength S] >
PROJECT.sch

Writes a project of N activities after ProGen/max (Schwindt 1998), the same for the same words. All numbers are whole;
shares are in hundredths. Lehmer's generator (bench/lehmer.py) draws all of it, in this order, from a seed that the
SHA-256 of "progen", N, SEED and the options in the order above gives. To draw from A to B is to draw any of these
evenly.

Durations. One from 1 to 10 for each activity.

Arcs. The order strength is the share of the pairs of activities of which a path leads from one to the other. Two
activities are drawn, each from 1 to N, until O hundredths of the pairs, rounded down, are in an order, or fewer by at
most one of 200 pairs. An arc leads from the lesser to the greater, if no path does, and if no more pairs than wanted
come to be in an order. Then an arc goes if another path leads from its tail to its head. Last come redundant arcs, so
that at least R hundredths of the arcs are redundant: two activities are drawn, each from 1 to N, until a path and no
arc leads from the lesser to the greater, or 100 N pairs have been drawn.

Minimum lags. One for each arc in the order of tails and heads, from half of the tail's duration, rounded up, to one and
a half, rounded down.

Cycle structures. A cycle structure is a largest set of activities that are all tied in both directions. There are C of
them, if C is not said one for each ten activities. An activity is drawn from 1 to N, and a number of steps from 1 to
3. Each step draws one of the arcs that lead on, in the order of heads; it ends early where there is none. A maximum lag
leads back over these steps, if the structure that it makes has no activity of an earlier one, and not more than half of
all. It is as long as the longest path from its first to its last activity, and up to W hundredths of the sum of the
structure's durations longer, which is drawn. At most 1,000 C activities are drawn for this.

Demands. The resource factor is the share of the resources that an activity needs, over all activities. Each activity
needs one of the 5 resources, which is drawn. Then an activity and a resource are drawn until F hundredths of all pairs
of these have been drawn, each once. Last each pair, activity by activity, draws its units from 1 to 10.

Capacities. With the strength 0 a resource serves the activity alone that needs most of it; with 100 it serves all at
their earliest starts by all lags. In between the rest is shared out evenly, and rounded to the nearest."""
import sys
from collections.abc import Sequence
from typing import NamedTuple

import lehmer
import projects
from lehmer import Lehmer
from networks import peak
from projects import Arc, Project

RESOURCES = 5
LONGEST = 10
MOST_UNITS = 10
MOST_STEPS = 3


class Words(NamedTuple):
    n: int
    seed: int
    order: int
    redundancy: int
    cycles: int
    slack: int
    factor: int
    strength: int


def bits(members: int) -> list[int]:
    """The numbers of the bits that are set."""
    return [i for i in range(members.bit_length()) if members >> i & 1]


class Network:
    """Which activities paths lead to, as bits: from each, and to each, itself among them."""

    def __init__(self, n: int) -> None:
        self.n, self.pairs = n, 0
        self.after = [1 << i for i in range(n + 1)]
        self.before = [1 << i for i in range(n + 1)]

    def leads(self, i: int, j: int) -> bool:
        return bool(self.after[i] >> j & 1)

    def gain(self, i: int, j: int) -> int:
        """How many pairs get in an order by an arc."""
        return sum((self.after[j] & ~self.after[k]).bit_count() for k in bits(self.before[i]))

    def add(self, i: int, j: int) -> None:
        self.pairs += self.gain(i, j)
        tails, heads = self.before[i], self.after[j]
        for k in bits(tails):
            self.after[k] |= heads
        for k in bits(heads):
            self.before[k] |= tails

    def tied(self, first: int, last: int) -> int:
        """The activities that an arc from the last to the first ties in both directions."""
        return self.after[first] & self.before[last]


def drawn_pair(rng: Lehmer, n: int) -> tuple[int, int]:
    i, j = rng.within(1, n), rng.within(1, n)
    return min(i, j), max(i, j)


def ordered(rng: Lehmer, network: Network, order: int) -> list[tuple[int, int]]:
    """Arcs of this order strength, none of them redundant."""
    n = network.n
    all_pairs = n * (n - 1) // 2
    wanted, arcs = order * all_pairs // 100, []
    while wanted - network.pairs > all_pairs // 200:
        i, j = drawn_pair(rng, n)
        if not network.leads(i, j) and network.pairs + network.gain(i, j) <= wanted:
            network.add(i, j)
            arcs.append((i, j))
    heads: dict[int, int] = {}
    for i, j in arcs:
        heads[i] = heads.get(i, 0) | 1 << j
    return [(i, j) for i, j in arcs if not any(network.leads(k, j) for k in bits(heads[i]) if k != j)]


def with_redundant(rng: Lehmer, network: Network, arcs: list[tuple[int, int]], share: int) -> list[tuple[int, int]]:
    """The arcs, and as many redundant ones as make this share of all."""
    wanted = -(-len(arcs) * share // (100 - share))
    there = set(arcs)
    for _ in range(100 * network.n):
        if len(there) == len(arcs) + wanted:
            break
        i, j = drawn_pair(rng, network.n)
        if i < j and network.leads(i, j):
            there.add((i, j))
    return sorted(there)


def longest(n: int, arcs: Sequence[Arc], first: int, last: int) -> int:
    """The weight of the longest path over arcs that lead on, which are in the order of their tails."""
    weights = {first: 0}
    for i, j, lag in arcs:
        if i in weights:
            weights[j] = max(weights.get(j, 0), weights[i] + lag)
    return weights[last]


def walked(rng: Lehmer, n: int, arcs: Sequence[Arc]) -> tuple[int, int]:
    """The first and the last activity of some steps."""
    first = last = rng.within(1, n)
    for _ in range(rng.within(1, MOST_STEPS)):
        heads = [j for i, j, _ in arcs if i == last]
        last = heads[rng.within(0, len(heads) - 1)] if heads else last
    return first, last


def maximum_lags(rng: Lehmer, network: Network, words: Words, durations: Sequence[int],
                 arcs: Sequence[Arc]) -> list[Arc]:
    n, back, used = words.n, list[Arc](), 0
    for _ in range(1000 * words.cycles):
        if len(back) == words.cycles:
            break
        first, last = walked(rng, n, arcs)
        tied = network.tied(first, last)
        if first != last and not tied & used and 2 * tied.bit_count() <= n:
            most = words.slack * sum(durations[i] for i in bits(tied)) // 100
            back.append((last, first, -(longest(n, arcs, first, last) + rng.within(0, most))))
            network.add(last, first)
            used |= tied
    return back


def demands(rng: Lehmer, n: int, factor: int) -> list[list[int]]:
    needs = {(i, rng.within(0, RESOURCES - 1)) for i in range(1, n + 1)}
    while len(needs) * 100 < factor * n * RESOURCES:
        needs.add((rng.within(1, n), rng.within(0, RESOURCES - 1)))
    rows = [[0] * RESOURCES for _ in range(n + 2)]
    for i, k in sorted(needs):
        rows[i][k] = rng.within(1, MOST_UNITS)
    return rows


def earliest(count: int, arcs: Sequence[Arc]) -> list[int]:
    """The earliest starts by all lags, which do not contradict each other."""
    starts, before = projects.earliest(count, arcs), list[int]()
    while starts != before:
        before = [*starts]
        for i, j, lag in arcs:
            starts[j] = max(starts[j], starts[i] + lag)
    return starts


def project(words: Words) -> Project:
    n, rng = words.n, lehmer.of_words("progen", *words)
    durations = [0, *(rng.within(1, LONGEST) for _ in range(n)), 0]
    network = Network(n)
    arcs = ordered(rng, network, words.order)
    least = [(i, j, rng.within(-(-durations[i] // 2), 3 * durations[i] // 2))
             for i, j in with_redundant(rng, network, arcs, words.redundancy)]
    lags = least + maximum_lags(rng, network, words, durations, least)
    rows = demands(rng, n, words.factor)
    starts = earliest(n + 2, lags)
    capacities = []
    for k in range(RESOURCES):
        fewest = max(row[k] for row in rows)
        most = max(fewest, peak(durations, rows, starts, k))
        capacities.append(fewest + (words.strength * (most - fewest) + 50) // 100)
    return Project(durations, rows, capacities, lags)


def words_of(line: Sequence[str] | None = None) -> Words:
    """The words of a line, or of the command line."""
    parser = projects.words(__doc__)
    for option, usual in (("order", 50), ("redundancy", 10), ("cycles", -1), ("slack", 50), ("factor", 75),
                          ("strength", 25)):
        parser.add_argument(f"--{option}", type=int, default=usual)
    words = Words(**vars(parser.parse_args(line)))
    shares = words.order, words.redundancy + 1, words.factor, words.strength
    if words.n < 1 or words.slack < 0 or not all(0 <= share <= 100 for share in shares):
        parser.error("a share is from 0 to 100, the redundancy below 100, and there is an activity at least")
    return words if words.cycles >= 0 else words._replace(cycles=words.n // 10)


if __name__ == "__main__":
    sys.stdout.buffer.write(project(words_of()).text())
