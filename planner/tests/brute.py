"""Small projects that are solved by trying all starts: an independent way to what the programs have to find."""
import itertools
import random
from collections.abc import Iterator
from dataclasses import dataclass

HORIZON = 13  # no start is later
NAMES = "abcd"


@dataclass
class Small:
    """Three or four activities on a crane and two fitters, with lags from start to start, absences and due dates."""

    days: list[int]
    crane: list[int]
    fitters: list[int]
    lags: list[tuple[int, int, int, int | None]]  # after which, which, at least, at most
    away: list[tuple[str, int, int | None, int]]  # what, from when, until when, how many
    due: list[int | None]

    def table(self) -> str:
        rows = ["activity,days,crane (1),fitters (2),after,at least,at most,due"]
        for i, days in enumerate(self.days):
            due = "" if self.due[i] is None else self.due[i]
            rows.append(f"{NAMES[i]},{days},{self.crane[i]},{self.fitters[i]},,,,{due}")
            rows += [f",,,,start of {NAMES[first]},{least},{'' if most is None else most},"
                     for first, last, least, most in self.lags if last == i]
        return "\n".join(rows) + "\n"

    def absences(self) -> str:
        rows = [f"{what},{begin},{'' if end is None else end},{units}" for what, begin, end, units in self.away]
        return "\n".join(["resource,from,to,units", *rows]) + "\n"

    def schedules(self) -> Iterator[tuple[int, ...]]:
        found: list[tuple[int, ...]] = [()]
        for last in range(len(self.days)):
            lags = [(first, least, HORIZON if most is None else most)
                    for first, own, least, most in self.lags if own == last]
            found = [(*starts, time) for starts in found for time in range(HORIZON)
                     if all(least <= time - starts[first] <= most for first, least, most in lags)]
        return filter(self.is_enough, found)

    def is_enough(self, starts: tuple[int, ...]) -> bool:
        for what, needs, there in (("crane", self.crane, 1), ("fitters", self.fitters, 2)):
            for time in range(max(start + days for start, days in zip(starts, self.days))):
                used = sum(need for need, start, days in zip(needs, starts, self.days) if start <= time < start + days)
                gone = sum(units for name, begin, end, units in self.away
                           if name == what and begin <= time and (end is None or time < end))
                if used and used + gone > there:
                    return False
        return True

    def makespan(self, starts: tuple[int, ...]) -> int:
        return max(start + days for start, days in zip(starts, self.days))

    def lateness(self, starts: tuple[int, ...]) -> int:
        return max(start + days - due for start, days, due in zip(starts, self.days, self.due) if due is not None)


def small(seed: int) -> Small:
    """Absences of one resource never come to more than there is of it."""
    chance = random.Random(seed)
    count = chance.choice((3, 3, 4))
    lags: list[tuple[int, int, int, int | None]] = []
    for first, last in itertools.combinations(range(count), 2):
        if chance.random() < 0.35:
            least = chance.randint(0, 3)
            lags.append((first, last, least, None if chance.random() < 0.6 else least + chance.randint(0, 3)))
    begin = chance.randint(1, 5)
    away: list[tuple[str, int, int | None, int]] = [("crane", begin, begin + chance.randint(1, 3), 1)]
    away.append(("fitters", chance.randint(0, 6), None if chance.random() < 0.4 else chance.randint(7, 11), 1))
    if chance.random() < 0.3:
        away.append(("crane", begin + 4, None, 1))
    due: list[int | None] = [chance.randint(1, 9) if chance.random() < 0.7 else None for _ in range(count)]
    return Small([chance.randint(1, 3) for _ in range(count)], [chance.randint(0, 1) for _ in range(count)],
                 [chance.randint(0, 2) for _ in range(count)], lags, away, due)
