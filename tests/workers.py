#!/usr/bin/env python3
"""tests/workers.py PROGRAM [--runs N]

Runs the program N times (1,000 by default) with two to eight workers, each time on the next of the example projects and
of small seeded ones, and compares what it says with what one thread says without workers: both have to give the same
verdict, and each schedule has to pass `check`. Where one of them stops at its limit, its bound has to be at most what
the other found, and a schedule that it found has to be at least as long as a shortest one. The last line counts the
runs."""
import itertools
from collections.abc import Iterator, Sequence

import harness
from harness import Verdicts

TAKES = "3000"


def project_texts() -> Iterator[tuple[str, bytes]]:
    """The names and texts of the projects."""
    yield from harness.examples()
    yield from itertools.starmap(harness.seeded, itertools.product(range(6, 16), range(5)))


class Answer:
    """An answer's status, and the least and the greatest that a shortest makespan may be."""

    def __init__(self, program: str, text: bytes, *words: str) -> None:
        self.exit, self.whole, _ = harness.ended([program, "solve", "--nodes", TAKES, *words], text)
        first = self.whole.decode().split("\n")[0]
        numbers = [int(word) for word in first.split() if word.isdigit()]
        self.status = first if first == "no schedule" else first.partition(" ")[0]
        self.most = numbers[0] if self.status in ("optimal", "feasible") else None
        self.least = numbers[-1] if numbers else None


def disagreement(alone: Answer, many: Answer) -> str | None:
    """Why both can't be true of one project, or None."""
    if many.exit != {"optimal": 0, "no schedule": 0, "feasible": 3, "unknown": 3}.get(many.status):
        return f"exit {many.exit} with {many.status!r}"
    if "no schedule" in (alone.status, many.status):
        return "a schedule where there is none" if (alone.most, many.most) != (None, None) else None
    for one, other in ((many, alone), (alone, many)):
        if one.most is not None and other.least is not None and one.most < other.least:
            return f"{one.most} is below the bound {other.least}"
    return None


def refusal(program: str, text: bytes, many: Answer) -> str | None:
    """Whether `check` refuses the schedule of an answer."""
    with harness.new_folder() as folder:
        (folder / "project").write_bytes(text)
        told = harness.ended([program, "check", "--project", folder / "project"], many.whole)
    return None if told == (0, f"feasible {many.most}\n".encode(), b"") else "check refuses the schedule"


def verdicts(words: Sequence[str]) -> Verdicts:
    parser = harness.Words(__doc__, "program")
    parser.add_argument("--runs", type=int, default=1000)
    o = parser.parse_args(words)
    given = [(name, text, Answer(o.program, text)) for name, text in project_texts()]
    for (name, text, alone), workers, _ in zip(itertools.cycle(given), itertools.cycle(range(2, 9)), range(o.runs)):
        many = Answer(o.program, text, "--workers", str(workers))
        wrong = disagreement(alone, many) or (None if many.most is None else refusal(o.program, text, many))
        yield f"{name}, {workers} workers", wrong


if __name__ == "__main__":
    harness.run(verdicts)
