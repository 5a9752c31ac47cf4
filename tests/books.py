#!/usr/bin/env python3
"""tests/books.py PROGRAM [--only WORD]

Plays each paragraph of tests/books.txt by the program of crates/book_events, and compares each reply. The last line
counts the replies."""
import re
from collections.abc import Iterator, Sequence

import harness
from harness import INPUTS, TOP, Verdicts


def paragraphs() -> Iterator[tuple[str, list[str], list[str], list[tuple[str, str]]]]:
    """Title, projects, steps without a reply, and steps each with its reply."""
    text = (TOP / "tests" / "books.txt").read_text()
    for paragraph in text.split("\n\n")[1:]:
        title, head, *lines = paragraph.strip("\n").split("\n")
        own, other, *quiet = head.split()
        yield title, [own, other], quiet, [(line.split()[0], line[22:]) for line in lines]


def played(program: str, projects: Sequence[str], steps: Sequence[str]) -> list[str]:
    """What the program says, a reply a step; after a failure its fault."""
    text = b";".join((INPUTS / f"{name}.sch").read_bytes() for name in projects)
    status, out, fault = harness.ended([program, *steps], text)
    replies = re.sub(r"\n(?=found |kid )", ", ", out.decode()).splitlines()
    return replies + ([] if status == 0 else [f"exit {status}: {fault.decode()}"])


def is_as_told(line: str, reply: str) -> bool:
    return line == reply if ";" in reply else line.split(";")[0] == reply


def verdicts(words: Sequence[str]) -> Verdicts:
    parser = harness.Words(__doc__, "program")
    parser.add_argument("--only", default="")
    o = parser.parse_args(words)
    for title, projects, quiet, steps in paragraphs():
        if o.only in title:
            lines = played(o.program, projects, [*quiet, *(step for step, _ in steps)])[len(quiet) :]
            for (step, reply), line in zip(steps, [*lines, *["nothing"] * len(steps)]):
                yield f"{title}, {step}", None if is_as_told(line, reply) else f"{line!r}, not {reply!r}"


if __name__ == "__main__":
    harness.run(verdicts)
