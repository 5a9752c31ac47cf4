"""planner/tests/stand_in.py STORY solve WORD..

Stands in for psprove. STORY is a file with a dictionary, as `marshal` writes it, which says what it does:

tells   the reports of its book, one after another, each with the bound, and perhaps with starts
then    "answers" at once; "pairs", with two jobs at a time, whatever the project is; "waits" for its limits, and
        answers; "sticks", and has to be killed; or "dies"
answer  the starts and the bound of its answer, which is otherwise that of its last report
times   how often it tells all of that
record  the seconds that its record takes after the answer
bytes   how many its record has, most of them 0"""
from __future__ import annotations

import marshal
import os
import sys
import time

TYPE_CHECKING = False  # this imports nothing that it can do without: a test starts it many times
if TYPE_CHECKING:
    from typing import Any

    Row = dict[str, Any]

KILL = 9
STUCK = 30.0  # seconds
FOUND = {"found": "by a dive"}


def to_json(told: object) -> str:
    """Of what has no signs but those of numbers and plain words."""
    return str(told).replace("'", '"').replace("None", "null")


def report(told: Row) -> Row:
    starts = {"makespan": told["starts"][-1], **FOUND, "starts": told["starts"]} if "starts" in told else {}
    return {"seconds": 0, "bound": told["bound"], **starts}


def answer(told: Row) -> Row:
    starts = told.get("starts")
    status = "unknown" if starts is None else "optimal" if starts[-1] == told["bound"] else "feasible"
    return {"conflicts": 1, "bound": told["bound"], "makespan": None if starts is None else starts[-1],
            "starts": starts,
            "status": status}


def pairs(text: str) -> Row:
    """The starts of jobs of which each is tied to jobs before it alone that have an even or an odd number as it has."""
    count, *_ = map(int, text.split("\n", 1)[0].split())
    days = [int(line.split()[2]) for line in text.splitlines()[count + 3 : 2 * count + 5]]
    ends = [sum(days[first : count + 1 : 2]) for first in (0, 1)]
    return {"bound": 0, "starts": [*(sum(days[job % 2 : job : 2]) for job in range(count + 1)), max(ends)]}


def project(options: dict[str, str]) -> str:
    with open(options["--project"]) as file:
        return file.read()


def wait(options: dict[str, str]) -> None:
    """Waits for the file that ends a search, or for the limit of seconds."""
    end = time.monotonic() + float(options["--seconds"])
    while time.monotonic() < end and not os.path.exists(options.get("--until", "")):
        time.sleep(0.01)


def main(path: str, *words: str) -> None:
    with open(path, "rb") as file:
        story: Row = marshal.load(file)
    for told in story["tells"] * story.get("times", 1):
        print(to_json(report(told)), file=sys.stderr, flush=True)
    if story["then"] == "dies":
        os.kill(os.getpid(), KILL)
    if story["then"] == "sticks":
        time.sleep(STUCK)
    options = dict(zip(words, words[1:]))
    if story["then"] == "waits":
        wait(options)
    told = answer(pairs(project(options)) if story["then"] == "pairs" else story.get("answer", story["tells"][-1]))
    print(to_json(told), flush=True)
    time.sleep(story.get("record", 0))
    if "--record" in options:
        with open(options["--record"], "w") as file:
            file.write("record 3\n")
            file.truncate(story.get("bytes", file.tell()))
    sys.exit(0 if told["status"] == "optimal" else 3)


if __name__ == "__main__":
    main(*sys.argv[1:])
