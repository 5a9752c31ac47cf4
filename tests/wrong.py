#!/usr/bin/env python3
"""tests/wrong.py [--crate NAME] [--only WORD] [--jobs N] [--anew]

Tries the wrong bodies that the gate doesn't try, side by side on copies of the crates: all of tests/wrong, or those of
one crate, or those whose names have a word. Each stands in the folder of the crate that it changes, with the lines of a
must-fail edit, whose paths are from the top of the repository, and a line that says what refuses it:

  proof: FUNCTION           the function doesn't meet its contract
  test: CRATE TEST          a test of a crate fails, which `rt try --test` runs without proofs
  script: FILE WORDS..      a script of tests/ fails on the program of a line `program:`, or on psmax, built without
                            proofs
  nothing: FUNCTION         it is let through, since the function promises less: so this script is seen to tell what is
                            refused

Where a crate has five proofs to try or more, `rt ci` tries them as must-fail edits, over one more proof of the crate. A
single one is tried by tests/check_one.py.

Prints a line for each: what refused it, or that it was let through. A run that was stopped goes on: `rt ci` keeps what
it tried, and build/wrong.jsonl keeps the rest while the crate and those below stay as they are. --anew forgets that
file. The last line counts the bodies that came to what their line says."""
import json
import os
import pathlib
import queue
import re
import subprocess
import sys
import time
from collections import Counter
from collections.abc import Iterator, Sequence
from concurrent.futures import ThreadPoolExecutor

import harness
import unproved
import wrong_bodies
from harness import TOP, Verdicts
from wrong_bodies import Body

SECONDS = 3600.0
MANY = 5  # so many proofs of a crate are tried over one more proof of it
KEPT = TOP / "build" / "wrong.jsonl"
LET_THROUGH = "let through"
# What a check says of goals: those that no search proved, or the first that a written answer doesn't prove.
OPEN_GOALS = re.compile(r"`search` did not prove .*$|(?<=error: )`[\w-]+`(?=: .*(types (first )?differ|expected type))",
                        re.M)
# What `rt ci` says of an edit.
TRIED = re.compile(r"(?:rt: )?must-fail (\w+)/(\w+)\.edit: (.*)")
Found = Iterator[tuple[Body, str]]  # what came of each body


def told(words: Sequence[object], folder: pathlib.Path) -> str:
    _, output, faults = harness.ended(words, seconds=SECONDS, cwd=folder)
    return (output + faults).decode(errors="replace")


def first_error(said: str) -> str:
    return next((line for line in said.splitlines() if "error" in line), said[-200:])


def by_check(copy: pathlib.Path, body: Body) -> str:
    function = body.words[0]
    kept = copy / "kept" / body.crate
    kept.mkdir(parents=True, exist_ok=True)
    check = [sys.executable, TOP / "tests" / "check_one.py", copy / "crates" / body.crate, function, "--incremental",
             kept]
    said = told(check, copy)
    if re.search(r"^only=(\d+) proved=\1$", said, re.M):
        return LET_THROUGH
    goal = OPEN_GOALS.search(said)
    if not goal or not re.search(rf"^fn {body.crate}::(?:.*::)?{re.escape(function)}: (no proof|not proved)", said,
                                 re.M):
        return f"not tried: {first_error(said)}"
    return f"refused: {goal[0]}"


def by_test(copy: pathlib.Path, body: Body) -> str:
    crate, name = body.words
    said = told(["rt", "try", "--test"], copy / "crates" / crate)
    _, failed, why = said.partition(f"test {name} ... FAILED\n")
    if failed and "no-answer" not in why.partition("\ntest ")[0]:
        return f"refused: {name} of {crate}"
    return LET_THROUGH if f"test {name} ... ok\n" in said else f"not tried: {said[-200:]}"


def by_script(copy: pathlib.Path, body: Body) -> str:
    program = copy / body.program
    if not unproved.build(copy / "crates" / body.program, program):
        return "not tried: it doesn't compile"
    said = told([sys.executable, TOP / body.words[0], program, *body.words[1:]], TOP)
    failed = re.search(r"^FAILED (.*)$", said, re.M)
    return f"refused: {failed[1]}" if failed else LET_THROUGH if ", 0 failed" in said else f"not tried: {said[-200:]}"


def tried(copy: pathlib.Path, body: Body) -> str:
    """What comes of a body in a copy of the crates."""
    ways = {"proof": by_check, "nothing": by_check, "test": by_test, "script": by_script}
    try:
        with wrong_bodies.changed(copy, body):
            return ways[body.by](copy, body)
    except (OSError, ValueError) as fault:
        return f"not tried: {fault}"


def by_edits(folder: pathlib.Path, bodies: Sequence[Body]) -> Found:
    """What comes of bodies as must-fail edits of their crates."""
    copy = wrong_bodies.copy_crates(folder / "edits")
    named = {(body.crate, body.name): body for body in bodies}
    for body in bodies:
        wrong_bodies.write_edit(copy, body)
    words = ["rt", "ci", *sorted({body.crate for body in bodies})] if bodies else ["true"]
    with subprocess.Popen(words, cwd=copy, stdin=subprocess.DEVNULL, stdout=subprocess.PIPE, stderr=subprocess.STDOUT,
                          text=True) as ran:
        for match in filter(None, map(TRIED.match, ran.stdout or [])):
            crate, name, said = match.groups()
            how, _, why = said.partition(": ")
            if (crate, name) not in named:
                continue  # it is told twice
            found = f"refused: {why}" if how == "refused, as it must be" else f"not tried: {said}"
            yield named.pop((crate, name)), LET_THROUGH if said.startswith("NOT REFUSED") else found
    yield from ((body, "not tried: rt ci ended before") for body in named.values())


def one_by_one(folder: pathlib.Path, bodies: Sequence[Body], jobs: int, anew: bool) -> Found:
    """What comes of each body, by what was kept or by a try. Each try is kept."""
    KEPT.parent.mkdir(exist_ok=True)
    lines = KEPT.read_text().splitlines() if KEPT.exists() and not anew else []
    kept: dict[str, str] = dict(map(json.loads, lines))
    free: "queue.Queue[pathlib.Path]" = queue.Queue()
    for number in range(jobs):
        free.put(wrong_bodies.copy_crates(folder / str(number)))
    with open(KEPT, "w" if anew else "a", buffering=1) as file, ThreadPoolExecutor(jobs) as pool:

        def result(body: Body) -> tuple[Body, str]:
            digest = wrong_bodies.digest(body)
            if digest in kept:
                return body, kept[digest]
            copy = free.get()
            found = tried(copy, body)
            free.put(copy)
            if not found.startswith("not tried"):
                file.write(json.dumps((digest, found)) + "\n")
            return body, found

        yield from pool.map(result, bodies)


def verdicts(words: Sequence[str]) -> Verdicts:
    parser = harness.Words(__doc__)
    parser.add_argument("--crate", default="", metavar="NAME")
    parser.add_argument("--only", default="", metavar="WORD")
    parser.add_argument("--jobs", type=int, default=os.cpu_count(), metavar="N")
    parser.add_argument("--anew", action="store_true")
    given = parser.parse_args(words)
    bodies, begun = wrong_bodies.bodies(given.crate, given.only), time.monotonic()
    proofs = Counter(body.crate for body in bodies if body.by == "proof")
    edits = [body for body in bodies if body.by == "proof" and proofs[body.crate] >= MANY]
    others = [body for body in bodies if body not in edits]
    with harness.new_folder() as folder:
        for found in (by_edits(folder, edits), one_by_one(folder, others, given.jobs, given.anew)):
            for body, said in found:
                print(f"{(time.monotonic() - begun) / 60:6.1f} {body}: {said}"[:240], flush=True)
                wanted = said == LET_THROUGH if body.by == "nothing" else said.startswith("refused: ")
                yield str(body), None if wanted else said


if __name__ == "__main__":
    harness.run(verdicts)
