#!/usr/bin/env python3
"""tests/interrupted.py PSMAX PSPROVE [--kills N] [--points N] [--only WORD]

Kills with signal 9 runs of plan (`solve`, `write`, and the driver of cubes), of psprove (`solve`, `--resume`, `join`,
`--export`) and of psmax, N times each at random moments (twice by default), and cuts the power of a machine on which
they run at N points each (20 by default): strace tells the system calls of a run, and what the disk may hold after each
of them is made anew, by six rules. Each file that was named is whole then, or as it was before. The same command goes
on, or names what is left of a record, from which a search goes on. Without strace the power stays on. The last line
counts all."""
import random
import shutil
import time
from collections.abc import Callable, Iterator, Sequence
from functools import partial
from pathlib import Path

import disks
import harness
import plan_runs
import program_runs
from harness import Verdict, Verdicts
from interrupted_run import Run

Make = Callable[[Path], Run]  # makes a run in a new folder


def killed(run: Run, after: float) -> Verdict:
    """A run that is killed at some moment."""
    run.fill()
    run.kill(after)
    return f"{run.name} killed after {after:.3f} s", run.fault() or run.goes_on()


def cut(run: Run, points: int, rng: random.Random) -> Verdicts:
    """The states that power cuts leave at points of a run, and at its end, when what was asked for is there."""
    run.fill()
    log, before = run.folder / "calls", disks.contents(run.there)
    run.run(*disks.traced(log))
    after = disks.contents(run.there)
    seen: dict[str, disks.State] = {}
    last: dict[str, disks.State] = {}
    for place, disk in enumerate(disks.replay(log.read_bytes(), run.there, before)):
        last = dict(disk.states())
        seen |= {f"{place}, {name}": state for name, state in last.items()}
    for name, state in last.items():
        is_so = state == after or not run.is_kept and name != "names now, bytes now"
        yield f"{run.name} at the end, {name}", None if is_so else f"{sorted(state.items() ^ after.items())[:2]}"
    for name in sorted(rng.sample([*seen], min(points, len(seen)))):
        disks.put(run.there, seen[name])
        yield f"{run.name} at call {name}", run.fault()
    for name in rng.sample([*seen], min(points // 10, len(seen))):
        disks.put(run.there, seen[name])
        yield f"{run.name} at call {name}, and on", run.fault() or run.goes_on()


def interrupted(run: Run, kills: int, points: int, rng: random.Random) -> Verdicts:
    run.fill()
    begun = time.monotonic()
    status, _, told = run.run()
    seconds = time.monotonic() - begun
    yield f"{run.name} is not interrupted", run.fault() if status in (0, 3) else told.decode()
    yield from (killed(run, rng.uniform(0, seconds)) for _ in range(kills))
    if shutil.which("strace"):
        yield from cut(run, points, rng)


def makers(psmax: str, psprove: str) -> Iterator[tuple[str, Make]]:
    for of_plan in plan_runs.RUNS:
        yield of_plan.name, partial(of_plan, psprove=psprove)
    for name in program_runs.TASKS:
        yield name, partial(program_runs.run_of, name=name, psmax=psmax, psprove=psprove)


def verdicts(words: Sequence[str]) -> Verdicts:
    parser = harness.Words(__doc__, "psmax", "psprove")
    parser.add_argument("--kills", type=int, default=2)
    parser.add_argument("--points", type=int, default=20)
    parser.add_argument("--seed", type=int, default=1)
    parser.add_argument("--only", default="")
    o = parser.parse_args(words)
    rng = random.Random(o.seed)
    if not shutil.which("strace"):
        print("left out, for want of strace: power cuts")
    for name, make in makers(o.psmax, o.psprove):
        if o.only in name:
            with harness.new_folder() as folder:
                yield from interrupted(make(folder), o.kills, o.points, rng)


if __name__ == "__main__":
    harness.run(verdicts)
