#!/usr/bin/env python3
"""bench/plan.py FOLDER [--set projects|small|large] [--only WORD] [--seconds S] [--jobs N]

Prints a table of what `plan solve --jobs N` knows after S seconds (1 and 20 by default), which calls the psmax and
psprove of FOLDER, beside one of them:

projects  those of planner/projects, beside `psmax solve`, which gets as many nodes as take about S seconds
small     40 generated projects of 20 to 60 activities, beside `psprove solve --jobs 1`
large     ten of 100 to 500 activities, beside the same

`--only` takes those alone whose name has the word. Each record of plan has to be accepted by `psprove verify`, with the
answer that was printed; those below 200,000 bytes also by tests/verify_log.py. Seconds are those of a clock. The last
lines count what was proved, and tell the load before and after."""
import argparse
import os
import pathlib
import re
import sys
import tempfile
from collections.abc import Iterator, Sequence

import measuring
import networks
import proofs
import shutdown
from measuring import TOP

FIRST_NODES, MOST_NODES = 20_000, 1_000_000_000
GROWTH = 10  # a search of psmax gets so many times the nodes of the one before, at most
ENOUGH = 0.8  # of the time, that the search in the table takes at least
SEEDS = 101, 102
Answer = tuple[str, float]  # what a command prints, and the seconds that it takes
Named = tuple[str, bytes]


def small() -> Iterator[Named]:
    families: dict[str, proofs.Family] = {**proofs.FAMILIES, "network": networks.project}
    for n in (20, 30, 40, 50, 60):
        for name, family in families.items():
            for seed in SEEDS:
                yield f"{name}, {n}, seed {seed}", family(n, seed).text()


def large() -> Iterator[Named]:
    for n in (100, 200, 300, 400, 500):
        yield f"network, {n}", networks.project(n, SEEDS[0], 0.15, loops=5).text()
        yield f"shutdown, {n}", shutdown.project(n, SEEDS[0]).text()


def kept() -> Iterator[Named]:
    for path in sorted((TOP / "planner" / "projects").glob("*.sch")):
        yield path.stem, path.read_bytes()


def run(words: Sequence[object], text: bytes = b"", folder: pathlib.Path | None = None) -> Answer:
    """An answer. `plan` calls the programs of the folder."""
    called = {name.upper(): str(folder / name) for name in ("psmax", "psprove")} if folder else {}
    ran = measuring.run(words, text, env={**os.environ, **called})
    return ran.out, ran.clock


def is_proved(out: str) -> bool:
    return out.startswith(("optimal", "no schedule"))


def by_psmax(folder: pathlib.Path, text: bytes, seconds: int) -> Answer:
    """The answer of the first search that takes about so many seconds, or that proves everything before."""
    nodes = FIRST_NODES
    while True:
        out, took = run([folder / "psmax", "solve", "--nodes", nodes], text)
        if is_proved(out) or took >= ENOUGH * seconds or nodes == MOST_NODES:
            return out, took
        nodes = min(MOST_NODES, int(nodes * min(GROWTH, seconds / took)))


def by_psprove(folder: pathlib.Path, text: bytes, seconds: int) -> Answer:
    return run([folder / "psprove", "solve", "--seconds", seconds], text)


def by_plan(folder: pathlib.Path, project: pathlib.Path, record: pathlib.Path, seconds: int, jobs: int) -> Answer:
    words = [sys.executable, TOP / "planner" / "plan", "solve", project, "--record", record]
    record.unlink(missing_ok=True)
    return run([*words, "--seconds", seconds, "--jobs", jobs], folder=folder)


def cells(out: str, took: float) -> list[str]:
    """The schedule, the bound, and the seconds."""
    found = re.match(r"(?:optimal|feasible) (\d+)", out)
    bound = re.search(r"^(?:optimal |.* bound )(\d+)$", out, re.M)
    told = [found[1] if found else "none" if is_proved(out) else "-", bound[1] if bound else ""]
    return [*(f"**{cell}**" if cell and is_proved(out) else cell for cell in told), f"{took:.1f}"]


def refused(folder: pathlib.Path, project: pathlib.Path, record: pathlib.Path, out: str) -> str:
    """Why a record is no proof of the answer; empty where it is one."""
    if not record.exists():
        return "no record"
    words = out.partition("\n")[0].split()
    wanted = f"proved {'bound ' + words[-1] if 'bound' in words else ' '.join(words)}\n"
    judges: list[list[object]] = [[folder / "psprove", "verify", "--project", project]]
    if record.stat().st_size < proofs.SMALL:
        judges.append([sys.executable, proofs.CHECKER, project])
    said = {run(words, record.read_bytes())[0] for words in judges}
    return "" if said == {wanted} else f"{said}, not {wanted!r}"


SETS = {"projects": (kept, by_psmax, "psmax solve"), "small": (small, by_psprove, "psprove solve"),
        "large": (large, by_psprove, "psprove solve")}


def main() -> None:
    parser = argparse.ArgumentParser(description=__doc__, formatter_class=argparse.RawDescriptionHelpFormatter)
    parser.add_argument("folder", type=pathlib.Path)
    parser.add_argument("--set", choices=SETS, default="projects")
    parser.add_argument("--only", default="")
    parser.add_argument("--seconds", type=int, default=20)
    parser.add_argument("--jobs", type=int, default=1)
    o = parser.parse_args()
    made, other, name = SETS[o.set]
    folder, load = o.folder.resolve(), os.getloadavg()[0]
    heads = [f"{title}{head}" for title in (f"`{name}`: ", "`plan solve`: ") for head in ("schedule", "bound", "s")]
    measuring.heads("Project", "Activities", *heads, "bytes of the record")
    proved, wrong = [0, 0, 0], []
    with tempfile.TemporaryDirectory() as kept_in:
        project, record = pathlib.Path(kept_in) / "project.sch", pathlib.Path(kept_in) / "record"
        for title, text in (one for one in made() if o.only in one[0]):
            project.write_bytes(text)
            answers = [other(folder, text, o.seconds), by_plan(folder, project, record, o.seconds, o.jobs)]
            size = f"{record.stat().st_size:,}" if record.exists() else "none"
            measuring.row(title, text.split()[0].decode(), *cells(*answers[0]), *cells(*answers[1]), size)
            proved = [proved[0] + 1, *(count + is_proved(out) for count, (out, _) in zip(proved[1:], answers))]
            wrong += [f"{title}: {fault}" for fault in [refused(folder, project, record, answers[1][0])] if fault]
    print(f"\nOf {proved[0]}: {proved[1]} by `{name}`, {proved[2]} by `plan solve --jobs {o.jobs}`.", *wrong, sep="\n")
    print(f"Load before and after: {load:.1f}, {os.getloadavg()[0]:.1f}.")


if __name__ == "__main__":
    main()
