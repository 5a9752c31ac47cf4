#!/usr/bin/env python3
"""tests/trims.py PSPROVE [--logs N]

Trims logs of lemmas by `psprove trim`: those of tests/logs, the rows of faults.jsonl there, and N logs of small
projects (2,000 by default), of which every other one is damaged. Of one that is right the trimmed log has to prove the
same, by `psprove verify` and by tests/verify_log.py. But for its drops it is no longer. It has one schedule at most, no
lemma in a slot that no later lemma uses or has delays of, and no slot that is filled longer than that; trimmed once
more it has the same bytes. Of any other log `trim` has to say what `verify` says. The last line counts the logs."""
import functools
import io
import itertools
import json
import random
from collections.abc import Iterator, Sequence
from pathlib import Path

import harness
import judges
import log_bytes
import small_projects
import small_prover
import verify
from harness import TOP, Ended, Verdict, Verdicts
from log_damages import damaged
from logs import project_of
from verify_log import Arc, Delays, Drop, Event, Lemma, Line, Log, Push, Schedule, Tour, Use

BY_SCRIPT = 200_000  # bytes of a log at most that is judged by verify_log.py


def trimmed(psprove: str, project: Path, log: bytes) -> Ended:
    return harness.ended([psprove, "trim", "--project", project], log, 600)


def events_of(log: bytes) -> list[Event]:
    return list(Log(io.BytesIO(log)).events())


def used(line: Line, delays: Delays) -> Iterator[int]:
    """The slots of lemmas that a line may rest on."""
    match line:
        case Use(slot):
            yield slot
        case Push(Tour(_, _, intervals), _):
            for m, k in itertools.combinations(intervals, 2):
                known = delays.by_slot.get((m.activity, k.activity), {})
                yield from (slot for slot, said in known.items() if m.end - k.at <= said[0] and k.end - m.at <= said[1])


def needless(events: Sequence[Event]) -> str | None:
    """What a trimmed log has that its claim doesn't rest on, as far as slots tell."""
    last_use: dict[int, int] = {}  # by slot that is filled: the event that used its lemma last, 0 if none did
    last = 0  # the last event that was no drop
    delays, arcs = Delays(), dict[int, list[Arc]]()
    for number, event in enumerate(events, 1):
        if isinstance(event, Drop):
            delays.drop(event.slot, arcs[event.slot])
            if last_use.pop(event.slot) < last:
                return f"event {number}: slot {event.slot} was not used just before"
            continue
        last = number
        if isinstance(event, Schedule) and number > 1:
            return f"event {number}: a schedule"
        if isinstance(event, Lemma):
            last_use |= {slot: number for line in event.lines for slot in used(line, delays)}
            if len(event.arcs) > 1:
                last_use[event.slot], arcs[event.slot] = 0, event.arcs
                delays.put(event.slot, event.arcs)
    return f"slots are filled in the end: {sorted(last_use)}" if last_use else None


def bytes_but_drops(log: bytes) -> int:
    return sum(len(log_bytes.framed(body)) for body in log_bytes.bodies_of(log)
               if log_bytes.number_at(body, 0)[0] % 4 != 1)


def wrong(psprove: str, project: Path, log: bytes) -> str | None:
    """What is wrong with what becomes of a log, or None."""
    whole = judges.by_program(psprove, project, log)
    if log.startswith(judges.TREE):
        whole = 4, b"", b"psprove: event 0: form\n"
    status, made, told = trimmed(psprove, project, log)
    if whole[0] != 0:
        return None if (status, made, told) == whole else f"trim says {status}, {told!r}, verify says {whole}"
    if (status, told) != (0, b""):
        return f"trim says {status}, {told!r} of a log that is right"
    if judges.by_program(psprove, project, made) != whole:
        return f"the trimmed log proves {judges.by_program(psprove, project, made)}, not {whole}"
    if len(made) < BY_SCRIPT and judges.by_script_of_logs(verify.Project(project.read_bytes()), made) != whole:
        return "verify_log.py says otherwise of the trimmed log"
    if bytes_but_drops(made) > bytes_but_drops(log):
        return f"{len(made)} bytes became of {len(log)}"
    return needless(events_of(made)) or (None if trimmed(psprove, project, made)[1] == made
                                         else "trimmed again it differs")


def rows(folder: Path) -> Iterator[tuple[str, Path, bytes]]:
    """Logs of folders, and those by hand."""
    for path in sorted(folder.glob("*.log")):
        yield path.name, project_of(path), path.read_bytes()
    for row in map(json.loads, (folder / "faults.jsonl").read_text().splitlines()):
        yield row["log"], folder / row["project"], bytes.fromhex(row["log"])


def played(psprove: str, folder: Path, seed: int) -> Verdict:
    """A log of a small project. Those of even seeds are right."""
    rng, project = random.Random(seed), folder / f"{seed}.sch"
    project.write_bytes(small_projects.small_project(rng).text())
    log = log_bytes.text_of(small_prover.proved(verify.Project(project.read_bytes()), rng))
    if seed % 2:
        log = damaged(rng, log)
    return f"log {seed}", wrong(psprove, project, log)


def verdicts(words: Sequence[str]) -> Verdicts:
    parser = harness.Words(__doc__, "psprove")
    parser.add_argument("--logs", type=int, default=2_000)
    o = parser.parse_args(words)
    for name, project, log in rows(TOP / "tests/logs"):
        yield name, wrong(o.psprove, project, log)
    with harness.new_folder() as folder:
        yield from harness.side_by_side(functools.partial(played, o.psprove, folder), range(o.logs))


if __name__ == "__main__":
    harness.run(verdicts)
