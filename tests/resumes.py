#!/usr/bin/env python3
"""tests/resumes.py PSPROVE

Stops searches of a job shop in the middle: at a limit, by the file of --until, and by a kill. What is on the disk then
has to prove the bound that was told, by `psprove verify`, and an older record has to be whole as long as the search
goes on. Then the search is resumed, with one job and with four, and has to end with the optimum, with a record that
begins with the events before. Logs that are wrong or of another project are refused. The last line counts the
trials."""
import json
import pathlib
import subprocess
import time
from collections.abc import Callable, Iterator, Sequence

import harness
import judges
import shops
from harness import Verdicts

OPTIMUM = 1175  # of ta04 (Taillard 1993)
OLD = b"an older record\n"
GROWN = 100_000  # so many bytes of a log are there before a search is ended from outside
LAST = 4_096  # the claim, or an event that is cut off, has fewer bytes


class Trial:
    """A folder with the shop, and runs of psprove in it."""

    def __init__(self, psprove: str, folder: pathlib.Path) -> None:
        self.psprove, self.folder = psprove, folder
        self.text = shops.project(shops.named("ta04")).text()
        self.project = folder / "shop.sch"
        self.project.write_bytes(self.text)

    def words(self, *words: str) -> list[str]:
        return [self.psprove, "solve", "--json", "--record", "run.log", *words]

    def solve(self, *words: str) -> harness.Ended:
        return harness.ended(self.words(*words), self.text, 300, cwd=self.folder)

    def begin(self, *words: str) -> subprocess.Popen[bytes]:
        """A run that has written some of its log."""
        (self.folder / "run.log").write_bytes(OLD)
        with open(self.project, "rb") as project:
            ran = subprocess.Popen(self.words(*words), stdin=project, stdout=subprocess.PIPE, stderr=subprocess.PIPE,
                                   cwd=self.folder)
        part = self.folder / "run.log.part"
        end = time.monotonic() + harness.TIMEOUT
        while time.monotonic() < end and not (part.exists() and part.stat().st_size >= GROWN):
            time.sleep(0.01)
        return ran

    def proved(self, name: str, partial: bool = False) -> harness.Ended:
        """What a log in a file proves."""
        return judges.by_program(self.psprove, self.project, (self.folder / name).read_bytes(), partial)


def claim(bound: int) -> harness.Ended:
    return 0, b"proved bound %d\n" % bound, b""


def at_a_limit(trial: Trial) -> str | None:
    status, out, _ = trial.solve("--conflicts", "2000")
    if status != 3:
        return f"ends with {status}"
    if trial.proved("run.log") != claim(json.loads(out)["bound"]):
        return "its log does not prove the bound"
    return None if not (trial.folder / "run.log.part").exists() else "run.log.part is left"


def by_a_file(trial: Trial) -> str | None:
    ran = trial.begin("--until", "end")
    whole = (trial.folder / "run.log").read_bytes() == OLD
    (trial.folder / "end").touch()
    out, _ = ran.communicate(timeout=harness.TIMEOUT)
    if ran.returncode != 3 or not whole:
        return f"ends with {ran.returncode}; the older record is whole: {whole}"
    wanted = claim(json.loads(out)["bound"])
    return None if trial.proved("run.log") == wanted else "its log does not prove the bound"


def by_a_kill(trial: Trial) -> str | None:
    ran = trial.begin("--progress", "json")
    ran.kill()
    told = ran.communicate()[1].splitlines()
    if (trial.folder / "run.log").read_bytes() != OLD:
        return "the older record is lost"
    status, said, _ = trial.proved("run.log.part", True)
    if status != 0 or not said.startswith(b"proved bound "):
        return f"what is left proves {said!r}, with {status}"
    bound = int(said.split()[-1])
    (trial.folder / "run.log.part").rename(trial.folder / "killed.log")
    return None if all(json.loads(line)["bound"] <= bound for line in told[:-1]) else "it proves less than was told"


def resumed(log: str, *words: str) -> Callable[[Trial], str | None]:
    def wrong(trial: Trial) -> str | None:
        before = (trial.folder / log).read_bytes()
        status, out, faults = trial.solve("--resume", log, *words)
        if status != 0 or json.loads(out)["makespan"] != OPTIMUM:
            return f"ends with {status}, {out[:80]!r}, {faults!r}"
        after = (trial.folder / "run.log").read_bytes()
        if after[:len(before) - LAST] != before[:len(before) - LAST]:
            return "the log does not begin with the events before"
        wanted = (0, b"proved optimal %d\n" % OPTIMUM, b"")
        return None if trial.proved("run.log") == wanted else "psprove verify refuses its log"
    return wrong


def refused(log: bytes, project: bytes, event: int) -> Callable[[Trial], str | None]:
    def wrong(trial: Trial) -> str | None:
        (trial.folder / "bad.log").write_bytes(log)
        ended = harness.ended(trial.words("--resume", "bad.log"), project, cwd=trial.folder)
        said = b"psprove: bad.log: event %d is wrong\n" % event
        return None if ended == (1, b"", said) else f"ends with {ended}"
    return wrong


def same_file(trial: Trial) -> str | None:
    (trial.folder / "run.log.part").write_bytes(OLD)
    ended = trial.solve("--resume", "run.log.part")
    kept = (trial.folder / "run.log.part").read_bytes() == OLD
    said = (2, b"", b"error: --resume and the part of --record name the same file\n")
    return None if ended == said and kept else f"ends with {ended}; the log is whole: {kept}"


def trials(trial: Trial) -> Iterator[tuple[str, Callable[[Trial], str | None]]]:
    yield "stopped at a limit", at_a_limit
    yield "resumed from that", resumed("run.log")
    yield "ended by a file", by_a_file
    yield "resumed from that with four jobs", resumed("run.log", "--jobs", "4")
    yield "killed", by_a_kill
    yield "resumed from what is left", resumed("killed.log")
    log = (trial.folder / "killed.log").read_bytes()
    yield "resumed from no log", refused(b"record 1\n", trial.text, 0)
    yield "resumed from a log of another project", refused(log, (harness.INPUTS / "forced-order.sch").read_bytes(), 1)
    yield "resumed from the file of the record", same_file


def verdicts(words: Sequence[str]) -> Verdicts:
    psprove = harness.Words(__doc__, "psprove").parse_args(words).psprove
    with harness.new_folder() as folder:
        trial = Trial(psprove, folder)
        for name, wrong in trials(trial):
            yield name, wrong(trial)


if __name__ == "__main__":
    harness.run(verdicts)
