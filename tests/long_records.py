#!/usr/bin/env python3
"""tests/long_records.py PSPROVE

Runs searches whose records are long, with one job and with four, while something fails that a short search does not
meet: the record's file has room for a part of it alone, memory runs out, or a folder has taken the record's name in the
meantime. The answer then is whole, or there is none, as the exit status says. An older record stays as it is, and what
is left of the new one is right as far as it goes, and claims nothing. The last line counts the searches."""
import functools
import pathlib
import resource
import subprocess
import time
from collections.abc import Callable, Iterator, Sequence

import harness
import judges
import networks
import verify
from calls import parts
from channels import limit_files
from harness import Ended, Verdict, Verdicts

PROJECT, OPTIMUM = networks.project(100, 1, 0).text(), 285  # takes some thousand conflicts
CONFLICTS = "2000"  # a record of more than 100,000 bytes with one job
ROOMS = (0, 1, 100, 4_096, 50_000)
MEMORIES = [mib << 20 for mib in (5, 6, 8, 16, 32, 64, 96, 128, 160)]  # in 4 there is no room for the stack
OLD = b"an older record\n"


class Trial:
    """A folder with an older record, and a search of so many jobs."""

    def __init__(self, psprove: str, folder: pathlib.Path, jobs: int) -> None:
        self.psprove, self.folder, self.jobs = psprove, folder, jobs
        (folder / "project").write_bytes(PROJECT)
        (folder / "record").write_bytes(OLD)

    def words(self, *words: str) -> list[str]:
        return [self.psprove, "solve", "--jobs", str(self.jobs), "--record", "record", *words]

    def ended(self, limit: Callable[[], None]) -> Ended:
        return harness.ended(self.words("--conflicts", CONFLICTS), PROJECT, cwd=self.folder, preexec_fn=limit)

    def proved(self, name: str, partial: bool = False) -> Ended:
        return judges.by_program(self.psprove, self.folder / "project", (self.folder / name).read_bytes(), partial)

    def wrong_part(self) -> str | None:
        """What is wrong with what is left of a record, if anything is left."""
        if not (self.folder / "record.part").exists():
            return None
        if self.proved("record.part", True)[0] != 0:
            return f"what is left proves nothing: {self.proved('record.part', True)}"
        return "what is left claims something" if self.proved("record.part")[0] == 0 else None

    def wrong_answer(self, out: bytes) -> str | None:
        """What is wrong with an answer."""
        said, starts = parts(out)
        kind, makespan, *_, bound = said.split()
        if starts[-1] != int(makespan) or not verify.Project(PROJECT).is_feasible(starts):
            return "the starts are no feasible schedule"
        is_right = int(bound) <= OPTIMUM <= int(makespan) and kind in ("optimal", "feasible")
        return None if is_right else f"the answer is {said}"

    def wrong_record(self, out: bytes, name: str = "record") -> str | None:
        """What is wrong with the record of an answer."""
        kind, *_, bound = parts(out)[0].split()
        claim = f"proved {'optimal' if kind == 'optimal' else 'bound'} {bound}\n".encode()
        return None if self.proved(name) == (0, claim, b"") else f"{name} is wrong"

    def kept(self) -> str | None:
        return None if (self.folder / "record").read_bytes() == OLD else "the older record is lost"


def without_room(trial: Trial, room: int) -> str | None:
    """A file may have no more than so many bytes, of the record or of anything else."""
    ended = trial.ended(lambda: limit_files(room))
    if ended != (1, b"", b"psprove: cannot write\n"):
        return f"ends with {ended}"
    return trial.kept() or trial.wrong_part()


def without_memory(trial: Trial, most: int) -> str | None:
    def limit() -> None:
        resource.setrlimit(resource.RLIMIT_AS, (most, most))

    ended = trial.ended(limit)
    if ended[0] in (0, 3):
        return trial.wrong_answer(ended[1]) or trial.wrong_record(ended[1])
    wants = [b"psprove: out of memory\n", *[b"psprove: cannot start a thread\n"] * (trial.jobs > 1)]
    if ended[:2] != (1, b"") or ended[2] not in wants:
        return f"ends with {ended}"
    return trial.kept() or trial.wrong_part()


def without_name(trial: Trial) -> str | None:
    """A folder takes the record's name while the search goes on."""
    with open(trial.folder / "project", "rb") as project:
        ran = subprocess.Popen(trial.words("--until", "end"), stdin=project, stdout=subprocess.PIPE,
                               stderr=subprocess.PIPE,
                               cwd=trial.folder)
    part, end = trial.folder / "record.part", time.monotonic() + harness.TIMEOUT
    while time.monotonic() < end and not (part.exists() and part.stat().st_size):
        time.sleep(0.01)
    (trial.folder / "record").unlink()
    (trial.folder / "record").mkdir()
    (trial.folder / "end").touch()
    out, fault = ran.communicate(timeout=harness.TIMEOUT)
    if (ran.returncode, fault) != (1, b"psprove: cannot write\n"):
        return f"ends with {ran.returncode}, {fault!r}"
    return trial.wrong_answer(out) or trial.wrong_record(out, "record.part")


def tried(psprove: str, what: tuple[str, int, int]) -> Verdict:
    name, jobs, most = what
    with harness.new_folder() as folder:
        trial = Trial(psprove, folder, jobs)
        if name == "room":
            return f"{jobs} jobs, a record in {most} bytes", without_room(trial, most)
        if name == "memory":
            return f"{jobs} jobs, {most} bytes of memory", without_memory(trial, most)
        return f"{jobs} jobs, a folder of the record's name", without_name(trial)


def trials() -> Iterator[tuple[str, int, int]]:
    for jobs in (1, 4):
        yield from (("room", jobs, room) for room in ROOMS)
        yield from (("memory", jobs, memory) for memory in MEMORIES)
        yield "name", jobs, 0


def verdicts(words: Sequence[str]) -> Verdicts:
    psprove = harness.Words(__doc__, "psprove").parse_args(words).psprove
    yield from harness.side_by_side(functools.partial(tried, psprove), trials())


if __name__ == "__main__":
    harness.run(verdicts)
