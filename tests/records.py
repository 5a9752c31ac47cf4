#!/usr/bin/env python3
"""tests/records.py PROGRAM [--seeded N] [--damaged N]

Has the program write records of its searches with one, two and four workers, of the example projects and of N small
seeded ones (200 by default): `psmax verify` and tests/verify.py have to prove of each what `solve` printed, and where a
search was stopped there is no record. Then damages records of the example projects, N times (20,000 by default): both
have to say the same of each, and may prove nothing but the true verdict. The last line counts the records."""
import pathlib
import random
from collections.abc import Sequence

import harness
import judges
import verify
from damages import damaged
from harness import Verdicts

WORKERS = (1, 2, 4)
TAKES = "20000"


class Recorded:
    """What `solve` says of a project and writes down of its search, and the project itself."""

    def __init__(self, program: str, folder: pathlib.Path, name: str, text: bytes, workers: int) -> None:
        self.program, self.name = program, f"{name}, workers: {workers}"
        self.path = folder / f"{name}.sch"
        self.path.write_bytes(text)
        self.project = verify.Project(text)
        record = folder / "record"
        record.unlink(missing_ok=True)
        args = ["--workers", workers, "--nodes", TAKES, "--record", record]
        self.exit, out, _ = harness.ended([program, "solve", *args], text)
        self.verdict = b"proved " + out.split(b"\n")[0] + b"\n"
        self.is_recorded = record.exists()
        self.record = record.read_bytes() if self.is_recorded else b""

    def disagreement(self, record: bytes) -> str | None:
        """Why both don't say the same of a record of this project, or prove something else than the verdict; or
        None."""
        by_program = judges.by_program(self.program, self.path, record)
        by_script = judges.by_script(self.project, record)
        if by_program != by_script:
            return f"psmax says {by_program}, the script {by_script}"
        if by_program[0] == 0 and by_program[1] != self.verdict:
            return f"{by_program[1]!r} is proved, not {self.verdict!r}"
        return None

    def refusal(self) -> str | None:
        """Why the record that the search wrote isn't right, or None."""
        if self.exit == 3:
            return "a stopped search has a record" if self.is_recorded else None
        if self.exit != 0:
            return f"exit {self.exit}"
        if judges.by_script(self.project, self.record)[0] != 0:
            return "verify.py refuses it"
        return self.disagreement(self.record)


def verdicts(words: Sequence[str]) -> Verdicts:
    parser = harness.Words(__doc__, "program")
    parser.add_argument("--seeded", type=int, default=200)
    parser.add_argument("--damaged", type=int, default=20_000)
    o = parser.parse_args(words)
    with harness.new_folder() as folder:
        def recorded(name: str, text: bytes) -> list[Recorded]:
            return [Recorded(o.program, folder, name, text, workers) for workers in WORKERS]

        whole = [one for name, text in harness.examples() for one in recorded(name, text)]
        seeded = (harness.seeded(4 + seed % 8, seed) for seed in range(o.seeded))
        for one in [*whole, *(one for name, text in seeded for one in recorded(name, text))]:
            yield one.name, one.refusal()
        rng = random.Random(1)
        for number in range(o.damaged):
            one = rng.choice(whole)
            yield f"{one.name}, damage {number}", one.disagreement(damaged(rng, one.record))


if __name__ == "__main__":
    harness.run(verdicts)
