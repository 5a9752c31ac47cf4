"""Runs of plan that may be interrupted, and what is wrong with the files that they leave."""
import hashlib
import json
import sys
from functools import partial
from pathlib import Path

import harness
from harness import TOP
from interrupted_run import Run

PLAN, TABLE = TOP / "planner" / "plan", TOP / "planner" / "projects" / "satellite-tests.csv"
STAND_IN = TOP / "planner" / "tests" / "cube_stand_in.py"
FOUR = ("4 1 0 0\n0 1 0\n1 1 1 2 [6]\n2 1 0\n3 1 1 4 [-3]\n4 1 0\n5 1 0\n"  # whose shortest schedule takes 9
        "0 1 0 0\n1 1 3 1\n2 1 2 1\n3 1 2 1\n4 1 2 1\n5 1 0 0\n1\n")


class PlanRun(Run):
    """What plan is called with: its own Python and the programs at hand."""

    def __init__(self, folder: Path, psprove: str) -> None:
        super().__init__(folder)
        self.env |= {"PSPROVE": psprove, "PSMAX": str(Path(psprove).parent / "psmax")}

    def plan(self, *words: object) -> list[str]:
        return [sys.executable, str(PLAN), *map(str, words)]


class Files(PlanRun):
    """A run that writes files, each of which holds what it did or is found right by plan."""

    def fault(self) -> str | None:
        for name, old in self.before.items():
            data = self.holds(name)
            if data is None:
                return f"{name} is lost"
            if data != old and not self.is_right(name, data, partial(self.is_whole, name)):
                return f"{name} is neither what it was nor whole"
        return None

    def is_whole(self, name: str, data: bytes) -> bool:
        if name.endswith(".svg"):
            return data.endswith(b"</svg>\n")
        words = self.plan("verify" if name.endswith(".rec") else "check", TABLE, self.there / name)
        return harness.ended(words, env=self.env)[0] == 0

    def goes_on(self) -> str | None:
        status, _, told = self.run()
        return self.fault() if status == 0 else f"the same command ends with {status}: {told.decode()}"


class Solve(Files):
    """A search with its answer, a picture and a record."""

    name = "plan solve"

    def __init__(self, folder: Path, psprove: str) -> None:
        super().__init__(folder, psprove)
        self.before = {"plan.csv": b"", "plan.svg": b"<svg />\n", "plan.rec": b"record 3\nold"}
        self.words = self.plan("solve", TABLE, "--jobs", 2, "--out", "plan.csv", "--svg", "plan.svg", "--record",
                               "plan.rec")


class Write(Files):
    """A schedule that becomes a table with dates."""

    name = "plan write"

    def __init__(self, folder: Path, psprove: str) -> None:
        super().__init__(folder, psprove)
        answer = folder / "answer"
        harness.ended(self.plan("solve", TABLE, "--out", answer), env=self.env)
        self.before = {"table.csv": b"activity,name,start,takes,end\nold,,0,1,1\n"}
        self.words = self.plan("write", TABLE, answer, "--out", "table.csv")


class Cubes(PlanRun):
    """The driver of cubes, with a psprove that stands in."""

    name = "cubes"

    def __init__(self, folder: Path, psprove: str) -> None:
        super().__init__(folder, psprove)
        (folder / "four.sch").write_text(FOUR)
        stand_in = folder / "psprove"
        stand_in.write_text(f'#!/bin/sh\nexec {sys.executable} -ES {STAND_IN} 0 "$@"\n')
        stand_in.chmod(0o755)
        self.env["PSPROVE"] = str(stand_in)
        self.words = self.plan("solve", folder / "four.sch", "--jobs", 2, "--out", f"{self.there}/cubes/")

    def fault(self) -> str | None:
        """Each file of which a row tells the SHA-256 is there, and is what it says."""
        rows = self.there / "cubes" / "rows"
        for line in rows.read_bytes().split(b"\n")[:-1] if rows.exists() else ():
            row = json.loads(line)
            for kind, sha256 in row.get("sha256", {}).items():
                path = self.there / "cubes" / "cubes" / f"{row['number']}.{kind}"
                if not path.exists() or hashlib.sha256(path.read_bytes()).hexdigest() != sha256:
                    return f"{path.name} is not what its row says"
        return None

    def goes_on(self) -> str | None:
        status, out, told = self.run()
        if status != 0:
            return f"the same command ends with {status}: {told.decode()}"
        return self.fault() or (None if out.startswith(b"optimal 9\n") else f"the answer is {out!r}")


RUNS: tuple[type[Solve] | type[Write] | type[Cubes], ...] = Solve, Write, Cubes
