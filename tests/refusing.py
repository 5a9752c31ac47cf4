"""Runs a program while allocations are refused, one after another."""
import os
import pathlib
import subprocess
from collections.abc import Sequence

import harness
from harness import TOP, Ended

SOURCE = TOP / "tests" / "refusal.c"


def library(folder: pathlib.Path) -> pathlib.Path:
    """The library that refuses, built into a folder."""
    made = folder / "refusal.so"
    compiler = os.environ.get("CC", "cc")
    subprocess.run([compiler, "-O2", "-Wall", "-shared", "-fPIC", "-o", made, SOURCE], check=True)
    return made


def one(allocation: int) -> str:
    return f"{allocation}"


def two(allocation: int) -> str:
    return f"{allocation}-{allocation + 1}"


def all_from(allocation: int) -> str:
    return f"{allocation}-"


class Refusing:
    """Runs one program with one input: how it ends where some allocations are refused."""

    def __init__(self, made: pathlib.Path, words: Sequence[object], text: bytes = b"",
                 folder: pathlib.Path | None = None) -> None:
        self.made, self.words, self.text, self.folder = made, words, text, folder

    def run(self, allocations: str | None) -> tuple[Ended, bool]:
        """How it ends, and whether an allocation was refused: the allocations of a range, or none for None."""
        told, teller = os.pipe()
        env = {} if allocations is None else {"REFUSE": allocations, "REFUSE_TO": str(teller)}
        ended = self.ended(env, pass_fds=(teller,))
        os.close(teller)
        refused = os.read(told, 1) != b""
        os.close(told)
        return ended, refused or ended[0] is None

    def ended(self, env: dict[str, str], seconds: float = harness.TIMEOUT, pass_fds: tuple[int, ...] = ()) -> Ended:
        """How it ends with the library told so much; without a word it is not there."""
        env = {"PATH": os.environ["PATH"], **env, **({"LD_PRELOAD": str(self.made)} if env else {})}
        return harness.ended(self.words, self.text, seconds, cwd=self.folder, env=env, pass_fds=pass_fds)

    def count(self) -> int:
        """How many allocations there are in a run with ample memory: no more than the first so many can be refused."""
        low, high = 0, 1
        while self.run(one(high))[1]:
            low, high = high, 2 * high
        while high - low > 1:
            middle = (low + high) // 2
            if self.run(one(middle))[1]:
                low = middle
            else:
                high = middle
        return low
