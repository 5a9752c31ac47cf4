"""A run that may be interrupted, in a folder of its own, and what every such run has in common."""
import hashlib
import os
import shutil
import signal
import subprocess
import time
from collections.abc import Callable, Mapping
from pathlib import Path

import harness

SECONDS = 300.0  # that a run may take


class Run:
    """The words of a run, and what lies in `there` before it. `folder` has what the run needs besides."""

    name = ""
    is_kept = True  # whether the disk has all that was asked for once the run has ended

    def __init__(self, folder: Path) -> None:
        self.folder, self.there = folder, folder / "there"
        self.there.mkdir()
        (folder / "temporary").mkdir()
        self.words: list[str] = []
        self.given = Path(os.devnull)  # what is on standard input
        self.before: Mapping[str, bytes] = {}
        self.env = {**os.environ, "TMPDIR": str(folder / "temporary")}
        self.right: set[tuple[str, str]] = set()  # names and digests of files that were found right

    def fill(self) -> None:
        """With what is there before a run."""
        shutil.rmtree(self.there)
        self.there.mkdir()
        for name, data in self.before.items():
            (self.there / name).write_bytes(data)

    def run(self, *before: str) -> harness.Ended:
        with open(self.given, "rb") as given:
            return harness.ended([*before, *self.words], seconds=SECONDS, env=self.env, cwd=self.there, stdin=given)

    def kill(self, after: float) -> None:
        """Begins a run, and kills it after so many seconds."""
        with open(self.given, "rb") as given:
            child = subprocess.Popen(self.words, env=self.env, cwd=self.there, stdin=given, stdout=subprocess.DEVNULL,
                                     stderr=subprocess.DEVNULL)
        time.sleep(after)
        child.send_signal(signal.SIGKILL)
        child.wait()

    def holds(self, name: str) -> bytes | None:
        """What a file holds; nothing where it is lost."""
        path = self.there / name
        return path.read_bytes() if path.exists() else None

    def is_right(self, name: str, data: bytes, judge: Callable[[bytes], bool]) -> bool:
        """Whether a file is right; of the same bytes this is asked once."""
        key = name, hashlib.sha256(data).hexdigest()
        if key not in self.right and judge(data):
            self.right.add(key)
        return key in self.right

    def fault(self) -> str | None:
        """What is wrong with what is there."""
        raise NotImplementedError

    def goes_on(self) -> str | None:
        """What is wrong with how the same command ends after that."""
        raise NotImplementedError
