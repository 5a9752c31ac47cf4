"""Runs of psmax and psprove that may be interrupted, and what is wrong with the files that they leave."""
from collections.abc import Callable, Mapping
from functools import partial
from pathlib import Path
from typing import NamedTuple

import cubes
import disks
import harness
import judges
import networks
from interrupted_run import Run

OLD = b"an older file\n"
PROJECT = networks.project(100, 1, 0).text()  # takes some thousand conflicts
FEW, CONFLICTS = "300", "1000"
SMALL = harness.seeded(24, 9)[1]  # whose record by psmax has 154,974 bytes
PARTS = ("lemmas.part", "record.part")  # in the order in which a run looks for them


class Task(NamedTuple):
    """The words of a run, what is there before it, which of these files it writes, and whether a search goes on from
    what is left of its record."""

    program: str
    words: list[str]
    before: Mapping[str, bytes]
    project: bytes = PROJECT
    writes: tuple[str, ...] = ("record",)
    resumes: bool = True


class Record(Run):
    """A run that writes a record, and perhaps lemmas. It reads all else that is there before it."""

    def __init__(self, name: str, folder: Path, task: Task) -> None:
        super().__init__(folder)
        self.name, self.task, self.before = name, task, task.before
        self.words = [task.program, *task.words]
        self.given = self.project = folder / "project"
        self.project.write_bytes(task.project)
        self.fill()
        self.status = self.run()[0]
        self.whole = {written: self.holds(written) or b"" for written in task.writes}  # where nothing interrupts it

    def fault(self) -> str | None:
        parts = {f"{name}.part" for name in self.task.writes}
        odd = {path.name for path in self.there.iterdir()} - {*self.before} - parts
        if odd:
            return f"{odd} lie there"
        told = [*(self.fault_of(name, old) for name, old in self.before.items()), *map(self.fault_of_part, PARTS)]
        return next(filter(None, told), None)

    def fault_of(self, name: str, old: bytes) -> str | None:
        data = self.holds(name)
        if data is None or data != old and name not in self.task.writes:
            return f"{name} is lost" if data is None else f"{name} is read alone, and has changed"
        if data == old:
            return None
        return None if self.is_right(name, data, partial(self.is_whole,
                                                         name)) else f"{name} is neither what it was nor whole"

    def is_whole(self, name: str, data: bytes) -> bool:
        """A record proves what it claims. A tree, and what the search of a cube writes, comes again."""
        return self.proves(data) if self.task.resumes else data == self.whole[name]

    def proves(self, data: bytes, is_cut: bool = False) -> bool:
        return judges.by_program(self.task.program, self.project, data, is_cut)[0] == 0

    def fault_of_part(self, name: str) -> str | None:
        part = self.holds(name)
        is_right = part is None or self.is_right(name, part, partial(self.is_part, name.removesuffix(".part")))
        return None if is_right else f"{name} is no beginning of a file"

    def is_part(self, name: str, data: bytes) -> bool:
        """Those of a tree and of a cube prove nothing alone."""
        return self.proves(data, is_cut=True) if self.task.resumes else self.whole[name].startswith(data)

    def goes_on(self) -> str | None:
        for part in PARTS:
            if self.holds(part) is not None:
                fault = self.fault_of_second(part) or (self.fault_of_resume(part) if self.task.resumes else None)
                (self.there / part).unlink()
                if fault is not None:
                    return fault
        status, _, told = self.run()
        return self.fault() if status == self.status else f"the same command ends with {status}: {told.decode()}"

    def fault_of_second(self, part: str) -> str | None:
        """The same command names what is left, and touches nothing."""
        before = disks.contents(self.there)
        status, out, told = self.run()
        if (status, out) != (2, b"") or not told.startswith(f"error: {part} is there".encode()):
            return f"the same command ends with {status}: {told.decode()}"
        return None if before == disks.contents(self.there) else "the same command has touched what is left"

    def fault_of_resume(self, part: str) -> str | None:
        """A search goes on from what is left."""
        words = [self.task.program, "solve", "--resume", part, "--conflicts", "0", "--record", self.folder / "resumed"]
        status, _, told = harness.ended(words, self.task.project, cwd=self.there)
        if status not in (0, 3):
            return f"a search that goes on from what is left ends with {status}: {told.decode()}"
        return None if self.proves((self.folder / "resumed").read_bytes()) else "its record is wrong"


def solve(folder: Path, psmax: str, psprove: str) -> Task:
    return Task(psprove, ["solve", "--conflicts", CONFLICTS, "--record", "record"], {"record": OLD})


def resume(folder: Path, psmax: str, psprove: str) -> Task:
    """The record that it goes on from is the one that it writes."""
    harness.ended([psprove, "solve", "--conflicts", FEW, "--record", "before"], PROJECT, cwd=folder)
    words = ["solve", "--resume", "record", "--conflicts", CONFLICTS, "--record", "record"]
    return Task(psprove, words, {"record": (folder / "before").read_bytes()})


def searched(folder: Path, psprove: str) -> dict[str, bytes]:
    """The files of a project that was searched in cubes."""
    tree = cubes.Tree(psprove, folder / "cubes", PROJECT)
    for part in tree.search(cubes.Cube("", []), int(FEW))["pieces"]:
        tree.search(cubes.Cube(part["name"], part["arcs"]), int(CONFLICTS))
    (tree.folder / "tree").write_text("".join(tree.lines))
    return {path.name: path.read_bytes() for path in tree.folder.iterdir()}


def join(folder: Path, psmax: str, psprove: str) -> Task:
    words = ["join", "--project", "project.sch", "--tree", "tree", "--record", "record"]
    return Task(psprove, words, {**searched(folder, psprove), "record": OLD})


def export(folder: Path, psmax: str, psprove: str) -> Task:
    """The search of a cube, which takes lemmas, and gives others."""
    words = ["solve", "--project", "project.sch", "--under", "path", "--import", "1.given", "--conflicts", CONFLICTS,
             "--export", "lemmas", "--record", "record"]
    before = {**searched(folder, psprove), "record": OLD, "lemmas": OLD}
    return Task(psprove, words, before, writes=("record", "lemmas"), resumes=False)


def tree(folder: Path, psmax: str, psprove: str) -> Task:
    return Task(psmax, ["solve", "--record", "record"], {"record": OLD}, SMALL, resumes=False)


TASKS: dict[str, Callable[[Path, str, str], Task]] = {
    "psprove solve": solve, "psprove solve --resume": resume, "psprove join": join, "psprove solve --export": export,
    "psmax solve": tree}


def run_of(folder: Path, name: str, psmax: str, psprove: str) -> Record:
    return Record(name, folder, TASKS[name](folder, psmax, psprove))
