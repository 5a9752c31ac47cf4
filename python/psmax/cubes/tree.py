"""The tree of the cubes of a project, as it stands in a folder. One driver writes it; nobody else has to agree on
anything.

mark          the version of the folder, and the SHA-256 of the project
project.sch   the project
rows          a line of JSON for each step: the first search has ended, a driver has begun, a cube is given out, its
              search has ended or is lost, its log is damaged, or its logs are put aside. Each has a checksum
cubes/N.log   what search N proves; N.import has the lemmas that it got, and N.lemmas its own. Rows have their SHA-256
incoming      files on their way there, by the numbers of their searches and their SHA-256
token         the run's: a worker that reads it sees the folder, and leaves its files there
tree          the logs, for `psprove join`
start         the shortest schedule, for the same
proved        what the last join proves"""
import json
import os
import pathlib
import time
import zlib
from collections.abc import Callable, Iterator
from dataclasses import dataclass, replace

from ..errors import BadInput
from . import folder as folders
from .answer import left
from .cube import MADE, TOLD, Row
from .folder import CUBES, PROJECT, ROWS, digest, digest_of, write_file

WHOLE = "-"  # what the cube without a path is called by psprove
SUM = ', "sum": "'  # before the checksum of a row


@dataclass(frozen=True)
class Cube:
    arcs: tuple[tuple[int, ...], ...] = ()  # of its path, each I J V
    age: int = 0  # how many searches of it, and of those above it, a limit has ended


class Tree:
    """Cubes by their names, words of 0 and 1. What each row says is taken in one way, now or after a driver was
    killed."""

    def __init__(self, folder: pathlib.Path) -> None:
        self.folder = folder
        self.cubes = {"": Cube()}
        self.waiting = {""}
        self.running: dict[int, str] = {}  # by the numbers of their searches
        self.damaged: dict[int, str] = {}  # searches that are made again, since their logs are no longer what they were
        self.digests: dict[int, dict[str, str]] = {}  # of the files of each search, by their kinds
        self.begun: dict[int, list[int] | None] = {}  # with which schedule each search began
        self.refuted: set[str] = set()
        self.logs: dict[int, str] = {}  # searches whose logs are joined, in the order of their ends, with their cubes
        self.starts: tuple[int, ...] | None = None  # of the shortest schedule, by the numbers of the text
        self.offset = 0  # of what is minimized: it is so much less than the end of the text
        self.number = 0
        self.seconds = 0.0  # of all drivers
        self.spent = 0.0  # seconds of processors
        self.conflicts = 0
        self.share = 0.0  # of the tree, refuted
        self.shares = [(0.0, 0.0)]  # after so many seconds, so much
        for row in read_rows(folder / ROWS):
            self.take(row)

    def take(self, row: Row) -> None:
        steps: dict[str, Callable[[Row], None]] = {
            "given": self.hand_out, "first": self.begin, "ended": self.end, "begun": self.go_on,
            "lost": lambda row: self.abandon(row["number"]), "damaged": lambda row: self.doubt(row["number"]),
            "aside": lambda row: self.open_again(row["cube"])}
        self.seconds = row["at"]
        steps[row["step"]](row)
        self.digests.setdefault(row.get("number", 0), {}).update(row.get("sha256", {}))
        self.shares.append((row["at"], self.share))

    def hand_out(self, row: Row) -> None:
        """A search that is made again has the number that it had."""
        self.number = max(self.number, row["number"])
        self.waiting.discard(row["cube"])
        self.running[row["number"]] = row["cube"]
        self.begun[row["number"]] = row.get("starts")

    def go_on(self, row: Row) -> None:
        """A driver has begun."""
        self.abandon_all()
        self.learn(row["starts"])
        self.offset = row["offset"]

    def begin(self, row: Row) -> None:
        """The first search is one of the whole project, which a driver gives out again where it stays open."""
        self.number = row["number"]
        self.logs[self.number] = ""
        self.count(row)
        if row["state"] == "refuted":
            self.waiting.discard("")
            self.refute("")

    def end(self, row: Row) -> None:
        """One that was made again leaves a cube split that is."""
        number = row["number"]
        name, is_split = self.running.pop(number), number in self.damaged and not self.is_leaf(self.damaged[number])
        cube = self.cubes[name]
        self.damaged.pop(number, None)
        self.count(row)
        if row["state"] == "refuted" and not is_split:
            self.refute(name)
        children = {name + one["name"]: Cube(cube.arcs + tuple(map(tuple, one["arcs"])), cube.age + 1)
                    for one in row["pieces"] if one["name"] and not is_split}
        if children or is_split or row["state"] == "refuted":
            self.logs[number] = name
            self.cubes |= children
            self.waiting |= {*children}
        else:  # it can't be split: searched again, for longer
            self.logs.pop(number, None)
            self.cubes[name] = replace(cube, age=cube.age + 1)
            self.waiting.add(name)

    def count(self, row: Row) -> None:
        """What a search took, and its schedule."""
        self.spent += row["seconds"]
        self.conflicts += row["conflicts"]
        self.learn(row["starts"])

    def refute(self, name: str) -> None:
        self.refuted.add(name)
        self.share += share_of_tree(name)

    def learn(self, starts: list[int] | None) -> None:
        if starts is not None and (self.starts is None or starts[-1] < self.starts[-1]):
            self.starts = tuple(starts)

    def doubt(self, number: int) -> None:
        """The log of the search is damaged. It keeps its place, and counts again once the search is made again."""
        name = self.damaged[number] = self.logs[number]
        if name in self.refuted:
            self.refuted.discard(name)
            self.share -= share_of_tree(name)

    def open_again(self, name: str) -> None:
        """Without its logs; a cube that was split stays so."""
        was_refuted = name in self.refuted
        if was_refuted:
            self.refuted.discard(name)
            self.share -= share_of_tree(name)
        if was_refuted or name in self.damaged.values() and self.is_leaf(name):
            self.waiting.add(name)
        self.logs = {number: other for number, other in self.logs.items() if other != name}
        self.damaged = {number: other for number, other in self.damaged.items() if other != name}

    def is_leaf(self, name: str) -> bool:
        """Whether the cube is not split."""
        return not any(other != name and other.startswith(name) for other in self.cubes)

    def abandon(self, number: int) -> None:
        """The search is lost: its cube waits again."""
        name = self.running.pop(number)
        if number not in self.damaged:
            self.waiting.add(name)

    def abandon_all(self) -> None:
        """Those of a driver that is there no more."""
        for number in [*self.running]:
            self.abandon(number)

    def repeats(self) -> list[int]:
        """The searches that are to be made again."""
        return [number for number in self.damaged if number not in self.running]

    def is_open(self) -> bool:
        """Whether there is still something to search."""
        return bool(self.waiting or self.running or self.damaged)

    def whole(self) -> Iterator[tuple[int, str]]:
        """The searches whose logs are not damaged, with their cubes, in the order of their ends."""
        return ((number, name) for number, name in self.logs.items() if number not in self.damaged)

    def next(self) -> str:
        """Of the cubes that wait, the first one of those that were split most often."""
        return min(self.waiting, key=lambda name: (-self.cubes[name].age, name))

    def state(self) -> str:
        count = len(self.waiting) + len(self.repeats())
        return (f"cubes: {len(self.refuted)} refuted, {count} open, {len(self.running)} running; "
                f"{100 * self.share:.1f} % of the tree")

    def file(self, number: int, kind: str) -> pathlib.Path:
        return self.folder / CUBES / f"{number}.{kind}"

    def lemmas(self, under: str | None = None) -> Iterator[str]:
        """Those of each log, or of the logs of the cubes above one."""
        for number, name in self.whole():
            if under is None or under.startswith(name):
                yield self.file(number, "lemmas").read_text()

    def write_list(self) -> pathlib.Path:
        """The file for `psprove join`: the logs in the order of their ends."""
        lines = []
        for number, name in self.whole():
            got = f"cubes/{number}.import" if self.file(number, "import").stat().st_size else "-"
            arcs = (f"{place}" for arc in self.cubes[name].arcs for place in arc)
            lines.append(" ".join([name or WHOLE, f"cubes/{number}.log", got, *arcs]) + "\n")
        write_file(self.folder / "tree", "".join(lines).encode())
        return self.folder / "tree"


class Driven(Tree):
    """The tree as its driver has it, which holds its lock."""

    def __init__(self, folder: pathlib.Path, project: bytes) -> None:
        folders.mark_folder(folder, project)
        self.rows = folders.locked(folder)
        try:
            folders.clean(folder)
            if digest_of(folder / PROJECT) != digest(project):
                write_file(folder / PROJECT, project)
            super().__init__(folder)
        except BaseException:
            self.rows.close()
            raise
        self.abandon_all()
        self.before = self.seconds - time.monotonic()

    def write(self, step: str, **row: object) -> None:
        """A row, which the disk has before anything follows from it."""
        found = {"step": step, "at": round(self.before + time.monotonic(), 2), **row}
        self.rows.write(f"{with_sum(json.dumps(found))}\n".encode())
        self.rows.flush()
        os.fsync(self.rows.fileno())
        self.take(found)

    def look(self) -> Iterator[str]:
        """Finds logs that are no longer what they were, with a line for each file. Their searches are made again with
        what they were given, so that others which got their lemmas stand. Without that the cube is opened again."""
        for number, name in [*self.logs.items()]:
            bad = [kind for kind in ("import", *MADE) if self.is_damaged(number, kind)]
            if "import" in bad:
                self.write("aside", cube=name)
            elif bad and number not in self.damaged:
                self.write("damaged", number=number)
            yield from (f"cube {name or WHOLE}: {self.file(number, kind)} is damaged; it is searched again"
                        for kind in bad)

    def is_damaged(self, number: int, kind: str) -> bool:
        return digest_of(self.file(number, kind)) != self.digests.get(number, {}).get(kind)

    def give(self, name: str, lemmas: str, starts: tuple[int, ...] | None) -> int:
        """The number of a search of the cube, which gets these."""
        number = self.number + 1
        write_file(self.file(number, "import"), lemmas.encode())
        self.write("given", number=number, cube=name, starts=starts, sha256={"import": digest(lemmas.encode())})
        return number

    def give_again(self, number: int) -> str:
        """The lemmas that the search got."""
        self.write("given", number=number, cube=self.damaged[number], starts=self.begun.get(number))
        return self.file(number, "import").read_text()

    def keep_first(self, log: bytes, **row: object) -> None:
        """A search of the project before there are cubes, which got no lemmas and leaves none."""
        number, files = self.number + 1, {"log": log, "import": b"", "lemmas": b""}
        for kind, data in files.items():
            write_file(self.file(number, kind), data)
        self.write("first", number=number, sha256={kind: digest(data) for kind, data in files.items()}, **row)

    def keep(self, number: int, row: Row) -> None:
        """The search has ended: its files first, and then its row."""
        for kind in MADE:
            sha256, data = row["files"][kind]["sha256"], row["files"][kind]["data"]
            if data is None:
                folders.take(self.folder / left(number, sha256, kind), self.file(number, kind))
            else:
                write_file(self.file(number, kind), data)
        told = {key: row[key] for key in (*TOLD, "seconds") if key != "cube"}
        digests = {kind: row["files"][kind]["sha256"] for kind in MADE}
        self.write("ended", number=number, state=row["cube"], **told, sha256=digests)

    def put_aside(self, name: str) -> list[pathlib.Path]:
        """The logs of the cube, which stay as files, and are no part of the tree any more."""
        numbers = [number for number, other in self.logs.items() if other == name]
        self.write("aside", cube=name)
        return [self.file(number, "log") for number in numbers]

    def close(self) -> None:
        self.rows.close()


def with_sum(row: str) -> str:
    """A row with its checksum."""
    return f'{row[:-1]}{SUM}{zlib.crc32(row.encode()):08x}"}}'


def read_rows(path: pathlib.Path) -> Iterator[Row]:
    """The rows that are whole."""
    with folders.open_file(path) as file:
        for number, line in enumerate(file, 1):
            if line.endswith(b"\n"):
                yield read_row(path, number, line.decode("utf-8", "replace").removesuffix("\n"))


def read_row(path: pathlib.Path, number: int, line: str) -> Row:
    text = line.rpartition(SUM)[0] + "}"
    if with_sum(text) != line:
        raise BadInput(f"{path}: line {number} is damaged; without it and the lines below, plan goes on from there")
    row: Row = json.loads(text)
    return row


def share_of_tree(name: str) -> float:
    """Of the whole tree."""
    return 0.5 ** len(name)
