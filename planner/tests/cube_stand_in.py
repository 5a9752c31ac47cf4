"""planner/tests/cube_stand_in.py SECONDS solve | join | verify | --version WORD..

Stands in for the psprove that searches cubes, on projects of a few activities, by trying all starts. A search takes
SECONDS at least, and stays open after one try for each 100 conflicts. One that isn't of a cube makes no try. Its log
says in JSON what it found, which `join` believes where the log is whole and of its cube. `verify` tries all starts
again; a part of it takes SECONDS, too."""
from __future__ import annotations

import _thread
import os.path
import sys
import time
import zlib
from itertools import combinations

TYPE_CHECKING = False  # this imports nothing that it can do without: a test starts it a hundred times
if TYPE_CHECKING:
    from collections.abc import Iterator
    from typing import Any

    Row = dict[str, Any]
    Arcs = list[list[int]]


class Project:
    """A project text as psmax writes it: a line for the lags of each activity, one for its duration and demands, and
    one for the capacities."""

    def __init__(self, data: bytes) -> None:
        (count, resources, *_), *lines = [line.replace("[", "").replace("]", "").split()
                                          for line in data.decode().splitlines()]
        self.end = int(count) + 1
        lags = [[int(word) for word in line] for line in lines[: self.end + 1]]
        self.arcs = [(line[0], head, lag) for line in lags
                     for head, lag in zip(line[3 : 3 + line[2]], line[3 + line[2] :])]
        needs = [[int(word) for word in line[2:]] for line in lines[self.end + 1 : 2 * self.end + 2]]
        self.durations, self.demands = [line[0] for line in needs], [line[1:] for line in needs]
        self.capacities = [int(word) for word in lines[-1]] if int(resources) else []


def read(path: str) -> str:
    with open(path) as file:
        return file.read()


def write(path: str, text: str) -> None:
    with open(path, "w") as file:
        file.write(text)


def to_json(told: object) -> str:
    """Of what has no signs but those of numbers and plain words."""
    text = str(told).replace("'", '"').replace("None", "null")
    return text.replace("True", "true").replace("False", "false")


def numbers(path: str | None) -> Arcs:
    return [[int(word) for word in line.split()] for line in read(path).splitlines()] if path else []


class Search:
    def __init__(self, project: Project, arcs: Arcs, below: int | None, tries: float) -> None:
        self.project, self.left = project, tries
        self.arcs = [*project.arcs, *((i, j, v) for i, j, v in arcs)]
        most = sum(project.durations) + sum(abs(lag) for *_, lag in project.arcs) + 1
        self.below = most if below is None else below
        self.starts: list[int] | None = None
        count = project.end + 1
        self.after = [[(i, v) for i, j, v in self.arcs if j == last and i < last] for last in range(count)]
        self.before = [[(j, v) for i, j, v in self.arcs if i == last and j < last] for last in range(count)]

    def run(self, starts: list[int]) -> bool:
        """Whether all starts that begin with these were tried."""
        self.left -= 1
        if self.left < 0:
            return False
        if len(starts) == self.project.end:
            ends = (starts[i] + v for i, j, v in self.arcs if j == len(starts) and i < j)
            whole = [*starts, max([*ends, *(starts[i] + self.project.durations[i] for i in range(len(starts)))])]
            if self.fits(whole) and whole[-1] < self.below:
                self.starts, self.below = whole, whole[-1]
            return True
        return all(self.run([*starts, time]) for time in range(self.below - self.project.durations[len(starts)])
                   if self.fits([*starts, time]))

    def fits(self, starts: list[int]) -> bool:
        """Whether the last one keeps its arcs and finds what it needs. Those before it do, which was asked before."""
        last, time, project = len(starts) - 1, starts[-1], self.project
        is_soon = any(time < starts[i] + v for i, v in self.after[last])
        if is_soon or any(starts[j] < time + v for j, v in self.before[last]):
            return False
        ends, needs = time + project.durations[last], project.demands[last]
        if not any(needs) or ends == time:
            return True
        times = [time, *(start for start in starts if time < start < ends)]
        running = ([i for i, start in enumerate(starts) if start <= now < start + project.durations[i]]
                   for now in times)
        return all(sum(project.demands[i][k] for i in there) <= units
                   for there in running for k, units in enumerate(project.capacities))


def pieces(project: Project, arcs: Arcs, count: int) -> Iterator[Row]:
    """All ways to order so many more pairs; the cube itself where all are ordered."""
    pairs = [pair for pair in combinations(range(1, project.end), 2) if {*pair} not in [{*arc[:2]} for arc in arcs]]
    chosen = pairs[: (count - 1).bit_length()]
    for bits in range(2 ** len(chosen)):
        name = f"{bits:0{len(chosen)}b}" if chosen else ""
        yield {"name": name, "arcs": [[i, j, project.durations[i]] if bit == "0" else [j, i, 1 - project.durations[i]]
                                      for (i, j), bit in zip(chosen, name)]}


def solve(options: dict[str, str], data: bytes, seconds: float) -> int:
    if "--under" not in options:
        write_log(options, {"project": zlib.crc32(data), "path": [], "refuted": False, "starts": None,
                            "lemmas": [], "import": []})
        print(to_json({"starts": None, "makespan": None, "bound": 0, "conflicts": 1}))
        return 3
    project, arcs = Project(data), numbers(options["--under"])
    lower: list[int] = []
    running = _thread.allocate_lock()
    running.acquire()
    _thread.start_new_thread(follow, (lower, running))
    has_ended = running.acquire(timeout=seconds)
    start = [line[1] for line in numbers(options.get("--start"))]
    search = Search(project, arcs, min([*lower, *start[-1:]], default=None), int(options["--conflicts"]) / 100)
    refuted = search.run([0]) and (seconds == 0 or not (has_ended or running.acquire(blocking=False)))
    starts = search.starts or start or None
    lemmas = [arcs] if refuted and arcs else []
    write_log(options, {"project": zlib.crc32(data), "path": arcs, "below": search.below, "refuted": refuted,
                        "starts": starts, "lemmas": lemmas, "import": numbers(options.get("--import"))})
    lines = (" ".join(map(str, [2, *sum(lemma, [])])) + "\n" for lemma in lemmas)
    write(options["--export"], "".join(lines))
    children = [] if refuted else [*pieces(project, arcs, int(options["--pieces"]))]
    print(to_json({"cube": "refuted" if refuted else "open", "makespan": search.starts and search.starts[-1],
                   "starts": search.starts, "pieces": children, "conflicts": 1, "decisions": 1, "record_bytes": 1,
                   "seconds": 1}))
    return 0 if refuted else 3


def follow(lower: list[int], running: _thread.LockType) -> None:
    """Takes shorter schedules until there is nobody any more who tells them."""
    for line in sys.stdin:
        lower.append(int(line.split()[-1]))
    running.release()


def write_log(options: dict[str, str], log: Row) -> None:
    write(options["--record"], f"record 3\n{to_json(log)}\n")


def fault(log: str, data: bytes, arcs: Arcs, imported: Arcs, lemmas: list[Arcs]) -> str | Row:
    """What is wrong with a log, or else what it says."""
    text = read(log)
    if not text.endswith("}\n"):
        return "event 1 is wrong"
    import json  # for a join alone, of which there are few
    row: Row = json.loads(text.removeprefix("record 3\n"))
    told = [[line[place : place + 3] for place in range(1, len(line), 3)] for line in imported]
    is_right = row["project"] == zlib.crc32(data) and row["path"] == arcs and row["import"] == imported
    return row if is_right and all(lemma in lemmas for lemma in told) else "its log does not refute it"


def join(options: dict[str, str], data: bytes) -> int:
    folder = os.path.dirname(options["--tree"])
    refuted: set[str] = set()
    lemmas: list[Arcs] = []
    best: list[list[int]] = []
    rows = [line.split() for line in read(options["--tree"]).splitlines()]
    assert len({log for _, log, *_ in rows}) == len(rows)
    for place, (name, log, imported, *path) in enumerate(rows):
        arcs = [[*map(int, path[at : at + 3])] for at in range(0, len(path), 3)]
        lines = numbers(None if imported == "-" else os.path.join(folder, imported))
        found = fault(os.path.join(folder, log), data, arcs, lines, lemmas)
        if isinstance(found, str):
            print(f"psprove: cube {name}: {found}", file=sys.stderr)
            continue
        lemmas += found["lemmas"]
        best += [found["starts"]] if found["starts"] else []
        refuted |= {name.strip("-")} if found["refuted"] else set()
        if not found["refuted"] and not any(other.strip("-").startswith(name.strip("-"))
                                            for other, *_ in rows[place + 1 :]):
            print(f"psprove: cube {name}: its log does not refute it", file=sys.stderr)
    is_whole = sum(0.5 ** len(name) for name in refuted) == 1
    least, end = max(Project(data).durations), min((starts[-1] for starts in best), default=None)
    claim = f"bound {least}" if not is_whole else "no schedule" if end is None else f"optimal {end}"
    write(options["--record"], f"record 3\n{claim}\n")
    print(claim)
    return 0 if is_whole else 3


def claim_of(told: bytes) -> str:
    """The claim of a record, which is an event or stands in words."""
    event = told[1:]
    value = sum((byte & 127) << 7 * place for place, byte in enumerate(event[1:])) // 2
    claims = {b"\3": f"optimal {value}", b"\7": f"bound {value}", b"\13": "no schedule"}
    return claims.get(event[:1]) or told.decode("utf-8", "replace").strip()


def verify(options: dict[str, str], data: bytes, seconds: float) -> int:
    part = options.get("--part")
    time.sleep(seconds if part else 0)
    claim = claim_of(sys.stdin.buffer.read().removeprefix(b"record 3\n"))
    search = Search(Project(data), [], None, float("inf"))
    search.run([0])
    end = None if search.starts is None else search.starts[-1]
    is_true = claim == ("no schedule" if end is None else f"optimal {end}") or (
        claim.startswith("bound ") and (end is None or int(claim.split()[1]) <= end))
    begin = f"part {part} of " if part else ""
    print(f"{begin}proved {claim}" if is_true else "psprove: event 1: claim",
          file=sys.stdout if is_true else sys.stderr)
    return 0 if is_true else 4


def main(seconds: str, command: str, *words: str) -> int:
    if command == "--version":
        print("psprove stand-in")
        return 0
    options = {word: value for word, value in zip(words, [*words[1:], ""]) if word.startswith("--")}
    data = read(options["--project"]).encode() if "--project" in options else sys.stdin.buffer.read()
    if command == "solve":
        return solve(options, data, float(seconds))
    return join(options, data) if command == "join" else verify(options, data, float(seconds))


if __name__ == "__main__":
    status = main(*sys.argv[1:])
    sys.stdout.flush()
    sys.exit(status)
