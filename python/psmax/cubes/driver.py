"""The driver of a tree. It begins with one search for a good schedule. Then it gives cubes to machines, each with the
lemmas of those that ended before, splits what stays open, and tells all searches of a shorter schedule."""
import resource
import zlib
from collections import Counter
from collections.abc import Iterable
from dataclasses import replace

from ..clock import Clock, tell
from ..errors import Failed, TimeUp
from ..incumbent import Incumbent
from ..project_text import ProjectText
from ..psmax import Psmax, starts_text
from ..psprove import Limits, Psprove
from . import answer
from .cube import SECONDS, Row
from .machines import Machines
from .tree import WHOLE, Cube, Driven

BEGIN = 10_000  # conflicts of the first search
FIRST, CUBES = 8_000, 16  # conflicts of the whole project, before it is split; cubes of that split
CONFLICTS, PIECES, GROWTH = 4_000, 4, 1.5  # of later searches and splits; each split may take so much longer
MOST_CONFLICTS = 1_000_000_000
MOST_LEMMAS = 4_000  # that a cube gets
TRIES = 3  # of a cube whose search fails, or whose log is wrong
GLANCE, TOLD = 0.2, 5.0  # seconds: between two looks at the clock; between two lines of progress


class Lemmas:
    """The shortest lemmas of all searches, by their arcs, each with its line `LBD I J V ..`."""

    def __init__(self, texts: Iterable[str]) -> None:
        self.best: dict[str, str] = {}
        for text in texts:
            self.add(text)

    def add(self, text: str) -> None:
        found = self.best | by_arcs(text)
        self.best = {arcs: found[arcs] for arcs in sorted(found, key=sort_key)[:MOST_LEMMAS]}

    def chosen(self, kin: Iterable[str]) -> str:
        """Those of the cubes above first, and then the shortest."""
        first: dict[str, str] = {}
        for text in kin:
            first |= by_arcs(text)
        lines = [*(first[arcs] for arcs in sorted(first, key=sort_key)),
                 *(line for arcs, line in self.best.items() if arcs not in first)]
        return "".join(f"{line}\n" for line in lines[:MOST_LEMMAS])


def used() -> float:
    """Seconds of a processor of all programs that have ended."""
    found = resource.getrusage(resource.RUSAGE_CHILDREN)
    return found.ru_utime + found.ru_stime


def by_arcs(text: str) -> dict[str, str]:
    return {line.partition(" ")[2]: line for line in text.splitlines()}


def sort_key(arcs: str) -> tuple[int, str]:
    return arcs.count(" "), arcs


class Driver:
    def __init__(self, tree: Driven, incumbent: Incumbent, spelled: ProjectText) -> None:
        self.tree, self.incumbent, self.spelled = tree, incumbent, spelled
        self.tries: Counter[str] = Counter()
        self.told = -TOLD
        if tree.starts is not None:
            self.is_schedule(tree.starts, f"{tree.folder}")

    def first(self) -> None:
        """A search with neighbourhoods, which cubes have none of: it comes by a better schedule sooner than they do."""
        clock, before = self.incumbent.clock, used()
        limits = Limits(min(SECONDS, clock.left()), conflicts=BEGIN)
        try:
            found = Psprove(clock, f"{self.tree.folder}").solve(self.spelled.project, limits, None, self.incumbent.hear)
        except TimeUp:  # what it told is known
            return
        self.incumbent.learn(replace(found, record=None), " ".join(["psprove solve", *limits.arguments()]))
        log = b"" if found.record is None else found.record.read()
        self.tree.keep_first(log, state="refuted" if found.settled else "open", starts=self.best(),
                             conflicts=found.conflicts, record_bytes=len(log), seconds=round(used() - before, 3))

    def refute(self, machines: Machines) -> None:
        """Until no cube is open, or the time is over."""
        self.machines, self.lemmas = machines, Lemmas(self.tree.lemmas())
        self.tree.write("begun", starts=self.best(), offset=self.spelled.offset)
        try:
            self.machines.begin(self.tree.folder)
            if self.incumbent.known.starts is None and not self.tree.number:
                self.first()
            self.machines.tell(self.best())
            while self.tree.is_open() and not self.incumbent.clock.over():
                room = self.machines.room()
                self.give(room)
                found = self.machines.next(GLANCE)
                if found is not None:
                    self.take(*found)
                self.report(room)
        finally:
            self.machines.close()

    def best(self) -> tuple[int, ...] | None:
        """The starts of the text's activities in the shortest schedule."""
        starts = self.incumbent.known.starts
        return self.spelled.inward(starts) if starts is not None and self.spelled.has(starts) else None

    def give(self, room: int) -> None:
        """Searches that are made again come first, and get what they got before."""
        for number in self.tree.repeats()[: max(0, room - len(self.tree.running))]:
            lemmas, begun = self.tree.give_again(number), self.tree.begun[number]
            task = self.task(self.tree.cubes[self.tree.running[number]], lemmas, None if begun is None else (*begun,))
            self.machines.give({"number": number, **task, "below": 0})  # so it is told of no shorter schedule
        while self.tree.waiting and len(self.tree.running) < room:
            name, best = self.tree.next(), self.best()
            lemmas = self.lemmas.chosen(self.tree.lemmas(name))
            number = self.tree.give(name, lemmas, best)
            self.machines.give({"number": number, **self.task(self.tree.cubes[name], lemmas, best)})

    def task(self, cube: Cube, lemmas: str, best: tuple[int, ...] | None) -> Row:
        age = cube.age
        path = "".join(f"{i} {j} {v}\n" for i, j, v in cube.arcs)
        files = {"project": self.spelled.text, "path": path.encode(), "import": lemmas.encode(),
                 "start": b"" if best is None else starts_text(best)}
        limits = {"conflicts": min(MOST_CONFLICTS, int(CONFLICTS * GROWTH ** (age - 1))), "pieces": PIECES}
        if age == 0:
            limits = {"conflicts": FIRST, "pieces": CUBES}
        packed = {kind: zlib.compress(data, 1) for kind, data in files.items()}
        return {"age": age, "folder": str(self.tree.folder.resolve()), "below": best and best[-1], **limits, **packed}

    def take(self, number: int, row: Row | Exception) -> None:
        name = self.tree.running[number]
        try:
            if isinstance(row, Exception):
                raise row
            row = answer.check_answer(row, self.tree.folder, number, self.spelled.end)
        except Exception as fault:
            self.tree.write("lost", number=number)
            return self.fail(name, fault)
        if row["starts"] is not None:
            if self.is_schedule(tuple(row["starts"]), f"cube {name or WHOLE}"):
                self.machines.tell(self.best())
            else:
                row["starts"] = None
        self.tree.keep(number, row)
        if number in self.tree.logs:
            self.lemmas.add(self.tree.file(number, "lemmas").read_text())

    def fail(self, name: str, fault: Exception) -> None:
        self.tries[name] += 1
        why = (str(fault) or repr(fault)).partition(". ")[0]  # Dask goes on with advice
        tell(self.incumbent.clock, f"cube {name or WHOLE}: {why}")
        if self.tries[name] == TRIES:
            raise Failed(f"cube {name or WHOLE} failed {TRIES} times: {why}")

    def is_schedule(self, starts: tuple[int, ...], by: str) -> bool:
        """Whether psmax finds these starts of the text feasible. Then they are known."""
        found = self.spelled.outward(starts)
        if Psmax(Clock()).check(self.spelled.project, found).value is None:
            tell(self.incumbent.clock, f"{by}: its schedule is not feasible")
            return False
        if self.incumbent.known.value is None or found[-1] < self.incumbent.known.value:
            self.incumbent.offer(found, by)
        return True

    def report(self, room: int) -> None:
        for name in self.machines.newcomers():
            tell(self.incumbent.clock, f"{name} is a worker of the cluster")
        if self.incumbent.clock.elapsed() >= self.told + TOLD:
            self.told = self.incumbent.clock.elapsed()
            tell(self.incumbent.clock, self.tree.state() if room else "the cluster has no worker yet")
