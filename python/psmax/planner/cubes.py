"""`plan solve --out FOLDER/`: one project in cubes, on the processors of this machine or of a cluster, and the answer
of what `psprove verify` accepts."""
import os
import pathlib
from collections import Counter
from collections.abc import Mapping
from contextlib import closing
from dataclasses import dataclass, replace

from ..call_files import lose_none, same_file
from ..clock import Clock, tell
from ..cubes.driver import TRIES, Driver
from ..cubes.folder import PROJECT, must_be_cubes
from ..cubes.machines import Cluster, Machines, Processes
from ..cubes.tree import WHOLE, Driven
from ..errors import BadInput, Failed, TimeUp
from ..incumbent import Incumbent
from ..known import Known
from ..programs import find_program
from ..project_text import ProjectText
from ..psprove import Psprove
from ..record import PROVED
from .beginning import Beginning
from .join import join_logs, outside, place_of


@dataclass(frozen=True)
class Places:
    """Where cubes are searched, and where they and their record stand."""

    folder: str
    cluster: str | None  # the address of a scheduler
    jobs: int  # of this machine, where there is no cluster
    record: str | None

    def must_lose_none(self, reads: Mapping[str, str], writes: list[str | None]) -> None:
        """A fault where the folder would replace a file, or one of these a file of the folder. Its own project
        stays."""
        must_be_cubes(pathlib.Path(self.folder))
        others = {what: path for what, path in reads.items() if not same_file(path, os.path.join(self.folder, PROJECT))}
        lose_none(others, [*writes, outside(self.folder, self.record)], self.folder)

    def machines(self) -> Machines:
        return Cluster(self.cluster) if self.cluster else Processes(self.jobs, find_program(Psprove.name))


def search_in_cubes(beginning: Beginning, best: Incumbent, places: Places) -> None:
    """Runs until everything is known or the time is over. Cubes whose logs are wrong are searched again."""
    if beginning.project.dated:
        raise BadInput("a search in cubes has no cases, which lags in calendar days need; search without a folder")
    spelled, record = ProjectText(beginning.project), place_of(places.folder, places.record)
    with closing(Driven(pathlib.Path(places.folder), spelled.text)) as tree:
        driver, wrong = Driver(tree, best, spelled), Counter[str]()
        for line in tree.look():
            tell(best.clock, line)
        while True:
            if tree.is_open():
                driver.refute(places.machines())
            bad = learn(tree, record, best, spelled) if any(tree.whole()) else {}
            for name, fault in bad.items():
                for path in tree.put_aside(name):
                    tell(best.clock, f"cube {name or WHOLE}: {fault}: {path} is put aside")
                wrong[name] += 1
                if wrong[name] == TRIES:
                    raise Failed(f"cube {name or WHOLE}: its log was wrong {TRIES} times")
            if not bad or best.clock.over():
                break
    if not best.known.settled and best.clock.over():
        tell(best.clock, f"{best.clock.why_over()}; the same command goes on from here")


def learn(tree: Driven, record: str, best: Incumbent, spelled: ProjectText) -> dict[str, str]:
    """Takes what the logs prove together. The faults of those that are wrong, by the names of their cubes."""
    clock = Clock().listen()
    try:
        found = join_logs(tree, record, clock)
    except TimeUp:
        tell(best.clock, "stopped before the record was there; `plan join` makes it")
        return {}
    finally:
        best.clock.listen()
    proof = PROVED.fullmatch(found.says)
    assert proof is not None
    bound = None if proof[3] is None else spelled.value(int(proof[3]))
    best.learn(Known(best.known.goal, bound=bound), "psprove join")
    best.known = replace(best.known, conflicts=tree.conflicts)
    return found.bad
