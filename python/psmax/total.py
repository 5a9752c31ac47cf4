"""Total float: how much later than in a schedule an activity can start in some schedule that is no longer. psprove
proves the latest start: it finds a schedule with that start, and proves that there is none with a later one."""
import os
import threading
from collections.abc import Callable, Collection
from concurrent.futures import ThreadPoolExecutor
from dataclasses import dataclass, field, replace

from .clock import tell
from .files import write_whole
from .project import Arc, Goal, Numbers, latest_starts
from .project_text import ProjectText
from .record_file import RecordFile
from .psmax import starts_text
from .psprove import Limits, Psprove

PROJECT = "project.sch"  # in the folder of records
FIRST, GROWTH = 1, 4  # seconds for an answer in the first round, and how many times as many in the next


@dataclass
class Latest:
    """What is known of the latest start of an activity in a schedule that is no longer."""

    start: int  # in the schedule that was handed in
    least: int  # in some schedule that is no longer it starts then
    most: int  # in none it starts later; psprove has proved that where there is a record
    schedule: tuple[int, ...]  # in which it starts at the least
    record: RecordFile | None = None  # that none starts later than the most
    proved: int | None = None  # the most that the record is about
    has_started: bool = False  # and stays

    @property
    def is_settled(self) -> bool:
        return self.has_started or self.least == self.most == self.proved

    @property
    def is_critical(self) -> bool:
        return self.is_settled and self.most == self.start and not self.has_started

    def text(self, length: Callable[[int], str] = str) -> str:
        """The total float: a length, or what the time has left open."""
        if self.has_started:
            return "started"
        least, most = length(self.least - self.start), length(self.most - self.start)
        if self.is_settled:
            return least
        return f"{least} to {most}" if least != most else f"{least}, unproved"


@dataclass
class TotalFloat:
    """A binary search for each activity, side by side. A schedule that one finds helps the others."""

    project: Numbers
    starts: tuple[int, ...]
    started: Collection[int]
    psprove: Psprove
    found: dict[int, Latest] = field(default_factory=dict)
    lock: threading.Lock = field(default_factory=threading.Lock)
    is_recorded: bool = True  # whether proofs are kept

    def __post_init__(self) -> None:
        for activity, most in self.by_lags().items():
            start = self.starts[activity]
            self.found[activity] = Latest(start, start, max(start, most), self.starts,
                                          has_started=activity in self.started)

    def limited(self, arcs: tuple[Arc, ...] = ()) -> Numbers:
        """The schedules that are no longer than this one. Their end waits for the same time, so each is a shortest one.
        Where the lateness is minimized, no activity ends behind the last one of this schedule either."""
        end, starts, durations = self.project.end, self.starts, self.project.durations
        last = max([0, *self.project.ends(starts)])
        no_later = [Arc(i, 0, durations[i] - last) for i in range(1, end)] if self.project.goal is Goal.LATENESS else []
        same = (Arc(0, end, starts[end]), Arc(end, 0, -starts[end]))
        return replace(self.project, arcs=(*self.project.arcs, *same, *no_later, *arcs))

    def by_lags(self) -> dict[int, int]:
        """The latest starts that the lags alone leave."""
        latest = latest_starts(self.limited())
        return {activity: int(latest[activity]) for activity in range(1, self.project.end)}

    def run(self, jobs: int) -> None:
        """In rounds, each with more seconds for an answer, so that what is hard doesn't keep the rest waiting."""
        seconds = FIRST
        while self.open() and not self.psprove.clock.over():
            with ThreadPoolExecutor(jobs) as pool:
                for _ in pool.map(lambda activity: self.settle(activity, seconds), self.open()):
                    pass
            seconds *= GROWTH

    def open(self) -> list[int]:
        return [activity for activity, latest in sorted(self.found.items()) if not latest.is_settled]

    def settle(self, activity: int, seconds: int) -> None:
        """Halves what lies between the latest start that is known and the last one that may be."""
        latest = self.found[activity]
        while not latest.is_settled and not self.psprove.clock.over():
            middle = latest.most + 1 if latest.least == latest.most else (latest.least + latest.most + 1) // 2
            limits = Limits(min(seconds, self.psprove.clock.left()), is_recorded=self.is_recorded)
            answer = self.psprove.ask(self.limited((Arc(0, activity, middle),)), limits)
            with self.lock:
                if answer.starts is not None:
                    self.learn(answer.starts)
                elif answer.none and middle - 1 <= latest.most:
                    latest.most, latest.proved, latest.record = middle - 1, middle - 1, answer.record
                else:
                    return

    def learn(self, starts: tuple[int, ...]) -> None:
        """A schedule that is no longer: some activities start later in it than in all before."""
        for activity, latest in self.found.items():
            if starts[activity] > latest.least:
                latest.least, latest.schedule = starts[activity], starts

    def tell(self) -> None:
        if self.open():
            tell(self.psprove.clock, f"{self.psprove.clock.why_over()}: the total float of {len(self.open())} of "
                 f"{len(self.found)} activities is known as an interval alone")

    def critical(self) -> set[int]:
        return {activity for activity, latest in self.found.items() if latest.is_critical}

    def write(self, folder: str) -> None:
        """The project of all schedules that are no longer. For each activity one of them with the latest start that is
        known, and the project that asks for a later start with the record that it has none."""
        spelled = ProjectText(self.limited())
        files = {PROJECT: spelled.text}
        for activity, latest in self.found.items():
            if not latest.has_started:
                files[f"{activity}.starts"] = starts_text(spelled.inward(latest.schedule))
            if latest.proved is not None:
                files[f"{activity}.sch"] = ProjectText(self.limited((Arc(0, activity, latest.proved + 1),))).text
                files[f"{activity}.record"] = b"" if latest.record is None else latest.record.read()
        for name, data in files.items():
            write_whole(os.path.join(folder, name), data)
