"""The plans of a day: tables as they were read, each with what is known of a plan for it, and how a plan is kept."""
import datetime
import os
from collections.abc import Mapping
from contextlib import suppress
from dataclasses import dataclass, field
from itertools import count

from ..clock import Clock
from ..errors import BadInput, Failed
from ..files import write_new
from ..known import Known
from ..project import Arc, Numbers
from ..psmax import Psmax
from ..record import record_in
from ..total import TotalFloat
from .answer import feasible
from .answer_text import AnswerText, Begin, answer_of
from .compare import Move, ComparedPlan, as_before, moves, totals
from .csv_text import write_sheet
from .headline import headline
from .page import View
from .project_file import ProjectFile
from .report import describe_digest, headline_of, render_page, proof
from .verify import judge_record
from .window import Window, windows
from .write import schedule_rows


@dataclass(frozen=True)
class PlanSchedule:
    """Starts of a table's activities."""

    opened: ProjectFile
    starts: tuple[int, ...]

    def told(self) -> list[tuple[str, tuple[str, str]]]:
        """The name and the dates of each activity."""
        opened = self.opened
        return [(opened.names.activities.get(i, ""), opened.times(i, self.starts[i]))
                for i in range(1, opened.project.end)]

    def given(self) -> AnswerText:
        """The same as an answer with names, which a table that has changed since can take."""
        opened, inner = self.opened, range(1, self.opened.project.end)
        return AnswerText("the plan before", {i: Begin(self.starts[i], "") for i in inner},
                          {i: opened.names.activities.get(i, "") for i in inner},
                          {i: opened.project.durations[i] for i in inner}, opened.names.unit, is_table=True)


@dataclass(frozen=True, eq=False)
class Plan:
    """A table, the plan that was on the screen when it was read, and what is known by now."""

    opened: ProjectFile
    project: Numbers  # that is searched: the table's, and perhaps what stays
    at: str  # when it was read
    before: PlanSchedule | None
    shadow: tuple[int, ...]  # the starts of the plan before, as far as there are any
    known: Known
    stage: str = "searching"
    windows: Mapping[int, Window] = field(default_factory=dict)
    total: TotalFloat | None = None
    circle: tuple[Arc, ...] = ()  # of lags that contradict each other
    why: tuple[str, ...] = ()  # there is no schedule
    notes: tuple[str, ...] = ()  # what else there is to say
    trouble: tuple[str, ...] = ()  # of its search

    @property
    def schedule(self) -> PlanSchedule | None:
        return None if self.known.starts is None else PlanSchedule(self.opened, self.known.starts)

    def is_known(self) -> bool:
        """Whether there is something to show."""
        return self.known.starts is not None or self.known.none

    def proof(self) -> str:
        """What is proved, and by whom."""
        known = self.known
        if known.none:
            return "psprove has proved that there is no schedule. What is drawn is where the activities were before."
        told = f"A schedule of {known.goal.words(known.value)} is known, and psprove has proved that none is "
        return told + ("shorter." if known.settled else f"shorter than {known.goal.words(known.bound)}.")

    def side(self) -> ComparedPlan | None:
        """The plan before, beside this table; none where its times are none of this table's periods."""
        try:
            return None if self.before is None else ComparedPlan(self.before.given(), self.opened, self.before.opened)
        except BadInput:
            return None

    def view(self) -> View:
        if self.known.starts is None:
            return View(self.opened, self.shadow, self.proof(), circle=self.circle, is_plan=False)
        side = self.side()
        was = {} if side is None else {now: (side.starts[i], side.ends[i]) for i, now in side.now.items()}
        return View(self.opened, self.known.starts, self.proof(), self.known.settled, self.windows, self.total, was,
                    headline=(*headline(self.opened, self.known),))

    def moved(self) -> tuple[list[str], list[Move]]:
        """What became of the makespan and of the activities since the plan before."""
        side, schedule = self.side(), self.schedule
        if side is None or schedule is None:
            return [], []
        now = ComparedPlan(schedule.given(), self.opened)
        found = moves(side, now)
        return [*totals(side, now), as_before(found, now)], found


def keep_plan(plan: Plan | None) -> list[str]:
    """Writes the answer, the record, the page and a copy of the table beside that, with its mode, and the time in their
    names, which it returns. What they hold is judged first: the schedule by psmax, and the record by `verify`."""
    if plan is None or plan.known.starts is None:
        raise BadInput("there is no plan on the screen")
    base = f"{os.path.splitext(plan.opened.path)[0]}-{datetime.datetime.now():%Y-%m-%d-%H%M%S}"
    for again in count():
        stem = f"{base}-{again}" if again else base
        files = contents(plan, stem)
        if write_new(files, plan.opened.path):
            return [*files]
    raise AssertionError


def contents(plan: Plan, stem: str) -> dict[str, bytes]:
    """What each file holds, by its name. A record that `verify` doesn't accept is not kept."""
    opened, starts, psmax = plan.opened, plan.known.starts or (), Psmax(Clock(), plan.opened.path)
    table = write_sheet(schedule_rows(opened, starts, with_dates=False)).encode()
    answer, found, files = feasible(opened, answer_of(table, f"{stem}.csv"), psmax), None, {f"{stem}.csv": table}
    if plan.known.record is not None:
        record = record_in(plan.known.record, plan.project)
        which = opened.path if plan.project == opened.project else f"{opened.path} that keeps what has started"
        with suppress(Failed):
            judgement = judge_record(record, os.path.basename(f"{stem}.record"), which)
            if not judgement.wrong:
                found, files[f"{stem}.record"] = judgement, record.data
    view = View(opened, starts, proof(answer, found), found is not None and found.bound == answer.value,
                plan.windows or windows(opened.project, starts, psmax), plan.total,
                headline=headline_of(answer, found, opened), digest=describe_digest(found))
    return files | {f"{stem}.html": render_page(view, "A4"), f"{stem}-table.csv": opened.text.encode()}
