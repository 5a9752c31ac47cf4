"""What a search begins with: nothing, a schedule, or an old one of which a part has started and stays."""
from dataclasses import dataclass, field, replace

from ..clock import Clock
from ..errors import BadInput
from ..history import Standing, alone, broken_alone, started_by
from ..letters import at_most
from ..project import MOST_ARCS, Arc, Numbers
from ..psmax import Psmax
from .answer import JudgedStarts, Tied, counted, feasible, tie
from .answer_text import AnswerText, read_answer
from .circles import circles, in_words
from .project_file import ProjectFile
from .wording import Words


@dataclass(frozen=True)
class Start:
    """What the words say of a schedule to begin with, and of what has started."""

    answer: str | None
    frozen: str | None

    def inputs(self) -> dict[str, str]:
        return {} if self.answer is None else {"the start": self.answer}


@dataclass(frozen=True)
class Beginning:
    project: Numbers  # that is searched
    schedules: list[tuple[tuple[int, ...], str]] = field(default_factory=list)  # each with what it is called
    old: dict[int, int] = field(default_factory=dict)  # starts in a plan before, near to which the search begins
    frozen: tuple[Arc, ...] = ()  # that keep what has started, and the rest from starting before that
    started: frozenset[int] = frozenset()
    told: list[str] = field(default_factory=list)

    def must_keep(self, there: JudgedStarts, path: str) -> None:
        """A shorter schedule of the project that lies in a file stays there, so it can't get one that keeps more."""
        if any(there.starts[arc.head] < there.starts[arc.tail] + arc.lag for arc in self.frozen):
            value = there.project.goal.words(there.value)
            raise BadInput(f"{path} holds a schedule of {value} that doesn't keep what has started; "
                           "name another file with --out")


def begin_with(opened: ProjectFile, start: Start) -> Beginning:
    """What is broken in what has started is told first: nobody can plan it again."""
    progress = opened.progress
    if start.frozen is not None and start.answer is None:
        raise BadInput("--frozen needs --start, the schedule of which a part has started")
    if start.frozen is not None and progress.now is not None:
        raise BadInput("--frozen is for tables without a status date: this one says itself what has started")
    must_be_possible(opened, opened.path, progress.started)
    if start.answer is None:
        return Beginning(opened.project, started=frozenset(progress.started))
    given = read_answer(start.answer).must_have_starts()
    if start.frozen is None and progress.now is None:
        known = feasible(opened, given, Psmax(Clock(), opened.path))
        return Beginning(opened.project, [(known.starts, given.called)])
    return begin_near(opened, given, start.frozen)


def begin_near(opened: ProjectFile, given: AnswerText, day: str | None) -> Beginning:
    """The schedules near to one of the project before it was changed. What starts in that before the day stays, or what
    the status date says has started."""
    given = counted(opened, given)
    tied = tie(opened, given)
    if day is None:
        return from_old(opened, given, tied, opened.progress, opened.settings.status or "")
    return from_old(opened, given, tied, frozen(opened, tied, day), day)


def go_on(opened: ProjectFile, given: AnswerText) -> Beginning:
    """From a plan of the project before it was changed: what of it still holds, and what does not, is told."""
    found, count = begin_near(opened, given, None), opened.project.end - 1
    there = len(tie(opened, counted(opened, given)).pairs)
    told = [f"{given.called} is a plan of {opened.path} before it was changed: the search begins near to it, with "
            f"{there} of {count} activities"]
    if opened.progress.now is None:
        told.append("what has started by a day stays with a status date in the table, or with "
                    f"--start {given.called} --frozen DAY and another --out")
    return replace(found, told=[*told, *found.told])


def frozen(opened: ProjectFile, tied: Tied, day: str) -> Standing:
    """What starts before the day in the old schedule has started there."""
    now = opened.time(day, "--frozen")
    inner = {i: start for i, start in tied.starts.items() if 0 < i < opened.project.end}
    return Standing(now, started_by(inner, now))


def from_old(opened: ProjectFile, given: AnswerText, tied: Tied, progress: Standing, day: str) -> Beginning:
    """What has started stays, and the rest is planned from the status date on, as near as can be to the old
    schedule."""
    project, words, now = opened.project, Words(opened), progress.now or 0
    arcs = () if opened.progress.now is not None else tuple(progress.arcs(project.end - 1))
    must_be_possible(opened, given.called, progress.started)
    if len(project.arcs) + len(arcs) > MOST_ARCS:
        raise BadInput(f"--frozen: the project has {len(project.arcs):,} lags, which leaves too few of {MOST_ARCS:,}")
    old = {i: start for i, start in tied.starts.items() if 0 < i < project.end and i not in progress.started}
    where = given.called if opened.progress.now is None else opened.path
    stay = f"{len(progress.started)} of {project.end - 1} activities start before {day} in {where}, and stay"
    told = [stay] if day else []
    told += [f"{words.names.activity(i)} is new" for i in tied.new]
    told += [f"{name} is no activity any more" + (", and had started" if (given.starts[i].period or 0) < now else "")
             for i, name in tied.gone.items()]
    limited, psmax, schedules = replace(project, arcs=(*project.arcs, *arcs)), Psmax(Clock(), opened.path), []
    if not tied.new:
        starts = tuple(tied.starts[i] for i in range(project.end + 1))
        broken = psmax.check(limited, starts).violations
        told += at_most([f"{given.called}: {words.violation(one, starts)}" for one in broken])
        schedules += [] if broken else [(starts, given.called)]
    for circle in circles(limited, psmax):
        told += in_words(circle, words)
    return Beginning(limited, schedules, old, arcs, frozenset(progress.started), told)


def must_be_possible(opened: ProjectFile, called: str, started: dict[int, int]) -> None:
    """What of it breaks lags or resources by itself is told."""
    project, of_lags = opened.project, Words(opened)
    starts = [started.get(i, 0) for i in range(project.end + 1)]
    of_resources = Words(replace(opened, project=alone(project, started)))
    told = [(of_lags if one.kind == "lag" else of_resources).violation(one, starts)
            for one in broken_alone(project, started)]
    if told:
        raise BadInput(*at_most([f"{called}: has started, but {fault}" for fault in told]))
