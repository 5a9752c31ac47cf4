"""Starts of a project by names, and what psmax says of them."""
from collections.abc import Mapping, Sequence
from dataclasses import replace

from .answer import Answer, Checked, Question, Schedule, Starts, Violation, ViolationKind, question
from .clock import Clock
from .errors import BadInput
from .history import Standing, alone, broken_alone
from .known import Known
from .letters import at_most, short
from .model import Activity, Parts, Resource, must_be_a
from .periods import Time, first_time, whole
from .project import MOST_UNITS, Goal, least_end
from .psmax import Breach, Psmax
from .search_options import Frozen, real

CALLED = "the project"


def schedule_of(before: Schedule | Answer) -> Schedule:
    must_be_a((Schedule, Answer), before, "a schedule or an answer")
    return before.must_have_schedule() if isinstance(before, Answer) else before


def pairs_of(project: Parts, starts: Frozen) -> list[tuple[Activity, int]]:
    """Starts of some activities of a project; BadInput where one is none."""
    if isinstance(starts, (Answer, Schedule)):
        return [(one, span.start) for one, span in schedule_of(starts)]
    must_be_a(Mapping, starts, "a schedule, an answer, or a mapping from activities to starts")
    pairs = [(project[key] if isinstance(key, str) else key, time) for key, time in starts.items()]
    for one, _ in pairs:
        project.number(one)
    return [(one, first_time(time, f"the start of {one.name}", project.calendar, -MOST_UNITS)) for one, time in pairs]


def same_named(project: Parts, before: Frozen) -> dict[Activity, int]:
    """Starts in a plan before, of those that the project has today."""
    if isinstance(before, (Answer, Schedule)):
        return {project[one.name]: span.start for one, span in schedule_of(before) if one.name in project}
    return dict(pairs_of(project, before))


def starts_in_file(project: Parts, path: str) -> dict[Activity, int]:
    """Of the activities that an answer has, as plan reads it."""
    from .look import as_file
    from .planner.answer import counted, tie
    from .planner.answer_text import read_answer
    opened = as_file(question(project))
    found = tie(opened, counted(opened, read_answer(path).must_have_starts())).starts
    return {one: found[one.number] for one in project if one.number in found}


def must_keep_started(project: Parts, started: Mapping[Activity, int]) -> None:
    asked, fixed = question(project), {one.number: start for one, start in started.items()}
    starts = tuple(fixed.get(i, 0) for i in range(asked.numbers.end + 1))
    of_resources = replace(asked, numbers=alone(asked.numbers, fixed))
    told = [named_violations(asked if one.kind == "lag" else of_resources, starts, [one])[0]
            for one in broken_alone(asked.numbers, fixed)]
    if told:
        raise BadInput(*at_most([f"has started, but {fault}" for fault in told]))


def with_frozen(asked: Question, frozen: Frozen | None, now: Time | None) -> Question:
    """With lags that keep what is frozen at its start, and the rest from starting before now."""
    pairs = [] if frozen is None else pairs_of(asked.project, frozen)
    time = None if now is None else first_time(now, "now", asked.project.calendar)
    arcs = Standing(time, {asked.number(one): start for one, start in pairs}).arcs(asked.numbers.end - 1)
    return replace(asked, numbers=replace(asked.numbers, arcs=(*asked.numbers.arcs, *arcs))) if arcs else asked


def starts_of(asked: Question, starts: Starts) -> tuple[int, ...]:
    """Starts of all activities by number; the end starts when the others let it."""
    found = {0: 0} | {asked.number(one): time for one, time in pairs_of(asked.project, starts)}
    missing = [one.name for number, one in enumerate(asked.activities, 1) if number not in found]
    if missing:
        raise BadInput(*at_most([f"no start for activity '{short(name)}'" for name in missing]))
    found[asked.numbers.end] = least_end(asked.numbers, found)
    return tuple(found[number] for number in range(asked.numbers.end + 1))


def check_starts(asked: Question, starts: Starts) -> Checked:
    found = starts_of(asked, starts)
    broken = Psmax(Clock(), CALLED).check(asked.numbers, found).violations
    return Checked(Schedule(asked, found), named_violations(asked, found, broken))


def feasible_starts(asked: Question, starts: Starts) -> tuple[int, ...]:
    """Starts that are a feasible schedule; whatever else is a fault."""
    checked = check_starts(asked, starts)
    if checked.violations:
        raise BadInput(*at_most([f"not a schedule: {one.text}" for one in checked.violations]))
    return checked.schedule.starts


def named_violations(asked: Question, starts: tuple[int, ...], found: Sequence[Breach]) -> tuple[Violation, ...]:
    """The same by names, and as plan says them."""
    from .look import words_of
    words = words_of(asked)
    return tuple(Violation(*subject_of(asked, starts, one), words.violation(one, starts)) for one in found)


def subject_of(asked: Question, starts: tuple[int, ...],
               one: Breach) -> tuple[ViolationKind, tuple[Activity, ...], Resource | None, int | None]:
    """The kind, the activities, and of an overload the resource and the time."""
    numbers, kind, resource, time = asked.numbers, ViolationKind.OVERLOAD, None, None
    if one.kind == "overload":
        time, number, _ = one.numbers
        resource, own = asked.project.resources[number], numbers.users(number, starts, time)
    elif one.kind == "horizon":
        own = [*one.numbers]
    else:
        kind = ViolationKind.START if one.kind == "start" else ViolationKind.LAG
        arc = numbers.dated[one.numbers[0]].arc if one.kind == "dated" else one.numbers
        own = sorted({*arc[:2]}) if kind is ViolationKind.LAG else []
    return kind, tuple(asked.activities[i - 1] for i in own if 0 < i < numbers.end), resource, time


def answer_from(project: Parts, told: Mapping[str, object]) -> tuple[Question, Known, float]:
    """What `Answer.to_dict` has told."""
    must_be_a(Mapping, told, "what Answer.to_dict tells")
    missing = [key for key in ("bound", "starts", "status", "conflicts", "seconds") if key not in told]
    if missing:
        raise BadInput(f"an answer has no key '{missing[0]}'")
    goal = Goal.LATENESS if "lateness" in told else Goal.MAKESPAN
    asked, starts, bound = question(project, goal.value), told["starts"], told["bound"]
    known = Known(goal, bound=None if bound is None else whole(bound, "the bound", -10**9, 10**9),
                  conflicts=whole(told["conflicts"], "the conflicts", 0, 10**18))
    if starts is not None:
        must_be_a(Mapping, starts, "a mapping from activities to starts")
        found = feasible_starts(asked, starts)  # type: ignore[arg-type]
        known = replace(known, starts=found, value=found[-1])
    if known.status() != told["status"]:
        raise BadInput(f"the status is {short(repr(told['status']))}, and by its starts and its bound it is "
                       f"'{known.status()}'")
    return asked, known, real(told["seconds"], "seconds", -1, 10**9)
