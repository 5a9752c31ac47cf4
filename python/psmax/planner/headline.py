"""What is said first of an answer, in the planner's words: when the project ends, and which due dates are missed."""
from collections.abc import Sequence

from ..known import Known
from ..project import Goal
from .project_file import ProjectFile
from .wording import Words

MISSED = "LATE:"  # how the line begins that names what misses its due date
MOST = 5  # activities that are named in a line


def headline(opened: ProjectFile, known: Known) -> list[str]:
    """One line, and a second one where activities are due. Without dates the first one has the words of psmax."""
    if known.starts is None or opened.calendar is None:
        return [known.first_line(), *due_line(opened, known.starts)]
    return [f"{known.status()}{describe_answer(opened, known, known.starts)}", *due_line(opened, known.starts)]


def describe_schedule(opened: ProjectFile, starts: Sequence[int], value: int) -> list[str]:
    """The same of a schedule that is feasible, of which nothing else is known."""
    goal = opened.project.goal
    if opened.calendar is None:
        return [f"feasible {goal.words(value)}", *due_line(opened, starts)]
    return [f"feasible{describe_end(opened, starts, value)}", *due_line(opened, starts)]


def name_value(opened: ProjectFile, value: int | None) -> str:
    """What a makespan or a lateness is called: by its date, where there are dates."""
    words = Words(opened)
    if opened.calendar is None or value is None:
        return opened.project.goal.words(value)
    if opened.project.goal is Goal.LATENESS:
        return describe_lateness(words, value)
    return f"{words.brief(value, value > 0)} ({words.many(value)})"


def describe_answer(opened: ProjectFile, known: Known, starts: Sequence[int]) -> str:
    value, bound, words = known.value or 0, known.bound or 0, Words(opened)
    least = describe_lateness(words, bound) if known.goal is Goal.LATENESS else words.many(bound)
    rest = "" if known.settled else f", at least {least}"
    return describe_end(opened, starts, value) + rest


def describe_end(opened: ProjectFile, starts: Sequence[int], value: int) -> str:
    """The date, and how long that is."""
    words, last = Words(opened), max([0, *opened.project.ends([*starts])])
    lateness = f", {describe_lateness(words, value)}" if opened.project.goal is Goal.LATENESS else ""
    return f"{lateness}, ends {words.brief(last, last > 0)} ({words.many(last)})"


def describe_lateness(words: Words, value: int) -> str:
    return f"{words.many(abs(value))} {'late' if value > 0 else 'early'}" if value else "on time"


def due_line(opened: ProjectFile, starts: Sequence[int] | None) -> list[str]:
    """Which due dates are missed, the worst first."""
    project, words = opened.project, Words(opened)
    if not project.due or starts is None:
        return []
    missed = sorted(((starts[i] + project.durations[i] - due, i) for i, due in project.due.items()), reverse=True)
    found = [f"{words.names.activity(i)} by {words.many(by)}, due {words.brief(project.due[i], True)}"
             for by, i in missed if by > 0]
    if not found:
        return [f"no due date is missed, of {len(project.due)}"]
    more = [] if len(found) <= MOST else [f"and {len(found) - MOST} more"]
    return [f"{MISSED} {len(found)} of {len(project.due)} due: {'; '.join([*found[:MOST], *more])}"]
