"""What a schedule and a project look like: as rows, as a chart, and in a notebook."""
import base64
from collections.abc import Iterable, Mapping
from dataclasses import replace
from html import escape
from typing import TYPE_CHECKING

from .clock import Clock
from .errors import BadInput
from .model import Activity, Parts
from .psmax import Psmax

if TYPE_CHECKING:
    from .answer import Answer, Float, Question, Schedule
    from .planner.project_file import ProjectFile
    from .planner.wording import Words

MOST_ROWS = 60  # of a table in a notebook


def rows_of(schedule: "Schedule", floats: "Mapping[Activity, Float] | None") -> list[dict[str, object]]:
    """A row for each activity, in the order of their starts."""
    from .planner.window import windows
    asked, found = schedule.question, list[dict[str, object]]()
    free = windows(asked.numbers, schedule.starts, Psmax(Clock()))
    for activity, span in schedule:
        row: dict[str, object] = {"activity": activity.name, "start": span.start, "end": span.end}
        if asked.calendar is not None:
            row |= {"start_date": span.start_date, "end_date": span.end_date}
        row["free_float"] = free[asked.number(activity)].float
        if floats is not None:
            if activity not in floats:
                raise BadInput(f"no float of '{activity.name}'")
            one = floats[activity]
            row |= {"float": one.least if one.is_proved else None, "is_critical": one.is_critical}
        found.append(row)
    return found


def chart(answer: "Answer") -> str:
    """A picture in SVG, below what `plan` says first of the answer."""
    from .planner import drawing, svg
    from .planner.headline import headline
    opened = as_file(answer.question)
    title, *more = headline(opened, answer.known)
    return svg.draw(drawing.make(opened, answer.must_have_schedule().starts, title, tuple(more)))


def as_file(asked: "Question") -> "ProjectFile":
    """The project as `plan` has one that it opened."""
    from .planner.names import Names
    from .planner.project_file import ProjectFile
    from .planner.settings import Settings
    project, unit = asked.project, "" if asked.project.calendar is None else asked.project.calendar.period
    is_same = asked.activities == (*project.activities,)
    activities = {number: one.name for number, one in enumerate(asked.activities, 1)}
    names = Names(activities, [one.name for one in project.resources], unit, ids=project.ids if is_same else {})
    parts = project if is_same else None
    return ProjectFile("the project", asked.numbers, names, Settings(), asked.calendar, {}, parts=parts)


def words_of(asked: "Question") -> "Words":
    """As plan speaks of the project, by its names alone."""
    from .planner.names import Names
    from .planner.wording import Words
    opened = as_file(asked)
    names = Names({}, opened.names.resources, opened.names.unit, ids=opened.names.activities)
    return Words(replace(opened, names=names))


def chart_html(answer: "Answer") -> str:
    """What a notebook shows of an answer. The picture has its styles for itself."""
    if answer.schedule is None:
        return f"<p>{escape(f'{answer}')}</p>"
    data = base64.b64encode(answer.chart().encode()).decode()
    return f'<img alt="{escape(f"{answer}")}" src="data:image/svg+xml;base64,{data}" />'


def table_html(project: Parts) -> str:
    """What a notebook shows of a project: its activities, and what they need."""
    heads = ["activity", "duration", *(f"{one.name}, {one.capacity}" for one in project.resources), "due"]
    lines = [in_row("th", heads)]
    for one in project.activities[:MOST_ROWS]:
        needs = [one.demands.get(resource, 0) or "" for resource in project.resources]
        lines.append(in_row("td", [one.name, one.duration, *needs, "" if one.due is None else one.due]))
    more = len(project.activities) - MOST_ROWS
    end = f"<p>and {more} more</p>" if more > 0 else ""
    return f"<p>{escape(repr(project))}</p><table>{''.join(lines)}</table>{end}"


def in_row(tag: str, cells: Iterable[object]) -> str:
    return "<tr>" + "".join(f"<{tag}>{escape(f'{cell}')}</{tag}>" for cell in cells) + "</tr>"
