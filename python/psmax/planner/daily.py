"""`plan write --daily`: what each crew does on each day, as a page of HTML which prints a sheet of paper for a day."""
import datetime
from collections.abc import Iterator
from dataclasses import dataclass
from xml.etree.ElementTree import Element

from ..calendars import DAY, Days, at_midnight
from ..dates import weekday
from ..errors import BadInput
from .chart import holding, mark, markup
from .icalendar import wanted
from .page import source_hash, read_part, filled
from .project_file import ProjectFile
from .window import Stretch, away

HEADS = "", "when", "activity", "", "units", ""
NOBODY = "Without a resource"


@dataclass(frozen=True)
class Day:
    """A day, with its first time and the first one behind it."""

    date: datetime.date
    begins: int
    ends: int


class DailyList:
    def __init__(self, opened: ProjectFile, starts: tuple[int, ...], resource: str | None) -> None:
        if opened.calendar is None:
            raise BadInput("a daily list needs dates, and nothing says when the project begins; --from does")
        if isinstance(opened.calendar, Days) and opened.calendar.step > 1:
            raise BadInput(f"a daily list needs periods of a day or less, and one here is of the {opened.names.unit}")
        self.opened, self.starts, self.calendar, self.resource = opened, starts, opened.calendar, resource
        self.activities = wanted(opened, resource)
        self.groups = {i: group.name for group in opened.groups for i in group.activities}
        until = max(opened.project.ends(starts))
        self.away = [away(opened.project, k, until) for k in range(len(opened.project.capacities))]

    def page(self, title: str) -> str:
        days = [one for one in map(self.sheet, self.days()) if one is not None]
        style = read_part("daily.css")
        return filled(read_part("daily.html"), {
            "title": title, "style": style, "policy": f"style-src {source_hash(style)}",
            "days": markup(*days) if days else "<p>Nothing is left to do.</p>"}, str)

    def days(self) -> Iterator[Day]:
        """From the status date on, or else from the first day."""
        last = max(self.opened.span(i, self.starts[i])[1] for i in range(1, self.opened.project.end))
        date = self.calendar.begins(max(self.opened.progress.now or 0, min(0, *self.starts))).date()
        while date <= last.date():
            yield Day(date, *(self.calendar.from_on(at_midnight(date) + count * DAY) for count in range(2)))
            date += DAY

    def sheet(self, day: Day) -> Element | None:
        """The crews that work on a day, each with what it does; nothing where nobody does anything."""
        names, demands = self.opened.names.resources, self.opened.project.demands
        working = sorted((self.starts[i], i) for i in self.activities if self.is_on(i, day))
        crews = [(f"{name} ({self.opened.project.capacities[k]})", k, [i for _, i in working if demands[i][k]])
                 for k, name in enumerate(names) if self.resource in (None, name)]
        alone = [i for _, i in working if not any(demands[i])]
        parts = [self.crew(name, k, found, day) for name, k, found in crews if found]
        parts += [self.crew(NOBODY, None, alone, day)] if alone else []
        head = f"{day.date:%A} {self.calendar.style.day(day.date)}, CW {day.date.isocalendar().week}"
        return holding("section", [mark("h1", "", head), *parts]) if parts else None

    def is_on(self, activity: int, day: Day) -> bool:
        """Whether it runs on that day. What takes no time has a day of its own."""
        start, length = self.starts[activity], self.opened.project.durations[activity]
        if not length:
            return self.opened.span(activity, start)[0].date() == day.date
        return max(start, day.begins) < min(start + length, day.ends)

    def crew(self, name: str, resource: int | None, activities: list[int], day: Day) -> Element:
        gone = [] if resource is None else [one for one in self.away[resource]
                                            if one.begins < day.ends and day.begins < one.ends]
        told = "; ".join(f"{one.units} away{self.hours(one, day)}" for one in gone)
        rows = [self.row(i, resource, day) for i in activities]
        head = holding("tr", [mark("th", "", text) for text in HEADS])
        table = holding("table", [holding("thead", [head]), holding("tbody", rows)])
        return holding("article", [mark("h2", "", name), *([mark("p", "", told)] if told else []), table])

    def row(self, activity: int, resource: int | None, day: Day) -> Element:
        project, start = self.opened.project, self.starts[activity]
        ends = start + project.durations[activity]
        units = "" if resource is None else f"{project.demands[activity][resource]}"
        first, last = self.opened.span(activity, start)
        more = [f"since {self.at(first)}"] if start < day.begins else []
        more += [f"until {self.at(last)}"] if ends > day.ends else []
        name = f"{self.opened.names.label(activity)} {self.opened.names.activities.get(activity, '')}".strip()
        when = self.hours(Stretch(start, ends, 0), day) if start < ends else self.clock(first)
        texts = "\u2610", when.strip(), name, self.groups.get(activity, ""), units, ", ".join(more)
        return holding("tr", [mark("td", "", text) for text in texts])

    def hours(self, one: Stretch, day: Day) -> str:
        """The hours of a stretch on a day; nothing where a period has none."""
        if self.calendar.is_by_day:
            return ""
        begins = self.calendar.begins(max(one.begins, day.begins))
        ends = self.calendar.ended(min(one.ends, day.ends))
        return f" {begins:%H:%M} \u2013 {f'{ends:%H:%M}' if ends.date() == day.date else '24:00'}"

    def clock(self, at: datetime.datetime) -> str:
        return "" if self.calendar.is_by_day else f" {at:%H:%M}"

    def at(self, at: datetime.datetime) -> str:
        return f"{weekday(at)} {self.calendar.style.mark(at)}{self.clock(at)}"
