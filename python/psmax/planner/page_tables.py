"""The tables of a page: the activities, the critical chain, and the use of resources."""
from collections.abc import Collection, Iterable, Sequence
from xml.etree.ElementTree import Element

from ..project import Arc
from ..total import TotalFloat
from .chart import holding, mark
from .drawing import Bar, Drawing
from .group_delays import Groups
from .project_file import ProjectFile
from .wording import Words

Cell = tuple[str, object]  # a text, and what it is sorted by
OPEN = "%d more may be critical: their total float is not known yet."


class Tables:
    def __init__(self, opened: ProjectFile, starts: Sequence[int], shown: Drawing, total: TotalFloat | None,
                 unknown: Collection[int]) -> None:
        self.opened, self.starts, self.shown, self.total, self.unknown = opened, starts, shown, total, unknown
        self.words, self.groups = Words(opened), Groups(opened.project)
        self.before: dict[int, list[Arc]] = {}  # the lags by which each activity waits
        for arc in opened.project.arcs:
            self.before.setdefault(arc.head, []).append(arc)
        self.activities = sorted((bar for bar in shown.bars if bar.activity is not None),
                                 key=lambda bar: (bar.begins, bar.activity))
        self.columns = {name: cells for name, cells in self.all_columns() if any(text for text, _ in cells)}

    def all_columns(self) -> Iterable[tuple[str, list[Cell]]]:
        """Each column with its name and the cells of all activities."""
        bars, length = self.activities, self.opened.length
        begin, end = self.dated()
        spare = [-1 if bar.window is None else bar.window.float for bar in bars]
        late = [None if bar.due is None else bar.ends - bar.due for bar in bars]
        yield "ID" if self.opened.names.ids else "No.", [(bar.id, bar.activity) for bar in bars]
        yield "Activity", [(bar.name, bar.name) for bar in bars]
        yield "total float", [self.total_float(bar.activity or 0) for bar in bars]
        yield "free float", [("" if left < 0 else length(left), left) for left in spare]
        yield begin, [(bar.first, bar.begins) for bar in bars]
        yield end, [(bar.last, bar.ends) for bar in bars]
        yield "takes", [(length(bar.ends - bar.begins), bar.ends - bar.begins) for bar in bars]
        yield "due", [("", "") if bar.due is None else (self.words.by(bar.due), bar.due) for bar in bars]
        yield "late", [("", 0) if left is None else (length(left), left) for left in late]
        yield "needs", [(self.needs(bar.activity or 0),) * 2 for bar in bars]

    def dated(self) -> tuple[str, str]:
        return self.shown.calendar.heads if self.shown.calendar is not None else ("start", "end")

    def heads(self) -> list[Element]:
        """The names of the columns of activities, by which they are sorted."""
        found = [mark("th") for _ in self.columns]
        for head, name in zip(found, self.columns):
            head.append(mark("span", "", name, role="button", tabindex=0))
        return found

    def rows(self) -> Iterable[tuple[Bar, Element]]:
        """Each activity with its cells."""
        for bar, *cells in zip(self.activities, *self.columns.values()):
            yield bar, holding("tr", (mark("td", "", text, data_key=key) for text, key in cells), "activity",
                               data_a=f"{bar.activity}")

    def needs(self, activity: int) -> str:
        demands = enumerate(self.opened.project.demands[activity])
        return ", ".join(f"{self.words.names.resource(k)} {units}" for k, units in demands if units)

    def total_float(self, activity: int) -> Cell:
        if self.total is None:
            return "not known yet" if activity in self.unknown else "", -1
        latest = self.total.found[activity]
        return "critical" if latest.is_critical else latest.text(self.opened.length), latest.least - latest.start

    def chain(self) -> list[Element]:
        """The critical activities in the order of their starts, each with what holds it; nothing where none is
        known."""
        rows = []
        for bar in (bar for bar in self.activities if bar.is_critical and bar.activity is not None):
            holds = [mark("div", "", text) for text in self.held(bar.activity or 0)]
            texts = bar.id, bar.name, bar.first, bar.last, self.opened.length(bar.ends - bar.begins)
            rows.append(holding("tr", [*(mark("td", "", text) for text in texts), holding("td", holds)]))
        names = "ID" if self.opened.names.ids else "No.", "Activity", *self.dated(), "takes", "held by"
        head = holding("thead", [holding("tr", [mark("th", "", name) for name in names])])
        table = holding("table", [head, holding("tbody", rows)], aria_label="Critical chain")
        more = [mark("p", "", OPEN % len(self.unknown))] if self.unknown else []
        return [mark("h2", "", "Critical chain"), *more, holding("div", [table], "wide")] if rows else []

    def uses(self) -> Iterable[Element]:
        """The use of each resource, and what of it is away, as a table."""
        for load in self.shown.loads if self.shown.is_plan else ():
            told = [(one.begins, one.ends, one.units, 0) for one in load.stretches]
            told += [(one.begins, one.ends, 0, one.units) for one in load.away]
            for begins, ends, used, away in sorted(told):
                times = self.words.time(begins), self.words.by(ends)
                texts = [load.name, *times, used or "", away or "", load.capacity]
                yield holding("tr", (mark("td", "", f"{text}") for text in texts))

    def card(self, bar: Bar) -> list[str]:
        """Of an activity: its dates, its floats, what it needs, and what holds it."""
        assert bar.activity is not None
        if not self.shown.is_plan:
            return [f"before: {bar.first} to {bar.last}"]
        total, _ = self.total_float(bar.activity)
        floats = [f"total float: {total}"] if total else []
        floats += [f"free float: {self.opened.length(bar.window.float)}"] if bar.window is not None else []
        before = [] if bar.was is None else [f"before: {self.shown.span(*bar.was)}"]
        return [f"{bar.first} to {bar.last}", *floats, f"needs: {self.needs(bar.activity) or 'nothing'}", *before,
                *(f"held: {text}" for text in self.held(bar.activity))]

    def held(self, activity: int) -> list[str]:
        """Why an activity can't start one period sooner while the others stay."""
        project, words, start = self.opened.project, self.words, self.starts[activity]
        told = [words.lag(arc) for arc in self.before.get(activity, ()) if project.slack(arc, self.starts) == 0]
        if activity in self.groups.members:
            told += map(words.delay, self.groups.holding(activity, self.starts))
        if not start:
            return [*told, "the project starts then"]
        for resource, units in enumerate(project.demands[activity] if project.durations[activity] else ()):
            if not units:
                continue
            others, away = project.users(resource, self.starts, start - 1), project.away(resource, start - 1)
            used = sum(project.demands[i][resource] for i in others) + away
            if used + units > project.capacities[resource]:
                by = [*map(words.names.activity, others), *([f"{away} away"] if away else [])]
                why = "outside its hours" if project.is_off(resource, start - 1) else f"in use: {', '.join(by)}"
                told.append(f"{units} of {words.names.resource(resource)}, until then {why}")
        return told
