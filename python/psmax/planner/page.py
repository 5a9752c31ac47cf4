"""A page of HTML: what it shows of a schedule, each part by the name of its place in `page.html`; and its file, which
has these parts, its style and its script, and nothing from elsewhere."""
import base64
import hashlib
import json
import pathlib
import re
from collections.abc import Callable, Iterable, Mapping
from dataclasses import dataclass, field
from html import escape
from xml.etree.ElementTree import Element

from .. import __version__
from ..project import Arc, Goal
from ..total import TotalFloat
from . import drawing
from .chart import LOAD, NOT_KNOWN, ROW, STYLE, Chart, definitions, holding, mark, markup
from .drawing import Bar, Drawing
from .headline import MISSED
from .project_file import ProjectFile
from .page_tables import Tables
from .read_back import opening_lines
from .window import Window
from .wording import Words

FOLDER = pathlib.Path(__file__).parent
PLACES = ("headline", "made", "read", "facts", "proof", "definitions", "ruler", "arrows", "heads", "chain", "total",
          "lines",
          "loads", "rows", "uses", "digest")
WIDTH = {"A4": 760, "A3": 1230}  # pixels of the time at least, so that it fits the paper on its side beside the names
Rows = list[tuple[str, str]]  # rows of a table, each with what it is known by


@dataclass(frozen=True)
class View:
    """A schedule, and what is known of it."""

    opened: ProjectFile
    starts: tuple[int, ...]
    proof: str  # what is proved, and by whom
    is_shortest: bool = False
    windows: Mapping[int, Window] = field(default_factory=dict)
    total: TotalFloat | None = None
    was: Mapping[int, tuple[int, int]] = field(default_factory=dict)  # when each began and ended in the plan before
    circle: tuple[Arc, ...] = ()  # of lags that contradict each other
    is_plan: bool = True  # and not the starts of a plan before, where there is no schedule
    headline: tuple[str, ...] = ()
    digest: str = ""  # of the record

    def open(self) -> set[int]:
        """The activities whose total float is neither proved nor above 0 in some schedule that is known."""
        if self.total is None:
            return {*range(1, self.opened.project.end)} - {*self.opened.progress.started}
        return {i for i in self.total.open() if self.total.found[i].least == self.total.found[i].start}


class Page:
    def __init__(self, view: View, paper: str = "A4", zoom: float = 1.0) -> None:
        self.view, self.opened, self.project = view, view.opened, view.opened.project
        self.words, self.paper = Words(view.opened), paper
        critical = view.total.critical() if view.total is not None else set()
        started = view.total.started if view.total is not None else view.opened.progress.started
        self.open = view.open() if view.is_plan else set()
        self.shown: Drawing = drawing.make(view.opened, view.starts, "", (), drawing.Details(
            view.windows, critical, started, view.was, self.open), view.is_plan)
        self.chart = Chart(self.shown, round(zoom * WIDTH[paper]), has_shares=True)
        self.lists = Tables(view.opened, view.starts, self.shown, view.total, self.open)
        self.lags = self.said_of_lags()

    def parts(self) -> dict[str, str]:
        """Markup by the place where it stands."""
        chart, starts = self.chart, self.view.starts
        height = chart.height + (LOAD + 1) * len(self.shown.loads)
        arrows = chart.circle(self.view.circle, self.words) if not self.view.is_plan else chart.arrows(
            self.project.arcs, starts, self.words)
        return {
            "headline": markup(*self.headline()), "made": escape(self.made()),
            "read": escape(" ".join(opening_lines(self.opened))), "facts": markup(*self.facts()),
            "proof": markup(*in_code(self.view.proof)),
            "definitions": markup(definitions(), holding("g", chart.grid(LOAD), id="grid")),
            "ruler": markup(picture(chart.ruler_height, chart.ruler())),
            "arrows": markup(mark("svg", width=chart.width, height=0),
                             picture(height, chart.grid(height), kind="behind"), picture(chart.height, arrows)),
            "heads": markup(*self.lists.heads()), "chain": markup(*self.lists.chain()),
            "total": escape(self.said_of_total()), "digest": escape(self.view.digest),
        }

    def tables(self) -> dict[str, Rows]:
        """The rows of the chart, of the activities and of the resources."""
        chart = self.chart
        lines = [(key_of(bar) if bar.activity is not None else f"group {number}",
                  markup(self.line(bar.label, ROW, chart.bar(bar), chart.said(bar), bar.activity)))
                 for number, bar in enumerate(self.shown.bars)]
        loads = [(f"{number}", markup(self.line(f"{load.name}, {load.capacity}", LOAD, chart.load(load), "", None)))
                 for number, load in enumerate(self.shown.loads)]
        rows = [(key_of(bar), markup(row)) for bar, row in self.lists.rows()]
        uses = [(f"{number}", markup(row)) for number, row in enumerate(self.lists.uses())]
        return {"lines": lines, "loads": loads, "rows": rows, "uses": uses}

    def line(self, label: str, height: int, parts: list[Element], said: str, activity: int | None) -> Element:
        """A row of the chart, which paper keeps together. There it has its own grid behind it; on a screen all rows
        have one, since a thousand take long to draw."""
        kind = "load" if height == LOAD else "line" if activity is not None else "line group"
        line = mark("tr", kind) if activity is None else mark("tr", kind, data_a=activity)
        cell = picture(height, [mark("use", href="#grid"), *parts], said)
        line.extend([mark("th", "", label, scope="row", title=label), holding("td", [cell])])
        return line

    def told(self) -> dict[int, dict[str, object]]:
        """What is shown of an activity that is chosen, or that a pointer is on."""
        return {bar.activity: {"name": bar.label, "card": self.lists.card(bar), "lags": self.lags.get(bar.activity, [])}
                for bar in self.lists.activities if bar.activity is not None}

    def said_of_lags(self) -> dict[int, list[str]]:
        """The lags of each activity in words, with how much they leave."""
        found: dict[int, list[str]] = {}
        for arc in self.project.arcs:
            left = self.project.slack(arc, self.view.starts)
            spare = "" if not self.view.is_plan else f": {self.opened.length(left)} to spare" if left else ": tight"
            for activity in dict.fromkeys((arc.tail, arc.head)):
                found.setdefault(activity, []).append(self.words.lag(arc) + spare)
        return found

    def made(self) -> str:
        ends = max([0, *self.project.ends(self.view.starts)])
        spans = f"From {self.words.time(0)} to {self.words.by(ends)}. " if self.view.is_plan else ""
        return f"{spans}Made by plan {__version__} from {self.opened.path}."

    def headline(self) -> list[Element]:
        """When the project ends, and which due dates are missed."""
        return [mark("p", "late" if line.startswith(MISSED) else "", line) for line in self.view.headline]

    def facts(self) -> list[Element]:
        ends, project, opened = max([0, *self.project.ends(self.view.starts)]), self.project, self.opened
        whole = count(ends, opened.names.unit or "periods") if opened.is_own() else fact(opened.length(ends), "of work")
        found = [*([whole] if self.view.is_plan else []), count(len(self.lists.activities), "activities")]
        critical = [] if self.view.total is None else self.view.total.critical()
        found += [count(len(critical), "critical")] if critical or not self.open and self.view.is_plan else []
        found += [fact(f"{len(self.open)}", NOT_KNOWN)] if self.open else []
        found += [count(len(self.shown.loads), "resources"), count(opened.changeable(), "lags")]
        found += [count(len(project.absences), "absences")] if project.absences else []
        is_late = project.goal is Goal.LATENESS and self.view.is_plan
        found += [fact(opened.length(self.view.starts[-1]), "lateness")] if is_late else []
        return found

    def said_of_total(self) -> str:
        text = ("Total float is how much later an activity can start in some schedule that is no longer than this one: "
                "psprove has found that schedule, and proved that there is none with a later start. Free float is how "
                "much later it can start while the others stay.")
        left = 0 if self.view.total is None else len(self.view.total.open())
        if left:
            text += f" For {left} activities the time did not settle the total float: it is an interval."
        return text


def key_of(bar: Bar) -> str:
    """By what an activity is known in one plan and the next: its name, where it has one."""
    return f"activity {bar.name or bar.activity}"


def picture(height: int, parts: Iterable[Element], said: str = "", kind: str = "") -> Element:
    return holding("svg", parts, kind, width="100%", height=height,
                   **(dict(role="img", aria_label=said) if said else {}))


def in_code(text: str) -> list[Element]:
    """A text in which what stands between ` is code."""
    return [mark("code" if place % 2 else "span", "", part) for place, part in enumerate(text.split("`"))]


def count(number: int, what: str) -> Element:
    """A figure with its name, of which there may be one."""
    singular = {"activities": "activity", "resources": "resource", "lags": "lag", "absences": "absence", "days": "day",
                "hours": "hour", "weeks": "week", "minutes": "minute", "periods": "period"}
    return fact(f"{number}", singular.get(what, what) if number == 1 else what)


def fact(figure: str, what: str) -> Element:
    made = mark("span")
    made.append(mark("b", "", figure))
    made[0].tail = what
    return made


@dataclass(frozen=True)
class More:
    """What a page has that follows a table: markup above the schedule and below its chart, style, script, and whom it
    may ask."""

    above: str = ""
    below: str = ""
    style: str = ""
    script: str = ""
    policy: str = ""


def html(title: str, paper: str, parts: Mapping[str, str], told: object, is_shortest: bool = False,
         more: More = More()) -> str:
    """The page. A place of which nothing is said is empty."""
    quoted = json.dumps(title).replace("<", "\\3c ")
    style = filled(read_part("page.css"), {"paper": paper, "quoted": quoted}, str) + STYLE + more.style
    script = read_part("page.js") + more.script
    policy = f"style-src {source_hash(style)}; script-src {source_hash(script)}{more.policy}"
    return filled(read_part("page.html"), {
        **dict.fromkeys(PLACES, ""), **parts, "title": title, "policy": policy, "style": style, "script": script,
        "above": more.above, "below": more.below,
        "state": "" if is_shortest else "open", "told": json.dumps(told).replace("<", "\\u003c")}, escape)


def read_part(name: str) -> str:
    return (FOLDER / name).read_text("utf-8")


def source_hash(text: str) -> str:
    """What a page allows of style or script: this text alone."""
    return f"'sha256-{base64.b64encode(hashlib.sha256(text.encode('utf-8', 'replace')).digest()).decode()}'"


def filled(template: str, texts: Mapping[str, str], quote: Callable[[str], str]) -> str:
    """The template with each `{{name}}` replaced by a text, and each `{{name!}}` by what is markup already."""
    return re.sub(r"\{\{(\w+)(!?)\}\}", lambda place: texts[place[1]] if place[2] else quote(texts[place[1]]), template)
