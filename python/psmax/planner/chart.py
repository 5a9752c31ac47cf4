"""The parts of a chart as SVG, from which a page and a picture are made: bars, the use of resources, and lags as
arrows."""
import pathlib
from collections.abc import Iterable, Sequence
from functools import partial
from xml.etree.ElementTree import Element, SubElement, tostring

from ..project import Arc
from .drawing import Bar, Drawing, Load
from .time_axis import LETTER, Band, axis_of
from .wording import Words

ROW, LOAD, BAND = 20, 54, 17  # pixels of an activity, of a resource, and of each row of the ruler
EDGE = 8.0  # pixels before the first time and behind the last
BAR = (3, 11)  # where a bar begins in its row, and how high it is
GAP = 4  # pixels from a bar to its dates
NOT_KNOWN = "total float not known yet"
STYLE = (pathlib.Path(__file__).parent / "chart.css").read_text("utf-8")


def mark(tag: str, kind: str = "", text: str = "", **places: object) -> Element:
    """A part of a picture. What it says is text, whatever signs it has; numbers have one digit behind the point."""
    made = Element(tag, {"class": kind} if kind else {})
    for name, place in places.items():
        made.set(name.replace("_", "-"), f"{round(place, 1):g}" if isinstance(place, float) else f"{place}")
    made.text = text or None
    return made


def markup(*parts: Element) -> str:
    """The parts as they stand in a page or in a file of SVG."""
    return "".join(tostring(part, "unicode", short_empty_elements=False) for part in parts)


def holding(tag: str, parts: Iterable[Element], kind: str = "", **places: object) -> Element:
    """A part that has others within it."""
    made = mark(tag, kind, "", **places)
    made.extend([*parts])
    return made


def tip(text: str, *parts: Element) -> Element:
    """The parts, with what a pointer on them shows."""
    return holding("g", [mark("title", "", text), *parts])


def definitions() -> Element:
    """What `chart.css` names: the head of an arrow, and the hatching of what is away."""
    found = mark("defs")
    head = SubElement(found, "marker", id="head", markerUnits="userSpaceOnUse", markerWidth="9", markerHeight="8",
                      refX="8", refY="4", orient="auto")
    SubElement(head, "path", d="M0,0 L9,4 L0,8 z", fill="#333")
    hatch = SubElement(found, "pattern", id="hatch", width="6", height="6", patternTransform="rotate(45)",
                       patternUnits="userSpaceOnUse")
    SubElement(hatch, "line", {"y2": "6", "stroke": "#777", "stroke-width": "3"})
    return found


class Chart:
    """The parts of each row, from the row's upper edge on. Along the time they stand at shares of the width, so that a
    page takes what there is, which is no less than `width` pixels; in a picture, whose width is this, at pixels."""

    def __init__(self, shown: Drawing, width: int, has_shares: bool) -> None:
        self.shown, self.width, self.has_shares = shown, width, has_shares
        self.axis = axis_of(shown, width - 2 * EDGE)
        self.bands = self.axis.bands()
        self.height = ROW * len(shown.bars)
        self.bars = {bar.activity: (row, bar) for row, bar in enumerate(shown.bars) if bar.activity is not None}

    @property
    def ruler_height(self) -> int:
        return BAND * len(self.bands)

    def pixel(self, place: float) -> float:
        """Where a place is, if the chart is as narrow as it may be."""
        within = min(max(place, self.axis.first), self.axis.last)
        return EDGE + self.axis.pixels(within - self.axis.first)

    def length(self, pixels: float) -> str:
        return f"{100 * pixels / self.width:.3f}%" if self.has_shares else f"{round(pixels, 1):g}"

    def x(self, place: float) -> str:
        return self.length(self.pixel(place))

    def box(self, begins: float, ends: float, y: float, height: float, kind: str) -> Element:
        width = max(2.0, self.pixel(ends) - self.pixel(begins))
        return mark("rect", kind, x=self.x(begins), y=y, width=self.length(width), height=height)

    def stretch(self, begins: int, ends: int, y: float, height: float, kind: str) -> Element:
        """From one time until another."""
        return self.box(self.axis.begin(begins), self.axis.end(ends), y, height, kind)

    def upright(self, place: float, height: float, kind: str, top: float = 0) -> Element:
        return mark("line", kind, x1=self.x(place), x2=self.x(place), y1=top, y2=height)

    def sign(self, place: float, path: str, kind: str) -> Element:
        """A shape that does not stretch."""
        made = mark("svg", x=self.x(place), overflow="visible")
        made.append(mark("path", kind, d=path))
        return made

    def grid(self, height: int) -> list[Element]:
        """What stands behind each row: nights and days off, midnights, and the status date."""
        now = [] if self.shown.now is None else [self.upright(self.axis.begin(self.shown.now), height, "now")]
        return [*(self.box(one.begins, one.ends, 0, height, "free") for one in self.axis.shades()),
                *(self.upright(place, height, "grid") for place in self.axis.ticks()), *now]

    def rest(self, height: int) -> list[Element]:
        """What stands before the use of resources: when nobody works."""
        return [self.box(one.begins, one.ends, 0, height, "free") for one in self.axis.shades() if one.is_free]

    def ruler(self) -> list[Element]:
        """The bands, such as months, weeks and days."""
        found = []
        for row, bands in enumerate(self.bands):
            top, floor = BAND * row, BAND * (row + 1)
            for band in bands:
                found += [self.upright(band.begins, floor, "edge", top), *self.name(band, top + 13)]
            found.append(mark("line", "edge", x1=0, x2=self.length(self.width), y1=floor, y2=floor))
        if self.shown.now is not None:
            found.append(tip("status date", self.upright(self.axis.begin(self.shown.now), self.ruler_height, "now")))
        return found

    def name(self, band: Band, y: int) -> list[Element]:
        """The longest form of its name for which there is room."""
        room = min(self.width, self.pixel(band.ends)) - self.pixel(band.begins)
        name = next((name for name in band.names if LETTER * len(name) + GAP <= room), "")
        return [mark("text", "time", name, x=self.x(band.begins), dx=3, y=y)] if name else []

    def bar(self, bar: Bar) -> list[Element]:
        """Where it may run too, the bar, where it was, and its dates; a point where it takes no time, and a bracket for
        a group."""
        begins, ends = self.axis.of(bar)
        if bar.activity is None:
            return [self.box(begins, ends, 6, 4, "bracket"), *self.dates(bar),
                    *(self.sign(place, "M-4,6 h8 l-4,9 z", "bracket") for place in (begins, ends))]
        found = []
        if bar.window is not None and bar.window.float:
            found.append(self.stretch(bar.window.earliest, bar.window.latest + bar.ends - bar.begins, 7, 4, "float"))
        found += [*self.before(bar), *self.body(bar), *self.dates(bar)]
        if bar.due is not None and self.shown.begins <= bar.due <= self.shown.ends:
            found.append(self.upright(self.axis.end(bar.due), ROW - 1, "due", 1))
        return found

    def body(self, bar: Bar) -> list[Element]:
        """Of what has started, what is done and what remains."""
        begins, ends = self.axis.of(bar)
        kind = "past" if bar.has_started else "critical" if bar.is_critical else "unknown" if bar.is_open else "bar"
        kind = kind if self.shown.is_plan else "was"
        if bar.begins == bar.ends:
            return [self.sign(begins, "M0,1 l8,8 l-8,8 l-8,-8 z", kind)]
        now = self.shown.now
        if kind != "past" or now is None or now >= bar.ends:
            return [self.box(begins, ends, *BAR, kind)]
        done = [self.stretch(bar.begins, now, *BAR, kind)] if bar.begins < now else []
        return [self.box(begins, ends, *BAR, "left"), *done]

    def before(self, bar: Bar) -> list[Element]:
        """Where it was in the plan before: below the bar."""
        if bar.was is None:
            return []
        begins, ends = bar.was
        if begins == ends:
            return [self.sign(self.axis.end(ends), f"M0,{ROW - 6} l4,3 l-4,3 l-4,-3 z", "before")]
        return [self.stretch(begins, ends, ROW - 5, 3, "before")]

    def dates(self, bar: Bar) -> list[Element]:
        """Behind the bar, or before it where its float or the edge is behind; within it where there is no room else."""
        if not bar.dates:
            return []
        begins, ends = map(self.pixel, self.axis.of(bar))
        first, last, room = *self.reach(bar), LETTER * len(bar.dates) + GAP
        point = GAP if bar.activity is not None and bar.begins < bar.ends else GAP + 6
        behind, before = partial(self.text, bar.dates), partial(self.text, bar.dates, text_anchor="end")
        for put, place, offset, is_free in (
                (behind, ends, point, last <= ends), (before, begins, -point, first >= begins),
                (behind, last, point, True), (before, first, -point, True)):
            if is_free and room <= (self.width - place if offset > 0 else place) - point:
                return [put(place, offset)]
        return [self.text(bar.dates, begins, GAP, "dates", 19) if bar.activity is None else
                self.text(bar.dates, begins, GAP, "dates within")]

    def text(self, text: str, pixels: float, offset: float, kind: str = "dates", y: int = 12, **side: str) -> Element:
        return mark("text", kind, text, x=self.length(pixels), dx=offset, y=y, **side)

    def reach(self, bar: Bar) -> tuple[float, float]:
        """The pixels from where to where something is drawn of a bar."""
        begins, ends = map(self.pixel, self.axis.of(bar))
        if bar.window is not None and bar.window.float:
            begins = min(begins, self.pixel(self.axis.begin(bar.window.earliest)))
            ends = max(ends, self.pixel(self.axis.end(bar.window.latest + bar.ends - bar.begins)))
        return begins, ends

    def said(self, bar: Bar) -> str:
        """What a bar says, in words."""
        kind = ", has started" if bar.has_started else ", critical" if bar.is_critical else ""
        kind = kind or (f", {NOT_KNOWN}" if bar.is_open else "")
        spare = ""
        if bar.window is not None and bar.window.float:
            last = bar.window.latest + bar.ends - bar.begins
            spare = f", may run from {self.shown.span(bar.window.earliest, last)} while the others stay"
        before = "" if bar.was is None else f", before {self.shown.span(*bar.was)}"
        return f"{bar.label}: {bar.first} to {bar.last}{kind}{spare}{before}"

    def load(self, load: Load) -> list[Element]:
        """The use as a stepped area under a dashed line, which is what there is; hatched from that down what is away,
        and shaded the times outside its hours; and the scale."""
        if not self.shown.is_plan:
            return []
        most = max([load.capacity, 1, *(one.units for one in load.stretches)])
        unit, floor = (LOAD - 18) / most, LOAD - 4
        top = floor - unit * load.capacity
        found = [tip(f"{load.name}: no work from {self.shown.span(one.begins, one.ends)}",
                     self.stretch(one.begins, one.ends, 1, LOAD - 5, "off")) for one in load.off]
        found += [tip(f"{load.name}: {one.units} away from {self.shown.span(one.begins, one.ends)}",
                      self.stretch(one.begins, one.ends, top, unit * one.units, "away")) for one in load.away]
        for one in load.stretches:
            kept = min(one.units, load.capacity)
            boxes = [self.stretch(one.begins, one.ends, floor - unit * kept, unit * kept, "use")]
            if kept < one.units:
                above = floor - unit * one.units
                boxes.append(self.stretch(one.begins, one.ends, above, top - above, "over"))
            found.append(tip(f"{load.name}: {one.units} in use from {self.shown.span(one.begins, one.ends)}", *boxes))
        return [*found, *self.rest(LOAD), *self.scale(load.capacity, most, top, floor - unit * most)]

    def scale(self, capacity: int, most: int, top: float, highest: float) -> list[Element]:
        """What there is, as a line with its name, and the greatest use where that is more."""
        end = self.length(self.width)
        found = [mark("line", "most", x1=0, x2=end, y1=top, y2=top),
                 mark("line", "edge", x1=0, x2=end, y1=LOAD - 4, y2=LOAD - 4),
                 mark("text", "scale", f"capacity {capacity}", x=2, y=top - 3),
                 mark("text", "scale", "0", x=2, y=LOAD - 6)]
        return found + ([mark("text", "scale", f"{most}", x=2, y=highest - 3)] if highest + 12 < top else [])

    def arrows(self, arcs: Sequence[Arc], starts: Sequence[int], words: Words) -> list[Element]:
        """Of each lag between two activities."""
        return [self.arrow(arc, words, "" if words.project.slack(arc, starts) else " tight") for arc in arcs
                if {arc.tail, arc.head} <= self.bars.keys()]

    def circle(self, arcs: Sequence[Arc], words: Words) -> list[Element]:
        """The lags that contradict each other, also those from the start and to the end of the project."""
        return [self.arrow(arc, words, " circle") for arc in arcs]

    def arrow(self, arc: Arc, words: Words, kind: str) -> Element:
        """From what is waited for to what waits, and from the end of that where the lag counts beyond it: along its
        row, and then to the row of the other."""
        first, last = (arc.head, arc.tail) if arc.lag < 0 else (arc.tail, arc.head)
        begins, ends, y1, length = self.place(first)
        x1, (x2, _, y2, _) = ends if 0 <= length <= abs(arc.lag) else begins, self.place(last)
        y2 -= (ROW / 2 - BAR[0]) * (1 if y2 > y1 else -1)
        parts = [mark("title", "", words.lag(arc)), mark("line", x1=self.x(x1), x2=self.x(x2), y1=y1, y2=y1),
                 mark("line", "head", x1=self.x(x2), x2=self.x(x2), y1=y1, y2=y2)]
        return holding("g", parts, "lag" + (" greatest" if arc.lag < 0 else "") + kind, data_ends=f"{first} {last}")

    def place(self, activity: int) -> tuple[float, float, float, int]:
        """Where it begins and ends, where its row is, and its length; the start is above all rows, and the end
        below."""
        if activity in self.bars:
            row, bar = self.bars[activity]
            return *self.axis.of(bar), ROW * row + ROW / 2, bar.ends - bar.begins
        place = self.axis.last if activity else self.axis.first
        return place, place, self.height if activity else 0, 0
