"""A chart as an SVG picture."""
from collections.abc import Sequence
from xml.etree.ElementTree import Element

from .chart import LOAD, ROW, STYLE, Chart, definitions, holding, mark, markup, tip
from .drawing import Drawing

TOP = 32  # pixels of the title
TIME = 900  # pixels of the time that is shown
LETTER = 7  # pixels of a letter, about


def draw(shown: Drawing) -> str:
    """The title, the times, a row for each activity and each resource, and notes."""
    chart = Chart(shown, TIME, has_shares=False)
    labels = [bar.label for bar in shown.bars] + [f"{load.name}, of {load.capacity}" for load in shown.loads]
    left = 16 + LETTER * max([10, *map(len, labels)])
    top = TOP + chart.ruler_height
    bottom = top + chart.height + LOAD * len(shown.loads)
    width, height = left + chart.width, bottom + 8 + ROW * len(shown.notes)
    picture = mark("svg", xmlns="http://www.w3.org/2000/svg", width=width, height=height,
                   viewBox=f"0 0 {width} {height}")
    picture.extend([mark("style", "", STYLE), definitions(), put_words(16, 20, shown.title, "title"),
                    shift_parts(left, TOP, chart.ruler()), shift_parts(left, top, chart.grid(bottom - top))])
    picture.extend(chart_rows(chart, left, top))
    picture.extend([put_words(16, bottom + 16 + ROW * row, note) for row, note in enumerate(shown.notes)])
    return markup(picture) + "\n"


def chart_rows(chart: Chart, left: int, y: int) -> list[Element]:
    """The activities and the resources, each with its name before it."""
    found = []
    for bar in chart.shown.bars:
        kind = "title" if bar.activity is None else ""
        found += [put_words(16, y + 13, bar.label, kind), shift_parts(left, y, [tip(chart.said(bar), *chart.bar(bar))])]
        y += ROW
    for load in chart.shown.loads:
        found += [put_words(16, y + LOAD / 2 + 4, f"{load.name}, of {load.capacity}"),
                  shift_parts(left, y, chart.load(load))]
        y += LOAD
    return found


def shift_parts(x: float, y: float, parts: Sequence[Element]) -> Element:
    return holding("g", parts, transform=f"translate({x},{y})")


def put_words(x: float, y: float, text: str, kind: str = "") -> Element:
    return mark("text", kind, text, x=x, y=y)
