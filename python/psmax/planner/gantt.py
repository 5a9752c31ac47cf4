"""`plan gantt`: a schedule as a chart, in plain text or as SVG."""
from dataclasses import dataclass

from ..call_files import lose_none, must_be_like
from ..clock import Clock
from ..errors import BadInput
from ..files import STANDARD_INPUT, write_whole
from ..psmax import Psmax
from . import drawing
from .answer import judge_answer, read_baseline
from .answer_text import read_answer
from .drawing import Bar, Drawing, Load
from .headline import describe_schedule
from .project_file import ProjectFile
from .window import Stretch

MARK = 10  # columns from one number of the ruler to the next
LONGEST_NAME = 40
NUMBER = 6  # columns of a start that is a number


def chart_text(shown: Drawing, width: int) -> str:
    """The chart in lines: the ruler, the activities, the use of each resource, and what is not as it should be."""
    scale = drawing.round_step((shown.ends - shown.begins) / width)
    first = shown.begins // (MARK * scale) * MARK * scale
    columns = -(-(shown.ends - first) // scale)
    wide = max([len(cut_name(label)) for label in labels(shown)] + [0])
    when = max([NUMBER, *(len(bar.first) for bar in shown.bars)])
    column = shown.length(scale)
    column += " periods" if column.isdigit() else ""
    lines = [shown.title + (f"   (a column is {column})" if scale > 1 else "")]
    ids = max([4, *(len(bar.id) for bar in shown.bars)])
    margin = " " * (wide + when + ids + 3)
    lines += [margin + line for line in ruler_lines(shown, first, scale, columns)]
    for bar in shown.bars:
        label = f"{bar.id:>{ids}} {cut_name(bar.name):{wide}}"
        lines.append(f"{label} {bar.first:>{when}} {bar_cells(bar, first, scale, columns)}")
    for load in shown.loads:
        label, units = f"{'':{ids}} {cut_name(load.name):{wide}}", f"of {load.capacity}"
        lines.append(f"{label} {units:>{when}} {load_cells(load, first, scale, columns)}")
    lines += [margin + line for line in keys(shown)]
    return "".join(line.rstrip() + "\n" for line in [*lines, *shown.notes])


def keys(shown: Drawing) -> list[str]:
    """What signs mean that not every chart has."""
    return [key for key, is_there in (
        ("9 stands for the whole of a resource of more than 9 units", any(load.capacity > 9 for load in shown.loads)),
        ("/ units are away, and none is in use", any(load.away for load in shown.loads)),
        ("a blank is outside the hours of a resource", any(load.off for load in shown.loads)),
        ("+ the last period before the due date is over", any(bar.due is not None for bar in shown.bars)),
        ("- where it may run too, while the others stay as they are", any(bar.window for bar in shown.bars)),
        ("* critical: any later, and no schedule is as short", any(bar.is_critical for bar in shown.bars)),
    ) if is_there]


def labels(shown: Drawing) -> list[str]:
    return [bar.name for bar in shown.bars] + [load.name for load in shown.loads]


def cut_name(name: str) -> str:
    return name if len(name) <= LONGEST_NAME else name[: LONGEST_NAME - 2] + ".."


def ruler_lines(shown: Drawing, first: int, scale: int, columns: int) -> list[str]:
    """A line of numbers or dates, and one of marks."""
    numbers, marks = "", ""
    for column in range(0, columns, MARK):
        number = shown.mark(first + column * scale, column == 0)
        numbers = f"{numbers:{column}}" + number if len(numbers) < column or not column else numbers
        marks = f"{marks:{column}}|"
    return [numbers, marks]


def bar_cells(bar: Bar, first: int, scale: int, columns: int) -> str:
    """A # for each column in which the activity runs, * where it is critical; a | where it takes no time; a group in
    brackets."""
    cells = ["."] * columns
    if bar.window is not None and bar.window.float:
        fill_cells(cells, "-", bar.window.earliest, bar.window.latest + bar.ends - bar.begins, first, scale)
    sign = "=" if bar.activity is None else "*" if bar.is_critical else "#"
    fill_cells(cells, sign, bar.begins, bar.ends, first, scale)
    begin, end = (min((time - first) // scale, columns - 1) for time in (bar.begins, max(bar.begins, bar.ends - 1)))
    if bar.activity is None:
        cells[begin], cells[end] = "[", "]" if end > begin else "["
    elif bar.begins == bar.ends:
        cells[begin] = "*" if bar.is_critical else "|"
    if bar.due is not None and 0 < bar.due and (bar.due - 1 - first) // scale < columns:
        cells[(bar.due - 1 - first) // scale] = "+"
    return "".join(cells)


def fill_cells(cells: list[str], sign: str, begins: int, ends: int, first: int, scale: int) -> None:
    for column in range((begins - first) // scale, -(-(ends - first) // scale)):
        cells[column] = sign


def load_cells(load: Load, first: int, scale: int, columns: int) -> str:
    """The greatest use in each column: the units, or ninths of a larger capacity; ! above what is there, / where units
    are away and none is in use."""
    most, gone, over = [0] * columns, [0] * columns, [False] * columns
    for found, into in ((load.stretches, most), (load.away, gone)):
        for stretch in found:
            for column in covered(stretch, first, scale):
                into[column] = max(into[column], stretch.units)
    for stretch in load.stretches:
        for absent in [one for one in load.away if one.begins < stretch.ends and stretch.begins < one.ends]:
            if stretch.units + absent.units > load.capacity:
                both = Stretch(max(stretch.begins, absent.begins), min(stretch.ends, absent.ends), 0)
                for column in covered(both, first, scale):
                    over[column] = True
    closed = closed_in(load, first, scale, columns)
    return "".join("!" if is_over else " " if off == scale and not units else "/" if absent and not units
                   else use_sign(units, load.capacity) for units, absent, is_over, off in zip(most, gone, over, closed))


def closed_in(load: Load, first: int, scale: int, columns: int) -> list[int]:
    """How many periods of each column are outside its hours."""
    closed = [0] * columns
    for stretch in load.off:
        for column in covered(stretch, first, scale):
            begins = first + column * scale
            closed[column] += min(begins + scale, stretch.ends) - max(begins, stretch.begins)
    return closed


def covered(stretch: Stretch, first: int, scale: int) -> range:
    return range((stretch.begins - first) // scale, -(-(stretch.ends - first) // scale))


def use_sign(units: int, capacity: int) -> str:
    if units == 0:
        return "."
    if units > capacity:
        return "!"
    return str(units if capacity <= 9 else -(-9 * units // capacity))


@dataclass(frozen=True)
class ChartWords:
    """What the words of a command say of a chart that is drawn."""

    svg: str | None
    width: int
    is_wanted: bool = True

    def must_fit(self) -> None:
        """A file that is there and no picture stays."""
        must_be_like(self.svg, drawing.PICTURE, "picture")

    def show(self, shown: Drawing) -> None:
        if self.svg is not None:
            from . import svg
            write_whole(self.svg, svg.draw(shown).encode())
        else:
            print(chart_text(shown, self.width), end="")


def gantt(opened: ProjectFile, given: str | None, chart: ChartWords, before: str | None = None) -> int:
    """Draws starts that are no feasible schedule too, with their violations."""
    if before is not None and chart.svg is None:
        raise BadInput("--baseline is for a picture, which --svg names")
    inputs = {"the answer": given or STANDARD_INPUT} | ({} if before is None else {"the baseline": before})
    lose_none(opened.inputs() | inputs, [chart.svg])
    chart.must_fit()
    answer = read_answer(given)
    if answer.instead:
        print(answer.instead)
        return 0
    known = judge_answer(opened, answer, Psmax(Clock(), opened.path))
    lines = [] if known.value is None else describe_schedule(opened, known.starts, known.value)
    was = drawing.Details(was=read_baseline(opened, before))
    chart.show(drawing.make(opened, known.starts, known.title(*lines[:1]), (*lines[1:], *known.violations), was))
    return 0
