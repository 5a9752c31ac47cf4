"""`plan solve`: a search by psprove with names, dates and files, or many of its cubes. What it says psprove has
proved."""
import json
import sys
from dataclasses import dataclass
from functools import partial
from typing import TYPE_CHECKING

from .. import __version__
from ..call_files import lose_none, must_be_like
from ..clock import Clock, tell
from ..errors import Failed
from ..files import folder_of, write_whole
from ..incumbent import Incumbent
from ..known import Known
from ..project import Goal
from ..psmax import Psmax
from ..psprove import Limits, Psprove
from ..record import BEGIN
from ..search import search
from . import drawing
from .answer_file import AnswerFile, activities_of
from .beginning import Start, begin_with, go_on
from .headline import name_value, headline
from .project_file import ProjectFile
from .read_back import opening_lines
from .wording import Words

if TYPE_CHECKING:
    from .cubes import Places


@dataclass(frozen=True)
class SolveOptions:
    """What the words of the command say, besides what it begins with."""

    seconds: float
    jobs: int
    out: str | None
    svg: str | None
    record: str | None
    json: bool
    places: "Places | None" = None  # of a search in cubes

    def limits(self) -> Limits:
        """Without a record where nobody asks for it."""
        return Limits(self.seconds, self.jobs, is_recorded=self.record is not None)


def solve(opened: ProjectFile, start: Start, options: SolveOptions) -> int:
    reads = opened.inputs() | start.inputs()
    if options.places is None:
        lose_none(reads, [options.out, options.svg, options.record])
    else:
        options.places.must_lose_none(reads, [options.svg])
    must_be_like(options.record, BEGIN, "record")
    must_be_like(options.svg, drawing.PICTURE, "picture")
    kept = None if options.out is None else AnswerFile(options.out, opened)
    there = kept.look() if kept is not None else None
    before = None if kept is None or start.answer is not None else kept.before
    beginning = begin_with(opened, start) if before is None else go_on(opened, before)
    schedules = list(beginning.schedules)
    if kept is not None and there is not None:
        beginning.must_keep(there, kept.path)
        schedules.append((there.starts, kept.path))
    clock = Clock(options.seconds).listen()
    for line in [*opening_lines(opened), *opened.notes, *beginning.told]:
        tell(clock, line)
    best = Incumbent(clock, beginning.project)
    best.called, best.line = partial(name_value, opened), lambda known: headline(opened, known)[0]
    if kept is not None:
        best.better = partial(kept.put_if_possible, best)
    for starts, source in schedules:
        best.offer(starts, f"{source}, by check")
    try:
        if options.places is not None:
            from . import cubes
            cubes.search_in_cubes(beginning, best, options.places)
        else:
            psprove = Psprove(clock, opened.path, folder_of(options.record))
            near = start.answer or (before.called if before is not None else "")
            search(beginning.project, psprove, best, options.limits(), beginning.old, near)
    except Failed:
        if best.known.starts is not None:
            give(best, opened, options, kept)
        raise
    give(best, opened, options, kept)
    return 0 if best.known.settled else 3


def give(best: Incumbent, opened: ProjectFile, options: SolveOptions, kept: AnswerFile | None) -> None:
    """Prints what is known, and writes what was asked for. A schedule that can't be written is printed, in the lines of
    psmax, which have no room for dates; so these are told."""
    known = best.known
    if known.value is None and not known.none and opened.project.horizon is not None:
        tell(best.clock, Words(opened).nothing_within(known.bound))
    plain, lines = best.answer().decode(), headline(opened, known)
    is_plain = True
    try:
        if kept is not None and kept.put(best):
            plain, is_plain = "\n".join(lines) + "\n", False
    finally:
        for line in lines if (is_plain or options.json) and lines != [known.first_line()] else ():
            tell(best.clock, line)
        sys.stdout.write(as_json(known, opened, best.clock.elapsed()) if options.json else plain)
        sys.stdout.flush()
    if options.record is not None and known.record is not None:
        known.record.keep(options.record)
    if options.svg is not None and known.starts is not None:
        from . import svg
        write_whole(options.svg, svg.draw(drawing.make(opened, known.starts, lines[0], tuple(lines[1:]))).encode())


def as_json(known: Known, opened: ProjectFile, seconds: float) -> str:
    """What is known as one line, with the keys of psmax first. Where the lateness is minimized, the bound is one of
    it."""
    starts = None if known.starts is None else opened.project.plain(known.starts)
    lateness = {"lateness": known.value} if known.goal is Goal.LATENESS else {}
    told: dict[str, object] = {
        "bound": known.bound,
        "makespan": None if starts is None else starts[-1],
        "starts": starts,
        "ends": end_text(opened, known.starts),
        "status": known.status(),
        **lateness,
        **activities_of(opened),
        "conflicts": known.conflicts,
        "seconds": round(seconds, 3),
        "versions": versions(),
    }
    return json.dumps(told) + "\n"


def end_text(opened: ProjectFile, starts: tuple[int, ...] | None) -> str | None:
    """The date at which the last activity ends, as 2026-03-02 or with its hour; none where there are no dates."""
    if starts is None or opened.calendar is None:
        return None
    last = max([0, *opened.project.ends(starts)])
    at = opened.calendar.span(last - 1, last)[1] if last else opened.calendar.begins(0)
    return at.date().isoformat() if opened.calendar.is_by_day else at.isoformat(" ", "minutes")


def versions() -> dict[str, str]:
    """Of plan, of the programs that it calls, and of Python."""
    found = {"plan": __version__}
    for program in (Psmax, Psprove):
        try:
            found[program.name] = program(Clock()).version()
        except Failed:
            found[program.name] = "not found"
    return found | {"python": sys.version.split()[0]}
