"""The project as one uses it in Python: made or read, then checked, solved and asked. psmax and psprove answer."""
import copy
import os
from collections.abc import Callable, Mapping
from contextlib import suppress
from dataclasses import replace
from typing import Self

from . import formats, whatif
from .answer import Answer, Changed, Checked, Float, Progress, Schedule, Starts, Status, Why, question
from .call_files import lose_none, must_be_like
from .clock import Clock
from .core import find_core
from .errors import BadInput, TimeUp, WrongType
from .files import SPREADSHEET, decoded, folder_of, named_path, read_bytes, write_whole
from .formats import json_text
from .history import started_by
from .incumbent import Incumbent
from .known import Known
from .letters import short
from .live_search import Search
from .model import Absence, Activity, Lag, Parts, Resource, must_be_a
from .periods import Time, first_time, last_time, whole
from .project import MOST_UNITS, Goal, Kind, Numbers, Part, within
from .project_text import ProjectText
from .psmax import Psmax
from .psprove import Psprove
from .record import BEGIN, Proof, Record, record_in
from .record_file import file_of, record_at
from .search import TreeSearch, search
from .search_options import (
    LOG, Frozen, Path, SearchOptions, checked_jobs, checked_limits, clock_of, enough, must_be_function,
    must_know_dates, path_of)
from .starts import (
    CALLED, check_starts, feasible_starts, must_keep_started, pairs_of, same_named, starts_in_file, with_frozen)
from .total import TotalFloat

SECONDS = 60.0


class Project(Parts):
    """Activities that share scarce resources, with minimum and maximum lags between them. Times count whole periods
    from 0 on, which is the start of the project; with a `calendar` they are dates too."""

    def __repr__(self) -> str:
        return f"Project({self.name!r}, {len(self)} activities, {len(self.resources)} resources, {len(self.lags)} lags)"

    @classmethod
    def read(cls, source: str | bytes | os.PathLike[str], format: str | None = None, sheet: str | None = None,
             change: str | None = None) -> Self:
        """A project from a file, or from a text: bytes, or more lines than one, or what begins as JSON or XML. The text
        says which format it has, or else `format` does. A table of `plan` is read too, in CSV or in a sheet of a
        spreadsheet file, with a `change` as `plan whatif` takes it, such as 'crew +2; sundays'. What is to be said of a
        table goes to the log.

        BadInput where it is no project, or has a fault; Failed where the file can't be read."""
        for text, what in ((format, "the name of a format"), (sheet, "the name of a sheet"), (change, "a change")):
            must_be_a((str, type(None)), text, what)
        is_text = isinstance(source, bytes) or isinstance(source, str) and is_no_path(source)
        if not isinstance(source, (str, bytes, os.PathLike)):
            raise WrongType(f"'{short(str(source))}' is not a path or a text")
        called = "the text" if is_text else os.fsdecode(source)
        data = source if isinstance(source, bytes) else f"{source}".encode() if is_text else read_bytes(called)
        if sheet is not None and not data.startswith(SPREADSHEET):
            raise BadInput(f"{called}: a sheet is for spreadsheet files")
        made = cls()
        if format is None and read_if_table(made, data, called, is_text, sheet, change):
            return made
        if change is not None:
            raise BadInput(f"{called}: a change is for a table of plan; change the parts of this project themselves")
        formats.read(data, made, called, format)
        return made

    @classmethod
    def from_dict(cls, told: Mapping[str, object]) -> Self:
        """The project that `to_dict` tells: the object of the format json. BadInput where it is none."""
        made = cls()
        json_text.fill_from_object(made, told)
        return made

    def to_dict(self) -> dict[str, object]:
        """The project as the object of the format json."""
        formats.must_say_all(self, formats.format_named("json"))
        return json_text.to_dict(self)

    def copy(self) -> Self:
        """A project of its own with the same parts, by the same names, to try changes in."""
        return copy.deepcopy(self)

    def text(self, format: str) -> str:
        """The project as a text of this format. BadInput where the format can't say all of it."""
        one = formats.format_named(format)
        formats.must_say_all(self, one)
        return one.write(self)

    def write(self, path: Path, format: str | None = None) -> None:
        """Writes the text into a file, whole or not at all; its suffix says the format, or else `format` does."""
        name = named_path(path)
        write_whole(name, self.text(format or formats.format_of_file(name)).encode())

    def _repr_html_(self) -> str:
        """Its activities, for a notebook."""
        from .look import table_html
        return table_html(self)

    def check(self, starts: Starts) -> Checked:
        """Whether starts of all activities are a feasible schedule, by psmax, and all violations."""
        return check_starts(question(self), starts)

    def earliest(self) -> Schedule | None:
        """The least starts by the lags alone, by psmax; none where the lags contradict each other. BadInput where some
        are in calendar days, which psmax does not know."""
        asked = question(self)
        if asked.numbers.dated:
            raise BadInput("psmax knows no lags in calendar days, so it can't say the least starts by the lags alone")
        spelled = ProjectText(asked.numbers)
        starts = Psmax(Clock(), CALLED).earliest_starts(spelled.text)
        return None if starts is None else Schedule(asked, spelled.outward(starts))

    def search(self, seconds: float = SECONDS, jobs: int | None = None, *, start: Starts | None = None,
               hint: Starts | None = None, frozen: Frozen | None = None, now: Time | None = None,
               record: bool | Path | None = None, proved_by: str = "lemmas", minimize: str = "makespan",
               seed: int | None = None, conflicts: int | None = None, memory: int | None = None,
               resume: Path | Record | None = None, bound: int | None = None, gap: float | None = None,
               until: Callable[[Progress], object] | None = None) -> Search:
        """Begins a search for a shortest schedule, which goes on until it is proved, a limit is reached or it is ended.

        seconds    the limit of time, which may be less than one
        jobs       searches side by side, 1 to 64; as many as there are processors if it is None
        start      a feasible schedule of all activities, which is the best so far
        hint       starts of some activities or all, near to which the search begins; they need not be feasible
        frozen     starts of some activities, which they have in every schedule, also by dates
        now        a time or a date: what is not frozen starts no sooner
        record     a file for the record of the answer; False: there is no record
        proved_by  "lemmas": psprove searches; "tree": psmax does, in slices of 1,000 to 1,000,000 nodes
        minimize   "makespan", or "lateness" behind the due dates of activities
        seed       breaks ties
        conflicts  the limit of conflicts of each job
        memory     MiB for the lemmas of each job, 512 if it is None
        resume     the record of an earlier search of the same project, from which this one goes on
        bound      only schedules with less are looked for; the answer's bound is this where there are proved to be none
        gap        ends the search where the value is above the bound by no more than this part of itself, such as 0.05
        until      a function that ends the search once it is true of a Progress, in the thread of the search

        seed, conflicts, memory, resume, bound and hint are for lemmas. BadInput where an argument is wrong."""
        options = SearchOptions(start, hint, frozen, now, record, proved_by, minimize, seed, conflicts, memory, resume,
                                bound, gap, until)
        return begin_search(self, seconds, jobs, options)

    def solve(self, seconds: float = SECONDS, jobs: int | None = None, *,
              on_progress: Callable[[Progress], object] | None = None, start: Starts | None = None,
              hint: Starts | None = None, frozen: Frozen | None = None, now: Time | None = None,
              record: bool | Path | None = None, proved_by: str = "lemmas", minimize: str = "makespan",
              seed: int | None = None, conflicts: int | None = None, memory: int | None = None,
              resume: Path | Record | None = None, bound: int | None = None, gap: float | None = None,
              until: Callable[[Progress], object] | None = None) -> Answer:
        """A search to its end, with the options of `search`. `on_progress` hears each Progress, in this thread. Ctrl-C
        ends the search, and the answer is what is known then. An exception of `on_progress` or `until` ends it too, and
        is raised. Failed where a program failed; its `answer` is what was known."""
        must_be_function(on_progress, "on_progress")
        options = SearchOptions(start, hint, frozen, now, record, proved_by, minimize, seed, conflicts, memory, resume,
                                bound, gap, until)
        return finish(begin_search(self, seconds, jobs, options), on_progress)

    def read_starts(self, path: Path) -> dict[Activity, int]:
        """Starts in the file of an answer, of plan or of a program: by names, or by numbers where it has none, and by
        dates or periods. What is no activity of this project any more is left out. BadInput where it is no answer, or
        has no starts."""
        return starts_in_file(self, named_path(path))

    def replan(self, before: Frozen, now: Time, seconds: float = SECONDS, jobs: int | None = None, *,
               started: Mapping[Activity, Time] | Mapping[str, Time] | None = None, record: bool | Path | None = None,
               minimize: str = "makespan") -> Answer:
        """A plan from `now` on, near to the one before: an answer, a schedule, or starts such as `read_starts` gives.
        What has started stays: what `started` says, or else what starts before `now` in that plan. Durations may be
        others by now, and activities may be new or gone; they are known by their names. BadInput where what has started
        breaks lags or resources by itself."""
        time, old = first_time(now, "now", self.calendar), same_named(self, before)
        frozen = started_by(old, time) if started is None else dict(pairs_of(self, started))
        must_keep_started(self, frozen)
        hint = {one: start for one, start in old.items() if one not in frozen}
        return self.solve(seconds, jobs, hint=hint, frozen=frozen, now=time, record=record, minimize=minimize)

    def verify(self, record: bytes | Path, minimize: str = "makespan", frozen: Frozen | None = None,
               now: Time | None = None) -> Proof:
        """What a record of this project proves, in a file or as its bytes, with what the search kept. BadInput has its
        first wrong line or event."""
        file = file_of(record) if isinstance(record, bytes) else record_at(named_path(record))
        return record_in(file, with_frozen(question(self, minimize), frozen, now).numbers).verify()

    def why(self, deadline: Time | None = None, seconds: float = SECONDS, jobs: int | None = None,
            minimize: str = "makespan") -> Why:
        """Why there is no schedule; or none that ends by the deadline, a time or a date; or with the lateness, none
        that has no more than that. What is in the way is a smallest set of resources, absences and maximum lags, proved
        by psprove."""
        clock, asked = clock_of(seconds), question(self, minimize)
        numbers, fixed = with_deadline(self, asked.numbers, deadline)
        with clock.interrupted():
            known, found = Known(asked.numbers.goal, bound=0), None
            with suppress(TimeUp):
                known, found = find_core(numbers, fixed, Psprove(clock, CALLED), checked_jobs(jobs))
        schedule = None if known.starts is None else Schedule(asked, known.starts)
        needed = [] if found is None else found.parts()
        return Why(Status(known.status()), tuple(part_of(self, part.kind, part.number) for part in needed),
                   found is not None and {*needed} == {*found.schedules}, schedule)

    def whatif(self, seconds: float = SECONDS, jobs: int | None = None, minimize: str = "makespan") -> list[Changed]:
        """What one unit more of each resource, each absence less, and each maximum lag longer or dropped gives, proved
        by psprove. The shortest schedule comes first."""
        clock, numbers = clock_of(seconds), self.numbers(minimize)
        with clock.interrupted():
            _, outcomes = whatif.try_changes(numbers, Psprove(clock, CALLED), checked_jobs(jobs))
        return [Changed(one.change.kind, part_of(self, one.change.part.kind, one.change.part.number),
                        Status(one.known.status()), one.known.value, one.known.bound, one.seconds) for one in outcomes]

    def float(self, schedule: Starts, seconds: float = SECONDS, jobs: int | None = None,
              minimize: str = "makespan") -> dict[Activity, Float]:
        """How much later each activity can start in some schedule that is no longer than this one, proved by
        psprove."""
        clock, asked = clock_of(seconds), question(self, minimize)
        starts, psprove = feasible_starts(asked, schedule), Psprove(clock, CALLED)
        found = TotalFloat(asked.numbers, starts, (), psprove, is_recorded=False)
        with clock.interrupted():
            found.run(checked_jobs(jobs))
        latest = {activity: found.found[number] for number, activity in enumerate(asked.activities, 1)}
        return {activity: Float(one.least - one.start, one.most - one.start, one.is_settled)
                for activity, one in latest.items()}


def is_no_path(text: str) -> bool:
    return "\n" in text or text.startswith(("{", "<"))


def read_if_table(made: Parts, data: bytes, called: str, is_text: bool, sheet: str | None, change: str | None) -> bool:
    """Reads a table of `plan`, if it is one. Whether it is."""
    from .planner.project_file import is_table, open_table, open_table_text
    from .planner.scenarios import Scenario
    from .planner.settings import Settings
    from .planner.table_parts import fill_from_table
    if is_text and data.startswith(SPREADSHEET):
        raise BadInput("the text: a spreadsheet file is read by its path")
    text = "" if data.startswith(SPREADSHEET) else decoded(data)
    if not data.startswith(SPREADSHEET) and (formats.is_like_some(text) or not is_table(called, text)):
        return False
    opened = open_table_text(called, text) if is_text else open_table(called, Settings(sheet=sheet))
    for note in opened.notes:
        LOG.warning("%s: %s", called, note)
    fill_from_table(made, opened if change is None else Scenario(opened, change).project())
    return True


def with_deadline(project: Parts, numbers: Numbers, deadline: Time | None) -> tuple[Numbers, set[Part]]:
    """With the lag of a deadline, which nobody asks about."""
    if deadline is None:
        return numbers, set()
    time = whole(deadline, "the deadline", -MOST_UNITS) if numbers.goal is Goal.LATENESS else \
        last_time(deadline, "the deadline", project.calendar)
    limited = within(numbers, time)
    if limited is None:
        raise BadInput(f"the deadline: {time:,} has no room in this project")
    return limited, {Part(Kind.LAG, len(limited.arcs) - 1)}


def begin_search(project: Parts, seconds: float, jobs: int | None, options: SearchOptions) -> Search:
    """Checks all that is said, and begins the search."""
    clock, path = clock_of(seconds), path_of(options.record)
    limits = checked_limits(options, clock.seconds, checked_jobs(jobs))
    lose_none({}, [path])
    must_be_like(path, BEGIN, "record")
    asked = with_frozen(question(project, options.minimize), options.frozen, options.now)
    must_know_dates(options, asked.numbers)
    start = None if options.start is None else feasible_starts(asked, options.start)
    hint = [] if options.hint is None else pairs_of(project, options.hint)
    old = {asked.number(one): time for one, time in hint}
    best, folder = Incumbent(clock, asked.numbers), folder_of(path)

    def work() -> None:
        if start is not None:
            best.offer(start, "the start")
        if options.proved_by == "tree":
            TreeSearch(asked.numbers, Psmax(clock, CALLED, folder), best, limits.jobs).run()
        else:
            search(asked.numbers, Psprove(clock, CALLED, folder), best, limits, old, "the hint")

    def keep(known: Known) -> Known:
        """The record goes into its file, however the search ended."""
        if known.record is None or options.record is False:
            return replace(known, record=None)
        return known if path is None else replace(known, record=known.record.keep(path))

    return Search(asked, best, work, keep, enough(options))


def finish(going: Search, on_progress: Callable[[Progress], object] | None) -> Answer:
    """A fault of who listens ends the search, whose record is kept, and is raised then."""
    hear = on_progress or (lambda _: None)
    with going.clock.interrupted(), going:
        try:
            for told in going:
                hear(told)
        except Exception:
            going.stop()
            going.wait()
            raise
        return going.result()


def part_of(project: Parts, kind: Kind, place: int) -> Resource | Lag | Absence:
    """A resource, an absence, or the lag of an arc."""
    parts: Mapping[Kind, list[Resource] | list[Lag] | list[Absence]] = {
        Kind.RESOURCE: project.resources, Kind.ABSENCE: project.absences, Kind.LAG: [lag for _, lag in project.arcs()]}
    return parts[kind][place]
