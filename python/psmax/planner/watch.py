"""`plan watch`: the plan of a table in a browser, made anew whenever the table is saved."""
import datetime
import hashlib
import os
import pathlib
import queue
import socket
import tempfile
import threading
import webbrowser
from collections.abc import Iterator
from concurrent.futures import Future
from contextlib import contextmanager, suppress
from dataclasses import dataclass

from ..call_files import lose_none, must_be_like
from ..clock import Clock
from ..errors import BadInput, Failed, Fault
from ..files import BLANKS, DASH, SPREADSHEET, Saves, read_bytes, read_text
from ..known import Known
from ..project_text import ProjectText
from ..record import BEGIN
from .above import read_above
from .answer import tie
from .answer_text import AnswerText, read_answer
from .beginning import Beginning, Start, begin_near, must_be_possible
from .columns import is_head
from .csv_text import read_sheet
from .faults import explained
from .page import More, read_part, html
from .plan_search import SearchLimits, PlanSearch
from .plans import Plan, PlanSchedule, keep_plan
from .project_file import ProjectFile, open_project
from .screen import Screen
from .server import Server
from .settings import Settings
from .whatif import tried

GLANCE = 0.1  # seconds from one look at the files to the next
ANSWERS = 120.0  # seconds that an order may take
FORWARD = ('<!doctype html><meta charset="utf-8"><title>plan watch</title><meta name="referrer" content="no-referrer">'
           '<meta http-equiv="refresh" content="0; url={0}"><a href="{0}">plan watch</a>\n')
MOVED = '<details id="moved" open hidden><summary></summary><div></div></details>'  # where the page says what moved


@dataclass(frozen=True)
class WatchOptions:
    seconds: float
    jobs: int
    record: str | None
    port: int
    is_opened: bool  # in a browser


@dataclass(frozen=True)
class Save:
    """What shows whether a table was saved whole: its rows, and whether the last one has an end."""

    rows: int = 0
    has_end: bool = False

    def why_half(self, before: "Save") -> str:
        """Why it may not be; nothing where it is like the one before."""
        if 2 * self.rows < before.rows:
            return f"{self.rows} rows are left of {before.rows}"
        return "the last row has no end" if before.has_end and not self.has_end else ""


def read_save(path: str) -> Save:
    """Of a text; a spreadsheet file that is cut can't be read."""
    data = read_bytes(path)
    if data.startswith(SPREADSHEET):
        return Save()
    return Save(sum(bool(line.strip(BLANKS)) for line in data.splitlines()), data.endswith(b"\n"))


class Watch:
    """All that changes the plan is done by one thread, in turn: saves that are seen, and orders of the page."""

    def __init__(self, path: str, settings: Settings, start: Start, options: WatchOptions, folder: str) -> None:
        self.path, self.settings, self.frozen, self.options, self.folder = path, settings, start.frozen, options, folder
        self.screen, self.saves, self.clock = Screen(), Saves(), Clock()
        # And no SimpleQueue: a signal that comes while that waits may make it wait for ever (Python 3.11).
        self.orders: queue.Queue[tuple[str, int, Future[str]]] = queue.Queue()
        self.search: PlanSearch | None = None
        self.first = None if start.answer is None else read_answer(start.answer).must_have_starts()
        self.sources = {path}  # the table, and what it names
        self.kept = 0  # the number of the plan that was kept last
        self.whole = Save()  # the last one that was planned from, or that had a fault
        self.is_held = False  # whether a save waits for another one, since it may be half a table

    def run(self) -> None:
        """Until what ends a run stops the clock."""
        while not self.clock.stopped:
            self.obey(GLANCE)
            if self.saves.look(self.sources):
                self.read()

    def read(self) -> None:
        """The table as it stands. With a fault the last plan stays, and so does its search."""
        try:
            save = read_save(self.path)
            why = "" if self.is_held else save.why_half(self.whole)
            self.is_held = bool(why)
            if why:
                return self.screen.tell((f"{self.path}: {why}, so it may be half saved; save it once more to plan it",))
            self.whole = save
            self.sources |= named_in(self.path, self.settings)
            opened = open_project(self.path, self.settings)
            if opened.table is None:
                raise BadInput(f"{self.path}: this is no table of activities")
            self.sources = {*opened.inputs().values()}
            lose_none(opened.inputs(), [self.options.record])
            schedule = self.screen.schedule()
            given = self.first if schedule is None else schedule.given()
            beginning = self.begin(opened, given)
            self.plan(opened, beginning, schedule, given)
        except Exception as fault:
            self.screen.tell(explained(fault)[1])

    def begin(self, opened: ProjectFile, given: AnswerText | None) -> Beginning:
        """Near to the plan on the screen, or anew where nothing of that can be taken over."""
        must_be_possible(opened, opened.path, opened.progress.started)
        if self.frozen is not None and opened.progress.now is not None:
            raise BadInput("--frozen is for tables without a status date: this one says itself what has started")
        anew = Beginning(opened.project, started=frozenset(opened.progress.started))
        if given is None:
            return anew
        try:
            return begin_near(opened, given, self.frozen)
        except BadInput as fault:
            if self.frozen is not None:
                raise
            anew.told.extend([f"{fault}", "the plan before is not taken over"])
            return anew

    def plan(self, opened: ProjectFile, beginning: Beginning, schedule: PlanSchedule | None,
             given: AnswerText | None) -> None:
        """Where the project is the same, the plan and its search stay, perhaps with other names or dates. Else the page
        says so first, since a search may take seconds to end."""
        now, notes = self.screen.plans.get(self.screen.latest), (*opened.notes, *beginning.told)
        if now is not None and now.project == beginning.project and now.opened.project == opened.project:
            is_told_so = schedule is None or schedule.told() == PlanSchedule(opened, schedule.starts).told()
            self.screen.learn(self.screen.latest, opened=opened, before=now.before if is_told_so else schedule)
            return self.screen.tell(())
        number = self.screen.add(Plan(
            opened, beginning.project, f"{datetime.datetime.now():%H:%M:%S}", schedule, shadow(opened, given),
            Known(opened.project.goal, bound=ProjectText(beginning.project).value(0)), notes=notes))
        self.stop()
        limits = SearchLimits(self.options.seconds, self.options.jobs, self.options.record)
        self.search = PlanSearch(self.screen, number, beginning, limits, self.folder)
        self.search.start()

    def obey(self, seconds: float) -> None:
        """Does what the page asks for, if it does so within this time."""
        with suppress(queue.Empty):
            name, number, reply = self.orders.get(timeout=seconds)
            try:
                reply.set_result(self.back(number) if name == "back" else self.keep() if name == "keep"
                                 else self.stop())
            except Exception as fault:
                reply.set_exception(BadInput(*explained(fault)[1]))

    def order(self, name: str, number: int) -> str:
        """Asks the thread that changes the plan, and waits for what it says."""
        reply: Future[str] = Future()
        self.orders.put((name, number, reply))
        return reply.result(ANSWERS)

    def change(self, text: str) -> str:
        """What a change gives of the plan on the screen, as `plan whatif` says it. The search goes on beside."""
        plan = self.screen.plan()
        if plan is None:
            raise BadInput("nothing is planned yet")
        return f"{text}: {tried(plan.opened, plan.known.starts, text, self.options.seconds)}"

    def stop(self) -> str:
        """Ends the search, whose record is whole then."""
        if self.search is not None:
            self.search.end()
            self.search = None
        return "Nothing is searched any more."

    def keep(self) -> str:
        self.stop()
        names = keep_plan(self.screen.plan())
        self.kept = self.screen.shown
        return f"Kept: {', '.join(names)}"

    def back(self, number: int) -> str:
        self.stop()
        if not self.screen.show(number):
            raise BadInput("that plan is not there any more")
        return "This is the plan of the table as it was then. The next save is planned from it."

    def close(self) -> Iterator[str]:
        """Ends the search, and keeps what was found, unless it is kept already."""
        self.stop()
        plan = self.screen.plan()
        if plan is not None and plan.known.starts is not None and self.kept != self.screen.shown:
            yield self.keep()


def named_in(path: str, settings: Settings) -> set[str]:
    """The files that a table names, even where it has a fault."""
    with suppress(Fault):
        above = read_above(path, read_sheet(path, read_text(path, settings.sheet), is_head), os.path.dirname(path))
        return {*settings.over(above.settings).files().values()}
    return set()


def shadow(opened: ProjectFile, given: AnswerText | None) -> tuple[int, ...]:
    """Where a table's activities were in the plan before; at 0 what was not there."""
    found: dict[int, int] = {}
    if given is not None:
        with suppress(BadInput):
            found = tie(opened, given).starts
    return tuple(found.get(i, 0) for i in range(opened.project.end + 1))


@contextmanager
def hold_alone(path: str) -> Iterator[None]:
    """The only watch of a table. The system forgets the name when the process ends, however it does."""
    name = hashlib.sha256(os.path.realpath(path).encode("utf-8", "surrogateescape")).hexdigest()
    with socket.socket(socket.AF_UNIX) as held:
        try:
            held.bind(f"\0plan-watch-{os.getuid()}-{name}")
        except OSError:
            raise BadInput(f"{path} is watched already, by another plan watch") from None
        yield


def watch(path: str, settings: Settings, start: Start, options: WatchOptions) -> int:
    if path == DASH:
        raise BadInput("plan watch follows a file, and not standard input")
    if start.frozen is not None and start.answer is None:
        raise BadInput("--frozen needs --start, the schedule of which a part has started")
    lose_none({"the table": path} | settings.files() | start.inputs(), [options.record])
    must_be_like(options.record, BEGIN, "record")
    read_bytes(path)
    with hold_alone(path), tempfile.TemporaryDirectory(prefix="plan-") as folder:
        watching = Watch(path, settings, start, options, folder)
        watching.clock.listen()
        serve(watching)
    return 0


def serve(watching: Watch) -> None:
    try:
        server = Server(watching.options.port, watching.screen, watch_page(watching.path), watching.order,
                        watching.change)
    except OSError as fault:
        raise Failed(f"port {watching.options.port}: {fault.strerror}") from None
    thread = threading.Thread(target=server.serve_forever, args=(GLANCE,), daemon=True)
    thread.start()
    print(server.address, flush=True)
    if watching.options.is_opened:
        show(forward(watching.folder, server.address))
    try:
        watching.run()
        for line in watching.close():
            print(line, flush=True)
    finally:
        watching.stop()
        watching.screen.close()
        server.shutdown()
        server.server_close()


def forward(folder: str, address: str) -> str:
    """A page that nobody else can read, and that leads a browser to the address. So the token stands in no argument,
    which all users of a machine see."""
    path = os.path.join(folder, "open.html")
    with open(os.open(path, os.O_WRONLY | os.O_CREAT | os.O_EXCL, 0o600), "w") as file:
        file.write(FORWARD.format(address))
    return pathlib.Path(path).as_uri()


def show(address: str) -> None:
    """Opens a browser. One that runs in the foreground holds up nothing."""
    def run() -> None:
        with suppress(webbrowser.Error, OSError):
            webbrowser.open(address)

    threading.Thread(target=run, daemon=True).start()


def watch_page(path: str) -> bytes:
    """The page, which asks for all that it shows."""
    policy = "; connect-src 'self'; base-uri 'none'; form-action 'none'"
    more = More(read_part("watch.html"), MOVED, read_part("watch.css"), read_part("watch.js"), policy)
    return html(pathlib.Path(path).stem, "A4", {}, {}, more=more).encode("utf-8", "replace")
