"""The file that `plan solve --out` keeps: it gets each shorter schedule, and never a longer one of the same project. A
plan of the project before it was changed is kept beside it, under a name with its time."""
import datetime
import json
import os
from itertools import chain, count

from ..clock import Clock, tell
from ..errors import BadInput, Failed
from ..files import read_bytes, write_new, write_whole
from ..incumbent import Incumbent
from ..psmax import Psmax
from .answer import JudgedStarts, counted, feasible, tie
from .answer_text import AnswerText, answer_of
from .csv_text import write_sheet
from .project_file import ProjectFile
from .write import schedule_rows

WITHOUT_STARTS = (b"no schedule", b"unknown ")  # the beginnings of answers of a search


class AnswerFile:
    def __init__(self, path: str, opened: ProjectFile) -> None:
        self.path = path
        self.opened = opened
        self.written: bytes | None = None  # what it holds, as far as is known
        self.there: JudgedStarts | None = None  # the schedule that it holds, if another put it there
        self.before: AnswerText | None = None  # the plan of the project before it was changed, if it holds that

    def look(self) -> JudgedStarts | None:
        """The schedule of this project that the file holds; psmax finds it feasible."""
        data = read_bytes(self.path) if os.path.isfile(self.path) else None
        if data is not None and data != self.written:
            self.there = self.schedule_in(data)
        self.written = data
        return self.there if data is not None else None

    def schedule_in(self, data: bytes) -> JudgedStarts | None:
        """What holds no starts may go, but neither what is no answer nor the starts of another project."""
        if not data.strip() or data.startswith(WITHOUT_STARTS):
            return None
        try:
            return feasible(self.opened, answer_of(data, self.path), Psmax(Clock(), self.opened.path))
        except BadInput as fault:
            self.before = before_change(self.opened, data, self.path)
            if self.before is not None:
                return None
            told = f"{self.path} is no schedule of {self.opened.path}, and would be lost; name another file with --out"
            raise BadInput(told, *fault.args) from None

    def put(self, best: Incumbent) -> bool:
        """Writes the best schedule, unless another one has put a shorter one there meanwhile. Says whether it is
        there."""
        known = best.known
        if known.starts is None:
            return False
        there = self.look()
        if there is not None and there.starts[-1] < known.starts[-1]:
            value = known.goal.words(there.starts[-1])
            tell(best.clock, f"{self.path} holds a schedule of {value} by now, which stays")
            return False
        data = answer_text(best, self.opened, self.path.lower().endswith(".csv"))
        if data != self.written:
            self.keep_before(best.clock)
            write_whole(self.path, data)
        self.written, self.there = data, None
        return True

    def keep_before(self, clock: Clock) -> None:
        """The plan of the project before it was changed gets a name of its own."""
        if self.before is None or self.written is None:
            return
        stem, suffix = os.path.splitext(self.path)
        time = f"{datetime.datetime.fromtimestamp(os.stat(self.path).st_mtime):%Y-%m-%d-%H%M%S}"
        names = (f"{stem}-{time}{more}{suffix}" for more in chain([""], (f"-{again}" for again in count(1))))
        name = next(name for name in names if write_new({name: self.written or b""}, self.path))
        tell(clock, f"{self.path} as it was is kept as {name}")
        self.before = None

    def put_if_possible(self, best: Incumbent) -> None:
        """The same while the search goes on; where it fails, that is told, and is tried again at the end."""
        try:
            self.put(best)
        except (BadInput, Failed) as fault:
            tell(best.clock, f"{fault.args[0]}")


def before_change(opened: ProjectFile, data: bytes, path: str) -> AnswerText | None:
    """A plan whose activities are for the most part those of the project, by their names; none for anything else."""
    try:
        given = answer_of(data, path).must_have_starts()
        tied = tie(opened, counted(opened, given))
    except BadInput:
        return None
    return given if given.names and 2 * len(tied.pairs) >= len(given.names) else None


def answer_text(best: Incumbent, opened: ProjectFile, as_table: bool) -> bytes:
    """What is known, with the names of the activities: as a table, or in the lines of psmax, the first of which, which
    psmax passes over, has the names."""
    if as_table and best.known.starts is not None:
        return write_sheet(schedule_rows(opened, best.known.starts, with_dates=False)).encode()
    first, _, rest = best.answer().decode().partition("\n")
    activities = activities_of(opened)
    told = f" {json.dumps(activities, ensure_ascii=False)}" if any(opened.names.activities.values()) else ""
    return f"{first}{told}\n{rest}".encode()


def activities_of(opened: ProjectFile) -> dict[str, object]:
    """The names of the activities in their order, empty where one has none, and how long each takes."""
    durations = opened.project.durations[1:-1]
    names = [opened.names.activities.get(i, "") for i in range(1, len(durations) + 1)]
    return {"names": names, "durations": [*durations], "period": opened.names.unit or None}
