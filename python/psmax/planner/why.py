"""`plan why`: why a project has no schedule, or none that ends in time. psprove proves each cause."""
import itertools
from collections.abc import Callable
from dataclasses import replace

from ..call_files import lose_none, must_be_empty
from ..clock import Clock, tell
from ..core import Core, find_core
from ..errors import BadInput, TimeUp
from ..known import Known
from ..project import MOST_UNITS, Arc, Goal, Kind, Numbers, Part, too_needy, with_lag, within, without
from ..psmax import Psmax
from ..psprove import Limits, Psprove
from .beginning import Start, begin_with
from .circles import circles, in_words
from .group_delays import Groups
from .project_file import ProjectFile, must_be_ordinary
from .wording import Words, are

MOST_GROUPS = 3  # whose delays are told
CONFLICTS = 10_000  # of a search of the project without one of its lags, or with a longer one


class Causes:
    """What there is to say goes to `say`, line by line; `arcs` are the lags that it is about."""

    def __init__(self, opened: ProjectFile, project: Numbers, clock: Clock, jobs: int, deadline: int | None,
                 say: Callable[[str], object] = print) -> None:
        self.say, self.arcs = say, list[Arc]()
        self.psmax, self.psprove, self.jobs = Psmax(clock, opened.path), Psprove(clock, opened.path), jobs
        self.words = Words(opened, project.arcs[len(opened.project.arcs) :])
        limited = project if deadline is None else within(project, deadline)
        if limited is None:
            raise BadInput(f"a deadline of {deadline} has no room in {opened.path}; it is from 0 to {MOST_UNITS:,}")
        self.project, self.deadline = limited, deadline
        self.fixed = {Part(Kind.LAG, place) for place in range(opened.changeable(), len(limited.arcs))}
        self.late = "" if deadline is None else f" that ends by {deadline}"
        if deadline is not None and project.goal is Goal.LATENESS:
            self.late = f" with a lateness of {deadline} or less"

    def tell_all(self, out: str | None) -> int:
        """Prints why there is no schedule; the exit status is 3 where psprove can't say whether there is one."""
        answer, found = find_core(self.project, self.fixed, self.psprove, self.jobs)
        if answer.starts is not None:
            self.say(f"There is a schedule{self.late}: psprove has found one of {answer.goal.words(answer.value)}.")
            return 0
        if found is None:
            self.say(f"Not known: psprove found neither a schedule{self.late} nor that there is none.")
            return 3
        self.say(f"There is no schedule{self.late}.")
        self.tell_core(found)
        if out is not None:
            found.write(out)
        needy = too_needy(self.project)
        for activity in needy:
            self.say(f"Activity {self.words.needs(activity)}.")
        for circle in circles(self.project, self.psmax):
            self.arcs += circle
            for line in in_words(circle, self.words):
                self.say(line)
        if not needy:
            self.lags_that_open([part.number for part in found.parts() if part.kind is Kind.LAG])
            self.later_end()
        return 0

    def tell_core(self, found: Core) -> None:
        """What contradicts each other; one alone does so with the minimum lags and what is fixed."""
        if not found.parts():
            self.say("The minimum lags alone contradict each other, by a proof of psprove.")
            return
        self.arcs += [self.project.arcs[part.number] for part in found.parts() if part.kind is Kind.LAG]
        lead = "These together are impossible" if len(found.parts()) > 1 else "This is impossible"
        which = "any one of them" if len(found.parts()) > 1 else "it"
        self.say(f"{lead}, by a proof of psprove; without {which} there is a schedule:")
        for part in found.parts():
            self.say(f"  {self.part(part)}" + ("" if part in found.schedules else " (not known whether it is needed)"))
        self.tell_delays()

    def tell_delays(self) -> None:
        """How much later one group starts than another one, of the few whose lags are impossible together."""
        groups = Groups(self.project)
        firsts = sorted({groups.first[i] for arc in self.arcs for i in (arc.tail, arc.head) if i in groups.first})
        pairs = itertools.permutations(firsts, 2) if len(firsts) <= MOST_GROUPS else ()
        delays = [delay for delay in itertools.starmap(groups.delay, pairs) if delay is not None]
        if delays:
            self.say("Some of these may not wait, so which is first says how much later the other one starts:")
        for delay in delays:
            self.say(f"  {self.words.delay(delay)}")

    def part(self, part: Part) -> str:
        if part.kind is Kind.LAG:
            return self.words.greatest(self.project.arcs[part.number])
        if part.kind is Kind.ABSENCE:
            return self.words.absence(self.project.absences[part.number])
        told = f"{self.words.names.resource(part.number)}, of which there {are(self.project.capacities[part.number])}"
        return told + (", in its hours" if part.number in self.project.crews else "")

    def lags_that_open(self, places: list[int]) -> None:
        """Takes each of these lags out of the whole project, and tells with which of them gone there is a schedule. No
        other lag opens one, since these contradict each other without it."""
        answers = [self.without_lag(place) for place in places]
        unknown = sum(answer.status() == "unknown" for answer in answers)
        if unknown:
            self.say(f"For {unknown} maximum lags it is not known whether that opens a schedule.")
        elif all(answer.none for answer in answers):
            self.say("No maximum lag, taken out alone, opens a schedule.")

    def without_lag(self, place: int) -> Known:
        arc = self.project.arcs[place]
        answer = self.ask(without(self.project, {Part(Kind.LAG, place)}))
        if answer.starts is not None:
            value = answer.goal.words(answer.value)
            self.say(f"Without this lag there is a schedule of {value}: {self.words.greatest(arc)}.")
            least, is_least = self.least_enough(place, answer.starts)
            also = "less is not" if is_least else "whether less is, is not known"
            enough = self.words.greatest(arc._replace(lag=-least))
            self.say(f"  {self.words.allowed(arc, least + arc.lag)}, which is enough, and {also}: {enough}.")
        return answer

    def later_end(self) -> None:
        """How much later the project ends at the soonest, where it is asked why it doesn't end by a deadline."""
        if self.deadline is None:
            return
        answer = self.ask(replace(self.project, arcs=self.project.arcs[:-1]))
        if answer.value is not None:
            also = "less is not" if answer.settled else "whether less is, is not known"
            more = self.words.allowed(self.project.arcs[-1], answer.value - self.deadline)
            self.say(f"{more}, which is enough, and {also}.")

    def ask(self, project: Numbers) -> Known:
        limits = Limits(self.psprove.clock.left(), conflicts=CONFLICTS, is_recorded=False)
        return self.psprove.ask(project, limits)

    def least_enough(self, place: int, found: tuple[int, ...]) -> tuple[int, bool]:
        """How long a maximum lag must be at least, and whether less is known to be too little: halves what lies between
        the lag that is there and what a schedule without it needs."""
        arc = self.project.arcs[place]
        too_little, enough = -arc.lag, found[arc.tail] - found[arc.head]
        while enough - too_little > 1:
            middle = (too_little + enough) // 2
            answer = self.ask(with_lag(self.project, place, -middle))
            if answer.starts is not None:
                enough = answer.starts[arc.tail] - answer.starts[arc.head]
            elif answer.none:
                too_little = middle
            else:
                return enough, False
        return enough, True


def why(opened: ProjectFile, start: Start, deadline: int | None, seconds: float, jobs: int, out: str | None) -> int:
    lose_none(opened.inputs() | start.inputs(), [], out)
    must_be_empty(out)
    must_be_ordinary(opened, out)
    project = begin_with(opened, start).project
    if deadline is None and project.goal is Goal.MAKESPAN:
        deadline = project.horizon
    clock = Clock(seconds).listen()
    try:
        return Causes(opened, project, clock, jobs, deadline).tell_all(out)
    except TimeUp:
        tell(clock, clock.why_over())
        print("Not known: the time was over before psprove could say whether there is a schedule.")
        return 3
