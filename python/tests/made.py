"""Generated projects of each kind that a format can say, and small ones that are solved by trying all starts."""
import datetime
import itertools
import random
from collections.abc import Iterator

import psmax
from psmax.crew_hours import read_hours
from psmax.formats.shops import Operation, Shop, fill_from_shop
from psmax.model import Group
from psmax.project import Arc

HORIZON = 10  # no start of a small project is later


def any_project(seed: int) -> psmax.Project:
    """Lags of all kinds between starts and ends, due dates, absences and a work time."""
    chance, made = random.Random(seed), psmax.Project()
    made.name = chance.choice(["", "a \"site\" of ours", "Straße"])
    resources = [made.resource(f"r{k} ü", chance.randint(0, 5)) for k in range(chance.randint(0, 3))]
    for number in range(chance.randint(0, 6)):
        needs = {one: chance.randint(0, one.capacity) for one in resources if chance.random() < 0.7}
        made.activity(f"a {number}", chance.randint(0, 4), needs, chance.choice([None, chance.randint(0, 9)]))
    points = [made.start, made.end, *(point for one in made.activities for point in (one.start, one.end))]
    for _ in range(chance.randint(0, 6)):
        least, most = chance.choice([(0, None), (-3, None), (None, 5), (1, 4)])
        made.lag(*chance.sample(points, 2), at_least=least, at_most=most)
    for one in resources:
        if one.capacity and chance.random() < 0.4:
            made.absence(one, 2, chance.choice([None, 5]), 1)
    if chance.random() < 0.5:
        made.calendar = psmax.WorkTime("2026-03-02", "hours", "mon-fri", shift="08:00-12:00,13:00-17:00")
    return made


def plain(seed: int) -> psmax.Project:
    """Lags from start to start alone, as a .sch file has them."""
    chance, made = random.Random(seed), psmax.Project()
    resources = [made.resource(f"R {k}", chance.randint(0, 9)) for k in range(1, chance.randint(1, 4))]
    for number in range(1, chance.randint(1, 9)):
        made.activity(f"{number}", chance.randint(0, 9), {one: chance.randint(0, 9) for one in resources})
    points = [made.start, made.end, *(one.start for one in made.activities)]
    for _ in range(chance.randint(0, 12)):
        lag = chance.randint(-9, 9)
        first, last = chance.choices(points, k=2)
        made.lag(first, last, **({"at_least": lag} if lag >= 0 else {"at_most": -lag}))
    return made


def precedences(seed: int) -> psmax.Project:
    """An RCPSP: an activity starts no sooner than others end."""
    chance, made = random.Random(seed), psmax.Project()
    resources = [made.resource(f"R {k}", chance.randint(2, 5)) for k in range(1, chance.randint(2, 4))]
    for number in range(2, chance.randint(3, 7)):
        made.activity(f"job {number}", chance.randint(1, 3), {one: chance.randint(0, 2) for one in resources})
    for first, last in itertools.combinations(made.activities, 2):
        if chance.random() < 0.3:
            made.lag(first.end, last.start, at_least=0)
    return made


def shop(seed: int, is_open: bool) -> psmax.Project:
    chance, made = random.Random(seed), psmax.Project()
    jobs, machines = chance.randint(1, 5), chance.randint(1, 5)
    rows: Shop = [[Operation(machine, chance.randint(0, 99)) for machine in chance.sample(range(machines), machines)]
                  for _ in range(jobs)]
    fill_from_shop(made, rows, machines, is_open)
    return made


def tasks(seed: int, of_primavera: bool = False) -> psmax.Project:
    """What Microsoft Project can say: links of all four kinds, and a constraint or a due date of some tasks. Primavera
    has one due date of all, resources that something needs, and milestones that need none."""
    chance, made = random.Random(seed), psmax.Project()
    made.calendar = psmax.WorkTime("2026-03-02 08:00", "hours", "mon-wed,fri", (datetime.date(2026, 3, 6),),
                                   "08:00-12:00,13:00-17:00")
    resources = [made.resource(f"r <{k}>", chance.randint(1, 5)) for k in range(chance.randint(0, 3))]
    has_begun = seed % 4 == 3
    for number in range(chance.randint(1, 6)):
        needs = {one: chance.randint(1, one.capacity) for one in resources
                 if chance.random() < 0.7 or of_primavera and not number}
        due = 40 * (seed % 2) or None if of_primavera else chance.choice([None, chance.randint(1, 9)])
        length = chance.randint(0, 9) if number else 5 if has_begun else 1
        made.activity(f"a & {number}", length, needs if length or not of_primavera else {}, due)
    for one in made.activities[has_begun:]:
        kind = chance.randrange(5)
        if kind < 3:
            least, most = [(3, 3), (4, None), (None, 40)][kind]
            made.lag(made.start, one.end if kind == 2 else one.start, at_least=least, at_most=most)
    for first, last in itertools.combinations(made.activities, 2):
        if chance.random() < 0.4:
            made.lag(chance.choice([first.start, first.end]), chance.choice([last.start, last.end]),
                     at_least=chance.randint(-3, 9))
    if has_begun:
        begin(made)
    elif seed % 2:
        add_more(made, random.Random(seed), of_primavera)
    return made


def begin(made: psmax.Project) -> None:
    """After two hours the first of five of the first activity are done, and nothing else has started."""
    made.status, made.started = 2, {1: 0}
    first, *others = made.activities
    made.lag(made.start, first.start, at_least=0, at_most=0)
    for one in others:
        made.lag(made.start, one.start, at_least=2)


def add_more(made: psmax.Project, chance: random.Random, of_primavera: bool) -> None:
    """Groups, days of resources, and what Primavera has none of: absences, maximum lags and links in a circle."""
    count, days = len(made.activities), chance.choice(["mon,tue", "tue,wed", "mon-wed"])
    made.groups = [Group("all <1>", range(1, count + 1)), Group("some & 2", range(1, count // 2 + 2))]
    for one in made.resources:
        if chance.random() < 0.5 and any(one in activity.demands for activity in made.activities):
            made.hours[one] = read_hours(f"{days} 08:00-12:00,13:00-17:00")
        if chance.random() < 0.5 and not of_primavera:
            begins = chance.randint(1, 30)
            made.absence(one, begins, chance.choice([None, begins + 5]), chance.randint(1, one.capacity))
    for first, last in itertools.combinations(made.activities, 2):
        if chance.random() < 0.4 and not of_primavera:
            made.lag(chance.choice([first.start, first.end]), chance.choice([last.start, last.end]), at_most=40)
        if chance.random() < 0.2 and not of_primavera:
            made.lag(last.start, first.start, at_least=-chance.randint(1, 50))


def shortest(project: psmax.Project) -> int:
    """The makespan of a shortest schedule, by trying all starts."""
    return min(end_of(project, starts) for starts in schedules(project, (), project.numbers().arcs))


def schedules(project: psmax.Project, begun: tuple[int, ...], arcs: tuple[Arc, ...]) -> Iterator[tuple[int, ...]]:
    """All schedules in which the first activities start so."""
    if len(begun) == len(project.activities):
        yield begun
        return
    for start in range(HORIZON):
        starts = (*begun, start)
        if all(is_kept(arc, starts) for arc in arcs) and is_enough(project, starts):
            yield from schedules(project, starts, arcs)


def is_kept(arc: Arc, starts: tuple[int, ...]) -> bool:
    """Whether a lag between two activities that have starts is one."""
    return max(arc.tail, arc.head) > len(starts) or starts[arc.head - 1] >= starts[arc.tail - 1] + arc.lag


def end_of(project: psmax.Project, starts: tuple[int, ...]) -> int:
    return max([0, *(start + one.duration for start, one in zip(starts, project.activities))])


def is_enough(project: psmax.Project, starts: tuple[int, ...]) -> bool:
    return all(sum(one.demands.get(resource, 0) for start, one in zip(starts, project.activities)
                   if start <= time < start + one.duration) <= resource.capacity
               for resource in project.resources for time in {*starts})
