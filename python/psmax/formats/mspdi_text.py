"""A project as Microsoft Project's XML (MSPDI), and a schedule in such a file that is there already."""
import datetime
from collections.abc import Mapping, Sequence
from xml.etree.ElementTree import Element, SubElement

from ..answer import Schedule
from ..crew_hours import by_day
from ..dates import read_shift, read_workdays
from ..errors import BadInput
from ..letters import short
from ..model import Absence, Activity, Group, Lag, Parts, Resource
from ..project import least_starts
from ..work_time import WorkTime
from .mspdi import ENDS, SPACE, TENTHS, MspdiDocument
from .mspdi_calendar import BASE, add_calendar, add_resource_calendar
from .mspdi_lags import FIELD, Ties, field_text, note, ties_of
from .mspdi_outline import OutlineRow, add_field, add_fields, outline_of
from .tool_file import Dates, Gathering, dates_of, left_of
from .xml_tree import parse_xml, put_child, text_of, written

# Of what stands in a task; names between them are none that come before one of these.
ORDER = ("Start", "Finish", "Duration", "ManualStart", "DurationFormat", "Work", "Milestone", "Summary",
         "PercentComplete",
         "ActualStart", "RemainingDuration", "ConstraintType", "CalendarUID", "ConstraintDate", "Deadline",
         "LevelAssignments",
         "LevelingCanSplit", "LevelingDelay", "LevelingDelayFormat", "PreLeveledStart", "PredecessorLink", "Baseline")
DAYS, ELAPSED_DAYS = "7", "8"  # how lengths are shown
# Of a constraint, by whether it is one of the end, has a least time and a greatest one.
CONSTRAINTS = {(False, True, True): "2", (True, True, True): "3", (False, True, False): "4", (False, False, True): "5",
               (True, True, False): "6", (True, False, True): "7"}
WORK = "1"  # the type of a resource that does work
EVER = ("1984-01-01T00:00:00", "2049-12-31T23:59:00")  # from when and until when something is there that always is
PERCENT = 100


def write(project: Parts) -> str:
    """A project with dates. What MSPDI can't say is told at once."""
    dates, faults = dates_of(project.calendar, "MSPDI"), Gathering()
    root, ties = Element("Project", {"xmlns": SPACE}), ties_of(project, faults)
    parts = read_shift(dates.time.shift or "")
    texts = {"Name": project.name, "Title": project.name, "StartDate": stamp_text(dates.begins(0)), "CalendarUID": BASE,
             "MinutesPerDay": f"{sum(ends - begins for begins, ends in parts)}",
             "StatusDate": "" if project.status is None else stamp_text(dates.begins(project.status))}
    add(root, {name: text for name, text in texts.items() if text})
    fields = ([FIELD] if ties.most else []) + (["ID"] if project.ids else [])
    if fields:
        add_fields(root, fields)
    add_calendars(root, project, dates.time)
    tasks, times = SubElement(root, "Tasks"), soonest(project, dates)
    for row in outline_of(project):
        with faults.kept():
            add_row(SubElement(tasks, "Task"), row, project, ties, dates)
            put_times(tasks[-1], row, times)
    faults.tell()
    add_resource_elements(root, project, dates)
    return written(root)


def add_calendars(root: Element, project: Parts, time: WorkTime) -> None:
    workdays = time.workdays or "mon-sun"
    calendars = add_calendar(root, workdays, time.shift or "", time.free_days)
    for one, hours in project.hours.items():
        add_resource_calendar(calendars, calendar_uid(one), one.name, by_day(hours, read_workdays(workdays)))


def soonest(project: Parts, dates: Dates) -> list[tuple[str, str]]:
    """When each activity begins and ends by its lags alone, until it is planned."""
    numbers = project.numbers()
    starts = least_starts(numbers) or [0] * (numbers.end + 1)
    pairs = [(start, start + length) for start, length in zip(starts[1:-1], numbers.durations[1:-1])]
    return [(stamp_text(dates.begins(start)), stamp_text(dates.ended(end) if start < end else dates.begins(start)))
            for start, end in pairs]


def put_times(task: Element, row: OutlineRow, times: Sequence[tuple[str, str]]) -> None:
    """A summary goes from the first start below it to the last end."""
    own = [times[row.one.number - 1]] if isinstance(row.one, Activity) else [times[i - 1] for i in row.one.activities]
    put_child(task, "Start", min(begins for begins, _ in own), ORDER)
    put_child(task, "Finish", max(ends for _, ends in own), ORDER)


def add(parent: Element, texts: Mapping[str, str]) -> None:
    for name, text in texts.items():
        SubElement(parent, name).text = text


def stamp_text(moment: datetime.datetime) -> str:
    return moment.isoformat("T", "seconds")


def duration_text(minutes: int) -> str:
    return f"PT{minutes // 60}H{minutes % 60}M0S"


def calendar_uid(resource: Resource) -> str:
    return f"{resource.number + 2}"


def add_row(task: Element, row: OutlineRow, project: Parts, ties: Ties, dates: Dates) -> None:
    """An activity, or a summary, whose UIDs come behind those."""
    one, number = row.one, row.one.number if isinstance(row.one, Activity) else len(project.activities) + row.place
    minutes = one.duration * dates.minutes if isinstance(one, Activity) else 0
    add(task, {"UID": f"{number}", "ID": f"{row.place}", "Name": one.name, "WBS": row.number,
               "OutlineNumber": row.number, "OutlineLevel": f"{row.number.count('.') + 1}"})
    if isinstance(one, Group):
        add(task, {"Summary": "1"})
        return
    add(task, {"Duration": duration_text(minutes), "DurationFormat": DAYS, "Milestone": f"{int(minutes == 0)}",
               "Summary": "0"})
    add(task, progress_texts(project, one, dates))
    for lag in ties.limits.get(number, []):
        add(task, constraint(lag, dates))
    if one.due is not None:
        add(task, {"Deadline": stamp_text(dates.ended(one.due))})
    most = ties.most.get(number, [])
    if most:
        add(task, {"Notes": note(project, most, dates.minutes)})
    for lag in ties.links.get(number, []):
        add(SubElement(task, "PredecessorLink"), link_texts(lag, dates.minutes))
    if most:
        add_field(task, FIELD, field_text(project, one, most, dates.minutes))
    if number in project.ids:
        add_field(task, "ID", project.ids[number])


def progress_texts(project: Parts, activity: Activity, dates: Dates) -> dict[str, str]:
    """How far an activity has come."""
    begun, now = project.started.get(activity.number), project.status or 0
    if begun is None:
        return {}
    ends, left = begun + activity.duration, left_of(project, activity)
    share = PERCENT if not left else min(PERCENT - 1, PERCENT * (now - begun) // activity.duration)
    texts = {"PercentComplete": f"{share}", "ActualStart": stamp_text(dates.begins(begun))}
    texts |= {} if left else {"ActualFinish": stamp_text(dates.ended(ends) if activity.duration
                                                         else dates.begins(begun))}
    return texts | {"RemainingDuration": duration_text(left * dates.minutes)}


def constraint(lag: Lag, dates: Dates) -> dict[str, str]:
    """The constraint of a task that a lag from the project's start is."""
    is_least, is_most = lag.at_least is not None, lag.at_most is not None
    kind = CONSTRAINTS[lag.after.is_end, is_least, is_most]
    time = lag.at_most if lag.at_least is None else lag.at_least
    if time is None or time < lag.after.is_end:
        raise BadInput(f"activity '{short(lag.after.activity.name)}': MSPDI has no date before the project starts")
    at = dates.ended(time) if lag.after.is_end else dates.begins(time)
    return {"ConstraintType": kind, "ConstraintDate": stamp_text(at)}


def link_texts(lag: Lag, minutes: int) -> dict[str, str]:
    kind = next(kind for kind, ends in ENDS.items() if ends == (lag.before.is_end, lag.after.is_end))
    return {"PredecessorUID": f"{lag.before.activity.number}", "Type": kind,
            "LinkLag": f"{(lag.at_least or 0) * minutes * TENTHS}", "LagFormat": DAYS}


def add_resource_elements(root: Element, project: Parts, dates: Dates) -> None:
    """With what is there when, and what each activity needs of them."""
    resources, assignments = SubElement(root, "Resources"), SubElement(root, "Assignments")
    for one in project.resources:
        uid, made = f"{one.number + 1}", SubElement(resources, "Resource")
        add(made, {"UID": uid, "ID": uid, "Name": one.name, "Type": WORK, "MaxUnits": f"{one.capacity}"})
        add(made, {"CalendarUID": calendar_uid(one)} if one in project.hours else {})
        add_availability(made, one, [away for away in project.absences if away.resource is one], dates)
    pairs = [(activity.number, one.number + 1, units) for activity in project.activities
             for one, units in activity.demands.items() if units]
    for number, (task, resource, units) in enumerate(pairs, 1):
        add(SubElement(assignments, "Assignment"), {"UID": f"{number}", "TaskUID": f"{task}",
                                                    "ResourceUID": f"{resource}", "Units": f"{units}"})


def add_availability(resource: Element, one: Resource, absences: Sequence[Absence], dates: Dates) -> None:
    """How many units there are from one time to the next, where some are away."""
    times = sorted({time for away in absences for time in (away.begins, away.ends) if time})
    periods = SubElement(resource, "AvailabilityPeriods") if absences else resource
    for begins, ends in zip([0, *times], [*times, None]) if absences else ():
        away = sum(one.units for one in absences if one.begins <= begins and (one.ends is None or begins < one.ends))
        add(SubElement(periods, "AvailabilityPeriod"), {
            "AvailableFrom": stamp_text(dates.begins(begins)) if begins else EVER[0],
            "AvailableTo": EVER[1] if ends is None else stamp_text(dates.begins(ends)),
            "AvailableUnits": f"{one.capacity - away}"})


def replanned(data: bytes, schedule: Schedule) -> bytes:
    """The same file with the starts of a schedule of it: its tasks start then, by a delay that levelling has. All else
    stays. A summary goes from the first start below it to the last end."""
    root = parse_xml(data.decode("utf-8-sig", "replace"))
    document = MspdiDocument(root)
    numbers, starts = schedule.question.numbers, schedule.starts
    times: dict[str, tuple[datetime.datetime, datetime.datetime]] = {}
    for number, (uid, task) in enumerate(document.tasks.items(), 1):
        begins, ends = (datetime.datetime.fromisoformat(told) for told in
                        document.calendar.times(starts[number], starts[number] + numbers.durations[number]))
        times[uid] = begins, ends
        if text_of(task, "ActualStart") is None and uid not in document.by_hand:
            soonest = max([0, *(starts[arc.tail] + arc.lag for arc in numbers.arcs if arc.head == number)])
            delay = document.calendar.begins(starts[number]) - document.calendar.begins(min(soonest, starts[number]))
            tenths = int(delay.total_seconds()) // 60 * TENTHS
            for name, told in (("Start", stamp_text(begins)), ("Finish", stamp_text(ends)),
                               ("LevelingDelay", f"{tenths}"),
                               ("LevelingDelayFormat", ELAPSED_DAYS)):
                put_child(task, name, told, ORDER)
    around(root, document, times)
    return written(root).encode()


def around(root: Element, document: MspdiDocument,
           times: dict[str, tuple[datetime.datetime, datetime.datetime]]) -> None:
    """The times of summaries, from those of what is below them, and of the project."""
    for uid, below in document.outline.below.items():
        inner = [times[one] for one in below]
        if inner:
            put_child(document.outline.all[uid], "Start", stamp_text(min(inner)[0]), ORDER)
            put_child(document.outline.all[uid], "Finish", stamp_text(max(ends for _, ends in inner)), ORDER)
    if times and root.find("FinishDate") is not None:
        put_child(root, "FinishDate", stamp_text(max(ends for _, ends in times.values())), ("FinishDate",))
