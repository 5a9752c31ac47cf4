"""A project as a .xer file of Primavera P6, and a schedule in such a file that is there already."""
import datetime
import io
from collections.abc import Iterable, Mapping

from ..answer import Schedule
from ..crew_hours import by_day
from ..dates import read_workdays
from ..errors import BadInput
from ..files import decoded
from ..model import Activity, Lag, Parts, Resource
from .tool_file import Dates, dates_of, is_said, left_of
from .xer_calendar import calendar_data, data_of
from .xer_crews import DEPENDS
from .xer_document import COMPLETE, ENDS, XerDocument
from .xer_limits import Actuals
from .xer_sign import MARK
from .xer_tables import CELLS, COLUMNS, HOUR, LAST, TABLE, cell_of, read_tables

REFUSED = ("Primavera has no maximum lags between activities, no absences, at most two constraints of an activity, and "
           "one due date for all; write this project as JSON")
MOST_CONSTRAINTS = 2
PLAN, TOP = 1, 1  # the IDs of the activities' calendar, and of the topmost row of the work breakdown
STAMP = "%Y-%m-%d %H:%M"
# What has not started begins and ends then, by table; its assignments too, since they are as long.
BEGINS = {"TASK": ("early_start_date", "target_start_date", "restart_date"),
          "TASKRSRC": ("target_start_date", "restart_date")}
FINISHES = {"TASK": ("early_end_date", "target_end_date", "reend_date"), "TASKRSRC": ("target_end_date", "reend_date")}
NEW = {*BEGINS, "PROJECT"}  # the tables that get dates
UTF_16 = (b"\xff\xfe", b"\xfe\xff")
Cells = Mapping[str, object]


def write(project: Parts) -> str:
    """A project with dates. Each lag is a link or a constraint."""
    dates, due = dates_of(project.calendar, "Primavera"), {one.due for one in project.activities}
    if project.absences or len(due) > 1 or any(
            project.end in (lag.before, lag.after) or lag.after == project.start for lag in project.lags):
        raise BadInput(REFUSED)
    first, ends = minute_text(dates.begins(0)), next(iter(due), None)
    links = [lag for lag in project.lags if lag.before != project.start]
    limits = limits_of(project)
    used = [one for one in project.resources if any(activity.demands.get(one) for activity in project.activities)]
    tables: dict[str, list[Cells]] = {
        "CALENDAR": calendars(project, dates),
        "PROJECT": [{"proj_id": 1, "proj_short_name": "PLAN", "export_flag": "Y", "clndr_id": PLAN,
                     "plan_start_date": first,
                     "last_recalc_date": minute_text(dates.begins(project.status or 0)),
                     "plan_end_date": "" if ends is None else minute_text(dates.ended(ends))}],
        "PROJWBS": breakdown(project),
        "RSRC": [{"rsrc_id": one.number + 1, "clndr_id": calendar_id(project, one),
                  "rsrc_short_name": f"R{one.number + 1}",
                  "rsrc_name": one.name, "rsrc_type": "RT_Labor"} for one in used],
        "RSRCRATE": [{"rsrc_rate_id": one.number + 1, "rsrc_id": one.number + 1, "max_qty_per_hr": one.capacity,
                      "start_date": first} for one in used],
        "TASK": [task(project, activity, limits.get(activity, []), dates) for activity in project.activities],
        "TASKPRED": [link_cells(number, lag, dates.minutes) for number, lag in enumerate(links, 1)],
        "TASKRSRC": list(assignments(project, dates.minutes)),
    }
    lines = [f"{MARK}8.0\t{first[:10]}\tProject"]
    for name, rows in tables.items():
        if rows:
            lines += ["\t".join(row) for row in ([TABLE, name], [COLUMNS, *rows[0]], *([CELLS, *map(str, row.values())]
                                                                                       for row in rows))]
    return "\r\n".join([*lines, LAST, ""])


def limits_of(project: Parts) -> dict[Activity, list[Lag]]:
    """The lags from the project's start to each activity, but for those that its real start or the data date says."""
    found: dict[Activity, list[Lag]] = {}
    for lag in project.lags:
        if lag.before == project.start and not is_said(project, lag):
            found.setdefault(lag.after.activity, []).append(lag)
    return found


def minute_text(moment: datetime.datetime) -> str:
    return moment.strftime(STAMP)


def in_hours(minutes: float) -> str:
    return f"{minutes / HOUR:.6f}".rstrip("0").rstrip(".")


def calendars(project: Parts, dates: Dates) -> list[Cells]:
    """That of the activities, and those of resources with hours of their own, which have its days off."""
    time, workdays = dates.time, dates.time.workdays or "mon-sun"
    data = calendar_data(workdays, time.shift or "", time.free_days)
    found: list[Cells] = [{"clndr_id": PLAN, "default_flag": "Y", "clndr_name": "Plan", "base_clndr_id": "",
                           "clndr_type": "CA_Base", "clndr_data": data}]
    return found + [{"clndr_id": calendar_id(project, one), "default_flag": "N", "clndr_name": one.name,
                     "base_clndr_id": PLAN,
                     "clndr_type": "CA_Rsrc", "clndr_data": data_of(by_day(own, read_workdays(workdays)), ())}
                    for one, own in project.hours.items()]


def calendar_id(project: Parts, resource: Resource) -> int:
    return PLAN + 1 + resource.number if resource in project.hours else PLAN


def breakdown(project: Parts) -> list[Cells]:
    """The project, and its groups as they stand in each other."""
    found: list[Cells] = [{"wbs_id": TOP, "proj_id": 1, "parent_wbs_id": "", "proj_node_flag": "Y",
                           "wbs_short_name": "PLAN",
                           "wbs_name": project.name}]
    for place, one in enumerate(project.groups):
        around = next((TOP + 1 + other for other in range(place - 1, -1, -1)
                       if {*one.activities} <= {*project.groups[other].activities}), TOP)
        found.append({"wbs_id": TOP + 1 + place, "proj_id": 1, "parent_wbs_id": around, "proj_node_flag": "N",
                      "wbs_short_name": f"G{place + 1}", "wbs_name": one.name})
    return found


def task(project: Parts, activity: Activity, limits: Iterable[Lag], dates: Dates) -> Cells:
    told = [one for lag in limits for one in constraints(lag, dates)]
    if len(told) > MOST_CONSTRAINTS:
        raise BadInput(REFUSED)
    (kind, date), (second_kind, second_date) = [*told, ("", ""), ("", "")][:MOST_CONSTRAINTS]
    depends = any(one in project.hours for one, units in activity.demands.items() if units)
    group = max((place for place, one in enumerate(project.groups) if activity.number in one.activities), default=-1)
    status, begins, ends, left = progress_of(project, activity, dates)
    return {"task_id": activity.number, "proj_id": 1, "wbs_id": TOP + 1 + group, "clndr_id": PLAN,
            "task_code": project.ids.get(activity.number) or f"A{10 * activity.number:05}", "task_name": activity.name,
            "task_type": "TT_Mile" if not activity.duration else DEPENDS if depends else "TT_Task",
            "status_code": status,
            "target_drtn_hr_cnt": in_hours(activity.duration * dates.minutes),
            "remain_drtn_hr_cnt": in_hours(left * dates.minutes),
            "cstr_type": kind, "cstr_date": date, "cstr_type2": second_kind, "cstr_date2": second_date,
            "act_start_date": begins, "act_end_date": ends, "early_start_date": "", "early_end_date": "",
            "target_start_date": "", "target_end_date": ""}


def progress_of(project: Parts, activity: Activity, dates: Dates) -> tuple[str, str, str, int]:
    """How far an activity has come, its real start and end, and how many periods are left of it."""
    begun = project.started.get(activity.number)
    if begun is None:
        return "TK_NotStart", "", "", activity.duration
    begins, end, left = minute_text(dates.begins(begun)), begun + activity.duration, left_of(project, activity)
    if left:
        return "TK_Active", begins, "", left
    return COMPLETE, begins, minute_text(dates.ended(end)) if activity.duration else begins, 0


def constraints(lag: Lag, dates: Dates) -> list[tuple[str, str]]:
    """What a lag from the project's start says of an activity, each with its date."""
    is_end, least, most = lag.after.is_end, lag.at_least, lag.at_most
    told = [("CS_MEOA" if is_end else "CS_MSOA", least), ("CS_MEOB" if is_end else "CS_MSOB", most)]
    if least == most:
        told = [("CS_MEO" if is_end else "CS_MSO", least)]
    found = [(kind, time) for kind, time in told if time is not None]
    if any(time < is_end for _, time in found):
        raise BadInput(REFUSED)
    return [(kind, minute_text(dates.ended(time) if is_end else dates.begins(time))) for kind, time in found]


def link_cells(number: int, lag: Lag, minutes: int) -> Cells:
    if lag.at_most is not None or lag.at_least is None:
        raise BadInput(REFUSED)
    kind = next(kind for kind, ends in ENDS.items() if ends == (lag.before.is_end, lag.after.is_end))
    return {"task_pred_id": number, "task_id": lag.after.activity.number, "pred_task_id": lag.before.activity.number,
            "proj_id": 1, "pred_proj_id": 1, "pred_type": kind, "lag_hr_cnt": in_hours(lag.at_least * minutes)}


def assignments(project: Parts, minutes: int) -> Iterable[Cells]:
    pairs = ((activity, one, units) for activity in project.activities
             for one, units in activity.demands.items() if units)
    for number, (activity, one, units) in enumerate(pairs, 1):
        whole, left = (in_hours(units * length * minutes) for length in (activity.duration, left_of(project, activity)))
        yield {"taskrsrc_id": number, "task_id": activity.number, "proj_id": 1, "rsrc_id": one.number + 1,
               "remain_qty": left, "target_qty": whole, "remain_qty_per_hr": units, "target_qty_per_hr": units}


def replanned(data: bytes, schedule: Schedule) -> bytes:
    """The same file with the starts of a schedule of it in what has not started. All else stays, byte for byte, and is
    not even split into cells."""
    if data.startswith(UTF_16):
        raise BadInput("the file is in UTF-16, in which Primavera writes none")
    document = XerDocument(read_tables(decoded(data)))
    times, project = times_of(document, schedule), cell_of(document.project, "proj_id")
    made, columns, name, is_over = io.BytesIO(), list[str](), "", False
    for line in io.BytesIO(data):
        mark = line[:3].rstrip(b"\t\r\n").decode("latin-1")
        is_over = is_over or mark == LAST
        if mark == TABLE and not is_over:
            name = "".join(texts_of(line.split(b"\t", 2)[1:2]))
        elif name in NEW and mark in (COLUMNS, CELLS) and not is_over:
            cells = line.rstrip(b"\r\n").split(b"\t")
            columns = texts_of(cells) if mark == COLUMNS else columns
            row = {} if mark == COLUMNS else dict(zip(columns[1:], texts_of(cells)[1:]))
            put_cells(cells, columns, new_dates(name, row, times, project) if row else {})
            line = b"\t".join(cells) + line[len(line.rstrip(b"\r\n")) :]
        made.write(line)
    return made.getvalue()


def texts_of(cells: Iterable[bytes]) -> list[str]:
    return [one.decode("latin-1").strip() for one in cells]


def times_of(document: XerDocument, schedule: Schedule) -> dict[str, tuple[str, str]]:
    """When what has not started begins and ends; and the end of the project, by no ID."""
    calendar, durations, starts = Actuals(document).calendar, schedule.question.numbers.durations, schedule.starts
    found, last = dict[str, tuple[str, str]](), ""
    for number, (uid, row) in enumerate(document.activities.items(), 1):
        start, end = starts[number], starts[number] + durations[number]
        last = max(last, minute_text(calendar.span(start, end)[1]))
        begins, ends = calendar.span(start, end, cell_of(row, "task_type") == "TT_Mile")
        if uid not in document.begun:
            found[uid] = minute_text(begins), minute_text(ends)
    return found | {"": ("", last)}


def new_dates(name: str, row: Mapping[str, str], times: Mapping[str, tuple[str, str]], project: str) -> dict[str, str]:
    """What of a row of a table is new."""
    if row.get("proj_id", project) != project:
        return {}
    if name == "PROJECT":
        return {"scd_end_date": times[""][1]}
    if name not in BEGINS or not row.get("task_id") or row["task_id"] not in times:
        return {}
    begins, ends = times[row["task_id"]]
    return dict.fromkeys(BEGINS[name], begins) | dict.fromkeys(FINISHES[name], ends)


def put_cells(cells: list[bytes], columns: list[str], new: Mapping[str, str]) -> None:
    """Into the columns that are there."""
    for name in new.keys() & {*columns[1:]}:
        place = columns.index(name, 1)
        cells += [b""] * (place + 1 - len(cells))
        cells[place] = new[name].encode()
