"""A project in JSON, with names, due dates, absences and its work time. project.schema.json describes it."""
import datetime
import json
from collections.abc import Mapping

from ..crew_hours import Hours, is_within, read_hours
from ..errors import BadInput
from ..letters import short
from ..model import Activity, Lag, Parts, Point, Resource
from ..work_time import WorkTime

SUFFIX = ".json"
KIND = "psmax-project 1"  # what the key `format` says
ENDS = ("start", "end")
PERIODS, CALENDAR_DAYS = "periods", "calendar days"  # which a lag counts
# Of each kind of object those that it must have, and those that it may have.
KEYS: dict[str, tuple[set[str], set[str]]] = {
    "the project": ({"format", "activities"}, {"name", "resources", "lags", "absences", "work time", "status"}),
    "a resource": ({"name", "capacity"}, {"hours"}),
    "an activity": ({"name", "duration"}, {"demands", "due"}),
    "a lag": ({"from", "to"}, {"at least", "at most", "unit"}),
    "an absence": ({"resource", "from"}, {"to", "units"}),
    "the work time": ({"first"}, {"period", "workdays", "holidays", "shift", "zone"}),
}

Object = Mapping[str, object]


def is_like(text: str) -> bool:
    return text.lstrip().startswith("{")


def read(text: str, project: Parts) -> None:
    fill_from_object(project, parse_json(text))


def fill_from_object(project: Parts, value: object) -> None:
    """Reads the object of a project into an empty one."""
    told = check_keys(value, "the project")
    if told["format"] != KIND:
        raise BadInput(f"the format is not '{KIND}': {short(repr(told['format']))}")
    project.name = as_text(told.get("name", ""), "the name of the project")
    if "work time" in told:
        project.calendar = read_work_time(check_keys(told["work time"], "the work time"))
    resources: dict[str, Resource] = {}
    for one in objects(told, "resources", "a resource"):
        made = project.resource(as_text(one["name"], "the name of a resource"), integer(one["capacity"], "a capacity"))
        resources[made.name] = made
        if "hours" in one:
            project.hours[made] = parse_hours(one["hours"], made.name)
    for one in objects(told, "activities", "an activity"):
        read_activity(one, project, resources)
    for one in objects(told, "lags", "a lag"):
        read_lag(one, project)
    for one in objects(told, "absences", "an absence"):
        until, units = (integer(one[key], f"an absence's `{key}`") if key in one else None for key in ("to", "units"))
        project.absence(find_resource(one["resource"], resources), integer(one["from"], "an absence's `from`"), until,
                        units)
    project.status = integer(told["status"], "'status'") if "status" in told else None
    must_have_hours(project)


def parse_json(text: str) -> object:
    try:
        return json.loads(text, object_pairs_hook=without_repetition)
    except json.JSONDecodeError as fault:
        raise BadInput(f"line {fault.lineno}, column {fault.colno}: no JSON: {fault.msg}") from None
    except RecursionError:
        raise BadInput("the JSON is nested too deeply") from None
    except BadInput:
        raise
    except ValueError as fault:
        raise BadInput(f"no JSON: {short(str(fault))}") from None


def without_repetition(pairs: list[tuple[str, object]]) -> dict[str, object]:
    found = dict(pairs)
    if len(found) < len(pairs):
        twice = next(key for place, (key, _) in enumerate(pairs) if key in dict(pairs[:place]))
        raise BadInput(f"the key '{short(twice)}' stands twice in one object")
    return found


def check_keys(value: object, what: str) -> Object:
    """An object with the keys that such a thing has."""
    if not isinstance(value, dict):
        raise BadInput(f"{what} is no object: {short(repr(value))}")
    must, may = KEYS[what]
    for key in sorted(must - value.keys()):
        raise BadInput(f"{what} has no key '{key}': {short(json.dumps(value))}")
    for key in sorted(value.keys() - must - may):
        raise BadInput(f"{what} has a key '{short(key)}', which is none of {', '.join(sorted(must | may))}")
    return value


def objects(told: Object, key: str, what: str) -> list[Object]:
    values = told.get(key, [])
    if not isinstance(values, list):
        raise BadInput(f"'{key}' is no list")
    return [check_keys(value, what) for value in values]


def as_text(value: object, what: str) -> str:
    if not isinstance(value, str):
        raise BadInput(f"{what} is no text: {short(repr(value))}")
    return value


def integer(value: object, what: str) -> int:
    if not isinstance(value, int) or isinstance(value, bool):
        raise BadInput(f"{what} is no whole number: {short(repr(value))}")
    return value


def read_activity(one: Object, project: Parts, resources: Mapping[str, Resource]) -> None:
    needs = one.get("demands", {})
    if not isinstance(needs, dict):
        raise BadInput("'demands' is no object")
    name = as_text(one["name"], "the name of an activity")
    project.activity(name, integer(one["duration"], f"the duration of {short(name)}"),
                     {find_resource(key, resources): integer(units, f"the demand of {short(name)}")
                      for key, units in needs.items()},
                     integer(one["due"], f"when {short(name)} is due") if "due" in one else None)


def read_lag(one: Object, project: Parts) -> None:
    unit = one.get("unit", PERIODS)
    if unit not in (PERIODS, CALENDAR_DAYS):
        raise BadInput(f"a lag's `unit` is neither '{PERIODS}' nor '{CALENDAR_DAYS}': {short(repr(unit))}")
    limits = [integer(one[key], f"a lag's `{key}`") if key in one else None for key in ("at least", "at most")]
    low, high = (f"{limit} cd" if limit is not None and unit == CALENDAR_DAYS else limit for limit in limits)
    project.lag(point(one["from"], project), point(one["to"], project), at_least=low, at_most=high)


def find_resource(name: object, resources: Mapping[str, Resource]) -> Resource:
    if not isinstance(name, str) or name not in resources:
        raise BadInput(f"no resource {short(repr(name))}")
    return resources[name]


def parse_hours(value: object, name: str) -> Hours:
    text = as_text(value, f"the hours of {short(name)}")
    try:
        return read_hours(text)
    except ValueError as fault:
        raise BadInput(f"the hours of {short(name)}: {fault}") from None


def must_have_hours(project: Parts) -> None:
    """A project that has those of its resources."""
    if project.hours and project.calendar is None:
        raise BadInput("hours of a resource need a work time")
    for one, own in project.hours.items():
        if project.calendar is not None and not is_within(own, project.calendar.calendar()):
            raise BadInput(f"the hours of {short(one.name)} go beyond the work time")
    try:
        project.crews_off()
    except ValueError as fault:
        raise BadInput(f"hours of a resource: {fault}") from None


def point(value: object, project: Parts) -> Point:
    """The start or the end of an activity, or of the project where there is no name."""
    if not isinstance(value, list) or len(value) != 2 or value[1] not in ENDS:
        raise BadInput(f"{short(repr(value))} is not such as [\"dig\", \"end\"]")
    name, end = value
    if name is None:
        return project.end if end == "end" else project.start
    activity = project[as_text(name, "the name of an activity")]
    return activity.end if end == "end" else activity.start


def read_work_time(told: Object) -> WorkTime:
    texts = {key: as_text(text, f"'{key}'") for key, text in told.items() if key != "holidays"}
    days = told.get("holidays", [])
    if not isinstance(days, list):
        raise BadInput("'holidays' is no list")
    return WorkTime(**texts, holidays=tuple(map(date, days)))


def date(value: object) -> datetime.date:
    try:
        return datetime.date.fromisoformat(value if isinstance(value, str) else "")
    except ValueError:
        raise BadInput(f"a holiday is no date such as 2026-03-02: {short(repr(value))}") from None


def write(project: Parts) -> str:
    """An object for each line, in the order of the project."""
    told = to_dict(project)
    return "{" + ",".join(f"\n{json.dumps(key)}: {in_lines(value)}" for key, value in told.items()) + "\n}\n"


def to_dict(project: Parts) -> dict[str, object]:
    """The object of a project."""
    told: dict[str, object] = {"format": KIND} | ({"name": project.name} if project.name else {})
    if project.calendar is not None:
        time = {key: value for key, value in vars(project.calendar).items() if value}
        told["work time"] = time | ({"holidays": [f"{day}" for day in project.calendar.free_days]}
                                    if project.calendar.holidays else {})
    told |= {"status": project.status} if project.status and project.hours else {}
    told["resources"] = [{"name": one.name, "capacity": one.capacity}
                         | ({"hours": project.hours[one].text} if one in project.hours else {})
                         for one in project.resources]
    told["activities"] = [activity_object(one) for one in project.activities]
    told["lags"] = [lag_object(one, project) for one in project.lags]
    if project.absences:
        told["absences"] = [{"resource": one.resource.name, "from": one.begins}
                            | ({} if one.away is None else {"units": one.away})
                            | ({} if one.ends is None else {"to": one.ends}) for one in project.absences]
    return told


def in_lines(value: object) -> str:
    if not isinstance(value, list):
        return json.dumps(value, ensure_ascii=False)
    return "[" + ",".join(f"\n  {json.dumps(one, ensure_ascii=False)}" for one in value) + "]"


def activity_object(one: Activity) -> dict[str, object]:
    needs = {resource.name: units for resource, units in one.demands.items() if units}
    return ({"name": one.name, "duration": one.duration} | ({"demands": needs} if needs else {})
            | ({} if one.due is None else {"due": one.due}))


def lag_object(one: Lag, project: Parts) -> dict[str, object]:
    limits = {"at least": one.at_least, "at most": one.at_most}
    return ({"from": point_list(one.before, project), "to": point_list(one.after, project)}
            | {key: limit for key, limit in limits.items() if limit is not None}
            | ({"unit": CALENDAR_DAYS} if one.is_in_calendar_days else {}))


def point_list(one: Point, project: Parts) -> list[str | None]:
    if one.activity is project.end.activity:
        return [None, "end"]
    return [one.activity.name or None, ENDS[one.is_end]]
