"""The tasks of an MSPDI file in their outline: which have work of their own, and which are summaries of those below."""
from collections.abc import Iterable
from dataclasses import dataclass, field
from functools import cached_property
from xml.etree.ElementTree import Element, SubElement

from ..errors import BadInput
from ..letters import printable, short
from ..model import Activity, Group, Parts
from ..project import MOST_ACTIVITIES
from .tool_file import unique_names
from .xml_tree import text_of

WHOLE = "0"  # the UID of the task that stands for the whole project
# Fields of tasks that plan adds, by their names: the numbers and the names by which Microsoft Project knows them.
FIELDS = {"maximum lags": ("188744016", "Text30"), "ID": ("188744015", "Text29")}


@dataclass(frozen=True)
class OutlineRow:
    """A row of a project that is written, with its place from 1 on and its number, such as 2.1."""

    one: Activity | Group
    place: int
    number: str


def outline_of(project: Parts) -> list[OutlineRow]:
    """The activities, each below its groups."""
    found, open_ones, numbers = list[OutlineRow](), list[Group](), [0]
    groups = [one for one in project.groups if one.activities]

    def put(one: Activity | Group) -> None:
        numbers[-1] += 1
        found.append(OutlineRow(one, len(found) + 1, ".".join(map(str, numbers))))

    for activity in project.activities:
        while open_ones and activity.number not in open_ones[-1].activities:
            open_ones.pop()
            numbers.pop()
        while groups and activity.number in groups[0].activities:
            open_ones.append(groups.pop(0))
            put(open_ones[-1])
            numbers.append(0)
        put(activity)
    return found


def add_fields(project: Element, names: Iterable[str]) -> None:
    """That the file has these fields."""
    fields = SubElement(project, "ExtendedAttributes")
    for alias in names:
        one, (number, name) = SubElement(fields, "ExtendedAttribute"), FIELDS[alias]
        for tag, text in (("FieldID", number), ("FieldName", name), ("Alias", alias)):
            SubElement(one, tag).text = text


def add_field(task: Element, name: str, text: str) -> None:
    one = SubElement(task, "ExtendedAttribute")
    SubElement(one, "FieldID").text, SubElement(one, "Value").text = FIELDS[name][0], text


def texts_of_field(project: Element, task: Element, name: str) -> list[str]:
    """What a task has in a field of this name, whichever number it has in the file."""
    fields = {text_of(one, "FieldID") for one in project.findall("ExtendedAttributes/ExtendedAttribute")
              if text_of(one, "Alias") == name}
    return [text_of(one, "Value") or "" for one in task.findall("ExtendedAttribute")
            if text_of(one, "FieldID") in fields]


@dataclass
class Outline:
    """By their UIDs, in the order of the file. A task that is not active or empty is in none of them."""

    root: Element
    passed_over: set[str] = field(default_factory=set)  # tasks that are not active, or empty rows

    @cached_property
    def tasks(self) -> dict[str, Element]:
        """What becomes an activity."""
        return {uid: task for uid, task in self.all.items() if not is_summary_task(task, uid)}

    @cached_property
    def all(self) -> dict[str, Element]:
        found: dict[str, Element] = {}
        for task in self.root.findall("Tasks/Task"):
            uid = text_of(task, "UID") or ""
            if uid in found or uid in self.passed_over:
                raise BadInput(f"a second task with the UID {short(uid)}")
            if is_set(task, "IsNull") or text_of(task, "Active") in ("0", "false"):
                self.passed_over.add(uid)
            else:
                found[uid] = task
        count = sum(not is_summary_task(task, uid) for uid, task in found.items())
        if count > MOST_ACTIVITIES:
            raise BadInput(f"{count:,} tasks, and a project has at most {MOST_ACTIVITIES:,}")
        return found

    @cached_property
    def below(self) -> dict[str, list[str]]:
        """The tasks with work below each summary, up to the next row that stands as high."""
        found: dict[str, list[str]] = {}
        open_ones: list[str] = []
        for uid, task in self.all.items():
            while open_ones and task_level(self.all[open_ones[-1]]) >= task_level(task):
                open_ones.pop()
            if is_summary_task(task, uid):
                found[uid] = []
                open_ones.append(uid)
            else:
                for one in open_ones:
                    found[one].append(uid)
        return found

    def ids(self) -> dict[int, str]:
        """Those of a field, by the numbers that the tasks get, where each task has one of its own."""
        found = [printable(" ".join(texts_of_field(self.root, task, "ID"))) for task in self.tasks.values()]
        return dict(enumerate(found, 1)) if all(found) and len({*found}) == len(found) else {}

    def groups(self) -> list[Group]:
        """The summaries with the tasks below them, by the numbers that these get."""
        numbers = {uid: number for number, uid in enumerate(self.tasks, 1)}
        found = {uid: range(numbers[own[0]], numbers[own[-1]] + 1) for uid, own in self.below.items()
                 if own and uid != WHOLE}
        return [Group(printable(text_of(self.all[uid], "Name") or f"task {uid}"), own) for uid, own in found.items()]

    @cached_property
    def names(self) -> dict[str, str]:
        names = {uid: printable(text_of(task, "Name") or f"task {uid}") for uid, task in self.tasks.items()}
        return unique_names(names, printable)

    def called(self, uid: str) -> str:
        """A task as faults call it."""
        if uid in self.names:
            return f"task '{short(self.names[uid])}'"
        name = text_of(self.all[uid], "Name") if uid in self.all else None
        return f"summary '{short(name)}'" if name else f"task {short(uid) or 'without a UID'}"


def is_summary_task(task: Element, uid: str) -> bool:
    return is_set(task, "Summary") or uid == WHOLE


def task_level(task: Element) -> int:
    """How deep a task stands: by its outline level, or else by the parts of its number."""
    text, number = text_of(task, "OutlineLevel"), text_of(task, "OutlineNumber") or text_of(task, "WBS")
    if text is not None and text.isdecimal() and len(text) < 6:
        return int(text)
    if text_of(task, "UID") == WHOLE:
        return 0
    return number.count(".") + 1 if number else 1


def is_set(task: Element, name: str) -> bool:
    return text_of(task, name) in ("1", "true")
