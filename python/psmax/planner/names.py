"""The page beside a project: a table like those of examples/*.md, which names its activities and resources, and perhaps
a second one, which says from when on and on which days there is work."""
import re
from dataclasses import dataclass, field, replace

from ..files import must_be_short, read_bytes
from ..letters import composed
from ..project import Numbers
from .settings import NAMES as SETTINGS

CELL = re.compile(r"(?<!\\)\|")
MADE = "Made by `plan read` from `{}`; change that, and not this page."
DIGEST = "The SHA-256 of that table is {}."


@dataclass
class Names:
    activities: dict[int, str] = field(default_factory=dict)
    resources: list[str] = field(default_factory=list)
    unit: str = ""  # what a period is, as the column of durations is called
    settings: dict[str, str] = field(default_factory=dict)  # rows of the second table
    source: str = ""  # the table that the project was made from
    digest: str = ""  # of that, by SHA-256
    ids: dict[int, str] = field(default_factory=dict)  # by which a table with a column for them knows its activities

    def label(self, number: int) -> str:
        """What stands before the name of an activity: its ID, or else its number."""
        return self.ids.get(number) or f"{number}"

    def activity(self, number: int) -> str:
        """The same with the name, where there is one."""
        name = self.activities.get(number, "")
        return f"{self.label(number)} ({name})" if name else self.label(number)

    def resource(self, number: int) -> str:
        return self.resources[number] if number < len(self.resources) else f"resource {number}"

    def with_dummies(self, end: int) -> "Names":
        """The same with names for the start and the end."""
        return replace(self, activities=self.activities | {0: "the start", end: "the end"})


def names_in(path: str) -> Names:
    """What a page in a file says."""
    data = read_bytes(path)
    must_be_short(path, data)
    return read_page(data)


def read_page(data: bytes) -> Names:
    text = composed(data.decode("utf-8", "replace"))
    found = Names()
    rows = [[cell_text(cell) for cell in CELL.split(line)[1:-1]] for line in text.splitlines() if line.startswith("|")]
    for place, row in enumerate(rows):
        if place > 0 and len(row) >= 3 and all(re.fullmatch(":?-+:?", cell) for cell in row) and not found.resources:
            found.resources = rows[place - 1][3:]
            found.unit = rows[place - 1][2].lower()
        elif len(row) >= 2 and re.fullmatch(r"\d{1,9}(, *\d{1,9})*", row[0]):
            found.activities |= {int(number): row[1] for number in row[0].split(",")}
        elif len(row) == 2 and row[0] in SETTINGS:
            found.settings[row[0]] = row[1]
    made = re.search(re.escape(MADE).replace(r"\{\}", "(.+)"), text)
    found.source = made[1] if made else ""
    digest = re.search(DIGEST.format("([0-9a-f]{64})"), text)
    found.digest = digest[1] if digest else ""
    return found


def cell_text(cell: str) -> str:
    """What a cell of a page says, with a blank for each sign that can't be printed."""
    return "".join(sign if sign.isprintable() else " " for sign in cell.replace("\\|", "|")).strip()


def names_page(title: str, project: Numbers, names: Names) -> str:
    """The page of a project that was read from a table."""
    lines = [f"# {title}", "", f"The numbers, names and demands of `{title}.sch`. {MADE.format(names.source)}",
             DIGEST.format(names.digest), ""]
    lines.append(table_row(["", "Activity", names.unit.capitalize(), *names.resources]))
    lines.append("|" + "---|" * (3 + len(names.resources)))
    for activity in range(1, project.end):
        demands = [f"{demand}" if demand else "" for demand in project.demands[activity]]
        cells = [f"{activity}", names.activities[activity], f"{project.durations[activity]}", *demands]
        lines.append(table_row(cells))
    if names.resources:
        units = (f"{units} {name}" for units, name in zip(project.capacities, names.resources))
        lines += ["", f"Resources: {', '.join(units)}."]
    if names.settings:
        lines += ["", "| Calendar | |", "|---|---|", *(table_row([*pair]) for pair in names.settings.items())]
    return "\n".join(lines) + "\n"


def table_row(cells: list[str]) -> str:
    return "|" + "|".join(" " + cell.replace("|", "\\|") + " " if cell else " " for cell in cells) + "|"
