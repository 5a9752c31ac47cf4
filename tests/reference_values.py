#!/usr/bin/env python3
"""tests/reference_values.py PSPROVE [--drawn N] [--seconds S] [--seed K]

Looks through reference/values.csv. Each row is of a project that reference/families.py lists. Its words write the text
whose SHA-256 it has, with the sizes and strengths that it says, which are measured here anew; a project after
ProGen/max has those that its words ask for. Each record of reference/records has the row's SHA-256 and proves what the
row says, as PSPROVE judges it; records have 3 MB together at most. docs/REFERENCE.md says what the table says.

N rows (10 by default), drawn by the seed K (1) from those whose search took at most S seconds (0.5), are searched anew
by PSPROVE, which judges the record; tests/verify_log.py has to say the same of one below 200,000 bytes. Where the row
is of this PSPROVE, all has to be as it is, the record's digest too. Else no schedule may be shorter than a bound, and a
line says of which psprove the table is. Last, changed values and digests have to be found, and records are submitted to
a copy of the table. The last line counts all."""
import pathlib
import random
import shutil
from collections.abc import Iterator, Mapping, Sequence

import harness
import verify
from harness import TOP, Verdict, Verdicts
from psmax.errors import Fault

from reference import checking, families, page, searches, submitting, values
from reference.values import RECORDS, SUBMITTED, Row

FOR_SCRIPT = 200_000  # bytes; tests/verify_log.py takes some seconds for such a record
Pair = tuple[int, int]


# ---- what a project is like


class Measured:
    """A project by code of its own: its order strength, and for each resource the units above what the neediest
    activity needs, those that are there and those that all need at their earliest starts; none where the lags
    contradict each other."""

    def __init__(self, text: bytes) -> None:
        self.project = verify.Project(text)
        self.given = self.project.arcs[: len(self.project.arcs) - 2 * (self.project.count - 1)]
        self.n = self.project.count - 2
        self.order = self.ordered() / (self.n * (self.n - 1) / 2) if self.n > 1 else 0.0
        starts = self.earliest()
        self.rooms = [self.room(k, starts) for k in range(len(self.project.capacities))] if starts else []

    def ordered(self) -> int:
        """How many pairs of activities paths of minimum lags put in an order."""
        heads: dict[int, set[int]] = {}
        for i, j, lag in self.given:
            if lag >= 0 and j <= self.n:
                heads.setdefault(i, set()).add(j)
        return len({frozenset((i, j)) for i in range(1, self.n + 1) for j in led_to(heads, i) - {i}})

    def earliest(self) -> list[int]:
        starts = [0] * self.project.count
        for _ in range(self.project.count + 1):
            before = [*starts]
            for i, j, lag in self.project.arcs:
                starts[j] = max(starts[j], starts[i] + lag)
            if starts == before:
                return starts if starts[0] == 0 else []
        return []

    def room(self, k: int, starts: Sequence[int]) -> Pair:
        use = [0] * (1 + max(starts) + max(self.project.durations))
        for start, duration, needs in zip(starts, self.project.durations, self.project.demands):
            for time in range(start, start + duration):
                use[time] += needs[k]
        least = max(row[k] for row in self.project.demands)
        return self.project.capacities[k] - least, max(0, max(use) - least)

    def columns(self) -> dict[str, str]:
        there, wanted = (sum(column) for column in zip(*self.rooms)) if self.rooms else (0, 0)
        return {"activities": f"{self.n}", "resources": f"{len(self.project.capacities)}", "arcs": f"{len(self.given)}",
                "order strength": f"{self.order:.3f}", "resource strength": f"{there / wanted:.3f}" if wanted else ""}

    def unlike(self, words: Sequence[str]) -> str | None:
        """What a project after ProGen/max has otherwise than its words say, up to rounding."""
        order, strength = (int(words[words.index(option) + 1]) / 100 for option in ("--order", "--strength"))
        least = order - 1 / 200 - 2 / (self.n * (self.n - 1))
        if self.n != int(words[1]) or not least <= self.order <= order:
            return f"{self.n} activities with an order strength of {self.order}"
        wrong = [(there, wanted) for there, wanted in self.rooms if abs(there - strength * wanted) > 0.5]
        return f"{wrong[0][0]} of {wrong[0][1]} units are no resource strength of {strength}" if wrong else None


def led_to(heads: Mapping[int, set[int]], first: int) -> set[int]:
    """The activities that paths lead to."""
    found, waiting = set[int](), [first]
    while waiting:
        new = heads.get(waiting.pop(), set()) - found
        found |= new
        waiting += new
    return found


# ---- a row


def text_fault(row: Row) -> str | None:
    try:
        text = searches.project_text(row)
    except Fault as fault:
        return str(fault)
    found = Measured(text)
    wrong = [f"{head} {value}, not {row[head]}" for head, value in found.columns().items() if row[head] != value]
    return "; ".join(wrong) or (found.unlike(row["words"].split()) if row["family"] == "progen" else None)


def record_fault(program: pathlib.Path, row: Row) -> str | None:
    """What is wrong with the record that stands in the repository."""
    path = RECORDS / f"{row['name']}.log"
    if not path.exists():
        return None if row["version"] != SUBMITTED and int(row["bytes"]) >= searches.SMALL else "no record"
    record = path.read_bytes()
    if searches.digest(record) != row["record"] or len(record) != int(row["bytes"]):
        return f"the record has {len(record)} bytes and the SHA-256 {searches.digest(record)}"
    said = searches.by_program(program, searches.text_of(row["words"]), record)
    return None if said == values.claim(row) else f"its record: {said}, not {values.claim(row)}"


def search_fault(program: pathlib.Path, row: Row) -> str | None:
    """What is wrong with a row that is searched anew."""
    try:
        text = searches.project_text(row)
        record = checking.record_of(program, row, text)
    except Fault as fault:
        return str(fault)
    said = searches.by_program(program, text, record)
    again = searches.by_script(text, record) if len(record) < FOR_SCRIPT else said
    is_same = searches.digest(record) == row["record"]
    if again != said or not said.startswith("proved") or is_same and said != values.claim(row):
        return f"the checkers say of the record: {said}; {again}"
    return None


# ---- the table


def changed(value: str) -> str:
    """Another number, or another digest."""
    return f"{int(value) + 1}" if len(value) < 64 else f"{'1' if value[0] == '0' else '0'}{value[1:]}"


def edits(program: pathlib.Path, row: Row) -> Iterator[Verdict]:
    """A row that is right, and what is found once it is changed."""
    found = searches.search(program, searches.project_text(row), searches.Recipe(int(row["limit"])))
    version = searches.version_of(program)
    fresh = {**row, **found.columns(), "version": version}
    yield "a row as it is", "; ".join(checking.differences(fresh, found.columns(), version)) or None
    for head in ("makespan", "bound", "conflicts", "record"):
        wrong = checking.differences({**fresh, head: changed(fresh[head])}, found.columns(), version)
        yield f"a changed {head}", None if wrong else "it is not found by a search"
    for head in ("makespan", "record", "bytes"):
        wrong_row = {**row, head: changed(row[head])}
        yield f"a changed {head}", None if record_fault(program, wrong_row) else "it is not found by the record"
    for head in ("project", "activities", "arcs"):
        is_found = bool(text_fault({**row, head: changed(row[head])}))
        yield f"a changed {head}", None if is_found else "it is not found by the text"


def copied(folder: pathlib.Path) -> None:
    """What `reference/submit` stands on, as another repository."""
    for name in ("reference", "bench", "tests", "python", "planner"):
        shutil.copytree(TOP / name, folder / name, ignore=shutil.ignore_patterns("__pycache__"))
    (folder / "docs").mkdir()
    shutil.copy(page.PAGE, folder / "docs")
    shutil.copy(page.CITATION, folder)


def submissions(program: pathlib.Path, rows: Mapping[str, Row], row: Row) -> Iterator[Verdict]:
    """Records that are submitted for a row: of which less is known in a copy of the table."""
    weak: Row = {**row, "status": "feasible", "bound": f"{int(row['bound']) - 1}", "record": changed(row["record"])}
    with harness.new_folder() as folder:
        copied(folder)
        table, record = folder / "reference" / values.VALUES.name, folder / f"{row['name']}.log"
        values.write({**rows, row["name"]: weak}.values(), table)
        whole = (RECORDS / record.name).read_bytes()
        for what, name, data, status in (
            ("a record that is cut off", record, whole[:-1], 1), ("a record of no row", folder / "none.log", whole, 1),
            ("a record that proves more", record, whole, 0), ("a record that proves no more", record, whole, 1),
        ):
            before = table.read_bytes()
            name.write_bytes(data)
            ended = harness.ended([folder / "reference" / "submit", name, "--psprove", program])
            is_right = ended[0] == status and (table.read_bytes() == before) == (status > 0)
            yield f"submitted: {what}", None if is_right else f"{ended}"
        same = {**row, "version": SUBMITTED, "limit": "", "conflicts": "", "seconds": ""}
        there = values.read(table)[row["name"]]
        yield "submitted: the row", None if there == same else f"{there}"
        values.write({**rows, row["name"]: weak}.values(), table)
        yield from recipes(program, row, folder)


def recipes(program: pathlib.Path, row: Row, folder: pathlib.Path) -> Iterator[Verdict]:
    """Recipes that are submitted to the copy in a folder; then the row of one is checked."""
    file, table = folder / f"{row['name']}.json", folder / "reference" / values.VALUES.name
    for text, status in (
        ("{", 1), ("[7]", 1), ('{"seed": 7}', 1), ('{"conflicts": "9"}', 1), ('{"conflicts": 9, "jobs": 2}', 1),
        ('{"conflicts": 80000, "start": "0 1\\n"}', 1), ('{"conflicts": 80000, "seed": 7}', 0),
        ('{"conflicts": 80000}', 1),
    ):
        file.write_text(text)
        before = table.read_bytes()
        ended = harness.ended([folder / "reference" / "submit", file, "--psprove", program])
        is_right = ended[0] == status and (table.read_bytes() == before) == (status > 0)
        yield f"submitted: the recipe {text}", None if is_right and b"Traceback" not in ended[2] else f"{ended}"
    there = values.read(table)[row["name"]]
    plain = searches.search(program, searches.project_text(row), searches.Recipe(80_000)).columns()
    is_right = values.claim(there) == values.claim(row) and there["version"] == searches.version_of(program)
    yield "submitted: the row of a recipe", None if is_right and there["record"] != plain["record"] else f"{there}"
    checkers = "psprove verify", "tests/verify_log.py"
    for count in 1, 2:
        words = [folder / "reference" / "check", row["name"], "--psprove", program, "--second"]
        told = harness.ended(words[:count + 3])[1].decode()
        said = [f"{by}: {values.claim(row)}" for by in checkers[:count]]
        is_right = told.splitlines()[2:] == said and "the record that the table has" in told
        yield f"checked by a recipe, by {said}", None if is_right else told


def listed(rows: Mapping[str, Row]) -> str | None:
    """What is listed otherwise than it stands in the table."""
    wanted = [(one.name, one.family, one.words) for one in families.listed()]
    there = [(row["name"], row["family"], row["words"]) for row in rows.values()]
    return None if there == wanted else f"not the same: {sorted({*wanted} ^ {*there})[:4]}: make reference-values"


def of_page() -> Iterator[Verdict]:
    for path, content in page.written().items():
        is_same = pathlib.Path(path).exists() and pathlib.Path(path).read_text(encoding="utf-8") == content
        name = str(pathlib.Path(path).relative_to(TOP))
        yield name, None if is_same else "it does not say what the table says: make reference-page"


def verdicts(words: Sequence[str]) -> Verdicts:
    parser = harness.Words(__doc__, "psprove")
    parser.add_argument("--drawn", type=int, default=10)
    parser.add_argument("--seconds", type=float, default=0.5)
    parser.add_argument("--seed", type=int, default=1)
    o = parser.parse_args(words)
    program, rows = pathlib.Path(o.psprove), values.read()
    yield "reference/families.py", listed(rows)
    yield from of_page()
    kept = {path.stem: path.stat().st_size for path in RECORDS.glob("*.log")}
    yield "reference/records, bytes", None if sum(kept.values()) <= submitting.MOST else f"{sum(kept.values())}"
    yield "reference/records, rows", None if kept.keys() <= rows.keys() else f"{sorted(kept.keys() - rows.keys())}"
    yield from zip(rows, harness.side_by_side(text_fault, rows.values()))
    yield from zip(rows, harness.side_by_side(lambda row: record_fault(program, row), rows.values()))
    quick = [row for row in rows.values() if float(row["seconds"] or 0) <= o.seconds]
    drawn = random.Random(o.seed).sample(quick, min(o.drawn, len(quick)))
    names = (f"{row['name']}, anew" for row in drawn)
    yield from zip(names, harness.side_by_side(lambda row: search_fault(program, row), drawn))
    small = next(row for row in quick if row["status"] == "optimal" and int(row["conflicts"] or 0) > 50
                 and int(row["bytes"]) < searches.SMALL)
    yield from edits(program, small)
    yield from submissions(program, rows, small)
    other = sorted({row["version"] for row in rows.values()} - {searches.version_of(program), SUBMITTED})
    if other:
        print(f"the table is of psprove {', '.join(other)}, and this one is {searches.version_of(program)}: the "
              "digests of records were not compared; make reference-values computes the table anew")


if __name__ == "__main__":
    harness.run(verdicts)
