"""A project of the table: its text, its search by psprove, and what both checkers say of the record."""
import functools
import hashlib
import json
import pathlib
import shlex
import subprocess
import tempfile
from dataclasses import dataclass

import harness
import judges
import measuring
import verify
from psmax.errors import BadInput, Failed
from psmax.planner.published import Published, contradictions
from psmax.project_text import parse

from . import TOP, measures
from .families import Listed
from .values import RECIPES, Row, claim

PROGRAM = TOP / "release" / "psprove"
EVER = 1_000_000_000  # seconds: conflicts end a search, so that it is the same on any machine
TRIM_SECONDS = 3_600.0
SMALL = 20_000  # bytes; below that a record stands in the repository


def digest(data: bytes) -> str:
    return hashlib.sha256(data).hexdigest()


def version_of(program: pathlib.Path) -> str:
    """The program's own version, and the beginning of the SHA-256 of its bytes. Two programs alike search alike."""
    try:
        told = subprocess.run([program, "--version"], capture_output=True, text=True, check=True).stdout.split()
        return f"{told[1]} {digest(program.read_bytes())[:12]}"
    except (OSError, subprocess.CalledProcessError, IndexError) as fault:
        raise Failed(f"{program} is no psprove that can be run: {fault}") from None


@functools.cache
def text_of(words: str) -> bytes:
    """What a command of the repository's top folder writes."""
    ran = subprocess.run(shlex.split(words), cwd=TOP, capture_output=True)
    if ran.returncode or not ran.stdout:
        raise Failed(f"{words}: exit status {ran.returncode}: {ran.stderr.decode(errors='replace').strip()}")
    return ran.stdout


def project_text(row: Row) -> bytes:
    """The text that a row's words write; it has the row's SHA-256."""
    text = text_of(row["words"])
    if digest(text) != row["project"]:
        raise BadInput(f"{row['name']}: `{row['words']}` writes a text with the SHA-256 {digest(text)}, not "
                       f"{row['project']}")
    return text


@dataclass(frozen=True)
class Recipe:
    """What a search with one job is asked for. It ends by its conflicts, so it is the same on any machine."""

    conflicts: int
    seed: int | None = None
    start: str = ""  # a text of starts

    def words(self, folder: pathlib.Path) -> list[object]:
        """Of the command; the starts are written into the folder."""
        told: list[object] = ["--conflicts", self.conflicts, "--seconds", EVER]
        if self.seed is not None:
            told += ["--seed", self.seed]
        if self.start:
            (folder / "start").write_text(self.start)
            told += ["--start", folder / "start"]
        return told


def read_recipe(path: pathlib.Path) -> Recipe:
    """An object of JSON: the conflicts, and perhaps a seed and a text of starts."""
    try:
        told = json.loads(path.read_bytes())
        is_right = {"conflicts"} <= told.keys() <= {"conflicts", "seed", "start"}
        made = Recipe(**told) if is_right else None
    except (OSError, ValueError, AttributeError) as fault:
        raise BadInput(f"{path}: {fault}") from None
    if made is None or type(made.conflicts) is not int or type(made.seed) not in (int, type(None)):
        raise BadInput(f"{path}: a recipe has conflicts, and perhaps a seed and a start, which is a text of starts")
    return Recipe(made.conflicts, made.seed, f"{made.start}")


def recipe_of(name: str, limit: int | str) -> Recipe:
    """The one that was submitted for a project, or else a search within so many conflicts."""
    path = RECIPES / f"{name}.json"
    return read_recipe(path) if path.exists() else Recipe(int(limit))


@dataclass(frozen=True)
class Search:
    """What came out of a search within so many conflicts."""

    answer: dict[str, object]
    record: bytes
    seconds: float  # of a processor

    def columns(self) -> dict[str, str]:
        known = {name: "" if self.answer[name] is None else f"{self.answer[name]}"
                 for name in ("status", "makespan", "bound", "conflicts")}
        return known | {"seconds": f"{self.seconds:.2f}", "bytes": f"{len(self.record)}", "record": digest(self.record)}


def search(program: pathlib.Path, text: bytes, recipe: Recipe) -> Search:
    """What a search finds. Its record is trimmed."""
    with tempfile.TemporaryDirectory() as folder:
        project, record = (pathlib.Path(folder) / name for name in ("project", "record"))
        project.write_bytes(text)
        words = [program, "solve", "--json", "--record", record, *recipe.words(pathlib.Path(folder))]
        ran = measuring.run(words, text)
        if ran.status not in (0, 3) or not record.exists():
            raise Failed(f"{program} solve: exit status {ran.status}")
        status, trimmed, _ = harness.ended([program, "trim", "--project", project], record.read_bytes(), TRIM_SECONDS)
        if status != 0:
            raise Failed(f"{program} trim: exit status {status}")
        return Search(json.loads(ran.out), trimmed, ran.processor)


def told(ended: tuple[int | None, bytes, bytes]) -> str:
    """What a checker prints, or its fault."""
    return (ended[1] or ended[2]).decode(errors="replace").strip()


def by_program(program: pathlib.Path, text: bytes, record: bytes) -> str:
    with tempfile.NamedTemporaryFile(suffix=".sch") as project:
        project.write(text)
        project.flush()
        return told(judges.by_program(str(program), pathlib.Path(project.name), record))


def by_script(text: bytes, record: bytes) -> str:
    return told(judges.by_script_of_logs(verify.Project(text), record))


def must_prove(row: Row, said: str, by: str) -> None:
    if said != claim(row):
        raise BadInput(f"{row['name']}: {by} says of the record: {said}, not {claim(row)}")


def computed(program: pathlib.Path, version: str, listed: Listed, published: dict[str, Published],
             source: str) -> tuple[Row, bytes | None]:
    """The row of a project, whose record `psprove verify` has accepted; the record too if it is small, which the other
    checker has accepted as well."""
    text, recipe = text_of(listed.words), recipe_of(listed.name, listed.limit)
    found = search(program, text, recipe)
    known = published.get(listed.name)
    row = {
        "name": listed.name, "family": listed.family, "words": listed.words, "limit": f"{recipe.conflicts}",
        "published": str(known.upper) if known else "", "source": source, "project": digest(text),
        "version": version, **measures.measured(parse(text)), **found.columns(),
    }
    wrong = contradictions({**row, "project": listed.name}, published)
    if wrong:
        raise BadInput("; ".join(wrong))
    return row, accepted(program, row, text, found.record)


def accepted(program: pathlib.Path, row: Row, text: bytes, record: bytes) -> bytes | None:
    """The record if it is small, once `psprove verify` has accepted it, and a small one the other checker as well."""
    must_prove(row, by_program(program, text, record), "psprove verify")
    if len(record) >= SMALL:
        return None
    must_prove(row, by_script(text, record), "verify_log.py")
    return record
