"""The wrong bodies of tests/wrong: what each changes, and what refuses it."""
import contextlib
import hashlib
import pathlib
import shutil
from collections.abc import Iterator
from typing import NamedTuple

import workspace
from harness import TOP

BODIES = TOP / "tests" / "wrong"


class Change(NamedTuple):
    file: str  # from the top of the repository
    old: str
    new: str


class Body(NamedTuple):
    crate: str
    name: str
    by: str  # what refuses it: proof, test or script; nothing, if it is right
    words: list[str]  # a function; a crate and its test; a script and its words
    program: str  # the crate of the program that a script is run on
    changes: list[Change]

    def __str__(self) -> str:
        return f"{self.crate}/{self.name}"


def read(path: pathlib.Path) -> Body:
    changes: list[Change] = []
    by, words, program, file, old = "", [""], "psmax", "", ""
    for line in path.read_text().splitlines():
        key, _, value = line.partition(": ")
        if key in ("proof", "test", "script", "nothing"):
            by, words = key, value.split()
        elif key == "program":
            program = value
        elif key == "file":
            file = value
        elif key == "old":
            old = value
        elif key == "new":
            changes.append(Change(file, old, value))
    if not changes or by in ("proof", "test", "script") and not words or by == "":
        raise ValueError(f"{path}: no change, or nothing that refuses it")
    return Body(path.parent.name, path.stem, by, words, program, changes)


def bodies(crate: str, word: str) -> list[Body]:
    """The wrong bodies of a crate, or of all, whose names have a word."""
    paths = sorted(BODIES.glob(f"{crate or '*'}/*.edit"))
    return [read(path) for path in paths if word in path.stem]


def sources(crate: str) -> Iterator[pathlib.Path]:
    for part in ("src", "specs", "proofs"):
        yield from sorted(path for path in (TOP / "crates" / crate / part).rglob("*") if path.is_file())


def digest(body: Body) -> str:
    """One checksum of a body, of what refuses it, and of the crates that are read for that."""
    top = {"proof": body.crate, "test": body.words[0], "script": body.program}.get(body.by, body.crate)
    read = hashlib.sha256(repr(body).encode())
    for crate in sorted({top, *workspace.below(top)}):
        for path in sources(crate):
            read.update(f"{path.relative_to(TOP)}\n".encode() + path.read_bytes())
    if body.by == "script":
        read.update((TOP / body.words[0]).read_bytes())
    return read.hexdigest()


def copy_crates(folder: pathlib.Path) -> pathlib.Path:
    """A copy of the crates without must-fail edits, in a new folder."""
    shutil.copytree(TOP / "crates", folder / "crates", ignore=shutil.ignore_patterns("out", "must-fail"))
    for name in ("crates.txt", "HANDLES"):
        shutil.copy(TOP / name, folder)
    return folder


def write_edit(copy: pathlib.Path, body: Body) -> None:
    """Makes a body a must-fail edit of its crate in a copy."""
    folder = copy / "crates" / body.crate / "must-fail"
    folder.mkdir(exist_ok=True)
    own = f"crates/{body.crate}/"
    lines = (f"file: {file.removeprefix(own)}\nold: {old}\nnew: {new}\n" for file, old, new in body.changes)
    (folder / f"{body.name}.edit").write_text("".join(lines))


@contextlib.contextmanager
def changed(copy: pathlib.Path, body: Body) -> Iterator[None]:
    """A copy with the changes of a body, and then as it was."""
    texts = {copy / change.file: (copy / change.file).read_text() for change in body.changes}
    try:
        for file, old, new in body.changes:
            text = (copy / file).read_text()
            if text.count(old) != 1:
                raise ValueError(f"{body}: {file} has {old!r} {text.count(old)} times")
            (copy / file).write_text(text.replace(old, new))
        yield
    finally:
        for path, text in texts.items():
            path.write_text(text)
