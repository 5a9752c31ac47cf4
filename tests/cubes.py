#!/usr/bin/env python3
"""tests/cubes.py PSMAX PSPROVE [--projects N]

Has psprove search small projects (300 by default) in cubes. The first search meets few conflicts, and is split; a part
that stays open is split again. Each search is given the lemmas of those before it. Then the logs are joined, which has
to give psmax's verdict, starts that pass `psmax check`, and a record that `psprove verify` and tests/verify_log.py
accept. Of each fifth project a log is left out or cut, of another fifth two logs are exchanged: then the join names
what is wrong, and its bound is true. A join writes its record while it reads the logs. The last line counts the
projects and the texts."""
import contextlib
import functools
import json
import os
import pathlib
import subprocess
import time
from collections.abc import Iterator, Sequence
from typing import Any, NamedTuple

import harness
import projects
import searches
import verify_log
from harness import Verdicts

# How many conflicts the first searches may meet; those after them are not limited.
LIMITS = [0, 0, 0, 0, 1, 1, 1, 1]
MOST = 1_000_000

SEVERAL = 8  # the seed of a project with a log before the last one that has lemmas
PATIENCE = 20  # seconds until a join has to have written what it took

# What is asked of a cube, and what is said of it on standard error, with the exit status.
BAD: list[tuple[str, list[str], str, int]] = [
    ("0 1", [], "psprove: path: line 1 has another form\n", 2),
    ("0 1 5\nx", [], "psprove: path: line 2 has another form\n", 2),
    ("0 99 5", [], "psprove: path: arc 1 is no bound of a start and no order of rivals\n", 2),
    ("1 1 0", [], "psprove: path: arc 1 is no bound of a start and no order of rivals\n", 2),
    ("0 1 99999999999", [], "psprove: path: arc 1 is no bound of a start and no order of rivals\n", 2),
    ("", ["--import", "none"], "psprove: cannot open none\n", 1),
    ("", ["--import", "path"], "", 0),
    ("", ["--guide", "none"], "psprove: cannot open none\n", 1),
]


class Cube(NamedTuple):
    name: str
    arcs: list[list[int]]


class Tree:
    """Searches of the cubes of a project, one after another."""

    def __init__(self, psprove: str, folder: pathlib.Path, text: bytes) -> None:
        self.psprove, self.folder = psprove, folder
        folder.mkdir()
        (folder / "project.sch").write_bytes(text)
        self.lines: list[str] = []
        self.lemmas: list[str] = []
        self.best: int | None = None

    def run(self, *words: object) -> harness.Ended:
        return harness.ended([self.psprove, *words], cwd=self.folder)

    def started(self) -> list[str]:
        return [] if self.best is None else ["--start", "best"]

    def search(self, cube: Cube, conflicts: int) -> dict[str, Any]:
        """What became of a cube, whose log and lemmas are then there."""
        (self.folder / "path").write_text("".join("%d %d %d\n" % tuple(arc) for arc in cube.arcs))
        log = f"{len(self.lines)}.log"
        given = f"{len(self.lines)}.given" if self.lemmas else "-"
        words = ["--import", given] if self.lemmas else []
        (self.folder / given).write_text("".join(self.lemmas))
        status, out, err = self.run(
            "solve", "--project", "project.sch", "--under", "path", "--record", log, "--conflicts", conflicts,
            "--export", "lemmas", "--pieces", 2, *words, *self.started())
        if status not in (0, 3) or err:
            raise ValueError(f"cube {cube.name}: {status} {err!r}")
        found: dict[str, Any] = json.loads(out)
        self.lemmas += (self.folder / "lemmas").read_text().splitlines(True)
        if found["makespan"] is not None and (self.best is None or found["makespan"] < self.best):
            self.best = found["makespan"]
            (self.folder / "best").write_text("".join(f"{i} {start}\n" for i, start in enumerate(found["starts"])))
        path = " ".join("%d %d %d" % tuple(arc) for arc in cube.arcs)
        self.lines.append(f"{cube.name or '-'} {log} {given} {path}\n")
        return found

    def refute(self) -> None:
        """Searches until no cube is open."""
        todo = [Cube("", [])]
        while todo:
            cube, done = todo.pop(0), len(self.lines)
            found = self.search(cube, LIMITS[done] if done < len(LIMITS) else MOST)
            if found["cube"] == "open":
                todo += [Cube(cube.name + part["name"], cube.arcs + part["arcs"]) for part in found["pieces"]]

    def join_words(self) -> list[str]:
        (self.folder / "tree").write_text("".join(self.lines))
        return ["join", "--project", "project.sch", "--tree", "tree", "--record", "joined", *self.started()]

    def join(self) -> harness.Ended:
        return self.run(*self.join_words())


def wrong_join(programs: tuple[str, str], tree: Tree, answer: bytes) -> str | None:
    """What is wrong with the record and the starts of an answer, or None."""
    search = searches.Search(*programs, tree.folder, "project", (tree.folder / "project.sch").read_bytes())
    search.record = tree.folder / "joined"
    return search.wrong_answer(answer)


def damaged(tree: Tree, seed: int) -> str | None:
    """Damages a log of the list. What the join is to say of it, or None if all are whole."""
    logs = [line.split()[1] for line in tree.lines]
    if seed % 5 == 1:
        (tree.folder / logs[-1]).write_bytes(b"record 3\n")
        return "its log does not refute it"
    if seed % 5 == 2:
        (tree.folder / logs[-1]).unlink()
        return "its log can't be read"
    if seed % 5 == 3:
        (tree.folder / logs[0]).write_bytes(b"record 1\n")
        return "event 0 is wrong"
    return None


def wrong(programs: tuple[str, str], folder: pathlib.Path, seed: int) -> str | None:
    """What is wrong with the cubes of a project, or None."""
    text = searches.text_of(seed)
    wanted = harness.ended([programs[0], "solve"], text)[1].split(b"\n")[0]
    tree = Tree(programs[1], folder / f"{seed}", text)
    tree.refute()
    said = damaged(tree, seed)
    status, answer, err = tree.join()
    verdict = answer.split(b"\n")[0]
    if said is None and (status, verdict, err) != (0, wanted, b""):
        return f"the join says {status} {verdict!r} {err!r}, psmax {wanted!r}"
    if said is not None and said.encode() not in err and verdict != wanted:
        return f"the join says {err!r}, not {said}"
    if status not in (0, 3):
        return f"the join ends with {status} {err!r}"
    bound = verdict.split(b" ")[-1]
    if verdict != wanted and (wanted == b"no schedule" or int(bound) > int(wanted.split(b" ")[-1])):
        return f"the join says {verdict!r}, psmax {wanted!r}" if wanted != b"no schedule" else None
    return wrong_join(programs, tree, answer)


def bad_texts(psprove: str, folder: pathlib.Path) -> Iterator[harness.Verdict]:
    """Paths and files that are no such, and what is said of them."""
    tree = Tree(psprove, folder / "bad", projects.project(6, 1, 3, 2).text())
    for path, words, wanted, status in BAD:
        (tree.folder / "path").write_text(path)
        said = tree.run("solve", "--project", "project.sch", "--under", "path", "--record", "log", *words)
        fault = None if (said[0], said[2].decode()) == (status, wanted) else f"{said}"
        yield f"{path!r} {words}", fault


def give(pipe: pathlib.Path, text: bytes, run: "subprocess.Popen[bytes]") -> None:
    """Writes a text into a pipe once a process reads it."""
    while run.poll() is None:
        with contextlib.suppress(OSError), open(os.open(pipe, os.O_WRONLY | os.O_NONBLOCK), "wb") as writer:
            writer.write(text)
            return
        time.sleep(0.01)


def written_meanwhile(programs: tuple[str, str], folder: pathlib.Path) -> str | None:
    """A join has written what it took of the logs before, while it waits for the last one, which is a pipe."""
    tree = Tree(programs[1], folder / "meanwhile", searches.text_of(SEVERAL))
    tree.refute()
    last, part = tree.folder / tree.lines[-1].split()[1], tree.folder / "joined.part"
    log = last.read_bytes()
    last.unlink()
    os.mkfifo(last)
    end = time.monotonic() + PATIENCE
    run = subprocess.Popen([tree.psprove, *tree.join_words()], cwd=tree.folder, stdout=subprocess.PIPE)
    is_begun = False
    while time.monotonic() < end and run.poll() is None and not is_begun:
        is_begun = part.exists() and part.stat().st_size > len(verify_log.TITLE)
        time.sleep(0.01)
    give(last, log, run)
    answer = run.communicate()[0]
    return wrong_join(programs, tree, answer) if is_begun else "nothing is written before the last log is read"


def verdicts(words: Sequence[str]) -> Verdicts:
    parser = harness.Words(__doc__, "psmax", "psprove")
    parser.add_argument("--projects", type=int, default=300)
    o = parser.parse_args(words)
    with harness.new_folder() as folder:
        yield from bad_texts(o.psprove, folder)
        yield "a record is written meanwhile", written_meanwhile((o.psmax, o.psprove), folder)
        look = functools.partial(wrong, (o.psmax, o.psprove), folder)
        for seed, found in enumerate(harness.side_by_side(look, range(o.projects))):
            yield f"project {seed}", found


if __name__ == "__main__":
    harness.run(verdicts)
