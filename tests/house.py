#!/usr/bin/env python3
"""tests/house.py [--names]

Counts what CONTRIBUTING says of words and rooms: names that stand twice, small crates and modules, long files,
functions and lines; and the lines of all. With --names it prints the names that it counted below each row.

A type's name is that of a struct, an enum, a trait or an alias of a crate. A crate's lines are those of its src/. A
function's lines are those of its body, in Python with its head. Modules are those of python/psmax."""
import ast
import pathlib
import re
from collections import defaultdict
from collections.abc import Iterable, Iterator, Sequence

import harness
import workspace
from harness import TOP

TYPE = re.compile(r"^(?:pub(?:\(\w+\))? )?(?:struct|enum|trait|type) (\w+)", re.M)
FUNCTION = re.compile(r"^( *)(?:pub(?:\(\w+\))? )?(?:const |ghost |unsafe )*fn (\w+)")
SMALLEST_CRATE, SMALLEST_MODULE, LONGEST_FILE, LONGEST_FUNCTION = 150, 60, 500, 40
WIDEST = {".rt": 120, ".py": 120, ".md": 120, ".antt": 160}
SKIPPED = {".git", "out", "build", "__pycache__"}
Row = tuple[str, int, Sequence[str]]  # what is counted, how much, and the names of it
Texts = dict[pathlib.Path, list[str]]


def texts() -> Texts:
    """The lines of each file that is counted, by its path from the top."""
    paths = (path.relative_to(TOP) for path in TOP.rglob("*") if path.suffix in WIDEST and path.is_file())
    return {path: (TOP / path).read_text().split("\n")[:-1] for path in sorted(paths) if not SKIPPED & set(path.parts)}


def parts(files: Texts, part: str) -> dict[str, list[str]]:
    """The lines of a part of each crate: src, specs or proofs."""
    lines: dict[str, list[str]] = {path.name: [] for path in (TOP / "crates").iterdir()}
    for path, own in files.items():
        if path.parts[0] == "crates" and path.parts[2] == part:
            lines[path.parts[1]] += own
    return lines


def names_twice(crates: dict[str, list[str]]) -> list[str]:
    homes: dict[str, set[str]] = defaultdict(set)
    for crate, lines in crates.items():
        for name in TYPE.findall("\n".join(lines)):
            homes[name].add(crate)
    return [f"{name}: {' '.join(sorted(homes[name]))}" for name in sorted(homes) if len(homes[name]) > 1]


def python_functions(lines: Sequence[str]) -> Iterator[tuple[str, int]]:
    for node in ast.walk(ast.parse("\n".join(lines))):
        if isinstance(node, (ast.FunctionDef, ast.AsyncFunctionDef)):
            yield node.name, (node.end_lineno or node.lineno) - node.lineno + 1


def rattle_functions(lines: Sequence[str]) -> Iterator[tuple[str, int]]:
    """Each function with the lines between its braces, which stand as far to the right as its head."""
    name, indent, begin = "", "", None
    for i, line in enumerate(lines):
        head = FUNCTION.match(line)
        if head:
            indent, name, begin = head.group(1), head.group(2), None
        if name and begin is None and line.endswith("{") and line[: len(indent) + 1].strip():
            begin = i
        elif name and begin is not None and line == indent + "}":
            yield name, i - begin - 1
            name = ""


def functions(path: pathlib.Path, lines: Sequence[str]) -> Iterator[tuple[str, int]]:
    if path.suffix == ".py":
        yield from python_functions(lines)
    elif path.suffix == ".rt":
        yield from rattle_functions(lines)


def wide_lines(files: Texts, suffixes: Iterable[str]) -> list[str]:
    """Lines beyond the width of their kind, but those of tables."""
    return [f"{path}:{i + 1}" for path, lines in files.items() if path.suffix in suffixes
            for i, line in enumerate(lines)
            if len(line) > WIDEST[path.suffix] and not (path.suffix == ".md" and line.startswith("|"))]


def named(what: str, names: Sequence[str]) -> Row:
    return what, len(names), names


def rows() -> Iterator[Row]:
    files = texts()
    crates = parts(files, "src")
    modules = {path: lines for path, lines in files.items() if path.parts[:2] == ("python", "psmax")}
    yield named("type names in two or more crates", names_twice(crates))
    yield "crates", len(crates), []
    yield named("frames from main of psprove to the loop of its engine", workspace.frames())
    yield "crates that a change of branching has proved again", len(workspace.proved_again("branching")), []
    small = sorted((len(lines), crate) for crate, lines in crates.items() if len(lines) < SMALLEST_CRATE)
    yield named(f"crates below {SMALLEST_CRATE} lines", [f"{crate} {size}" for size, crate in small])
    yield "Python modules", len(modules), []
    yield named(f"Python modules below {SMALLEST_MODULE} lines", [
        f"{path} {len(lines)}" for path, lines in modules.items()
        if len(lines) < SMALLEST_MODULE and not path.name.startswith("__")])
    yield named(f"files above {LONGEST_FILE} lines", [
        f"{path} {len(lines)}" for path, lines in files.items() if len(lines) > LONGEST_FILE])
    yield named(f"functions above {LONGEST_FUNCTION} lines", [
        f"{path} {name} {size}" for path, lines in files.items() for name, size in functions(path, lines)
        if size > LONGEST_FUNCTION])
    yield named("lines of code and text above 120 columns", wide_lines(files, (".rt", ".py", ".md")))
    yield named("lines of specs and proofs above 160 columns", wide_lines(files, (".antt",)))
    for part, what in (("src", "source"), ("specs", "specs"), ("proofs", "proofs")):
        yield f"lines of {what} of the crates", sum(map(len, parts(files, part).values())), []
    yield "lines of Python of the package", sum(map(len, modules.values())), []
    yield "lines of Python", sum(len(lines) for path, lines in files.items() if path.suffix == ".py"), []


def main() -> None:
    parser = harness.Words(__doc__)
    parser.add_argument("--names", action="store_true")
    shows_names = parser.parse_args().names
    for what, count, names in rows():
        print(f"{count:8,}  {what}")
        for name in names if shows_names else ():
            print(f"{'':10}  {name}")


if __name__ == "__main__":
    main()
