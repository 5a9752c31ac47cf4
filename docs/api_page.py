#!/usr/bin/env python3
"""docs/api_page.py

Writes docs/API.md: what `import psmax` has, by the docstrings and the comments behind fields.
`python/tests/test_api.py` holds the page to the sources."""
import ast
import pathlib
import re
import sys
from collections.abc import Iterator

TOP = pathlib.Path(__file__).resolve().parent.parent
PACKAGE = TOP / "python" / "psmax"
PAGE = TOP / "docs" / "API.md"
BEGIN = """# The package, name by name

Made by `docs/api_page.py` from the sources. [PYTHON.md](PYTHON.md) is the guide. In arguments
these names stand for others:

- `Path`: `str | os.PathLike[str]`
- `Time`: a whole number of periods from the start on; or with a calendar a date, a datetime, or one as a text
- `Starts`: a schedule, an answer, or a mapping from activities or their names to times
- `Frozen`: the same of some activities
"""
PARTS = {"Project": "Parts", "Span": "Times"}  # classes whose members stand in the section of another one
HIDDEN_BASES = {*PARTS.values(), "StrEnum", "Enum", "Exception"}
INTERNAL = {"numbers", "arcs", "crews", "crews_off", "judge", "told", "cases", "question", "known", "spelled", "file",
            "span", "clock", "must_have_schedule", "dates", "of", "bound_by", "offset", "project", "number",
            "work_time",
            "begin", "dated", "shifts", "is_dated"}
WIDTH = 116
Def = (ast.FunctionDef, ast.AsyncFunctionDef)
Function = ast.FunctionDef | ast.AsyncFunctionDef

sys.path.insert(0, str(TOP / "python"))


def page() -> str:
    import psmax
    classes = {node.name: (node, lines) for node, lines in all_classes(psmax.MODULES)}
    names = sorted(name for name in psmax.__all__ if name in classes)
    contents = wrapped(", ".join(f"[{name}](#{name.lower()})" for name in names), "")
    sections = (line for name in names for line in section(name, classes))
    return "\n".join([BEGIN, *contents, "", *sections])


def all_classes(modules: tuple[str, ...]) -> Iterator[tuple[ast.ClassDef, list[str]]]:
    for module in modules:
        text = (PACKAGE / f"{module}.py").read_text()
        yield from ((node, text.split("\n")) for node in ast.parse(text).body if isinstance(node, ast.ClassDef))


def section(name: str, classes: dict[str, tuple[ast.ClassDef, list[str]]]) -> list[str]:
    """A class with its fields, its properties and its methods."""
    node = classes[name][0]
    bases = [f"`{base}`" for base in map(ast.unparse, node.bases) if base not in HIDDEN_BASES]
    found = [f"## {name}", "", *([f"A {' and a '.join(bases)}."] if bases else []), *said(node)]
    own = [(member, lines) for place in (name, PARTS.get(name, name))[: 2 if name in PARTS else 1]
           for member, lines in members(*classes[place])]
    values = [ast.unparse(member.value) for member, _ in own if isinstance(member, ast.Assign)]
    fields = [f"One of {', '.join(f'`{value}`' for value in values)}."] if values else []
    fields += [told for member, lines in own for told in field(member, lines)]
    return [*found, *fields, *([""] if fields else []), *(line for member, _ in own for line in method(member, name))]


def members(node: ast.ClassDef, lines: list[str]) -> list[tuple[ast.stmt, list[str]]]:
    """With what is made at the beginning of an object."""
    first = [member for member in node.body if isinstance(member, Def) and member.name == "__init__"]
    made = [inner for member in first for inner in member.body if isinstance(inner, ast.AnnAssign)]
    return [(member, lines) for member in [*made, *node.body]]


def field(node: ast.stmt, lines: list[str]) -> list[str]:
    """A field with its comment, or a property with its docstring."""
    name = ast.unparse(node.target).removeprefix("self.") if isinstance(node, ast.AnnAssign) else ""
    if isinstance(node, ast.AnnAssign) and is_shown(name):
        note = re.search(r"  # (.*)", lines[(node.end_lineno or node.lineno) - 1])
        return wrapped(f"- `{name}: {typed(node.annotation)}`" + (f": {note[1]}" if note else ""), "  ")
    if isinstance(node, Def) and is_property(node) and is_shown(node.name):
        text = " ".join((ast.get_docstring(node) or "").split())
        return wrapped(f"- `{node.name}: {typed(node.returns)}`" + (f": {text}" if text else ""), "  ")
    return []


def is_shown(name: str) -> bool:
    return not name.startswith("_") and name not in INTERNAL


def typed(node: ast.expr | None) -> str:
    return "" if node is None else ast.unparse(node).strip("'\"")


def decorators(node: Function) -> list[str]:
    return [*map(ast.unparse, node.decorator_list)]


def is_property(node: Function) -> bool:
    return not {"property", "cached_property"}.isdisjoint(decorators(node))


def method(node: ast.stmt, owner: str) -> list[str]:
    """What has a docstring, but for what is a field, or is called by a sign."""
    if not isinstance(node, Def) or is_property(node) or not is_shown(node.name) or ast.get_docstring(node) is None:
        return []
    if any(one.endswith(".setter") for one in decorators(node)):
        return []
    arguments = re.sub(r"^(self|cls)(, )?", "", ast.unparse(node.args))
    call = f"{node.name}({arguments}) -> {typed(node.returns)}"
    return [f"### {owner}.{node.name}", "", *wrapped(f"`{call}`", "", r"(?<=,) "), "", *said(node)]


def wrapped(text: str, indent: str, between: str = " ") -> list[str]:
    """In lines that are not too long."""
    found = [""]
    for part in re.split(between, text):
        if found[-1].strip() and len(found[-1]) + len(part) >= WIDTH:
            found.append(indent + part)
        else:
            found[-1] += (" " if found[-1] else "") + part
    return found


def said(node: ast.ClassDef | Function) -> list[str]:
    """The docstring; what is indented or in columns as it stands."""
    text = ast.get_docstring(node)
    found = list[str]()
    for part in text.split("\n\n") if text else ():
        is_code = any(re.match(r" {4}|\w+ {2,}\S", line) or line.startswith("with ") for line in part.split("\n"))
        found += ["```text", *part.split("\n"), "```", ""] if is_code else [*part.split("\n"), ""]
    return found


if __name__ == "__main__":
    PAGE.write_text(page())
