#!/usr/bin/env python3
"""python/installing.py install | uninstall

Installs psmax, psprove, plan, the package, the checkers, the manual pages and the documents below $DESTDIR$PREFIX, or
removes them. $AT_HAND is the folder of the programs. What was made is written down, so nothing of it is left, and
nothing else is removed. A link of a document to a file that is not installed becomes its text."""
import json
import os
import pathlib
import re
import shutil
import sys
from collections.abc import Iterator
from contextlib import suppress

TOP = pathlib.Path(__file__).resolve().parent.parent
sys.dont_write_bytecode = True
sys.path.append(str(TOP / "python"))
import packing  # noqa: E402

OWN = pathlib.PurePath("share/psmax"), pathlib.PurePath("share/doc/psmax")  # folders of psmax alone
MADE = OWN[0] / "installed"  # what was made, from the root on
PROGRAM, FILE = 0o755, 0o644
DOCUMENTS = ("README.md", "CHANGELOG.md", "SECURITY.md", "docs/*.md", "docs/*.svg", "docs/*.png", "examples/*.md",
             "examples/*.sch", "examples/*.starts", "examples/hall*", "examples/*.xlsx", "examples/formats/*",
             "planner/projects/*")
LINK = re.compile(r"\[((?:[^\[\]]|\[[^\]]*\])*)\]\(([^)\s]+)\)")
Installed = tuple[pathlib.PurePath, bytes, int]  # a name below the prefix, what the file holds, and its mode


def files(programs: pathlib.Path) -> Iterator[Installed]:
    for name in packing.PROGRAMS:
        yield pathlib.PurePath("bin", name), (programs / name).read_bytes(), PROGRAM
    yield pathlib.PurePath("bin/plan"), (TOP / "planner/plan").read_bytes(), PROGRAM
    yield from ((OWN[0] / name, data, mode) for name, data, mode in packing.modules())
    for name in ("verify.py", "verify_log.py", "show_log.py"):
        yield OWN[0] / name, (TOP / "tests" / name).read_bytes(), PROGRAM
    for name in (*packing.PROGRAMS, "plan"):
        yield pathlib.PurePath(f"share/man/man1/{name}.1"), (TOP / f"docs/{name}.1").read_bytes(), FILE
    paths = {path for pattern in DOCUMENTS for path in TOP.glob(pattern) if path.is_file()}
    for path in sorted(paths):
        data = without_dead_links(path, paths).encode() if path.suffix == ".md" else path.read_bytes()
        yield OWN[1] / path.relative_to(TOP), data, FILE


def without_dead_links(path: pathlib.Path, files: set[pathlib.Path]) -> str:
    def link(found: re.Match[str]) -> str:
        name = found[2].partition("#")[0]
        is_there = not name or re.match(r"\w+:", name) or (path.parent / name).resolve() in files
        return found[0] if is_there else found[1]

    return LINK.sub(link, path.read_text(encoding="utf-8"))


class Place:
    """Where something is installed: a prefix below a root, which is / where nobody says another one."""

    def __init__(self, root: str, prefix: str) -> None:
        self.root = pathlib.Path(root or "/").absolute()
        self.prefix = pathlib.Path(root + prefix).absolute()
        self.made: dict[str, list[str]] = {"folders": [], "files": []}
        with suppress(FileNotFoundError):
            self.made = json.loads((self.prefix / MADE).read_text())

    def install(self, programs: pathlib.Path) -> None:
        for name, data, mode in files(programs):
            self.put(name, data, mode)
        self.put(MADE, b"", FILE)
        self.put(MADE, json.dumps(self.made, indent=0).encode(), FILE)

    def put(self, name: pathlib.PurePath, data: bytes, mode: int) -> None:
        """A new file, since a program that runs can't be written."""
        path = self.prefix / name
        self.make_folder(path.parent)
        new = path.with_name(f".{path.name}.new")
        new.write_bytes(data)
        new.chmod(mode)
        new.replace(path)
        self.note("files", path)

    def make_folder(self, path: pathlib.Path) -> None:
        """With those above, whatever the umask is."""
        for folder in (*reversed(path.parents), path):
            if not folder.is_dir():
                folder.mkdir()
                folder.chmod(PROGRAM)
                self.note("folders", folder)

    def note(self, kind: str, path: pathlib.Path) -> None:
        if path.is_relative_to(self.root) and (told := str(path.relative_to(self.root))) not in self.made[kind]:
            self.made[kind].append(told)

    def uninstall(self) -> None:
        """All that was made, and no folder in which something else is. Version 1.0 wrote nothing down: its programs and
        pages are these, and its folders stay."""
        names = (*packing.PROGRAMS, "plan")
        older = [self.prefix / place for name in names for place in (f"bin/{name}", f"share/man/man1/{name}.1")]
        for path in [self.root / told for told in self.made["files"]] or older:
            path.unlink(missing_ok=True)
        for folder in (self.prefix / name for name in OWN):
            if folder.is_dir() and not folder.is_symlink():
                shutil.rmtree(folder)
        for told in reversed(self.made["folders"]):
            with suppress(OSError):
                (self.root / told).rmdir()


def main(word: str) -> None:
    place = Place(os.environ.get("DESTDIR", ""), os.environ["PREFIX"])
    if word == "install":
        place.install(TOP / os.environ["AT_HAND"])
    else:
        place.uninstall()


if __name__ == "__main__":
    if sys.argv[1:] not in (["install"], ["uninstall"]):
        sys.exit(__doc__)
    try:
        main(sys.argv[1])
    except OSError as fault:
        sys.exit(f"{sys.argv[1]}: {fault.filename}: {fault.strerror}")
