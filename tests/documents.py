#!/usr/bin/env python3
"""tests/documents.py [FOLDER]

Checks the documents against the repository and against the programs in FOLDER. Without FOLDER these are the programs
that `./psmax` and `./psprove` start.

- Each relative link leads to a file, and to a heading if it names one. If the link's text is the name of a
  definition, the file has that name.
- Each file of the repository that a document names is there.
- Each command of psmax, psprove, plan, make or a script that a document names is there, with its options.
- Each definition in a ```antt block stands so in a file of specs.
- The version in the head of a manual page, that of the newest heading of CHANGELOG.md, that of CITATION.cff and that of
  the crates is the package's.
- Help of psmax and of psprove has no name of a type.
- The picture of docs/ARCHITECTURE.md has each crate of crates.txt, and so has its table.
- Each command of a document of SHOWN is run as a user runs it, and prints what stands below it. Without openpyxl those
  with spreadsheet files, and with what is made of them, are left out.

A command to run stands after `$ ` in a ```console block, in a manual page between .EX and .EE; further lines of it
stand after `> `. All blocks of a document run in turn in one folder, which has what a clone has. Two kinds of blocks
save a file: a ```sh block that begins with `cat > NAME`, and `$ cat NAME` if there is no such file yet. All other
blocks are only read. Lines of progress, which begin with seconds, are not compared.

Prints each failure, and last 'N passed, M failed'."""
import functools
import importlib.machinery
import os
import pathlib
import re
import shlex
import shutil
import subprocess
import sys
from collections.abc import Iterable, Iterator, Sequence

import harness
import workspace
from harness import TOP, Verdict, Verdicts
from psmax import __version__

Blocks = Sequence[tuple[str, str]]  # the blocks of a document, each with its kind
SHOWN = {"README.md", "docs/FORMAT.md", "docs/RECORD.md", "docs/WORKERS.md", "docs/PLANNER.md", "docs/LEMMAS.md",
         "docs/BUILDING-SITE.md", "docs/CLUSTER.md", "docs/FORMATS.md", "docs/psmax.1", "docs/psprove.1", "docs/plan.1",
         "examples/building-site.md", "examples/plant-shutdown.md", "examples/test-bench.md"}
PARTS = ("examples", "planner", "python", "tests")  # what a command may read, besides the programs
SKIPPED = {".git", "out", "build", "__pycache__"}
SECONDS = 60
DEBIAN = "/usr/lib/python3/dist-packages"  # which another Python than Debian's doesn't search
SPREADSHEET = ".xlsx"

LINK = re.compile(r"\[((?:[^\[\]]|\[[^\]]*\])*)\]\(([^)\s]+)\)")
SPAN = re.compile(r"`([^`\n]+)`")
FENCE = re.compile(r"^```(\w*)\n(.*?)^```$", re.M | re.S)
STATED = re.compile(r"^(?:\.TH .*?|## |version: |pub const VERSION: &str = \")(\d+\.\d+\.\d+)", re.M)
VERSIONED = ("docs/psmax.1", "docs/psprove.1", "docs/plan.1", "CHANGELOG.md", "CITATION.cff",
             "crates/answers/src/lib.rt")
TYPE = re.compile(r"\b[A-Z][a-z]+[A-Z]\w*")
NO_TYPES = {"MiB"}
EXAMPLE = re.compile(r"^\.EX\n(.*?)^\.EE$", re.M | re.S)
COMMAND = re.compile(r"^\$ (.*\n(?:> .*\n)*)", re.M)
PROGRESS = re.compile(r"^ *\d+\.\d\d s  .*\n", re.M)
NAMED = re.compile(r"[\w-]+\.[a-z]+")  # a file in a command
OPTION = re.compile(r"(?<![\w-])--[a-z][a-z-]*")
SOURCE = re.compile(r"[\w-]+\.(?:py|c|jsonl|antt|rt|toml)")


def verdict(document: pathlib.Path, is_right: object, fault: str) -> Verdict:
    return str(document.relative_to(TOP)), None if is_right else fault


@functools.cache
def files() -> list[pathlib.Path]:
    return [path for path in TOP.rglob("*") if path.is_file() and not SKIPPED & set(path.relative_to(TOP).parts)]


class Programs:
    """The programs, and what their help says."""

    def __init__(self, folder: pathlib.Path) -> None:
        self.paths = {name: str(folder / name) for name in ("psmax", "psprove")}
        self.paths["plan"] = str(TOP / "planner" / "plan")

    @functools.cache
    def help(self, *words: str) -> str | None:
        """The help of a program or of one of its commands; none if there is no such command."""
        start = [sys.executable] if words[0] == "plan" else []
        status, out, _ = harness.ended([*start, self.paths[words[0]], *words[1:], "--help"])
        return out.decode() if status == 0 else None

    def commands(self, name: str) -> list[str]:
        """The commands that a program's help lists."""
        return re.findall(r"^ {2,4}([a-z]+)  ", self.help(name) or "", re.M)

    @functools.cache
    def options(self) -> set[str]:
        """The options of all commands and scripts."""
        texts = [path.read_text() for path in files() if path.suffix in (".py", ".rt")]
        texts += [self.help(name, command) or "" for name in self.paths for command in self.commands(name)]
        return {"--help", *OPTION.findall("".join(texts))}

    def fault_of(self, words: Sequence[str]) -> str | None:
        """What is wrong with a command, as its words; empty if nothing is, and none if it is not of this project."""
        if not words:
            return None
        name = pathlib.PurePath(words[0]).name
        if name == "python3":
            return self.fault_of(words[1:])
        if name == "make" and re.fullmatch(r"[a-z]+", "".join(words[1:2])):
            return fault_of_target(words[1])
        if name.endswith(".py"):
            texts = [path.read_text() for path in files() if f"/{path.relative_to(TOP)}".endswith(f"/{words[0]}")]
            return missing_options(words, "".join(texts) or None)
        if name in self.paths and re.fullmatch(r"-*[a-z-]+", "".join(words[1:2])):
            told = self.help(name) if words[1].startswith("-") else self.help(name, words[1])
            return missing_options(words, told)
        return None


def fault_of_target(name: str) -> str:
    is_there = re.search(rf"^(?:[\w/]+ )*{name}(?: [\w/]+)*:", (TOP / "Makefile").read_text(), re.M)
    return "" if is_there else "no such target"


def missing_options(words: Iterable[str], text: str | None) -> str:
    """What is wrong with the options of a command that this text describes; with none there is no such command."""
    missing = sorted(set(OPTION.findall(" ".join(words))) - {"--help", *OPTION.findall(text or "")})
    return "no such command" if text is None else f"no option {', '.join(missing)}" if missing else ""


@functools.cache
def anchors(path: pathlib.Path) -> set[str]:
    """The anchors of a document's headings."""
    heads = re.findall(r"^#+ (.*)$", FENCE.sub("", path.read_text()), re.M)
    return {re.sub(r"[^\w\- ]", "", head.lower()).replace(" ", "-") for head in heads}


def is_link(document: pathlib.Path, text: str, target: str) -> bool:
    name, _, anchor = target.partition("#")
    path = document.parent / name if name else document
    if not path.exists() or anchor and anchor not in anchors(path.resolve()):
        return False
    named = re.fullmatch(r"`(\w+)`", text) if path.suffix == ".antt" else None
    return not named or re.search(rf"\b{named[1]}\b", path.read_text()) is not None


def of_links(document: pathlib.Path, prose: str) -> Verdicts:
    for text, target in LINK.findall(prose):
        if not re.match(r"\w+:", target):
            yield verdict(document, is_link(document, text, target), f"link [{text}]({target})")


def is_file(span: str) -> bool | None:
    """Whether the file is there that a span names; none if it names none. NAME in a path stands for any name."""
    if SOURCE.fullmatch(span):
        return any(path.name == span for path in files())
    path = span.removeprefix("./").strip("/")
    first, *rest = path.split("/")
    bases = [base for base in (TOP, TOP / "crates") if (base / first).is_dir()]
    if not re.fullmatch(r"[\w.*/-]+", span) or not rest or not bases or SKIPPED & {first, *rest}:
        return None
    return any(True for base in bases for _ in base.glob(path.replace("NAME", "*")))


def of_files(document: pathlib.Path, prose: str) -> Verdicts:
    for span in sorted(set(SPAN.findall(prose))):
        if (is_there := is_file(span)) is not None:
            yield verdict(document, is_there, f"no file {span}")


def of_definitions(document: pathlib.Path, blocks: Blocks) -> Verdicts:
    shown = [text.strip() for kind, text in blocks if kind == "antt"]
    texts = [path.read_text() for path in files() if path.suffix == ".antt"]
    for definition in "\n\n".join(shown).split("\n\n") if shown else []:
        yield verdict(document, any(definition in text for text in texts), f"no definition\n{definition}")


def of_versions() -> Verdicts:
    """The first version that each of these files states."""
    for document in (TOP / name for name in VERSIONED):
        stated = STATED.search(document.read_text())
        found = stated[1] if stated else "none"
        yield verdict(document, found == __version__, f"version {found} is not the package's {__version__}")


def of_help(programs: Programs) -> Verdicts:
    names = ("psmax", "psprove")
    for words in [(name,) for name in names] + [(name, command) for name in names
                                                for command in programs.commands(name)]:
        told = programs.help(*words)
        types = set(TYPE.findall(told or "")) - NO_TYPES
        fault = f"names of types: {', '.join(sorted(types))}" if types else None
        yield f"{' '.join(words)} --help", fault if told else "no help"


def of_crates() -> Verdicts:
    document = TOP / "docs" / "ARCHITECTURE.md"
    _, picture = FENCE.findall(document.read_text())[0]
    for crate in re.findall(r"^\w+", (TOP / "crates.txt").read_text(), re.M):
        yield verdict(document, re.search(rf"\b{crate}\b", picture), f"the picture has no {crate}")
    yield verdict(document, workspace.table() in document.read_text(),
                  f"the table of crates is not\n{workspace.table()}")


def commands_in(line: str) -> list[list[str]]:
    """The commands of a line of a shell, each as its words."""
    try:
        words = shlex.split(line, comments=True)
    except ValueError:
        words = line.split()
    ends = [place for place, word in enumerate(words) if word in ("|", "&&", "||")]
    return [words[start:end] for start, end in zip([0, *(end + 1 for end in ends)], [*ends, len(words)])]


def fault_of_line(line: str, programs: Programs) -> str | None:
    """What is wrong with a line; empty if nothing is, and none if it names neither commands nor options."""
    if line.startswith("--"):
        return ", ".join(sorted(set(OPTION.findall(line)) - programs.options()))
    faults = [fault for words in commands_in(line) if (fault := programs.fault_of(words)) is not None]
    return ", ".join(filter(None, faults)) if faults else None


def of_commands(document: pathlib.Path, prose: str, blocks: Blocks, programs: Programs) -> Verdicts:
    shells = "".join(text for kind, text in blocks if kind in ("sh", "console"))
    options = OPTION.findall(prose) if document.suffix == ".1" else []
    lines = {*SPAN.findall(prose), *shells.splitlines(), *COMMAND.findall(shells), *options}
    for line in sorted(lines):
        if (fault := fault_of_line(line, programs)) is not None:
            yield verdict(document, not fault, f"{line}: {fault}")


def home_of(package: str) -> str | None:
    """The folder from which a package is imported, where it is here."""
    found = importlib.machinery.PathFinder.find_spec(package, [*sys.path, DEBIAN])
    return str(pathlib.Path(found.origin).parents[1]) if found is not None and found.origin is not None else None


class Clone:
    """A folder with what a clone has, and the installed programs on the PATH."""

    def __init__(self, folder: pathlib.Path, programs: Programs) -> None:
        self.folder = folder
        for name in PARTS:
            shutil.copytree(TOP / name, self.folder / name, ignore=shutil.ignore_patterns("__pycache__"))
        bin_folder = self.folder / ".bin"
        bin_folder.mkdir()
        (bin_folder / "plan").symlink_to("../planner/plan")
        for name in ("psmax", "psprove"):
            (self.folder / name).symlink_to(programs.paths[name])
            (bin_folder / name).symlink_to(programs.paths[name])
        self.environment = {name: value for name, value in os.environ.items() if name not in ("PSMAX", "PSPROVE")}
        self.environment["PATH"] = f"{bin_folder}:{pathlib.Path(sys.executable).parent}:/usr/bin:/bin"
        if (home := home_of("openpyxl")) is not None:
            self.environment["PYTHONPATH"] = home

    def save(self, command: str, text: str) -> None:
        """Saves a file that the document shows, and that is not there yet."""
        named = re.fullmatch(r"cat ([\w.-]+)\n", command)
        if named and not (self.folder / named[1]).exists():
            (self.folder / named[1]).write_text(text)

    def run(self, command: str) -> str:
        """All that a command prints."""
        _, out, _ = harness.ended(["timeout", SECONDS, "sh", "-c", command], seconds=2 * SECONDS, cwd=self.folder,
                                  env=self.environment, stderr=subprocess.STDOUT)
        return out.decode()


def shown_in(blocks: Blocks) -> Iterator[tuple[str, str]]:
    """The commands that blocks show, each with what it prints."""
    for kind, text in blocks:
        parts = COMMAND.split(text)[1:] if kind == "console" else []
        if kind == "sh" and text.startswith("cat > "):
            parts = [text, ""]
        yield from zip(parts[::2], parts[1::2])


def of_shown(document: pathlib.Path, blocks: Blocks, programs: Programs) -> Verdicts:
    with harness.new_folder() as folder:
        clone, left_out = Clone(folder, programs), set[str]()
        for command, wanted in shown_in(blocks):
            named = set(NAMED.findall(command))
            if home_of("openpyxl") is None and (SPREADSHEET in command or named & left_out):
                left_out |= named
                print(f"left out, since openpyxl isn't here: $ {command}", end="")
                continue
            clone.save(command, wanted)
            printed = clone.run(command.replace("\n> ", "\n"))
            is_right = PROGRESS.sub("", printed) == PROGRESS.sub("", wanted)
            yield verdict(document, is_right, f"$ {command}printed\n{printed}and not\n{wanted}")


def parts_of(document: pathlib.Path) -> tuple[str, Blocks]:
    """A document's prose, and its blocks, each with its kind."""
    text = document.read_text()
    if document.suffix == ".md":
        return FENCE.sub("", text), FENCE.findall(text)
    text = text.replace("\\-", "-").replace("\\e", "\\")
    return EXAMPLE.sub("", text), [("console", example) for example in EXAMPLE.findall(text)]


def of_document(document: pathlib.Path, programs: Programs) -> Verdicts:
    prose, blocks = parts_of(document)
    yield from of_links(document, prose)
    yield from of_files(document, prose)
    yield from of_commands(document, prose, blocks, programs)
    yield from of_definitions(document, blocks)
    if str(document.relative_to(TOP)) in SHOWN:
        yield from of_shown(document, blocks, programs)


def verdicts(words: Sequence[str]) -> Verdicts:
    parser = harness.Words(__doc__)
    parser.add_argument("folder", nargs="?", type=harness.resolved, default=TOP)
    programs = Programs(pathlib.Path(parser.parse_args(words).folder))
    for document in sorted(path for path in files() if path.suffix in (".md", ".1")):
        yield from of_document(document, programs)
    yield from of_versions()
    yield from of_help(programs)
    yield from of_crates()


if __name__ == "__main__":
    harness.run(verdicts)
