#!/usr/bin/env python3
"""tests/losses.py PROGRAM [--proofs]

Hands each command of psmax, or with --proofs of psprove, a file that it reads and writes, or writes twice: for each
option that reads with each that writes, by the same name, by a symbolic link and by a second name. The command has to
be refused, and no file may have changed. Then a part of a record or of an export is there, and has to stay; so has an
older record after a call that has none. And both go where a link leads, with the mode of the older one, which a part
has from the beginning. The last line counts what was tried."""
import functools
import itertools
import os
import pathlib
import subprocess
import time
from collections.abc import Callable, Iterator, Mapping, Sequence
from typing import NamedTuple

import harness
import judges
import shops
from channels import limit_files
from harness import INPUTS, Verdicts

PROJECT = (INPUTS / "two-jobs.sch").read_bytes()
STARTS = b"0 0\n1 4\n2 0\n3 7\n"  # feasible, and shortest
INPUT, ANSWER, PART = "standard input", "standard output", "the part of --record"
CUBE, LEMMAS = "a file in --tree", "lemmas"
TEXTS = {"--project": PROJECT, INPUT: PROJECT, "--start": STARTS, "--guide": STARTS, "--under": b"1 2 3\n",
         "--import": b"", "--tree": b"", "--resume": b"", "--until": b"", CUBE: b"", LEMMAS: b""}
OLD = b"older\n"
DELETE = b"hint: delete it\n"


class Command(NamedTuple):
    """What words of a command read and write."""

    words: tuple[str, ...]
    reads: tuple[str, ...]
    writes: tuple[str, ...] = ()

    def __str__(self) -> str:
        return " ".join(self.words)


OF_PSMAX = (
    Command(("earliest",), (INPUT,)),
    Command(("tidy",), (INPUT,)),
    Command(("check",), (INPUT, "--project")),
    Command(("verify",), (INPUT, "--project")),
    Command(("solve",), (INPUT, "--start"), ("--record", PART)),
)
OF_PSPROVE = (
    Command(("verify",), (INPUT, "--project")),
    Command(("trim",), (INPUT, "--project")),
    Command(("solve",), (INPUT, "--start", "--until"), ("--record", PART)),
    Command(("solve", "--conflicts", "0"), ("--project", "--until"), ("--record", PART)),
    Command(("solve", "--seconds", "9"), ("--resume",), (PART,)),
    Command(("join",), ("--project", "--tree", "--start", CUBE, LEMMAS), ("--record", PART)),
    Command(("solve",), ("--project", "--under", "--start", "--guide", "--import", "--until"),
            ("--record", PART, "--export")),
)
CUBE_SEARCH = Command(("solve",), ("--project", "--under"))
LONG = shops.project(shops.named("ta04")).text()  # no search ends before it is ended
Look = Callable[[str, pathlib.Path], str | None]  # what is wrong, by the program and in a new folder


def by_its_name(here: pathlib.Path, file: str, made: str) -> str:
    (here / file).rename(here / made)
    return made


def by_a_link(here: pathlib.Path, file: str, made: str) -> str:
    (here / made).symlink_to(file)
    return file


def by_a_second_name(here: pathlib.Path, file: str, made: str) -> str:
    (here / made).hardlink_to(here / file)
    return file


Spelling = Callable[[pathlib.Path, str, str], str]  # makes a name lead to a file, whose name it gives
SPELLINGS: tuple[Spelling, ...] = by_its_name, by_a_link, by_a_second_name


def shown(here: pathlib.Path) -> dict[str, object]:
    """What lies in a folder: links by where they lead, files by what they hold, folders by their names."""
    return {path.name: f"{path.readlink()}" if path.is_symlink()
            else os.listdir(path) if path.is_dir() else path.read_bytes() for path in here.iterdir()}


def call(program: str, here: pathlib.Path, command: Command, names: Mapping[str, str]) -> harness.Ended:
    """How a call with these files ends. Its answer is added to a file."""
    words = [word for option, name in names.items() if option.startswith("--") for word in (option, name)]
    source, target = (here / names.get(end, os.devnull) for end in (INPUT, ANSWER))
    with open(source, "rb") as given, open(target, "ab") as answer:
        return harness.ended([program, *command.words, *words], cwd=here, stdin=given, stdout=answer)


def refusal(program: str, here: pathlib.Path, command: Command, names: Mapping[str, str], one: str,
            other: str) -> str | None:
    """What is wrong with how a call ends two of whose files are one."""
    before = shown(here)
    status, _, said = call(program, here, command, names)
    if (status, said) != (2, f"error: {one} and {other} name the same file\n".encode()):
        return f"ends with {status}, {said!r}"
    return None if shown(here) == before else "files have changed"


def named(command: Command, write: str) -> dict[str, str]:
    """Names for the files of a command that writes one of its outputs, and what it can't do without."""
    names = {option: option.strip("-").replace(" ", "-") for option in command.reads}
    needed = {PART} if "--under" in command.reads else set[str]()
    return names | {"--record": "record" for option in needed | {write} if option == PART}


def read_and_written(command: Command, read: str, write: str, spelling: Spelling) -> Look:
    def look(program: str, here: pathlib.Path) -> str | None:
        names, made = named(command, write), "record.part" if write == PART else "made"
        for option in command.reads:
            (here / names[option]).write_bytes(TEXTS[option])
        names[read] = spelling(here, names[read], made)
        if write != PART:
            names[write] = made
        if "--tree" in command.reads:
            (here / names["--tree"]).write_text(f"- {names[CUBE]} {names[LEMMAS]}\n")
        return refusal(program, here, command, names, CUBE if read == LEMMAS else read, write)
    return look


def both_written(one: str, other: str, is_there: bool) -> Look:
    """Two outputs of the search of a cube, of a file that is there or is not."""
    def look(program: str, here: pathlib.Path) -> str | None:
        names, made = named(CUBE_SEARCH, PART), "record.part" if PART in (one, other) else "made"
        for option in CUBE_SEARCH.reads:
            (here / names[option]).write_bytes(TEXTS[option])
        if is_there:
            (here / made).write_bytes(OLD)
        else:
            (here / "link").symlink_to(made)
        exported = made if is_there else "link"
        names |= {option: exported if option == "--export" else made for option in (one, other) if option != PART}
        return refusal(program, here, CUBE_SEARCH, names, one, other)
    return look


def record_stays(text: bytes, status: int, *words: str, room: int = 1 << 20) -> Look:
    """An older record stays where a call has none, or no room for it, and nothing lies beside it then."""
    def look(program: str, here: pathlib.Path) -> str | None:
        (here / "record").write_bytes(OLD)
        (here / "starts").write_bytes(b"0 0\n1 0\n2 0\n3 7\n")  # the jobs run at once
        ended = harness.ended([program, "solve", *words, "--record", "record"], text, cwd=here,
                              preexec_fn=functools.partial(limit_files, room))
        (here / "starts").unlink()
        if ended[0] != status:
            return f"ends with {ended}"
        return None if shown(here) == {"record": OLD} else "files have changed"
    return look


def part_stays(text: bytes, hint: bytes) -> Look:
    """A part that is there is not touched, whatever comes on standard input."""
    def look(program: str, here: pathlib.Path) -> str | None:
        (here / "record.part").write_bytes(OLD)
        ended = harness.ended([program, "solve", "--record", "record"], text, cwd=here)
        wanted = (2, b"", b"error: record.part is there: a search left it, or writes it now\n" + hint)
        if ended != wanted:
            return f"ends with {ended}"
        return None if shown(here) == {"record.part": OLD} else "files have changed"
    return look


def cube_search(program: str, here: pathlib.Path) -> harness.Ended:
    """A search of a cube that exports its lemmas."""
    for name, text in (("project", PROJECT), ("path", TEXTS["--under"])):
        (here / name).write_bytes(text)
    words = ("--project", "project", "--under", "path", "--record", "record", "--export", "lemmas")
    return harness.ended([program, "solve", *words], cwd=here)


def part_of_export_stays(program: str, here: pathlib.Path) -> str | None:
    """The call is refused before it searches."""
    (here / "lemmas.part").write_bytes(OLD)
    said = b"error: lemmas.part is there: a search left it, or writes it now\n" + DELETE
    if (ended := cube_search(program, here)) != (2, b"", said):
        return f"ends with {ended}"
    return None if sorted(shown(here)) == ["lemmas.part", "path", "project"] else "files have changed"


def export_through_a_link(program: str, here: pathlib.Path) -> str | None:
    """Lemmas go where a link leads, in place of the older ones, whose mode they keep."""
    (here / "older").write_bytes(OLD)
    (here / "older").chmod(0o640)
    (here / "lemmas").symlink_to("older")
    if (status := cube_search(program, here)[0]) not in (0, 3):
        return f"ends with {status}"
    if sorted(shown(here)) != ["lemmas", "older", "path", "project", "record"] or not (here / "lemmas").is_symlink():
        return f"leaves {shown(here)}"
    mode = (here / "older").stat().st_mode & 0o777
    return None if mode == 0o640 and (here / "older").read_bytes() != OLD else f"the older lemmas, or mode {mode:o}"


def second_search(program: str, here: pathlib.Path) -> str | None:
    """Of two searches with one record the second is refused, and the first goes on. Its part has the mode of an older
    one."""
    words, part = [program, "solve", "--record", "record", "--until", "end"], here / "record.part"
    (here / "project").write_bytes(LONG)
    (here / "record").touch(0o600)
    with open(here / "project", "rb") as given, subprocess.Popen(
            words, cwd=here, stdin=given, stdout=subprocess.PIPE) as first:
        end = time.monotonic() + harness.TIMEOUT
        while time.monotonic() < end and not (part.exists() and part.stat().st_size):
            time.sleep(0.01)
        mode = part.stat().st_mode & 0o777
        status = harness.ended(words, LONG, cwd=here)[0]
        (here / "end").touch()
        out, _ = first.communicate(timeout=harness.TIMEOUT)
    if (status, first.returncode) != (2, 3):
        return f"they end with {first.returncode} and {status}"
    if mode != 0o600:
        return f"the part has mode {mode:o}"
    bound = out.split(b"\n")[0].split()[-1]
    said = judges.by_program(program, here / "project", (here / "record").read_bytes())
    return None if said == (0, b"proved bound %s\n" % bound, b"") else f"its record proves {said}"


def through_a_link(is_there: bool) -> Look:
    """A record goes where a link leads, also one to nothing, and keeps the mode of an older one."""
    def look(program: str, here: pathlib.Path) -> str | None:
        (here / "below").mkdir()
        (here / "link").symlink_to("below/record")
        if is_there:
            (here / "below" / "record").write_bytes(OLD)
            (here / "below" / "record").chmod(0o640)
        ended = harness.ended([program, "solve", "--record", "link"], PROJECT, cwd=here)
        if ended[0] != 0 or shown(here) != {"link": "below/record", "below": ["record"]}:
            return f"ends with {ended}, and leaves {shown(here)}"
        record = here / "below" / "record"
        if is_there and record.stat().st_mode & 0o777 != 0o640:
            return "the mode is lost"
        (here / "project").write_bytes(PROJECT)
        said = judges.by_program(program, here / "project", record.read_bytes())
        return None if said == (0, b"proved optimal 7\n", b"") else f"its record proves {said}"
    return look


def refusals(commands: Sequence[Command]) -> Iterator[tuple[str, Look]]:
    for command in commands:
        for read, write in itertools.product(command.reads, (ANSWER, *command.writes)):
            for spelling in SPELLINGS:
                name = f"{command}: {read}, {write}, {spelling.__name__}"
                yield name, read_and_written(command, read, write, spelling)


def looks(is_psprove: bool) -> Iterator[tuple[str, Look]]:
    yield from refusals(OF_PSPROVE if is_psprove else OF_PSMAX)
    hint = b"hint: go on from it by --resume record.part and another --record, or delete it\n" if is_psprove else DELETE
    yield "a part stays", part_stays(PROJECT, hint)
    yield "a part stays where there is no project", part_stays(b"x\n", hint)
    yield "a record stays where there is no project", record_stays(b"x\n", 2)
    yield "a record stays where starts are refused", record_stays(PROJECT, 4, "--start", "starts")
    yield "through a link", through_a_link(True)
    yield "through a link to nothing", through_a_link(False)
    if not is_psprove:
        yield "a record stays where a limit stops the search", record_stays(LONG, 3, "--nodes", "9")
        yield "a record stays where there is no room", record_stays(PROJECT, 1, room=10)
        return
    for one, other in itertools.combinations((ANSWER, PART, "--record", "--export"), 2):
        for is_there in (True, False):
            if (one, other) != (PART, "--record") and (is_there or one != ANSWER):
                yield f"cube: {one}, {other}, {is_there}", both_written(one, other, is_there)
    yield "a part of an export stays", part_of_export_stays
    yield "an export through a link", export_through_a_link
    yield "two searches", second_search


def verdicts(words: Sequence[str]) -> Verdicts:
    parser = harness.Words(__doc__, "program")
    parser.add_argument("--proofs", action="store_true")
    given = parser.parse_args(words)

    def verdict(look: tuple[str, Look]) -> harness.Verdict:
        with harness.new_folder() as here:
            return look[0], look[1](given.program, here)

    yield from harness.side_by_side(verdict, looks(given.proofs))


if __name__ == "__main__":
    harness.run(verdicts)
