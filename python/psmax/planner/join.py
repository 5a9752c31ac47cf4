"""`plan join`: the logs of a folder of cubes as one record, and what that proves, at any time."""
import math
import os
import pathlib
import re
import secrets
import sys
from dataclasses import dataclass

from ..call_files import lose_none, must_be_like
from ..clock import Clock
from ..cubes.folder import PROJECT, files_of, must_be_whole, write_file
from ..cubes.tree import WHOLE, Tree
from ..errors import BadInput, Failed
from ..files import rename_whole
from ..letters import printable
from ..psmax import starts_text
from ..psprove import Psprove
from ..record import BEGIN, PROVED, WRONG

BAD = re.compile(r"psprove: cube (-|[01]+): (.*)")  # a log that is left out, at least in part
OPEN = "its log does not refute it"  # which is no fault of a cube that was split


@dataclass(frozen=True)
class Joined:
    """What `psprove verify` says of the record, and the faults of the cubes whose logs are wrong."""

    says: str
    bad: dict[str, str]


def join_logs(tree: Tree, record: str, clock: Clock) -> Joined:
    """Makes the record, and has it judged; then it takes its name. What it proves stands in the folder from then on."""
    psprove, told = Psprove(clock, f"{tree.folder}"), list[str]()
    project, start = ["--project", f"{tree.folder / PROJECT}"], list[str]()
    if tree.starts is not None:
        write_file(tree.folder / "start", starts_text(tree.starts))
        start = ["--start", f"{tree.folder / 'start'}"]
    made = os.path.join(os.path.dirname(os.path.realpath(record)), f".plan-{secrets.token_hex(8)}")
    try:
        psprove.call(["join", *project, *start, "--tree", f"{tree.write_list()}", "--record", made], b"", math.inf,
                     told.append)
        status, out = psprove.call(["verify", *project], pathlib.Path(made), math.inf)
        says = out.decode("utf-8", "replace").strip()
        if status != 0 or not PROVED.fullmatch(says):
            raise Failed(f"{record}, by psprove join, proves nothing: {says}")
        rename_whole(made, record)
    finally:
        for left in (made, f"{made}.part"):
            pathlib.Path(left).unlink(missing_ok=True)
    write_file(tree.folder / "proved", f"{says}\n".encode())
    found = {match[1].strip("-"): match[2] for match in map(BAD.fullmatch, told) if match is not None}
    return Joined(says, {name: fault for name, fault in found.items() if fault != OPEN or name in tree.refuted})


def place_of(folder: str, record: str | None) -> str:
    """Where the record goes: into the folder, where nothing else is said."""
    place = record or os.path.join(folder, "record")
    must_be_like(place, BEGIN, "record")
    return place


def outside(folder: str, record: str | None) -> str | None:
    """The record's file, where it is another one than that of the folder."""
    is_own = record is None or os.path.realpath(record) == os.path.realpath(os.path.join(folder, "record"))
    return None if is_own else record


def join(folder: str, record: str | None) -> int:
    must_be_whole(pathlib.Path(folder))
    lose_none({f"the file {path} of cubes": path for path in files_of(pathlib.Path(folder))}, [outside(folder, record)])
    lose_none({}, [outside(folder, record)], folder)
    tree, place = Tree(pathlib.Path(folder)), place_of(folder, record)
    if not tree.logs:
        raise BadInput(f"{folder}: no cube has ended yet, so there is nothing to join")
    clock = Clock().listen()
    found = join_logs(tree, place, clock)
    print(f"{place}: {found.says}, of {tree.folder / PROJECT}")
    for name, fault in found.bad.items():
        print(f"plan: cube {name or WHOLE}: {printable(fault)}; it is left out", file=sys.stderr)
    return WRONG if found.bad else 0
