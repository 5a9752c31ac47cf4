"""What is said of a record: by a program, and by the checker in Python of its kind, in the words of the program."""
import io
import pathlib
from collections.abc import Callable

import harness
import verify
import verify_log
from harness import Ended

TREE = b"record 1\n"  # the title of a record of a tree


def by_program(program: str, project: pathlib.Path, record: bytes, partial: bool = False) -> Ended:
    return harness.ended([program, "verify", *["--partial"] * partial, "--project", project], record, 600)


def is_tree(program: str, record: bytes, partial: bool = False) -> bool:
    """Whether `verify` of psmax or psprove takes a record for a tree: by its title. One of neither kind is taken for
    one of the program's own, and one that may be cut off for lemmas."""
    if partial:
        return False
    return not record.startswith(verify_log.TITLE) if program == "psmax" else record.startswith(TREE)


def by_script(project: verify.Project, record: bytes) -> Ended:
    return by_script_as("psmax", project, record)


def by_script_of_logs(project: verify.Project, log: bytes, partial: bool = False) -> Ended:
    return by_script_as("psprove", project, log, partial)


def by_script_as(program: str, project: verify.Project, record: bytes, partial: bool = False) -> Ended:
    """What this program has to say."""
    if is_tree(program, record, partial):
        return said(program, lambda: verify.verify(project, *verify.read_record(record)))
    return said(program, lambda: verify_log.verify(project, io.BytesIO(record), partial))


def said(program: str, verdict: Callable[[], str]) -> Ended:
    try:
        return 0, f"{verdict()}\n".encode(), b""
    except verify.Fault as fault:
        return fault.status, b"", f"{program}: {fault}\n".encode()
