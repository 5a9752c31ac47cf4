"""The files of a call: those that it reads, and those that it writes. No written one is a read one, and no two written
ones are the same, whatever they are called. All commands and the package ask here, before anything is done."""
import os
from collections.abc import Iterable, Mapping

from .errors import BadInput
from .files import DASH, MARK, STANDARD_INPUT, must_be_writable, read_there

Identity = tuple[int, int, str]  # a file's device and number; of one that isn't there those of its folder, and its name


def lose_none(reads: Mapping[str, str], writes: Iterable[str | None], folder: str | None = None) -> None:
    """A fault where a file that the call reads would be lost, or one that it writes. What is read stands by what it is.
    The folder is one whose files the call names itself; nothing else that it reads or writes lies there."""
    read = {identity(path): what for what, path in reads.items() if is_there(path)}
    written: set[Identity] = set()
    for path in (path for path in writes if path is not None):
        must_be_writable(path)
        found = identity(path)
        if found in read:
            raise BadInput(f"{path} is {read[found]}, which would be lost")
        if found in written:
            raise BadInput(f"{path} can't hold two outputs at once")
        if folder is not None and lies_in(path, folder):
            raise BadInput(f"{path} lies in {folder}, whose files plan names itself; name a file outside of it")
        written.add(found)
    for what, path in reads.items():
        if folder is not None and is_there(path) and lies_in(path, folder):
            raise BadInput(f"{path} is {what}, and would be lost, since it lies in {folder}, whose files plan names "
                           "itself")


def input_path(path: str) -> str:
    return STANDARD_INPUT if path == DASH else path


def is_there(path: str) -> bool:
    return os.path.exists(input_path(path))


def identity(path: str) -> Identity:
    """By what the system says, links followed. The folder is there."""
    try:
        told, name = os.stat(input_path(path)), ""
    except OSError:
        folder, name = os.path.split(os.path.realpath(input_path(path)))
        told = os.stat(folder)
    return told.st_dev, told.st_ino, name


def same_file(one: str, other: str) -> bool:
    """Whether both names lead to one file."""
    return is_there(one) and is_there(other) and identity(one) == identity(other)


def lies_in(path: str, folder: str) -> bool:
    """Whether the file, or what its link leads to, is below the folder."""
    if not os.path.isdir(folder):
        return False
    above, place = os.path.dirname(os.path.realpath(input_path(path))), os.stat(folder)
    while not (os.path.isdir(above) and os.path.samestat(os.stat(above), place)):
        above, before = os.path.dirname(above), above
        if above == before:
            return False
    return True


def must_be_like(path: str | None, begin: bytes, what: str) -> None:
    """Tells before anything is done that a file which would be replaced is none of its kind, but a plan, for
    example."""
    there = read_there(path)
    if there.strip() and not there.removeprefix(MARK).startswith(begin):
        raise BadInput(f"{path} is there, and no {what}, and would be lost; name another file")


def must_be_empty(folder: str | None) -> None:
    """A folder for records is a new one, or has nothing in it."""
    if folder is not None and os.path.exists(folder) and not (os.path.isdir(folder) and not os.listdir(folder)):
        raise BadInput(f"{folder} is no empty folder; name a new one with --out")
