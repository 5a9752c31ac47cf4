"""The folder of a tree of cubes: its mark, what may lie there, and how its files are opened. Nothing in it is a link,
so no file outside of it is read, written or deleted."""
import fcntl
import hashlib
import os
import pathlib
import re
import time
from collections.abc import Iterator
from io import BufferedRandom, BufferedReader

from ..errors import BadInput, Failed
from ..files import keep_names, reason, write_new, write_whole

MARK, VERSION = "mark", 2  # folders of version 1 had no mark
ROWS, PROJECT = "rows", "project.sch"
CUBES, INCOMING = "cubes", "incoming"
OWN = re.compile(r"\.plan-.*")  # files on their way to a name
OLD = 86_400.0  # seconds after which such a file is one that a killed run left
SAID = re.compile(rb"psmax cubes (\d{1,9}) ([0-9a-f]{64})\n")
PIECE = 1 << 20


def is_marked(folder: str) -> bool:
    """Whether it is a folder of cubes, by its mark."""
    return os.path.isfile(os.path.join(folder, MARK))


def digest(data: bytes) -> str:
    return hashlib.sha256(data).hexdigest()


def mark_folder(folder: pathlib.Path, project: bytes) -> None:
    """Makes a new folder, or an empty one, that of the cubes of a project. One that is there has to be that."""
    try:
        folder.mkdir(parents=True, exist_ok=True)
    except OSError as fault:
        raise Failed(f"cannot write {folder}: {reason(fault)}") from None
    if is_empty(folder):
        write_new({f"{folder / MARK}": f"psmax cubes {VERSION} {digest(project)}\n".encode()})
    if marked(folder) != digest(project):
        raise BadInput(f"{folder} was begun with another project; name a new one with --out")
    for kind in (CUBES, INCOMING):
        (folder / kind).mkdir(exist_ok=True)
    must_have_no_links(folder)


def is_empty(folder: pathlib.Path) -> bool:
    """Whether nothing is there, but for what a run left that was killed before it had made its mark."""
    return not folder.exists() or folder.is_dir() and all(OWN.fullmatch(name) for name in os.listdir(folder))


def must_be_cubes(folder: pathlib.Path) -> None:
    """A fault where the folder is neither new nor one of cubes."""
    if not is_empty(folder):
        marked(folder)
        must_have_no_links(folder)


def marked(folder: pathlib.Path) -> str:
    """The digest of the project that the mark of a folder names."""
    if not folder.is_dir() or not os.path.lexists(folder / MARK):
        raise BadInput(f"{folder} is no folder of cubes: it has no file {MARK}; name a new one with --out")
    with open_file(folder / MARK) as file:
        found = SAID.fullmatch(file.read(PIECE))
    if found is None:
        raise BadInput(f"{folder / MARK} is no mark of a folder of cubes")
    if int(found[1]) != VERSION:
        raise BadInput(f"{folder} is a folder of cubes of version {int(found[1])}, and this plan has version {VERSION}")
    return found[2].decode()


def must_be_whole(folder: pathlib.Path) -> None:
    """A fault where this is no folder of cubes, or not with the project that it was begun with."""
    found = marked(folder)
    must_have_no_links(folder)
    with open_file(folder / PROJECT) as file:
        if digest(file.read()) != found:
            raise BadInput(f"{folder / PROJECT} is not the project that the folder was begun with")


def must_have_no_links(folder: pathlib.Path) -> None:
    """A fault where something in the folder is a link, or neither a file nor one of its folders."""
    for entry in entries(folder):
        if entry.is_symlink():
            raise BadInput(f"{entry.path} is a link; nothing in a folder of cubes is one")
        is_own = entry.is_dir() and pathlib.Path(entry.path) in (folder / CUBES, folder / INCOMING)
        if not entry.is_file() and not is_own:
            raise BadInput(f"{entry.path} is no ordinary file, as all in a folder of cubes are")


def entries(folder: pathlib.Path) -> Iterator[os.DirEntry[str]]:
    """What lies in the folder, and then in its own folders."""
    with os.scandir(folder) as found:
        yield from found
    for kind in (CUBES, INCOMING):
        if (folder / kind).is_dir():
            with os.scandir(folder / kind) as found:
                yield from found


def files_of(folder: pathlib.Path) -> list[str]:
    return [entry.path for entry in entries(folder) if entry.is_file()]


def open_file(path: pathlib.Path, flags: int = os.O_RDONLY) -> BufferedReader | BufferedRandom:
    """The file, which is no link."""
    try:
        place = os.open(path, flags | os.O_NOFOLLOW | os.O_CLOEXEC, 0o666)
    except OSError as fault:
        raise Failed(f"cannot open {path}: {reason(fault)}") from None
    return os.fdopen(place, "rb") if flags == os.O_RDONLY else os.fdopen(place, "r+b")


def locked(folder: pathlib.Path) -> BufferedRandom:
    """The rows, to which this process alone writes. A last one that was cut off goes."""
    file = open_file(folder / ROWS, os.O_RDWR | os.O_CREAT)
    assert isinstance(file, BufferedRandom)
    try:
        fcntl.flock(file, fcntl.LOCK_EX | fcntl.LOCK_NB)
    except OSError:
        file.close()
        raise BadInput(f"{folder} has a driver already") from None
    if os.fstat(file.fileno()).st_nlink != 1:
        file.close()
        raise BadInput(f"{folder / ROWS} has a second name (a hard link), and would be changed under both")
    file.truncate(file.read().rfind(b"\n") + 1)
    file.seek(0, os.SEEK_END)
    return file


def is_driven(folder: pathlib.Path) -> bool:
    """Whether a driver holds the lock."""
    with open_file(folder / ROWS) as file:
        try:
            fcntl.flock(file, fcntl.LOCK_SH | fcntl.LOCK_NB)
        except OSError:
            return True
    return False


def clean(folder: pathlib.Path) -> None:
    """Deletes what runs before left on its way."""
    for entry in entries(folder):
        is_left = OWN.fullmatch(entry.name) and entry.stat(follow_symlinks=False).st_mtime < time.time() - OLD
        if is_left or os.path.dirname(entry.path) == str(folder / INCOMING):
            os.unlink(entry.path)


def digest_of(path: pathlib.Path) -> str:
    """Of a file's bytes; empty where it can't be read."""
    try:
        with open_file(path) as file:
            return hashlib.file_digest(file, "sha256").hexdigest()
    except (Failed, OSError):
        return ""


def take(path: pathlib.Path, target: pathlib.Path) -> None:
    """Moves a file that somebody else has written to its name, once the disk has it."""
    with open_file(path) as file:
        os.fsync(file.fileno())
    os.replace(path, target)
    keep_names(target.parent)


def write_file(path: pathlib.Path, data: bytes) -> None:
    """Writes a file of the folder, whole or not at all."""
    if path.is_symlink():
        raise BadInput(f"{path} is a link; nothing in a folder of cubes is one")
    write_whole(f"{path}", data)
