"""What a disk may hold after a power cut, by the system calls of a run, which strace tells.

A file is sure to have the bytes of its last fsync. Those that were written since may be there, be cut off, or be lost.
A folder is sure to have the names of its last fsync; those that were given and taken since may be the older ones."""
import os
import re
import shutil
from collections.abc import Iterator, Mapping
from dataclasses import dataclass, field
from pathlib import Path

CALLS = ("openat,write,pwrite64,fsync,fdatasync,rename,renameat,renameat2,link,linkat,unlink,unlinkat,mkdir,mkdirat,"
         "ftruncate")
OF_FILES = ("write", "pwrite64", "fsync", "fdatasync", "ftruncate")  # calls that name their file by its descriptor
LINE = re.compile(rb"^\d+ +(\w+)\((.*)\) += (-?\d+)", re.S)
RESUMED = re.compile(rb"^\d+ +<\.\.\. \w+ resumed>")
TEXT = re.compile(rb'"((?:\\x[0-9a-f]{2})*)"')
PATH = re.compile(rb"<([^>]*)>")
State = dict[str, bytes]  # what each file of a folder holds


@dataclass
class File:
    now: bytes = b""
    kept: bytes = b""  # by the disk

    def cut(self) -> bytes:
        """Half of what was written since the last flush is there."""
        kept = self.kept if self.now.startswith(self.kept) else b""
        return self.now[: (len(kept) + len(self.now)) // 2]


@dataclass
class Disk:
    """Files by their names, as the system has them and as the disk is sure to keep them. Folders are kept with their
    names."""
    now: dict[str, File] = field(default_factory=dict)
    kept: dict[str, File] = field(default_factory=dict)

    def write(self, path: str, data: bytes, at: int | None = None) -> None:
        file = self.now[path]
        place = len(file.now) if at is None else at
        file.now = file.now[:place] + data + file.now[place + len(data) :]

    def flush(self, path: str) -> None:
        """A file, or the names of a folder."""
        if path in self.now:
            self.now[path].kept = self.now[path].now
            return
        below = {name: file for name, file in self.now.items() if os.path.dirname(name) == path}
        self.kept = {name: file for name, file in self.kept.items() if os.path.dirname(name) != path} | below

    def states(self) -> Iterator[tuple[str, State]]:
        """Names as they are or as they are kept, and the same of the bytes, or these cut off."""
        for names, which in (("now", self.now), ("kept", self.kept)):
            yield f"names {names}, bytes now", {name: file.now for name, file in which.items()}
            yield f"names {names}, bytes cut", {name: file.cut() for name, file in which.items()}
            yield f"names {names}, bytes kept", {name: file.kept for name, file in which.items()}


def traced(log: Path) -> list[str]:
    """The words before a command whose system calls go into a log."""
    return ["strace", "-f", "-y", "-xx", "-s", "100000000", "-e", f"trace={CALLS}", "-o", str(log)]


def calls(log: bytes) -> Iterator[tuple[str, list[bytes], bytes]]:
    """Each system call that worked: its name, its texts, and all of its words."""
    begun: dict[bytes, bytes] = {}  # calls of threads, which others interrupt
    for line in log.split(b"\n"):
        thread = line.partition(b" ")[0]
        if line.endswith(b" <unfinished ...>"):
            begun[thread] = line.removesuffix(b" <unfinished ...>")
            continue
        resumed = RESUMED.match(line)
        found = LINE.match(begun.pop(thread, b"") + line[resumed.end() :] if resumed else line)
        if found is not None and int(found[3]) >= 0:
            texts = [bytes.fromhex(text.replace(b"\\x", b"").decode()) for text in TEXT.findall(found[2])]
            yield found[1].decode(), texts, found[2]


def replay(log: bytes, there: Path, before: Mapping[str, bytes]) -> Iterator[Disk]:
    """The disk after each call that changes something in a folder. Names that are not absolute begin there."""
    disk = Disk()
    for name, data in before.items():
        disk.now[name] = disk.kept[name] = File(data, data)
    for name, texts, words in calls(log):
        paths = [] if name in OF_FILES else [os.path.join(there, text.decode("utf-8", "replace")) for text in texts]
        opened = PATH.search(words)
        path = opened[1].decode("unicode_escape") if opened and name in OF_FILES else paths[0] if paths else ""
        if path.startswith(str(there)) and change(disk, name, path, paths, texts, words):
            yield disk


def change(disk: Disk, name: str, path: str, paths: list[str], texts: list[bytes], words: bytes) -> bool:
    """Whether the call changes what the disk holds."""
    if name == "openat" and b"O_CREAT" in words and path not in disk.now:
        disk.now[path] = File()
    elif name == "openat" and b"O_TRUNC" in words and path in disk.now:
        disk.now[path].now = b""
    elif name == "write" and path in disk.now:
        disk.write(path, texts[0])
    elif name == "pwrite64" and path in disk.now:
        disk.write(path, texts[0], int(words.rpartition(b", ")[2]))
    elif name in ("fsync", "fdatasync"):
        disk.flush(path)
    elif name == "ftruncate" and path in disk.now:
        disk.now[path].now = disk.now[path].now[: int(words.rpartition(b", ")[2])]
    elif name.startswith("rename"):
        disk.now[paths[1]] = disk.now.pop(paths[0])
    elif name.startswith("link"):
        disk.now[paths[1]] = disk.now[paths[0]]
    elif name.startswith("unlink"):
        disk.now.pop(path, None)
    else:
        return False
    return True


def contents(folder: Path) -> State:
    """What the files of a folder and of those below hold."""
    return {str(path): path.read_bytes() for path in folder.rglob("*") if path.is_file()}


def put(folder: Path, state: Mapping[str, bytes]) -> None:
    """Has a folder hold just these files."""
    shutil.rmtree(folder)
    folder.mkdir()
    for name, data in state.items():
        path = Path(name)
        path.parent.mkdir(parents=True, exist_ok=True)
        path.write_bytes(data)
