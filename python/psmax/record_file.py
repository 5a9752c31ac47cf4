"""Files with records, which may be too long for memory."""
import os
import pathlib
import tempfile
import weakref
from collections.abc import Callable, Iterable
from contextlib import suppress

from .files import DASH, keep_names, read_bytes, rename_whole, write_parts

CHUNK = 1 << 20  # bytes that are read at once


class RecordFile:
    """A file with a record. One that a search wrote goes once nobody needs it any more, unless it is kept under a
    name."""

    def __init__(self, path: str, folder: str | None = None, is_flushed: bool = False) -> None:
        """The folder is one of its own, which goes with it; where it is flushed, the disk knows then that it is
        gone."""
        self.path = path
        self.forget: Callable[[], object] = lambda: None
        if folder is not None:
            self.forget = weakref.finalize(self, remove, folder, os.getpid(), is_flushed)

    def __repr__(self) -> str:
        return f"RecordFile({self.path!r}, {self.size():,} bytes)"

    def __reduce__(self) -> tuple[Callable[[bytes], "RecordFile"], tuple[bytes]]:
        """A pickle has the bytes of the record, and makes a file of them where it is read."""
        return file_of, (self.read(),)

    def size(self) -> int:
        return os.path.getsize(self.path) if os.path.exists(self.path) else 0

    def read(self) -> bytes:
        return read_bytes(self.path, None)

    def begins_with(self, begin: bytes) -> bool:
        return read_bytes(self.path, len(begin) - 1) == begin

    def chunks(self) -> Iterable[bytes]:
        with open(self.path, "rb") as file:
            while found := file.read(CHUNK):
                yield found

    def write(self, path: str) -> None:
        """A copy under this name, whole or not at all."""
        write_parts(path, self.chunks())

    def keep(self, path: str) -> "RecordFile":
        """Gives the file this name, which is one of the same file system; it stays then."""
        rename_whole(self.path, path)
        self.forget()
        return RecordFile(path)


def remove(folder: str, owner: int, is_flushed: bool) -> None:
    """A process that was copied from the owner removes nothing."""
    if os.getpid() != owner:
        return
    with suppress(OSError):
        for name in os.listdir(folder):
            os.unlink(os.path.join(folder, name))
        if is_flushed:
            keep_names(pathlib.Path(folder))
        os.rmdir(folder)


def new_file(folder: str | None = None) -> RecordFile:
    """A new file, in the folder of the system for such, or in this one. Nobody else may read it, nor what psprove has
    while it writes."""
    own = tempfile.mkdtemp(prefix="plan-" if folder is None else ".plan-", dir=folder)
    return RecordFile(os.path.join(own, "record"), own, folder is not None)


def file_of(data: bytes) -> RecordFile:
    made = new_file()
    pathlib.Path(made.path).write_bytes(data)
    return made


def record_at(path: str) -> RecordFile:
    """The record that a user names; one on standard input becomes a file of ours. Failed where it can't be read."""
    if path == DASH:
        return file_of(read_bytes(path, None))
    read_bytes(path, 0)
    return RecordFile(path)
