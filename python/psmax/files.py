"""Files: read with a clear fault, written whole or not at all, and looked at for changes."""
import codecs
import errno
import hashlib
import os
import pathlib
import stat
import sys
import tempfile
from collections.abc import Iterable, Iterator, Mapping, MutableMapping
from contextlib import contextmanager
from typing import TextIO
from weakref import WeakKeyDictionary

from .errors import BadInput, Failed, WrongType

STANDARD_INPUT = "/dev/stdin"  # where an answer comes from that is in no file
DASH = "-"  # what standard input is called by words of the command
MARK = b"\xef\xbb\xbf"  # the byte order mark of UTF-8
SPREADSHEET = b"PK\x03\x04"  # how a spreadsheet file begins
PAGE = "cp1252"  # of Windows in the west of Europe
LARGEST = 16_777_216  # bytes; psmax reads no longer text, so one byte more is enough to know
MOST_BYTES = 4_194_304  # of a table, an answer, and a text of any format but psmax's own and XML
BLANKS = b" \t\r\n,;"  # of which blank rows at the end of a table are made


# What standard input held, which can be read once alone.
HELD: MutableMapping[TextIO, bytes] = WeakKeyDictionary()
Stamp = tuple[int, int, int] | None  # when a file was changed, its size and its place; none where there is no file


def read_bytes(path: str, most: int | None = LARGEST) -> bytes:
    """What the file holds, or standard input, up to one byte more than the programs would read; all where there is no
    most."""
    if path == DASH:
        return read_input(None)
    try:
        with open(path, "rb") as file:
            return file.read(-1 if most is None else most + 1)
    except (OSError, ValueError) as fault:
        raise Failed(f"cannot read {path}: {reason(fault)}") from None


def read_there(path: str | None) -> bytes:
    """What a file holds that would be replaced; nothing where none is there."""
    return read_bytes(path) if path is not None and os.path.isfile(path) else b""


def sha256_of(path: str) -> str:
    """Of all that the file holds."""
    try:
        with open(path, "rb") as file:
            return hashlib.file_digest(file, "sha256").hexdigest()
    except OSError as fault:
        raise Failed(f"cannot read {path}: {reason(fault)}") from None


def read_input(path: str | None) -> bytes:
    """What the file holds, or standard input where there is no name."""
    if path is not None:
        return read_bytes(path)
    if sys.stdin is None:
        raise Failed("standard input is closed")
    if sys.stdin not in HELD:
        HELD[sys.stdin] = sys.stdin.buffer.read(LARGEST + 1)
    return HELD[sys.stdin]


def read_text(path: str, sheet: str | None = None) -> str:
    """The text of a file, without a byte order mark; of a spreadsheet file one of its sheets in CSV."""
    data = without_blank_rows(read_bytes(path))
    if not data.startswith(SPREADSHEET):
        must_be_short(path, data)
    try:
        return text_in(data, path, sheet)
    except UnicodeDecodeError as fault:
        line = data.count(b"\n", 0, fault.start) + 1
        raise BadInput(f"{path}: line {line} is not UTF-8; save the table as CSV in UTF-8") from None


def without_blank_rows(data: bytes) -> bytes:
    """A text without the blank rows at its end, of which a spreadsheet may write a million."""
    if data.startswith((codecs.BOM_UTF16_LE, codecs.BOM_UTF16_BE)):
        return data
    end = data.find(b"\n", len(data.rstrip(BLANKS)))
    return data if end < 0 else data[: end + 1]


def must_be_short(called: str, data: bytes) -> None:
    if len(data) > MOST_BYTES:
        raise BadInput(f"{called}: too long: it has more than {MOST_BYTES:,} bytes")


def decode(data: bytes) -> str:
    """By the byte order mark UTF-16, else UTF-8, else code page 1252, in which Excel for Windows writes CSV.
    UnicodeDecodeError where a text is none of these."""
    if data.startswith((codecs.BOM_UTF16_LE, codecs.BOM_UTF16_BE)):
        return data.decode("utf-16")
    return data.decode(PAGE if is_in_code_page(data) else "utf-8-sig")


def is_in_code_page(data: bytes) -> bool:
    """Whether a text without a mark may be in code page 1252, since it is no UTF-8."""
    try:
        data.decode("utf-8-sig")
    except UnicodeDecodeError:
        return b"\0" not in data
    return False


def text_in(data: bytes, called: str, sheet: str | None = None) -> str:
    """The same, also of a spreadsheet file. A sheet that is named of any other file is a fault."""
    if data.startswith(SPREADSHEET):
        from .spreadsheet import as_csv
        return as_csv(data, called, sheet)
    if sheet is not None:
        raise BadInput(f"{called}: --sheet is for spreadsheet files")
    return decode(data)


def decoded(data: bytes) -> str:
    """The same, with a sign for what is none."""
    try:
        return decode(data)
    except UnicodeDecodeError:
        return data.decode("utf-8-sig", "replace")


def named_path(path: object) -> str:
    """The text of a path that a user names."""
    if not isinstance(path, (str, os.PathLike)):
        raise WrongType(f"{path!r} is no path")
    return os.fsdecode(path)


def folder_of(path: str | None) -> str | None:
    """The folder in which the file lies that a path leads to."""
    return None if path is None else str(pathlib.Path(path).resolve().parent)


def must_be_writable(path: str) -> None:
    """Tells before long work is begun that its answer could not be written."""
    target = pathlib.Path(path).resolve()
    folder = target.parent
    if not folder.is_dir():
        raise Failed(f"cannot write {path}: no folder {folder}")
    if target.exists() and not target.is_file():
        raise Failed(f"cannot write {path}: it is no ordinary file")
    if not os.access(folder, os.W_OK):
        raise Failed(f"cannot write {path}: the folder {folder} may not be changed")


def write_whole(path: str, data: bytes) -> None:
    """Writes a file beside it and renames that, so the file is never half written, also where the power fails. A file
    that is replaced hands on its mode."""
    write_parts(path, [data])


def write_parts(path: str, parts: Iterable[bytes]) -> None:
    """The same of what comes one part after another."""
    must_be_writable(path)
    target = pathlib.Path(path).resolve()
    try:
        with file_beside(target, parts) as made:
            made.replace(target)
            keep_names(target.parent)
    except OSError as fault:
        raise Failed(f"cannot write {path}: {reason(fault)}") from None


@contextmanager
def file_beside(target: pathlib.Path, parts: Iterable[bytes],
                like: pathlib.Path | None = None) -> Iterator[pathlib.Path]:
    """A file in the same folder, which the disk has, with the mode of the one that it replaces or is like. It is
    deleted, unless it gets another name."""
    with tempfile.NamedTemporaryFile(dir=target.parent, prefix=".plan-", delete=False) as file:
        made = pathlib.Path(file.name)
        try:
            file.writelines(parts)
            hand_on_mode(like or target, file.fileno())
            file.flush()
            os.fsync(file.fileno())
            yield made
        finally:
            made.unlink(missing_ok=True)


def rename_whole(made: str, path: str) -> None:
    """Gives a file that lies in the folder of another its name, as if it were written whole."""
    try:
        target = pathlib.Path(path).resolve()
        with open(made, "rb") as file:
            hand_on_mode(target, file.fileno())
            os.fsync(file.fileno())
        os.replace(made, target)
        keep_names(target.parent)
    except OSError as fault:
        raise Failed(f"cannot write {path}: {reason(fault)}") from None


def hand_on_mode(path: pathlib.Path, file: int) -> None:
    """Gives a new file the mode of the one that it replaces, and its group. Where it can't have that group, the group
    may do no more than everybody else may."""
    try:
        told = os.stat(path)
    except FileNotFoundError:
        return os.fchmod(file, 0o666 & ~mask())
    mode = stat.S_IMODE(told.st_mode)
    if os.fstat(file).st_gid != told.st_gid:
        try:
            os.fchown(file, -1, told.st_gid)
        except PermissionError:
            mode &= ~0o070 | (mode & 0o007) << 3
    os.fchmod(file, mode)


def keep_names(folder: pathlib.Path) -> None:
    """Has the disk keep what the files of a folder are called now."""
    place = os.open(folder, os.O_RDONLY | os.O_DIRECTORY)
    try:
        os.fsync(place)
    except OSError as fault:
        if fault.errno != errno.EINVAL:  # of file systems whose folders can't be flushed
            raise
    finally:
        os.close(place)


def write_new(files: Mapping[str, bytes], like: str | None = None) -> bool:
    """Writes each file whole where none of them is there, and otherwise nothing. Whether it did. They get the mode of
    the file that they are like, so that nobody reads there what he may not read in that."""
    made: list[str] = []
    try:
        for path, data in files.items():
            with file_beside(pathlib.Path(path), [data], pathlib.Path(like) if like is not None else None) as whole:
                put_new(whole, path)
            made.append(path)
        for folder in {os.path.dirname(path) or "." for path in files}:
            keep_names(pathlib.Path(folder))
        return True
    except OSError as fault:
        for path in made:
            os.unlink(path)
        if not isinstance(fault, FileExistsError):
            raise Failed(f"cannot write {fault.filename}: {reason(fault)}") from None
    return False


def put_new(whole: pathlib.Path, path: str) -> None:
    """Gives a file a name that no file has."""
    try:
        os.link(whole, path)
    except FileExistsError:
        raise
    except OSError:  # of file systems without links
        os.close(os.open(path, os.O_CREAT | os.O_EXCL, 0o666))
        os.replace(whole, path)


def mask() -> int:
    """The permissions that new files do not get."""
    now = os.umask(0)
    os.umask(now)
    return now


def reason(fault: Exception) -> str:
    text = fault.strerror if isinstance(fault, OSError) and fault.strerror else str(fault)
    return text[:1].lower() + text[1:]


class Saves:
    """Whether files were saved since they were read. One that is still written to counts once it rests."""

    def __init__(self) -> None:
        self.read: dict[str, Stamp] = {}
        self.seen: dict[str, Stamp] = {}

    def look(self, paths: Iterable[str]) -> bool:
        """Whether a file is to be read again, since it differs from when it was read, and not from the last look. It
        has been read then."""
        now = {path: stamp(path) for path in paths}
        rests, self.seen = now == self.seen, now
        if not rests or now == self.read:
            return False
        self.read = now
        return True


def stamp(path: str) -> Stamp:
    try:
        told = os.stat(path)
    except (OSError, ValueError):  # ValueError of a name that no file can have
        return None
    return told.st_mtime_ns, told.st_size, told.st_ino
