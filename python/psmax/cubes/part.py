"""The check of a part of a record, as a worker runs it. Dask sends this module by value, as that of a cube's search."""
import contextlib
import hashlib
import io
import pathlib
import subprocess
import tempfile
import time
import zlib
from typing import IO

from .cube import ASK, Ask, Row, ask_dask, failed, program_of, end_of_output

PIECE = 1 << 20  # bytes of the record that are read at once


def on_dask(task: Row) -> Row:
    """The check on a worker of Dask."""
    return check_part(task, ask_dask(task), ASK)


def check_part(task: Row, ask: Ask, every: float) -> Row:
    """What psprove says of the part, and whether the bytes that it was given are those of the record."""
    with tempfile.TemporaryDirectory(prefix="part-") as folder:
        here = pathlib.Path(folder)
        (here / "project").write_bytes(zlib.decompress(task["project"]))
        part = f"{task['number']}/{task['count']}"
        words = [program_of(task), "verify", "--part", part, "--project", str(here / "project")]
        try:
            source = open_record(task)
        except OSError:  # this machine doesn't see the file
            return {"is_same": False}
        with source:
            status, digest = fed(words, source, here, ask, every)
        if status not in (0, 4):
            raise failed("verify", status, here)
        says = end_of_output(here, "out" if status == 0 else "err")
        return {"is_same": digest == task["sha256"], "is_right": status == 0, "says": says}


def open_record(task: Row) -> IO[bytes]:
    """The record, which comes with the task, or is a file."""
    return io.BytesIO(zlib.decompress(task["record"])) if "record" in task else open(task["path"], "rb")


def fed(line: list[str], source: IO[bytes], here: pathlib.Path, ask: Ask, every: float) -> tuple[int, str]:
    """The exit status of a check, and the SHA-256 of the bytes that it was given."""
    digest, asked = hashlib.sha256(), -every
    with (here / "out").open("wb") as out, (here / "err").open("wb") as err, subprocess.Popen(
            line, stdin=subprocess.PIPE, stdout=out, stderr=err, start_new_session=True) as child:
        assert child.stdin is not None
        try:
            for piece in iter(lambda: source.read(PIECE), b""):
                if time.monotonic() >= asked + every:
                    asked = time.monotonic()
                    if ask() is None:
                        raise RuntimeError("nobody waits for this check")
                digest.update(piece)
                with contextlib.suppress(BrokenPipeError):  # it has found a fault
                    child.stdin.write(piece)
            with contextlib.suppress(BrokenPipeError):
                child.stdin.close()
            return child.wait(), digest.hexdigest()
        except BaseException:
            child.kill()
            raise
