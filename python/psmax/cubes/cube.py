"""The search of one cube, as a worker runs it: a psprove that follows what is known elsewhere. Dask sends this module
by value, so it imports nothing of the package. A worker needs Dask, and the psprove that $PSPROVE names or its PATH
has."""
import contextlib
import hashlib
import json
import os
import pathlib
import secrets
import subprocess
import tempfile
import time
import zlib
from collections.abc import Callable
from typing import Any

GLANCE = 0.02  # seconds between two looks at the search
ASK = 5.0  # seconds between two questions of a worker of Dask for a shorter schedule
WAIT = 60.0  # seconds for an answer to one
SECONDS = 1_000_000  # of a search, which its conflicts limit
GIVEN = ("project", "path", "import", "start")  # files that a search reads
MADE = ("log", "lemmas")  # files that it writes
TOLD = ("cube", "starts", "pieces", "conflicts", "record_bytes")  # what it answers

Row = dict[str, Any]
Ask = Callable[[], Row | None]  # the `starts` of the shortest schedule so far; no row where nobody waits any more


def on_dask(task: Row) -> Row:
    """The search on a worker of Dask."""
    return search_cube(task, ask_dask(task), ASK)


def ask_dask(task: Row) -> Ask:
    """What is known stands in a variable with the name of the run."""
    from distributed import Variable, get_client
    shared = Variable(task["run"], client=get_client())

    def ask() -> Row | None:
        known: Row | None = shared.get(timeout=WAIT)
        return known

    return ask


def search_cube(task: Row, ask: Ask, every: float) -> Row:
    """What psprove answers, with the files that it made."""
    with tempfile.TemporaryDirectory(prefix="cube-") as folder:
        here = pathlib.Path(folder)
        for name in GIVEN:
            (here / name).write_bytes(zlib.decompress(task[name]))
        status, seconds = followed(search_words(task, here), here, task["below"], ask, every)
        if status not in (0, 3):
            raise failed("solve", status, here)
        row = json.loads((here / "out").read_text())
        return {key: row[key] for key in TOLD} | {"seconds": seconds, "files": sent(task, here)}


def program_of(task: Row) -> str:
    program: str = task["program"] or os.environ.get("PSPROVE", "psprove")
    return program


def end_of_output(here: pathlib.Path, file: str) -> str:
    """The end of what psprove wrote there."""
    return (here / file).read_text(errors="replace").strip().removeprefix("psprove: ")[-300:]


def failed(command: str, status: int, here: pathlib.Path) -> RuntimeError:
    why = end_of_output(here, "err")
    return RuntimeError(f"psprove {command} ended with status {status}" + (f": {why}" if why else ""))


def search_words(task: Row, here: pathlib.Path) -> list[str]:
    found = [program_of(task), "solve", "--json", "--follow",
             "--project", str(here / "project"), "--under", str(here / "path"), "--record", str(here / "log"),
             "--export", str(here / "lemmas"), "--seconds", f"{SECONDS}",
             "--conflicts", f"{task['conflicts']}", "--pieces", f"{task['pieces']}"]
    for name in ("import", "start"):
        if (here / name).stat().st_size:
            found += [f"--{name}", str(here / name)]
    return found


def followed(line: list[str], here: pathlib.Path, below: int | None, ask: Ask, every: float) -> tuple[int, float]:
    """The exit status of the search, and its seconds of a processor. It is told of schedules shorter than it knows. It
    ends when its standard input does, so it doesn't outlive who started it."""
    with (here / "out").open("wb") as out, (here / "err").open("wb") as err, subprocess.Popen(
            line, stdin=subprocess.PIPE, stdout=out, stderr=err, bufsize=0, start_new_session=True) as child:
        asked = -every
        try:
            while True:
                ended, status, used = os.wait4(child.pid, os.WNOHANG)
                if ended:
                    child.returncode = os.waitstatus_to_exitcode(status)
                    return child.returncode, round(used.ru_utime + used.ru_stime, 3)
                if time.monotonic() >= asked + every:
                    known, asked = ask(), time.monotonic()
                    if known is None:
                        raise RuntimeError("nobody waits for this search")
                    starts = known["starts"]
                    if starts is not None and (below is None or starts[-1] < below):
                        below = starts[-1]
                        say(child, " ".join(map(str, starts)))
                time.sleep(GLANCE)
        except BaseException:
            child.kill()
            raise


def say(child: subprocess.Popen[bytes], line: str) -> None:
    assert child.stdin is not None
    with contextlib.suppress(BrokenPipeError):  # it has just ended
        child.stdin.write(f"{line}\n".encode())


def sent(task: Row, here: pathlib.Path) -> Row:
    """The files that were made, by their digests. Where this machine sees the driver's folder they are left there,
    under names that the number of the search and their digests make, and otherwise they come with the answer."""
    incoming, found = pathlib.Path(task["folder"], "incoming"), {}
    sees = is_seen(task)
    for file in MADE:
        data = (here / file).read_bytes()
        sha256 = hashlib.sha256(data).hexdigest()
        found[file] = {"sha256": sha256, "data": None if sees else zlib.compress(data, 1)}
        if sees:
            leave(incoming, f"{task['number']}-{sha256}.{file}", data)
    return found


def is_seen(task: Row) -> bool:
    """Whether the driver's folder is there, which its token shows."""
    try:
        return bool(pathlib.Path(task["folder"], "token").read_text() == task["run"])
    except (OSError, ValueError):
        return False


def leave(folder: pathlib.Path, name: str, data: bytes) -> None:
    """Writes a new file, and gives it its name once it is whole."""
    made = folder / f"{name}-{secrets.token_hex(8)}"
    with open(made, "xb") as file:
        file.write(data)
    os.replace(made, folder / name)
