"""Runs a program for so many seconds of processor time, and says what its lines were and when they came."""
import os
import pathlib
import queue
import select
import signal
import subprocess
import threading
import time
from collections.abc import Callable
from typing import IO

GLANCE = 0.05  # seconds between two looks at what a program has used
GRACE = 30.0  # seconds that it has to end in, once it was asked to
TICKS = os.sysconf("SC_CLK_TCK")
Texts = queue.SimpleQueue[bytes | None]  # what is written to a program, and none to end it
Reply = Callable[[str], bytes | None]


class Watched:
    """What a program wrote, as pairs of seconds of processor time and a line; and what it took in all."""

    def __init__(self) -> None:
        self.lines: list[tuple[float, str]] = []
        self.seconds, self.memory, self.stopped = 0.0, 0.0, False

    def look(self, pid: int) -> None:
        seconds = memory = 0.0
        for process in family(pid):
            used, peak = taken(process)
            seconds += used
            memory += peak
        self.seconds = max(self.seconds, seconds)
        self.memory = max(self.memory, memory)


def family(pid: int) -> list[int]:
    """A process and those that it started, as far as they run."""
    found = [pid]
    for process in found:
        try:
            found += map(int, pathlib.Path(f"/proc/{process}/task/{process}/children").read_text().split())
        except OSError:
            continue
    return found


def taken(process: int) -> tuple[float, float]:
    """The processor time of a process and of its children that ended, and its peak memory in MiB."""
    try:
        numbers = pathlib.Path(f"/proc/{process}/stat").read_text().rpartition(")")[2].split()
        status = pathlib.Path(f"/proc/{process}/status").read_text()
    except OSError:
        return 0.0, 0.0
    peak = status.partition("VmHWM:")[2].split()
    return sum(map(int, numbers[11:15])) / TICKS, int(peak[0]) / 1024 if peak else 0.0


def feed(stream: IO[bytes], texts: Texts) -> None:
    """Writes texts as they come, up to none."""
    with stream:
        for text in iter(texts.get, None):
            try:
                stream.write(text)
                stream.flush()
            except BrokenPipeError:
                return


def watch(command: list[str], source: str, seconds: float, reply: Reply | None = None,
          until: pathlib.Path | None = None) -> Watched:
    """Runs a command on a file as its input. After so many seconds of processor time it is asked to end, by the file
    `until` where it looks for one. `reply` gives for each line what is written to the program then, and none to end its
    input; without it the file is all."""
    with open(source, "rb") as given:
        child = subprocess.Popen(command, stdin=subprocess.PIPE if reply else given, stdout=subprocess.PIPE,
                                 stderr=subprocess.STDOUT, start_new_session=True)
        texts: Texts = queue.SimpleQueue()
        if child.stdin:
            texts.put(given.read())
            threading.Thread(target=feed, args=(child.stdin, texts), daemon=True).start()
    watched = Watched()
    try:
        follow(child, watched, seconds, until, lambda line: texts.put(reply(line)) if reply else None)
    finally:
        texts.put(None)
        end(child)
    return watched


def follow(child: subprocess.Popen[bytes], watched: Watched, seconds: float, until: pathlib.Path | None,
           take: Callable[[str], None]) -> None:
    """Reads lines until the program ends, or is not in time once it was asked to end."""
    assert child.stdout is not None
    rest, asked = b"", None
    while asked is None or time.monotonic() < asked + GRACE:
        ready, _, _ = select.select([child.stdout], [], [], GLANCE)
        watched.look(child.pid)
        if ready:
            came = os.read(child.stdout.fileno(), 1 << 20)
            if not came:
                break
            *whole, rest = (rest + came).split(b"\n")
            for line in whole:
                watched.lines.append((watched.seconds, line.decode(errors="replace")))
                take(watched.lines[-1][1])
        if asked is None and watched.seconds >= seconds:
            asked, watched.stopped = time.monotonic(), True
            if until:
                until.touch()
            else:
                child.send_signal(signal.SIGTERM)


def end(child: subprocess.Popen[bytes]) -> None:
    if child.poll() is None:
        try:
            child.wait(0.2)
        except subprocess.TimeoutExpired:
            os.killpg(child.pid, signal.SIGKILL)
            child.wait()
    if child.stdout:
        child.stdout.close()
