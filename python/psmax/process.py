"""The process of a program that runs: its lines as they come, and how it is ended."""
import os
import select
import shutil
import subprocess
import threading
import time
from collections.abc import Callable, Sequence
from typing import IO

from .clock import Clock

GLANCE = 0.05  # seconds between two looks, where a batch waits for a search
ENDING = 5.0  # seconds that a program has to answer in, once it is asked to end
HURRY = 0.1  # the same where the search is cancelled
RECORD = 60.0  # seconds that it has for its record, which may be long, once it has answered
LONGEST = 1_000_000.0  # seconds of one wait
CHUNK = 1 << 16  # bytes of one read


def tied(words: Sequence[str]) -> list[str]:
    """The words of a program that is killed when the thread ends that starts it, whatever ends that: `setpriv` of
    util-linux asks the system for it. The shell sees to it that this was in time, since its parent is still this
    process."""
    setpriv = shutil.which("setpriv")
    if setpriv is None:
        return [*words]
    return [setpriv, "--pdeathsig", "KILL", "--", "/bin/sh", "-c", 'test "$PPID" = "$0" && exec "$@"', f"{os.getpid()}",
            *words]


class Process:
    """A program that runs until it has ended by itself, or until there is the file by which it is asked to. It is
    killed where it takes no such file, or doesn't end in time. The system says when something has come: nothing is
    polled."""

    def __init__(self, words: Sequence[str], source: IO[bytes], out: IO[bytes], until: str | None,
                 clock: Clock) -> None:
        self.out, self.until, self.clock = out, until, clock
        self.told, end = os.pipe()
        try:
            self.child = subprocess.Popen(tied(words), stdin=source, stdout=out, stderr=end, start_new_session=True)
        except OSError:
            os.close(self.told)
            raise
        finally:
            os.close(end)
        os.set_blocking(self.told, False)
        self.ended = open_pidfd(self.child.pid)
        self.lock = threading.RLock()
        self.woken, self.waker = os.pipe()
        os.set_blocking(self.woken, False)
        self.rest = b""  # of what it told, behind the last whole line
        self.asked: float | None = None  # when it was asked to end
        self.is_left = False  # since Python ends, and the thread that waits with it

    def run(self, end: float, hear: Callable[[str], None]) -> bool:
        """Hears its lines as they come, until the end by the system's clock. Whether it has ended by itself, or when it
        was asked to."""
        places = select.poll()
        for place in (self.told, self.woken, *self.ended):
            places.register(place, select.POLLIN)
        while True:
            ready = {place for place, _ in places.poll(1000 * self.patience(end))}
            if self.told in ready and not self.hear(hear):
                places.unregister(self.told)
                if not self.ended:
                    self.child.wait()
            if self.child.poll() is not None:
                self.must_go_on()
                self.hear(hear)
                return True
            if self.woken in ready:
                os.read(self.woken, CHUNK)
            if (self.clock.stopped or time.monotonic() >= end) and not self.ask():
                return False

    def hear(self, hear: Callable[[str], None]) -> bool:
        """Hears what it has told by now. Whether it may tell more."""
        while True:
            try:
                found = os.read(self.told, CHUNK)
            except BlockingIOError:
                return True
            whole, end, rest = (self.rest + found).rpartition(b"\n") if found else (self.rest, b"", b"")
            self.rest = rest
            for line in whole.decode("utf-8", "replace").split("\n") if whole else ():
                hear(line)
            if not found:
                return False

    def must_go_on(self) -> None:
        """A thread that is left does nothing more."""
        if self.is_left:
            threading.Event().wait()

    def patience(self, end: float) -> float:
        """Seconds until there is something to do where nothing comes. The clock may have been stopped before anybody
        could be woken."""
        if self.asked is None and self.clock.stopped:
            return 0.0
        until = end if self.asked is None else self.asked + self.seconds_to_end()
        return min(max(0.0, until - time.monotonic()), LONGEST)

    def seconds_to_end(self) -> float:
        """That it has once it is asked to."""
        if self.clock.is_in_hurry:
            return HURRY
        return RECORD if os.fstat(self.out.fileno()).st_size else ENDING

    def wake(self) -> None:
        """Has the thread that waits look at the clock. A signal may come in between."""
        with self.lock:
            if self.waker >= 0:
                os.write(self.waker, b"!")

    def ask(self) -> bool:
        """Asks it to end. Whether it still has time for that."""
        if self.until is None:
            return False
        if self.asked is None:
            self.asked = time.monotonic()
            try:
                with open(self.until, "wb"):
                    pass
            except OSError:
                self.until = None
        return time.monotonic() < self.asked + self.seconds_to_end()

    def kill(self) -> None:
        if self.child.poll() is None:
            self.child.kill()
            self.child.wait()

    def close(self) -> None:
        self.kill()
        with self.lock:
            waker, self.waker = self.waker, -1
        for place in (self.told, self.woken, waker, *self.ended):
            os.close(place)

    def end(self) -> None:
        """Where Python ends while another thread waits, which then does nothing more."""
        self.is_left = True
        while self.child.poll() is None and self.ask():
            time.sleep(GLANCE)
        self.kill()


def open_pidfd(pid: int) -> list[int]:
    """What says that a process has ended; nothing on a system that has no such thing, where the end of what it tells
    does."""
    try:
        return [os.pidfd_open(pid)]
    except OSError:
        return []
