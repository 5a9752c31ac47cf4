"""How much time is left, what ends a run before that, and lines of progress that say when."""
import math
import signal
import sys
import threading
import time
from collections.abc import Callable, Iterator
from contextlib import contextmanager
from typing import NoReturn, Self

from .letters import printable

ENDS = (signal.SIGINT, signal.SIGTERM, signal.SIGHUP)  # Ctrl-C, a request to end, a terminal that closes


def on_standard_error(seconds: float, text: str) -> None:
    """Written at once, since several threads tell; where nobody reads it any more, the search goes on without."""
    try:
        print(f"{seconds:7.2f} s  {printable(text)}\n", end="", file=sys.stderr, flush=True)
    except OSError:
        pass


class Clock:
    """Counts from when it is made; what ends a run stops it where `listen` was called. What is told goes to `says`."""

    def __init__(self, seconds: float = math.inf, says: Callable[[float, str], None] = on_standard_error) -> None:
        self.begun = time.monotonic()
        self.seconds = seconds
        self.stopped = False
        self.is_in_hurry = False  # what is stopped is killed soon where it does not end
        self.says = says
        self.waiting: list[Callable[[], None]] = []  # each wakes a thread that waits for a program

    def elapsed(self) -> float:
        return time.monotonic() - self.begun

    def left(self) -> float:
        return 0.0 if self.stopped else max(0.0, self.seconds - self.elapsed())

    def over(self) -> bool:
        return self.left() == 0.0

    def stop(self, *_: object) -> None:
        self.stopped = True
        for wake in [*self.waiting]:
            wake()

    def cancel(self) -> None:
        self.is_in_hurry = True
        self.stop()

    def listen(self) -> Self:
        """From now on what would end the run stops this clock, and interrupts nothing."""
        for number in heard():
            signal.signal(number, self.stop)
        return self

    @contextmanager
    def interrupted(self) -> Iterator[None]:
        """Meanwhile the first Ctrl-C stops this clock; one more raises KeyboardInterrupt. Python hands signals to its
        main thread alone."""
        before = signal.getsignal(signal.SIGINT)
        if threading.current_thread() is not threading.main_thread() or before is None:
            yield
            return

        def stop(*_: object) -> None:
            signal.signal(signal.SIGINT, before)
            self.stop()

        signal.signal(signal.SIGINT, stop)
        try:
            yield
        finally:
            signal.signal(signal.SIGINT, before)

    def why_over(self) -> str:
        limit = "second is" if self.seconds == 1 else f"{self.seconds:g} seconds are"
        return "stopped" if self.stopped else f"the {limit} over"


def heard() -> list[signal.Signals]:
    """What ends a run; a closed terminal doesn't where it is ignored, as `nohup` has it."""
    return [number for number in ENDS if number != signal.SIGHUP or signal.getsignal(number) != signal.SIG_IGN]


def interrupt_once() -> None:
    """From now on what ends a run raises KeyboardInterrupt; what comes after that ends the process without a word, and
    so does an interrupt that Python drops."""
    sys.unraisablehook = end_where_dropped
    for number in heard():
        signal.signal(number, interrupt)


def interrupt(*_: object) -> NoReturn:
    end_at_once()
    raise KeyboardInterrupt


def end_where_dropped(dropped: "sys.UnraisableHookArgs") -> None:
    """Python drops what is raised while it calls back a weak reference, as it does when it imports."""
    if dropped.exc_type is KeyboardInterrupt:
        signal.raise_signal(signal.SIGINT)
    sys.__unraisablehook__(dropped)


def end_at_once() -> None:
    for number in heard():
        signal.signal(number, signal.SIG_DFL)


def tell(clock: Clock, text: str) -> None:
    """A line of progress."""
    clock.says(clock.elapsed(), text)
