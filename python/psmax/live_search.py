"""A search that goes on in a thread of its own. One waits for it, hears what it tells, and ends it, by threads or by
asyncio."""
import asyncio
import threading
from collections import deque
from collections.abc import AsyncIterator, Callable, Generator, Iterator
from contextlib import contextmanager, suppress
from types import TracebackType
from typing import Self

from .answer import Answer, Progress, Question
from .clock import Clock
from .errors import Failed
from .incumbent import Incumbent
from .known import Known

MOST_WAITING = 100  # of what is told that nobody has heard yet; the oldest goes


class Search:
    """A search that goes on: a context manager that ends it, an iterator of `Progress`, and an awaitable of its
    `Answer`.

    with project.search(seconds=60) as search:
        for told in search:
            print(told)
    answer = search.result()

    Under asyncio `async with`, `async for` and `await search` do the same. A task that is cancelled cancels the search.
    One iterator hears each progress once."""

    def __init__(self, question: Question, best: Incumbent, work: Callable[[], None], keep: Callable[[Known], Known],
                 is_enough: Callable[[Progress], object]) -> None:
        self._question, self._best, self._work, self._keep, self._is_enough = question, best, work, keep, is_enough
        self._told: deque[Progress] = deque(maxlen=MOST_WAITING)
        self._changed = threading.Condition()
        self._wakes: list[Callable[[], object]] = []  # of tasks that wait
        self._answer: Answer | None = None
        self._fault: BaseException | None = None
        self._is_over = False
        best.listener = self._hear
        self._thread = threading.Thread(target=self._run, name="psmax search", daemon=True)
        self._thread.start()

    @property
    def clock(self) -> Clock:
        return self._best.clock

    def cancel(self) -> None:
        """Ends the search at once, from any thread. What is known then is the answer; if psprove does not end within
        0.1 seconds it is killed, and the answer has no record."""
        self.clock.cancel()

    def stop(self) -> None:
        """Asks the search to end, from any thread. The answer has its record, for which psprove has its time."""
        self.clock.stop()

    def done(self) -> bool:
        """Whether it has ended."""
        return self._is_over

    def wait(self, timeout: float | None = None) -> bool:
        """Whether it has ended, within so many seconds where they are said."""
        self._thread.join(timeout)
        return not self._thread.is_alive()

    def result(self, timeout: float | None = None) -> Answer:
        """The answer, once the search has ended. TimeoutError where it goes on after so many seconds. What went wrong
        in it, or in `until`, is raised."""
        if not self.wait(timeout):
            raise TimeoutError(f"the search goes on after {timeout:g} seconds")
        if self._fault is not None:
            raise self._fault
        assert self._answer is not None
        return self._answer

    def __iter__(self) -> Iterator[Progress]:
        return self

    def __next__(self) -> Progress:
        with self._changed:
            self._changed.wait_for(lambda: self._told or self.done())
            if self._told:
                return self._told.popleft()
        self.result()
        raise StopIteration

    def __enter__(self) -> Self:
        return self

    def __exit__(self, kind: type[BaseException] | None, fault: BaseException | None,
                 trace: TracebackType | None) -> None:
        self.cancel()
        self._thread.join()

    def __await__(self) -> Generator[object, None, Answer]:
        return self._ended().__await__()

    async def __aiter__(self) -> AsyncIterator[Progress]:
        while not self.done() or self._told:
            while self._told:
                yield self._told.popleft()
            await self._next_change(lambda: bool(self._told))
        await self._ended()

    async def __aenter__(self) -> Self:
        return self

    async def __aexit__(self, kind: type[BaseException] | None, fault: BaseException | None,
                        trace: TracebackType | None) -> None:
        self.cancel()
        await self._until(self.done)

    async def _ended(self) -> Answer:
        await self._next_change(lambda: False)
        return self.result()

    async def _next_change(self, is_there: Callable[[], bool]) -> None:
        """Waits until it is there, or the search has ended. A task that is cancelled meanwhile has no search left."""
        try:
            await self._until(lambda: is_there() or self.done())
        except asyncio.CancelledError:
            self.cancel()
            await self._until(self.done)
            raise

    async def _until(self, is_there: Callable[[], bool]) -> None:
        loop, change = asyncio.get_running_loop(), asyncio.Event()

        def wake() -> None:
            with suppress(RuntimeError):  # of a loop that is closed by now
                loop.call_soon_threadsafe(change.set)

        self._wakes.append(wake)
        try:
            while not is_there():
                await change.wait()
                change.clear()
        finally:
            self._wakes.remove(wake)

    def _run(self) -> None:
        """Whatever ends it, what is known by then is kept."""
        with self._caught():
            self._work()
        known, seconds = self._best.known, self.clock.elapsed()
        self._answer = Answer(self._question, known, seconds)
        with self._caught():
            self._answer = Answer(self._question, self._keep(known), seconds)
        self._best.listener = lambda _: None
        if isinstance(self._fault, Failed):
            self._fault.answer = self._answer
        with self._changed:
            self._is_over = True
            self._changed.notify_all()
        self._wake()

    @contextmanager
    def _caught(self) -> Iterator[None]:
        """The first fault is kept for who asks for the answer."""
        try:
            yield
        except BaseException as fault:
            self._fault = self._fault or fault

    def _hear(self, known: Known) -> None:
        told, is_enough = Progress(self._question, known, self.clock.elapsed()), False
        with self._changed:
            self._told.append(told)
            self._changed.notify_all()
        self._wake()
        with self._caught():
            is_enough = bool(self._is_enough(told))
        if is_enough or self._fault is not None:
            self.stop()

    def _wake(self) -> None:
        for wake in [*self._wakes]:
            wake()
