"""A search as an object: what it tells, how it is ended from threads, tasks and pools, and what stops it by itself."""
import asyncio
import concurrent.futures
import multiprocessing
import os
import tempfile
import threading
import time
from collections.abc import Callable, Coroutine, Iterator
from contextlib import contextmanager
from unittest import mock

import psmax
from planner.tests.helpers import PSPROVE, TELLS, TWO, InFolder
from psmax.clock import Clock
from psmax.process import Process

from .test_ends import PATIENCE, is_there

SOON = 0.2  # seconds in which a search that is cancelled has ended


def search_in_pool(path: str, ended: object) -> str:
    """What a process of a pool does: a search that ends once an event is set."""
    assert isinstance(ended, threading.Event) or hasattr(ended, "is_set")
    with psmax.Project.read(path).search(60, 1) as search:
        for _ in search:
            if ended.is_set():
                search.cancel()
    return f"{search.result().status}"


class Searching(InFolder):
    """A project that no search here settles, and psprove, whose process is known by a file."""

    def setUp(self) -> None:
        super().setUp()
        self.project = psmax.Project.read(self.hard())

    @contextmanager
    def seen(self) -> Iterator[Callable[[], list[int]]]:
        """Meanwhile every psprove writes the number of its process; those that are there."""
        pids = self.folder / f"pids {time.monotonic()}"
        program = self.program("psprove-seen", f'echo $$ >> "{pids}"\nexec {os.environ.get("PSPROVE") or PSPROVE} "$@"')
        with mock.patch.dict(os.environ, {"PSPROVE": program}):
            yield lambda: [pid for pid in map(int, pids.read_text().split()) if is_there(pid)] if pids.exists() else []

    def wait_for(self, is_so: Callable[[], object]) -> None:
        until = time.monotonic() + PATIENCE
        while not is_so():
            self.assertLess(time.monotonic(), until)
            time.sleep(0.01)


def soon(test: Callable[["Cancelled"], float]) -> Callable[["Cancelled"], None]:
    """A test that gives the seconds in which a search has ended. A machine that does other work too has some tries."""
    def tried(self: "Cancelled") -> None:
        self.assertLess(min(test(self), test(self), test(self)), SOON)
    return tried


class Cancelled(Searching):
    @soon
    def test_in_a_thread(self) -> float:
        """Another thread waits for the answer, which is the best that was told."""
        with self.seen() as left, self.project.search(60, 1) as search:
            told = [next(search)]
            while told[-1].value is None:
                told.append(next(search))
            with concurrent.futures.ThreadPoolExecutor(1) as pool:
                waits = pool.submit(search.result)
                self.assertEqual(len(left()), 1)
                begun = time.monotonic()
                search.cancel()
                answer, took = waits.result(), time.monotonic() - begun
                self.assertEqual(left(), [])
        self.assertTrue(search.done() and self.project.check(answer))
        self.assertLessEqual(answer.makespan or 0, told[-1].makespan or 0)
        self.assertEqual(answer.status, psmax.Status.FEASIBLE)
        return took

    @soon
    def test_behind_with(self) -> float:
        """Whoever leaves `with` has ended the search."""
        with self.seen() as left:
            with self.assertRaises(ZeroDivisionError), self.project.search(60, 1) as search:
                self.wait_for(left)
                begun = time.monotonic()
                1 // 0
            took = time.monotonic() - begun
            self.assertEqual((left(), search.done()), ([], True))
            return took

    @soon
    def test_in_a_task(self) -> float:
        """A task that waits, and one that listens; no process is left once it has ended."""
        async def wait(search: psmax.Search) -> None:
            await search

        async def listen(search: psmax.Search) -> None:
            async with search:
                async for _ in search:
                    pass

        async def cancel(does: Callable[[psmax.Search], Coroutine[object, object, None]]) -> float:
            with self.seen() as left:
                search = self.project.search(60, 1)
                task = asyncio.create_task(does(search))
                await asyncio.sleep(0.01)  # since a task that has not begun waits for nothing
                while not left():
                    await asyncio.sleep(0.01)
                begun = time.monotonic()
                task.cancel()
                with self.assertRaises(asyncio.CancelledError):
                    await task
                took = time.monotonic() - begun
                self.assertEqual(left(), [])
            self.assertIn(search.result().status, (psmax.Status.FEASIBLE, psmax.Status.UNKNOWN))
            return took

        return max(asyncio.run(cancel(wait)), asyncio.run(cancel(listen)))

    def test_a_limit(self) -> None:
        """A task that has no more time; the answer is what was known."""
        async def limit(search: psmax.Search) -> None:
            with self.assertRaises(TimeoutError):
                await asyncio.wait_for(search, 0.5)

        with self.seen() as left:
            search = self.project.search(60, 1)
            asyncio.run(limit(search))
            self.assertEqual(left(), [])
        self.assertTrue(search.done())
        self.assertIn(search.result().status, (psmax.Status.FEASIBLE, psmax.Status.UNKNOWN))

    @soon
    def test_in_a_pool(self) -> float:
        """By an event of the pool, and where its processes are ended."""
        path = str(self.folder / "hard.sch")
        with self.seen() as left, multiprocessing.get_context("spawn").Manager() as manager:
            event = manager.Event()
            with concurrent.futures.ProcessPoolExecutor(1, multiprocessing.get_context("spawn")) as pool:
                coming = pool.submit(search_in_pool, path, event)
                self.wait_for(left)
                event.set()
                self.assertIn(coming.result(PATIENCE), ("feasible", "unknown"))
                self.assertEqual(left(), [])
                pool.submit(search_in_pool, path, manager.Event())
                self.wait_for(left)
                begun = time.monotonic()
                next(iter(pool._processes.values())).kill()
                self.wait_for(lambda: not left())
                return time.monotonic() - begun

    @soon
    def test_what_does_not_end(self) -> float:
        """It is killed, and the answer is what it told."""
        with mock.patch.dict(os.environ, {"PSPROVE": self.stand_in(tells=TELLS, then="sticks")}):
            with psmax.Project.read(TWO).search(60, 1) as search:
                while next(search).bound != 6:
                    pass
                begun = time.monotonic()
                search.cancel()
                answer, took = search.result(), time.monotonic() - begun
        self.assertEqual((answer.makespan, answer.bound, answer.record), (9, 6, None))
        return took


class Late(InFolder):
    def test_stopped_before_it_waits(self) -> None:
        """A clock that is stopped once a program runs, and before anybody waits for it, ends it too."""
        clock, begun = Clock(), time.monotonic()
        with open(os.devnull, "rb") as source, tempfile.TemporaryFile() as out:
            running = Process(["sleep", "60"], source, out, None, clock)
            clock.stop()
            self.assertFalse(running.run(begun + 60, lambda line: None))
            running.close()
        self.assertLess(time.monotonic() - begun, PATIENCE)


class Told(Searching):
    def test_iterators(self) -> None:
        """A thread and a task hear the same of the same stand-in; the last is the answer."""
        async def listen() -> tuple[list[psmax.Progress], psmax.Answer]:
            async with two.search(10, 1) as search:
                told = [one async for one in search]
                return told, await search

        two = psmax.Project.read(TWO)
        with mock.patch.dict(os.environ, {"PSPROVE": self.stand_in(tells=TELLS, then="answers")}):
            with two.search(10, 1) as search:
                heard = [*search]
            again, answer = asyncio.run(listen())
        for told in (heard, again):
            self.assertEqual([(one.value, one.bound) for one in told], [(None, 4), (12, 4), (9, 4), (9, 6)])
        self.assertEqual((answer.makespan, search.result().makespan, search.result(0)), (9, 9, search.result()))

    def test_who_is_late(self) -> None:
        """Of what nobody has heard the last hundred stay."""
        tells = [{"bound": bound} for bound in range(1, 201)]
        stand_in = self.stand_in(tells=tells, then="answers", answer={"bound": 200})
        with mock.patch.dict(os.environ, {"PSPROVE": stand_in}):
            with psmax.Project.read(TWO).search(10, 1) as search:
                search.wait()
                heard = [one.bound for one in search]
        self.assertEqual((heard[0], heard[-1], len(heard)), (101, 200, 100))

    def test_faults(self) -> None:
        """Those of `until` end the search; those of a program come out of every wait."""
        begun = time.monotonic()
        search = self.project.search(60, 1, until=lambda told: 1 // 0)
        calls: list[Callable[[], object]] = [search.result, lambda: [*search], lambda: asyncio.run(awaited(search))]
        for call in calls:
            with self.assertRaises(ZeroDivisionError):
                call()
        self.assertLess(time.monotonic() - begun, PATIENCE)
        with mock.patch.dict(os.environ, {"PSPROVE": self.program("lost", "exit 1")}):
            search = self.project.search(60, 1)
            with self.assertRaises(psmax.Failed):
                for _ in search:
                    pass
        with self.assertRaises(TimeoutError), self.project.search(60, 1) as search:
            search.result(0.01)


async def awaited(search: psmax.Search) -> psmax.Answer:
    return await search


class Stopped(Searching):
    def test_gap_and_until(self) -> None:
        """The first that is near enough ends it, with its record."""
        answer = self.project.solve(60, 1, gap=0.5)
        assert answer.gap is not None and answer.record is not None
        self.assertLessEqual(answer.gap, 0.5)
        self.assertEqual(answer.record.verify().bound, answer.bound)
        bounds: list[int | None] = []

        def until(told: psmax.Progress) -> bool:
            bounds.append(told.bound)
            return told.value is not None

        self.project.solve(60, 1, until=until)
        self.assertGreater(len(bounds), 0)

    def test_gap_by_hand(self) -> None:
        """9 is above 6 by a third of itself, and 12 above 4 by two thirds."""
        two = psmax.Project.read(TWO)
        for gap, wanted in ((0.7, (12, 4)), (0.4, (9, 6)), (0.34, (9, 6))):
            stand_in = self.stand_in(tells=[*TELLS[:2], *TELLS[3:]], then="waits")
            with mock.patch.dict(os.environ, {"PSPROVE": stand_in}):
                heard: list[psmax.Progress] = []
                two.solve(60, 1, gap=gap, on_progress=heard.append)
            first = next(one for one in heard if one.gap is not None and one.gap <= gap)
            self.assertEqual((first.value, first.bound), wanted)

    def test_stop(self) -> None:
        """Who asks a search to end has its record."""
        with self.project.search(60, 1) as search:
            next(search)
            search.stop()
            answer = search.result()
        assert answer.record is not None
        self.assertEqual(answer.record.verify().bound, answer.bound)
