"""Where cubes are searched, and parts of a record checked: by processes of this machine, or by the workers of a Dask
cluster, whoever started it. Both take tasks by `submit`, and give futures."""
import logging
import math
import pathlib
import queue
import re
import secrets
import site
import sys
import warnings
from collections.abc import Callable, Iterator
from concurrent.futures import CancelledError, Future, ThreadPoolExecutor
from contextlib import contextmanager
from typing import Any, NamedTuple, Protocol

from ..errors import Failed
from . import cube, part
from .cube import Ask, Row
from .folder import write_file

FETCH = 30.0  # seconds for a result's way to the driver
AHEAD = 1.2  # cubes with a cluster for each of its threads, so that none waits for the driver
CONNECT = 10.0  # seconds
MISSING = "--cluster needs Dask ({}): install python3-distributed, or `pip install distributed`"
RUN = re.compile("cubes-[0-9a-f]{16}")
LOST = "the scheduler is lost; start one, and give the same command again"


class Work(NamedTuple):
    """What is done with a task, here and on a worker of Dask."""

    here: Callable[[Row, Ask, float], Row]
    on_dask: Callable[[Row], Row]


SEARCH, CHECK = Work(cube.search_cube, cube.on_dask), Work(part.check_part, part.on_dask)


class Coming(Protocol):
    """A future of either kind."""

    def result(self, timeout: float | None = None) -> Row: ...

    def add_done_callback(self, call: Callable[[Any], object]) -> object: ...


class Machines:
    """What both kinds share: results come one after the other, as they end."""

    program: str | None = None  # the psprove that is run, where it isn't the worker's own

    def __init__(self, work: Work = SEARCH) -> None:
        self.work, self.run = work, "cubes-" + secrets.token_hex(8)
        self.ended: queue.SimpleQueue[tuple[int, Coming]] = queue.SimpleQueue()

    def give(self, task: Row) -> None:
        self.expect(task["number"], self.submit(task | {"run": self.run, "program": self.program}))

    def expect(self, number: int, coming: Coming) -> None:
        coming.add_done_callback(lambda done: self.ended.put((number, done)))

    def next(self, seconds: float) -> tuple[int, Row | Exception] | None:
        """The number of a task that has ended, with its row or its fault; none where none ends in time."""
        try:
            number, coming = self.ended.get(timeout=seconds)
        except queue.Empty:
            return None
        try:
            row = coming.result(FETCH)
            return number, (row if isinstance(row, dict) else {}) | {"by": self.whose(coming)}
        except (TimeoutError, CancelledError):  # the worker died with the result: Dask has the task searched again
            self.must_be_there()
            self.expect(number, coming)
            return None
        except Exception as fault:
            self.must_be_there()
            return number, fault

    def must_be_there(self) -> None:
        """A fault where the machines are lost, and no single search."""

    def whose(self, coming: Coming) -> str:
        """Who gave this result."""
        return "this machine"

    def newcomers(self) -> list[str]:
        """The workers that have come since this was asked last."""
        return []

    def begin(self, folder: pathlib.Path) -> None:
        """Marks the folder as that of this run. Searches of a run before it end."""
        token = folder / "token"
        if token.exists() and RUN.fullmatch(before := token.read_text(errors="replace")):
            self.end(before)
        write_file(token, self.run.encode())

    def end(self, run: str) -> None:
        pass

    def submit(self, task: Row) -> Coming:
        raise NotImplementedError

    def tell(self, starts: tuple[int, ...] | None) -> None:
        """Makes the shortest schedule known to all searches."""
        raise NotImplementedError

    def threads(self) -> int:
        """How many tasks they work on at once."""
        raise NotImplementedError

    def room(self) -> int:
        """How many they have at once."""
        return self.threads()

    def close(self) -> None:
        """Ends all searches."""
        raise NotImplementedError


class Processes(Machines):
    """The processors of this machine. A thread waits for each psprove."""

    def __init__(self, jobs: int, program: str, work: Work = SEARCH) -> None:
        super().__init__(work)
        self.jobs, self.program = jobs, program
        self.known: Row | None = None
        self.pool = ThreadPoolExecutor(jobs)

    def submit(self, task: Row) -> Future[Row]:
        return self.pool.submit(self.work.here, task, lambda: self.known, cube.GLANCE)

    def tell(self, starts: tuple[int, ...] | None) -> None:
        self.known = {"starts": starts}

    def threads(self) -> int:
        return self.jobs

    def close(self) -> None:
        self.known = None
        self.pool.shutdown(cancel_futures=True)


class Cluster(Machines):
    """The workers of a scheduler of Dask."""

    def __init__(self, address: str, work: Work = SEARCH) -> None:
        super().__init__(work)
        if sys.flags.no_site:  # so `plan` starts
            site.main()
        try:
            import cloudpickle
            import distributed
        except ImportError as fault:
            raise Failed(MISSING.format(fault)) from None
        for name in ("distributed.client", "asyncio"):  # what they tell, this module says in a line
            logging.getLogger(name).setLevel(logging.CRITICAL)
        warnings.filterwarnings("ignore", "Large object", module="distributed")  # of a record that isn't seen there
        for module in (cube, part):
            cloudpickle.register_pickle_by_value(module)
        self.variable = distributed.Variable
        self.workers: dict[str, bool] = {}  # whether each was named
        try:
            self.client = distributed.Client(address, timeout=CONNECT)
            self.client.get_versions(check=True)
        except (OSError, TypeError, ValueError) as fault:  # no such host, no certificate, other versions there
            raise Failed(f"{address}: {fault}") from None

    @contextmanager
    def reached(self) -> Iterator[None]:
        """A fault where the scheduler is there no more."""
        try:
            self.must_be_there()
            yield
        except OSError:
            raise Failed(LOST) from None

    def must_be_there(self) -> None:
        if self.client.status != "running":
            raise Failed(LOST)

    def submit(self, task: Row) -> Coming:
        with self.reached():
            coming: Coming = self.client.submit(self.work.on_dask, task, key=f"cube-{secrets.token_hex(8)}", pure=False,
                                                priority=task["age"])
            return coming

    def tell(self, starts: tuple[int, ...] | None) -> None:
        with self.reached():
            self.variable(self.run, client=self.client).set({"starts": starts})

    def end(self, run: str) -> None:
        with self.reached():
            self.variable(run, client=self.client).set(None)

    def threads(self) -> int:
        with self.reached():
            found: dict[str, int] = self.client.nthreads()
            self.workers |= dict.fromkeys(found.keys() - self.workers.keys(), False)
            return sum(found.values())

    def newcomers(self) -> list[str]:
        names = [name for name, is_named in self.workers.items() if not is_named]
        self.workers |= dict.fromkeys(names, True)
        return names

    def whose(self, coming: Coming) -> str:
        """By what the scheduler says, and not the worker."""
        with self.reached():
            holders: dict[str, list[str]] = self.client.who_has([coming])
            return ", ".join(sorted({name for names in holders.values() for name in names})) or "a worker that is gone"

    def room(self) -> int:
        return math.ceil(AHEAD * self.threads())

    def close(self) -> None:
        try:
            self.end(self.run)
        except Failed:  # then searches end with their workers
            pass
        self.client.close()
