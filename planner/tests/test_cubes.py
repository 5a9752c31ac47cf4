"""One project in cubes: whatever is killed or broken on the way, the answer is the same, and what is wrong is named."""
import contextlib
import importlib
import json
import os
import pathlib
import re
import signal
import socket
import subprocess
import sys
import time
import unittest
import zlib
from collections.abc import Callable
from multiprocessing.process import BaseProcess
from unittest import mock

from psmax.cubes import cube
from psmax.cubes.driver import MOST_LEMMAS, Lemmas
from psmax.cubes.machines import Cluster
from psmax.planner.status import seconds_left

from . import scheduler
from .helpers import PROJECTS, PSPROVE, TOP, InFolder, compiled, plan, psmax, started, told_until

STAND_IN = pathlib.Path(__file__).with_name("cube_stand_in.py")
SECONDS = 300.0  # that something may take on a machine that does other work too
LOTS = PROJECTS / "vaccine-lots.sch"
SEARCHES_CUBES = b"--under" in subprocess.run([PSPROVE, "solve", "--help"], capture_output=True).stdout

# By hand: 9 periods of work on one machine. 2 starts 6 or more after 1 starts, and 4 at most 3 before 3 starts. So 1,
# 3, 4 and 2 take 9 one after the other, and nothing can take less.
FOUR = """4 1 0 0
0 1 0
1 1 1 2 [6]
2 1 0
3 1 1 4 [-3]
4 1 0
5 1 0
0 1 0 0
1 1 3 1
2 1 2 1
3 1 2 1
4 1 2 1
5 1 0 0
1
"""

OPTIMAL_9 = b"record 3\n\x02\x03\x12"  # a record of a claim alone: two bytes, the kind, and 9 as a signed number


def until(is_so: Callable[[], object]) -> None:
    end = time.monotonic() + SECONDS
    while not is_so():
        assert time.monotonic() < end
        time.sleep(0.05)


def state_of(pid: int) -> str:
    """The letter of a process's state, T where it is stopped; Z where it has ended."""
    try:
        return pathlib.Path(f"/proc/{pid}/stat").read_text().rpartition(") ")[2][0]
    except OSError:
        return "Z"


def is_open(port: int) -> bool:
    with socket.socket() as caller:
        return caller.connect_ex(("127.0.0.1", port)) == 0


class InCubes(InFolder):
    def setUp(self) -> None:
        super().setUp()
        self.project, self.out = self.file("four.sch", FOUR), self.folder / "cubes"

    def psprove(self, seconds: float = 0.0) -> str:
        """A stand-in whose searches take so long."""
        return self.program(f"psprove-{seconds:g}", f'exec {sys.executable} -ES {compiled(STAND_IN)} {seconds} "$@"')

    def rows(self, step: str) -> list[dict[str, object]]:
        path = self.out / "rows"
        lines = path.read_text().splitlines() if path.exists() else []
        return [row for row in map(json.loads, lines) if row["step"] == step]

    def solved(self, *words: object, aside: int = 0) -> str:
        """The same command as ever finds a schedule of 9, and proves it; so many cubes are put aside on the way."""
        ran = plan("solve", self.project, "--out", f"{self.out}/", *words, psprove=self.psprove())
        self.assertEqual((ran.returncode, ran.stdout.splitlines()[0]), (0, "optimal 9"), ran.stderr)
        self.assertEqual(psmax("check", "--project", self.project, given=ran.stdout.encode()), "feasible 9\n")
        self.assertEqual((self.out / "record").read_text(), "record 3\noptimal 9\n")
        self.assertEqual(ran.stderr.count("is put aside"), aside, ran.stderr)
        return ran.stderr

    def joined(self) -> str:
        ran = plan("join", self.out, psprove=self.psprove())
        self.assertEqual(ran.returncode, 0, ran.stderr)
        return ran.stdout.removeprefix(f"{self.out / 'record'}: ").removesuffix(f", of {self.out / 'project.sch'}\n")

    def searches(self, driver: int | None) -> list[int]:
        """The psproves that a driver started."""
        threads = pathlib.Path(f"/proc/{driver}/task").glob("*/children")
        return [int(pid) for thread in threads for pid in thread.read_text().split()]

    def killed(self, driver: int) -> int:
        """A search that is killed before its end: it is stopped first, and one that had ended by then doesn't count."""
        while True:
            with contextlib.suppress(IndexError, ProcessLookupError):
                pid = self.searches(driver)[-1]
                os.kill(pid, signal.SIGSTOP)
                until(lambda: state_of(pid) in "TZ")
                if state_of(pid) == "T":
                    os.kill(pid, signal.SIGKILL)
                    return pid


def in_four() -> contextlib.AbstractContextManager[object]:
    """The project is split once, in four cubes that are not split again."""
    return mock.patch.multiple("psmax.cubes.driver", CUBES=4, CONFLICTS=1_000_000)


class Here(InCubes):
    def test_split_and_solved(self) -> None:
        """8,000 conflicts are 80 tries of the stand-in, so the project is split in 16. What is there is not searched
        again."""
        told = self.solved("--jobs", "2")
        self.assertIn("schedule 9: cube ", told)
        self.assertEqual(len(self.rows("ended")), 17)
        self.assertEqual(plan("status", self.out).stdout.splitlines()[:3], [
            "cubes: 16 refuted, 0 open, 0 running; 100.0 % of the tree", "best schedule: 9",
            "bound: 9, by the last join"])
        self.solved("--jobs", "2")
        self.assertEqual((len(self.rows("first")), len(self.rows("ended"))), (1, 17))

    def test_killed_and_restarted(self) -> None:
        """A search is killed, and then the driver, with a row that it was about to write. Searches don't outlive it."""
        words = "solve", self.project, "--out", f"{self.out}/", "--jobs", "2"
        with started(*words, psprove=self.psprove(0.3)) as driver:
            until(lambda: len(self.rows("ended")) >= 3)
            self.assertRegex(self.joined(), "^proved bound [0-9]$")
            self.refused(plan(*words), 2, "has a driver already")
            until(lambda: len(self.searches(driver.pid)) == 2)
            first = self.killed(driver.pid)
            until(lambda: first not in self.searches(driver.pid) and len(self.searches(driver.pid)) == 2)
            self.assertIn("2 running", plan("status", self.out).stdout)
            left = self.searches(driver.pid)
            driver.kill()
            told = driver.communicate()[1]
        self.assertRegex(told, "cube [-01]+: psprove solve ended with status -9")
        until(lambda: not any(pathlib.Path(f"/proc/{pid}").exists() for pid in left))
        with open(self.out / "rows", "a") as rows:
            rows.write('{"step": "end')
        self.assertIn("0 running", plan("status", self.out).stdout)
        self.solved()
        self.assertIn("cubes: 16 refuted, 0 open, 0 running; 100.0 %", plan("status", self.out).stdout)

    def test_wrong_logs(self) -> None:
        """One is cut and two are exchanged: a join names their cubes, and those that got the lemma of one. The three
        alone are searched again, with what they were given, so that the others stand."""
        self.solved()
        names = {row["number"]: row["cube"] for row in self.rows("given")}
        cut, one, other = (self.out / "cubes" / f"{number}.log" for number in [*names][-3:])
        cut.write_bytes(cut.read_bytes()[:-5])
        swapped = one.read_bytes()
        one.write_bytes(other.read_bytes())
        other.write_bytes(swapped)
        ran = plan("join", self.out, psprove=self.psprove())
        named = re.findall(r"plan: cube ([01]+): (.*); it is left out\n", ran.stderr)
        self.assertEqual((ran.returncode, len(ran.stderr.splitlines())), (4, len(named)), ran.stderr)
        self.assertIn((names[int(cut.stem)], "event 1 is wrong"), named)
        self.assertLessEqual({(names[int(path.stem)], "its log does not refute it") for path in (one, other)}, {*named})
        self.assertRegex(ran.stdout, "proved bound [0-9], of ")
        told = self.solved()
        self.assertEqual((len(self.rows("ended")), told.count(".log is damaged; it is searched again")), (17 + 3, 3))

    def test_logs_that_were_never_right(self) -> None:
        """What is wrong is seen at the join: the cubes, and those that got the lemma of one, are searched again."""
        with in_four():
            self.solved()
            log = self.out / "cubes" / f"{self.rows('given')[-1]['number']}.log"
            log.write_bytes(log.read_bytes()[:-5])
            with mock.patch("psmax.cubes.tree.Driven.look", return_value=()):
                self.solved(aside=1)
        self.assertEqual(len(self.rows("ended")), 5 + 1)

    def test_a_search_that_fails(self) -> None:
        """Each time: the cube is named, and the same command with a psprove that works goes on."""
        bad = self.program("bad", "case $* in *--under*) echo psprove: no memory >&2; exit 1;; esac\nexec "
                           f"{self.psprove()} $*")
        ran = plan("solve", self.project, "--out", f"{self.out}/", psprove=bad)
        self.assertEqual((ran.returncode, ran.stdout), (1, ""))
        self.assertIn("plan: cube - failed 3 times: psprove solve ended with status 1: no memory\n", ran.stderr)
        with in_four():
            self.solved()

    def test_the_time_is_over(self) -> None:
        """What is known then is the answer, and the record proves the bound."""
        ran = plan("solve", self.project, "--out", f"{self.out}/", "--seconds", "2", "--jobs", "1",
                   psprove=self.psprove(0.3))
        self.assertEqual(ran.returncode, 3)
        self.assertRegex(ran.stdout, "^(feasible [0-9]+|unknown) bound [0-9]\n")
        self.assertIn("the 2 seconds are over; the same command goes on from here\n", ran.stderr)
        self.solved()

    def test_a_table(self) -> None:
        """By hand: the crane is away from 2 to 4, so no job of 3 or 4 fits before that, and both take until 11. It is
        away later, too, so the end of the text is no makespan."""
        self.file("away.csv", "resource,from,to,units\ncrane,2,4,1\ncrane,12,13,1\n")
        table = self.file("jobs.csv", "absences,away.csv\n\nactivity,days,crane (1)\nlift,3,1\nturn,4,1\n")
        with in_four():
            ran = plan("solve", table, "--out", f"{self.out}/", "--json", psprove=self.psprove())
        told = json.loads(ran.stdout)
        self.assertEqual((told["status"], told["makespan"], told["names"]), ("optimal", 11, ["lift", "turn"]))
        self.assertEqual(sorted(told["starts"])[:2], [0, 4])
        self.assertEqual(plan("status", self.out).stdout.splitlines()[:3], [
            "cubes: 4 refuted, 0 open, 0 running; 100.0 % of the tree", "best schedule: 11",
            "bound: 11, by the last join"])

    def test_words(self) -> None:
        """Folders that are none of cubes, or of another project; a cluster without a folder."""
        self.refused(plan("solve", self.project, "--cluster", "tcp://127.0.0.1:1"), 2, "--cluster needs --out")
        self.refused(plan("solve", self.project, "--out", f"{self.folder}/"), 2, "is no folder of cubes")
        self.refused(plan("status", self.folder), 2, "is no folder of cubes")
        with in_four():
            self.solved()
        other = self.file("other.sch", FOUR.replace("4 1 2 1", "4 1 1 1"))
        self.refused(plan("solve", other, "--out", self.out), 2, "was begun with another project")

    def test_without_dask(self) -> None:
        with mock.patch.dict(sys.modules, {"distributed": None}):
            ran = plan("solve", self.project, "--out", self.out, "--cluster", "tcp://127.0.0.1:1")
        self.refused(ran, 1, "--cluster needs Dask (", "install python3-distributed, or `pip install distributed`")

    @unittest.skipUnless(scheduler.is_here(), scheduler.MISSING)
    def test_no_scheduler(self) -> None:
        with mock.patch("psmax.cubes.machines.CONNECT", 1.0):
            ran = plan("solve", self.project, "--out", self.out, "--cluster", "tcp://127.0.0.1:1")
        self.assertEqual((ran.returncode, ran.stdout), (1, ""))
        self.assertIn("plan: tcp://127.0.0.1:1: ", ran.stderr.splitlines()[-1])


@unittest.skipUnless(SEARCHES_CUBES, "this psprove searches no cubes")
class ByPsprove(InCubes):
    """In cubes that are split early. The README has the optimum."""

    def lots(self) -> str:
        with mock.patch.multiple("psmax.cubes.driver", BEGIN=1, FIRST=5, CUBES=4, CONFLICTS=8, PIECES=2):
            ran = plan("solve", LOTS, "--out", f"{self.out}/", "--jobs", "2")
        self.assertEqual((ran.returncode, ran.stdout.splitlines()[0]), (0, "optimal 105"), ran.stderr)
        self.assertIn("shorter than 105, and has one that long", plan("verify", LOTS, self.out / "record").stdout)
        with open(self.out / "record", "rb") as record:
            checker = [sys.executable, str(TOP / "tests" / "verify_log.py"), str(LOTS)]
            said = subprocess.run(checker, stdin=record, capture_output=True).stdout
        self.assertEqual(said, b"proved optimal 105\n")
        return ran.stderr

    def test_settled_at_first(self) -> None:
        """One search proves it. Once its log is cut, the project is searched again."""
        for count, told in enumerate(["proved: psprove solve", "1.log is damaged; it is searched again"]):
            ran = plan("solve", self.project, "--out", f"{self.out}/")
            self.assertEqual((ran.returncode, ran.stdout.splitlines()[0]), (0, "optimal 9"), ran.stderr)
            self.assertIn(told, ran.stderr)
            self.assertEqual((len(self.rows("first")), len(self.rows("ended"))), (1, count))
            (self.out / "cubes" / "1.log").write_bytes(b"record 3\n")

    def test_with_a_start(self) -> None:
        """Then there is no first search."""
        start = self.file("start", "0 0\n1 0\n2 7\n3 3\n4 5\n5 9\n")
        ran = plan("solve", self.project, "--out", f"{self.out}/", "--start", start)
        self.assertEqual((ran.returncode, ran.stdout.splitlines()[0], self.rows("first")), (0, "optimal 9", []),
                         ran.stderr)

    def test_wrong_logs(self) -> None:
        self.assertNotIn("is put aside", self.lots())
        first, second, third, *_ = [self.out / "cubes" / f"{row['number']}.log" for row in self.rows("ended")
                                    if row["state"] == "refuted"]
        first.write_bytes(first.read_bytes()[:-3])
        swapped = second.read_bytes()
        second.write_bytes(third.read_bytes())
        third.write_bytes(swapped)
        ran = plan("join", self.out)
        self.assertEqual(ran.returncode, 4, ran.stderr)
        self.assertRegex(ran.stdout, "proved bound [0-9]+, of ")
        told = self.lots()
        for path in (first, second, third):
            self.assertIn(f"{path} is damaged; it is searched again", told)


class Search(InCubes):
    """A search as a worker runs it, without a driver."""

    def search(self, seconds: float, ask: cube.Ask) -> cube.Row:
        files = {"project": FOUR.encode(), "path": b"1 2 3\n", "import": b"", "start": b""}
        packed = {name: zlib.compress(data) for name, data in files.items()}
        limits = {"conflicts": 10**6, "pieces": 4, "below": 10}
        return cube.search_cube({"program": self.psprove(seconds), "run": "none", "folder": "/", **limits, **packed},
                                ask, 0.05)

    def test_shorter_schedules(self) -> None:
        """They come while it runs. Without the folder of the driver its files come back by themselves."""
        told = iter([None, [0, 0, 8, 3, 5, 10]])  # which is no shorter than those it knows
        row = self.search(0.5, lambda: {"starts": next(told, [0, 0, 7, 3, 5, 9])})
        log = json.loads(zlib.decompress(row["files"]["log"]["data"]).split(b"\n")[1])
        self.assertEqual((row["cube"], row["starts"], log["below"], log["path"]), ("refuted", None, 9, [[1, 2, 3]]))
        self.assertEqual(zlib.decompress(row["files"]["lemmas"]["data"]), b"2 1 2 3\n")

    def test_nobody_waits(self) -> None:
        began = time.monotonic()
        with self.assertRaisesRegex(RuntimeError, "nobody waits"):
            self.search(SECONDS, lambda: None)
        self.assertLess(time.monotonic(), began + SECONDS / 2)

    def test_one_that_reads_nothing(self) -> None:
        """It has ended when it is told of a schedule."""
        script = "import sys; sys.stdin.close(); import time; time.sleep(0.3); sys.exit(3)"
        told = iter(range(10**6, 0, -1))
        line = [sys.executable, "-c", script]
        self.assertEqual(cube.followed(line, self.folder, None, lambda: {"starts": [0, next(told)]}, 0.0)[0], 3)
        self.assertLess(next(told), 10**6 - 1)


class Chosen(unittest.TestCase):
    def test_lemmas(self) -> None:
        """Those of the cubes above come first, and then the shortest; each once, and no more than so many."""
        lemmas = Lemmas(["3 1 2 4 2 3 1\n", "2 5 6 1\n2 1 2 4\n"])
        self.assertEqual(lemmas.chosen([]), "2 1 2 4\n2 5 6 1\n3 1 2 4 2 3 1\n")
        self.assertEqual(lemmas.chosen(["4 7 8 1 2 1 1\n5 5 6 1\n"]),
                         "5 5 6 1\n4 7 8 1 2 1 1\n2 1 2 4\n3 1 2 4 2 3 1\n")
        lemmas.add("".join(f"2 {i} 1 1\n" for i in range(MOST_LEMMAS + 5)))
        self.assertEqual(len(lemmas.chosen(["2 9 8 7 6 5 4\n"]).splitlines()), MOST_LEMMAS)

    def test_time(self) -> None:
        """Told where the mean speed has been right at a quarter and at half of the time: 100 s for a third, so 200 s
        more."""
        even = [(0.0, 0.0), (25.0, 0.08), (50.0, 0.17), (100.0, 1 / 3)]
        self.assertAlmostEqual(seconds_left(even) or 0.0, 200.0)
        self.assertIsNone(seconds_left([(0.0, 0.0), (25.0, 0.08), (50.0, 0.3), (100.0, 1 / 3)]))
        self.assertIsNone(seconds_left([(0.0, 0.0), (90.0, 0.3), (100.0, 1 / 3)]))
        self.assertIsNone(seconds_left([(0.0, 0.0)]))


@unittest.skipUnless(scheduler.is_here(), scheduler.MISSING)
class OnDask(InCubes):
    """A scheduler and two workers on this machine."""

    @classmethod
    def setUpClass(cls) -> None:
        importlib.import_module("distributed")  # once, for all copies of this process

    def setUp(self) -> None:
        super().setUp()
        with socket.socket() as free:
            free.bind(("127.0.0.1", 0))
            port = free.getsockname()[1]
        self.address = f"tcp://127.0.0.1:{port}"
        self.dask("scheduler", "--host", "127.0.0.1", "--port", str(port))
        until(lambda: is_open(port))
        self.workers = [self.worker() for _ in range(2)]

    def dask(self, *words: str) -> BaseProcess:
        child = scheduler.started(self.folder, {"PSPROVE": self.psprove(0.3)}, *words)
        self.addCleanup(child.join)
        self.addCleanup(child.kill)
        return child

    def worker(self) -> BaseProcess:
        return self.dask("worker", self.address, "--host", "127.0.0.1", "--nworkers", "1", "--nthreads", "1",
                         "--no-nanny",
                         "--memory-limit", "0")

    def test_killed_and_restarted(self) -> None:
        """A worker is killed, and then the driver. The other worker ends what that driver asked for, and goes on."""
        words = "solve", self.project, "--out", self.out, "--cluster", self.address
        with started(*words, psprove=self.psprove()) as driver:
            until(lambda: len(self.rows("ended")) >= 3)
            self.assertRegex(self.joined(), "^proved bound [0-9]$")
            self.workers[0].kill()
            count = len(self.rows("ended"))
            until(lambda: len(self.rows("ended")) >= count + 3)
            driver.kill()
        self.assertRegex(self.joined(), "^proved bound [0-9]$")
        self.solved("--cluster", self.address)

    def test_parts_of_a_record(self) -> None:
        """A worker is killed while it checks one."""
        record = self.file("four.log", OPTIMAL_9)
        with contextlib.closing(Cluster(self.address)) as cluster:
            until(lambda: cluster.threads() == 2)
        with started("verify", self.project, record, "--cluster", self.address, psprove=self.psprove()) as verify:
            until(lambda: self.searches(self.workers[0].pid) or verify.poll() is not None)
            self.workers[0].kill()
            out, told = verify.communicate()
        self.assertIn("is shorter than 9, and has one that long.\n", out, told)
        self.assertIn("has judged it in 2 parts", out)
        self.assertEqual(told.count(" is a worker of the cluster\n"), 2)

    def test_parts_that_are_believed(self) -> None:
        """One is judged here as well, and the other is that of a worker, who is named."""
        record = self.file("four.log", OPTIMAL_9)
        with contextlib.closing(Cluster(self.address)) as cluster:
            until(lambda: cluster.threads() == 2)
            names = [*cluster.workers]
        with mock.patch("psmax.cubes.parts.OWN", 1):
            ran = plan("verify", self.project, record, "--cluster", self.address, "--json", psprove=self.psprove())
        told = json.loads(ran.stdout)
        self.assertEqual((told["says"], len(told["own"]), len(told["believed"])), ("proved optimal 9", 1, 1))
        [(name, numbers)] = told["believed"].items()
        self.assertIn(name, names)
        self.assertEqual(sorted([*told["own"], *numbers]), [1, 2])

    def test_parts_without_a_worker(self) -> None:
        """All are killed while they check a wrong record. A worker that comes later finds its fault."""
        record = self.file("four.log", OPTIMAL_9.replace(b"\x12", b"\x10"))  # 8
        with contextlib.closing(Cluster(self.address)) as cluster:
            until(lambda: cluster.threads() == 2)
        with started("verify", self.project, record, "--cluster", self.address, psprove=self.psprove()) as verify:
            until(lambda: self.searches(self.workers[0].pid) or verify.poll() is not None)
            for worker in self.workers:
                worker.kill()
            told = told_until(verify, "the cluster has no worker yet")
            self.worker()
            out, rest = verify.communicate()
        self.assertEqual((verify.returncode, out.partition(": ")[2]), (4, "its step 1 is wrong (claim)\n"), told + rest)
