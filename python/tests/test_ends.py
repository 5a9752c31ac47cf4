"""Where Python ends, whatever ends it, so do the programs that it has started."""
import os
import pathlib
import signal
import subprocess
import sys
import time
import unittest
from collections.abc import Callable
from unittest import mock

from planner.tests.helpers import CALLED, PLAN, PSMAX, PSPROVE, TOP, TWO, InFolder, job_shop
from psmax.process import tied

PATIENCE = 30.0  # seconds in which a process has to end on a machine that does other work too
BEGIN = "import sys, psmax\nproject = psmax.Project.read(sys.argv[1])\n"
SOLVE = BEGIN + "project.solve(60, 1)\n"
VERIFY = BEGIN + "project.verify(b'record 3')\n"
POOL = BEGIN + """
import multiprocessing, os, time
def search(_):
    project.solve(60, 1)
with multiprocessing.get_context("fork").Pool(1) as pool:
    pool.map_async(search, [0])
    while not os.path.exists(sys.argv[2]):
        time.sleep(0.01)
"""
TASK = BEGIN + """
import asyncio
async def main():
    try:
        await asyncio.wait_for(asyncio.to_thread(project.solve, 2, 1), 0.5)
    except TimeoutError:
        pass
asyncio.run(main())
"""
SEARCH = BEGIN + """
with project.search(60, 1) as search:
    for told in search:
        pass
"""
AWAITED = BEGIN + """
import asyncio
async def main():
    await project.search(60, 1)
asyncio.run(main())
"""


def end(*numbers: signal.Signals) -> Callable[[subprocess.Popen[bytes]], None]:
    """Signals, one after another."""
    def send(child: subprocess.Popen[bytes]) -> None:
        for number in numbers:
            child.send_signal(number)
            time.sleep(0.3)
    return send


def wait(child: subprocess.Popen[bytes]) -> None:
    """It ends by itself."""


def is_there(pid: int) -> bool:
    try:
        return pathlib.Path(f"/proc/{pid}/stat").read_text().rpartition(") ")[2][0] != "Z"
    except OSError:
        return False


class Ends(InFolder):
    def setUp(self) -> None:
        super().setUp()
        self.pid = self.folder / "pid"
        self.begin = f"echo $$ > {self.pid}.new\n/bin/mv {self.pid}.new {self.pid}\n"
        self.sleeps = self.program("sleeps", f"{self.begin}exec sleep 60")

    def left(self, words: list[str], ends: Callable[[subprocess.Popen[bytes]], None], **env: str) -> None:
        """Starts a command, ends it once psprove runs, and has no psprove left."""
        self.pid.unlink(missing_ok=True)
        env = {**os.environ, **CALLED, "PSPROVE": self.sleeps, "PYTHONPATH": str(TOP / "python"), **env}
        with subprocess.Popen(words, env=env, stdout=subprocess.DEVNULL, stderr=subprocess.DEVNULL,
                              preexec_fn=lambda: signal.signal(signal.SIGINT, signal.default_int_handler)) as child:
            until = time.monotonic() + PATIENCE
            while not self.pid.exists():
                self.assertLess(time.monotonic(), until)
                time.sleep(0.01)
            pid = int(self.pid.read_text())
            ends(child)
            child.wait(PATIENCE)
        while is_there(pid):
            self.assertLess(time.monotonic(), until)
            time.sleep(0.01)

    def test_python(self) -> None:
        """By a request to end, by force, by two Ctrl-C, where a pool is left, where a task is cancelled, and by one
        Ctrl-C where a search is listened to or awaited."""
        kill, term, once = end(signal.SIGKILL), end(signal.SIGTERM), signal.SIGINT
        calls = (SOLVE, kill), (SOLVE, term), (SOLVE, end(once, once)), (VERIFY, kill), (POOL, wait), (TASK, wait), \
            (SEARCH, end(once)), (AWAITED, end(once)), (SEARCH, kill)
        for script, ends in calls:
            with self.subTest(script.removeprefix(BEGIN), ends=ends):
                self.left([sys.executable, "-c", script, str(TWO), str(self.pid)], ends)

    def test_by_a_pipe(self) -> None:
        """Where there is no `setpriv`, a search ends since its standard input does."""
        paths, project = "export PATH=/usr/bin:/bin\n", self.file("shop.sch", job_shop())
        psprove = self.program("psprove", f'{self.begin}{paths}exec {PSPROVE} "$@"')
        psmax = self.program("psmax", f'{paths}exec {PSMAX} "$@"')
        calls = (SOLVE, end(signal.SIGKILL)), (SOLVE, end(signal.SIGTERM)), (POOL, wait)
        for script, ends in calls:
            with self.subTest(script.removeprefix(BEGIN), ends=ends):
                words = [sys.executable, "-c", script, str(project), str(self.pid)]
                self.left(words, ends, PSPROVE=psprove, PSMAX=psmax, PATH="")

    def test_plan(self) -> None:
        """Also the searches of a batch, which are processes of their own."""
        solve, record = [sys.executable, str(PLAN), "solve", str(TWO)], self.file("record", "record 3\n")
        verify = [sys.executable, str(PLAN), "verify", str(TWO), str(record)]
        (self.folder / "all").mkdir()
        self.file("all/two.sch", TWO.read_bytes())
        batch = [sys.executable, str(PLAN), "batch", f"{self.folder}/all"]
        kill, once = end(signal.SIGKILL), signal.SIGINT
        for words, ends in ((solve, kill), (verify, kill), (verify, end(once, once)), (batch, kill)):
            with self.subTest(words[2], ends=ends):
                self.left(words, ends)


class Tied(unittest.TestCase):
    def test_too_late(self) -> None:
        """A program whose parent is there no more when it begins does not run."""
        with mock.patch("os.getpid", return_value=1):
            words = tied(["echo", "x"])
        self.assertEqual(subprocess.run(words, capture_output=True).stdout, b"")
        self.assertEqual(subprocess.run(tied(["echo", "x"]), capture_output=True).stdout, b"x\n")

    def test_without_setpriv(self) -> None:
        with mock.patch("shutil.which", return_value=None):
            self.assertEqual(tied(["echo", "x"]), ["echo", "x"])
