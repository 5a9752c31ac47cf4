"""What another user of the machine may see of a plan: nothing. Two users run here, so it takes root to start these
tests."""
import functools
import json
import os
import pathlib
import shutil
import signal
import socket
import subprocess
import sys
import unittest
from typing import Any
from urllib.parse import urlsplit

from .helpers import PLAN, PSMAX, PSPROVE, InFolder
from .test_cubes import STAND_IN, is_open, until
from .watching import Watching, done

OWNER, OTHER = 61_001, 61_002  # users without a name
NAME = "Zwiebelturm"  # of an activity, which stands nowhere else
PASSWORD = "correct-horse-battery"
TABLE = f"activity,days,crane (1)\n{NAME},3,1\nb,4,1\n"  # by hand: 7 days
KEPT = "p.csv", "plan.csv", "plan.rec", "plan.svg", "page.html", "dates.csv"

# The other user: what can be read of the processes of a user, and of the files in a folder, until standard input ends.
# A process that has a file in `waits` goes on once it was looked at.
LOOKS = """
import json, os, select, sys, time
owner, folder = int(sys.argv[1]), sys.argv[2]
waits = os.path.join(folder, "waits")
seen = {"processes": set(), "files": set()}
def look(kind, path):
    try:
        with open(path, "rb") as file:
            seen[kind].add(file.read().decode("utf-8", "replace"))
    except OSError:
        pass
def is_owned(pid):
    try:
        return pid.isdigit() and os.stat(f"/proc/{pid}").st_uid == owner
    except OSError:
        return False
print("begun", flush=True)
while not select.select([0], [], [], 0.01)[0]:
    waiting = os.listdir(waits)
    for pid in filter(is_owned, os.listdir("/proc")):
        for name in ("cmdline", "environ", "comm"):
            look("processes", f"/proc/{pid}/{name}")
    for name in waiting:
        os.unlink(os.path.join(waits, name))
    paths = (os.path.join(place, name) for place, _, names in os.walk(folder) for name in names)
    for path in paths:
        if not os.path.islink(path):  # to a Python of many megabytes
            look("files", path)
print(json.dumps({kind: sorted(texts) for kind, texts in seen.items()}))
"""


def as_user(user: int) -> dict[str, Any]:
    return {"user": user, "group": user, "extra_groups": []}


@functools.cache
def python() -> str | None:
    """A Python by which both users can start this plan."""
    for path in (sys.executable, shutil.which("python3", path="/usr/local/bin:/usr/bin:/bin")):
        try:
            words = [path or "", str(PLAN), "--version"]
            ran = [subprocess.run(words, capture_output=True, cwd="/", **as_user(user)) for user in (OWNER, OTHER)]
            if not any(one.returncode for one in ran):
                return path
        except OSError:
            continue
    return None


@unittest.skipUnless(os.geteuid() == 0, "this takes root, which starts processes of two users")
class SecondUser(InFolder):
    def setUp(self) -> None:
        super().setUp()
        found = python()
        if found is None:
            self.skipTest("no Python here that other users may start, or they may not read this plan")
        self.python: str = found
        self.folder.chmod(0o755)
        for name in ("tmp", "bin", "waits"):
            (self.folder / name).mkdir()
        (self.folder / "waits").chmod(0o777)
        for name in KEPT:
            self.file(name, TABLE if name == "p.csv" else "").chmod(0o600)
        (self.folder / "bin" / "python3").symlink_to(self.python)
        self.give(self.folder)
        self.env = {"PATH": f"{self.folder}/bin:/usr/bin:/bin", "TMPDIR": f"{self.folder}/tmp", "PASSWORD": PASSWORD,
                    "PYTHONDONTWRITEBYTECODE": "1", "PSMAX": self.seen("psmax", PSMAX),
                    "PSPROVE": self.seen("psprove", PSPROVE)}
        self.other = subprocess.Popen([self.python, "-c", LOOKS, f"{OWNER}", f"{self.folder}"], text=True, cwd="/",
                                      stdin=subprocess.PIPE, stdout=subprocess.PIPE, **as_user(OTHER))
        self.addCleanup(self.other.wait)
        self.addCleanup(self.other.kill)
        assert self.other.stdout is not None
        self.assertEqual(self.other.stdout.readline(), "begun\n")

    def seen(self, name: str, program: str) -> str:
        """A program that begins once the other user has seen its words."""
        file = f"{self.folder}/waits/$$"
        return self.program(name, f'> {file}\nwhile [ -e {file} ]; do sleep 0.01; done\nexec {program} "$@"')

    def stand_in_for_cubes(self) -> str:
        return self.seen("stand-in", f"{self.python} -ES {STAND_IN} 0")

    def give(self, folder: pathlib.Path) -> None:
        """The folder, with all in it, is the owner's."""
        for path in (folder, *folder.rglob("*")):
            os.chown(path, OWNER, OWNER, follow_symlinks=False)

    def begin(self, *words: object, psprove: str | None = None) -> subprocess.Popen[str]:
        """A command of the owner's."""
        return subprocess.Popen([PLAN, *map(str, words)], text=True, env=self.env, cwd=self.folder,
                                stdout=subprocess.PIPE,
                                stderr=subprocess.PIPE, preexec_fn=lambda: signal.signal(signal.SIGINT, signal.SIG_DFL),
                                **as_user(OWNER))

    def plan(self, *words: object) -> None:
        with self.begin(*words) as ran:
            out, told = ran.communicate(timeout=60)
        self.assertEqual(ran.returncode, 0, out + told)

    def shows_nothing(self, *secrets: str, saw: tuple[str, ...]) -> None:
        """The other user has seen processes by these texts, and no secret."""
        seen = json.loads(self.other.communicate("\n")[0])
        for text in saw:
            self.assertTrue(any(text in one for one in seen["processes"]), text)
        for secret in (NAME, PASSWORD, *secrets):
            for kind, texts in seen.items():
                self.assertEqual([text for text in texts if secret in text], [], kind)

    def test_watch(self) -> None:
        """Neither the token, which a browser gets by a page, nor what is planned and kept."""
        self.env["BROWSER"] = self.seen("browser", "true")
        with Watching(self.folder / "p.csv", "--open", begin=self.begin) as watch:
            watch.until(done("optimal 7"))
            self.assertEqual(watch.order("keep")[0], 200)
        token = urlsplit(watch.address).path.strip("/")
        self.shows_nothing(token, saw=("browser\0file://", "psprove\0solve", "plan\0watch"))

    def test_commands(self) -> None:
        """Searches, and what is made of their answers, into files of mode 0600."""
        self.plan("solve", "p.csv", "--out", "plan.csv", "--record", "plan.rec", "--svg", "plan.svg")
        self.plan("report", "p.csv", "plan.csv", "--out", "page.html")
        self.plan("write", "p.csv", "plan.csv", "--out", "dates.csv")
        self.assertIn(NAME, (self.folder / "page.html").read_text())
        self.shows_nothing(saw=("psprove\0solve", "psmax\0check", "plan\0report"))

    def test_cubes(self) -> None:
        """In a folder that is the owner's alone."""
        (self.folder / "cubes").mkdir(mode=0o700)
        self.give(self.folder / "cubes")
        self.env["PSPROVE"] = self.stand_in_for_cubes()
        self.plan("solve", "p.csv", "--out", "cubes/", "--jobs", "2")
        self.shows_nothing(saw=("solve\0--json\0--follow", "join\0--project"))

    def test_a_cluster(self) -> None:
        """The same by workers of Dask, whose port everybody reaches."""
        look = "import importlib.util, sys; sys.exit(importlib.util.find_spec('distributed') is None)"
        if subprocess.run([self.python, "-c", look], cwd="/").returncode != 0:
            self.skipTest("Dask isn't here: install python3-distributed")
        (self.folder / "cubes").mkdir(mode=0o700)
        self.give(self.folder / "cubes")
        self.env["PSPROVE"] = self.stand_in_for_cubes()
        with socket.socket() as free:
            free.bind(("127.0.0.1", 0))
            port = free.getsockname()[1]
        self.dask("scheduler", "--host", "127.0.0.1", "--port", f"{port}")
        until(lambda: is_open(port))
        address = f"tcp://127.0.0.1:{port}"
        self.dask("worker", address, "--host", "127.0.0.1", "--nthreads", "1", "--no-nanny", "--memory-limit", "0")
        self.plan("solve", "p.csv", "--out", "cubes/", "--cluster", address)
        self.shows_nothing((self.folder / "cubes" / "token").read_text(), saw=("solve\0--json\0--follow",))

    def dask(self, *words: str) -> None:
        page = "--no-dashboard", "--dashboard-address", "127.0.0.1:0"
        child = subprocess.Popen([self.python, "-m", f"distributed.cli.dask_{words[0]}", *words[1:], *page],
                                 env=self.env,
                                 cwd=self.folder, stdout=subprocess.DEVNULL, stderr=subprocess.DEVNULL,
                                 **as_user(OWNER))
        self.addCleanup(child.wait)
        self.addCleanup(child.kill)
