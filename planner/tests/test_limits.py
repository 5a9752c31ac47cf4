"""Texts that are made to take long: each has its fault soon, in little room."""
import http.client
import json
import os
import resource
import subprocess
import sys
import threading
import unittest
from collections.abc import Sequence
from unittest import mock
from urllib.parse import urlsplit

from psmax.dates import is_dated
from psmax.errors import BadInput, Failed
from psmax.files import without_blank_rows
from psmax.process_limits import keep_limits, limited

from . import copied, hostile_texts
from .browser import DEBIAN
from .helpers import CALLED, INPUTS, TOP, InFolder, plan
from .hostile_texts import HEADS, LONG, XER, XML, filled
from .test_spreadsheets import STARTS, book, is_here, saved
from .watching import Watching, done

SECONDS, MEGABYTES = 5.0, 200

# Looks at all texts in turn, and tells the seconds of a processor that each took, with those of what it called, the
# most memory of all, and faults that say nothing.
LOOK = """
import contextlib, io, json, os, re, resource, sys
from planner.tests import copied
from psmax import process_limits
from psmax.planner.main import main
process_limits.begin = copied.begin_answer
def seconds():
    return sum(os.times()[:4])
for words in map(json.loads, sys.stdin):
    begun, told = seconds(), io.StringIO()
    with contextlib.redirect_stderr(told), contextlib.redirect_stdout(io.StringIO()):
        status = main(words)
    is_clear = status == 2 and told.getvalue().startswith("plan: ") and "Traceback" not in told.getvalue()
    own = int(re.search(r"VmHWM:\\s*(\\d+)", open("/proc/self/status").read())[1])
    most = max(own, resource.getrusage(resource.RUSAGE_CHILDREN).ru_maxrss) // 1024
    print(round(seconds() - begun, 2), most, is_clear, told.getvalue()[:200].replace("\\n", " "), flush=True)
"""


class Hostile(InFolder):
    looks: subprocess.Popen[str]

    @classmethod
    def setUpClass(cls) -> None:
        found = [str(TOP), str(TOP / "python"), *(path for path in sys.path if path == DEBIAN)]
        env = {**os.environ, **CALLED, "PYTHONPATH": os.pathsep.join(found)}
        cls.looks = subprocess.Popen([sys.executable, "-c", LOOK], text=True, env=env, stdin=subprocess.PIPE,
                                     stdout=subprocess.PIPE)
        cls.addClassCleanup(cls.looks.communicate)

    def look(self, texts: hostile_texts.Texts, *before: object, behind: Sequence[object] = ()) -> None:
        """Hands each text to a command between these words, all in one process. Without words it is `plan check`."""
        assert self.looks.stdin is not None and self.looks.stdout is not None
        for name, text in texts:
            path = self.file(name, text)
            words = [*(before or ["check"]), path, *behind]
            print(json.dumps([*map(str, words)]), file=self.looks.stdin, flush=True)
            seconds, megabytes, is_clear, *told = self.looks.stdout.readline().split(" ", 3)
            path.unlink()
            with self.subTest(name):
                self.assertEqual(is_clear, "True", told)
                self.assertLess(float(seconds), SECONDS, told)
                self.assertLess(int(megabytes), MEGABYTES, told)

    def test_long(self) -> None:
        self.look(hostile_texts.long())

    def test_tables(self) -> None:
        self.look(hostile_texts.tables())

    def test_formats(self) -> None:
        for texts in (hostile_texts.objects, hostile_texts.elements, hostile_texts.exports):
            self.look(texts())

    def test_other_files(self) -> None:
        """An answer, days without work, absences, and the page of names."""
        table = self.file("p.csv", f"from,2026-03-02\n{HEADS},crane (1)\na,3,1\n")
        options: list[list[str]] = [[], ["--holidays"], ["--absences"]]
        for option in options:
            self.look(hostile_texts.lists(), "check", table, *option)
        page, starts = self.file("p.md", filled("| a | b |\n")), self.file("starts", "0 0\n1 0\n2 3\n3 7\n")
        self.refused(plan("check", INPUTS / "two-jobs.sch", starts, "--names", page), 2, "p.md: too long")

    @unittest.skipUnless(is_here(), "python3-openpyxl isn't here")
    def test_spreadsheets(self) -> None:
        self.look(hostile_texts.spreadsheets(saved(book())))
        words = self.file("a.csv", STARTS), "--out", self.folder / "out.xlsx"
        self.look(hostile_texts.kept(saved(book())), "write", behind=words)

    def test_watch(self) -> None:
        """A body is refused by its length, before it is read, and the page goes on."""
        watch = Watching(self.file("p.csv", f"{HEADS}\na,3\n"))
        self.addCleanup(watch.__exit__, None, None, None)
        watch.until(done("optimal 3"))
        place = urlsplit(watch.address)
        before, room = cost(watch.child.pid), most_memory(watch.child.pid)
        for piece in hostile_texts.PIECES.values():
            for name in ("whatif", "keep", "back"):
                self.assertEqual(self.posted(place.netloc, f"{place.path}{name}", filled(piece)), 403)
        self.assertLess(cost(watch.child.pid) - before, SECONDS)
        self.assertLess(most_memory(watch.child.pid) - room, LONG // 2**20)
        self.assertEqual(watch.ask("GET", place.path)[0], 200)

    def posted(self, netloc: str, path: str, body: str) -> int:
        """The status of the answer, which may come before all is sent."""
        connection = http.client.HTTPConnection(netloc, timeout=60)
        connection.putrequest("POST", path, skip_host=True)
        for head, text in (("Host", netloc), ("Origin", f"http://{netloc}"), ("Content-Length", f"{len(body)}")):
            connection.putheader(head, text)
        connection.endheaders()
        try:
            connection.send(body.encode())
        except (BrokenPipeError, ConnectionResetError):
            pass
        try:
            return connection.getresponse().status
        except ConnectionResetError:  # with the answer still unread
            return 403
        finally:
            connection.close()

    def test_faults(self) -> None:
        """Each limit has one of its own; what is just within has none."""
        row = "{},1,{}\n"
        for text, told in (("\n" * 9 + "x" * 4_194_305, "too long: it has more than 4,194,304 bytes"),
                           (f"{HEADS}\n" + "x\n" * 100_001, "at most 100,000 rows, and this one 100,002"),
                           (f"{HEADS}\n" + "x\n" * 10_001, "at most 10,000 rows, and this one 10,001"),
                           (f"{HEADS}\n" + "x," * 250_000, "at most 250,000 cells, and this one 250,002"),
                           (f"{HEADS}\n" + "x," * 2_001,
                            "row 2: a table has at most 2,000 columns, and this one 2,002"),
                           (f"{HEADS}\n" + row.format("a", "b" * 32_768),
                            "row 2, column C: a cell has at most 32,767 signs")):
            with self.subTest(told):
                self.refused(plan("check", self.file("t.csv", text)), 2, told)
        ran = plan("check", self.file("t.csv", f"{HEADS},notes\n" + row.format("a", "b" * 32_767)))
        self.assertEqual(ran.returncode, 0, ran.stderr)

    def test_faults_of_formats(self) -> None:
        texts: dict[str, tuple[str | bytes, str]] = {
            "a.xml": (f"{XML}<a {'x' * 2_000_000}='1'/></Project>", "a tag of more than 1,048,576 bytes"),
            "b.xml": (f"{XML}{'x' * 1_048_577}</Project>", "a text of more than 1,048,576 signs"),
            "c.xml": (f"{XML}{'<a>' * 64}{'</a>' * 64}</Project>", "more than 64 levels"),
            "d.xml": (f"{XML}{'<' * 1_000_000}", "more than 1,000,000 signs <"),
            "a.xer": (f"{XER}%T\tTASK\n%F" + "\ta" * 1_001 + "\n%E\n", "line 6: a table has at most 1,000 columns"),
            "b.xer": (f"{XER}%T\tTASK\n%F\ta\n" + "%R\t1\n" * 500_001 + "%E\n", "at most 500,000 cells"),
            "c.xer": (XER + "%T\tA\n" * 1_000 + "%E\n", "a file has at most 1,000 tables"),
            "a.mpp": (b"\xd0\xcf\x11\xe0\xa1\xb1\x1a\xe1",
                      "a file of Microsoft Project (.mpp) or of an old Excel (.xls)")}
        for name, (text, told) in texts.items():
            with self.subTest(name):
                self.refused(plan("check", self.file(name, text)), 2, told)

    def test_a_million_blank_rows(self) -> None:
        """As a spreadsheet may write them: they are no rows."""
        table = self.file("t.csv", f"{HEADS}\r\na,3\r\n" + ",,\r\n" * 1_000_000)
        self.assertEqual(plan("check", table).returncode, 0)
        for text, whole in ((b"a,b,\n,,\n\n", b"a,b,\n"), (b"a;;", b"a;;"), (b"\n\n", b"\n"), (b"", b""),
                            (b"\xff\xfea\0\n\0\n\0", b"\xff\xfea\0\n\0\n\0")):
            self.assertEqual(without_blank_rows(text), whole)

    def test_dates(self) -> None:
        """A cell of any length is no date, and is known at once not to be one."""
        self.assertFalse(is_dated("a" * 32_000))
        self.assertTrue(is_dated("  Mon 2.3.2026  "))


class Limited(unittest.TestCase):
    def test_limits(self) -> None:
        """What a process with limits does ends with its text, its own fault, or that of a limit."""
        with (mock.patch("psmax.process_limits.begin", copied.begin_answer),
              mock.patch("psmax.process_limits.SECONDS", 1)):
            self.assertEqual(limited("x", within_limits, "text\n\u00e9"), "text\n\u00e9")
            for given, kind, told in ((BadInput("a", "b"), BadInput, "a; b"), (Failed("c"), Failed, "c"),
                                      (KeyError("d"), RuntimeError, "d"),
                                      (LONG * 16, BadInput, "x: it takes more than 128 MB of memory to read"),
                                      (None, BadInput, "x: it takes more than 1 seconds to read")):
                with self.subTest(told), self.assertRaises(kind) as raised:
                    limited("x", within_limits, given)
                self.assertEqual(str(raised.exception), told)
        self.assertEqual(resource.getrlimit(resource.RLIMIT_CPU)[0], resource.RLIM_INFINITY)

    def test_a_lock(self) -> None:
        """What another thread holds meanwhile is not held in that process."""
        with LOCK:
            self.assertEqual(limited("x", within_limits, "text"), "text")


LOCK = threading.Lock()


def within_limits(given: object) -> str:
    """Gives a text, raises a fault, makes a text of so many signs, or has no end."""
    keep_limits()
    with LOCK:
        if isinstance(given, Exception):
            raise given
        while given is None:
            pass
        return "x" * given if isinstance(given, int) else f"{given}"


def most_memory(process: int) -> int:
    """The megabytes that it had at most."""
    with open(f"/proc/{process}/status") as status:
        return next(int(line.split()[1]) // 1024 for line in status if line.startswith("VmHWM:"))


def cost(pid: int) -> float:
    """The seconds of a processor that a process has taken by now."""
    with open(f"/proc/{pid}/stat") as file:
        return sum(map(int, file.read().rpartition(") ")[2].split()[11:13])) / os.sysconf("SC_CLK_TCK")
