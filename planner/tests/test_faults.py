import os
import shutil
import signal
import subprocess
import sys
from unittest import mock

from .helpers import CALLED, EXAMPLES, PLAN, InFolder, Ran, plan, psmax, started, told_until

COMMANDS = ("solve", "why", "where", "gantt", "write")
SITE = EXAMPLES / "building-site.sch"


class Faults(InFolder):
    def test_vanished_files(self) -> None:
        for command in (*COMMANDS, "read"):
            with self.subTest(command):
                self.refused(plan(command, self.folder / "gone.sch"), 1, "cannot read", "gone.sch", "no such file")
        self.refused(plan("gantt", SITE, self.folder / "gone.starts"), 1, "gone.starts")
        self.refused(plan("read", self.folder / "gone.csv"), 1, "gone.csv")
        self.refused(plan("solve", self.folder), 1, "is a directory")

    def test_bad_projects(self) -> None:
        path = self.file("bad.sch", "2 1 0 0\nx")
        for command in ("solve", "why", "gantt", "write", "read"):
            with self.subTest(command):
                self.refused(plan(command, path, given=b"0 0\n"), 2, "bad.sch: word 4: not a number")

    def test_a_program_that_fails(self) -> None:
        for program, text in (("/bin/false", "failed"), ("/bin/cat", ""), ("/bin/true", "does not know"),
                              (str(self.folder / "gone"), "no program"), (str(self.folder), "no program")):
            for command in COMMANDS:
                with self.subTest(program=program, command=command):
                    called = {"psprove" if command == "solve" else "psmax": program}
                    self.refused(self.called(command, **called), 1, text)
        killed = self.program("killed", "kill -9 $$")
        self.refused(plan("solve", SITE, psprove=killed), 1, "psprove solve was ended by signal 9")

    def called(self, command: str, **programs: str) -> Ran:
        return plan(command, SITE, given=b"0 0\n", **programs)

    def test_a_psprove_that_does_not_end(self) -> None:
        slow = self.program("slow", "exec sleep 60")
        with mock.patch("psmax.process.ENDING", 0.1):
            ran = plan("solve", SITE, "--seconds", "1", psprove=slow)
        self.assertEqual((ran.returncode, ran.stdout), (3, "unknown bound 0\n"))

    def test_files_that_can_not_be_written(self) -> None:
        for words in (("--out", self.folder / "no" / "x"), ("--svg", self.folder / "no" / "x"), ("--out", self.folder),
                      ("--out", os.devnull)):
            with self.subTest(words):
                self.refused(plan("solve", SITE, *words), 1, "cannot write")
        table, gone = self.file("t.csv", "activity,days\na,1\n"), self.folder / "no" / "x.sch"
        self.refused(plan("gantt", SITE, EXAMPLES / "building-site-feasible.starts", "--svg", gone), 1, "cannot write")
        self.refused(plan("read", table, "--out", gone), 1, "cannot write")

    def test_bad_words(self) -> None:
        for words in ((), ("draw",), ("solve",), ("solve", SITE, "--seconds", "0"), ("solve", SITE, "--seconds", "nan"),
                      ("solve", SITE, "--seconds", "soon"), ("solve", SITE, "--seconds", "0.5s"),
                      ("solve", SITE, "--jobs", "0"), ("solve", SITE, "--jobs", "65"), ("solve", SITE, "--jobs", "-1"),
                      ("solve", SITE, "--jobs", "two"), ("solve", SITE, "--jobs", ""), ("solve", SITE, "--start"),
                      ("solve", SITE, "--x\n\x1b[2J"), ("gantt", SITE, "--width", "7"),
                      ("write", SITE, "--period", "years")):
            with self.subTest(words):
                self.refused(plan(*words), 2, "plan: ")
        self.assertEqual(plan("--help").returncode, 0)
        self.assertIn("--jobs N", plan("solve", "--help").stdout)

    def test_closed_streams(self) -> None:
        for closed, status, text in ((">&-", 1, "plan: standard output is closed\n"),
                                     ("<&-", 1, "plan: standard input is closed\n"), ("2>&-", 0, "")):
            with self.subTest(closed):
                words = ["sh", "-c", f'exec "$@" {closed}', "sh", sys.executable, "-S", str(PLAN), "gantt", str(SITE)]
                with open(EXAMPLES / "building-site-feasible.starts", "rb") as starts:
                    ran = subprocess.run(words, stdin=starts, capture_output=True, text=True,
                                         env={**os.environ, **CALLED})
                self.assertEqual((ran.returncode, ran.stderr), (status, text))
                self.assertEqual(ran.stdout != "", status == 0)

    def test_a_folder_that_vanishes(self) -> None:
        """The schedule that can't be written any more goes to standard output."""
        folder = self.folder / "gone"
        folder.mkdir()
        path = self.hard()
        with started("solve", path, "--out", folder / "best") as child:
            assert child.stdout is not None and child.stderr is not None
            told_until(child, "  schedule ")
            shutil.rmtree(folder)
            child.send_signal(signal.SIGINT)
            told = child.stderr.read()
            out = child.stdout.read()
            self.assertEqual(child.wait(timeout=30), 1)
        self.assertIn("plan: cannot write", told.splitlines()[-1])
        self.assertEqual(out.split()[0], "feasible")
        self.assertTrue(psmax("check", "--project", path, given=out.encode()).startswith("feasible"))

    def test_a_page_that_is_named_and_gone(self) -> None:
        starts = EXAMPLES / "building-site-feasible.starts"
        for command in ("gantt", "write"):
            ran = plan(command, SITE, starts, "--names", self.folder / "gone.md")
            self.refused(ran, 1, "cannot read", "gone.md")

    def test_odd_pages(self) -> None:
        project = self.file("p.sch", SITE.read_bytes())
        for page in (b"| " + b"1" * 5000 + b" | a | b |\n", b"\xff\x00|\n", b"|" * 1000, b"|-|-|-|\n"):
            with self.subTest(page[:20]):
                self.file("p.md", page)
                ran = plan("gantt", project, EXAMPLES / "building-site-feasible.starts")
                self.assertEqual((ran.returncode, ran.stderr), (0, ""))

    def test_output_that_nobody_reads(self) -> None:
        for target, status in ((os.devnull, 0), ("/dev/full", 1)):
            with open(target, "wb") as out:
                with started("solve", SITE, out=out) as child:
                    told = child.communicate()[1]
            self.assertEqual(child.returncode, status)
            self.assertNotIn("Traceback", told)
