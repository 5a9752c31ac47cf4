"""No output replaces what was read, and no result is lost."""
import os
import pathlib
import signal
import subprocess
import sys
import time
import weakref
from typing import NoReturn
from unittest import mock

from psmax.clock import ENDS

from .helpers import CALLED, EXAMPLES, INPUTS, PLAN, TWO_JOBS, InFolder, begun, plan, psmax, started, told_until

TABLE = "activity,days,crane (1)\na,3,1\nb,4,1\n"
STARTS = "0 0\n1 0\n2 3\n3 7\n"


class Inputs(InFolder):
    """A project `w.sch` of two jobs with its table, its page and its answers."""

    def setUp(self) -> None:
        super().setUp()
        self.assertEqual(plan("read", self.file("w.csv", TABLE)).returncode, 0)
        self.file("w.st", STARTS)
        self.file("free", "2026-12-25\n")
        self.file("other.md", "| 1 | one | 3 |\n")
        os.link(self.folder / "w.sch", self.folder / "hard")
        (self.folder / "soft").symlink_to(self.folder / "w.sch")
        (self.folder / "soft.csv").symlink_to(self.folder / "w.csv")
        os.link(self.folder / "w.st", self.folder / "hard.st")
        self.before = self.texts()

    def texts(self) -> dict[str, bytes]:
        return {path.name: path.read_bytes() for path in self.folder.iterdir()}

    def spared(self, words: tuple[str, ...], name: str) -> None:
        """The command refuses to write there, and everything stays as it was."""
        at = [self.folder / word if (self.folder / word).exists() else word for word in words]
        with self.subTest(words=words, name=name):
            self.refused(plan(*at, f"{self.folder}/../{self.folder.name}/{name}"), 2, "which would be lost")
            self.assertEqual(self.texts(), self.before)

    def test_what_was_read_stays(self) -> None:
        for name in ("w.sch", "w.csv", "w.md", "w.st", "hard", "soft", "soft.csv", "hard.st"):
            self.spared(("write", "w.sch", "w.st", "--out"), name)
            self.spared(("gantt", "w.sch", "w.st", "--svg"), name)
            self.spared(("float", "w.sch", "w.st", "--out"), name)
            self.spared(("solve", "w.sch", "--start", "w.st", "--out"), name)
            self.spared(("solve", "w.sch", "--start", "w.st", "--svg"), name)
        self.spared(("write", "w.sch", "w.st", "--names", "other.md", "--out"), "other.md")
        self.spared(("write", "w.sch", "w.st", "--from", "2026-03-02", "--holidays", "free", "--out"), "free")
        self.spared(("read", "w.sch", "--out"), "hard")
        self.spared(("batch", str(self.folder), "--csv"), "w.sch")

    def test_a_table_in_another_folder(self) -> None:
        """The page says where the table is, from its own folder on."""
        (self.folder / "there").mkdir()
        there = self.folder / "there" / "w.sch"
        self.assertEqual(plan("read", self.folder / "w.csv", "--out", there).returncode, 0)
        table = self.folder / "w.csv"
        self.refused(plan("write", there, self.folder / "w.st", "--out", table), 2, "is the table of the project")
        self.assertEqual(table.read_text(), TABLE)

    def test_an_answer_on_standard_input(self) -> None:
        with open(self.folder / "w.st", "rb") as answer:
            words = [sys.executable, str(PLAN), "write", str(self.folder / "w.sch"), "--out",
                     str(self.folder / "hard.st")]
            ran = subprocess.run(words, stdin=answer, capture_output=True, text=True, env={**os.environ, **CALLED})
        self.assertEqual((ran.returncode, self.texts()), (2, self.before), ran.stderr)

    def test_two_outputs(self) -> None:
        both = self.folder / "both"
        self.refused(plan("solve", self.folder / "w.sch", "--out", both, "--svg", both), 2, "can't hold two outputs")

    def test_a_table_beside_the_project_may_be_an_answer(self) -> None:
        """What `plan write` made beside a project that has no table it may make again."""
        project, out = self.file("x.sch", TWO_JOBS), self.folder / "x.csv"
        for _ in range(2):
            self.assertEqual(plan("write", project, self.folder / "w.st", "--out", out).returncode, 0)
        self.assertEqual(out.read_text().splitlines()[0], "activity,name,start,takes,end")


class Results(InFolder):
    def test_written_each_time(self) -> None:
        """The schedule is in the file once it is told, whole, also where the command is killed."""
        best, path = self.folder / "best", self.hard()
        with started("solve", path, "--out", best) as child:
            told_until(child, "  schedule ")
            time.sleep(0.2)
            child.kill()
        told = psmax("check", "--project", path, given=best.read_bytes())
        self.assertEqual(told.split()[1], best.read_text().split()[1])

    def test_never_longer(self) -> None:
        """By hand: a schedule of 7 stays and is begun with; one of 9 gives way to one of 7."""
        for end in (7, 9):
            with self.subTest(end):
                best = self.file("best", f"0 0\n1 0\n2 {end - 4}\n3 {end}\n")
                ran = plan("solve", INPUTS / "two-jobs.sch", "--out", best)
                self.assertEqual(ran.stdout, "optimal 7\n")
                self.assertIn(f"schedule {end}: {best}, by check\n", ran.stderr)
                self.assertIn("3 7", best.read_text())

    def test_a_shorter_one_of_somebody_else(self) -> None:
        """One search finds a schedule while another puts a shorter one into the same file; the file keeps that."""
        best, short = self.folder / "best", self.file("short", STARTS)
        answer = '{"bound":0,"conflicts":1,"makespan":9,"starts":[0,0,5,9],"status":"feasible"}'
        long = self.program("long", f"""cp {short} {best}
            for file; do case $before in --record) echo > $file; esac; before=$file; done
            echo '{answer}'; exit 3""")
        ran = plan("solve", INPUTS / "two-jobs.sch", "--out", best, "--seconds", "1", "--jobs", "1", psprove=long)
        self.assertEqual(ran.returncode, 3, ran.stderr)
        self.assertIn("holds a schedule of 7 by now, which stays", ran.stderr)
        self.assertEqual(best.read_bytes(), short.read_bytes())

    def test_what_is_no_schedule_of_this_project(self) -> None:
        """The answer of another project stays, and any other file."""
        old, told = self.folder / "old.csv", "is no schedule of"
        self.assertEqual(plan("solve", self.file("w.csv", TABLE), "--out", old).returncode, 0)
        other = self.file("v.csv", "activity,days\none,1\ntwo,1\nthree,1\n")
        self.refused(plan("solve", other, "--out", old), 2, f"old.csv {told}", "name another file with --out", faults=6)
        for text in (old.read_text(), "optimal 2\n0 0\n1 2\n", "my own words\n", TABLE, TWO_JOBS, "record 1\n"):
            there = self.file("there", text)
            ran = plan("solve", INPUTS / "three-jobs-lags.sch", "--out", there)
            self.refused(ran, 2, f"there {told}", faults=2)
            self.assertEqual(there.read_text(), text)

    def test_what_holds_no_starts(self) -> None:
        for text in ("", "no schedule\n", "unknown bound 3\n"):
            best = self.file("best", text)
            self.assertEqual(plan("solve", INPUTS / "two-jobs.sch", "--out", best).returncode, 0)
            self.assertEqual(best.read_text().split()[:2], ["optimal", "7"])

    def test_a_bad_project(self) -> None:
        self.refused(plan("solve", self.file("p.sch", "x"), "--out", self.file("best", STARTS)), 2, "p.sch: word 0")


def cut_off(*_: object) -> NoReturn:
    """As argparse does where it is interrupted between two of its steps."""
    try:
        raise KeyboardInterrupt
    finally:
        raise AttributeError("save_nargs")


def dropped(*_: object) -> None:
    """As import does: an interrupt comes while a weak reference is called back."""
    def gone(_: object) -> None:
        signal.raise_signal(signal.SIGINT)
        time.sleep(0)

    kept = {1}
    reference = weakref.ref(kept, gone)
    del kept
    assert reference() is None


class Ends(InFolder):
    """Ctrl-C, a request to end and a terminal that closes end every command alike."""

    def test_on_the_way_out(self) -> None:
        """What fails since a command was interrupted is no fault of plan."""
        with mock.patch("psmax.planner.main.parse_arguments", cut_off):
            ran = plan("solve", TWO_JOBS)
        self.assertEqual((ran.returncode, ran.stderr), (130, "plan: interrupted\n"))

    def test_where_python_drops_it(self) -> None:
        with mock.patch("psmax.planner.main.parse_arguments", dropped), started("solve", TWO_JOBS) as child:
            self.assertEqual((child.communicate(timeout=30), child.returncode), (("", ""), -signal.SIGINT))

    def test_at_any_moment(self) -> None:
        path = self.hard()
        for place in range(20):
            with self.subTest(place), begun("solve", path, "--seconds", "5") as child:
                assert child.stdout is not None and child.stderr is not None
                time.sleep(place / 200)
                child.send_signal(ENDS[place % 3])
                told = child.stderr.read()
                self.assertNotIn("Traceback", told)
                self.assertNotIn("Error", told)
                self.assertIn(child.wait(timeout=30), (3, 130, *(-number for number in ENDS)))

    def test_others(self) -> None:
        """A command that waits for its answer ends without a word but one."""
        begun = self.folder / "begun"
        slow = self.program("slow", f"> {begun}\nexec sleep 30")
        words = ("gantt", INPUTS / "two-jobs.sch", self.file("starts", STARTS))
        for sent in ENDS:
            with self.subTest(sent), started(*words, psmax=slow) as child:
                while not begun.exists():
                    time.sleep(0.02)
                begun.unlink()
                child.send_signal(sent)
                self.assertEqual((child.communicate(timeout=30)[1], child.returncode), ("plan: interrupted\n", 130))

    def test_nohup(self) -> None:
        """Where a closed terminal is ignored, the search goes on."""
        words = ["nohup", sys.executable, str(PLAN), "solve", str(EXAMPLES / "building-site.sch")]
        child = subprocess.Popen(words, stdout=subprocess.PIPE, stderr=subprocess.PIPE, text=True,
                                 env={**os.environ, **CALLED})
        begun = pathlib.Path(f"/proc/{child.pid}/cmdline")  # of Python, once nohup has seen to the signal
        while child.poll() is None and not begun.read_bytes().startswith(sys.executable.encode()):
            time.sleep(0.01)
        child.send_signal(signal.SIGHUP)
        self.assertIn("optimal 36", child.communicate(timeout=30)[0])
