"""What psprove tells while it searches is known at once, and whatever ends the search loses none of it."""
import re
import signal
import time
from unittest import mock

from .helpers import LONG, TELLS, TWO, InFolder, plan, psmax, started, told_until

ANSWER = "feasible 9 bound 6\n0 0\n1 0\n2 5\n3 9\n"


class Live(InFolder):
    def test_each_is_told(self) -> None:
        """Once, as it comes; and the file of --out gets each schedule."""
        best = self.folder / "best"
        with started("solve", TWO, "--out", best, psprove=self.stand_in(tells=TELLS, then="waits")) as child:
            assert child.stdout is not None
            lines = told_until(child, "bound 6").splitlines()
            self.assertEqual(best.read_text().split()[-1], "9")
            child.send_signal(signal.SIGINT)
            self.assertEqual(child.stdout.read(), "feasible 9 bound 6\n")
        told = [line.split("  ")[-1] for line in lines]
        self.assertEqual(told, ["bound 4", "schedule 12", "schedule 9", "bound 6"])

    def test_ctrl_c(self) -> None:
        """What was told stays, also where psprove then answers with a longer schedule, or with none, or not at all."""
        for then, answer in (("waits", {"bound": 5, "starts": LONG}), ("waits", {"bound": 4}), ("sticks", {})):
            stand_in = self.stand_in(tells=TELLS, then=then, answer=answer)
            with self.subTest(answer), started("solve", TWO, psprove=stand_in) as child:
                assert child.stdout is not None
                told_until(child, "bound 6")
                child.send_signal(signal.SIGINT)
                self.assertEqual((child.stdout.read(), child.wait(timeout=30)), (ANSWER, 3))

    def test_what_ends_by_a_file(self) -> None:
        """It answers when it is asked to, at the limit too, with a record; what has to be killed has none."""
        record = self.folder / "record"
        for then in ("waits", "sticks"):
            with self.subTest(then), mock.patch("psmax.process.ENDING", 1.0):
                ran = plan("solve", TWO, "--seconds", "0.3", "--record", record,
                           psprove=self.stand_in(tells=TELLS, then=then))
                self.assertEqual((ran.returncode, ran.stdout, record.exists()), (3, ANSWER, then == "waits"))
                is_told = "psprove solve did not end in time, and was killed: what it told stands" in ran.stderr
                self.assertEqual(is_told, then == "sticks", ran.stderr)
            record.unlink(missing_ok=True)

    def test_a_long_record(self) -> None:
        """It is waited for, once there is an answer."""
        record = self.folder / "record"
        with mock.patch("psmax.process.ENDING", 0.5):
            slow = self.stand_in(tells=TELLS, then="waits", record=2)
            ran = plan("solve", TWO, "--seconds", "0.3", "--record", record, psprove=slow)
        self.assertEqual((ran.returncode, ran.stdout, record.exists()), (3, ANSWER, True))

    def test_ctrl_c_of_psprove(self) -> None:
        """No answer is longer than the last schedule that was told, nor its bound less, and the record proves it."""
        path, record = self.hard(), self.folder / "record"
        for place in range(3):
            with self.subTest(place), started("solve", path, "--jobs", "2", "--record", record) as child:
                assert child.stdout is not None and child.stderr is not None
                told = told_until(child, "schedule ")
                time.sleep(place / 3)
                child.send_signal(signal.SIGINT)
                told += child.stderr.read()
                out = child.stdout.read()
                self.assertEqual(child.wait(timeout=30), 3, told)
                _, makespan, _, bound = out.partition("\n")[0].split()
                self.assertLessEqual(int(makespan), min(map(int, re.findall(r"  schedule (\d+)", told))))
                self.assertGreaterEqual(int(bound), max(map(int, re.findall(r"  bound (\d+)", told))))
                self.assertEqual(psmax("check", "--project", path, given=out.encode()), f"feasible {makespan}\n")
                self.assertIn(f"is shorter than {bound}.", plan("verify", path, record).stdout)

    def test_what_dies(self) -> None:
        """What it told is the answer, beside the fault. There is no record."""
        record = self.folder / "record"
        ran = plan("solve", TWO, "--record", record, psprove=self.stand_in(tells=TELLS, then="dies"))
        self.assertEqual((ran.returncode, ran.stdout), (1, ANSWER))
        self.assertEqual(ran.stderr.splitlines()[-1], "plan: psprove solve was ended by signal 9")
        self.assertFalse(record.exists())
