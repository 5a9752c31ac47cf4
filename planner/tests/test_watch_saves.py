"""Saves of a table at random moments, half of them cut in the middle of the file. The variable SAVES says how many;
1,000 take some minutes."""
import os
import pathlib
import random
import subprocess
import time
from unittest import mock

from .test_watch import Watches
from .watching import Watching, done

SAVES = int(os.environ.get("SAVES", "16"))
EACH = 8  # saves between two looks at what is on the screen
HEAD = "activity,days,crane (1)\n"


def table(chance: random.Random) -> str:
    """Jobs for one crane, so the sum of their days is the makespan. No table has less than half the rows of another."""
    return HEAD + "".join(f"job {job},{chance.randint(1, 40)},1\n" for job in range(1, chance.randint(11, 20)))


def makespan(text: str) -> int | None:
    """Of a table that may be cut; none where it has a fault. What has lost its 1 in the last column needs no crane."""
    head, *lines = text.splitlines() or [""]
    rows = [line.split(",") for line in lines]
    if f"{head}\n" != HEAD or not rows or any(len(row) < 2 or not row[1] for row in rows):
        return None
    lifted = sum(int(row[1]) for row in rows if row[2:] == ["1"])
    return max([lifted, *(int(row[1]) for row in rows)])


class Saves(Watches):
    def setUp(self) -> None:
        super().setUp()
        self.chance, self.peak = random.Random(58), [0]
        self.temporary = self.folder / "tmp"
        self.temporary.mkdir()

    def save(self, path: pathlib.Path, text: str) -> None:
        """In place, or under its name once it is whole, as editors do."""
        if self.chance.random() < 0.5:
            path.write_text(text)
        else:
            self.file("beside", text).replace(path)

    def cut(self, text: str) -> str:
        return text[: self.chance.randrange(len(text))]

    def look(self, watch: Watching) -> None:
        """A good table, and then one that is cut: the plan of the last good one is on the screen."""
        text = table(self.chance)
        self.save(watch.table, text)
        value = makespan(text)
        watch.until(lambda state: not state["faults"] and done(f"optimal {value}.")(state))
        text = next(text for text in iter(lambda: self.cut(text), "") if makespan(text) is None)
        self.save(watch.table, text)
        state = watch.until(lambda state: state["faults"])
        self.assertTrue(done(f"optimal {value}.")(state), state["line"])
        self.peak.append(memory(watch.child.pid))

    def test_saves(self) -> None:
        with mock.patch.dict(os.environ, {"TMPDIR": str(self.temporary)}):
            watch = self.watching(table(self.chance), "--seconds", "5")
        for number in range(1, SAVES + 1):
            text = table(self.chance)
            self.save(watch.table, self.cut(text) if self.chance.random() < 0.5 else text)
            time.sleep(self.chance.random() * 0.3)
            if number % EACH == 0:
                self.look(watch)
        status, out, told = watch.end()
        self.assertEqual((status, told, out[:6]), (0, "", "Kept: "))
        self.assertEqual([*self.temporary.iterdir()], [])
        running = subprocess.run(["ps", "-eo", "args"], capture_output=True, text=True).stdout
        self.assertNotIn(str(self.temporary), running)
        settled = self.peak[1 + len(self.peak) // 5 :]
        self.assertLess(max(settled) - min(settled), 20, f"MiB at each look: {self.peak}")


def memory(process: int) -> int:
    """What a process has now, in MiB."""
    status = pathlib.Path(f"/proc/{process}/status").read_text()
    return int(status.partition("VmRSS:")[2].split()[0]) // 1024
