"""For scripts: answers in JSON, batches and versions."""
import csv
import io
import json
import os
import pathlib
import re
import shutil
import subprocess
import sys
import time
import unittest
from typing import Any

from psmax import __version__

from .helpers import (CALLED, EXAMPLES, INPUTS, PLAN, PROJECTS, PSPROVE, TOP, TWO_JOBS, InFolder, begun, plan, psmax,
                      started)

HEADS = "project,activities,status,makespan,ends,bound,seconds,conflicts,limit,plan,psprove,fault\n"


class Json(InFolder):
    def told(self, *words: object, psprove: str = PSPROVE) -> dict[str, Any]:
        ran = plan("solve", *words, "--json", psprove=psprove)
        self.assertEqual(len(ran.stdout.splitlines()), 1, ran.stdout)
        found = json.loads(ran.stdout)
        assert isinstance(found, dict)
        return found

    def test_by_hand(self) -> None:
        told = self.told(INPUTS / "two-jobs.sch")
        self.assertEqual([*told], ["bound", "makespan", "starts", "ends", "status", "names", "durations", "period",
                                   "conflicts",
                                   "seconds", "versions"])
        self.assertEqual([told[key] for key in ("bound", "makespan", "status", "durations")], [7, 7, "optimal", [3, 4]])
        self.assertGreater(told["seconds"], 0)
        self.assertGreater(told["conflicts"], -1)
        self.assertEqual({*told["versions"]}, {"plan", "psmax", "psprove", "python"})

    def test_other_answers(self) -> None:
        told = self.told(INPUTS / "two-jobs-close-lags.sch")
        self.assertEqual([told[key] for key in ("bound", "makespan", "starts", "status")],
                         [None, None, None, "no schedule"])
        slow = self.program("slow", f'exec {PSPROVE} "$@" --conflicts 0')
        told = self.told(self.hard(), "--seconds", "1", "--jobs", "1", psprove=slow)
        self.assertEqual([told[key] for key in ("makespan", "starts", "status")], [None, None, "unknown"])
        told = self.told(EXAMPLES / "building-site.sch", "--out", self.folder / "best")
        self.assertEqual((told["makespan"], len(told["names"])), (36, 13))
        self.assertEqual(plan("check", EXAMPLES / "building-site.sch", self.folder / "best").stdout, "feasible 36\n")

    def test_version(self) -> None:
        ran = plan("--version")
        number = r"\d+\.\d+\.\d+"
        told = rf"^plan {re.escape(__version__)}, psmax {number}, psprove {number}, Python 3\.\d+\.\d+\n$"
        self.assertRegex(ran.stdout, told)
        self.assertIn("psmax not found", plan("--version", psmax="/gone").stdout)


class Batch(InFolder):
    def setUp(self) -> None:
        super().setUp()
        for name in ("two-jobs", "three-jobs-lags", "two-jobs-close-lags", "empty-project"):
            shutil.copy(INPUTS / f"{name}.sch", self.folder)
        self.file("UPPER.SCH", TWO_JOBS)
        self.csv = self.folder / "all.csv"

    def rows(self, text: str | None = None) -> dict[str, dict[str, str]]:
        table = self.csv.read_text() if text is None else text
        self.assertTrue(table.startswith(HEADS), table)
        return {row["project"]: row for row in csv.DictReader(io.StringIO(table))}

    def test_by_hand(self) -> None:
        ran = plan("batch", self.folder, "--seconds", "20", "--jobs", "2", "--csv", self.csv)
        self.assertEqual((ran.returncode, ran.stdout), (0, ""), ran.stderr)
        found = {name: (row["status"], row["makespan"], row["activities"]) for name, row in self.rows().items()}
        self.assertEqual(found, {"UPPER.SCH": ("optimal", "7", "2"), "two-jobs.sch": ("optimal", "7", "2"),
                                 "three-jobs-lags.sch": ("optimal", "5", "3"),
                                 "empty-project.sch": ("optimal", "0", "0"),
                                 "two-jobs-close-lags.sch": ("no schedule", "", "2")})
        self.assertIn("5 of 5 projects: 1 no schedule, 4 optimal", ran.stderr)

    def test_going_on(self) -> None:
        """Rows that are there stay as they are; a fault is tried again, and told."""
        row = "two-jobs.sch,2,feasible,9,,7,1.0,5,1,0,0,\n"
        before = HEADS.replace("ends,", "") + row.replace("9,,7", "9,7")  # as plan 1.0 wrote it
        self.file("all.csv", before + "UPPER.SCH,,fault,,,,,1,,,psmax was ended by signal 9\n")
        self.file("bad.sch", "x")
        ran = plan("batch", self.folder, "--seconds", "20", "--csv", self.csv)
        self.assertEqual(ran.returncode, 1, ran.stderr)
        self.assertIn(row, self.csv.read_text())
        self.assertEqual(self.rows()["UPPER.SCH"]["status"], "optimal")
        self.assertRegex(self.rows()["bad.sch"]["fault"], "bad.sch: word 0: not a number")

    def test_cut_off(self) -> None:
        """Rows come one after another, so that what is known is in the table when the batch is ended; a second run does
        the rest."""
        self.hard()
        shutil.copy(PROJECTS / "assay-lab.sch", self.folder)
        words = ("batch", self.folder, "--jobs", "2", "--csv", self.csv)
        with started(*words, "--seconds", "60") as child:
            while not self.csv.exists():
                time.sleep(0.05)
            child.terminate()
            self.assertEqual(child.wait(timeout=20), 3)
        known = self.rows()
        self.assertNotIn("hard.sch", known)
        plan(*words, "--seconds", "1")
        self.assertEqual(len(self.rows()), 7)
        self.assertEqual({name: self.rows()[name] for name in known}, known)
        self.assertEqual((self.rows()["hard.sch"]["limit"], self.rows()["hard.sch"]["status"]), ("1", "feasible"))

    def test_nothing_goes_on(self) -> None:
        """Where a batch is ended, its searches end too, and psprove with them."""
        pids, folder = self.file("pids", ""), self.folder / "one"
        folder.mkdir()
        self.hard().rename(folder / "hard.sch")
        spy = self.program("spy", f'echo $$ >> {pids}\nexec {PSPROVE} "$@"')
        with started("batch", folder, "--csv", self.csv, psprove=spy) as child:
            while not pids.read_text():
                time.sleep(0.05)
            child.terminate()
            self.assertEqual(child.wait(timeout=20), 3)
        for pid in pids.read_text().split():
            self.assertFalse(pathlib.Path(f"/proc/{pid}").exists())

    def test_parts(self) -> None:
        """Each N-th project from the I-th on, by name; together they are all, and --join makes one table of them."""
        parts = [self.folder / f"part-{place}.csv" for place in (1, 2)]
        for place, part in enumerate(parts, 1):
            self.assertEqual(plan("batch", self.folder, "--csv", part, "--part", f"{place}/2").returncode, 0)
        self.assertEqual([*self.rows(parts[1].read_text())], ["empty-project.sch", "two-jobs-close-lags.sch"])
        ran = plan("batch", "--join", *parts)
        self.assertEqual(len(self.rows(ran.stdout)), 5)
        self.assertEqual(plan("batch", "--join", *parts, parts[0], "--csv", self.csv).returncode, 0)
        self.assertEqual(self.csv.read_text(), ran.stdout)
        self.refused(plan("batch", "--join", *parts, "--csv", parts[0]), 2, "which would be lost")
        self.file("all.csv", HEADS + "more.sch,2,feasible,9,,7,1.0,5,1,0,0,\n")
        self.refused(plan("batch", "--join", *parts, "--csv", self.csv), 2,
                     "all.csv has a row for more.sch, which would be")
        other = self.file("other.csv", parts[0].read_text().replace("optimal,7", "optimal,8"))
        self.refused(plan("batch", "--join", *parts, other), 2, "other.csv: a second row for UPPER.SCH")

    @unittest.skipUnless(shutil.which("parallel"), "GNU parallel isn't here")
    def test_gnu_parallel(self) -> None:
        """The command line of docs/BATCHES.md, with the plan and the psmax that are tested."""
        documented = (TOP / "docs" / "BATCHES.md").read_text()
        line = next(line for line in documented.splitlines() if line.startswith("parallel "))
        join = next(line for line in documented.splitlines() if line.startswith("plan batch --join"))
        python = f"{pathlib.Path(sys.executable).parent}:{PLAN.parent}:{os.environ['PATH']}"
        command = f"{line}\n{join}\n".replace("FOLDER", ".")
        ran = subprocess.run(["sh", "-ec", command], cwd=self.folder, capture_output=True, text=True,
                             env={**os.environ, **CALLED, "PATH": python, "HOME": str(self.folder)})
        self.assertEqual(ran.returncode, 0, ran.stderr)
        self.assertEqual(len(self.rows((self.folder / "all.csv").read_text())), 5)

    def test_schedules(self) -> None:
        """By the file of the command, with a process of its own for the search."""
        (self.folder / "best").mkdir()
        with begun("batch", self.folder, "--out", self.folder / "best", "--part", "5/5") as child:
            self.assertEqual((child.communicate()[1].count("optimal 7"), child.returncode), (1, 0))
        best = (self.folder / "best/two-jobs.starts").read_bytes()
        told = psmax("check", "--project", self.folder / "two-jobs.sch", given=best)
        self.assertEqual(told, "feasible 7\n")

    def test_faults(self) -> None:
        self.refused(plan("batch"), 2, "either a FOLDER, or --join")
        self.refused(plan("batch", self.folder, "--join", "a"), 2, "either a FOLDER, or --join")
        self.refused(plan("batch", self.folder / "gone"), 1, "it is no folder")
        there = self.file("there", "my own words\n")
        self.refused(plan("batch", self.folder, "--out", there), 1, "there: it is no folder")
        self.refused(plan("batch", self.folder, "--part", "3/2"), 2, "'3/2' is not a part such as 1/4")
        self.refused(plan("batch", self.folder, "--csv", self.file("t.csv", "a,b\n")), 2, "not a table of `plan batch`")
        (self.folder / "none").mkdir()
        self.refused(plan("batch", self.folder / "none"), 2, "no project in it")
