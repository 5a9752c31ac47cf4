"""What plan itself takes, beside the programs: a command imports what it runs, and a table is split and read once."""
import csv
import os
import subprocess
import sys
import time
from typing import Any
from unittest import mock

from psmax.planner.project_file import open_project

from .helpers import CALLED, EXAMPLES, TOP, InFolder, plan

SCRIPT = "import sys; from psmax.planner.main import main; main(sys.argv[1:]); print(*sys.modules)"
SLOW = {"concurrent.futures", "xml.etree.ElementTree", "zoneinfo", "difflib", "http.server", "psmax.api", "psmax.cubes",
        "psmax.planner.page", "psmax.planner.why", "psmax.planner.batch", "psmax.planner.watch"}
TENTH = 6.0  # seconds of the default limit of a search


class Start(InFolder):
    def test_what_is_imported(self) -> None:
        env = {**os.environ, **CALLED, "PYTHONPATH": str(TOP / "python")}
        words = [sys.executable, "-S", "-c", SCRIPT, "solve", str(EXAMPLES / "hall.csv"), "--out",
                 str(self.folder / "a.csv")]
        ran = subprocess.run(words, env=env, capture_output=True, text=True)
        imported = {*ran.stdout.splitlines()[-1].split()}
        self.assertEqual((ran.returncode, "psmax.planner.table" in imported), (0, True), ran.stderr)
        self.assertEqual(imported & SLOW, set())

    def test_a_table_is_split_once(self) -> None:
        """Into cells, but for the first lines, by which its separator is found."""
        table, split = self.file("p.csv", "activity,days\na,3\nb,4\n"), list[object]()
        reader = csv.reader

        def counted(source: Any, **more: Any) -> object:
            split.extend([] if isinstance(source, list) else [source])
            return reader(source, **more)

        with mock.patch("csv.reader", counted):
            self.assertEqual(plan("solve", table).stdout.splitlines()[0], "optimal 4")
        self.assertEqual(len(split), 1)

    def test_the_largest_table(self) -> None:
        """1,000 activities with as many lags as there may be are opened in a tenth of the time that a search has."""
        rows = [f"{i},job {i},1,\"{','.join(map(str, range(max(1, i - 105), i)))}\"" for i in range(1, 1001)]
        table = self.file("p.csv", "ID,name,days,Predecessors\n" + "\n".join(rows) + "\n")
        begun = time.process_time()
        opened = open_project(str(table))
        self.assertLess(time.process_time() - begun, TENTH)
        self.assertEqual((opened.project.end - 1, len(opened.project.arcs)), (1_000, 99_435))
