#!/usr/bin/env python3
"""bench/watch.py [--saves N]

Prints how long `plan watch` takes from a save (20 by default) to the first schedule on the screen of Chromium, and
until its search has ended, and how long it takes to draw all anew: for the turnaround of 74 activities, of which a
duration changes, and for 300 activities, which get 2 seconds. Needs Debian's chromium, chromium-driver and
python3-selenium."""
import argparse
import os
import pathlib
import shutil
import statistics
import sys
import tempfile
import time
from typing import Any

import measuring
from measuring import TOP

sys.path[1:1] = [str(TOP), str(TOP / "python")]

from planner.tests import browser  # noqa: E402
from planner.tests.watching import Watching, done  # noqa: E402

PROJECTS = TOP / "planner" / "projects"
WAIT = """const [known, done] = arguments;
const look = () => Number(document.body.dataset.shown) > Number(known) ? done(Date.now()) : requestAnimationFrame(look);
look();"""
ANEW = """const done = arguments[0], begun = performance.now(), was = document.querySelector("#ruler svg");
zoomed(1 + Math.random());
const look = () => document.querySelector("#ruler svg") === was ? requestAnimationFrame(look)
  : done((performance.now() - begun) / 1000);
look();"""


def turnaround(number: int) -> str:
    """With another duration of its fourth activity at each save."""
    return (PROJECTS / "turnaround.csv").read_text().replace("E-101: fit blinds,3 h",
                                                             f"E-101: fit blinds,{4 + number % 8} h")


def large(number: int) -> str:
    rows = [f"job {job},{1 + job % 7 + (number % 50 if job == 7 else 0)},{1 + job % 2},"
            f"{f'job {job - 4}' if job > 4 else ''}"
            for job in range(1, 301)]
    return "activity,days,crew (5),after\n" + "\n".join(rows) + "\n"


TABLES = {"turnaround": (74, turnaround), "300 jobs": (300, large)}


def measured(driver: Any, watch: Watching, text: str) -> tuple[float, float, float]:
    """The seconds from a save to the first schedule on the screen, and to the end of the search; and to draw all
    anew."""
    known = driver.execute_script("return document.body.dataset.shown")
    begun = time.time()
    watch.table.write_text(text)
    shown = driver.execute_async_script(WAIT, known)
    watch.until(lambda state: "The search goes on" not in state["line"])
    ended = time.time()
    watch.until(done())
    return shown / 1000 - begun, ended - begun, driver.execute_async_script(ANEW)


def main() -> None:
    parser = argparse.ArgumentParser(description=__doc__, formatter_class=argparse.RawDescriptionHelpFormatter)
    parser.add_argument("--saves", type=int, default=20)
    saves = parser.parse_args().saves
    if not browser.is_here():
        sys.exit(browser.MISSING)
    load = os.getloadavg()[0]
    measuring.heads("Table", "Activities", "on the screen: median s", "most s", "search ended: median s",
                    "drawn anew: median s", "most s")
    with tempfile.TemporaryDirectory(ignore_cleanup_errors=True) as kept:
        driver = browser.chromium()
        for name, (count, made) in TABLES.items():
            table = pathlib.Path(kept) / f"{name}.csv"
            shutil.copy(PROJECTS / "turnaround-absences.csv", kept)
            table.write_text(made(0))
            with Watching(table, "--seconds", "2") as watch:
                driver.get(watch.address)
                watch.until(done())
                found = [measured(driver, watch, made(number)) for number in range(1, saves + 1)]
            shown, ended, drawn = zip(*found)
            told = [statistics.median(shown), max(shown), statistics.median(ended), statistics.median(drawn),
                    max(drawn)]
            measuring.row(name, count, *(f"{one:.2f}" for one in told))
        driver.quit()
    print(f"\nLoad before and after: {load:.1f}, {os.getloadavg()[0]:.1f}.")


if __name__ == "__main__":
    main()
