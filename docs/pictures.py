#!/usr/bin/env python3
"""docs/pictures.py

Makes the pictures of docs/PLANNER.md: the spreadsheet files of the turnaround in LibreOffice; in Chromium its report,
its daily list on paper, and `plan watch`, while the hall's table is edited. Needs Debian's chromium, chromium-driver,
python3-selenium, python3-openpyxl, python3-pil, libreoffice-calc and poppler-utils."""
import base64
import os
import pathlib
import shutil
import subprocess
import sys
import tempfile
import time
from typing import Any

TOP = pathlib.Path(__file__).resolve().parent.parent
sys.path[1:1] = [str(TOP), str(TOP / "python")]

from planner.tests import browser  # noqa: E402
from planner.tests.helpers import plan  # noqa: E402
from planner.tests.watching import Watching, done  # noqa: E402

EXAMPLES, DOCS = TOP / "examples", TOP / "docs"
CHANGED = (EXAMPLES / "hall-changed.csv").read_text()
WRONG = CHANGED.replace("fix gutters,2", "fix gutters,two")
SHORT = CHANGED.replace("14,hired for 15 days", "6,hired for 7 days")
SIZE, REPORT = (1200, 1073), (1400, 900)
TABLE, WEDNESDAY = "reformer.xlsx", "reformer-wednesday.xlsx"
# Of each picture of a page of paper its resolution, its place on the page, its width and its height, in dots.
PAPERS = {"sheet": (150, (96, 140, 1180, 470)), "plan-sheet": (110, (76, 106, 1020, 480)),
          "daily": (100, (30, 40, 770, 540))}
COLOURS = 256  # of a picture
REST = 1.0  # seconds in which the page draws


def shot(driver: Any, watch: Watching, name: str, script: str = "") -> None:
    """What is on the screen, once its version is there."""
    state = watch.state()
    end = time.monotonic() + REST
    while state is not None and driver.execute_script("return document.body.dataset.version") != f"{state['version']}":
        assert time.monotonic() < end + 60
        time.sleep(0.05)
    driver.execute_script(script)
    time.sleep(REST)
    driver.save_screenshot(str(DOCS / name))
    make_small(name)


def turnaround(driver: Any) -> None:
    """The planner's sheet, the chart in it, the report with an activity chosen, and the first day of the list."""
    for name in (TABLE, WEDNESDAY):
        shutil.copy(EXAMPLES / name, ".")
    for words in (["solve", TABLE, "--out", "plan.csv", "--record", "plan.rec", "--jobs", "1"],
                  ["report", TABLE, "plan.csv", "--record", "plan.rec", "--out", "plan.html"],
                  ["write", TABLE, "plan.csv", "--total", "--out", "plan.xlsx"],
                  ["solve", WEDNESDAY, "--start", "plan.csv", "--out", "wednesday.csv", "--jobs", "1"],
                  ["write", WEDNESDAY, "wednesday.csv", "--daily", "--out", "daily.html"]):
        assert plan(*words).returncode in (0, 3), words
    driver.set_window_size(*REPORT)
    driver.get(pathlib.Path("plan.html").resolve().as_uri())
    driver.execute_script("""const lines = [...document.querySelectorAll("#lines .line")];
        lines.find((one) => one.textContent.startsWith("15 ")).click();
        document.querySelector(".keys").scrollIntoView();
        scrollBy(0, -44);""")
    time.sleep(REST)
    driver.save_screenshot(str(DOCS / "report.png"))
    make_small("report.png")
    driver.get(pathlib.Path("daily.html").resolve().as_uri())
    printed = driver.execute_cdp_cmd("Page.printToPDF", {"preferCSSPageSize": True, "printBackground": True})
    pathlib.Path("daily.pdf").write_bytes(base64.b64decode(printed["data"]))
    to_paper(TABLE, "sheet")
    of_chart("plan.xlsx", "plan-sheet.xlsx")
    to_paper("plan-sheet.xlsx", "plan-sheet")
    for name in PAPERS:
        to_picture(name)
        make_small(f"{name}.png")


def of_chart(book: str, out: str) -> None:
    """The sheet of the chart alone."""
    import openpyxl
    made = openpyxl.load_workbook(book)
    del made[made.sheetnames[0]]
    made.save(out)


def to_paper(book: str, name: str) -> None:
    """A spreadsheet file as LibreOffice prints it."""
    shutil.copy(book, f"{name}-paper.xlsx")
    subprocess.run(["soffice", "--headless", "--convert-to", "pdf", f"{name}-paper.xlsx"], check=True,
                   capture_output=True)
    os.rename(f"{name}-paper.pdf", f"{name}.pdf")


def to_picture(name: str) -> None:
    """A part of the first page."""
    dots, (left, top, width, height) = PAPERS[name]
    place = ["-x", left, "-y", top, "-W", width, "-H", height]
    subprocess.run(["pdftoppm", "-r", f"{dots}", "-l", "1", "-png", "-singlefile", *map(str, place), f"{name}.pdf",
                    str(DOCS / name)], check=True)


def make_small(name: str) -> None:
    """In few colours."""
    from PIL import Image
    path = DOCS / name
    with Image.open(path) as picture:
        found = picture.convert("RGB").quantize(COLOURS, Image.Quantize.MAXCOVERAGE, dither=Image.Dither.NONE)
    found.save(path, optimize=True)


def main() -> None:
    if not browser.is_here():
        sys.exit(browser.MISSING)
    with tempfile.TemporaryDirectory(ignore_cleanup_errors=True) as folder:
        os.chdir(folder)
        table = pathlib.Path("hall.csv")
        for name in (table.name, "hall-holidays.txt"):
            shutil.copy(EXAMPLES / name, folder)
        driver = browser.chromium()
        turnaround(driver)
        driver.set_window_size(*SIZE)
        with Watching(table) as watch:
            watch.until(done("(27 days)"))
            driver.get(watch.address)
            watch.saved(CHANGED, done("(30 days)"))
            shot(driver, watch, "watch-change.png", """const row = document.querySelectorAll("#lines .line")[9];
                const { x, y } = row.querySelector(".critical").getBoundingClientRect();
                row.dispatchEvent(new PointerEvent("pointermove", { bubbles: true, clientX: x - 220, clientY: y }));""")
            driver.execute_script("card(null)")
            watch.saved(WRONG, lambda state: state["faults"])
            shot(driver, watch, "watch-fault.png")
            watch.saved(SHORT, lambda state: state["why"])
            shot(driver, watch, "watch-no-schedule.png")
        driver.quit()


if __name__ == "__main__":
    main()
