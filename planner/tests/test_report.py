import base64
import html
import re
import shutil
import subprocess
import unittest
from typing import Any

from . import browser
from .helpers import EXAMPLES, INPUTS, PROJECTS, InFolder, plan, psmax

PDFTOTEXT = shutil.which("pdftotext")
TABLE = '''activity,days,crew (2),after,at least,at most
dig <b>,3,2,,,
pour {{title}},1,1,dig <b>,,
"cure & ""wait""",4,,pour {{title}},,2
'''
ASK = """const all = (selector) => [...document.querySelectorAll(selector)];
const box = (selector) => all(selector)[0].getBoundingClientRect();
all("#chart")[0].scrollTop = 10;
all("#rows tr")[2].click();
all("th [role=button]")[2].click();
return {
  sideways: document.documentElement.scrollWidth > window.innerWidth,
  rows: all("#rows tr").map((row) => row.cells[0].textContent),
  shown: all(".lag.shown").length, chosen: all(".line.chosen th").map((one) => one.textContent),
  lags: all("#lags li").map((one) => one.textContent), time: box("#ruler svg").width, chart: box("#chart").width,
  head: box("#ruler").top - box("#chart").top, names: all(".line th").map((one) => one.scrollWidth > one.clientWidth),
};"""


class Report(InFolder):
    def page(self, *words: object) -> str:
        out = self.folder / "page.html"
        ran = plan("report", *words, "--out", out)
        self.assertEqual((ran.returncode, ran.stdout, ran.stderr), (0, "", ""))
        return out.read_text()

    def proof(self, page: str) -> str:
        found = re.search(r'<div class="(proof[^"]*)" id="proof">(.*?)</div>', page)
        assert found is not None
        return f"{found[1].strip()}: {html.unescape(re.sub('<.*?>', '', found[2]))}"

    def test_what_is_proved(self) -> None:
        """By hand: two jobs of 3 and 4 on one machine take 7. A schedule of 9 is not a shortest one."""
        path, record = INPUTS / "two-jobs.sch", self.folder / "record"
        short, long = self.file("short", "0 0\n1 0\n2 3\n3 7\n"), self.file("long", "0 0\n1 0\n2 5\n3 9\n")
        told = self.proof(self.page(path, short))
        self.assertTrue(told.startswith("proof open: psmax check finds this schedule of 7 feasible"), told)
        self.assertIn("No record was handed in", told)
        other = self.folder / "other"
        psmax("solve", "--record", record, given=path.read_bytes())
        self.assertEqual(plan("solve", path, "--record", other).returncode, 0)
        for record in (record, other):
            told = self.proof(self.page(path, short, "--record", record))
            self.assertTrue(told.startswith("proof: psmax check finds"), told)
            self.assertIn("is shorter than 7, and has one that long. ", told)
            self.assertNotIn("SHA-256", told)
        self.assertTrue(self.proof(self.page(path, long, "--record", record)).startswith("proof open:"))

    def test_faults(self) -> None:
        path, out = INPUTS / "two-jobs.sch", self.folder / "page.html"
        short, wrong = self.file("short", "0 0\n1 0\n2 3\n3 7\n"), self.file("wrong", b"record 3\n\x02\x07\x10")
        self.refused(plan("report", path, short, "--record", wrong, "--out", out), 2, "proves nothing of",
                     "its step 1 is wrong (claim)")
        self.refused(plan("report", path, short, "--record", wrong, "--out", wrong), 2,
                     "is the record, which would be lost")
        self.refused(plan("report", path, short, "--out", short), 2, "is the answer, which would be lost")
        self.refused(plan("report", path, self.file("bad", "0 0\n1 0\n2 2\n3 6\n"), "--out", out), 2, "not a schedule")
        self.refused(plan("report", path, short), 2, "--out")
        self.assertFalse(out.exists())

    def hostile(self) -> str:
        self.assertEqual(plan("read", self.file("p.csv", TABLE), "--from", "2026-03-02").returncode, 0)
        starts = self.file("starts", plan("solve", self.folder / "p.sch").stdout)
        return self.page(self.folder / "p.sch", starts)

    def test_names(self) -> None:
        """Whatever a name has, it is text; and nothing is fetched from anywhere."""
        page = self.hostile()
        for name in ("dig &lt;b&gt;", "pour {{title}}", "cure &amp; &quot;wait&quot;"):
            self.assertIn(name, page)
        self.assertNotIn("<b>dig", page)
        self.assertNotIn("dig <b>", page)
        self.assertNotRegex(page, 'https?:|src=|href=(?!"#)|@import')
        self.assertIn("default-src 'none'", page)
        self.assertIn("From 2026-03-02 to 2026-03-09", page)

    def test_floats(self) -> None:
        """By hand: of two jobs on one machine neither is critical, though neither can move alone; what has started is
        neither."""
        table = self.file("p.csv", "activity,days,crane (1),started,done\na,3,1,,\nb,4,1,,\n")
        answer = self.file("a.csv", "name,start\na,0\nb,3\n")
        page = self.page(table, answer)
        cells = re.findall(r'<tr class="activity" data-a="(.)">.*?</td>.*?</td><td data-key="[^"]*">(.*?)</td>', page)
        self.assertEqual(cells, [("1", "4"), ("2", "critical")])
        table.write_text(table.read_text().replace("a,3,1,,", "a,3,1,0,0"))
        answer = self.file("a.csv", "name,start\na,0\nb,4\n")
        page = self.page(table, answer, "--status", 1)
        cells = re.findall(r'<tr class="activity" data-a="(.)">.*?</td>.*?</td><td data-key="[^"]*">(.*?)</td>', page)
        self.assertEqual(cells, [("1", "started"), ("2", "critical")])
        self.assertEqual(page.count('<rect class="past"'), 1)

    def test_what_is_drawn(self) -> None:
        """Of the building site: a row for each of 13 activities in the chart and in the table, and its three
        resources."""
        answer = self.file("best", psmax("solve", given=(EXAMPLES / "building-site.sch").read_bytes()))
        page = self.page(EXAMPLES / "building-site.sch", answer)
        self.assertEqual((page.count('<tr class="line"'), page.count('<tr class="activity"'),
                          page.count('class="load"')),
                         (13, 13, 3))
        named = plan("float", EXAMPLES / "building-site.sch", answer, "--total").stdout
        self.assertEqual(page.count('data-key="0">critical'), named.count("critical"))

    def test_on_paper(self) -> None:
        """A4 or A3 on its side, with the title and the number of the page on each; a row of a table for each activity,
        below times that each page has; one of something is no plural."""
        page = self.hostile()
        self.assertIn("@page { size: A4 landscape;", page)
        self.assertIn('@top-left { content: "p";', page)
        self.assertIn("thead { display: table-header-group } tr, .facts, .proof, .keys { break-inside: avoid }", page)
        self.assertIn("<b>1</b>resource<", page)
        self.assertIn("<b>3</b>activities<", page)
        self.assertEqual(page.count('<tr class="line"'), 3)
        starts = self.file("starts", plan("solve", self.folder / "p.sch").stdout)
        self.assertIn("@page { size: A3 landscape;", self.page(self.folder / "p.sch", starts, "--paper", "A3"))

    @unittest.skipUnless(browser.is_here() and PDFTOTEXT, f"{browser.MISSING}, or pdftotext")
    def test_pages(self) -> None:
        """Each page has the title, the first has the facts, and none is empty; each activity is on one, and a full page
        has 30; the critical chain has a page of its own, and the use of resources is drawn, and not listed."""
        rows = "".join(f"job {job},1,{f'job {job - 1}' if job > 1 else ''},1\n" for job in range(1, 63))
        table, answer = self.file("chain.csv", f"activity,days,after,crane (2)\n{rows}"), self.folder / "a.csv"
        self.assertEqual(plan("solve", table, "--out", answer).returncode, 0)
        path, out = self.file("t.html", self.page(table, answer)), self.folder / "t.pdf"
        driver = browser.chromium()
        driver.get(path.as_uri())
        printed = driver.execute_cdp_cmd("Page.printToPDF", {"preferCSSPageSize": True, "printBackground": True})
        out.write_bytes(base64.b64decode(printed["data"]))
        text = subprocess.run(["pdftotext", "-layout", out, "-"], capture_output=True, text=True, timeout=60).stdout
        pages = text.removesuffix("\f").split("\f")
        for number, one in enumerate(pages, 1):
            self.assertIn(f"page {number} of {len(pages)}", one)
            self.assertTrue("chain" in one and len(one.splitlines()) > 8, one)
        self.assertIn("activities", pages[0])
        counts = [len(re.findall("^ *[0-9]+ +job ", one, re.M)) for one in pages]
        self.assertEqual((sum(counts), sum(count >= 30 for count in counts)), (3 * 62, 4), counts)
        heads = [one.split("\n\n")[1].strip().split("\n")[0] for one in pages]
        self.assertLess({"Critical chain", "Activities"}, {*heads})
        self.assertNotIn("in use", text)
        for line in plan("write", table, answer).stdout.splitlines()[1:]:
            self.assertIn(" ".join(line.split(",")[:2]), re.sub(" +", " ", text))

    def asked(self, page: str, width: int) -> dict[str, Any]:
        """What a browser of this width makes of the page, once something is chosen and sorted."""
        driver = browser.chromium()
        size = {"width": width, "height": browser.HEIGHT, "deviceScaleFactor": 1, "mobile": False}
        driver.execute_cdp_cmd("Emulation.setDeviceMetricsOverride", size)
        self.addCleanup(driver.execute_cdp_cmd, "Emulation.clearDeviceMetricsOverride", {})
        driver.get(self.file("asked.html", page).as_uri())
        told: dict[str, Any] = driver.execute_script(ASK)
        return told

    @unittest.skipUnless(browser.is_here(), browser.MISSING)
    def test_in_a_browser(self) -> None:
        """By hand: curing is tied to pouring by two lags; it and what it waits for are critical, and so in their order.
        The time takes what the names leave, but no less than the paper gives it; the head stays; names are whole."""
        page = self.hostile()
        for width in (1280, 390):
            told = self.asked(page, width)
            self.assertEqual([told[key] for key in ("sideways", "rows", "shown", "chosen")],
                             [False, ["1", "2", "3"], 2, ['3 cure & "wait"']])
            self.assertEqual((told["time"] < told["chart"], told["time"] > 760 + 1), (width > 390,) * 2)
            self.assertEqual((round(told["head"]), any(told["names"])), (1, False))
            self.assertIn('3 (cure & "wait") starts no sooner than 2 (pour {{title}}) ends: tight', told["lags"][0])

    @unittest.skipUnless(browser.is_here(), browser.MISSING)
    def test_sorted(self) -> None:
        """By float: the order is that of `plan float`."""
        path = PROJECTS / "paint-line.sch"
        answer = self.file("best", psmax("solve", given=path.read_bytes()))
        rows = [line.split() for line in plan("float", path, answer, "--total").stdout.splitlines()[1:]]
        spare = {row[0]: int(row[-2] if row[-1] != "critical" else row[-3]) for row in rows}
        told = [spare[number] for number in self.asked(self.page(path, answer), 1280)["rows"]]
        self.assertEqual((len(told), told), (12, sorted(told)))
