"""`plan watch` in a real browser."""
import json
import unittest
from itertools import takewhile
from typing import Any
from urllib.parse import quote

from . import browser
from .helpers import EXAMPLES, TELLS, plan
from .test_watch import CHANGED, HALL, TWO, Watches
from .watching import SECONDS, Watching

# Looks in the page itself, which is cheap, until something is so.
WAIT = """const isSo = function () {{ {} }}, words = [...arguments], tell = words.pop();
const end = Date.now() + 1000 * words.pop();
const look = () => isSo(...words) ? tell(true) : Date.now() < end ? setTimeout(look, 50) : tell(false);
look();"""
HAS = """const text = document.getElementById(arguments[0]).textContent;
return arguments[1].every((one) => text.includes(one))"""
IS_IDLE = " && document.getElementById('stop').disabled"
SHOWN = "return document.body.dataset.shown"
ROWS = "return [...document.querySelectorAll('#lines .line th')].map((one) => one.textContent)"
TEXT = "return document.getElementById(arguments[0]).textContent"
FETCH = """const [address, method, done] = arguments;
fetch(address, { method, body: method === "POST" ? "0" : undefined }).then((answer) => answer.text())
  .then((text) => done(text), (fault) => done(`refused: ${fault}`));"""


@unittest.skipUnless(browser.is_here(), browser.MISSING)
class InBrowser(Watches):
    driver: Any

    @classmethod
    def setUpClass(cls) -> None:
        cls.driver = browser.chromium()
        cls.driver.set_script_timeout(2 * SECONDS)

    def opened(self, text: str, *words: object, **more: str) -> Watching:
        watch = self.watching(text, *words, **more)
        self.driver.get(watch.address)
        return watch

    def run_script(self, script: str, *words: object) -> Any:
        return self.driver.execute_script(script, *words)

    def text(self, name: str) -> str:
        return str(self.run_script(TEXT, name))

    def until(self, script: str, *words: object) -> None:
        """Until this script says that it is so."""
        is_so = self.driver.execute_async_script(WAIT.format(script), *words, SECONDS)
        self.assertTrue(is_so, f"{self.text('line')} {self.text('faults')} {self.text('why')}")

    def until_text(self, name: str, *texts: str) -> None:
        self.until(HAS, name, texts)

    def done(self, text: str) -> None:
        """Nothing is searched any more, and the line has this text."""
        self.until(HAS + IS_IDLE, "line", [text])

    def click(self, name: str) -> None:
        self.driver.find_element("id", name).click()

    def test_a_change(self) -> None:
        """It appears beside what was there; place, zoom and choice stay."""
        self.file("hall-holidays.txt", (EXAMPLES / "hall-holidays.txt").read_text())
        watch = self.opened(HALL)
        self.done("(27 days)")
        self.click("in")
        wide = "return document.querySelector('#ruler svg').width.baseVal.value"
        self.until(f"{wide} > 1500")
        self.run_script("document.querySelectorAll('#lines .line')[8].click()")
        self.run_script("scrollTo(0, 200); document.getElementById('chart').scrollLeft = 100")
        where = """const chart = document.getElementById("chart"), top = chart.getBoundingClientRect().top;
            return [document.querySelector(".chosen th").textContent, chart.scrollLeft, Math.round(top)];"""
        name, left, top = self.run_script(where)
        self.assertEqual((name, left), ("9 sheet the roof", 100))
        watch.table.write_text(CHANGED)
        self.done("(30 days)")
        self.assertEqual(self.run_script(where), ["10 sheet the roof", 100, top])
        self.assertGreater(self.run_script(wide), 1500)
        self.assertIn("9 test the bolts", self.run_script(ROWS))
        self.assertGreater(self.run_script("return document.querySelectorAll('#lines .before').length"), 3)
        self.assertIn("makespan 27 -> 30, 3 later (2026-04-09 -> 2026-04-14)", self.text("moved"))
        self.assertIn("test the bolts: new, at ", self.text("moved"))
        self.assertIn("get trusses: 2026-03-", self.text("moved"))

    def test_a_fault_and_its_repair(self) -> None:
        watch = self.opened(TWO)
        self.done("optimal 7")
        watch.table.write_text(TWO.replace("a,3", "a,-3"))
        self.until_text("faults", "row 2, column B (days): -3 is below 0")
        above = "return document.getElementById('faults').compareDocumentPosition(document.getElementById('chart'))"
        self.assertEqual((self.run_script(ROWS), self.run_script(above)), (["1 a", "2 b"], 4))
        watch.table.write_text(TWO.replace("a,3", "a,5"))
        self.done("optimal 9")
        self.assertEqual(self.text("faults"), "")

    def test_no_schedule(self) -> None:
        """The circle is drawn, and said with what would help; and is gone with the next good save."""
        text = "activity,days,crane (1),after,at most\na,3,1,,\nb,4,1,a,\n"
        watch = self.opened(text)
        self.done("optimal 7")
        watch.table.write_text(f"{text},,,start of a,2\n")
        self.until_text("why", "Allow 2 (b) to start 1 day later, which is enough")
        drawn = """return [...document.querySelectorAll(".lag.circle")]
            .filter((one) => getComputedStyle(one).display !== "none").length"""
        self.assertEqual(self.run_script(drawn), 2)
        watch.table.write_text(text)
        self.done("optimal 7")
        self.assertEqual((self.run_script(drawn), self.text("why")), (0, ""))

    def test_stop_and_reload(self) -> None:
        """A page that is read again in the middle of a search shows what the first one did."""
        self.opened(TWO, psprove=self.stand_in(tells=TELLS, then="waits"))
        for _ in range(2):
            self.until_text("line", "feasible 9 bound 6. The search goes on.")
            self.until(f"{ROWS}.length === 2")
            self.driver.refresh()
        self.until_text("line", "feasible 9 bound 6. The search goes on.")
        self.click("stop")
        self.done("feasible 9 bound 6.")
        self.assertNotIn("The search goes on.", self.text("line"))

    def test_keep_and_go_back(self) -> None:
        watch = self.opened(TWO)
        self.done("optimal 7")
        self.click("keep")
        self.until_text("said", "Kept: ", ".csv", ".record", ".html")
        [answer] = self.folder.glob("p-*[0-9].csv")
        self.assertEqual(plan("check", watch.table, answer).stdout, "feasible 7\n")
        watch.table.write_text(TWO.replace("b,4", "b,6"))
        self.done("optimal 9")
        self.run_script("document.getElementById('plans').selectedIndex = 1")
        self.click("back")
        self.until_text("said", "This is the plan of the table as it was then.")
        self.done("optimal 7")
        self.assertIn("From 0 to 7.", self.text("made"))

    def test_a_name_is_text(self) -> None:
        name = "<script>alert(1)</script><img src=x onerror=alert(2)>"
        watch = self.opened(TWO.replace("\na,", f"\n{name},"))
        self.done("optimal 7")
        self.run_script("document.querySelector('#lines .line').click()")
        watch.table.write_text(TWO.replace("\na,", f"\n{name}2,").replace("b,4", "b,5"))
        self.done("optimal 8")
        self.assertEqual(self.run_script(ROWS)[0], f"1 {name}2")
        counts = "return ['script', 'img'].map((one) => document.querySelectorAll(one).length)"
        self.assertEqual(self.run_script(counts), [2, 0])
        self.assertIn(f"{name}2", self.text("moved"))

    def test_another_page(self) -> None:
        """Can neither read nor steer a plan, and finds nothing that this one has fetched from elsewhere."""
        watch = self.opened(TWO, psprove=self.stand_in(tells=TELLS, then="waits"))
        self.until_text("line", "feasible 9 bound 6")
        fetched = self.run_script("return performance.getEntriesByType('resource').map((one) => one.name)")
        self.assertTrue(fetched and all(one.startswith(watch.address) for one in fetched), fetched)
        self.driver.get(f"data:text/html,{quote('<title>other</title>')}")
        for name, method in (("state", "GET"), ("stop", "POST"), ("keep", "POST")):
            self.assertTrue(self.driver.execute_async_script(FETCH, f"{watch.address}{name}",
                                                             method).startswith("refused: "))
        state = watch.state()
        self.assertTrue(state is not None and state["busy"])
        self.assertEqual([*self.folder.glob("p-*")], [])

    def test_hovering_and_keys(self) -> None:
        """Each shows floats, resources and what holds an activity. By hand: b waits for the crane."""
        from selenium.webdriver.common.action_chains import ActionChains
        from selenium.webdriver.common.keys import Keys
        self.opened(TWO.replace("crane (1)", "crane (1),after").replace("b,4,1", "b,4,1,a"))
        self.done("optimal 7")
        bars = self.driver.find_elements("css selector", "#lines .line svg .critical")
        ActionChains(self.driver).move_to_element(bars[1]).perform()
        self.until_text("card", "total float: critical", "free float: 0", "needs: crane 1", "until then in use: 1 (a)")
        first = self.driver.find_element("css selector", "#lines .line")
        first.send_keys(Keys.ENTER)
        self.until_text("lags", "1 a:", "held: the project starts then")
        first.send_keys(Keys.ARROW_DOWN)
        self.until_text("lags", "2 b:", "2 (b) starts no sooner than 1 (a) ends: tight")
        self.until_text("card", "2 b")
        self.assertEqual(self.driver.switch_to.active_element.get_attribute("data-a"), "2")

    def test_300_activities(self) -> None:
        """An update takes at most 0.2 s in the browser: one of twenty does, on a machine that does other work too."""
        rows = [f"job {job},{1 + job % 7},{1 + job % 2},{f'job {job - 4}' if job > 4 else ''}" for job in range(1, 301)]
        text = "activity,days,crew (5),after\n" + "\n".join(rows) + "\n"
        watch, took = self.opened(text, "--seconds", "0.3", psprove=self.stand_in(tells=[], then="pairs")), list[int]()
        self.until(f"{ROWS}.length === 300")
        for days in takewhile(lambda _: not took or min(took) >= 200, range(11, 31)):
            known = self.run_script(SHOWN)
            watch.table.write_text(text.replace("job 7,1,", f"job 7,{days},"))
            self.until(f"{SHOWN} !== arguments[0]", known)
            took.append(int(self.run_script("return document.body.dataset.milliseconds")))
        self.assertLess(min(took), 200, json.dumps(took))
