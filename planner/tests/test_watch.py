"""`plan watch`, by what its page is told."""
import json
import os
import pathlib
import re
import signal
import stat
import subprocess
import time
from unittest import mock
from urllib.parse import urlsplit
from urllib.request import url2pathname

from .helpers import EXAMPLES, INPUTS, LONG, PSPROVE, TELLS, InFolder, plan
from .watching import Watching, done

# By hand: two jobs of 3 and 4 on one crane take 7.
TWO = "activity,days,crane (1)\na,3,1\nb,4,1\n"
HALL = (EXAMPLES / "hall.csv").read_text()
CHANGED = (EXAMPLES / "hall-changed.csv").read_text()


class Watches(InFolder):
    def watching(self, text: str, *words: object, psprove: str = PSPROVE) -> Watching:
        """A watch of a table, which ends with the test."""
        made = Watching(self.file("p.csv", text), *words, psprove=psprove)
        self.addCleanup(made.__exit__, None, None, None)
        return made

    def names(self) -> list[str]:
        return sorted(path.name for path in self.folder.iterdir())


class Following(Watches):
    def test_a_change(self) -> None:
        """By hand: the trusses come on day 20, then 2 to lift, 1 to test, 4 to sheet, 2 for gutters and 1 to strike are
        30."""
        self.file("hall-holidays.txt", (EXAMPLES / "hall-holidays.txt").read_text())
        watch = self.watching(HALL)
        self.assertEqual(watch.until(done("(27 days)"))["heads"], [])
        state = watch.saved(CHANGED, done("(30 days)"))
        self.assertEqual(state["heads"][0], "makespan 27 -> 30, 3 later (2026-04-09 -> 2026-04-14)")
        moved = {kind: [name for name, _ in moves] for kind, moves in state["moved"]}
        self.assertEqual(moved["new"], ["test the bolts"])
        self.assertIn("get trusses", moved["later"])
        self.assertNotIn("gone", moved)
        state = watch.saved(HALL, done("(27 days)"))
        self.assertEqual({kind: [name for name, _ in moves] for kind, moves in state["moved"]}["gone"],
                         ["test the bolts"])

    def test_other_files(self) -> None:
        """A day off and a day without the crane, in files that the table names, and a status date. By hand: 3 March is
        off, so that all behind it is a day later; without the crane on the fourth day 3 + 1 + 4 are 8; and from the
        second day on none fits before that, so that both follow it, up to 4 + 7."""
        text = f"from,2026-03-02\nholidays,off.txt\nabsences,away.csv\nstatus,2026-03-02\n{TWO}"
        self.file("off.txt", "2026-12-25\n")
        away = self.file("away.csv", "resource,from,to\n")
        watch = self.watching(text)
        state = watch.until(done("(7 days)"))
        self.assertIn("to 2026-03-08.", state["parts"]["made"])
        self.file("off.txt", "2026-03-03\n")
        state = watch.until(lambda state: "to 2026-03-09." in state["parts"]["made"])
        self.assertIn("makespan 7 -> 7 (2026-03-08 -> 2026-03-09)", state["heads"])
        away.write_text("resource,from,to\ncrane,2026-03-06,2026-03-06\n")
        self.assertIn("makespan 7 -> 8, 1 later (2026-03-09 -> 2026-03-10)", watch.until(done("(8 days)"))["heads"])
        state = watch.saved(text.replace("status,2026-03-02", "status,2026-03-04"), done("(11 days)"))
        self.assertIn("makespan 8 -> 11, 3 later (2026-03-10 -> 2026-03-13)", state["heads"])

    def test_a_fault(self) -> None:
        """The last plan stays, beside what is wrong, in the words of every other command."""
        watch = self.watching(TWO)
        watch.until(done("optimal 7"))
        wrong = TWO.replace("a,3", "a,-3")
        state = watch.saved(wrong, lambda state: state["faults"])
        told = plan("solve", watch.table).stderr.splitlines()
        self.assertEqual([f"plan: {fault}" for fault in state["faults"]], told)
        self.assertIn("row 2, column B (days): -3 is below 0", state["faults"][0])
        self.assertIn("optimal 7", state["line"])
        self.assertEqual(len(state["tables"]["rows"]), 2)
        state = watch.saved(TWO.replace("a,3", "a,5"), done("optimal 9"))
        self.assertEqual(state["faults"], [])

    def test_a_fault_from_the_start(self) -> None:
        watch = self.watching("absences,away.csv\n" + TWO)
        self.assertIn("away.csv", watch.until(lambda state: state["faults"])["faults"][0])
        (watch.table.parent / "away.csv").write_text("resource,from,to\n")
        watch.until(done("optimal 7"))

    def test_no_schedule(self) -> None:
        """By hand: b starts at least 3 and at most 2 after a: 1 too much. And a machine with two jobs at once."""
        text = "activity,days,crane (1),after,at most\na,3,1,,\nb,4,1,a,\n"
        watch = self.watching(text)
        watch.until(done("optimal 7"))
        state = watch.saved(f"{text},,,start of a,2\n", done("no schedule"))
        self.assertEqual(state["why"], plan("why", watch.table).stdout.splitlines())
        self.assertIn("  Allow 2 (b) to start 1 day later, which is enough, and less is not: ", "\n".join(state["why"]))
        self.assertEqual(state["parts"]["arrows"].count(" circle"), 2)
        state = watch.saved("activity,days,crane (1),after\na,3,1,\nb,4,1,with a\n",
                            lambda state: "crane" in f"{state['why']}")
        told = "; ".join(state["why"])
        self.assertIn("without any one of them there is a schedule:;   crane, of which there is 1", told)
        self.assertIn("Without this lag there is a schedule of 7", told)
        self.assertGreater(state["parts"]["arrows"].count(" circle"), 0)
        state = watch.saved(TWO, done("optimal 7"))
        self.assertEqual((state["why"], state["parts"]["arrows"].count(" circle")), ([], 0))

    def test_what_started_stays(self) -> None:
        """By hand: a has started with --frozen on day 2, so b, which is longer now, stays behind it."""
        start = self.file("start.csv", "name,start\na,0\nb,3\n")
        watch = self.watching(TWO, "--start", start, "--frozen", "2")
        watch.until(done("optimal 7"))
        state = watch.saved(TWO.replace("b,4", "b,6"), done("optimal 9"))
        self.assertEqual([name for name, _ in state["tables"]["rows"]], ["activity a", "activity b"])

    def test_other_periods(self) -> None:
        """By hand: 12, 4 and 4 hours on one crane take 20; a start after 4 or 12 of them can't be told in days. 2 + 4
        are 6."""
        watch = self.watching("activity,days,crane (1)\na,1.5,1\nb,4 h,1\nc,0.5,1\n")
        watch.until(done("optimal 20."))
        state = watch.saved(TWO.replace("a,3", "a,2"), done("optimal 6."))
        self.assertIn("the plan before is not taken over", state["notes"])
        self.assertEqual((state["heads"], state["faults"]), ([], []))

    def test_a_search_that_dies(self) -> None:
        """What it told stays, beside what went wrong; the next save is planned all the same."""
        watch = self.watching(TWO, psprove=self.stand_in(tells=TELLS, then="dies"))
        for shown, text in enumerate((TWO.replace("crane (1)", "crane (2)"), TWO), 1):
            state = watch.until(lambda state: state["shown"] == shown and done("feasible 9 bound 6")(state))
            self.assertEqual(state["faults"], ["psprove solve was ended by signal 9"])
            watch.table.write_text(text)

    def test_names_alone(self) -> None:
        """Another name is no other project, so its plan stays, and so does a search."""
        watch = self.watching(TWO, psprove=self.stand_in(tells=TELLS, then="waits"))
        watch.until(lambda state: "feasible 9 bound 6" in state["line"])
        state = watch.saved(TWO.replace("\na,", "\nlift,"), lambda state: "lift" in json.dumps(state.get("told")))
        self.assertIn("feasible 9 bound 6. The search goes on.", state["line"])


class Signs(Watches):
    def test_a_save_is_seen_before_a_search_ends(self) -> None:
        """This one has to be killed, five seconds after it is asked to end."""
        watch = self.watching(TWO, psprove=self.stand_in(tells=TELLS, then="sticks"))
        watch.until(lambda state: "feasible 9 bound 6" in state["line"])
        begun = time.monotonic()
        watch.saved(TWO.replace("b,4", "b,6"), lambda state: "stays until there is one" in state["line"])
        self.assertLess(time.monotonic() - begun, 4)


class Halves(Watches):
    def test_half_a_table(self) -> None:
        """It waits for another save, and the plan stays; what is saved twice is meant."""
        watch = self.watching(TWO)
        watch.until(done("optimal 7"))
        for text, told, value in ((TWO[:-1], "the last row has no end", 7), (TWO[:24], "1 rows are left of 3", None)):
            state = watch.saved(text, lambda state: state["faults"])
            self.assertEqual(state["faults"], [f"{watch.table}: {told}, so it may be half saved; save it once more to "
                                               "plan it"])
            self.assertIn("optimal 7", state["line"])
            if value is not None:
                watch.saved(text, lambda state: not state["faults"] and done(f"optimal {value}")(state))
                watch.saved(TWO, done("optimal 7"))
            else:
                watch.saved(text, lambda state: "no activity stands below row 1" in f"{state['faults']}")


class Orders(Watches):
    def test_stop(self) -> None:
        watch = self.watching(TWO, psprove=self.stand_in(tells=TELLS, then="waits"))
        watch.until(lambda state: "feasible 9 bound 6. The search goes on." in state["line"])
        self.assertEqual(watch.order("stop"), (200, "Nothing is searched any more."))
        self.assertIn("feasible 9 bound 6.", watch.until(done())["line"])

    def test_a_change_is_tried(self) -> None:
        """By hand: on two cranes the longer job alone says how long it takes. The plan stays."""
        watch = self.watching(TWO)
        version = watch.until(done("optimal 7"))["version"]
        place = f"{urlsplit(watch.address).path}whatif"
        tried = [watch.ask("POST", place, json.dumps(text)) for text in ("crane +1", "b -4 d", "crew +1")]
        self.assertEqual(tried[:2], [(200, b"crane +1: optimal 4"), (200, b"b -4 d: optimal 3")])
        self.assertEqual((tried[2][0], tried[2][1][:37]), (409, b"'crew +1': no change that plan knows,"))
        for body in ("7", '""', json.dumps("x" * 201), '["x"]', '"a\\u0000"'):
            self.assertEqual(watch.ask("POST", place, body), (403, b"refused"))
        state = watch.state()
        assert state is not None
        self.assertEqual((state["version"], state["busy"]), (version, False))

    def test_keep(self) -> None:
        """What is kept is a plan with its proof, beside the table and with its mode, and nothing takes its place."""
        watch = self.watching(TWO)
        watch.table.chmod(0o600)
        watch.until(done("optimal 7"))
        for _ in range(3):
            status, text = watch.order("keep")
            self.assertEqual((status, text[:6]), (200, "Kept: "))
        names = self.names()
        self.assertEqual(len(names), 13)
        self.assertEqual({stat.S_IMODE((self.folder / name).stat().st_mode) for name in names}, {0o600})
        stems = {name.rpartition(".")[0].removesuffix("-table") for name in names} - {"p"}
        self.assertEqual(len(stems), 3)
        for stem in stems:
            self.assertRegex(stem, r"p-\d{4}-\d\d-\d\d-\d{6}(-\d)?")
            answer, record = (self.folder / f"{stem}.{suffix}" for suffix in ("csv", "record"))
            self.assertEqual(plan("check", watch.table, answer).stdout, "feasible 7\n")
            self.assertIn("shorter than 7, and has one that long.", plan("verify", watch.table, record).stdout)
            self.assertIn("is shorter than 7, and has one", (self.folder / f"{stem}.html").read_text())
            self.assertEqual((self.folder / f"{stem}-table.csv").read_text(), TWO)
        self.assertEqual(watch.end()[:2], (0, ""))
        self.assertEqual(self.names(), names)

    def test_go_back(self) -> None:
        """To a plan of the table as it was; the next save is planned from it."""
        watch = self.watching(TWO)
        first = watch.until(done("optimal 7"))
        watch.saved(TWO.replace("b,4", "b,6"), done("optimal 9"))
        self.assertEqual(watch.order("back", first["shown"])[0], 200)
        state = watch.until(done("optimal 7"))
        self.assertEqual([plan[0] for plan in state["plans"]], [2, 1])
        state = watch.saved(TWO.replace("b,4", "b,5"), done("optimal 8"))
        self.assertEqual(state["heads"][0], "makespan 7 -> 8, 1 later")
        self.assertEqual(watch.order("back", 99), (409, "that plan is not there any more"))

    def test_ctrl_c(self) -> None:
        """It ends the search, and keeps what was found."""
        record = self.folder / "last"
        watch = self.watching(TWO, "--record", record)
        watch.until(done("optimal 7"))
        status, out, told = watch.end()
        self.assertEqual((status, told), (0, ""))
        found = re.fullmatch(r"Kept: (.*)\.csv, \1\.record, \1\.html, \1-table\.csv\n", out)
        assert found is not None
        self.assertEqual(plan("check", watch.table, f"{found[1]}.csv").stdout, "feasible 7\n")
        self.assertEqual(record.read_bytes(), pathlib.Path(f"{found[1]}.record").read_bytes())

    def test_ctrl_c_while_it_searches(self) -> None:
        watch = self.watching(TWO, psprove=self.stand_in(tells=TELLS[:2], then="waits",
                                                         answer={"bound": 4, "starts": LONG}))
        watch.until(lambda state: "feasible 12 bound 4" in state["line"])
        watch.child.send_signal(signal.SIGTERM)
        out, told = watch.child.communicate(timeout=60)
        self.assertRegex(out, r"^Kept: \S+\.csv, \S+\.html, \S+-table\.csv\n$", told)
        [answer] = self.folder.glob("p-*[0-9].csv")
        self.assertEqual(plan("check", watch.table, answer).stdout, "feasible 12\n")
        self.assertEqual([*self.folder.glob("p-*.record")], [], "what the stand-in writes proves nothing")


class Safe(Watches):
    def test_who_may_ask(self) -> None:
        """Only who knows the token, and comes from its page."""
        watch = self.watching(TWO)
        place = urlsplit(watch.address)
        other = place.path[:-2] + ("A" if place.path[-2] != "A" else "B") + "/"
        for path in ("/", "/state", "//", "//[", "*", other, f"{other}state", f"{place.path}other",
                     f"{place.path}../p.csv",
                     f"{place.path}?x=1", "/%C3%A9/state", f"{place.path}state?after=x"):
            with self.subTest(path):
                self.assertEqual(watch.ask("GET", path)[0], 403)
        for heads in ({"Host": "localhost:1"}, {"Host": "evil.example"}, {"Host": ""},
                      {"Host": f"localhost:{place.port}"},
                      {"Origin": "http://evil.example"}, {"Origin": "null"}, {"Origin": f"https://{place.netloc}"}):
            with self.subTest(heads):
                for path in (place.path, f"{place.path}state"):
                    self.assertEqual(watch.ask("GET", path, **heads)[0], 403)
                self.assertEqual(watch.ask("POST", f"{place.path}keep", "0", **heads)[0], 403)
        self.assertEqual(watch.ask("POST", f"{place.path}keep", "0", Origin="")[0], 403)
        for body in ("", "x", "[1]", "1" * 99, "1" * 2000, "{}", "1e999", "-1", "NaN", "[" * 999, "1" + " " * 5000):
            with self.subTest(body=body[:9]):
                self.assertEqual(watch.ask("POST", f"{place.path}back", body), (403, b"refused"))
        self.assertEqual(watch.ask("POST", f"{place.path}back", "7", **{"Transfer-Encoding": "chunked"})[0], 403)
        for zoom in ("nan", "-nan", "x", "", "1" * 9999, "[" * 999):
            self.assertIn(watch.ask("GET", f"{place.path}state?after=0&zoom={zoom}")[0], (200, 403), zoom)
        self.assertEqual(watch.ask("GET", f"{place.path}state?zoom=nan")[0], 403)
        self.assertEqual(watch.ask("GET", place.path)[0], 200)
        self.assertEqual(self.names(), ["p.csv"])
        self.assertEqual(watch.end()[2], "")

    def test_a_browser(self) -> None:
        """Its arguments have no token, since every user may read them. They name a page that leads to the address,
        which the user alone may read. A browser that goes on in the foreground holds up nothing."""
        told, begun = self.folder / "told", self.folder / "begun"
        browser = self.program("browser", f'echo "$@" > {told}; mv {told} {begun}; exec sleep 5')
        with mock.patch.dict(os.environ, {"BROWSER": browser}):
            watch = self.watching(TWO, "--open")
        watch.until(done("optimal 7"))
        while not begun.exists():
            time.sleep(0.01)
        token = urlsplit(watch.address).path.strip("/")
        self.assertNotIn(token, begun.read_text())
        page = pathlib.Path(url2pathname(urlsplit(begun.read_text().strip()).path))
        self.assertEqual((stat.S_IMODE(page.stat().st_mode), stat.S_IMODE(page.parent.stat().st_mode)), (0o600, 0o700))
        self.assertIn(f'content="0; url={watch.address}"', page.read_text())
        self.assertEqual(watch.end()[::2], (0, ""))
        self.assertFalse(page.exists())

    def test_a_name_that_no_file_has(self) -> None:
        """It is a fault of the table, and the next save is planned."""
        watch = self.watching(TWO)
        watch.until(done("optimal 7"))
        for name in ("holidays", "absences"):
            state = watch.saved(f"{name},\0x\n{TWO}", lambda state: state["faults"])
            self.assertIn("?x: there is no such file", state["faults"][0])
            watch.saved(TWO, lambda state: not state["faults"])
        watch.saved(TWO.replace("a,3", "a,5"), done("optimal 9"))

    def test_where_it_listens(self) -> None:
        """On 127.0.0.1 alone."""
        watch = self.watching(TWO)
        port = urlsplit(watch.address).port or 0
        told = pathlib.Path("/proc/net/tcp").read_text() + pathlib.Path("/proc/net/tcp6").read_text()
        listens = [line.split()[1] for line in told.splitlines() if line.split()[3] == "0A"]
        self.assertEqual([one for one in listens if one.endswith(f":{port:04X}")], [f"0100007F:{port:04X}"])

    def test_two_of_one_table(self) -> None:
        watch = self.watching(TWO)
        os.symlink(watch.table, self.folder / "other.csv")
        for name in ("p.csv", "other.csv"):
            self.refused(plan("watch", self.folder / name), 2, "is watched already, by another plan watch")
        watch.end()
        with Watching(watch.table) as again:
            again.until(done("optimal 7"))

    def test_names(self) -> None:
        """Whatever a name has, it is text in all that the page gets."""
        name = "<script>alert(1)</script>"
        watch = self.watching(TWO.replace("\na,", f"\n{name},"))
        state = watch.until(done("optimal 7"))
        markup = "".join([*state["parts"].values(), *(row for rows in state["tables"].values() for _, row in rows)])
        self.assertNotIn("<script", markup)
        self.assertIn("&lt;script&gt;alert(1)&lt;/script&gt;", markup)

    def test_words(self) -> None:
        table, record = self.file("p.csv", TWO), self.file("r", "no record\n")
        self.refused(plan("watch", "-"), 2, "a file, and not standard input")
        self.refused(plan("watch", self.folder / "none.csv"), 1, "cannot read")
        self.refused(plan("watch", table, "--frozen", "2"), 2, "--frozen needs --start")
        self.refused(plan("watch", table, "--record", table), 2, "is the table, which would be lost")
        self.refused(plan("watch", table, "--record", record), 2, "and no record, and would be lost")
        watch = self.watching(TWO)
        port = urlsplit(watch.address).port
        self.refused(plan("watch", self.file("q.csv", TWO), "--port", port), 1, f"port {port}: ")
        project = self.file("p.sch", (INPUTS / "two-jobs.sch").read_bytes())
        with Watching(project) as other:
            self.assertIn("no table of activities", other.until(lambda state: state["faults"])["faults"][0])


class Ends(Watches):
    def test_no_orphan(self) -> None:
        """Neither psprove nor a folder is left behind when it ends while it searches."""
        table = self.file("hard.csv", hard())
        kept = self.folder / "tmp"
        kept.mkdir()
        with mock.patch.dict(os.environ, {"TMPDIR": str(kept)}):
            watch = Watching(table)
        watch.until(lambda state: state["shown"])
        watch.end()
        self.assertEqual([*kept.iterdir()], [])
        ran = subprocess.run(["ps", "-eo", "args"], capture_output=True, text=True)
        self.assertNotIn(str(kept), ran.stdout)
        [answer] = self.folder.glob("hard-*[0-9].csv")
        self.assertTrue(plan("check", table, answer).stdout.startswith("feasible "))


def hard() -> str:
    """A job shop of 10 by 10 as a table, which is not settled at once."""
    rows = [f"{job}.{step},{1 + 37 * (job * 10 + step) % 97},"
            + ",".join("1" if machine == (7 * step + 3 * job) % 10 else "" for machine in range(10))
            + f",{f'{job}.{step - 1}' if step else ''}" for job in range(10) for step in range(10)]
    return f"name,days,{','.join(f'm{machine} (1)' for machine in range(10))},after\n" + "\n".join(rows) + "\n"
