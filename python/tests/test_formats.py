"""The formats: round trips of generated projects, known optima, damaged texts, and what each refuses."""
import datetime
import json
import pathlib
import random
import re
from collections.abc import Callable
from typing import Any

import psmax
from planner.tests.helpers import EXAMPLES, InFolder, plan
from psmax.formats import FORMATS, json_text
from psmax.planner.published import read_published

from . import made

DATA = EXAMPLES / "formats"
SIGNS = "0129-+.,:;[]{}()<>&\"'*#x \t\n\r\0\u00e4\u2028"
MAKERS: dict[str, Callable[[int], psmax.Project]] = {
    "sch": made.plain, "json": made.any_project, "sm": made.precedences, "rcp": made.precedences,
    "job-shop": lambda seed: made.shop(seed, False), "taillard": lambda seed: made.shop(seed, False),
    "open-shop": lambda seed: made.shop(seed, True), "mspdi": made.tasks,
    "xer": lambda seed: made.tasks(seed, True)}
# Each file of data with its format, and the makespan of a shortest schedule.
KNOWN = {
    "ft06.jsp": ("job-shop", 55),  # Fisher and Thompson 1963
    "ta01.txt": ("taillard", 1231),  # Taillard 1993
    "tai4_4_1.txt": ("open-shop", 193),  # the same
    "six.sm": ("sm", 9),  # by trying all starts, as is tested below
    "six.rcp": ("rcp", 9),
    "hall.xml": ("mspdi", 12),  # by hand, in test_mspdi.py
    "hall.xer": ("xer", 12),  # the same hall
    "bridge.json": ("json", 13),  # by hand: the crane is away until day 10
}
RULE = " +++++++++++++++++++++++++++++\n"
PIECE = "Fisher and Thompson 2x2 instance (mt02)\n 2 2\n 0 3 1 2\n 1 2 0 4\n"
UNEVEN = "2 3\n0 3 2 2\n0 4\n"  # the first job has no operation on machine 1, the second has one alone
TAILLARD = ("Nb of jobs, Nb of Machines, Time seed, Machine seed, Upper bound, Lower bound\n 2 2 840612802 1 99 7\n"
            "Times\n 3 2\n 2 4\nMachines\n 1 2\n 2 1\n")
# Shops as they are published: activities, resources, and the makespan of a shortest schedule.
SHOPS = (
    ("the title of a piece", PIECE, (4, 2, 7)), ("jobs of some machines", UNEVEN, (3, 3, 7)),
    ("a title and rules", f"{RULE} instance a1\n{RULE}{PIECE}{RULE}", (4, 2, 7)),
    ("a comment", f"# 2 3\n{UNEVEN}", (3, 3, 7)),
    ("a flow with a job that skips a machine", "3 3\n0 1 1 5 2 1\n0 1 2 1\n1 5\n", (6, 3, 11)),
)


def damaged(text: str, chance: random.Random) -> str:
    """The text with a sign or a word that is another one, twice there or gone, or without its end."""
    place, more = chance.randrange(len(text)), chance.randrange(len(text))
    sign = chance.choice(SIGNS)
    return chance.choice([
        text[:place] + sign + text[place + 1 :], text[:place] + text[place + 1 :], text[:place],
        text[:place] + sign * chance.choice([1, 400]) + text[place:],
        text[:place] + text[more:], text.replace(chance.choice(text.split()), chance.choice(["-1", "x", "9" * 12, ""]),
                                                 1)])


class Formats(InFolder):
    def test_round_trips(self) -> None:
        """Read, written and read again it is the same project, found by what the text holds."""
        for name, make in MAKERS.items():
            for seed in range(40):
                project = make(seed)
                text = project.text(name)
                again = psmax.Project.read(text)
                with self.subTest(name, seed=seed):
                    self.assertEqual(sorted(again.numbers().arcs), sorted(project.numbers().arcs))
                    self.assertEqual(vars(again.numbers()) | {"arcs": 0}, vars(project.numbers()) | {"arcs": 0})
                    self.assertEqual([one.name for one in again.activities], [one.name for one in project.activities])
                    self.assertEqual((again.calendar, again.text(name)), (project.calendar, text))
                    if name in ("mspdi", "xer"):
                        self.assertEqual((again.status, again.started), (project.status, project.started))
                        self.assertEqual(again.groups, project.groups)

    def test_holidays(self) -> None:
        """As dates or as texts, they are the same days off. By hand, from Thursday 5 March 2026 on: with Friday off
        three days end on Tuesday."""
        days: list[Any] = [["2026-03-06"], {"06.03.2026"}, [datetime.date(2026, 3, 6)],
                           [datetime.datetime(2026, 3, 6, 8)]]
        for holidays in days:
            with self.subTest(holidays):
                project = psmax.Project()
                project.activity("dig", 3)
                project.calendar = psmax.WorkTime("2026-03-05", workdays="mon-fri", holidays=holidays)
                self.assertEqual(project.calendar.calendar().times(0, 3), ("2026-03-05", "2026-03-10"))
                self.assertEqual(psmax.Project.read(project.text("json").encode()).calendar, project.calendar)
        for odd in (["soon"], [6]):
            with self.subTest(odd), self.assertRaisesRegex(psmax.BadInput, "holidays"):
                psmax.WorkTime("2026-03-05", holidays=odd)  # type: ignore[arg-type]

    def test_known_optima(self) -> None:
        for name, (kind, makespan) in KNOWN.items():
            project = psmax.Project.read(DATA / name)
            with self.subTest(name):
                self.assertTrue(FORMATS[kind].is_like((DATA / name).read_text()))
                answer = project.solve(seconds=30, jobs=1)
                self.assertEqual((answer.status, answer.makespan), (psmax.Status.OPTIMAL, makespan))
                if kind not in ("mspdi", "xer"):  # which have more of a file than one can write anew
                    self.assertEqual(psmax.Project.read(project.text(kind)).text(kind), project.text(kind))

    def test_by_trying_all_starts(self) -> None:
        for name in ("six.sm", "six.rcp"):
            project = psmax.Project.read(DATA / name)
            self.assertEqual(made.shortest(project), 9)
            self.assertEqual(project.solve(seconds=10, jobs=1, proved_by="tree").makespan, 9)
        for seed in range(5):
            project = made.precedences(seed)
            self.assertEqual(project.solve(seconds=10, jobs=1).makespan, made.shortest(project))

    def test_damaged_texts(self) -> None:
        """200 of each format, found by what they hold or read as what they were: each is read and can be written again,
        or has a fault in words."""
        for name, make in MAKERS.items():
            for seed in range(200):
                text = damaged(make(seed).text(name), random.Random(f"{name} {seed}"))
                with self.subTest(name, seed=seed):
                    try:
                        psmax.Project.read(f"{text}\n", (None, name)[seed % 2]).text("json")
                    except psmax.BadInput as fault:
                        self.assertRegex(str(fault), r"^(the text: [^\n]+|a lag from start to start of .*)$")

    def test_what_is_refused(self) -> None:
        sm = (DATA / "six.sm").read_text()
        for text, wanted in (
            (sm.replace("   2    1    1    6", "   2    3    1    6"), "a multi-mode project (MRCPSP)"),
            (sm.replace("0   N", "2   N"), "a multi-mode project (MRCPSP)"),
            (sm.replace("   8    1    0    0", "   8    1    3    0"), "job 8: the end takes time or resources"),
            (sm.replace("REQUESTS/DURATIONS", "REQUESTS"), "there is no section REQUESTS/DURATIONS"),
            ((DATA / "ft06.jsp").read_text().replace("2 1 0 3", "2 1 2 3"), "job 1 has two operations on one machine"),
            ((DATA / "ft06.jsp").read_text().replace("2 1 0 3", "2 1 0 x"),
             "line 3: the time of job 1, operation 2: 'x'"),
            ((DATA / "ta01.txt").read_text().split("Machines\n")[0], "there is no section of machines"),
            ("[" * 100_000 + "\n", "no text of a project"), ('{"a":' * 100_000 + "\n", "nested too deeply"),
            ('{"format": 1, "format": 2}\n', "the key 'format' stands twice"), ("hello\nworld", "no text of a project"),
        ):
            with self.subTest(wanted), self.assertRaisesRegex(psmax.BadInput, re.escape(wanted)):
                psmax.Project.read(text)

    def test_shops_as_they_are_published(self) -> None:
        """The optima are by hand: what a machine or a job has to do, which some order of its operations reaches."""
        for name, text, wanted in SHOPS:
            project = psmax.Project.read(text)
            with self.subTest(name):
                self.assertEqual((len(project), len(project.resources), project.solve(seconds=10, jobs=1).makespan),
                                 wanted)
                self.assertEqual(psmax.Project.read(project.text("job-shop")).numbers(), project.numbers())
        uneven = psmax.Project.read(UNEVEN)
        self.assertEqual([(one.duration, [*one.demands]) for one in uneven.activities],
                         [(3, [uneven.resources[0]]), (2, [uneven.resources[2]]), (4, [uneven.resources[0]])])
        with self.assertRaisesRegex(psmax.BadInput, "has an operation on each machine in each job"):
            uneven.text("taillard")

    def test_several_instances(self) -> None:
        """A file of the OR-Library and one of Taillard's, each instance as a file of its own, which is read."""
        library = self.file("library.txt", f" This file has\n 2 instances\n{RULE} instance a1\n{RULE} {PIECE}"
                            f" +++++\n instance b-2\n{RULE} {PIECE.replace('0 3', '0 6')} +++\n")
        taillard = self.file("tai2.txt", TAILLARD + TAILLARD.replace("99 7", "98 6"))
        for path, names in (library, ["a1.txt", "b-2.txt"]), (taillard, ["tai2-1.txt", "tai2-2.txt"]):
            out = self.folder / path.stem
            self.refused(plan("solve", path), 2, f"{path.name}: it holds 2 instances; `plan read FILE --out FOLDER/`")
            ran = plan("read", path, "--out", f"{out}/")
            self.assertEqual((ran.stdout, sorted(one.name for one in out.iterdir())), (f"{out}/: 2 instances\n", names))
            self.assertEqual({len(psmax.Project.read(one)) for one in out.iterdir()}, {4})
            self.assertEqual(plan("read", path, "--out", out).returncode, 0)  # what is there is the same
            (out / names[1]).write_text("my own words\n")
            self.refused(plan("read", path, "--out", out), 2, f"{names[1]} is there, and would be lost")
        self.assertEqual(psmax.Project.read(self.folder / "library" / "a1.txt").numbers().durations, (0, 3, 2, 2, 4, 0))
        self.assertEqual({name: (one.lower, one.upper) for name, one in read_published(str(taillard)).items()},
                         {"tai2-1": (7, 99), "tai2-2": (6, 98)})
        with self.assertRaisesRegex(psmax.BadInput, "the text: the text ends before the number of jobs"):
            psmax.Project.read("my own\nwords\n", "job-shop")
        twice = self.file("twice.txt", library.read_text().replace("b-2", "a1"))
        self.refused(plan("read", twice, "--out", f"{self.folder}/"), 2, "two instances are called a1")
        bad = self.file("bad.txt", taillard.read_text().replace("98 6\nTimes\n 3", "98 6\nTimes\n -3"))
        ran = plan("read", bad, "--out", f"{self.folder}/none/")
        self.refused(ran, 2, "bad.txt: bad-2: line 4: of job 1 time 1: '-3'")
        self.assertFalse((self.folder / "none").exists())

    def test_schema(self) -> None:
        """What is written keeps the schema, and so does the example; the keys of both are those that are read."""
        schema = json.loads((pathlib.Path(json_text.__file__).parent / "project.schema.json").read_text())
        texts = [made.any_project(seed).text("json") for seed in range(20)] + [(DATA / "bridge.json").read_text()]
        for text in texts:
            self.assertEqual(faults(json.loads(text), schema, schema), [])
        self.assertNotEqual(faults({"format": json_text.KIND, "activities": [{"name": 1}]}, schema, schema), [])
        parts = {"the project": schema, **{f"a{'n' * (name[0] in 'a')} {name}": one
                                           for name, one in schema["$defs"].items()}}
        for what, (must, may) in json_text.KEYS.items():
            one = parts[what] if what in parts else schema["properties"][what.removeprefix("the ")]
            self.assertEqual(({*one["required"]}, {*one["properties"]}), (must, must | may), what)

    def test_plan(self) -> None:
        """plan solves, draws and converts them; a project on standard input is called -."""
        path = DATA / "ft06.jsp"
        ran = plan("solve", path, "--jobs", "1", "--out", self.folder / "best")
        self.assertEqual(ran.stdout, "optimal 55\n", ran.stderr)
        self.assertEqual(plan("check", path, self.folder / "best").stdout, "feasible 55\n")
        self.assertEqual(plan("check", "-", self.folder / "best", given=path.read_bytes()).stdout, "feasible 55\n")
        for kind in ("sch", "json", "sm", "rcp", "job-shop", "taillard"):
            ran = plan("read", "-", "--to", kind, given=path.read_bytes())
            self.assertEqual(len(psmax.Project.read(ran.stdout).activities), 36, ran.stderr)
        self.assertEqual(plan("read", path, "--out", self.folder / "site.json").returncode, 0)
        self.refused(plan("read", path, "--out", self.file("own.json", "mine")), 2, "own.json is there, and no project")
        self.refused(plan("where", path), 2, "ft06.jsp: a text without faults of another format")
        self.refused(plan("read", path, "--to", "open-shop"), 2, "an open shop has an operation on each machine")
        self.refused(plan("read", "-", given=b"activity,days\na,1\n"), 2, "name a .sch file with --out")
        self.refused(plan("solve", self.file("x.sm", "****************\n")), 2, "x.sm: there is no section PRECEDENCE")
        ran = plan("solve", DATA / "bridge.json", "--jobs", "1", "--out", self.folder / "best.csv")
        self.assertEqual(ran.stdout.partition("\n")[0], "optimal, ends Thu 2026-03-19 (13 days)", ran.stderr)
        ran = plan("write", DATA / "bridge.json", self.folder / "best.csv")
        self.assertIn("hand over,13,0,13,2026-03-19,2026-03-19", ran.stdout)


def faults(value: object, schema: dict[str, Any], top: dict[str, Any]) -> list[str]:
    """What of a value breaks a schema, of the words that project.schema.json uses."""
    if "$ref" in schema:
        return faults(value, top["$defs"][schema["$ref"].removeprefix("#/$defs/")], top)
    kinds: dict[str, type | tuple[type, ...]] = {"object": dict, "array": list, "string": str, "integer": int,
                                                 "null": type(None)}
    allowed = schema.get("type", [*kinds])
    if not any(isinstance(value, kinds[kind]) for kind in ([allowed] if isinstance(allowed, str) else allowed)):
        return [f"{value} is no {allowed}"]
    found = [f"{value}" for key in ("const",) if key in schema and value != schema[key]]
    found += [f"{value}" for key in ("enum",) if key in schema and value not in schema[key]]
    if isinstance(value, int):
        found += [f"{value}"] if not schema.get("minimum", value) <= value <= schema.get("maximum", value) else []
    if isinstance(value, list):
        items = schema.get("prefixItems", [schema.get("items", {})] * len(value))
        found += [fault for one, kind in zip(value, items) for fault in faults(one, kind, top)]
    if isinstance(value, dict):
        known = schema.get("properties", {})
        found += [f"no {key}" for key in schema.get("required", []) if key not in value]
        for key, one in value.items():
            other = schema.get("additionalProperties", {})
            found += [key] if key not in known and other is False else faults(one, known.get(key, other), top)
    return found
