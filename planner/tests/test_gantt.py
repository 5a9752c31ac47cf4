import unittest
from xml.etree import ElementTree

from psmax.planner.drawing import Load, round_step
from psmax.planner.gantt import load_cells
from psmax.planner.window import Stretch

from .helpers import EXAMPLES, INPUTS, TWO_JOBS, InFolder, plan, psmax

# Two jobs of 3 and 4 on one machine, one after the other, drawn by hand.
CHART = """check: feasible 7   (the answer says: optimal 7)
             0
             |
   1             4 ....###
   2             0 ####...
     resource 0   of 1 1111111
"""


class Charts(InFolder):
    def drawn(self, path: object, given: str, *words: str) -> str:
        ran = plan("gantt", path, *words, given=given.encode())
        self.assertEqual((ran.returncode, ran.stderr), (0, ""))
        return ran.stdout

    def test_by_hand(self) -> None:
        text = self.drawn(INPUTS / "two-jobs.sch", "optimal 7\n0 0\n1 4\n2 0\n3 7\n")
        self.assertEqual([line.split() for line in text.splitlines()], [line.split() for line in CHART.splitlines()])
        signs = ("0", "|", "....###", "####...", "1111111")
        columns = {line.index(sign) for line, sign in zip(text.splitlines()[1:], signs)}
        self.assertEqual(len(columns), 1, text)

    def test_names_and_use(self) -> None:
        """The building site: by hand, day 0 needs a crew of 1, and on day 12 all 5 pour."""
        site = EXAMPLES / "building-site.sch"
        text = self.drawn(site, psmax("solve", given=site.read_bytes()))
        rows = {line[5:].split()[0]: line.split()[-1] for line in text.splitlines()[3:]}
        survey, crew = rows["survey"], rows["Crew"]
        self.assertEqual(survey, "##" + "." * 34)
        self.assertEqual((crew[:2], crew[12]), ("11", "5"))

    def test_starts_file_and_wide_times(self) -> None:
        text = self.drawn(EXAMPLES / "test-bench.sch", (EXAMPLES / "test-bench-feasible.starts").read_text())
        self.assertIn("a column is 5 periods", text.splitlines()[0])
        self.assertLess(max(map(len, text.splitlines())), 140)

    def test_violations_are_told(self) -> None:
        """By hand: from 2 to 3 both jobs are on the machine, and 3 starts less than 3 after 1 when it starts at 2."""
        text = self.drawn(INPUTS / "two-jobs.sch", "0 0\n1 0\n2 2\n3 6\n")
        self.assertIn("check: not feasible", text)
        self.assertIn("at 2, 2 units of resource 0 are in use, of which there is 1: 1, 2", text)
        self.assertIn("11!111", text)
        at_once = "".join(f"{activity} 0\n" for activity in range(15))
        wanted = "2 (excavate) must start no sooner than 1 (survey and set out) ends, and starts 2 before it does"
        self.assertIn(wanted, self.drawn(EXAMPLES / "building-site.sch", at_once))

    def test_odd_starts(self) -> None:
        for starts in ("0 0\n1 0\n2 9999999999\n3 9999999999\n", "0 -50\n1 -9999999999\n2 4\n3 0\n",
                       "0 0\n1 0\n2 0\n3 0\n"):
            with self.subTest(starts):
                self.assertIn("not feasible", self.drawn(INPUTS / "two-jobs.sch", starts))
        self.assertIn("feasible 0", self.drawn(INPUTS / "empty-project.sch", "0 0\n1 0\n"))

    def test_answers_without_starts(self) -> None:
        """Each answer of psmax that has none (docs/FORMAT.md, docs/RECORD.md) is told; what is no answer is a fault."""
        none = '{"bound":null,"makespan":null,"starts":null,"status":"no schedule"}\n'
        unknown = '{"bound":7,"makespan":null,"starts":null,"status":"unknown"}\n'
        for answer in ("no schedule\n", "unknown bound 7\n", "positive cycle 2\n", none, unknown):
            with self.subTest(answer):
                text = self.drawn(INPUTS / "two-jobs.sch", answer)
                self.assertTrue(text.startswith("The answer is ") and len(text.splitlines()) == 1, text)
                self.refused(plan("write", INPUTS / "two-jobs.sch", given=answer.encode()), 2, text.strip())
        for other in ("", " \n\n", "psmax: too long\n", "start 1\nlag 0 1 0\n", "lag 2 3 4\n", "overload 2 0 2\n",
                      "feasible 7\n", "optimal 7\n", "feasible 9 bound 7\n", "proved optimal 7\n",
                      "proved no schedule\n",
                      "record 1\noptimal 7\nstarts 0 0 3 7\ncut\n", TWO_JOBS, "\0\1\2\n", "\ufffd\ufffd"):
            with self.subTest(other):
                self.refused(plan("gantt", INPUTS / "two-jobs.sch", given=other.encode()), 2, "standard input: ")

    def test_answers_of_psmax(self) -> None:
        """By hand, as above; plain and in JSON, of a whole search, of one that was stopped, and of `earliest`."""
        path = INPUTS / "three-jobs-lags.sch"
        text = path.read_bytes()
        for words, title in ((["solve"], "feasible 5   (the answer says: optimal 5)"),
                             (["solve", "--nodes", "2"], "feasible 6   (the answer says: feasible 6 bound 5)"),
                             (["earliest"], "not feasible   (the answer says: earliest")):
            with self.subTest(words):
                plain = self.drawn(path, psmax(*words, given=text))
                self.assertTrue(plain.startswith(f"check: {title}"), plain)
                if words[0] == "solve":
                    self.assertEqual(self.drawn(path, psmax(*words, "--json", given=text)), plain)

    def test_signs_that_can_not_be_printed(self) -> None:
        answer = "optimal \x1b[2J\x00" + "7" * 200 + "\n0 0\n1 4\n2 0\n3 7\n"
        title = self.drawn(INPUTS / "two-jobs.sch", answer).splitlines()[0]
        self.assertTrue(title.isprintable() and len(title) < 120, title)
        self.drawn(INPUTS / "two-jobs.sch", answer, "--svg", str(self.folder / "c.svg"))
        ElementTree.parse(self.folder / "c.svg")

    def test_svg(self) -> None:
        self.file("p.sch", TWO_JOBS)
        heads = "| | Activity | Days | Crane & <crew> |\n|---|---|---|---|\n"
        self.file("p.md", f'{heads}| 1, 2 | a < b & "c" | 3 | 1 |\n')
        self.drawn(self.folder / "p.sch", "0 0\n1 0\n2 2\n3 6\n", "--svg", str(self.folder / "c.svg"))
        picture = ElementTree.parse(self.folder / "c.svg").getroot()
        boxes = [node.get("class") for node in picture.iter("{http://www.w3.org/2000/svg}rect")]
        self.assertEqual((boxes.count("bar"), boxes.count("over")), (2, 1))
        self.assertIn('1 a < b & "c"', [node.text for node in picture.iter("{http://www.w3.org/2000/svg}text")])

    def test_faults(self) -> None:
        odd = '{"bound":7,"makespan":7,"starts":%s,"status":"optimal"}'
        for given, text in (("hello\n", "line 1: not an activity and a start"), ('{"bound":7}\n', "line 1"),
                            ("{" * 100_000, "line 1"), (odd % "[0,4,0]", "starts of 3 activities, and"),
                            (odd % "[0,4,0,7,7]", "starts of 5 activities"), (odd % "[0,4,0,true]", "line 1"),
                            (odd % '"0 4"', "line 1"), (odd % ("[" + "9" * 5000 + "]"), "line 1"),
                            (odd.replace("optimal", "best") % "[0,4,0,7]", "line 1"), ("[1]", "line 1"),
                            ("0 0\n0 0\n", "line 2: repeated"), ("0 0\n2 0\n3 7\n", "no start for activity 1"),
                            ("0 0\n1 0\n2 3\n3 7\n5 0\n", "activity 5 is no activity"),
                            ("0 0\n1 0\n2 3\n", "starts of 3 activities, and")):
            with self.subTest(given):
                self.refused(plan("gantt", INPUTS / "two-jobs.sch", given=given.encode()), 2, "standard input", text)


class Cells(unittest.TestCase):
    def test_use_in_ninths(self) -> None:
        """By hand: 1, 10, 20 and 21 of 20 units are a ninth, five ninths, the whole, and too much."""
        load = Load("", 20, (Stretch(0, 1, 1), Stretch(1, 2, 10), Stretch(3, 4, 20), Stretch(4, 5, 21)))
        self.assertEqual(load_cells(load, 0, 1, 6), "15.9!.")
        self.assertEqual(load_cells(load, 0, 2, 3), "59!")

    def test_round_step(self) -> None:
        for least, step in ((0.1, 1), (1, 1), (1.5, 2), (3, 5), (5.1, 10), (11, 20), (200, 200), (201, 500)):
            self.assertEqual(round_step(least), step)
