"""A record that is checked in parts: what they say together, and what becomes of a part that fails."""
import json
import subprocess
import unittest
import zlib
from typing import IO, Any
from unittest import mock

from psmax.cubes import cube, part
from psmax.cubes.parts import claim_of
from psmax.cubes.machines import CHECK, Coming, Machines, Processes, Work

from .helpers import PROJECTS, PSMAX, PSPROVE, TOP, TWO_JOBS, InFolder, Ran, plan
from .test_cubes import OPTIMAL_9, InCubes

HAS_PARTS = b"--part " in subprocess.run([PSPROVE, "verify", "--help"], capture_output=True).stdout
LOTS = PROJECTS / "vaccine-lots.sch"


class InParts(InCubes):
    def setUp(self) -> None:
        super().setUp()
        self.record = self.file("four.log", "record 3\noptimal 9\n")

    def verify(self, script: str, *words: object) -> Ran:
        """With a stand-in of which a part runs this script first; $3 is K/N."""
        program = self.program("in-parts", f"cd {self.folder}\ncase $2 in --part) {script}\n;; esac\nexec "
                               f"{self.psprove()} $*")
        return plan("verify", self.project, self.record, *words, psprove=program)

    def test_all_are_right(self) -> None:
        ran = self.verify("echo $3 >> asked", "--jobs", "3")
        self.assertEqual(ran.returncode, 0, ran.stderr)
        self.assertEqual(ran.stdout.splitlines(), [
            f"{self.record} proves that no schedule of {self.project} is shorter than 9, and has one that long.",
            "`psprove verify`, which is proved itself, has judged it in 3 parts; verify_log.py judges it without "
            "psprove."])
        self.assertEqual(sorted((self.folder / "asked").read_text().split()), ["1/3", "2/3", "3/3"])

    def test_json(self) -> None:
        told = {"record": f"{self.record}", "project": f"{self.project}", "program": "psprove", "parts": 2,
                "own": [1, 2], "believed": {}, "says": "proved optimal 9", "bound": 9, "wrong": False}
        self.assertEqual(json.loads(self.verify(":", "--jobs", "2", "--json").stdout), told)
        self.assertEqual(json.loads(self.verify(":", "--json").stdout), told | {"parts": 1, "own": [1]})
        self.file("four.log", "record 3\noptimal 8\n")
        ran = self.verify(":", "--jobs", "2", "--json")
        self.assertEqual(json.loads(ran.stdout), told | {"says": "event 1: claim", "bound": None, "wrong": True})
        self.assertEqual(ran.returncode, 4)

    def test_the_first_fault(self) -> None:
        """That of the least event, though another part finds its own first. Not all is read then."""
        self.file("four.log", "record 3\n" + "x" * 3_000_000)
        fault = "echo psprove: event $event >&2; exit 4"
        ran = self.verify(f"case $3 in 1/3) event='7: lemma'; {fault};; 2/3) event='12: lemma'; {fault};; esac\n"
                          "cat > /dev/null; echo part $3 of proved optimal 9; exit 0", "--jobs", "3")
        self.assertEqual((ran.returncode, ran.stdout.partition(": ")[2]), (4, "its step 7 is wrong (lemma)\n"),
                         ran.stderr)

    def test_a_check_that_dies(self) -> None:
        """Once: the part is checked again. Each time: it is named."""
        ran = self.verify("mkdir died-${3%/*} 2> /dev/null && kill -9 $$", "--jobs", "2")
        self.assertEqual((ran.returncode, ran.stderr.count("psprove verify ended with status -9")), (0, 2), ran.stderr)
        ran = self.verify("case $3 in 2/2) kill -9 $$;; esac", "--jobs", "2")
        self.assertEqual((ran.returncode, ran.stdout), (1, ""))
        self.assertIn("plan: part 2/2 failed 3 times: psprove verify ended with status -9\n", ran.stderr)

    def test_machines_that_go(self) -> None:
        """All go when one part is right, and come back: the other part is not left out, and has a fault."""
        gone = self.folder / "gone"

        def threads(machines: Machines) -> int:
            if not gone.exists():
                return 2
            gone.unlink()
            return 0

        with mock.patch("psmax.cubes.machines.Processes.threads", threads):
            ran = self.verify("cat > /dev/null\ncase $3 in 1/2) touch gone; echo part $3 of proved optimal 9; exit 0;; "
                              "esac\nsleep 1; echo psprove: event 7: lemma >&2; exit 4", "--jobs", "2")
        self.assertEqual((ran.returncode, ran.stdout.partition(": ")[2]), (4, "its step 7 is wrong (lemma)\n"),
                         ran.stderr)
        self.assertIn("the cluster has no worker yet\n", ran.stderr)

    def test_odd_answers(self) -> None:
        odd = "psprove verify --part gave an answer that plan does not know: "
        for script, told in (
            ("echo part $3 of proved bound ${3%/*}; exit 0", "contradict each other: proved bound 1, proved bound 2"),
            ("echo part 1/2 of proved optimal 9; exit 0", f"{odd}part 1/2 of proved optimal 9"),
            ("echo part $3 of proved something; exit 0", f"{odd}part 1/2 of proved something"),
            ("echo proved optimal 9; exit 0", f"{odd}proved optimal 9"),
            ("echo psprove: what >&2; exit 4", f"{odd}what"),
        ):
            with self.subTest(script):
                self.refused(self.verify(f"cat > /dev/null; {script}", "--jobs", "2"), 1, told)

    def test_a_machine_that_has_no_such_file(self) -> None:
        """It gets the record with the task."""
        real = part.open_record

        def unseen(task: cube.Row) -> IO[bytes]:
            return real(task if "record" in task else {"path": "/no/file"})

        with mock.patch.object(part, "open_record", unseen):
            self.assertEqual(self.verify(":", "--jobs", "2").returncode, 0)

    def test_a_record_that_changes(self) -> None:
        with mock.patch("psmax.cubes.parts.sha256_of", return_value="0" * 64):
            self.refused(self.verify(":", "--jobs", "2"), 1, f"plan: {self.record} was changed while it was checked\n")

    def test_nobody_waits(self) -> None:
        task = {"path": f"{self.record}", "project": zlib.compress(b""), "number": 1, "count": 2,
                "program": self.psprove()}
        with self.assertRaisesRegex(RuntimeError, "nobody waits"):
            part.check_part(task, lambda: None, cube.GLANCE)

    def test_words(self) -> None:
        """A folder of cubes has a record, and alone its project too. A record of psmax has no parts."""
        self.refused(plan("verify", self.project), 2, f"{self.project} is no folder of cubes; name a record behind the "
                     "project")
        self.refused(plan("verify", self.project, self.folder / "none", "--jobs", "2"), 1, "cannot read ")
        self.solved()
        for words in ([self.out], [self.project, self.out]):
            ran = plan("verify", *words, "--jobs", "2", psprove=self.psprove())
            self.assertIn("is shorter than 9, and has one that long.\n", ran.stdout)
        two = self.file("two.sch", TWO_JOBS)
        subprocess.run([PSMAX, "solve", "--record", self.folder / "two.record"], input=two.read_bytes(), check=True,
                       stdout=subprocess.DEVNULL)
        self.assertIn("`psmax verify`", plan("verify", two, self.folder / "two.record", "--jobs", "2").stdout)


class Others(Processes):
    """Processes of this machine that stand in for workers of a cluster."""

    def whose(self, coming: Coming) -> str:
        return "tcp://10.0.0.7:1"


class Believed(InCubes):
    """What workers of a cluster say."""

    def verify(self, liar: str, record: bytes = OPTIMAL_9, own: int = 1, count: int = 4) -> Ran:
        """In four parts, the given number of which is drawn. The workers run the script, and here is a stand-in."""
        program = self.program("liar", f"case $2 in --part) {liar}\n;; esac\nexec {self.psprove()} $*")
        with (mock.patch("psmax.planner.verify.Cluster", lambda address, work: Others(count, program, work)),
              mock.patch("psmax.cubes.parts.OWN", own)):
            return plan("verify", self.project, self.file("four.log", record), "--cluster", "tcp://x",
                        psprove=self.psprove())

    def test_who_is_believed(self) -> None:
        ran = self.verify(":", own=2)
        self.assertEqual(ran.returncode, 0, ran.stderr)
        self.assertIn("has judged 2 parts, drawn at random of 4, on this machine. The others are believed of the "
                      "workers that judged them: tcp://10.0.0.7:1 (2).", ran.stdout)
        ran = self.verify(":", own=4)
        self.assertIn("has judged it in 4 parts; verify_log.py", ran.stdout)

    def test_liars(self) -> None:
        """Their claim is not that of the record, or they say otherwise than psprove here."""
        proves = "cat > /dev/null; echo part $3 of proved {}; exit 0"
        bad = b"not a log at all", b"", b"record 3\n", OPTIMAL_9[:-1], OPTIMAL_9 + b"x", OPTIMAL_9.replace(b"3", b"4")
        for record in bad:
            ran = self.verify(proves.format("optimal 1"), record)
            self.assertEqual((ran.returncode, "proves nothing of" in ran.stdout), (4, True), ran.stderr)
        self.refused(self.verify(proves.format("optimal 1")), 1, "tcp://10.0.0.7:1 says `part ",
                     "psprove here says `part ")
        ran = self.verify(proves.format("optimal 1"), own=0)
        self.refused(ran, 1, "contradict each other: proved optimal 1, proved optimal 9")
        wrong = OPTIMAL_9.replace(b"\x12", b"\x10")
        self.refused(self.verify(proves.format("optimal 8"), wrong), 1, "says `part ", "here says `event 1: claim`")

    def test_a_fault_that_is_none(self) -> None:
        """A fault is looked at here before it is told."""
        ran = self.verify("case $3 in 3/4) cat > /dev/null; echo psprove: event 1: lemma >&2; exit 4;; esac", own=0)
        self.refused(ran, 1, "part 3/4: tcp://10.0.0.7:1 says `event 1: lemma`, and psprove here says `part 3/4 of "
                     "proved ")

    def test_a_fault(self) -> None:
        ran = self.verify(":", OPTIMAL_9.replace(b"\x12", b"\x10"), own=0)
        self.assertEqual((ran.returncode, ran.stdout.partition(": ")[2]), (4, "its step 1 is wrong (claim)\n"),
                         ran.stderr)

    def test_odd_answers(self) -> None:
        """Of no known form, or always of other bytes: named, and not for ever."""
        rows: tuple[tuple[Any, str], ...] = (
            ({"is_same": True}, "an answer of no known form, by tcp://10.0.0.7:1"), ("x", "an answer of no known form"),
            ({"is_same": False}, "tcp://10.0.0.7:1 was given other bytes than it was sent"))
        for row, told in rows:
            with mock.patch("psmax.planner.verify.CHECK", Work(lambda *_: row, CHECK.on_dask)):
                ran = self.verify(":", own=0, count=1)
            self.assertEqual(ran.returncode, 1)
            self.assertIn(f"plan: part 1/1 failed 3 times: {told}", ran.stderr)


class Claims(InFolder):
    def test_by_hand(self) -> None:
        """By the page on logs: 2 N for what is not negative, and -2 N - 1; a number may have more bytes than it
        needs."""
        title = b"record 3\n"
        for event, claim in ((b"\x02\x03\x12", "optimal 9"), (b"\x03\x03\x92\x00", "optimal 9"),
                             (b"\x82\x00\x07\x12", "bound 9"), (b"\x02\x07\x05", "bound -3"),
                             (b"\x01\x0b", "no schedule"), (b"\x03\x03\xac\x02", "optimal 150"),
                             (b"\x02\x0b\x00", None), (b"\x01\x03", None), (b"\x03\x03\x12\x00", None), (b"\x00", None),
                             (b"\x02\x05\x12", None), (b"\x01\x80", None), (b"\x80", None), (b"\x80" * 20, None)):
            with self.subTest(event):
                self.assertEqual(claim_of(str(self.file("log", title + event))), claim)
        long = b"\xc8\x01" + b"\x80" * 200  # an event of 200 bytes, whatever they are
        self.assertEqual(claim_of(str(self.file("log", title + long + b"\x02\x03\x12"))), "optimal 9")
        self.assertIsNone(claim_of(str(self.file("log", title + long))))
        self.assertIsNone(claim_of(str(self.file("log", title + long[:-1]))))

    def test_of_psprove(self) -> None:
        """The log of the page's example."""
        self.assertEqual(claim_of(str(TOP / "tests" / "logs" / "worked.log")), "optimal 8")


@unittest.skipUnless(HAS_PARTS, "this psprove checks no parts")
class ByPsprove(InCubes):
    def test_whole_and_cut(self) -> None:
        """In parts as in one piece: a record that is right, cut off, or of another project."""
        record = self.folder / "lots.log"
        with open(LOTS, "rb") as text:
            subprocess.run([PSPROVE, "solve", "--record", record], stdin=text, check=True, stdout=subprocess.DEVNULL)
        data = record.read_bytes()
        for project, bytes_of_it in ((LOTS, data), (LOTS, data[: len(data) // 2]), (self.project, data)):
            record.write_bytes(bytes_of_it)
            whole, parts = (plan("verify", project, record, "--jobs", jobs) for jobs in (1, 3))
            self.assertEqual((whole.returncode, whole.stdout.splitlines()[0]),
                             (parts.returncode, parts.stdout.splitlines()[0]))
