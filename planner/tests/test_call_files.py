"""No written file of a call is one that it reads, and no two written ones are the same, for each name of each
command."""
import argparse
import os
import shutil
import subprocess
import sys

from psmax.call_files import lies_in, lose_none
from psmax.errors import BadInput
from psmax.planner.options import COMMANDS, parser_of

from .helpers import CALLED, PLAN, TOP, InFolder, plan
from .test_cube_folder import Solved

FILES = {"FILE", "FOLDER", "PROJECT", "TABLE", "ANSWER", "RECORD", "PAGE", "OLD", "NEW"}  # for what files stand
TABLE = "holidays,free.txt\nabsences,away.csv\n\nactivity,days,crane (1)\na,3,1\nb,4,1\n"
COMMON = "w.sch", "--names", "w.md", "--from", "2026-03-02", "--holidays", "free.txt"  # with all that it may name
READ = ["w.sch", "w.md", "w.csv", "free.txt", "away.csv"]  # by the same
START = "--start", "s.st"

# Each command with what it reads, and the options behind which it writes.
CALLS: list[tuple[tuple[str, ...], list[str], list[str]]] = [
    (("solve", *COMMON, *START), [*READ, "s.st"], ["--out", "--svg", "--record"]),
    (("solve", "w.csv", *START), ["w.csv", "free.txt", "away.csv", "s.st"], ["--out", "--svg", "--record"]),
    (("write", *COMMON, "w.st"), [*READ, "w.st"], ["--out"]),
    (("gantt", *COMMON, "w.st", "--baseline", "s.st"), [*READ, "w.st", "s.st"], ["--svg"]),
    (("float", *COMMON, "w.st"), [*READ, "w.st"], ["--out", "--svg"]),
    (("float", *COMMON, "w.st", "--total", *START), [*READ, "w.st", "s.st"], ["--svg"]),
    (("report", *COMMON, "w.st", "--record", "w.rec", "--baseline", "s.st"), [*READ, "w.st", "w.rec", "s.st"],
     ["--out"]),
    (("report", "w.json", "w.st", *START), ["w.json", "w.st", "s.st"], ["--out"]),
    (("whatif", *COMMON), READ, ["--out"]),
    (("watch", "w.csv", *START), ["w.csv", "s.st"], ["--record"]),
    (("watch", "w.csv", "--holidays", "free.txt", "--absences", "away.csv"), ["w.csv", "free.txt", "away.csv"],
     ["--record"]),
    (("read", "w.csv"), ["w.csv", "free.txt", "away.csv"], ["--out"]),
    (("read", "w.sch"), ["w.sch"], ["--out"]),
    (("read", "w.json"), ["w.json"], ["--out"]),
    (("batch", ".", "--known", "known.csv"), ["w.sch", "w.json", "known.csv"], ["--csv"]),
    (("batch", "--join", "one.csv", "two.csv"), ["one.csv", "two.csv"], ["--csv"]),
]
# Where a folder is written, or nothing: what that folder has to be, says another test.
OTHERS = {("float", "--out"), ("why", "--out"), ("compare", "--out"), ("batch", "--out"), ("batch", "--record"),
          ("join", "--record"), ("solve", "--out")}


def named(action: argparse.Action) -> bool:
    return isinstance(action.metavar, str) and action.metavar in FILES


class Names(InFolder):
    def setUp(self) -> None:
        super().setUp()
        self.file("free.txt", "2026-12-25\n")
        self.file("away.csv", "resource,from,to\ncrane,2026-12-01,2026-12-02\n")
        self.file("w.csv", TABLE.replace("holidays", "from,2026-03-02\nholidays"))
        self.assertEqual(plan("read", self.folder / "w.csv").returncode, 0)
        for name in ("w.st", "s.st"):
            self.file(name, "0 0\n1 0\n2 3\n3 7\n")
        self.file("w.rec", "record 3\n")
        self.file("w.json", (TOP / "examples" / "formats" / "bridge.json").read_bytes())
        self.file("known.csv", "project,lower,upper\n")
        for name in ("one", "two"):
            heads = "project,activities,status,makespan,bound,seconds,conflicts,limit,plan,psprove,fault\n"
            self.file(f"{name}.csv", heads)

    def texts(self) -> dict[str, bytes]:
        return {path.name: path.read_bytes() for path in self.folder.iterdir()}

    def at(self, words: tuple[str, ...]) -> list[str]:
        """The words, with the files where they are."""
        return [str(self.folder / word) if word == "." or (self.folder / word).is_file() else word for word in words]

    def test_what_is_read(self) -> None:
        """By a second name, and the first of each call by its own name and a link, too. All that is there stays as it
        is."""
        for words, reads, options in CALLS:
            for name in reads:
                (self.folder / "soft").unlink(missing_ok=True)
                (self.folder / "hard").unlink(missing_ok=True)
                (self.folder / "soft").symlink_to(self.folder / name)
                os.link(self.folder / name, self.folder / "hard")
                before = self.texts()
                for option in options:
                    for out in (name, "soft", "hard") if name == reads[0] else ("hard",):
                        ran = plan(*self.at(words), option, self.folder / out)
                        with self.subTest(words=words, option=option, out=out, name=name):
                            self.assertEqual((ran.returncode, self.texts()), (2, before), ran.stderr)
                            self.assertRegex(ran.stderr, "which would be lost|and would be lost")

    def test_each_name_is_tried(self) -> None:
        """No command has an option that names a file which is written, and isn't tried here."""
        tried = {(words[0], option) for words, _, options in CALLS for option in options} | OTHERS
        named_by = {(name, option) for name, *_ in COMMANDS for action in parser_of(name)._actions if named(action)
                    for option in action.option_strings[-1:]}
        read = {"--names", "--holidays", "--absences", "--start", "--baseline", "--known", "--join"}
        self.assertEqual({one for one in named_by if one[1] not in read} - {("report", "--record")}, tried)

    def test_two_outputs(self) -> None:
        """By one name, or by names that lead to one file which may not be there."""
        (self.folder / "soft").symlink_to(self.folder / "both")
        for other in ("both", "soft", f"../{self.folder.name}/both"):
            for one, two in (("--out", "--svg"), ("--out", "--record"), ("--svg", "--record")):
                ran = plan("solve", self.folder / "w.sch", one, self.folder / "both", two, self.folder / other)
                self.refused(ran, 2, "can't hold two outputs at once")
        words = self.folder / "w.sch", self.folder / "w.st"
        ran = plan("float", *words, "--out", self.folder / "both", "--svg", self.folder / "soft")
        self.refused(ran, 2, "can't hold two outputs at once")
        (self.folder / "out").mkdir()
        ran = plan("batch", self.folder, "--csv", self.folder / "out" / "w.sch.starts", "--out", self.folder / "out")
        self.refused(ran, 2, "can't hold two outputs at once")

    def test_standard_input(self) -> None:
        """What the shell hands in is a file, too."""
        for words in (["solve", "-", "--out"], ["write", "w.sch", "-", "--out"], ["gantt", "w.sch", "--svg"]):
            given = self.folder / ("w.csv" if words[0] == "solve" else "w.st")
            before = self.texts()
            with open(given, "rb") as source:
                ran = subprocess.run([sys.executable, str(PLAN), *words, str(given)], stdin=source, cwd=self.folder,
                                     capture_output=True, env={**os.environ, **CALLED})
            self.assertEqual((ran.returncode, self.texts()), (2, before), ran.stderr)
            self.assertIn(b"would be lost", ran.stderr)

    def test_folders(self) -> None:
        """Those of proofs are new, and take nothing else."""
        words = self.folder / "w.sch", self.folder / "w.st"
        late = self.file("late", "0 0\n1 0\n2 4\n3 8\n")
        for call in (("float", *words, "--total"), ("why", words[0]), ("compare", words[0], words[1], late, "--why")):
            for out in ("w.sch", "."):
                before = self.texts()
                ran = plan(*call, "--out", self.folder / out)
                self.assertEqual((ran.returncode, self.texts()), (2, before), ran.stderr)
        (self.folder / "proof").mkdir()
        ran = plan("float", *words, "--total", "--out", self.folder / "proof", "--svg", self.folder / "proof" / "1.sch")
        self.refused(ran, 2, "1.sch lies in", "whose files plan names itself")

    def test_below(self) -> None:
        """Whether a file lies in a folder, by links too, also where it is not there yet."""
        (self.folder / "a" / "b").mkdir(parents=True)
        (self.folder / "link").symlink_to(self.folder / "a" / "b")
        for name, is_below in (("a/x", True), ("a/b/x", True), ("link/x", True), ("x", False), ("a", False),
                               ("a/../x", False)):
            self.assertEqual(lies_in(f"{self.folder / name}", f"{self.folder}/a"), is_below, name)
        with self.assertRaisesRegex(BadInput, "lies in"):
            lose_none({}, [f"{self.folder}/link/x"], f"{self.folder}/a")


class Cubes(Solved):
    """Files of a folder of cubes, and those beside it."""

    def texts(self) -> dict[str, bytes]:
        return {f"{path}": path.read_bytes() for path in self.folder.rglob("*") if path.is_file()}

    def test_files_of_the_folder(self) -> None:
        """None is a record or a picture, by links too, but for its own record."""
        os.link(self.out / "cubes" / "1.log", self.folder / "hard")
        (self.folder / "soft").symlink_to(self.out / "cubes" / "1.log")
        psprove = self.psprove()
        before = self.texts()
        own = "rows", "tree", "mark", "cubes/1.log", "cubes/99.log", "new"
        for name in ("hard", "soft", *(f"cubes/{name}" for name in own)):
            for words in (("join", self.out, "--record"), ("solve", self.project, "--out", f"{self.out}/", "--record"),
                          ("solve", self.project, "--out", f"{self.out}/", "--svg")):
                if name == "hard" and words[0] == "solve":
                    continue  # the log keeps its own name
                ran = plan(*words, self.folder / name, psprove=psprove)
                with self.subTest(name=name, words=words[-1]):
                    self.assertEqual((ran.returncode, self.texts()), (2, before), ran.stderr)
        for name in ("cubes/record", "new"):
            self.assertEqual(plan("join", self.out, "--record", self.folder / name, psprove=psprove).returncode, 0)

    def test_what_is_read_from_there(self) -> None:
        """The project of the folder may be searched again. A start of it would be replaced."""
        psprove, project = self.psprove(), self.out / "project.sch"
        self.assertEqual(plan("solve", project, "--out", f"{self.out}/", psprove=psprove).returncode, 0)
        shutil.copy(self.out / "start", self.folder / "mine")
        self.refused(plan("solve", project, "--start", self.out / "start", "--out", f"{self.out}/", psprove=psprove), 2,
                     "start is the start, and would be lost, since it lies in")
        ran = plan("solve", project, "--start", self.folder / "mine", "--out", f"{self.out}/", psprove=psprove)
        self.assertEqual(ran.returncode, 0, ran.stderr)

    def test_a_record_that_was_cut_off(self) -> None:
        """A join that is killed leaves nothing that hinders the next one, and the record is the old one until it is
        whole."""
        before = (self.out / "record").read_bytes()
        dies = "case $1 in join) for f; do :; done; echo x > $f.part; kill -9 $$;; esac"
        bad = self.program("bad", f'{dies}\nexec {self.psprove()} "$@"')
        ran = plan("join", self.out, psprove=bad)
        self.refused(ran, 1, "psprove join was ended by signal 9")
        self.assertEqual((self.out / "record").read_bytes(), before)
        self.assertEqual([path for path in self.out.iterdir() if path.name.startswith(".plan-")], [])
        self.assertEqual(plan("join", self.out, psprove=self.psprove()).returncode, 0)
