"""A folder of cubes: only one that has its mark is touched, nothing in it is a link, and what is damaged is seen."""
import functools
import hashlib
import json
import os
import pathlib
import shutil
import sys
import tempfile
import zlib
from typing import Any
from unittest import mock

from psmax.cubes import answer, folder
from psmax.cubes.tree import Driven, with_sum

from .helpers import InFolder, compiled, plan
from .test_cubes import FOUR, STAND_IN, InCubes, in_four

VICTIM = "my own words\n"


@functools.cache
def made() -> tempfile.TemporaryDirectory[str]:
    """A folder of four cubes, which are refuted."""
    kept = tempfile.TemporaryDirectory()
    folder = pathlib.Path(kept.name)
    (folder / "four.sch").write_text(FOUR)
    (folder / "psprove").write_text(f'#!/bin/sh\nexec {sys.executable} -ES {compiled(STAND_IN)} 0 "$@"\n')
    (folder / "psprove").chmod(0o755)
    with in_four():
        ran = plan("solve", folder / "four.sch", "--out", f"{folder}/cubes/", "--jobs", "1",
                   psprove=f"{folder}/psprove")
    assert ran.returncode == 0, ran.stderr
    return kept


class Solved(InCubes):
    """A copy of that folder."""

    def setUp(self) -> None:
        super().setUp()
        shutil.copytree(pathlib.Path(made().name) / "cubes", self.out)


class Foreign(Solved):
    """Folders that plan has not made, or in which somebody has put links."""

    def run_all(self, status: int, *texts: str) -> None:
        """Whatever is done with the folder is refused, and leaves all files as they are."""
        psprove, before = self.psprove(), self.texts()
        for words in (("solve", self.project, "--out", f"{self.out}/"), ("join", self.out), ("status", self.out)):
            with self.subTest(words=words[0], texts=texts):
                self.refused(plan(*words, psprove=psprove), status, *texts)
                self.assertEqual(self.texts(), before)

    def texts(self) -> dict[str, bytes]:
        return {f"{path}": path.read_bytes() for path in self.folder.rglob("*") if path.is_file()}

    def link(self, name: str, to: pathlib.Path) -> None:
        path = self.out / name
        if path.is_dir():
            path.rename(self.folder / f"was-{name}")
        path.unlink(missing_ok=True)
        path.symlink_to(to)

    def test_without_a_mark(self) -> None:
        """A folder with the same project and files of somebody's, also one of an older plan."""
        (self.out / "mark").unlink()
        for name in ("incoming/letter", "start", "tree", "token", "proved"):
            (self.out / name).write_text(VICTIM)
        self.run_all(2, "is no folder of cubes: it has no file mark")

    def test_other_marks(self) -> None:
        zeros = "0" * 64
        for text, told in (("", "is no mark of a folder of cubes"),
                           (f"psmax cubes 3 {zeros}\n", "of version 3, and this"),
                           (f"psmax cubes 2 {zeros}\n", "begun with")):
            (self.out / "mark").write_text(text)
            self.run_all(2, told)

    def test_links(self) -> None:
        """To folders and to files of somebody's."""
        there = self.folder / "there"
        there.mkdir()
        self.file("there/letter", VICTIM)
        for name in ("incoming", "cubes", "proved", "start", "tree", "token", "rows", "project.sch", "record",
                     "cubes/1.log"):
            self.link(name, there if name in ("incoming", "cubes") else there / "letter")
            self.run_all(2, f"{self.out / name} is a link; nothing in a folder of cubes is one")
            os.rename(self.out, self.folder / f"seen-{name.replace('/', '-')}")
            shutil.copytree(pathlib.Path(made().name) / "cubes", self.out)

    def test_a_second_name_of_the_rows(self) -> None:
        """They grow in place, so they would grow under both names."""
        os.link(self.out / "rows", self.folder / "copy")
        ran = plan("solve", self.project, "--out", f"{self.out}/", psprove=self.psprove())
        self.refused(ran, 2, "rows has a second name")

    def test_left_on_its_way(self) -> None:
        """What a driver left that was killed before its mark was there is no hindrance."""
        shutil.rmtree(self.out)
        self.out.mkdir()
        self.file("cubes/.plan-abc", "psmax")
        Driven(self.out, FOUR.encode()).close()
        self.assertEqual(sorted(path.name for path in self.out.iterdir()),
                         [".plan-abc", "cubes", "incoming", "mark", "project.sch", "rows"])


class Damaged(Solved):
    """A byte is changed in a file of a folder whose cubes are all refuted."""

    def again(self, name: str, place: int) -> str:
        path = self.out / "cubes" / name
        data = bytearray(path.read_bytes())
        data[place] ^= 1
        path.write_bytes(data)
        told = self.solved()
        self.assertIn(f"{path} is damaged; it is searched again", told)
        return told

    def test_one_cube_alone(self) -> None:
        """Of a log and of lemmas. The cubes that got its lemmas stand, since it is searched as it was."""
        first = str(next(row["number"] for row in self.rows("ended") if row["state"] == "refuted"))
        got = [path.name for path in self.out.glob("cubes/*.import") if path.read_text()]
        self.assertEqual(len(got), 3)
        for count, name in enumerate((f"{first}.log", f"{first}.lemmas", "2.log"), 1):
            with self.subTest(name):
                before = (self.out / "cubes" / f"{first}.lemmas").read_bytes()
                self.again(name, -3)
                self.assertEqual(len(self.rows("ended")), 5 + count)
                self.assertEqual((self.out / "cubes" / f"{first}.lemmas").read_bytes(), before)

    def test_what_it_got(self) -> None:
        """Then the cube is searched anew."""
        last = f"{self.rows('given')[-1]['number']}"
        self.again(f"{last}.import", 0)
        self.assertEqual(len(self.rows("ended")), 6)

    def test_rows(self) -> None:
        """A line that is damaged is named, and nothing is done. Without it and those below plan goes on."""
        rows = self.out / "rows"
        lines = rows.read_bytes().splitlines(True)
        for bad in (lines[4].replace(b'"cube"', b'"Cube"'), lines[4].replace(b"}", b" }"), b"{]\n", b"\xff\n", b"{}\n"):
            self.assertNotEqual(bad, lines[4])
            rows.write_bytes(b"".join([*lines[:4], bad, *lines[5:]]))
            for words in (("solve", self.project, "--out", f"{self.out}/"), ("join", self.out), ("status", self.out)):
                ran = plan(*words, psprove=self.psprove())
                self.refused(ran, 2, f"{rows}: line 5 is damaged; without it and the lines below")
        rows.write_bytes(b"".join(lines[:4]))
        self.solved()


class Answers(InFolder):
    """What a worker may answer."""

    def setUp(self) -> None:
        super().setUp()
        (self.folder / "incoming").mkdir()

    def row(self, **more: object) -> dict[str, Any]:
        data = {kind: zlib.compress(kind.encode()) for kind in ("log", "lemmas")}
        files = {kind: {"sha256": hashlib.sha256(kind.encode()).hexdigest(), "data": packed}
                 for kind, packed in data.items()}
        return {"cube": "refuted", "starts": None, "pieces": [], "conflicts": 1, "record_bytes": 1, "seconds": 0.5,
                "files": files} | more

    def test_right(self) -> None:
        """Files come with the answer, or lie in the folder by their digests."""
        found = answer.check_answer(self.row(), self.folder, 7, 5)
        self.assertEqual(found["files"]["log"], {"sha256": hashlib.sha256(b"log").hexdigest(), "data": b"log"})
        left = {kind: {"sha256": told["sha256"], "data": None} for kind, told in self.row()["files"].items()}
        for kind, told in left.items():
            self.file(f"incoming/7-{told['sha256']}.{kind}", kind)
        self.assertEqual(answer.check_answer(self.row(files=left), self.folder, 7, 5)["files"], left)
        pieces = [{"name": name, "arcs": [[1, 2, 3]]} for name in ("0", "10", "11")]
        self.assertEqual(answer.check_answer(self.row(cube="open", pieces=pieces), self.folder, 7, 5)["pieces"], pieces)

    def test_strange(self) -> None:
        victim = self.file("victim", VICTIM)
        sha256 = hashlib.sha256(VICTIM.encode()).hexdigest()
        odd: tuple[dict[str, Any], ...] = ({"starts": [0, 1]}, {"starts": "012345"}, {"starts": [0, 1, 2, 3, 4, 1e999]},
                                           {"conflicts": True}, {"conflicts": 10**20}, {"seconds": float("nan")},
                                           {"seconds": -1}, {"cube": "proved"}, {"files": {}})
        names: list[list[object]] = [["0"], ["0", "0"], ["0", "1", "1"], ["", ""], ["2", "1"], ["0", "../x"], [0, 1]]
        files = (f"{victim}", "../victim", None, {"sha256": f"{victim}", "data": None},
                 {"sha256": sha256, "data": None},
                 {"sha256": f"../victim{sha256[9:]}", "data": None}, {"sha256": sha256, "data": b"x"},
                 {"sha256": sha256, "data": zlib.compress(b"other")},
                 {"sha256": sha256, "data": zlib.compress(b"x")[:-3]})
        strange: list[object] = [None, [], 7, {}, self.row(pieces=[{}]), *(self.row(**told) for told in odd)]
        strange += [self.row(cube="open", pieces=[{"name": one, "arcs": []} for one in told]) for told in names]
        strange += [self.row(files=self.row()["files"] | {"log": told}) for told in files]
        for row in strange:
            with self.subTest(row), self.assertRaises(answer.Strange):
                answer.check_answer(row, self.folder, 7, 5)
        self.assertEqual(victim.read_text(), VICTIM)

    def test_a_file_that_is_too_long(self) -> None:
        with mock.patch("psmax.cubes.answer.MOST_BYTES", 2), self.assertRaisesRegex(answer.Strange, "too long"):
            answer.check_answer(self.row(), self.folder, 7, 5)

    def test_links(self) -> None:
        """A file that was left is no link."""
        told = self.row()["files"]["log"] | {"data": None}
        (self.folder / "incoming" / f"7-{told['sha256']}.log").symlink_to(self.file("there", "log"))
        with self.assertRaises(answer.Strange):
            answer.check_answer(self.row(files=self.row()["files"] | {"log": told}), self.folder, 7, 5)


class Sums(InFolder):
    def test_rows(self) -> None:
        """By hand: `crc32` of zlib over the row without its checksum, as eight digits."""
        row = json.dumps({"step": "lost", "number": 3})
        self.assertEqual(with_sum(row), '{"step": "lost", "number": 3, "sum": "' + f"{zlib.crc32(row.encode()):08x}"
                         + '"}')
        self.assertEqual(json.loads(with_sum(row))["number"], 3)

    def test_clean(self) -> None:
        """What comes in goes, and of what is on its way what is older than a day."""
        for kind in ("cubes", "incoming"):
            (self.folder / kind).mkdir()
        for name in ("incoming/x", "cubes/.plan-old", ".plan-new", "cubes/1.log"):
            os.utime(self.file(name, "x"), (0, 0) if name.endswith("old") or name == "cubes/1.log" else None)
        folder.clean(self.folder)
        self.assertEqual(sorted(path.name for path in self.folder.rglob("*") if path.is_file()), [".plan-new", "1.log"])
