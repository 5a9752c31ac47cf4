"""How files are written: whole, with the mode of the one before, and kept by the disk before the command ends."""
import os
import stat
from unittest import mock

from psmax import files
from psmax.errors import Failed

from .helpers import INPUTS, InFolder, plan


class Written(InFolder):
    def mode(self, name: str) -> str:
        return f"{stat.S_IMODE((self.folder / name).stat().st_mode):04o}"

    def test_modes(self) -> None:
        """A file that is replaced keeps its mode, also behind a link; a new one gets that of the umask."""
        before = os.umask(0o027)
        self.addCleanup(os.umask, before)
        modes = ("secret", 0o600, "0600"), ("open", 0o666, "0666"), ("run", 0o755, "0755"), ("new", None, "0640")
        for name, was, mode in modes:
            with self.subTest(name):
                if was is not None:
                    self.file(name, "before").chmod(was)
                (self.folder / f"link-{name}").symlink_to(self.folder / name)
                files.write_whole(f"{self.folder}/link-{name}", b"after")
                self.assertEqual((self.mode(name), (self.folder / name).read_text()), (mode, "after"))
                self.assertTrue((self.folder / f"link-{name}").is_symlink())

    def test_a_group_that_it_cannot_have(self) -> None:
        """Then the group may do what everybody may, and no more."""
        path = self.file("shared", "before")
        path.chmod(0o664)
        told = os.stat_result((*path.stat()[:5], path.stat().st_gid + 1, *path.stat()[6:]))
        with mock.patch("psmax.files.os.stat", return_value=told), mock.patch("os.fchown", side_effect=PermissionError):
            with open(self.folder / "new", "wb") as file:
                files.hand_on_mode(path, file.fileno())
        self.assertEqual(self.mode("new"), "0644")

    def test_a_full_disk(self) -> None:
        """What was there stays, and nothing lies beside it."""
        path = self.file("there", "before")
        with mock.patch("os.fsync", side_effect=OSError(28, "No space left on device")):
            with self.assertRaisesRegex(Failed, "cannot write .*: no space left on device"):
                files.write_whole(str(path), b"after")
        self.assertEqual([(path.name, path.read_text()) for path in self.folder.iterdir()], [("there", "before")])

    def test_an_answer_on_a_full_disk(self) -> None:
        """It is printed, and the plan before stays."""
        out = self.file("best", "0 0\n1 0\n2 5\n3 9\n")
        with mock.patch("psmax.files.os.fsync", side_effect=OSError(28, "No space left on device")):
            ran = plan("solve", INPUTS / "two-jobs.sch", "--out", out)
        found = ran.returncode, ran.stdout.splitlines()[0], out.read_text()
        self.assertEqual(found, (1, "optimal 7", "0 0\n1 0\n2 5\n3 9\n"))
        self.assertIn("no space left on device", ran.stderr.splitlines()[-1])
        self.assertEqual([path.name for path in self.folder.iterdir()], ["best"])
