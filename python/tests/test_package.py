"""The package as it is installed: by make, by pip and by dpkg, with the programs inside."""
import importlib.util
import os
import pathlib
import re
import shutil
import subprocess
import sys
import tomllib
import unittest
import venv
import zipfile

from planner.tests.helpers import CALLED, EXAMPLES, PSMAX, TOP, InFolder, psmax
from psmax import __version__

SITE = """import psmax
site = psmax.Project()
crew, crane = site.resource("crew", 4), site.resource("crane", 1)
dig = site.activity("dig", 3, {crew: 3})
lift = site.activity("lift", 2, {crew: 2, crane: 1})
site.lag(dig.end, lift.start, at_least=1, at_most=4)
answer = site.solve(seconds=10, jobs=4, on_progress=print)
print(answer.status, answer.makespan, answer.bound, answer[lift].start, answer.record.verify())
"""

# What the root of a Debian system says of the packages that psmax needs.
INSTALLED = """Package: {name}
Status: install ok installed
Maintainer: nobody
Architecture: amd64
Version: {version}
Description: stands in

"""


class Installed(InFolder):
    def run_there(self, *words: object) -> subprocess.CompletedProcess[str]:
        given = {name: value for name, value in os.environ.items() if name not in (*CALLED, "PYTHONPATH")}
        given["PATH"] = f"{pathlib.Path(sys.executable).parent}:{given['PATH']}"
        return subprocess.run([*map(str, words)], capture_output=True, text=True, env=given, cwd=self.folder)

    def made(self, *words: str) -> None:
        ran = subprocess.run(["make", "-s", *words], cwd=TOP, capture_output=True, text=True)
        self.assertEqual(ran.returncode, 0, ran.stderr)

    def test_make_install(self) -> None:
        """The programs, plan, manual pages, documents and checkers, which show no traceback; and all of it gone
        again."""
        at_hand = [f"AT_HAND={pathlib.Path(PSMAX).parent}"] if "PSMAX" in os.environ else []
        self.made("install", f"PREFIX={self.folder}", *at_hand)
        share, site = self.folder / "share", EXAMPLES / "building-site.sch"
        pages = ("man/man1/plan.1", "man/man1/psmax.1", "man/man1/psprove.1")
        for name in (*pages, "doc/psmax/README.md", "doc/psmax/docs/PLANNER.md"):
            self.assertTrue((share / name).is_file(), name)
        self.no_dead_links(share / "doc" / "psmax")
        record = self.folder / "record"
        answer = psmax("solve", "--record", record, given=site.read_bytes())
        self.assertEqual(self.run_there("bin/plan", "check", site, self.file("best", answer)).stdout, "feasible 36\n")
        solved = self.run_there("bin/plan", "solve", site, "--out", "own", "--record", "log")
        self.assertEqual(solved.stdout, "optimal 36\n")
        for words, told in (("verify_log.py", site), "proved optimal 36\n"), (("show_log.py",), "claim optimal 36\n"):
            ran = self.run_there("sh", "-c", 'python3 share/psmax/"$@" < log', "sh", *words)
            self.assertTrue(ran.stdout.endswith(told), ran.stderr)
        self.assertEqual(self.run_there("bin/plan", "report", site, "own", "--out", "page.html").returncode, 0)
        verify = [sys.executable, share / "psmax" / "verify.py"]
        self.assertEqual(self.run_there(*verify, site, record).stdout, "proved optimal 36\n")
        for given in ((), ("gone", record), (site, "gone"), (record, record), (site, site)):
            ran = self.run_there(*verify, *given)
            self.assertIn(ran.returncode, (1, 2))
            self.assertEqual((ran.stdout, len(ran.stderr.splitlines())), ("", 1), ran.stderr)
        before = {path.name for path in self.folder.iterdir()}
        self.made("uninstall", f"PREFIX={self.folder}")
        self.assertEqual({path.name for path in self.folder.iterdir()}, before - {"bin", "share"})

    def test_odd_places(self) -> None:
        """Names with blanks and signs, a umask that lets nobody in, and a root. All may read what is installed. Nothing
        is written elsewhere, and nothing of it is left."""
        before, sources = os.umask(0o077), sorted(path.name for path in TOP.iterdir())
        self.addCleanup(os.umask, before)
        for root, prefix in (("", f"{self.folder}/a pre 'fix$HOME;x"), (f"{self.folder}/the \"root\"", "/usr/lo cal")):
            with self.subTest(root=root, prefix=prefix):
                there = pathlib.Path(root + prefix)
                words = f"DESTDIR={root.replace('$', '$$')}", f"PREFIX={prefix.replace('$', '$$')}", "AT_HAND=release"
                self.made("install", *words)
                self.assertEqual(self.run_there(there / "bin" / "plan", "--version").returncode, 0)
                modes = {path.name: path.stat().st_mode & 0o777 for path in [there, *there.rglob("*")]}
                programs = "bin", "share", "psmax", "psprove", "plan", "verify_log.py"
                self.assertEqual({modes[name] for name in programs}, {0o755})
                self.assertEqual({modes[name] for name in ("README.md", "plan.1", "table.py")}, {0o644})
                self.file("mine", "x").rename(there / "share" / "mine")
                self.made("install", *words)
                self.made("uninstall", *words)
                self.assertEqual([path.name for path in there.rglob("*")], ["share", "mine"])
                (there / "share" / "mine").unlink()
                (there / "share").rmdir()
        self.assertEqual(sorted(path.name for path in TOP.iterdir()), sources)

    def test_folders_that_were_there(self) -> None:
        """They stay, also where they are empty."""
        (self.folder / "usr" / "bin").mkdir(parents=True)
        self.made("install", f"DESTDIR={self.folder}", "PREFIX=/usr", "AT_HAND=release")
        self.made("uninstall", f"DESTDIR={self.folder}", "PREFIX=/usr")
        self.assertEqual([path.name for path in self.folder.rglob("*")], ["usr", "bin"])

    def no_dead_links(self, documents: pathlib.Path) -> None:
        """Each relative link of an installed document leads to an installed file; those of the manual pages too."""
        pages = sorted(documents.rglob("*.md"))
        self.assertGreater(len(pages), 10)
        for page in pages:
            for text, target in re.findall(r"\[((?:[^\[\]]|\[[^\]]*\])*)\]\(([^)\s]+)\)", page.read_text()):
                name = target.partition("#")[0]
                if name and not re.match(r"\w+:", name):
                    self.assertTrue((page.parent / name).exists(), f"{page}: [{text}]({target})")
        for page in (documents.parents[1] / "man" / "man1").iterdir():
            for name in re.findall(r"docs/[A-Z-]+\.md", page.read_text()):
                self.assertTrue((documents / name).is_file(), f"{page}: {name}")

    def test_tag(self) -> None:
        """The wheel asks for the glibc that its programs need."""
        needed = {int(found) for name in ("psmax", "psprove")
                  for found in re.findall(rb"GLIBC_2\.(\d+)", (TOP / "release" / name).read_bytes())}
        self.assertIn(f"manylinux_2_{max(needed)}_x86_64", (TOP / "python" / "packing.py").read_text())

    def test_package(self) -> None:
        """Name, Python 3.11, no dependency at run time or while it is built, and the commands."""
        with open(TOP / "pyproject.toml", "rb") as file:
            told = tomllib.load(file)
        project = told["project"]
        self.assertEqual((project["name"], project["requires-python"], project["dependencies"], [*project["scripts"]]),
                         ("psmax", ">=3.11", [], ["plan"]))
        self.assertEqual(told["build-system"]["requires"], [])
        self.assertEqual(project["optional-dependencies"], {"holidays": ["holidays"], "xlsx": ["openpyxl"]})
        ran = subprocess.run([sys.executable, "-m", "psmax.planner", "--version"], cwd=TOP / "python", text=True,
                             capture_output=True, env={**os.environ, **CALLED})
        self.assertIn(f"plan {__version__}", ran.stdout)

    @unittest.skipUnless(importlib.util.find_spec("ensurepip"), "no pip here for a new environment")
    def test_pip_install(self) -> None:
        """In a bare virtual environment, without network, from a copy that stays as it was."""
        source, there = self.folder / "source", self.folder / "there"
        shutil.copytree(TOP / "python", source / "python", ignore=shutil.ignore_patterns("__pycache__"))
        shutil.copytree(TOP / "release", source / "release")
        for name in ("pyproject.toml", "README.md"):
            shutil.copy(TOP / name, source)
        before = sorted(source.rglob("*"))
        venv.create(there, with_pip=True, symlinks=True)
        ran = self.run_there(there / "bin" / "python", "-m", "pip", "install", "--quiet", "--no-index",
                             "--no-build-isolation", source)
        self.assertEqual(ran.returncode, 0, ran.stderr)
        self.assertEqual([path for path in sorted(source.rglob("*")) if "__pycache__" not in path.parts], before)
        answer = self.run_there(there / "bin" / "python", self.file("site.py", SITE)).stdout.splitlines()
        self.assertEqual(answer[-1], "optimal 6 6 4 proved optimal 6")
        versions = f"plan {__version__}, psmax {__version__}, psprove {__version__}, Python 3"
        self.assertIn(versions, self.run_there(there / "bin" / "plan", "--version").stdout)
        site = EXAMPLES / "building-site.sch"
        for name in ("psmax", "psprove"):
            ran = self.run_there("sh", "-c", f"there/bin/{name} solve < {site} | head -n 1")
            self.assertEqual(ran.stdout, "optimal 36\n", ran.stderr)
            self.assertEqual((there / "bin" / name).read_bytes(), (TOP / "release" / name).read_bytes())
        made = "import sys; sys.path.insert(0, 'source/python'); import packing; print(packing.build_sdist('.'))"
        archive = self.run_there(sys.executable, "-B", "-c", made).stdout.strip()
        self.run_there("tar", "-xf", archive)
        wheels = [self.run_there(sys.executable, "-B", f"{folder}/python/packing.py", f"{folder}-wheel").stdout.strip()
                  for folder in ("source", archive.removesuffix(".tar.gz"))]
        first, second = ((self.folder / wheel).read_bytes() for wheel in wheels)
        self.assertEqual(first, second)
        with zipfile.ZipFile(self.folder / wheels[0]) as wheel:
            said = wheel.read(f"psmax-{__version__}.dist-info/METADATA").decode()
        self.assertIn("Classifier: Typing :: Typed\n", said)
        self.assertIn("Provides-Extra: holidays\nRequires-Dist: holidays; extra == 'holidays'\n", said)

    @unittest.skipUnless(importlib.util.find_spec("ensurepip"), "no pip here for a new environment")
    def test_pip_install_editable(self) -> None:
        """`pip install -e .` leads to the sources; both programs are commands."""
        there = self.folder / "there"
        venv.create(there, with_pip=True, symlinks=True)
        ran = self.run_there(there / "bin" / "python", "-m", "pip", "install", "--quiet", "--no-index",
                             "--no-build-isolation", "--editable", TOP)
        self.assertEqual(ran.returncode, 0, ran.stderr)
        ran = self.run_there(there / "bin" / "python", "-c", "import psmax; print(psmax.__file__)")
        self.assertEqual(ran.stdout, f"{TOP / 'python' / 'psmax' / '__init__.py'}\n", ran.stderr)
        for name in ("plan", "psmax", "psprove"):
            self.assertIn(__version__, self.run_there(there / "bin" / name, "--version").stdout)

    @unittest.skipUnless(shutil.which("dpkg-deb"), "dpkg isn't here")
    def test_debian_package(self) -> None:
        """dpkg installs it into a root of its own, and takes all of it out again."""
        root = self.folder / "root"
        (root / "var/lib/dpkg/info").mkdir(parents=True)
        (root / "var/lib/dpkg/updates").mkdir()
        needed = INSTALLED.format(name="libc6", version="2.36-9") + INSTALLED.format(name="python3", version="3.11.2-1")
        (root / "var/lib/dpkg/status").write_text(needed)
        self.made("deb")
        deb = TOP / "build" / f"psmax_{__version__}_amd64.deb"
        dpkg = ("dpkg", f"--root={root}", "--force-not-root", "--force-bad-path")
        self.assertEqual(self.run_there(*dpkg, "-i", deb).returncode, 0)
        ran = self.run_there(root / "usr/bin/plan", "solve", EXAMPLES / "building-site.sch")
        self.assertEqual(ran.stdout.partition("\n")[0], "optimal 36", ran.stderr)
        ran = self.run_there("env", f"PYTHONPATH={root}/usr/lib/python3/dist-packages", sys.executable, "-c",
                             "import psmax; print(psmax.__version__)")
        self.assertEqual(ran.stdout, f"{__version__}\n", ran.stderr)
        self.assertEqual(self.run_there(*dpkg, "-r", "psmax").returncode, 0)
        left = [path for path in (root / "usr").rglob("*") if path.is_file() and path.suffix != ".pyc"]
        self.assertEqual(left, [])
