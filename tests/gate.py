#!/usr/bin/env python3
"""tests/gate.py test | prove | compare | gate | release

test     runs every script on the programs at hand: those of build/, where psmax there is newer than the released one,
         else those of release/. Needs no toolchain.
prove    proves everything from nothing with `rt ci` (tests and must-fail edits too), and copies the programs to build/.
         With a kit that keeps what passed, ANEW=1 proves all of it again.
compare  fails where release/ is not the release of these sources: by the checksum in release/SOURCES, and, where the
         kit is that of the release, byte for byte with build/.
gate     prove, compare, lint, and then test on what was proved, with the allocations of the tests that rt built.
release  makes release/ of what build/ holds.

Prints the minutes and the processor minutes of each part. The last line is 'N passed, M failed', over all parts."""
import hashlib
import os
import pathlib
import re
import resource
import shutil
import subprocess
import sys
import time
import traceback
from collections.abc import Callable, Iterator, Sequence

import allocations
import books
import cubes
import devices
import documents
import events
import fuzz
import harness
import hostile
import hostile_trees
import interrupted
import lint
import log_parts
import logs
import long_records
import losses
import options
import planted
import psmax_options
import records
import reference_values
import resumes
import run
import searches
import test_allocations
import threads
import trims
import workers
from harness import TOP, Counts, Verdicts
from planner.tests import run as planner_tests

BUILD, RELEASE = TOP / "build", TOP / "release"
PROGRAMS = {"psmax": "psmax", "psprove": "psprove", "book_events": "book_events"}
# What a proof tells as it goes.
STEP = re.compile(r"^rt: .*( proved$|NOT PROVED|trying its must-fail edits|NOT REFUSED|BAD EDIT)")
KIT = re.compile(r"^    (rattle-kit-.+)$", re.M)


def processor_seconds() -> float:
    used = [resource.getrusage(who) for who in (resource.RUSAGE_SELF, resource.RUSAGE_CHILDREN)]
    return sum(one.ru_utime + one.ru_stime for one in used)


class Parts:
    """What the parts of a run count, and what each took."""

    def __init__(self) -> None:
        self.rows: list[tuple[str, float, float, Counts]] = []

    def run(self, name: str, part: Callable[[], Counts]) -> None:
        print(f"== {name}: {time.strftime('%H:%M:%S', time.gmtime())}", flush=True)
        clock, used = time.monotonic(), processor_seconds()
        counts = part()
        print(counts, flush=True)
        self.rows.append((name, (time.monotonic() - clock) / 60, (processor_seconds() - used) / 60, counts))

    def all(self) -> Counts:
        return Counts(sum(counts.passed for *_, counts in self.rows), sum(counts.failed for *_, counts in self.rows))

    def close(self) -> bool:
        """Prints the table and the last line. Whether a part failed."""
        _, minutes, used, _ = zip(*self.rows)
        print(f"{'part':24} {'minutes':>8} {'of a processor':>15} {'passed':>8} {'failed':>7}")
        for name, took, processor, counts in [*self.rows, ("all", sum(minutes), sum(used), self.all())]:
            print(f"{name:24} {took:8.1f} {processor:15.1f} {counts.passed:8} {counts.failed:7}")
        print(self.all())
        return self.all().failed > 0


def at_hand() -> pathlib.Path:
    """The folder whose programs are run: build/ where its psmax is newer than the released one."""
    built, released = BUILD / "psmax", RELEASE / "psmax"
    is_newer = built.exists() and not (released.exists() and released.stat().st_mtime >= built.stat().st_mtime)
    return BUILD if is_newer else RELEASE


Script = tuple[str, Callable[[Sequence[str]], Verdicts], list[str]]  # a name, the script, and its words


def scripts(folder: pathlib.Path, with_tests: bool) -> Iterator[Script]:
    """The scripts. Allocations are refused by a library, which a C compiler makes."""
    psmax, psprove, book_events = (str(folder / name) for name in PROGRAMS)
    yield "cases", run.verdicts, [psmax]
    yield "cases of psprove", run.verdicts, [psprove, "--cases", str(TOP / "tests" / "proofs.jsonl")]
    yield "workers", workers.verdicts, [psmax, "--runs", "100"]
    yield "records", records.verdicts, [psmax, "--seeded", "20", "--damaged", "1000"]
    yield "logs", logs.verdicts, [psprove, "--logs", "2000"]
    yield "logs in parts", log_parts.verdicts, [psprove, "--logs", "200"]
    yield "trimmed logs", trims.verdicts, [psprove, "--logs", "500"]
    yield "records of both kinds", fuzz.verdicts, [psmax, psprove, "--records", "5000"]
    yield "planted bugs", planted.verdicts, [psmax, psprove, "--first", "4"]
    yield "hostile logs", hostile.verdicts, [psprove, "--bytes", "160000", "--seconds", "5"]
    yield "hostile records", hostile_trees.verdicts, [psmax]
    yield "resumes", resumes.verdicts, [psprove]
    yield "options", psmax_options.verdicts, [psmax]
    yield "options of psprove", options.verdicts, [psprove]
    yield "searches", searches.verdicts, [psmax, psprove, "--seeded", "200", "--large", "10"]
    yield "cubes", cubes.verdicts, [psmax, psprove]
    drawn = ["--drawn", "50", "--seconds", "60"] if with_tests else []
    yield "reference values", reference_values.verdicts, [psprove, *drawn]
    yield "books", books.verdicts, [book_events]
    if shutil.which(os.environ.get("CC", "cc")):
        yield "events", events.verdicts, [book_events]
        yield "refused allocations", allocations.verdicts, [psmax]
        yield "refused allocations of psprove", allocations.verdicts, [psprove, "--proofs"]
        yield "threads", threads.verdicts, [psmax]
        yield "threads of psprove", threads.verdicts, [psprove, "--proofs"]
        if with_tests:
            yield "allocations of tests", test_allocations.verdicts, []
    else:
        print("left out, for want of a C compiler: refused allocations, threads, and allocations of lists of events")
        yield "events", events.verdicts, [book_events, "--refused", "0"]
    yield "files that would be lost", losses.verdicts, [psmax]
    yield "files that would be lost, of psprove", losses.verdicts, [psprove, "--proofs"]
    yield "devices", devices.verdicts, [psmax]
    yield "devices of psprove", devices.verdicts, [psprove, "--proofs"]
    yield "long records that fail", long_records.verdicts, [psprove]
    yield "plan", planner_tests.verdicts, []
    yield "kills and power cuts", interrupted.verdicts, [psmax, psprove]
    yield "package", planner_tests.verdicts, [str(TOP / "python" / "tests")]
    yield "documents", documents.verdicts, [str(folder)]


def played(script: Callable[[Sequence[str]], Verdicts], words: Sequence[str]) -> Counts:
    """What a script counts; one failure where it ends by a fault of its own."""
    try:
        return harness.count(script(words))
    except (Exception, SystemExit):
        traceback.print_exc()
        return Counts(0, 1)


def test(parts: Parts, folder: pathlib.Path, with_tests: bool = False) -> None:
    """Runs the scripts. `plan` is called some hundred times, so its bytecode is kept until the end."""
    for name in ("psmax", "psprove"):
        os.environ[name.upper()] = str(folder / name)
    with harness.new_folder() as bytecode:
        os.environ["PYTHONPYCACHEPREFIX"] = str(bytecode)
        os.environ.pop("PYTHONDONTWRITEBYTECODE", None)
        for name, script, words in scripts(folder, with_tests):
            parts.run(name, lambda: played(script, words))


def proved(words: Sequence[str], log: pathlib.Path) -> Counts:
    """Runs `rt ci`. What its last line 'N passed, M failed' counts; one failure without such a line, or where the
    status says more than the line."""
    lines, clock = [""], time.monotonic()
    ran = subprocess.Popen(words, cwd=TOP, stdin=subprocess.DEVNULL, stdout=subprocess.PIPE, stderr=subprocess.STDOUT,
                           text=True, errors="replace")
    with ran, open(log, "w") as copy:
        for line in ran.stdout or []:
            lines.append(line)
            copy.write(line)
            if STEP.search(line):
                print(f"{(time.monotonic() - clock) / 60:6.1f} {line}", end="", flush=True)
    print("".join(lines[-60:]), end="", flush=True)
    told = re.fullmatch(r"(\d+) passed, (\d+) failed\n?", lines[-1])
    counts = Counts(*map(int, told.groups())) if told else Counts(0, 1)
    return counts._replace(failed=counts.failed or int(ran.returncode != 0))


def prove(parts: Parts) -> None:
    BUILD.mkdir(exist_ok=True)
    told = subprocess.run(["rt", "help"], stdout=subprocess.PIPE, stderr=subprocess.STDOUT, text=True).stdout
    keeps = "--anew" in told
    words = ["rt", "ci", "--anew"] if keeps and os.environ.get("ANEW") else ["rt", "ci"]
    parts.run("proofs, tests and edits", lambda: proved(words, BUILD / "ci.log"))
    for name, crate in PROGRAMS.items():
        if (TOP / "crates" / crate / "out" / crate).exists():
            shutil.copy(TOP / "crates" / crate / "out" / crate, BUILD / name)


def checksum() -> str:
    """One checksum over crates.txt, HANDLES and all files of the crates' src and specs, each with its path."""
    files = [TOP / "crates.txt", TOP / "HANDLES"]
    files += [path for part in ("src", "specs") for path in TOP.glob(f"crates/*/{part}/**/*") if path.is_file()]
    lines = [f"{hashlib.sha256(path.read_bytes()).hexdigest()}  {path.relative_to(TOP)}\n" for path in sorted(files)]
    return hashlib.sha256("".join(lines).encode()).hexdigest()


def kit() -> str:
    return subprocess.run(["rt", "version"], capture_output=True, text=True, check=True).stdout.strip()


def compared(_: Sequence[str]) -> Verdicts:
    is_same = (RELEASE / "SOURCES").read_text().strip() == checksum()
    yield "release/SOURCES", None if is_same else "it is not the checksum of these sources: make, then make release"
    [released] = KIT.findall((RELEASE / "README.md").read_text())
    if released != kit():
        print(f"the released programs are of {released}, so their bytes are not compared")
        return
    for name in PROGRAMS:
        is_same = (BUILD / name).read_bytes() == (RELEASE / name).read_bytes()
        yield f"release/{name}", None if is_same else f"it is not build/{name}: make release"


def release() -> None:
    for name in PROGRAMS:
        shutil.copy(BUILD / name, RELEASE / name)
    (RELEASE / "SOURCES").write_text(checksum() + "\n")
    page = RELEASE / "README.md"
    page.write_text(KIT.sub(f"    {kit()}", page.read_text()))


def main(verb: str) -> bool:
    """Whether something failed."""
    if verb in ("prove", "gate", "release") and not shutil.which("rt"):
        print(f"make {verb} needs the Rattle toolchain: its command rt is not on the PATH")
        return True
    if verb == "release":
        release()
        return False
    parts = Parts()
    if verb in ("prove", "gate"):
        prove(parts)
    if parts.all().failed:
        return parts.close()
    if verb in ("compare", "gate"):
        parts.run("released programs", lambda: played(compared, []))
    if verb == "gate":
        parts.run("types and style", lambda: played(lint.verdicts, []))
        test(parts, BUILD, with_tests=True)
    if verb == "test":
        test(parts, at_hand())
    return parts.close()


if __name__ == "__main__":
    if sys.argv[1:] not in [["test"], ["prove"], ["compare"], ["gate"], ["release"]]:
        sys.exit(__doc__)
    sys.exit(main(sys.argv[1]))
