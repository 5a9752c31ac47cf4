#!/usr/bin/env python3
"""tests/options.py PSPROVE [--only WORD]

Looks at what each option of `psprove solve` does to a search that no contract tells: that a search answers at all, how
many jobs there are and that each searches, that each limit ends a search, that a seed changes it, that the same words
give the same log, and that lemmas may take what --memory says; that the figures are those of the search; that a search
goes on from the starts that it is given or hears, and that what it has found is told at a limit. The same of a cube.
--only takes the looks whose names have a word. The last line counts what was looked at."""
import json
import pathlib
import subprocess
import time
from collections.abc import Callable, Iterator, Sequence
from typing import Any

import harness
import networks
import shutdown
from harness import Verdicts

HARD = networks.project(100, 1, 0).text()  # takes some thousand conflicts
LONG = shutdown.project(300, 1).text()  # has long lemmas
EASY = harness.seeded(10, 1)[1]  # is solved within a second
CONFLICTS = 400
SECONDS = 60  # the default of --seconds
PATIENCE = 300  # seconds of a run: a program that looks at each of its accesses is slow
JOBS = 3
PROGRESS = "--progress", "json"
CUBE = "--project", "project", "--under", "whole", "--record", "log"

Answer = dict[str, Any]
Looked = Iterator[tuple[str, bool, object]]  # what is wanted, whether it is so, and what is there


def starts_text(starts: Sequence[int]) -> str:
    return "".join(f"{i} {start}\n" for i, start in enumerate(starts))


def told_line(starts: Sequence[int]) -> bytes:
    """The line of standard input that tells a schedule to a search."""
    return " ".join(map(str, starts)).encode() + b"\n"


class Search:
    """Runs of the program on a project."""

    def __init__(self, program: str, folder: pathlib.Path, text: bytes = HARD) -> None:
        self.program, self.folder, self.text = program, folder, text
        (folder / "project").write_bytes(text)
        (folder / "whole").touch()

    def ended(self, *words: object) -> harness.Ended:
        return harness.ended([self.program, "solve", "--json", *words], self.text, PATIENCE, cwd=self.folder)

    def answer(self, *words: object) -> Answer:
        found: Answer = json.loads(self.ended(*words)[1])
        return found

    def record(self, *words: object) -> bytes:
        """The record of a search, none if it has no answer."""
        file = self.folder / "record"
        file.unlink(missing_ok=True)
        return file.read_bytes() if self.ended(*words, "--record", "record")[1] else b""

    def known(self, file: str) -> Answer:
        """What a longer search finds. Its starts are in a file then."""
        found = self.answer("--conflicts", 10 * CONFLICTS, "--seconds", PATIENCE)
        (self.folder / file).write_text(starts_text(found["starts"]))
        return found

    def cube(self, *words: object) -> Answer:
        """What became of the cube of no arcs, which stays open."""
        status, out, faults = self.ended(*CUBE, *words)
        if status != 3:
            raise ValueError(f"a cube ends with {status} {faults!r}")
        found: Answer = json.loads(out)
        return found

    def threads(self, jobs: int) -> int:
        """How many threads a search has while it runs."""
        words = [self.program, "solve", "--jobs", str(jobs), "--seconds", "30"]
        with subprocess.Popen(words, stdin=subprocess.PIPE, stdout=subprocess.DEVNULL) as run:
            assert run.stdin is not None
            run.stdin.write(self.text)
            run.stdin.close()
            most = 0
            while run.poll() is None and most < jobs:
                most = max(most, len(list(pathlib.Path(f"/proc/{run.pid}/task").glob("*"))))
                time.sleep(0.001)
            run.kill()
        return most


def searches_answer(search: Search) -> Looked:
    """This comes first: whatever follows needs answers."""
    for what, text, wanted in ("stopped", HARD, 3), ("ended", EASY, 0):
        status, _, faults = Search(search.program, search.folder, text).ended("--conflicts", CONFLICTS)
        yield f"a search that {what} answers", (status, faults) == (wanted, b""), (status, faults)


def each_job_searches(search: Search) -> Looked:
    for jobs in (1, 2, JOBS, 9):
        found = search.threads(jobs)
        yield f"{jobs} threads", found == jobs, found
    one = search.answer("--conflicts", CONFLICTS)
    several = search.answer("--conflicts", CONFLICTS, "--jobs", JOBS)
    yield "the limit of conflicts ends the search", one["conflicts"] == CONFLICTS, one["conflicts"]
    yield "each job makes as many conflicts", several["conflicts"] == JOBS * CONFLICTS, several["conflicts"]
    yield "the decisions are those of all jobs", several["decisions"] > one["decisions"] > 0, several["decisions"]


def seeds_differ(search: Search) -> Looked:
    records = {search.record("--conflicts", CONFLICTS, "--seed", seed) for seed in range(4)}
    yield "each of four seeds gives another log", len(records) == 4, len(records)
    same = [search.record("--conflicts", CONFLICTS, "--seed", 1) for _ in range(2)]
    yield "the same words give the same log", same[0] == same[1] != b"", [len(log) for log in same]
    told = search.answer("--conflicts", CONFLICTS, "--record", "record")["record_bytes"]
    is_so = (search.folder / "record").stat().st_size
    yield "the bytes of the log are told", told == is_so, (told, is_so)


def limits_end(search: Search) -> Looked:
    before = time.monotonic()
    found = search.answer("--seconds", 0)
    yield "no second", found["status"] != "optimal" and found["conflicts"] < CONFLICTS, found["conflicts"]
    passed = time.monotonic() - before
    yield "the seconds are not over", passed < 50, passed
    before = time.monotonic()
    seconds = Search(search.program, search.folder, LONG).answer("--seconds", 2)["seconds"]
    yield "the seconds are told", 2 <= seconds <= time.monotonic() - before, seconds


def lemmas_fit_the_memory(search: Search) -> Looked:
    """One MiB is less than the lemmas of so many conflicts take, so some are dropped earlier."""
    long = Search(search.program, search.folder, LONG)
    records = [long.record("--conflicts", 12 * CONFLICTS, "--memory", memory) for memory in (1, 256, 512)]
    yield "one MiB is less than the lemmas take", records[0] != records[1], len(records[0])
    yield "256 MiB are enough", records[1] == records[2] != b"", len(records[1])


def what_is_found_is_told(search: Search) -> Looked:
    _, out, reports = search.ended("--conflicts", CONFLICTS, *PROGRESS)
    found, told = json.loads(out), [json.loads(line) for line in reports.splitlines()]
    for what in ("makespan", "starts"):
        last = [report[what] for report in told if report.get(what)][-1]
        yield f"the answer has the last {what}", found[what] == last, (found[what], last)
    bound = max(report["bound"] for report in told)
    yield "the answer has the greatest bound", found["bound"] == bound > 0, (found["bound"], bound)


def starts_are_gone_on_from(search: Search) -> Looked:
    known = search.known("start")
    anew, after = search.answer("--conflicts", 1), search.answer("--conflicts", 1, "--start", "start")
    yield "one conflict finds no schedule as short", (anew["makespan"] or 10**6) > known["makespan"], anew["makespan"]
    yield "a search from it has it", after["makespan"] <= known["makespan"], (after["makespan"], known["makespan"])


def standard_input_is_followed(search: Search) -> Looked:
    """A schedule that is told there is taken, and its end ends the search."""
    known = search.known("known")
    line = told_line(known["starts"])
    words = [search.program, "solve", "--project", "project", "--follow", "--json", *PROGRESS]
    with subprocess.Popen(words, stdin=subprocess.PIPE, stdout=subprocess.PIPE, stderr=subprocess.PIPE,
                          cwd=search.folder) as run:
        assert run.stdin is not None and run.stdout is not None and run.stderr is not None
        run.stdin.write(line)
        run.stdin.flush()
        reports = map(json.loads, run.stderr)
        found: Answer = next((report for report in reports if report.get("found") == "handed in"), {})
        run.stdin.close()
        for _ in reports:
            pass
        ended = json.loads(run.stdout.read())
    yield "a schedule is taken", found.get("starts") == known["starts"], found
    is_so = (run.returncode, ended["status"]) == (3, "feasible") and ended["seconds"] < SECONDS
    yield "the end of standard input ends it", is_so, (ended["status"], ended["seconds"])
    yield "its answer is no longer", ended["makespan"] <= known["makespan"], ended["makespan"]
    status, _, faults = search.ended("--follow")
    yield "the project is in a file", (status, b"--project" in faults) == (2, True), (status, faults)


def a_file_ends_a_cube(search: Search) -> Looked:
    (search.folder / "there").touch()
    for file, wanted in ("none", CONFLICTS), ("there", 0):
        found = search.cube("--conflicts", CONFLICTS, "--until", file)["conflicts"]
        yield f"a cube until there is {file}", found == wanted, found


def a_cube_tells_its_figures(search: Search) -> Looked:
    """The lemmas that it exports have the limits of PROVING.md, and those of fewest levels come first."""
    told = search.cube("--conflicts", CONFLICTS, "--export", "lemmas")["record_bytes"]
    is_so = (search.folder / "log").stat().st_size
    yield "the bytes of its log", told == is_so, (told, is_so)
    lemmas = [line.split() for line in (search.folder / "lemmas").read_text().splitlines()]
    levels = [int(lemma[0]) for lemma in lemmas]
    yield "lemmas of several levels", len(set(levels)) > 1, len(lemmas)
    yield "those of fewest levels first, of 6 at most", levels == sorted(levels) and max(levels) <= 6, levels
    yield "30 arcs at most", all(len(lemma) <= 1 + 3 * 30 for lemma in lemmas), len(lemmas)


def a_guide_is_tried_first(search: Search) -> Looked:
    known = search.known("known")
    anew = search.cube("--conflicts", 1)
    yield "one conflict finds no schedule as short", anew["makespan"] > known["makespan"], anew["makespan"]
    (search.folder / "longer").write_text(starts_text(anew["starts"]))
    for words in ["--guide", "known"], ["--guide", "known", "--start", "longer"]:
        found = search.cube("--conflicts", 1, *words)["makespan"]
        yield f"it finds a shorter one with {words}", found is not None and found < anew["makespan"], found


def a_cube_follows_standard_input(search: Search) -> Looked:
    known, most = search.known("known"), 10 * CONFLICTS
    anew = search.cube("--conflicts", most)
    yield "a cube finds no schedule as short", anew["makespan"] > known["makespan"], anew["makespan"]
    line = told_line(known["starts"])
    words = [*CUBE, "--follow", "--conflicts", str(most), "--seconds", str(PATIENCE)]
    with subprocess.Popen([search.program, "solve", *words], stdin=subprocess.PIPE, stdout=subprocess.PIPE,
                          cwd=search.folder) as run:
        assert run.stdin is not None and run.stdout is not None
        run.stdin.write(line)
        run.stdin.flush()
        found = json.loads(run.stdout.read())["makespan"]
    yield "a cube takes a schedule", found is not None and found <= known["makespan"], found
    ended = json.loads(harness.ended([search.program, "solve", *words], b"", PATIENCE, cwd=search.folder)[1])
    yield "the end of standard input ends a cube", ended["conflicts"] < most, ended["conflicts"]


LOOKS: Sequence[Callable[[Search], Looked]] = (
    searches_answer, each_job_searches, seeds_differ, limits_end, lemmas_fit_the_memory, what_is_found_is_told,
    starts_are_gone_on_from, standard_input_is_followed, a_file_ends_a_cube, a_cube_tells_its_figures,
    a_guide_is_tried_first, a_cube_follows_standard_input,
)


def looked(look: Callable[[Search], Looked], search: Search) -> Looked:
    """What a look finds; that a search has no answer ends it."""
    try:
        yield from look(search)
    except ValueError as fault:
        yield f"{look.__name__}: an answer", False, fault


def verdicts(words: Sequence[str]) -> Verdicts:
    parser = harness.Words(__doc__, "program")
    parser.add_argument("--only", default="", metavar="WORD")
    o = parser.parse_args(words)
    with harness.new_folder() as folder:
        for look in (look for look in LOOKS if o.only in look.__name__):
            for wanted, is_so, found in looked(look, Search(o.program, folder)):
                yield wanted, None if is_so else f"not so: {found}"


if __name__ == "__main__":
    harness.run(verdicts)
