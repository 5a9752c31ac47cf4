#!/usr/bin/env python3
"""tests/searches.py PSMAX PSPROVE [--seeded N] [--large N]

Has both programs solve N small seeded projects (2,000 by default), every fifth with two jobs of psprove, and wants one
verdict of both. The starts of psprove have to pass `psmax check`, and its record has to prove the verdict, by `psprove
verify` and, below 100,000 bytes, by tests/verify_log.py. So do half as many projects of jobs whose operations wait for
nothing, or for little. Then psprove alone solves N projects of 62 to 250 activities
(40 by default), every second with four jobs, of which psmax can prove few. Ten projects are solved twice by the same
words, which have to give the same bytes. Three projects, of which one has no schedule, are solved with all times
multiplied by 997. The records of two have to have a line of each kind that only long searches write. The last line
counts the projects."""
import functools
import io
import pathlib
from collections.abc import Sequence

import harness
import judges
import projects
import shops
import verify
from harness import Verdicts
from verify_log import Lemma, Load, Log, Push

MOST_BYTES = 100_000

# Seeds of small projects whose times are multiplied, the first without a schedule; and by how much.
STRETCHED, FACTOR = (128, 7, 36), 997

# Projects, and what their records show: an order by a clique is an edge, and a bound by a load of several periods
# energy.
KINDS = (
    (shops.project(shops.named("la02")), {"clique order", "clique bound"}),
    (projects.wide(40, 2, 5), {"load bound", "load contradiction"}),
)


def small(seed: int) -> projects.Project:
    """A project of 4 to 13 activities; every second has resources in which few are rivals."""
    n = 4 + seed % 10
    return projects.wide(n, seed) if seed % 2 else projects.project(n, seed, 3, 2 + 2 * (seed // 2 % 2))


def text_of(seed: int) -> bytes:
    return small(seed).text()


def large_text_of(seed: int) -> bytes:
    """A project of 62 to 250 activities; every second has few resources and maximum lags."""
    n = 62 + 47 * seed % 189
    return (projects.project(n, seed, 4, 2, 0.3) if seed % 2 else projects.project(n, seed, 5, 3, 0.5)).text()


def run(words: Sequence[object], text: bytes) -> tuple[int | None, bytes]:
    return harness.ended(words, text, 600)[:2]


class Search:
    """A project and the record that psprove writes of it, by both programs."""

    def __init__(self, psmax: str, psprove: str, folder: pathlib.Path, name: str, text: bytes) -> None:
        self.psmax, self.psprove, self.text = psmax, psprove, text
        self.file, self.record = folder / f"{name}.sch", folder / f"{name}.rec"
        self.file.write_bytes(text)

    def solve(self, *words: str) -> tuple[int | None, bytes]:
        return run([self.psprove, "solve", *words, "--record", self.record], self.text)

    def wrong_answer(self, answer: bytes) -> str | None:
        """What is wrong with an answer of psprove and its record, or None."""
        verdict, starts = answer.split(b"\n", 1)
        if starts and run([self.psmax, "check", "--project", self.file], starts)[0] != 0:
            return "the starts are no feasible schedule"
        claim = verdict if verdict.split(b" ")[0] in (b"optimal", b"no") else b"bound " + verdict.split(b" ")[-1]
        wanted, shown = (0, b"proved " + claim + b"\n", b""), self.record.read_bytes()
        if judges.by_program(self.psprove, self.file, shown) != wanted:
            return "psprove verify refuses its record"
        if len(shown) <= MOST_BYTES and (said := judges.by_script_of_logs(verify.Project(self.text), shown)) != wanted:
            return f"verify_log.py says {said}, not {wanted}"
        return None


def wrong_of(programs: tuple[str, str], folder: pathlib.Path, seed: int, name: str, text: bytes) -> str | None:
    """What is wrong with what psprove says of a small project, or None."""
    search = Search(*programs, folder, f"{name}{seed}", text)
    status, wanted = run([search.psmax, "solve"], search.text)
    told, answer = search.solve(*(["--jobs", "2"] if seed % 5 == 0 else []))
    if (status, told) != (0, 0) or answer.split(b"\n")[0] != wanted.split(b"\n")[0]:
        return f"psmax says {status} {wanted!r}, psprove {told} {answer!r}"
    return search.wrong_answer(answer)


def wrong_small(programs: tuple[str, str], folder: pathlib.Path, seed: int) -> str | None:
    return wrong_of(programs, folder, seed, "small", text_of(seed))


def wrong_groups(programs: tuple[str, str], folder: pathlib.Path, seed: int) -> str | None:
    """The same of a project of groups."""
    return wrong_of(programs, folder, seed, "groups", projects.groups(seed).text())


def wrong_large(programs: tuple[str, str], folder: pathlib.Path, seed: int) -> str | None:
    """What is wrong with what psprove says of a large project within few conflicts, or None."""
    search = Search(*programs, folder, f"large{seed}", large_text_of(seed))
    told, answer = search.solve("--conflicts", "3000", "--jobs", "4" if seed % 2 else "1")
    return search.wrong_answer(answer) if told in (0, 3) else f"psprove ends with {told}"


def wrong_again(programs: tuple[str, str], folder: pathlib.Path, seed: int) -> str | None:
    """What differs where psprove solves a large project twice by the same words, or None."""
    search = Search(*programs, folder, f"again{seed}", large_text_of(seed))
    told = [(search.solve("--conflicts", "2000", "--seed", str(seed)), search.record.read_bytes()) for _ in range(2)]
    return None if told[0] == told[1] else "the same words give other bytes"


def stretched(project: projects.Project) -> projects.Project:
    """The project with all times multiplied."""
    durations = [FACTOR * duration for duration in project.durations]
    return project._replace(durations=durations, arcs=[(i, j, FACTOR * lag) for i, j, lag in project.arcs])


def wrong_stretched(programs: tuple[str, str], folder: pathlib.Path, place: int) -> str | None:
    """What is wrong with what psprove says of a small project with all times multiplied, or None."""
    project = small(STRETCHED[place])
    search = Search(*programs, folder, f"stretched{place}", stretched(project).text())
    wanted = run([search.psmax, "solve"], project.text())[1].split(b"\n")[0].split(b" ")
    if wanted[0] == b"optimal":
        wanted[1] = b"%d" % (FACTOR * int(wanted[1]))
    told, answer = search.solve()
    if told != 0 or answer.split(b"\n")[0] != b" ".join(wanted):
        return f"psprove says {told} {answer!r}, not {wanted}"
    return search.wrong_answer(answer)


def kind_of(push: Push) -> str:
    """What a line shows, and by what; nothing of a load of one period, which the time table finds."""
    if isinstance(push.over, Load) and push.over.end - push.over.start == 1:
        return ""
    by = type(push.over).__name__.lower()
    return f"{by} contradiction" if push.arc is None else f"{by} {'order' if min(push.arc[:2]) > 0 else 'bound'}"


def wrong_kinds(programs: tuple[str, str], folder: pathlib.Path, place: int) -> str | None:
    """Which kinds of lines the record of a project lacks, or what else is wrong with it, or None."""
    project, wanted = KINDS[place]
    search = Search(*programs, folder, f"kinds{place}", project.text())
    told, answer = search.solve("--conflicts", "300")
    lemmas = (event for event in Log(io.BytesIO(search.record.read_bytes())).events() if isinstance(event, Lemma))
    missing = wanted - {kind_of(line) for lemma in lemmas for line in lemma.lines if isinstance(line, Push)}
    return f"its record has no line of {sorted(missing)}" if missing else search.wrong_answer(answer)


def verdicts(words: Sequence[str]) -> Verdicts:
    parser = harness.Words(__doc__, "psmax", "psprove")
    parser.add_argument("--seeded", type=int, default=2_000)
    parser.add_argument("--large", type=int, default=40)
    o = parser.parse_args(words)
    with harness.new_folder() as folder:
        for title, wrong, count in (
            ("small", wrong_small, o.seeded),
            ("groups", wrong_groups, o.seeded // 2),
            ("large", wrong_large, o.large),
            ("again", wrong_again, 10),
            ("stretched", wrong_stretched, len(STRETCHED)),
            ("kinds", wrong_kinds, len(KINDS)),
        ):
            look = functools.partial(wrong, (o.psmax, o.psprove), folder)
            for seed, found in enumerate(harness.side_by_side(look, range(count))):
                yield f"{title} {seed}", found


if __name__ == "__main__":
    harness.run(verdicts)
