#!/usr/bin/env python3
"""bench/proofs.py PSMAX PSPROVE [--seconds S] [--sizes N..] [--jobs J]

What both programs prove of generated projects in some S seconds (20 by default), as a Markdown table: six projects of
each size N: two each whose activities follow near ones, of which some three fit at once; whose activities follow any;
and whose resources are wide. `psmax solve` gets as many nodes as it would take in S seconds at its first speed. Each
record of psprove is checked by `psprove verify`, and where it is below 200,000 bytes by tests/verify_log.py. Seconds
are of a processor. J projects (2 by default) are tried side by side. The last lines count what was proved, and name
where a bound of psprove is below that of psmax."""
import argparse
import concurrent.futures
import json
import pathlib
import sys
import tempfile
from collections.abc import Callable
from typing import Any

import measuring
import projects

CHECKER = measuring.TOP / "tests" / "verify_log.py"
SMALL = 200_000
FIRST_NODES = 2_000
Family = Callable[[int, int], projects.Project]
FAMILIES: dict[str, Family] = {
    "chains": lambda n, seed: projects.project(n, seed, 5, 3, 0.5),
    "flat": lambda n, seed: projects.project(n, seed, 5, 3, 0.5, reach=n),
    "wide": lambda n, seed: projects.wide(n, seed, 3),
}
Answer = dict[str, Any]  # a line of JSON


def run(words: list[object], text: bytes) -> tuple[str, float]:
    """The first line of what a command prints, and the processor seconds that it takes."""
    ran = measuring.run(words, text)
    return ran.out.partition("\n")[0], ran.processor


def is_proved(answer: Answer) -> bool:
    return answer["status"] in ("optimal", "no schedule")


def by_psmax(psmax: str, seconds: int, text: bytes) -> tuple[Answer, float]:
    """What psmax answers in about so many seconds, and the seconds that it took."""
    words = [psmax, "solve", "--json", "--nodes"]
    answer, used = run([*words, FIRST_NODES], text)
    if not is_proved(json.loads(answer)):
        answer, used = run([*words, int(FIRST_NODES * seconds / max(used, 0.01))], text)
    return json.loads(answer), used


def told(answer: Answer) -> str:
    """An answer in short."""
    if is_proved(answer):
        return f"**{answer['makespan'] or 'none'}**"
    return f"{answer['makespan'] or '-'} / {answer['bound']}"


class Row:
    """What both programs say of a project."""

    def __init__(self, psmax: str, psprove: str, seconds: int, name: str, text: bytes) -> None:
        self.name = name
        self.other, self.other_used = by_psmax(psmax, seconds, text)
        with tempfile.TemporaryDirectory() as folder:
            project, record = pathlib.Path(folder, "project.sch"), pathlib.Path(folder, "record")
            project.write_bytes(text)
            answer, self.used = run([psprove, "solve", "--json", "--seconds", seconds, "--record", record], text)
            self.own: Answer = json.loads(answer)
            shown = record.read_bytes()
            self.said, self.verified = run([psprove, "verify", "--project", project], shown)
            self.by_script = run([sys.executable, CHECKER, project], shown)[0] if len(shown) < SMALL else self.said

    def wrong(self) -> str | None:
        """What is wrong with what psprove says, beside psmax; or None."""
        if not self.said.startswith("proved") or self.by_script != self.said:
            return f"its record is refused: {self.said!r}, {self.by_script!r}"
        if is_proved(self.own) and is_proved(self.other) and self.own["makespan"] != self.other["makespan"]:
            return "another verdict"
        if not is_proved(self.own) and is_proved(self.other):
            return "psmax proves it"
        if not is_proved(self.own) and self.own["bound"] < self.other["bound"]:
            return f"bound {self.own['bound']} below {self.other['bound']}"
        return None

    def print(self) -> None:
        counts = [f"{self.own[name]:,}" for name in ("conflicts", "record_bytes")]
        measuring.row(self.name, told(self.other), f"{self.other_used:.1f}", told(self.own), f"{self.used:.1f}",
                      *counts,
                      f"{self.verified:.2f}")


def main() -> None:
    parser = argparse.ArgumentParser()
    parser.add_argument("psmax", type=measuring.path)
    parser.add_argument("psprove", type=measuring.path)
    parser.add_argument("--seconds", type=int, default=20)
    parser.add_argument("--sizes", type=int, nargs="*", default=[10, 15, 20, 25, 30, 40, 50, 60, 80, 100])
    parser.add_argument("--jobs", type=int, default=2)
    o = parser.parse_args()
    made = [(f"{name}, {n}, seed {seed}", family(n, seed).text())
            for n in o.sizes for name, family in FAMILIES.items() for seed in (1, 2)]
    measuring.heads("project", "psmax", "s", "psprove", "s", "conflicts", "bytes", "verify, s")
    rows = []
    with concurrent.futures.ThreadPoolExecutor(o.jobs) as pool:
        for row in pool.map(lambda found: Row(o.psmax, o.psprove, o.seconds, *found), made):
            rows.append(row)
            row.print()
    proved = sum(is_proved(row.other) for row in rows), sum(is_proved(row.own) for row in rows)
    print(f"\nof {len(rows)}: psmax proves {proved[0]}, psprove {proved[1]}")
    for row in rows:
        if wrong := row.wrong():
            print(f"{row.name}: {wrong}")


if __name__ == "__main__":
    main()
