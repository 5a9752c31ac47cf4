#!/usr/bin/env python3
"""bench/jobs.py PSPROVE [--jobs J] [--seeds S] [--seconds T]

How many times sooner J jobs (4 by default) prove a project than one does, by the clock, as a Markdown table: job shops
of Taillard (1993), and projects of bench/progen.py and bench/projects.py that one job proves in some seconds. Each is
solved with S seeds (2 by default), one job and J in turns, each run in T seconds at most (120 by default). The last
line has the geometric mean. J jobs need J free processors."""
import argparse
import json
import statistics
import subprocess
import sys

import measuring
import projects
import shops

SHOPS = ("ta02", "ta03", "ta04", "ta05")
PROGEN = (("60", "1"), ("60", "4"))
OTHERS = {"flat 80 2": projects.project(80, 2, 5, 3, 0.5, reach=80), "wide 40 2": projects.wide(40, 2, 5)}


def generated(words: tuple[str, ...]) -> bytes:
    script = [sys.executable, str(measuring.TOP / "bench" / "progen.py"), *words]
    return subprocess.run(script, stdout=subprocess.PIPE, check=True).stdout


def texts() -> dict[str, bytes]:
    found = {name: shops.project(shops.named(name)).text() for name in SHOPS}
    found |= {" ".join(("progen", *words)): generated(words) for words in PROGEN}
    return found | {name: project.text() for name, project in OTHERS.items()}


def seconds(words: list[str], text: bytes) -> tuple[float, int] | None:
    """The seconds by the clock of a search that proves its answer, and the conflicts of all jobs; None of one that
    doesn't."""
    ran = measuring.run(words, text)
    return (ran.clock, json.loads(ran.out)["conflicts"]) if ran.status == 0 else None


def main() -> None:
    parser = argparse.ArgumentParser(description=__doc__, formatter_class=argparse.RawDescriptionHelpFormatter)
    parser.add_argument("psprove")
    parser.add_argument("--jobs", type=int, default=4)
    parser.add_argument("--seeds", type=int, default=2)
    parser.add_argument("--seconds", type=int, default=120)
    o = parser.parse_args()
    print(f"| Project | One job: seconds, conflicts | {o.jobs} jobs | Times sooner |\n|---|---|---|---|", flush=True)
    gains = []
    for name, text in texts().items():
        runs = [[seconds([o.psprove, "solve", "--json", "--seconds", str(o.seconds), "--seed", str(100 * seed),
                          "--jobs", str(jobs)], text) for jobs in (1, o.jobs)] for seed in range(o.seeds)]
        both = [(one, more) for one, more in runs if one is not None and more is not None]
        if not both:
            print(f"| {name} | open | open | - |", flush=True)
            continue
        cells = [f"{statistics.mean(run[0] for run in column):.2f}, {statistics.mean(run[1] for run in column):,.0f}"
                 for column in zip(*both)]
        gains.append(statistics.mean(one[0] for one, _ in both) / statistics.mean(more[0] for _, more in both))
        print(f"| {name} | {cells[0]} | {cells[1]} | {gains[-1]:.2f} |", flush=True)
    print(f"{o.jobs} jobs are {statistics.geometric_mean(gains):.2f} times as fast as one, by the geometric mean.")


if __name__ == "__main__":
    main()
