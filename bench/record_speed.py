#!/usr/bin/env python3
"""bench/record_speed.py PROGRAM

Measures what a record costs, on the first job shop of Fisher and Thompson and on three projects of bench/projects.py
that one worker searches to the end, and prints a table: the nodes that were opened, the seconds of a search by one
worker, of the same with a record, and of `verify`, and the record's bytes and how many these are to a node. Times are
processor time, the best of five runs, without those of starting the program."""
import pathlib
import sys
import tempfile
from collections.abc import Iterator, Mapping, Sequence

import measuring
import projects
import speed

# Activities, how many that use a resource fit at once, fewest lines of a record, projects.
SEEDED = (30, 2, 1_000, 3)
SOLVE = ["solve", "--nodes", "300000"]


def seeded(program: str) -> Iterator[tuple[str, bytes]]:
    n, tight, lines, count = SEEDED
    found = 0
    for seed in range(400):
        text = projects.project(n, seed, 5, tight).text()
        if found < count and recorded(program, text).count(b"\n") >= lines:
            found += 1
            yield f"{n} activities, seed {seed}", text


def recorded(program: str, text: bytes) -> bytes:
    """The record of a search by one worker."""
    with tempfile.TemporaryDirectory() as folder:
        measuring.run([program, *SOLVE, "--record", "record"], text, folder)
        return pathlib.Path(folder, "record").read_bytes()


def row(program: str, name: str, text: bytes) -> None:
    def seconds(words: Sequence[str], given: bytes = text, files: Mapping[str, bytes] = {}) -> float:
        return measuring.best([program], words, given, files=files)[0].processor

    record = recorded(program, text)
    nodes = sum(line in (b"solved", b"cut", b"dead") or line.startswith(b"split") for line in record.split(b"\n"))
    start = seconds(["tidy"])
    search = seconds([*SOLVE, "--workers", "1"]) - start
    noted = seconds([*SOLVE, "--record", "r"]) - start
    checked = seconds(["verify", "--project", "p"], record, {"p": text}) - start
    measuring.row(name, f"{nodes:,}", f"{search:.3f}", f"{noted:.3f}", f"{checked:.3f}", f"{len(record):,}",
                  f"{len(record) / nodes:.1f}")


def main(program: str) -> None:
    measuring.heads("Project", "Nodes of the record", "Search, s", "With a record, s", "`verify`, s", "Record, bytes",
                    "Bytes a node")
    row(program, "job shop of 6 by 6", speed.SMALL_JOB_SHOP.read_bytes())
    for name, text in seeded(program):
        row(program, name, text)


if __name__ == "__main__":
    main(measuring.path(sys.argv[1]))
