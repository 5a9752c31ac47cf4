"""python3 -m reference.compute [--jobs N] [--psprove FILE] [--only WORD]

Computes the rows of values.csv that are not of this psprove, N at a time (1 by default): each project's text, a search
with one job within its limit of conflicts, and both checkers' judgement of the record. The table is written after each
row, so a run that was cut off goes on where it stood. Records below 20,000 bytes go into reference/records. A row with
a greater bound or a shorter schedule than a new one stays as it is, and is told. A makespan or a bound that contradicts
a published one ends the run, and so does a record that a checker does not accept. With `--only` only projects are
looked at whose name has the word."""
import argparse
import csv
import pathlib
import sys
from collections.abc import Iterator
from concurrent.futures import Future, ThreadPoolExecutor, as_completed

from psmax.errors import Fault
from psmax.planner.published import read_published

from . import page, searches, values
from .families import Listed, listed
from .values import PUBLISHED, SUBMITTED, Row


def sources() -> dict[str, str]:
    """Where each published makespan is from."""
    with open(PUBLISHED, encoding="utf-8", newline="") as file:
        return {row["project"]: row["source"] for row in csv.DictReader(file)}


def is_done(one: Listed, row: Row | None, version: str) -> bool:
    """Whether a row is of this psprove, and a search by the limit of today would not differ."""
    if row is None or row["version"] != version or row["words"] != one.words:
        return False
    limit = searches.recipe_of(one.name, one.limit).conflicts
    return int(row["limit"]) == limit or values.is_closed(row) and int(row["conflicts"]) < limit


def better(new: Row, old: Row | None) -> bool:
    """Whether a new row takes the place of an old one. One that was submitted stays unless more is known now."""
    if old is None or old["project"] != new["project"]:
        return True
    if old["version"] == SUBMITTED:
        return values.rank(new) > values.rank(old)
    return values.rank(new) >= values.rank(old)


def told(row: Row, is_better: bool) -> str:
    stays = "" if is_better else "; the table knows more, so its row stays"
    return (f"{row['name']}: {values.known(row)}, {row['conflicts']} conflicts, {row['seconds']} s, "
            f"{row['bytes']} bytes{stays}")


def compute(program: pathlib.Path, jobs: int, only: str) -> None:
    rows = values.read()
    published, source, version = read_published(str(PUBLISHED)), sources(), searches.version_of(program)
    chosen = [one for one in listed() if only in one.name]
    left = [one for one in chosen if not is_done(one, rows.get(one.name), version)]
    print(f"{len(left)} of {len(chosen)} projects are not of psprove {version}", flush=True)
    with ThreadPoolExecutor(jobs) as pool:
        running = [pool.submit(searches.computed, program, version, one, published, source.get(one.name, ""))
                   for one in left]
        try:
            for row, record in results(running):
                is_better = better(row, rows.get(row["name"]))
                print(told(row, is_better), flush=True)
                if is_better:
                    rows[row["name"]] = row
                    values.keep_record(row["name"], record)
                    values.write(rows[one.name] for one in listed() if one.name in rows)
        finally:
            pool.shutdown(cancel_futures=True)


def results(running: list[Future[tuple[Row, bytes | None]]]) -> Iterator[tuple[Row, bytes | None]]:
    return (one.result() for one in as_completed(running))


def main() -> None:
    parser = argparse.ArgumentParser(prog="python3 -m reference.compute", description=__doc__,
                                     formatter_class=argparse.RawDescriptionHelpFormatter)
    parser.add_argument("--jobs", type=int, default=1)
    parser.add_argument("--psprove", type=pathlib.Path, default=searches.PROGRAM)
    parser.add_argument("--only", default="")
    o = parser.parse_args()
    if o.jobs < 1:
        parser.error("there is one job at least")
    try:
        compute(o.psprove.resolve(), o.jobs, o.only)
        page.write()
    except Fault as fault:
        sys.exit(f"reference: {fault}")


if __name__ == "__main__":
    main()
