"""reference/submit FILE [--psprove FILE]

Takes a record that proves more than the table has: FILE is NAME.log, a log of lemmas by any program for the project of
the row NAME. `psprove verify` has to accept it. The row then has its status, its makespan (that of the last schedule of
the log), its bound and its digest, and the record goes into reference/records. All records there have 3 MB together at
most.

Or FILE is NAME.json, a recipe of such a record, which may be of any length: {"conflicts": 500000}, with "seed": 7 or
"start": "0 0\\n1 3\\n..", the schedule to start from, where the search has them. It is searched anew with one job, and
goes into reference/recipes if that proves more."""
import argparse
import io
import pathlib
import sys

import verify_log
from psmax.errors import BadInput, Fault
from psmax.files import read_bytes, write_whole
from psmax.planner.published import contradictions, read_published
from psmax.record import PROVED

from . import page, searches, values
from .values import PUBLISHED, RECIPES, RECORDS, SUBMITTED, Row

MOST = 3_000_000  # bytes of all records together


def best_schedule(record: bytes) -> int | None:
    """The makespan of the last schedule in a log that is right."""
    events = verify_log.Log(io.BytesIO(record)).events()
    makespans = [event.starts[-1] for event in events if isinstance(event, verify_log.Schedule)]
    return makespans[-1] if makespans else None


def proved(row: Row, record: bytes, said: str) -> Row:
    """The row by what `psprove verify` says of a record."""
    found = PROVED.fullmatch(said)
    if found is None:
        raise BadInput(f"{row['name']}: psprove verify says of the record: {said}")
    makespan = best_schedule(record)
    closed = found[2] if found[2] == "optimal" else "no schedule" if found[2] is None else None
    return {
        **row, "status": closed or ("unknown" if makespan is None else "feasible"), "version": SUBMITTED,
        "makespan": "" if makespan is None else f"{makespan}", "bound": found[3] or "",
        "limit": "", "conflicts": "", "seconds": "", "bytes": f"{len(record)}", "record": searches.digest(record),
    }


def must_have_room(name: str, record: bytes) -> None:
    others = sum(path.stat().st_size for path in RECORDS.glob("*.log") if path.stem != name)
    if others + len(record) > MOST:
        raise BadInput(f"{name}: the record has {len(record)} bytes; all records together may have {MOST}, and the "
                       f"others have {others}")


def by_record(old: Row, program: pathlib.Path, file: pathlib.Path) -> Row:
    record = read_bytes(str(file), None)
    must_have_room(file.stem, record)
    row = proved(old, record, searches.by_program(program, searches.project_text(old), record))
    must_prove_more(row, old)
    write_whole(str(RECORDS / f"{row['name']}.log"), record)
    (RECIPES / f"{row['name']}.json").unlink(missing_ok=True)
    return row


def by_recipe(old: Row, program: pathlib.Path, file: pathlib.Path) -> Row:
    recipe, text = searches.read_recipe(file), searches.project_text(old)
    found = searches.search(program, text, recipe)
    row = {**old, **found.columns(), "limit": f"{recipe.conflicts}", "version": searches.version_of(program)}
    must_prove_more(row, old)
    values.keep_record(row["name"], searches.accepted(program, row, text, found.record))
    RECIPES.mkdir(exist_ok=True)
    write_whole(str(RECIPES / f"{row['name']}.json"), file.read_bytes())
    return row


def must_prove_more(row: Row, old: Row) -> None:
    wrong = contradictions({**row, "project": row["name"]}, read_published(str(PUBLISHED)))
    if wrong:
        raise BadInput("; ".join(wrong))
    if values.rank(row) <= values.rank(old):
        raise BadInput(f"{row['name']}: the record proves no more than the table has: {values.known(old)}")


def submit(file: pathlib.Path, program: pathlib.Path) -> Row:
    searches.version_of(program)
    row = (by_recipe if file.suffix == ".json" else by_record)(values.row_of(file.stem), program, file)
    values.write({**values.read(), row["name"]: row}.values())
    page.write()
    return row


def main() -> None:
    parser = argparse.ArgumentParser(prog="reference/submit", description=__doc__,
                                     formatter_class=argparse.RawDescriptionHelpFormatter)
    parser.add_argument("file", type=pathlib.Path)
    parser.add_argument("--psprove", type=pathlib.Path, default=searches.PROGRAM)
    o = parser.parse_args()
    try:
        row = submit(o.file, o.psprove.resolve())
    except Fault as fault:
        sys.exit(f"reference/submit: {fault}")
    print(f"{row['name']}: {values.known(row)}")


if __name__ == "__main__":
    main()
