"""reference/check NAME [--second] [--record FILE] [--psprove FILE]

Makes the record of a row of values.csv and has it verified: writes the project by the row's words, searches it within
the row's limit of conflicts, or by the recipe in reference/recipes, and asks `psprove verify` what the record proves.
With --second it then asks tests/verify_log.py too, which shares nothing with psprove, and takes a minute for some
2 MB. Each has to say what the row says. The project's text has to have the row's SHA-256, and the record too, where the
row is of this psprove. A row whose record was submitted has it in reference/records, which is verified in place of one
that is made. With --record the record is kept in FILE."""
import argparse
import pathlib
import sys

from psmax.errors import BadInput, Fault
from psmax.files import must_be_writable, read_bytes, write_whole

from . import searches, values
from .values import RECORDS, SUBMITTED, Row

FOUND = "status", "makespan", "bound", "conflicts", "bytes", "record"  # what a search says, and always the same


def record_of(program: pathlib.Path, row: Row, text: bytes) -> bytes:
    """The record of a row: the one that was submitted, or else that of a search, which says the same as the row."""
    if row["version"] == SUBMITTED:
        return read_bytes(str(RECORDS / f"{row['name']}.log"), None)
    found = searches.search(program, text, searches.recipe_of(row["name"], row["limit"]))
    wrong = differences(row, found.columns(), searches.version_of(program))
    if wrong:
        raise BadInput(f"{row['name']}: " + "; ".join(wrong))
    return found.record


def differences(row: Row, found: Row, version: str) -> list[str]:
    """What a search says otherwise than the row. One by another psprove may know more or less; it must not
    contradict."""
    if row["version"] == version:
        return [f"{head} {found[head]}, not {row[head]}" for head in FOUND if found[head] != row[head]]
    return contradictions(row, found) + contradictions(found, row)


def contradictions(one: Row, other: Row) -> list[str]:
    """Where one says that there is no schedule as short as the other's."""
    if not other["makespan"]:
        return []
    if one["status"] == "no schedule":
        return [f"no schedule, and one of {other['makespan']}"]
    is_above = int(one["bound"]) > int(other["makespan"])
    return [f"bound {one['bound']}, and a schedule of {other['makespan']}"] if is_above else []


def check(name: str, program: pathlib.Path, out: str | None, has_second: bool) -> None:
    row, version = values.row_of(name), searches.version_of(program)
    if out is not None:
        must_be_writable(out)
    text = searches.project_text(row)
    print(f"{name}: `{row['words']}` writes the text that the table has", flush=True)
    record = record_of(program, row, text)
    print(told(row, record, version), flush=True)
    if out is not None:
        write_whole(out, record)
    say(row, record, "psprove verify", searches.by_program(program, text, record))
    if has_second:
        say(row, record, "tests/verify_log.py", searches.by_script(text, record))


def say(row: Row, record: bytes, by: str, said: str) -> None:
    """What a checker says; of the record that the table has it has to be what the row says."""
    if searches.digest(record) == row["record"]:
        searches.must_prove(row, said, by)
    print(f"{by}: {said}", flush=True)


def told(row: Row, record: bytes, version: str) -> str:
    if searches.digest(record) == row["record"]:
        return f"{len(record)} bytes, the record that the table has"
    return (f"{len(record)} bytes, not the record of the table: that is of psprove {row['version']}, and this is "
            f"{version}")


def main() -> None:
    parser = argparse.ArgumentParser(prog="reference/check", description=__doc__,
                                     formatter_class=argparse.RawDescriptionHelpFormatter)
    parser.add_argument("name")
    parser.add_argument("--second", action="store_true")
    parser.add_argument("--record")
    parser.add_argument("--psprove", type=pathlib.Path, default=searches.PROGRAM)
    o = parser.parse_args()
    try:
        check(o.name, o.psprove.resolve(), o.record, o.second)
    except Fault as fault:
        sys.exit(f"reference/check: {fault}")


if __name__ == "__main__":
    main()
