"""python3 -m reference.make [FOLDER]

Writes the project of each row of values.csv into FOLDER (build/reference by default), as NAME.sch, and wants its
SHA-256 to be the row's."""
import pathlib
import sys
from collections.abc import Iterator

import harness
from psmax.errors import Fault
from psmax.files import write_whole

from . import TOP, searches, values
from .values import Row


def made(folder: pathlib.Path) -> Iterator[harness.Verdict]:
    def make(row: Row) -> str | None:
        try:
            write_whole(str(folder / f"{row['name']}.sch"), searches.project_text(row))
        except Fault as fault:
            return str(fault)
        return None

    rows = values.read()
    folder.mkdir(parents=True, exist_ok=True)
    yield from zip(rows, harness.side_by_side(make, rows.values()))


def main() -> None:
    counts = harness.count(made(pathlib.Path(sys.argv[1]) if sys.argv[1:] else TOP / "build" / "reference"))
    print(counts)
    sys.exit(counts.failed > 0)


if __name__ == "__main__":
    main()
