"""python3 -m reference.page

The parts of docs/REFERENCE.md that the table says, and its pictures. Each part stands between a comment with its name
and the comment `end`."""
import hashlib
import re
import statistics
from collections.abc import Sequence
from itertools import groupby

from psmax.files import write_whole

from . import TOP, plots, values
from .values import Row, is_closed

PAGE = TOP / "docs" / "REFERENCE.md"
CITATION = TOP / "CITATION.cff"
PICTURES = {"reference-proved.svg": plots.proved, "reference-seconds.svg": plots.seconds}


def line(*cells: object) -> str:
    return f"| {' | '.join(map(str, cells))} |\n"


def family(name: str, rows: Sequence[Row]) -> str:
    sizes = [int(row["activities"]) for row in rows]
    took = [float(row["seconds"]) for row in rows if row["seconds"]] or [0.0]
    counts = [sum(row["status"] == status for row in rows) for status in ("optimal", "no schedule")]
    at_once = sum(is_closed(row) and row["conflicts"] == "0" for row in rows)
    kept = sum((values.RECORDS / f"{row['name']}.log").exists() for row in rows)
    return line(name, len(rows), *counts, len(rows) - sum(counts), at_once, f"{min(sizes)} to {max(sizes)}",
                f"{statistics.median(took):.2f}", f"{max(took):.1f}", f"{sum(took):.0f}", kept)


def families(rows: Sequence[Row]) -> str:
    heads = ["Family", "Projects", "Optimal", "No schedule", "Open", "At once", "Activities", "Median s", "Most s",
             "All s",
             "Records here"]
    found = [family(name, list(group)) for name, group in groupby(rows, lambda row: row["family"])]
    return line(*heads) + "|" + "---|" * len(heads) + "\n" + "".join(found) + family("all", rows)


def challenges(rows: Sequence[Row]) -> str:
    found = [line(f"`{row['name']}`", row["activities"], row["makespan"] or "none known", row["bound"],
                  row["published"])
             for row in rows if not is_closed(row)]
    heads = ["Project", "Activities", "Makespan", "Bound", "Published"]
    return line(*heads) + "|" + "---|" * len(heads) + "\n" + "".join(found)


def citing(rows: Sequence[Row]) -> str:
    """How to cite the table, and what its searches took."""
    told = dict(re.findall(r'^(?:  - )?([a-z-]+): "?(.+?)"?$', CITATION.read_text(encoding="utf-8"), re.M))
    digest = hashlib.sha256(values.VALUES.read_bytes()).hexdigest()
    seconds = sum(float(row["seconds"] or 0) for row in rows)
    fields = {"title": told["title"], "author": f"{{{told['name']}}}", "year": told["date-released"][:4],
              "version": told["version"], "note": f"Reference values, SHA-256 {digest}"}
    entry = "".join(f"  {name} = {{{value}}},\n" for name, value in fields.items())
    return (f"```bibtex\n@software{{psmax,\n{entry}}}\n```\n\n`make reference-values` searches all {len(rows)} "
            f"projects anew in {seconds / 3600:.1f} hours of a processor.\n")


PARTS = {"families": families, "citing": citing, "challenges": challenges}


def text(page: str, rows: Sequence[Row]) -> str:
    """The page with its parts as the table has them."""
    for name, part in PARTS.items():
        told = f"<!-- {name} -->\n{part(rows)}<!-- end -->"
        page = re.sub(rf"<!-- {name} -->\n.*?<!-- end -->", lambda _: told, page, flags=re.S)
    return page


def written() -> dict[str, str]:
    """The page and its pictures, by the names of their files, as the table has them."""
    rows = list(values.read().values())
    pictures = {str(PAGE.parent / name): draw(rows) for name, draw in PICTURES.items()}
    return {str(PAGE): text(PAGE.read_text(encoding="utf-8"), rows), **pictures}


def write() -> None:
    for path, content in written().items():
        write_whole(path, content.encode())


if __name__ == "__main__":
    write()
