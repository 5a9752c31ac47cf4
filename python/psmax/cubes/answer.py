"""What a worker answers, looked at before anything is done with it: it names no files, and says nothing of another
form."""
import hashlib
import pathlib
import re
import zlib
from itertools import pairwise

from .cube import MADE, Row
from .folder import INCOMING, digest_of

SHA256, NAME = re.compile("[0-9a-f]{64}"), re.compile("[01]{1,64}")
STATES = ("refuted", "open")
MOST_BYTES = 1 << 30  # of a file that crosses the network
MOST = 10**15  # of a number
STRANGE = "the worker's answer is of no known form"


class Strange(Exception):
    """An answer that can't be one of a search."""


def check_answer(row: object, folder: pathlib.Path, number: int, ends: int) -> Row:
    """The answer with its files as bytes, or none where they lie in the folder. Starts are those of activities 0 to
    `ends`."""
    try:
        assert isinstance(row, dict)
        found: Row = {"cube": row["cube"], "starts": row["starts"], "pieces": [*map(piece, row["pieces"])],
                      "conflicts": check_whole(row["conflicts"]), "record_bytes": check_whole(row["record_bytes"]),
                      "seconds": float(row["seconds"])}
        assert found["cube"] in STATES and 0 <= found["seconds"] < MOST
        assert found["starts"] is None or len([*map(check_whole, found["starts"])]) == ends + 1
        names = sorted(one["name"] for one in found["pieces"])
        assert names in ([], [""]) or are_all(names)
        return found | {"files": {kind: check_file(row["files"][kind], folder, number, kind) for kind in MADE}}
    except (AssertionError, LookupError, TypeError, ValueError, OverflowError, zlib.error) as fault:
        raise Strange(f"{STRANGE}" + (f": {fault}" if isinstance(fault, ValueError) else "")) from None


def are_all(names: list[str]) -> bool:
    """Whether these are the parts of a cube: none is part of another, and nothing is left over."""
    return (all(map(NAME.fullmatch, names)) and not any(other.startswith(name) for name, other in pairwise(names))
            and sum(2 ** (64 - len(name)) for name in names) == 2**64)


def check_whole(number: object) -> int:
    if not isinstance(number, int) or isinstance(number, bool) or not -MOST < number < MOST:
        raise TypeError
    return number


def piece(told: Row) -> Row:
    arcs = [[*map(check_whole, arc)] for arc in told["arcs"]]
    assert isinstance(told["name"], str) and all(len(arc) == 3 for arc in arcs)
    return {"name": told["name"], "arcs": arcs}


def left(number: int, sha256: str, kind: str) -> str:
    """What a worker that sees the folder calls a file there."""
    return f"{INCOMING}/{number}-{sha256}.{kind}"


def check_file(told: Row, folder: pathlib.Path, number: int, kind: str) -> Row:
    """The name of a file in the folder is made of its digest, which is that of its bytes."""
    sha256, packed = told["sha256"], told["data"]
    assert SHA256.fullmatch(sha256)
    if packed is None:
        found = digest_of(folder / left(number, sha256, kind))
        data = None
    else:
        data = unpacked(packed)
        found = hashlib.sha256(data).hexdigest()
    if found != sha256:
        raise ValueError(f"its {kind} is not what it says")
    return {"sha256": sha256, "data": data}


def unpacked(packed: bytes) -> bytes:
    engine = zlib.decompressobj()
    data = engine.decompress(packed, MOST_BYTES)
    if not engine.eof:
        raise ValueError("a file is cut off, or too long")
    return data
