"""The crates of crates.txt: what each stands on, its layer, and what a change of it has proved again."""
import functools
import re

from harness import TOP

# The functions from `main` of psprove to the loop of its engine, each with its file in crates/. Each calls the next.
FRAMES = (
    ("psprove/src/main.rt", "main"), ("psprove/src/solve.rt", "solve"), ("psprove_run/src/running.rt", "solve"),
    ("psprove_run/src/running.rt", "solve_as"), ("psprove_run/src/running.rt", "solve_reply"),
    ("psprove_run/src/solving.rt", "solved"), ("psprove_run/src/found.rt", "find"), ("session/src/session.rt", "run"),
    ("session/src/session.rt", "run_jobs"), ("session/src/job.rt", "search_first"), ("session/src/link.rt", "search"),
    ("strategies/src/solver.rt", "advance"), ("strategies/src/turns.rt", "advance"), ("engine/src/search.rt", "search"),
)
TABLE = "| Crate | Layer | Crates to prove again after a change | Of these, in psprove's search |\n|---|---|---|---|\n"
SEARCH = ("strategies", "session", "psprove_run", "psprove")


@functools.cache
def crates() -> dict[str, list[str]]:
    """The crates of the repository that each stands on."""
    lines = re.findall(r"^(\w+)[^:\n]*:(.*)$", (TOP / "crates.txt").read_text(), re.M)
    names = {name for name, _ in lines}
    return {name: [below for below in rest.split() if below in names] for name, rest in lines}


@functools.cache
def layer(crate: str) -> int:
    return 1 + max((layer(below) for below in crates()[crate]), default=0)


@functools.cache
def below(crate: str) -> frozenset[str]:
    """All that a crate stands on."""
    found = frozenset(crates()[crate])
    return found.union(*map(below, found))


def proved_again(crate: str) -> list[str]:
    """The crates that are proved again where this one changes: itself, and those above it."""
    return [other for other in crates() if other == crate or crate in below(other)]


def table() -> str:
    """The table of ARCHITECTURE: a row for each crate, the lowest first."""
    rows = []
    for crate in sorted(crates(), key=lambda name: (layer(name), name)):
        again = proved_again(crate)
        own = ", ".join(f"`{name}`" for name in SEARCH if name in again) or "none"
        rows.append(f"| `{crate}` | {layer(crate)} | {len(again)} | {own} |\n")
    return TABLE + "".join(rows)


def body(file: str, function: str) -> str:
    """The functions of this name in a file, without their names."""
    whole = rf"^((?:    )?)(?:pub(?:\(\w+\))? )?fn {function}\b(.*?)^\1\}}$"
    return "".join(found for _, found in re.findall(whole, (TOP / "crates" / file).read_text(), re.M | re.S))


def frames() -> list[str]:
    """The functions from `main` of psprove to the loop of its engine. A way that is broken is a ValueError."""
    for (file, name), (_, called) in zip(FRAMES, FRAMES[1:]):
        if not re.search(rf"\b{called}(?:::<[^(]*>)?\(", body(file, name)):
            raise ValueError(f"{name} of {file} doesn't call {called}")
    return [f"{file} {name}" for file, name in FRAMES]
