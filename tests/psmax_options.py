#!/usr/bin/env python3
"""tests/psmax_options.py PSMAX

Looks at what each option of `psmax solve` does to a search that no contract tells: how many workers there are, also
where the search begins with starts or writes a record; that several workers answer by a line of JSON, too; and that a
search may take more nodes than it takes by default. The last line counts what was looked at."""
import json
import pathlib
import subprocess
import time
from collections.abc import Sequence

import harness
import networks
from harness import Verdicts

HARD = networks.project(100, 1, 0).text()  # is not solved within a million nodes
EASY = harness.seeded(10, 1)[1]
# Ten activities of one period that need two of three units each: their orders are more than a million nodes.
ORDERS = "10 1 0 0\n%s0 1 0 0\n%s11 1 0 0\n3\n" % (
    "".join(f"{i} 1 0\n" for i in range(12)), "".join(f"{i} 1 1 2\n" for i in range(1, 11)))
WORKERS: Sequence[tuple[int, Sequence[str]]] = (
    (2, ()), (3, ("--json",)), (3, ("--start", "starts")), (3, ("--record", "record")), (64, ()),
)


def tasks(process: int) -> int:
    return len(list(pathlib.Path(f"/proc/{process}/task").glob("*")))


def workers(words: Sequence[str], folder: pathlib.Path, wanted: int) -> int:
    """How many workers a search has. Its first thread waits for them."""
    with subprocess.Popen(words, stdin=subprocess.PIPE, stdout=subprocess.DEVNULL, cwd=folder) as run:
        assert run.stdin is not None
        run.stdin.write(HARD)
        run.stdin.close()
        while run.poll() is None and tasks(run.pid) <= wanted:
            time.sleep(0.001)
        time.sleep(0.1)
        found = tasks(run.pid) - 1
        run.kill()
    return found


def verdicts(words: Sequence[str]) -> Verdicts:
    program = harness.Words(__doc__, "program").parse_args(words).program
    with harness.new_folder() as folder:
        answer = harness.ended([program, "solve", "--nodes", "1000"], HARD)[1]
        (folder / "starts").write_bytes(answer.partition(b"\n")[2])
        for count, more in WORKERS:
            found = workers([program, "solve", "--nodes", "20000", "--workers", str(count), *more], folder, count)
            yield f"{count} workers {' '.join(more)}", None if found == count else f"{found} workers"
    lines = harness.ended([program, "solve", "--workers", "3", "--json"], EASY)[1].splitlines()
    status = [json.loads(line)["status"] for line in lines if line.startswith(b"{")]
    yield "workers answer by a line of JSON", None if status == ["optimal"] else repr(lines)
    for nodes, wanted in ((), 3), (("--nodes", "3000000"), 0):
        exit_status = harness.ended([program, "solve", *nodes], ORDERS.encode())[0]
        yield f"solve {' '.join(nodes)}", None if exit_status == wanted else f"exit status {exit_status}"


if __name__ == "__main__":
    harness.run(verdicts)
