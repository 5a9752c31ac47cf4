#!/usr/bin/env python3
"""tests/lint.py

Checks the types and the style of scripts: those in Python by mypy and flake8, those of the shell by shellcheck. Says
which of these tools are not here. Prints last 'N passed, M failed', over the tools."""
import os
import shutil
from collections.abc import Sequence

import harness
from harness import TOP, Verdicts

TOOLS: dict[str, list[str]] = {
    "mypy": [], "flake8": [], "shellcheck": ["psmax", "psprove", "bench/slurm-local"]}
SECONDS = 600


def verdicts(words: Sequence[str]) -> Verdicts:
    harness.Words(__doc__).parse_args(words)
    environment = {**os.environ, "MYPY_CACHE_DIR": "build/mypy"}
    for tool, given in TOOLS.items():
        if shutil.which(tool):
            status, out, fault = harness.ended([tool, *given], seconds=SECONDS, cwd=TOP, env=environment)
            yield tool, None if status == 0 else f"\n{(out + fault).decode()}"
        else:
            print(f"left out: {tool} isn't here")


if __name__ == "__main__":
    harness.run(verdicts)
