#!/usr/bin/env python3
"""tests/unproved.py CRATE_FOLDER PROGRAM

Builds the program of a crate without proving it, for tries alone: `rt try` builds it to run it once, and what it ran is
kept. The program looks at each of its accesses, as AddressSanitizer does, so it is slow and takes much memory."""
import contextlib
import os
import pathlib
import subprocess
import sys
import tempfile
import time

RUN = """#!/bin/sh
exec {libraries}/ld-linux-x86-64.so.2 --inhibit-cache --library-path {libraries} {program} "$@"
"""


def libraries() -> pathlib.Path:
    """The folder of the libraries with which the toolchain links a program."""
    page = subprocess.run(["rt", "doc"], stdout=subprocess.PIPE, check=True, text=True).stdout
    return pathlib.Path(page.strip()).parent / "toolchain" / "lib"


def build(crate: pathlib.Path, program: pathlib.Path) -> bool:
    """Builds a program, as a script that runs the file beside it. Whether there is one."""
    kept = program.with_suffix(".unproved")
    kept.unlink(missing_ok=True)
    with tempfile.TemporaryDirectory(dir=program.parent) as name:
        trying = subprocess.Popen(["rt", "try", "--", "--version"], cwd=crate, env={**os.environ, "TMPDIR": name},
                                  stdin=subprocess.DEVNULL, stdout=subprocess.DEVNULL, stderr=subprocess.DEVNULL)
        while trying.poll() is None:
            for built in pathlib.Path(name).glob("*/*/program"):
                # A second name keeps the file once `rt try` has removed the first.
                with contextlib.suppress(FileExistsError, FileNotFoundError):
                    os.link(built, kept)
            time.sleep(0.002)  # the program runs for some hundredths of a second
    program.write_text(RUN.format(libraries=libraries(), program=kept))
    program.chmod(0o755)
    return kept.exists()


if __name__ == "__main__":
    if len(sys.argv) != 3:
        sys.exit(__doc__)
    sys.exit(not build(pathlib.Path(sys.argv[1]), pathlib.Path(sys.argv[2]).resolve()))
