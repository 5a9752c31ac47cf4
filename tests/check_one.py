#!/usr/bin/env python3
"""tests/check_one.py CRATE_FOLDER FUNCTION [WORDS..]

Proves the functions of a name in a crate, over the sources of the crates below: each is checked against the contracts
of what it calls, and nothing below has to be proved or built. That takes some minutes of a processor, most of it to
load. It is no verdict: `rt ci` is. Further words go to `rattle check`, which the library of `rt` calls."""
import importlib.machinery
import importlib.util
import os
import shutil
import subprocess
import sys
import tempfile
import types

sys.dont_write_bytecode = True


def library() -> types.ModuleType:
    """The library of the command rt, which knows the words of a check."""
    path = os.path.join(os.path.dirname(os.path.realpath(shutil.which("rt") or "rt")), "rtlib.py")
    spec = importlib.util.spec_from_loader("rtlib", importlib.machinery.SourceFileLoader("rtlib", path))
    assert spec is not None and spec.loader is not None
    module = importlib.util.module_from_spec(spec)
    sys.modules["rtlib"] = module
    spec.loader.exec_module(module)
    return module


def main(folder: str, function: str, more: list[str]) -> int:
    rt, here = library(), os.path.realpath(folder)
    crate = rt.Crate(here, rt.root_above(here) or here, {})
    with tempfile.TemporaryDirectory() as kept:
        keeping = [] if "--incremental" in more else ["--incremental", kept]
        words = crate.words(["--jobs", "1", "--only", function, *more], as_source=True)
        return subprocess.run([rt.RATTLE, "check", *words, *keeping], cwd=here, stdin=subprocess.DEVNULL).returncode


if __name__ == "__main__":
    if len(sys.argv) < 3:
        sys.exit(__doc__)
    sys.exit(main(sys.argv[1], sys.argv[2], sys.argv[3:]))
