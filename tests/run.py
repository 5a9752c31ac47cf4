#!/usr/bin/env python3
"""tests/run.py PROGRAM [--only WORD] [--cases FILE ..]

Runs the program on every case of the files, each in a new folder. FILE is tests/cases.jsonl and examples/cases.jsonl
if not said. Prints each failure, and last 'N passed, M failed'.

A case is one line of JSON with a name, args and exit, and with those of the following that matter:
  stdin         an input
  stdin_pieces  standard input is a pipe that holds at most so many bytes at once
  files         the files that are made before the run
  stdout        the whole of standard output
  stdout_first  its first line alone
  stdout_json   members of the line of JSON that it is
  stdout_to     a device, or the end of a file of the folder, in place of a pipe
  stdout_limit  standard output is a file that may have so many bytes
  stderr        the whole of standard error
  out_files     files as they are after the run, "no such file" where there is none
  verified      a project, and the name of a file with a record. `verify` and the checker in Python of that kind of
                record must accept the record with the verdict that was printed
What is wanted of stdout, stderr and files is a text or an input. VERSION stands for the version of the package. A word
that is not UTF-8 has its bytes as Python's os.fsdecode gives them. An input is one of
  {"text": TEXT}            this text
  {"hex": DIGITS}           these bytes, in base 16
  {"file": NAME}            a file of inputs/ beside the cases, with "cut": its first so many bytes,
                            with "append": and then this text
  {"repeat": [TEXT, N]}     the text so many times
  {"made": [NAME, WORD]}    what a script of inputs/ prints for this word
  {"concat": [INPUT, ..]}   these one after another
  {"path": PATH}            this file or device itself, which for standard input may be one of the case's files
and one of the files may be
  {"link": NAME}            a symbolic link to another file
  {"second_name": NAME}     another file under a second name"""
import contextlib
import functools
import json
import os
import sys
from collections.abc import Iterator, Mapping, Sequence
from pathlib import Path
from typing import Any

import harness
import verify_log
from channels import given, limit_files
from harness import TOP, Verdicts
from psmax import __version__

Spec = Mapping[str, Any]


def content(spec: Spec | None, inputs: Path) -> bytes:
    if spec is None:
        return b""
    if "text" in spec:
        return str(spec["text"]).encode()
    if "concat" in spec:
        return b"".join(content(part, inputs) for part in spec["concat"])
    if "hex" in spec:
        return bytes.fromhex(spec["hex"])
    if "made" in spec:
        name, word = spec["made"]
        return harness.ended([sys.executable, inputs / name, word])[1]
    if "repeat" in spec:
        text, times = spec["repeat"]
        return str(text).encode() * int(times)
    data: bytes = (inputs / spec["file"]).read_bytes()
    return data[:spec.get("cut", len(data))] + str(spec.get("append", "")).encode()


def make(path: Path, spec: Spec, inputs: Path) -> None:
    if "link" in spec:
        path.symlink_to(spec["link"])
    elif "second_name" in spec:
        path.hardlink_to(path.parent / spec["second_name"])
    else:
        path.write_bytes(content(spec, inputs))


def otherwise(what: str, got: bytes, wanted: str | Spec, inputs: Path) -> Iterator[str]:
    want = wanted.encode() if isinstance(wanted, str) else content(wanted, inputs)
    if got != want:
        yield f"{what} {got[:300]!r}, not {want[:300]!r}"


def unverified(program: str, folder: Path, inputs: Path, out: bytes, project: Spec, record: str) -> Iterator[str]:
    """What is wrong with a record: the program and a checker that shares nothing with it must accept it with the
    verdict, which for a search that was stopped is its bound."""
    if not (folder / record).exists():
        yield f"no {record}"
        return
    (folder / ".project").write_bytes(content(project, inputs))
    answer, shown = out.split(b"\n")[0], (folder / record).read_bytes()
    want = b"proved " + answer[max(answer.find(b"bound "), 0):] + b"\n"
    name, *more = ["verify_log.py"] if shown.startswith(verify_log.TITLE) else ["verify.py", record]
    judges: list[list[object]] = [[program, "verify", "--project", ".project"],
                                  [sys.executable, TOP / "tests" / name, ".project", *more]]
    for words in judges:
        if (said := harness.ended(words, shown, cwd=folder)) != (0, want, b""):
            yield f"{words[1]}: {said}, not {want!r}"


def other_members(out: bytes, members: Spec) -> Spec:
    """The members that a line of JSON has otherwise; all of them where it is no line of JSON."""
    try:
        found = json.loads(out)
    except ValueError:
        return members
    return {name: found.get(name, "missing") for name, value in members.items() if found.get(name, "missing") != value}


@contextlib.contextmanager
def standard_input(case: Spec, folder: Path, inputs: Path) -> Iterator[int]:
    spec = case.get("stdin")
    giver = None
    if spec and "path" in spec:
        source = os.open(folder / spec["path"], os.O_RDONLY)  # may be a folder, which `open` refuses
    elif "stdin_pieces" in case:
        source, giver = given(content(spec, inputs), case["stdin_pieces"])
    else:
        (folder / ".stdin").write_bytes(content(spec, inputs))
        source = os.open(folder / ".stdin", os.O_RDONLY)
        (folder / ".stdin").unlink()
    try:
        yield source
    finally:
        os.close(source)
        if giver:
            giver.join()


def ended(program: str, case: Spec, folder: Path, inputs: Path) -> harness.Ended:
    words, limit = [program, *case["args"]], case.get("stdout_limit")
    to = folder / (".stdout" if limit is not None else case.get("stdout_to", ""))
    limited: dict[str, Any] = {} if limit is None else {"preexec_fn": functools.partial(limit_files, limit)}
    with standard_input(case, folder, inputs) as stdin:
        if to == folder:
            return harness.ended(words, stdin=stdin, cwd=folder)
        with open(to, "ab") as stdout:
            status, out, fault = harness.ended(words, stdin=stdin, stdout=stdout, cwd=folder, **limited)
    return status, to.read_bytes() if limit is not None else out, fault


def faults(program: str, case: Spec, inputs: Path) -> Iterator[str]:
    """What is wrong with a case."""
    with harness.new_folder() as folder:
        for name, spec in case.get("files", {}).items():
            make(folder / name, spec, inputs)
        status, out, fault = ended(program, case, folder, inputs)
        for name, spec in case.get("out_files", {}).items():
            got = (folder / name).read_bytes() if (folder / name).exists() else b"no such file"
            yield from otherwise(name, got, spec, inputs)
        if "verified" in case:
            yield from unverified(program, folder, inputs, out, *case["verified"])
    if status != case["exit"]:
        yield f"exit {status}, not {case['exit']}"
    for name, got in (("stdout", out), ("stderr", fault), ("stdout_first", out.split(b"\n")[0])):
        if name in case:
            yield from otherwise(name, got, case[name], inputs)
    if other := other_members(out, case.get("stdout_json", {})):
        yield f"members {other}, not {case['stdout_json']}"


def verdicts(words: Sequence[str]) -> Verdicts:
    parser = harness.Words(__doc__, "program")
    parser.add_argument("--only", default="")
    parser.add_argument("--cases", nargs="+", type=Path,
                        default=[TOP / "tests/cases.jsonl", TOP / "examples/cases.jsonl"])
    o = parser.parse_args(words)
    for cases in (path.resolve() for path in o.cases):
        inputs = cases.parent if cases.parent.name == "examples" else cases.parent / "inputs"
        for case in map(json.loads, cases.read_text().replace("VERSION", __version__).splitlines()):
            if o.only in case["name"]:
                found = "".join(f"\n    {fault}" for fault in faults(o.program, case, inputs))
                yield f"{case['name']}: {' '.join(case['args'])}", found or None


if __name__ == "__main__":
    harness.run(verdicts)
