#!/usr/bin/env python3
"""tests/devices.py PROGRAM [--proofs] [--only WORD]

Runs psmax, or with --proofs psprove, on devices of the system that go in pieces or fail: pipes that give few bytes at
once; standard input that fails after each number of bytes, that is a folder, that is closed, or that never ends; other
inputs and records whose names are of folders, of sockets, of links to themselves, or of nothing; files that may have no
more than each number of bytes, for the answer and for the record; a full device; closed output; and readers that have
gone. Standard error fails, too, in searches that report on it. Where a device fails the program has to say so, with
status 1, and what it wrote has to be a beginning of what it was to write.

The last line counts the runs."""
import os
import pty
import resource
import socket
import subprocess
import tempfile
import tty
from collections.abc import Callable, Iterator, Sequence
from pathlib import Path
from types import TracebackType
from typing import Any

import harness
import judges
import verify
from calls import CALLS, PROOFS, SEARCHES, Call, without_reports
from channels import given, limit_files
from harness import TIMEOUT, Ended, Verdicts
from log_bytes import bodies_of, framed

Tried = Iterator[tuple[Call, str, bool, Ended]]  # a call, a device, whether it went as it has to, and how it ended
INPUTS = "--project", "--start", "--resume", "--under", "--tree"
MOST_MEMORY = 100 << 20  # bytes that a run on endless input may take
WAITS = b"psprove: waits for a project on standard input\n"  # at a terminal


class Run:
    """One run of the program in a folder of its own, with a call's texts."""

    def __init__(self, program: str, call: Call) -> None:
        self.program, self.call = program, call

    def ended(self, **how: Any) -> Ended:
        """How it ends."""
        return self.told(*harness.ended([self.program, *self.call.words], self.call.text, cwd=self.folder, **how))

    def told(self, status: int | None, out: bytes, fault: bytes) -> Ended:
        """The same without reports."""
        return status, out, without_reports(fault) if "--progress" in self.call.words else fault

    def __enter__(self) -> "Run":
        self.holder = tempfile.TemporaryDirectory()
        self.folder = Path(self.holder.name)
        self.call.put_files(self.folder)
        return self

    def __exit__(self, kind: type[BaseException] | None, fault: BaseException | None,
                 trace: TracebackType | None) -> None:
        self.holder.cleanup()

    def record(self) -> bytes:
        return self.bytes_of("record")

    def part(self) -> bytes:
        """What is left of a record that was not written whole."""
        return self.bytes_of("record.part")

    def is_part_right(self) -> bool:
        """Whether that is none, or a log that is cut off, and right so far."""
        part = self.part()
        return not part or judges.by_script_of_logs(verify.Project(self.call.project), part, True)[0] == 0

    def bytes_of(self, name: str) -> bytes:
        """The bytes of a file, none where the name is none of a file."""
        file = self.folder / name
        return file.read_bytes() if os.path.isfile(file) else b""


class Calls:
    """The program, and its calls that have one answer and one record."""

    def __init__(self, program: str, is_psprove: bool) -> None:
        self.program, self.name = program, "psprove" if is_psprove else "psmax"
        calls = [*PROOFS, *map(self.settled, SEARCHES)] if is_psprove else CALLS
        self.exact = [call for call in calls if not call.answer]
        self.answered = [call for call in self.exact if call.usual[1]]
        self.open = [call for call in calls if call.answer]

    def settled(self, call: Call) -> Call:
        """The call with the answer and the record that it has here, where the same ones come again."""
        if "--jobs" in call.words:
            return call
        with Run(self.program, call) as run:
            (status, out, fault), record = run.ended(), run.record()
        if status is None or not call.is_usual((status, out, fault), record):
            return call
        return call.settled((status, out, fault), record)

    def each_kind(self) -> list[Call]:
        """A call of each command, with one job and with several."""
        def kind(call: Call) -> tuple[str, bool, bool]:
            return call.words[0], "--jobs" in call.words, self.reads_input(call)

        return list({kind(call): call for call in self.open + self.answered}.values())

    def each_options(self) -> list[Call]:
        """A call of each command with the same options."""
        def options(call: Call) -> frozenset[str]:
            return frozenset(word for word in call.words if word.startswith("--"))

        calls = self.open + self.answered
        return list({(call.words[0], options(call)): call for call in calls if call.usual[0] in (0, 3)}.values())

    def reads_input(self, call: Call) -> bool:
        """Whether standard input is read. psprove judges the project first, which is the second input of verify. Cubes
        and their logs are in files."""
        is_refused = self.name == "psprove" and call.words[0] == "verify" and call.usual[0] == 2
        return not is_refused and call.words[0] != "join" and "--under" not in call.words

    def fault(self, what: str) -> bytes:
        return f"{self.name}: {what}\n".encode()

    def is_fault(self, ended: Ended, run: Run, what: str, status: int = 1) -> bool:
        """Whether a run ended with the fault alone, and no record was written. A beginning of one may be left beside
        it."""
        return ended == (status, b"", self.fault(what)) and run.record() == b"" and run.is_part_right()


def put_socket(file: Path) -> None:
    with socket.socket(socket.AF_UNIX) as made:
        made.bind(str(file))


# What stands under a name and is no file that can be read or written.
UNREADABLE: dict[str, Callable[[Path], object]] = {
    "nothing": lambda file: None,
    "a folder": Path.mkdir,
    "a link to itself": lambda file: file.symlink_to(file.name),
    "a path through a file": lambda file: file.symlink_to("/dev/null/file"),
    "a name that is too long": lambda file: file.symlink_to("x" * 300),
    "a socket": put_socket,
    "what cannot be read": lambda file: file.symlink_to("/proc/self/mem"),
}


def usual(calls: Calls) -> Tried:
    """Nothing fails."""
    for call in calls.exact + calls.open:
        with Run(calls.program, call) as run:
            ended = run.ended()
            yield call, "devices that do not fail", call.is_usual(ended, run.record()), ended


def in_pieces(calls: Calls) -> Tried:
    """Standard input and the second input by pipes that give few bytes at once."""
    for call in calls.exact:
        for most in (1, 7):
            with Run(calls.program, call) as run:
                pipes = [given(text, most) for text in (call.text, call.second, call.more)]
                (reads, _), (second, _), (more, _) = pipes
                for name, pipe in (("second", second), ("more", more)):
                    (run.folder / name).unlink(missing_ok=True)
                    os.symlink(f"/dev/fd/{pipe}", run.folder / name)
                ended = run.ended(stdin=reads, pass_fds=(second, more))
                for pipe, giver in pipes:
                    os.close(pipe)
                    giver.join()
                yield call, f"pieces of {most}", call.is_usual(ended, run.record()), ended


def failing_input(calls: Calls) -> Tried:
    """Standard input that fails after so many bytes: a terminal whose other side has gone."""
    for call in filter(calls.reads_input, calls.each_kind()):
        for room in range(len(call.text) + 1):
            with Run(calls.program, call) as run:
                master, slave = pty.openpty()
                tty.setraw(slave)
                os.write(slave, call.text[:room])
                os.close(slave)
                status, out, faults = run.ended(stdin=master)
                ended = status, out, faults.removeprefix(WAITS)
                os.close(master)
                yield call, f"{room} bytes and a failure", calls.is_fault(ended, run, "cannot read"), ended


def no_input(calls: Calls) -> Tried:
    """A folder, and nothing at all, in place of standard input; and a folder in place of the second input."""
    for call in filter(calls.reads_input, calls.exact + calls.open):
        with Run(calls.program, call) as run:
            stdin = os.open(run.folder, os.O_RDONLY)
            ended = run.ended(stdin=stdin)
            os.close(stdin)
            yield call, "a folder", calls.is_fault(ended, run, "cannot read"), ended
        with Run(calls.program, call) as run:
            ended = run.ended(stdin=None, preexec_fn=lambda: os.close(0))
            yield call, "closed input", calls.is_fault(ended, run, "cannot read"), ended
        if "second" in call.words and call.usual[0] != 2:
            with Run(calls.program, call) as run:
                (run.folder / "second").unlink()
                (run.folder / "second").mkdir()
                ended = run.ended()
                yield call, "a folder as second input", calls.is_fault(ended, run, "cannot read"), ended


def no_files(calls: Calls) -> Tried:
    """Names of what cannot be opened or read, for each file of a call. Nothing is written then. A record goes where a
    link leads, which is what the fault names then."""
    for call in calls.each_options():
        for name in call.files(*INPUTS, "--record"):
            for what, put in UNREADABLE.items():
                if name == "record" and what in ("nothing", "what cannot be read"):
                    continue  # it is written
                with Run(calls.program, call) as run:
                    file = run.folder / name
                    file.unlink(missing_ok=True)
                    put(file)
                    ended = run.ended()
                    leads_to = os.readlink(file) if name == "record" and file.is_symlink() else name
                    told = "cannot read", f"cannot open {name}", f"cannot open {leads_to}"
                    yield call, f"{what} as {name}", any(calls.is_fault(ended, run, one) for one in told), ended


def endless_input(calls: Calls) -> Tried:
    """A device that always has more bytes. No more is read than a text may have, as far as there is memory: psmax takes
    the bytes for a tree. Of a log of lemmas one event is read, and all bytes of one to go on from."""
    def limit() -> None:
        resource.setrlimit(resource.RLIMIT_AS, (MOST_MEMORY, MOST_MEMORY))

    for call in filter(calls.reads_input, calls.each_options()):
        with Run(calls.program, call) as run, open("/dev/zero", "rb") as zeros:
            ended = run.ended(stdin=zeros, preexec_fn=limit)
            is_tree = calls.name == "psmax" and "--partial" not in call.words
            verified = ("out of memory", 1) if is_tree else ("event 0: form", 4)
            said, status = verified if call.words[0] == "verify" else ("too long", 2)
            yield call, "endless input", calls.is_fault(ended, run, said, status), ended
    for call in calls.each_options():
        for name in call.files(*INPUTS):
            with Run(calls.program, call) as run:
                (run.folder / name).unlink()
                (run.folder / name).symlink_to("/dev/zero")
                ended = run.ended(preexec_fn=limit)
                status, said = (1, "out of memory") if name == "more" else (2, "too long")
                yield call, f"endless {name}", calls.is_fault(ended, run, said, status), ended


def begun_record(calls: Calls, call: Call) -> int:
    """How many bytes of a record are written before the answer: of psprove's all but the claim, which a cube has none
    of."""
    if "--under" in call.words:
        return len(call.record)
    if calls.name == "psmax" or not call.record:
        return 0
    return len(call.record) - len(framed(bodies_of(call.record)[-1]))


def limited_files(calls: Calls) -> Tried:
    """The answer and the record in files that may have no more than so many bytes."""
    for call in calls.answered:
        status, out, fault = call.usual
        begun = begun_record(calls, call)
        for room in range(max(len(out), len(call.record)) + 1):
            with Run(calls.program, call) as run:
                with open(run.folder / "out", "wb") as stdout:
                    code, _, told = run.ended(stdout=stdout, preexec_fn=lambda: limit_files(room))
                ended: Ended = code, (run.folder / "out").read_bytes(), told
                wanted: Ended
                if begun > room:
                    wanted, record = (1, b"", calls.fault("cannot write")), call.record[:room]
                elif len(out) > room:
                    wanted, record = (1, out[:room], calls.fault("cannot write")), call.record[:begun]
                elif len(call.record) > room:
                    wanted, record = (1, out, calls.fault("cannot write")), call.record[:room]
                else:
                    wanted, record = call.usual, call.record
                part = record if calls.name == "psprove" else b""
                is_left = run.record() == record if wanted == call.usual else (run.record(), run.part()) == (b"", part)
                yield call, f"files of {room} bytes", ended == wanted and is_left, ended


def limited_files_of_several(calls: Calls) -> Tried:
    """The same for searches that don't end twice alike: the usual answer and record, or a fault and no record."""
    for call in (call for call in calls.open if "--record" in call.words):
        for room in range(65):
            with Run(calls.program, call) as run:
                with open(run.folder / "out", "wb") as stdout:
                    code, _, told = run.ended(stdout=stdout, preexec_fn=lambda: limit_files(room))
                ended: Ended = code, (run.folder / "out").read_bytes(), told
                is_refused = (code, told) == (1, calls.fault("cannot write")) and len(ended[1]) <= room
                is_left = run.record() == b"" and len(run.part()) <= (room if calls.name == "psprove" else 0)
                well = is_refused and is_left or call.is_usual(ended, run.record())
                yield call, f"files of {room} bytes", well, ended


def failing_output(calls: Calls) -> Tried:
    """A full device, closed output, and a reader that has gone, in place of the output."""
    for call in calls.answered + calls.open:
        with Run(calls.program, call) as run, open("/dev/full", "wb") as full:
            ended = run.ended(stdout=full)
            yield call, "a full device", calls.is_fault(ended, run, "cannot write"), ended
        with Run(calls.program, call) as run:
            ended = run.ended(stdout=None, preexec_fn=lambda: os.close(1))
            yield call, "closed output", calls.is_fault(ended, run, "cannot write"), ended
        with Run(calls.program, call) as run:
            reads, writes = os.pipe()
            os.close(reads)
            ended = run.ended(stdout=writes)
            os.close(writes)
            yield call, "a reader that has gone", calls.is_fault(ended, run, "cannot write"), ended
        with Run(calls.program, call) as run:
            ended = run.ended(stderr=None, preexec_fn=lambda: os.close(2))
            yield call, "closed faults", call.is_usual((*ended[:2], call.usual[2]), run.record()), ended


def failing_record(calls: Calls) -> Tried:
    """A full device, and a reader that has gone, in place of the record. psmax has answered by then, psprove has
    not."""
    def is_answered(call: Call, out: bytes) -> bool:
        if calls.name == "psprove":
            return out == b""
        return call.answer(out, b"") if call.answer else out == call.usual[1]

    def is_told(call: Call, ended: Ended) -> bool:
        return is_answered(call, ended[1]) and (ended[0], ended[2]) == (1, calls.fault("cannot write"))

    for call in (call for call in calls.answered + calls.open if call.record or call.answer
                 and "--record" in call.words):
        with Run(calls.program, call) as run:
            os.symlink("/dev/full", run.folder / "record")
            ended = run.ended()
            yield call, "a record on a full device", is_told(call, ended), ended
        if "--project" in call.words:
            continue  # it waits for no input, so it may write its few bytes while the reader is there
        with Run(calls.program, call) as run:
            os.mkfifo(run.folder / "record")
            started = subprocess.Popen([calls.program, *call.words], stdin=subprocess.PIPE, stdout=subprocess.PIPE,
                                       stderr=subprocess.PIPE, cwd=run.folder)
            os.close(os.open(run.folder / "record", os.O_RDONLY))  # the program has opened it by then
            out, fault = started.communicate(call.text, timeout=TIMEOUT)
            ended = run.told(started.returncode, out, fault)
            yield call, "a record whose reader has gone", is_told(call, ended), ended


def failing_reports(calls: Calls) -> Tried:
    """A full device, a reader that has gone, and files of few bytes, in place of standard error. A report that cannot
    be written is lost, and the answer is the usual one."""
    def is_usual(run: Run, ended: Ended) -> bool:
        return run.call.is_usual((*ended[:2], b""), run.record())

    for call in (call for call in calls.exact + calls.open if "--progress" in call.words):
        with Run(calls.program, call) as run, open("/dev/full", "wb") as full:
            ended = run.ended(stderr=full)
            yield call, "reports on a full device", is_usual(run, ended), ended
        with Run(calls.program, call) as run:
            reads, writes = os.pipe()
            os.close(reads)
            ended = run.ended(stderr=writes)
            os.close(writes)
            yield call, "reports whose reader has gone", is_usual(run, ended), ended
        with Run(calls.program, call) as run:
            ended = run.ended(stderr=None, preexec_fn=lambda: os.close(2))
            yield call, "reports to nobody", is_usual(run, ended), ended


PARTS = (usual, in_pieces, failing_input, no_input, no_files, endless_input, limited_files, limited_files_of_several,
         failing_output, failing_record, failing_reports)


def verdicts(words: Sequence[str]) -> Verdicts:
    parser = harness.Words(__doc__, "program")
    parser.add_argument("--proofs", action="store_true")
    parser.add_argument("--only", default="")
    o = parser.parse_args(words)
    calls = Calls(o.program, o.proofs)
    for part in PARTS:
        if o.only in part.__name__:
            for call, device, well, ended in part(calls):
                yield f"{call.name}, {device}", None if well else str(ended)


if __name__ == "__main__":
    harness.run(verdicts)
