"""Calls of psmax and of psprove on the smallest projects that reach each of their paths, and what they have to
answer."""
import json
import re
from collections.abc import Callable
from pathlib import Path

import judges
import verify
from harness import INPUTS, TOP, Ended
from log_bytes import text_of
from verify_log import TITLE, Claim, Clique, Event, Lemma, Push, Schedule


def project(name: str) -> bytes:
    return (INPUTS / f"{name}.sch").read_bytes()


def of_logs(name: str) -> bytes:
    return (TOP / "tests" / "logs" / name).read_bytes()


def log(events: str) -> bytes:
    """A log of lemmas whose events have these bytes, in base 16."""
    return TITLE + bytes.fromhex(events)


TWO, THREE, LAGS = project("two-jobs"), project("three-jobs-capacity-two"), project("three-jobs-lags")
FORCED, DEAD, CYCLE = project("forced-order"), project("two-jobs-close-lags"), project("two-jobs-positive-cycle")
WORKED, WORKED_LOG = of_logs("worked.sch"), of_logs("worked.log")
STARTS, OVERLOADED = b"0 0\n1 0\n2 3\n3 7\n", b"0 0\n1 0\n2 2\n3 6\n"
TWO_SOLVED = b"optimal 7\n0 0\n1 4\n2 0\n3 7\n"
TWO_RECORD = b"record 1\noptimal 7\nstarts 0 4 0 7\nsplit 0 1 2\ncut\nsolved\n"
DEAD_RECORD = b"record 1\nno schedule\nsplit 0 1 2\ndead\ndead\n"
LAGS_RECORD = b"record 1\noptimal 5\nstarts 0 0 2 1 5\nsplit 0 1 2\nsolved\ncut\n"
FORCED_SOLVED = b"optimal 9\n0 0\n1 6\n2 2\n3 0\n4 9\n"
FORCED_RECORD = (b"record 1\noptimal 9\nstarts 0 6 2 0 9\nsplit 0 2 3\nforce 3 1\ncut\nforce 3 1\n"
                 b"split 0 1 2\ncut\nsolved\n")
EMPTY_TIDY = b"0\t0\t0\t0\n0\t1\t0\n1\t1\t0\n0\t1\t0\n1\t1\t0\n"
SOLVE = ["solve"]
RECORD = ["solve", "--record", "record"]
START = ["solve", "--start", "second"]
RESUME = ["solve", "--resume", "more"]
UNTIL = ["--until", "more"]
CUBE = ["solve", "--under", "more", "--project", "second", "--record", "record"]
JOIN = ["join", "--project", "second", "--tree", "more"]
CHECK = ["check", "--project", "second"]
VERIFY = ["verify", "--project", "second"]


def shortest_of_three(out: bytes, record: bytes) -> bool:
    """Whether an answer is a shortest schedule of three jobs on two machines, and a record, if there is one, proves
    it."""
    first, *lines = out.decode().splitlines()
    starts = [int(line.split()[1]) for line in lines]
    judge = verify.Project(THREE)
    if first != "optimal 4" or not judge.is_feasible(starts) or starts[-1] != 4:
        return False
    return not record or judges.by_script(judge, record) == (0, b"proved optimal 4\n", b"")


REPORT = re.compile(rb"(?:\d+ s: (?:schedule|bound) .*|\{\"bound\":.*\})\n")


def without_reports(fault: bytes) -> bytes:
    """What stands on standard error beside whole reports of --progress."""
    return b"".join(line for line in fault.splitlines(keepends=True) if not REPORT.fullmatch(line))


class Call:
    """One call: its words, and the texts of standard input and of the files `second` and `more`; and the usual status,
    output and fault, and record."""

    def __init__(self, words: list[str], text: bytes, second: bytes = b"", exit: int = 0, out: bytes = b"",
                 fault: bytes = b"",
                 record: bytes = b"", answer: Callable[[bytes, bytes], bool] | None = None, more: bytes = b"") -> None:
        self.words, self.text, self.second, self.more = words, text, second, more
        self.usual: Ended = exit, out, fault
        self.record, self.answer, self.name = record, answer, " ".join(words)
        self.project = second if "--project" in words else text

    def is_usual(self, ended: Ended, record: bytes) -> bool:
        if "--progress" in self.words:
            ended = *ended[:2], without_reports(ended[2])
        if self.answer:
            return (ended[0], ended[2]) == (self.usual[0], b"") and self.answer(ended[1], record)
        return ended == self.usual and record == self.record

    def settled(self, ended: Ended, record: bytes) -> "Call":
        """The call with the answer and the record that it has here."""
        return Call(self.words, self.text, self.second, ended[0] or 0, *ended[1:], record, more=self.more)

    def files(self, *options: str) -> list[str]:
        """The names of its files after these options."""
        return [name for option, name in zip(self.words, self.words[1:]) if option in options]

    def put_files(self, folder: Path) -> None:
        """Writes its files."""
        (folder / "second").write_bytes(self.second)
        if "more" in self.words:
            (folder / "more").write_bytes(self.more)

    def is_want(self, ended: Ended, record: bytes) -> bool:
        """Whether a call ended for want of memory, or of a thread where it has workers or jobs."""
        status, out, fault = ended
        fault = without_reports(fault) if "--progress" in self.words else fault
        wants = [b"psmax: out of memory\n", b"psprove: out of memory\n"]
        if {"--workers", "--start", "--record"} & set(self.words):
            wants.append(b"psmax: cannot start a thread\n")
        if "--jobs" in self.words:
            wants.append(b"psprove: cannot start a thread\n")
        return status == 1 and out == b"" and fault in wants and record == b""


CALLS = [
    Call(["earliest"], TWO, out=b"earliest 4\n0 0\n1 0\n2 0\n3 4\n"),
    Call(["earliest"], CYCLE, out=b"positive cycle 2\n"),
    Call(["earliest"], TWO[:64], exit=2, fault=b"psmax: ends before word 32\n"),
    Call(SOLVE, TWO, out=TWO_SOLVED),
    Call(SOLVE, LAGS, out=b"optimal 5\n0 0\n1 0\n2 2\n3 1\n4 5\n"),
    Call(SOLVE, FORCED, out=FORCED_SOLVED),
    Call(SOLVE, DEAD, out=b"no schedule\n"),
    Call(SOLVE, CYCLE, out=b"no schedule\n"),
    Call([*SOLVE, "--nodes", "2"], LAGS, exit=3, out=b"feasible 6 bound 5\n0 0\n1 3\n2 0\n3 4\n4 6\n"),
    Call([*SOLVE, "--json"], TWO, out=b'{"bound":7,"makespan":7,"starts":[0,4,0,7],"status":"optimal"}\n'),
    Call([*SOLVE, "--json", "--nodes", "1"], TWO, exit=3,
         out=b'{"bound":7,"makespan":null,"starts":null,"status":"unknown"}\n'),
    Call([*SOLVE, "--workers", "1"], TWO, out=TWO_SOLVED),
    Call([*SOLVE, "--workers", "1"], FORCED, out=FORCED_SOLVED),
    Call([*SOLVE, "--workers", "2"], THREE, answer=shortest_of_three),
    Call([*SOLVE, "--workers", "2", "--record", "record"], THREE, answer=shortest_of_three),
    Call([*SOLVE, "--workers", "2"], DEAD, out=b"no schedule\n"),
    Call(START, TWO, STARTS, out=b"optimal 7\n" + STARTS),
    Call(START, TWO, OVERLOADED, exit=4, out=b"overload 2 0 2\n"),
    Call(START, TWO, b"0 0\n0 0\n", exit=2, fault=b"psmax: line 2: repeated\n"),
    Call(RECORD, TWO, out=TWO_SOLVED, record=TWO_RECORD),
    Call(RECORD, FORCED, out=FORCED_SOLVED, record=FORCED_RECORD),
    Call(RECORD, DEAD, out=b"no schedule\n", record=DEAD_RECORD),
    Call(RECORD, CYCLE, out=b"no schedule\n", record=b"record 1\nno schedule\ndead\n"),
    Call([*RECORD, "--nodes", "1"], TWO, exit=3, out=b"unknown bound 7\n"),
    Call([*RECORD, "--start", "second", "--json"], TWO, STARTS,
         out=b'{"bound":7,"makespan":7,"starts":[0,0,3,7],"status":"optimal"}\n',
         record=b"record 1\noptimal 7\nstarts 0 0 3 7\ncut\n"),
    Call(CHECK, STARTS, TWO, out=b"feasible 7\n"),
    Call(CHECK, b"0 1\n1 0\n2 2\n3 6\n", TWO, exit=4, out=b"start 1\nlag 0 1 0\noverload 2 0 2\n"),
    Call(CHECK, b"0 0\n1 0\n2 3\n", TWO, exit=2, fault=b"psmax: activity 3: no start\n"),
    Call(["tidy"], project("empty-project"), out=EMPTY_TIDY),
    Call(["tidy"], TWO, out=TWO.replace(b" ", b"\t")),
    Call(VERIFY, LAGS_RECORD, LAGS, out=b"proved optimal 5\n"),
    Call(VERIFY, FORCED_RECORD, FORCED, out=b"proved optimal 9\n"),
    Call(VERIFY, DEAD_RECORD, DEAD, out=b"proved no schedule\n"),
    Call(VERIFY, LAGS_RECORD.replace(b"0 1 2\n", b"0 1 3\n"), LAGS, exit=4, fault=b"psmax: line 4: set\n"),
    Call(VERIFY, LAGS_RECORD.replace(b"cut\n", b""), LAGS, exit=2, fault=b"psmax: line 6: short\n"),
    Call(VERIFY, WORKED_LOG, WORKED, out=b"proved optimal 8\n"),
    Call(VERIFY, WORKED_LOG[:-1], WORKED, exit=4, fault=b"psmax: event 6: short\n"),
    Call([*VERIFY, "--partial"], WORKED_LOG[:-1], WORKED, out=b"proved optimal 8\n"),
]


def parts(out: bytes) -> tuple[str, list[int]]:
    """The verdict and the starts of an answer of psprove, in lines or as JSON."""
    if out.startswith(b"{"):
        found = json.loads(out)
        is_none = found["starts"] is None
        return found["status"] if is_none else f"{found['status']} {found['makespan']}", found["starts"] or []
    first, *lines = out.decode().splitlines()
    return first, [int(line.split()[1]) for line in lines]


def stopped(text: bytes, makespan: int) -> Callable[[bytes, bytes], bool]:
    """Whether an answer of a search that was stopped is true of a project whose shortest schedule is so long: a
    feasible one, if any, and a bound, which a log proves, if there is one."""
    judge = verify.Project(text)

    def is_right(out: bytes, record: bytes) -> bool:
        said, starts = parts(out)
        kind, *numbers = [word for word in said.split() if word != "bound"]
        bound = int(numbers[-1])
        is_schedule = kind == "unknown"
        if kind == "feasible":
            is_schedule = judge.is_feasible(starts) and starts[-1] == int(numbers[0])
        if not is_schedule or bound > makespan:
            return False
        return not record or judges.by_script_of_logs(judge, record) == (0, b"proved bound %d\n" % bound, b"")

    return is_right


def solved(text: bytes, makespan: int | None) -> Callable[[bytes, bytes], bool]:
    """Whether an answer of psprove, in lines or as JSON, has a shortest schedule of a project, or says that there is
    none, and a log, if there is one, proves it."""
    judge = verify.Project(text)
    says = "no schedule" if makespan is None else f"optimal {makespan}"

    def is_right(out: bytes, record: bytes) -> bool:
        said, starts = parts(out)
        if said != says or out[-1:] != b"\n":
            return False
        if makespan is not None and not (judge.is_feasible(starts) and starts[-1] == makespan):
            return False
        return not record or judges.by_script_of_logs(judge, record) == (0, f"proved {says}\n".encode(), b"")

    return is_right


def in_cube(text: bytes, makespan: int | None, pieces: int = 0) -> Callable[[bytes, bytes], bool]:
    """Whether an answer is of a cube that is refuted, with a shortest schedule of so long if it has any, or that stays
    open and is split into so many pieces; and whether its log is right so far."""
    judge = verify.Project(text)

    def is_right(out: bytes, record: bytes) -> bool:
        found = json.loads(out)
        is_said = (found["cube"], len(found["pieces"])) == ("open" if pieces else "refuted", pieces)
        is_schedule = makespan is None or judge.is_feasible(found["starts"])
        return (is_said and found["makespan"] == makespan and is_schedule
                and judges.by_script_of_logs(judge, record, True)[0] == 0)

    return is_right


JSON = ["--json"]
JOBS = ["--jobs", "4"]
REPORTS = ["--progress", "json"]
# After the schedule of 7 periods both jobs are to run within 6, and take 7.
TWO_EVENTS: list[Event] = [Schedule([0, 0, 3, 7]), Lemma(0, [], [Push(Clique(0, 6, [1, 2]), None)]), Claim("optimal 7")]
TWO_LOG, TWO_CUT = text_of(TWO_EVENTS), text_of(TWO_EVENTS[:1])
WRONG_LOG = b"psprove: more: event %d is wrong\n"
PROOFS = [
    Call(VERIFY, WORKED_LOG, WORKED, out=b"proved optimal 8\n"),
    Call(VERIFY, log("0900010d0c15000c0102 02070e"), WORKED, out=b"proved bound 7\n"),
    Call(VERIFY, log("06160006000c10 0b00010502080c0806080306 02070a"), WORKED, out=b"proved bound 5\n"),
    Call(VERIFY, log("010b"), CYCLE, out=b"proved no schedule\n"),
    Call(VERIFY, log("06160006000c10 080001050208001103"), WORKED, exit=4, fault=b"psprove: event 2: lemma\n"),
    Call(VERIFY, WORKED_LOG[:-1], WORKED, exit=4, fault=b"psprove: event 6: short\n"),
    Call([*VERIFY, "--partial"], WORKED_LOG[:-1], WORKED, out=b"proved optimal 8\n"),
    Call(VERIFY, WORKED_LOG, WORKED[:20], exit=2, fault=b"psprove: ends before word 10\n"),
    Call(VERIFY, LAGS_RECORD, LAGS, out=b"proved optimal 5\n"),
    Call(VERIFY, LAGS_RECORD.replace(b"0 1 2\n", b"0 1 3\n"), LAGS, exit=4, fault=b"psprove: line 4: set\n"),
    Call(SOLVE, DEAD, out=b"no schedule\n"),
    Call(SOLVE, CYCLE, out=b"no schedule\n"),
    Call(START, TWO, STARTS, out=b"optimal 7\n" + STARTS),
    Call(START, TWO, OVERLOADED, exit=4, out=b"overload 2 0 2\n"),
    Call([*START, "--jobs", "2"], TWO, STARTS, out=b"optimal 7\n" + STARTS),
    Call([*SOLVE, "--jobs", "3"], DEAD, out=b"no schedule\n"),
    Call([*RECORD, "--start", "second"], TWO, OVERLOADED, exit=4, out=b"overload 2 0 2\n"),
    Call(RESUME, TWO, more=TWO_LOG, out=b"optimal 7\n" + STARTS),
    Call([*RESUME, "--record", "record"], TWO, more=text_of([Schedule([0, 0, 2, 6])]), exit=1, fault=WRONG_LOG % 1),
    Call(RESUME, TWO, more=b"record 1\n", exit=1, fault=WRONG_LOG % 0),
    Call([*RESUME, "--jobs", "2"], TWO, more=text_of([*TWO_EVENTS[:1], Lemma(0, [], [])]), exit=1, fault=WRONG_LOG % 2),
]
# The list of a tree of one cube, whose log is that of a search of the whole.
WHOLE = f"- {TOP / 'tests' / 'logs' / 'worked.log'} -\n".encode()
# Searches of which each answer and record that is right will do. With one job the same ones come again.
SEARCHES = [
    Call([*SOLVE, "--progress"], TWO, answer=solved(TWO, 7)),
    Call([*SOLVE, *JSON, *REPORTS], LAGS, answer=solved(LAGS, 5)),
    Call(RECORD, FORCED, answer=solved(FORCED, 9)),
    Call([*RECORD, *JSON], THREE, answer=solved(THREE, 4)),
    Call(RECORD, DEAD, answer=solved(DEAD, None)),
    Call([*RECORD, "--start", "second", *REPORTS], TWO, STARTS, answer=solved(TWO, 7)),
    Call([*SOLVE, *JOBS], FORCED, answer=solved(FORCED, 9)),
    Call([*RECORD, *JOBS, *JSON, *REPORTS], THREE, answer=solved(THREE, 4)),
    Call([*RECORD, *JOBS, "--start", "second"], TWO, STARTS, answer=solved(TWO, 7)),
    Call([*RESUME, "--record", "record"], TWO, more=TWO_LOG, answer=solved(TWO, 7)),
    Call([*RESUME, "--record", "record"], TWO, more=TWO_CUT, answer=solved(TWO, 7)),
    Call([*RESUME, "--jobs", "2", *JSON, "--record", "record"], TWO, more=TWO_LOG[:-1], answer=solved(TWO, 7)),
    Call([*RECORD, *UNTIL], WORKED, exit=3, answer=stopped(WORKED, 8)),
    Call([*RECORD, "--jobs", "2", "--conflicts", "0", *REPORTS], WORKED, exit=3, answer=stopped(WORKED, 8)),
    Call(CUBE, b"", LAGS, more=b"1 2 2\n", answer=in_cube(LAGS, 5)),
    Call([*CUBE, "--pieces", "2", "--conflicts", "0"], b"", WORKED, exit=3, more=b"", answer=in_cube(WORKED, None, 2)),
    Call(JOIN, b"", WORKED, more=WHOLE, answer=solved(WORKED, 8)),
    Call([*JOIN, "--record", "record", *JSON], b"", WORKED, more=WHOLE, answer=solved(WORKED, 8)),
]
