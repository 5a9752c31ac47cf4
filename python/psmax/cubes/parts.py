"""A record of psprove that is checked in parts at once, each of which reads all of it and checks a share of its lemmas.
All parts are right and say the same: then the record is right. Of workers of a cluster that is believed, but for parts
that are drawn at random and judged here too, and for faults."""
import hashlib
import mmap
import os
import re
import secrets
import time
import zlib
from collections import Counter
from collections.abc import Mapping
from dataclasses import dataclass

from ..clock import Clock, tell
from ..errors import Failed
from ..files import read_bytes, sha256_of
from ..record import PROVED
from .cube import Row
from .machines import Machines

TRIES = 3  # of a part whose check fails, and not the record
GLANCE = 0.2  # seconds between two looks at the machines
OWN = 2  # parts that are judged here as well as by workers
FAULT = re.compile(r"event (\d+): .*")
TITLE = b"record 3\n"
KINDS = {3: "optimal", 7: "bound", 11: "no schedule"}  # of the last event of a record
LONGEST = 9  # bytes of a number


@dataclass(frozen=True)
class Judged:
    """What `psprove verify` says of a record, and who has judged which parts."""

    says: str
    is_wrong: bool
    count: int
    own: tuple[int, ...]  # parts that were judged here
    believed: Mapping[str, tuple[int, ...]]  # those that were not, by who says so


class RecordParts:
    """One part for each thread of the machines. Where these aren't this one's, some are judged `here`."""

    def __init__(self, path: str, text: bytes, machines: Machines, clock: Clock, here: Machines | None = None) -> None:
        self.path, self.machines, self.clock, self.here = path, machines, clock, here
        self.all = {machines} if here is None else {machines, here}
        self.sha256, self.count = sha256_of(path), 1
        self.claim = claim_of(path)
        self.task: Row = {"path": os.path.abspath(path), "project": zlib.compress(text), "sha256": self.sha256,
                          "age": 0}
        self.tries: Counter[tuple[Machines, int]] = Counter()
        self.rows: dict[int, Row] = {}  # of the machines
        self.own: dict[int, Row] = {}
        self.drawn: set[int] = set()
        self.sent: set[tuple[Machines, int]] = set()  # parts whose machine got the record with the task

    def check(self) -> Judged:
        """What `psprove verify` says of the record. One that has no title, no claim or no end is judged here in one
        piece."""
        try:
            if self.claim is None and self.here is not None:
                self.machines = self.here
            self.count = self.wait_for_machines()
            for machines in self.all:
                machines.tell(None)
            for number in range(1, self.count + 1):
                self.give(self.machines, number)
            self.draw()
            while len(self.rows) < self.count or self.drawn - self.own.keys():  # also while no machine is left
                self.wait_for_machines()
                self.look(self.machines)
                if self.here is not None and self.here is not self.machines:
                    self.look(self.here)
        finally:
            for machines in self.all:
                machines.close()
        return self.verdict()

    def draw(self) -> None:
        """Which parts are judged here as well; no worker knows it."""
        if self.here is not None and self.here is not self.machines:
            numbers = range(1, self.count + 1)
            for number in secrets.SystemRandom().sample(numbers, min(OWN, self.count)):
                self.judge_here(number)

    def judge_here(self, number: int) -> None:
        if self.here is not None and number not in self.drawn:
            self.drawn.add(number)
            self.give(self.here, number)

    def wait_for_machines(self) -> int:
        """How many threads they have, once they have one."""
        while not (threads := self.machines.threads()):
            tell(self.clock, "the cluster has no worker yet")
            time.sleep(1.0)
        for name in self.machines.newcomers():
            tell(self.clock, f"{name} is a worker of the cluster")
        return threads

    def give(self, machines: Machines, number: int) -> None:
        machines.give({**self.task, "count": self.count, "number": number})

    def look(self, machines: Machines) -> None:
        found = machines.next(GLANCE)
        if found is not None:
            self.take(machines, *found)

    def take(self, machines: Machines, number: int, row: Row | Exception) -> None:
        if isinstance(row, Exception):
            return self.try_again(machines, number, (str(row) or repr(row)).partition(". ")[0])
        if not has_answer_form(row):
            return self.try_again(machines, number, f"an answer of no known form, by {row['by']}")
        if not row["is_same"] and (machines, number) in self.sent:
            return self.try_again(machines, number, f"{row['by']} was given other bytes than it was sent")
        if not row["is_same"]:
            self.sent.add((machines, number))
            self.task["record"] = self.record()
            return self.give(machines, number)
        if machines is self.machines:
            self.rows[number] = row
        if machines is (self.here or self.machines):
            self.own[number] = row
        elif not row["is_right"]:
            self.judge_here(number)

    def try_again(self, machines: Machines, number: int, why: str) -> None:
        self.tries[machines, number] += 1
        tell(self.clock, f"part {number}/{self.count}: {why}")
        if self.tries[machines, number] == TRIES:
            raise Failed(f"part {number}/{self.count} failed {TRIES} times: {why}")
        self.give(machines, number)

    def record(self) -> bytes:
        """For a machine that doesn't see the file, or sees another one."""
        found = self.task.get("record")
        if found is None:
            data = read_bytes(self.path, None)
            if hashlib.sha256(data).hexdigest() != self.sha256:
                raise Failed(f"{self.path} was changed while it was checked")
            found = zlib.compress(data, 1)
        return found

    def verdict(self) -> Judged:
        """Each event is checked by some part as by a check of all, and no part finds a fault before the first one. A
        fault is believed once it was found here."""
        for number, own in sorted(self.own.items()):
            row = self.rows[number]
            if (row["is_right"], row["says"]) != (own["is_right"], own["says"]):
                raise Failed(f"part {number}/{self.count}: {row['by']} says `{row['says']}`, and psprove here says "
                             f"`{own['says']}`; nothing that this worker says is to be believed")
        faults = [row["says"] for row in self.rows.values() if not row["is_right"]]
        if faults:
            return self.judged(min(faults, key=event_of), True)
        says = {said_by(number, self.count, row["says"]) for number, row in sorted(self.rows.items())}
        if self.here is not None:
            says.add(f"proved {self.claim}")
        if len(says) > 1:
            raise Failed(f"parts of {self.path} contradict each other: {', '.join(sorted(says))}")
        return self.judged(says.pop(), False)

    def judged(self, says: str, is_wrong: bool) -> Judged:
        names = sorted({row["by"] for number, row in self.rows.items() if number not in self.own})
        believed = {name: tuple(sorted(number for number, row in self.rows.items() if number not in self.own
                                       and row["by"] == name)) for name in names}
        return Judged(says, is_wrong, self.count, tuple(sorted(self.own)), believed)


def has_answer_form(row: Row) -> bool:
    """Whether it has the form of one, whatever it says."""
    is_verdict = isinstance(row.get("says"), str) and isinstance(row.get("is_right"), bool)
    return row.get("is_same") is False or is_verdict and row.get("is_same") is True


def event_of(says: str) -> int:
    """The number of a wrong event."""
    found = FAULT.fullmatch(says)
    if found is None:
        raise Failed(f"psprove verify --part gave an answer that plan does not know: {says}")
    return int(found[1])


def said_by(number: int, count: int, says: str) -> str:
    """What is proved if all parts are right."""
    begin = f"part {number}/{count} of "
    if not PROVED.fullmatch(says.removeprefix(begin)) or not says.startswith(begin):
        raise Failed(f"psprove verify --part gave an answer that plan does not know: {says}")
    return says.removeprefix(begin)


def claim_of(path: str) -> str | None:
    """The claim that ends the record, such as `optimal 7`; none where the file is no record of lemmas, or cut off."""
    with open(path, "rb") as file:
        if os.fstat(file.fileno()).st_size <= len(TITLE):
            return None
        with mmap.mmap(file.fileno(), 0, access=mmap.ACCESS_READ) as data:
            if data[: len(TITLE)] != TITLE:
                return None
            begin, end = last_event(data, len(TITLE))
            return None if end != len(data) else read_claim(data[begin:end])


def last_event(data: mmap.mmap, place: int) -> tuple[int, int]:
    """From where to where the last event goes; past the end where it is cut off."""
    begin, size = place, len(data)
    while place < size:
        length = data[place]
        place += 1
        if length > 127:
            length, place = read_number(data[place - 1 : place + LONGEST - 1], place - 1)
        begin, place = place, place + length
    return begin, place


def read_number(data: bytes, place: int = 0) -> tuple[int, int]:
    """The number that begins the bytes, which stand at a place, and the place behind it; far off where they have
    none."""
    found = 0
    for count, byte in enumerate(data[:LONGEST]):
        found |= (byte & 127) << 7 * count
        if byte < 128:
            return found, place + count + 1
    return 0, 1 << 64


def read_claim(event: bytes) -> str | None:
    kind, place = read_number(event)
    if kind not in KINDS or place > len(event):
        return None
    if KINDS[kind] == "no schedule":
        return KINDS[kind] if place == len(event) else None
    value, end = read_number(event[place:], place)
    return f"{KINDS[kind]} {value // 2 if value % 2 == 0 else -(value + 1) // 2}" if end == len(event) else None
