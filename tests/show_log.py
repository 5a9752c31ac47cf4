#!/usr/bin/env python3
"""Prints the events of a log of lemmas as text, one a line, with their numbers.

    show_log.py < LOG

An arc (I, J, V) is I>J:V, an interval (M, A, B) of a tour M:A:B. A line that shows an arc ends with `shows` and this
arc. A log that is cut, or has bytes that are no event, is printed so far, and the fault then stands on standard error,
with exit status 4. Whether an event is right is not looked at. """
import sys
from typing import BinaryIO

from verify import status_of
from verify_log import Arc, Claim, Clique, Drop, Event, Force, Lemma, Line, Load, Log, Over, Push, Schedule, Tour, Use


def arc_text(arc: Arc) -> str:
    return "{}>{}:{}".format(*arc)


def over_text(over: Over) -> str:
    match over:
        case Load(resource, start, end):
            return f"load {resource} {start} {end}"
        case Clique(start, end, members):
            return " ".join(map(str, ["clique", start, end, *members]))
        case Tour(start, end, intervals):
            return " ".join(["tour", str(start), str(end), *("{}:{}:{}".format(*interval) for interval in intervals)])


def line_text(line: Line) -> str:
    match line:
        case Use(slot):
            return f"use {slot}"
        case Force(before, after):
            return f"force {before} {after}"
        case Push(over, arc):
            return over_text(over) if arc is None else f"{over_text(over)} shows {arc_text(arc)}"


def event_text(event: Event) -> str:
    match event:
        case Lemma(slot, arcs, lines):
            head = " ".join([f"lemma {slot}", *map(arc_text, arcs)])
            return "; ".join([head, *map(line_text, lines)])
        case Drop(slot):
            return f"drop {slot}"
        case Schedule(starts):
            return " ".join(["schedule", *map(str, starts)])
        case Claim(said):
            return f"claim {said}"


def show(stream: BinaryIO) -> None:
    log = Log(stream)
    for event in log.events():
        print(log.number, event_text(event))
    sys.stdout.flush()


if __name__ == "__main__":
    sys.exit(status_of("show_log.py", lambda: show(sys.stdin.buffer)))
