#!/usr/bin/env python3
"""Compares the library for C with the model of the kernel on random sequences of calls.

    checks/port/sequences.py PROGRAM [COUNT [SEED]]

PROGRAM is sequences.c, compiled with the library. On each of COUNT random systems (300), one from each seed from SEED
(1) on, it is handed random events as C hands them in: service calls by number and arguments, ends, faults, ticks and
interrupts; one number of twenty is out of range. Every other system has no spin locks, so that the calls that are made
most often are carried out by code of their own. What it answers, who acts then and what they were told, what has
changed, the lines, as text and as records, and the states at the end must be those of the model.

At the first difference it prints the seed, the line and both answers, and its status is 1.
"""

import sys
from pathlib import Path

sys.dont_write_bytecode = True  # the folders of the checks stay as they are
sys.path[0] = str(Path(__file__).resolve().parents[1])  # the folder `checks`, whose folders are packages

from model.systems import Generator  # noqa: E402
from model.versions import NEWEST  # noqa: E402
from port.batches import compare  # noqa: E402
from port.handed import NO_FAULT, Events, Handed, changes  # noqa: E402

WORDS = ("RUNNING", "READY", "WAITING", "SUSPENDED", "WAITING-SUSPENDED", "DORMANT")
EVENTS = 80  # of a system


class Lockless(Generator):
    """Makes systems without spin locks."""

    def objects(self, kind, count, make):
        return super().objects(kind, 0 if kind == "spin_lock" else count, make)


def outcome(kernel, event, answer, lines):
    """What C is told of an event, and its lines."""
    kind, *numbers = event.split()
    processor = int(numbers[0]) if kind in ("call", "end", "fault") else 0
    if answer == NO_FAULT:
        return ["9 0 0 0 0 - 0"]
    return [f"{answer} {kernel.acting(processor)} {changes(lines)}", *lines, *map(kernel.record, lines)]


def run_system(seed):
    """What a system is handed, and what has to be answered."""
    case = (Generator if seed % 2 else Lockless)(seed, NEWEST.number).case()
    kernel = Handed(case.system)
    events = Events(seed, kernel)
    text = case.configuration
    handed = [f"new {len(text.encode())}\n{text}"]
    wanted = ["new 0 0 0 0", *kernel.first, *map(kernel.record, kernel.first)]
    for _ in range(EVENTS):
        event = events.next()
        handed.append(f"{event}\n")
        wanted += outcome(kernel, event, *kernel.hand(event))
    handed.append("states\nfree\n")
    for task in case.system.tasks:
        name, word, *rest = kernel.state_line(task).split()
        wanted.append(" ".join((name, str(WORDS.index(word) + 1), *rest)))
    return "".join(handed), wanted


if __name__ == "__main__":
    sys.exit(compare(sys.argv[1:], __doc__, run_system, EVENTS))
