#!/usr/bin/env python3
"""Compares C tasks in virtual time with the model of the kernel on random systems.

    checks/port/tasks.py PROGRAM [COUNT [SEED [RESTART]]]

PROGRAM is tasks.c, compiled with the library and the port. On each of COUNT random systems (300), one from each seed
from SEED (1) on, each body is a C function that makes the calls that random lines say, ends, faults, or polls until it
keeps its place. What it was told at its start and by each call, the trace, the answers to the steps, the states at the
end and the recording must be those of the model. Where PROGRAM is compiled with FMP_RESTART_AT, that is RESTART.

At the first difference it prints the seed, the line and both answers, and its status is 1.
"""

import sys
from functools import partial
from pathlib import Path

sys.dont_write_bytecode = True  # the folders of the checks stay as they are
sys.path[0] = str(Path(__file__).resolve().parents[1])  # the folder `checks`, whose folders are packages

from common.services import SERVICES  # noqa: E402
from model.systems import Generator  # noqa: E402
from model.versions import NEWEST  # noqa: E402
from port.batches import compare  # noqa: E402
from port.handed import DONE, FAULTS, NO_PROCESSOR, NOTHING, Events, Handed  # noqa: E402

EVENTS = 80  # of a system
KEPT = 2


class Bodies:
    """What the C functions of one system are told, and the recording."""

    def __init__(self, kernel, restart):
        self.kernel, self.restart = kernel, restart
        self.taken = 0  # events since the counts began
        self.pending = {}  # of an actor that spins for a lock: the call that it makes again
        self.recording = []

    def step(self, event):
        """What is printed of an event."""
        kind, *numbers = event.split()
        if kind in ("tick", "int"):
            return self.give(event)
        processor = int(numbers[0])
        if not 1 <= processor <= len(self.kernel.world.processors):
            return [f"answer {NO_PROCESSOR}"]
        actor = self.kernel.world.processors[processor - 1].actor
        if actor is None:
            return [f"answer {NOTHING}"]
        if actor.name in self.pending:
            return self.give(self.pending[actor.name], actor.name)
        told = self.hear(actor.name)
        return [*told, f"answer {KEPT}"] if kind == "poll" else [*told, *self.give(event, actor.name)]

    def hear(self, name):
        """What a body prints when it goes on: what it was told, unless it has printed that."""
        if name not in self.kernel.unheard:
            return []
        self.kernel.unheard.remove(name)
        return [f"* {self.kernel.told[name]}"]

    def give(self, event, name=None):
        """An event: its lines, and the answer to its step."""
        answer, lines = self.kernel.hand(event)
        if answer == DONE:
            self.pending.pop(name, None)
            self.recording.append(recorded(event))
            for started in filter(None, map(started_by, lines)):
                self.pending.pop(started, None)
            self.count()
        elif name is not None:
            self.pending[name] = event
        return [*lines, f"answer {answer}"]

    def count(self):
        """Counts an event. Where it was the last one before that, the counts begin again."""
        self.taken += 1
        if self.taken == self.restart:
            self.taken = 0
            self.kernel.restart()
            self.recording.append("restart")


def started_by(line):
    """Whose body starts anew by a line."""
    words = line.split()
    if words[2] == "begin":
        return words[3]
    return words[2] if words[3:] == ["starts"] else None


def recorded(event):
    """The line of a recording."""
    kind, *numbers = event.split()
    if kind in ("tick", "int"):
        return event
    if kind == "end":
        return f"run {numbers[0]} end"
    if kind == "fault":
        return f"run {numbers[0]} fault {FAULTS[int(numbers[1])].value}"
    service = SERVICES[int(numbers[1]) - 1]
    taken = len([word for word in service.form if word != "&"])
    return " ".join(("run", numbers[0], service.name, *numbers[2:2 + taken]))


def next_event(events):
    """A random event. Some bodies compute without a call."""
    if events.random.random() < 0.1:
        return f"poll {events.processor()}"
    while True:
        event = events.next()
        kind, *numbers = event.split()
        if kind == "call" and not 1 <= int(numbers[1]) <= len(SERVICES):
            continue
        if kind == "fault" and int(numbers[1]) not in FAULTS:
            continue
        return event


def run_system(seed, restart):
    """What a system is handed, and what has to be printed."""
    case = Generator(seed, NEWEST.number).case()
    kernel = Handed(case.system)
    bodies, events = Bodies(kernel, restart), Events(f"tasks {seed}", kernel)
    text = case.configuration
    handed = [f"new {len(text.encode())}\n{text}"]
    wanted = [*kernel.first]
    for _ in range(EVENTS):
        event = next_event(events)
        handed.append(f"{event}\n")
        wanted += bodies.step(event)
    handed.append("close\n")
    wanted += [*map(kernel.state_line, case.system.tasks), *bodies.recording]
    return "".join(handed), wanted


if __name__ == "__main__":
    words = sys.argv[1:]
    restarting = partial(run_system, restart=int(words.pop(3)) if len(words) == 4 else 1 << 30)
    sys.exit(compare(words, __doc__, restarting, EVENTS))
