#!/usr/bin/env python3
"""Compares runs in real time with the model of the kernel on random systems.

    checks/port/real.py PROGRAM [COUNT [SEED]]

PROGRAM is real.c, compiled with the library and the port. COUNT random systems (60) of 2 to 4 processors, from the seed
SEED (1) on, are run by their threads for 12 ms each, with random calls and interrupts, by ticks of 0.2 and 1 ms. With
FMP_PREEMPT=signal in the environment, their tasks are interrupted at any instruction.

Each recording, handed to a new kernel of the library, must give the trace and the states of its run again; and the
model, handed the same events, must print the same bytes, also where the counts begin again. What happens in a run
depends on the machine; this does not.
"""

import re
import subprocess
import sys
from itertools import count as numbers
from itertools import islice
from pathlib import Path

sys.dont_write_bytecode = True  # the folders of the checks stay as they are
sys.path[0] = str(Path(__file__).resolve().parents[1])  # the folder `checks`, whose folders are packages

from common.services import SERVICES  # noqa: E402
from model.systems import Generator  # noqa: E402
from model.versions import NEWEST  # noqa: E402
from port.handed import DONE, FAULTS, Handed  # noqa: E402

TICKS = (200_000, 1_000_000)  # nanoseconds
PLACES = {it.name: number for number, it in enumerate(SERVICES, 1)}
FAULT_NUMBERS = {it.value: number for number, it in FAULTS.items()}
LINE = re.compile(r"(.*?)(?: @(\d+))?")


def cases(count, first):
    """Random systems of 2 to 4 processors."""
    made = (Generator(seed, NEWEST.number).case() for seed in numbers(first))
    return list(islice((it for it in made if 2 <= it.system.processor_count <= 4), count))


def event_of(words):
    """What the model is handed for a line of a recording."""
    if words[0] in ("tick", "int"):
        return " ".join(words)
    _, processor, name, *arguments = words
    if name == "end":
        return f"end {processor}"
    if name == "fault":
        return f"fault {processor} {FAULT_NUMBERS[arguments[0]]}"
    return " ".join(("call", processor, str(PLACES[name]), *[*arguments, *"0000"][:4]))


def difference(case, recording, trace):
    """What is wrong with a run; none if nothing is."""
    kernel = Handed(case.system)
    lines = [*kernel.first]
    before = 0
    for line in recording.splitlines():
        text, time = LINE.fullmatch(line).groups()
        if time is not None and int(time) < before:
            return f"its time is before the one of the line above: {line}"
        before = int(time or before)
        if text == "restart":
            kernel.restart()
            continue
        answer, more = kernel.hand(event_of(text.split()))
        if answer != DONE:
            return f"the model does not do it: {line}"
        lines += more
    lines += map(kernel.state_line, case.system.tasks)
    given = trace.splitlines()
    at = next((at for at, pair in enumerate(zip(given, lines)) if pair[0] != pair[1]), min(len(given), len(lines)))
    return None if given == lines else f"line {at + 1} is {given[at:at + 1]}, not {lines[at:at + 1]}"


def runs(output):
    """The recordings and the traces that are printed, and the rest."""
    found = []
    while output.startswith("run "):
        head, output = output.split("\n", 1)
        _, recording, trace = map(int, head.replace("run", "0").split())
        found.append((output[:recording], output[recording:recording + trace]))
        output = output[recording + trace:]
    return found, output


def main(program, count=60, first=1):
    """The status."""
    systems = cases(count, first)
    texts = (it.configuration for it in systems)
    handed = "".join(f"new {len(text)} {TICKS[at // 2 % 2]}\n{text}" for at, text in enumerate(texts))
    done = subprocess.run([program], input=handed, capture_output=True, text=True, check=False)
    found, rest = runs(done.stdout)
    if done.returncode != 0 or done.stderr or rest or len(found) != count:
        print(f"status {done.returncode}, {len(found)} runs:", rest, done.stderr)
        return 1
    for at, (case, run) in enumerate(zip(systems, found)):
        if problem := difference(case, *run):
            print(f"system {at + 1}: {problem}", case.configuration, *run, sep="\n")
            return 1
    events = sum(recording.count("\n") for recording, _ in found)
    print(f"{count} systems in real time, {events} events: the library and the model agree")
    return 0


if __name__ == "__main__":
    if not 2 <= len(sys.argv) <= 4:
        sys.exit(__doc__)
    sys.exit(main(sys.argv[1], *map(int, sys.argv[2:])))
