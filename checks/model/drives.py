#!/usr/bin/env python3
"""Drives random systems, and runs each of them over the steps that the drive prints: each step does something in
kernel.py, or keeps a place there, for every other system runs at bound 7, and the program prints what the model prints;
and a drive that stops before the number of events asked for is taken stops where no processor goes on, so that to run
any of them once more does nothing.

    checks/model/drives.py [COUNT [SEED]] [--view PATH] [--program PATH]
"""

import sys
from copy import deepcopy
from pathlib import Path

sys.dont_write_bytecode = True  # the folders of the checks stay as they are
sys.path[0] = str(Path(__file__).resolve().parents[1])  # the folder `checks`, whose folders are packages

from model.harness import BOUND, expect, expect_same, main, replayed  # noqa: E402

EVENTS = 80
CUT = 7  # the bound that cuts stretches short


def simulated(trial, text, bound):
    """The trace of the image over this steps text."""
    trial.write("driven.steps", text)
    return trial.simulated("driven.steps", bound)


def drive(trial, case, bound, order):
    """Drives the image in an order, which is an option or nothing, and runs it over the steps: how many of them kept a
    place."""
    text, why = trial.run("fmp_view", f"drive system.img --events {EVENTS} --bound {bound} {order}")
    steps, is_quiet = text.count("\n"), why.startswith("quiet")
    name = f"the drive {order or 'in turn'}"
    expect(steps <= EVENTS and (steps == EVENTS) != is_quiet, f"{name}: {steps} steps, and it says {why!r}")
    model = replayed(case, bound, text.splitlines())
    kept = model.kept
    expect_same(f"{name} beside the model", simulated(trial, text, bound), model.text())
    again = "".join(f"run {number}\n" for number in range(1, case.system.processor_count + 1))
    for event in again.splitlines() if is_quiet else ():
        model.step(event)
    goes_on = model.taken > steps or is_quiet and simulated(trial, text + again, bound) != model.text()
    expect(not goes_on, f"{name}: a processor goes on where it says 'quiet'")
    return kept


def check(trial):
    """Drives each system, with its processors in turn and in a random order."""
    count, kept = 0, 0
    for seed, generator in trial.systems():
        case = generator.case()
        trial.build_case(case)
        for order in ("", f"--seed {seed}"):
            # A replay changes the system, and each drive begins with it as it is at first.
            kept += drive(trial, deepcopy(case), CUT if trial.is_cut(seed) else BOUND, order)
            count += 1
    print(f"checks/model/drives.py: {count} drives of {trial.count} systems, with {kept} kept places, are right")


if __name__ == "__main__":
    sys.exit(main("Drives random systems and runs them over the steps.", 1000, ("fmp", "fmp_view"), check))
