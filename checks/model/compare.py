#!/usr/bin/env python3
"""Compares the program with a model of the kernel on random systems.

    checks/model/compare.py [COUNT] [SEED] [--image-version VERSION] [--all-cut] [--program PATH]

makes COUNT systems (2000), one from each seed from SEED (1) on: a configuration of one to eight processors, the
bodies of its tasks and handlers and a list of events. The program builds and runs each, every other one, or with
--all-cut each, at a bound of 1 to 40, which cuts most stretches short, and mostly as an image of the newest version, or
of VERSION alone. An image of an older version has bodies of what that version has, and its number in place of the
newest. Its whole trace and the states at the end must be those of kernel.py, which is written from the rules of the
kernel and shares nothing with the program.

Where all agree it prints how much was compared and which replies and situations never came up. At the first
difference it prints the seed, the first line that differs and the folder that keeps the texts, and its status is 1.

It wants the program as `rt run` leaves it in crates/fmp/out, or at PATH.
"""

import sys
from collections import Counter
from pathlib import Path

sys.dont_write_bytecode = True  # the folders of the checks stay as they are
sys.path[0] = str(Path(__file__).resolve().parents[1])  # the folder `checks`, whose folders are packages

from model.harness import expect_same, main  # noqa: E402
from model.kernel import Kernel  # noqa: E402
from model.replies import cases_of, pairs_of, situations_of  # noqa: E402
from model.versions import NEWEST, VERSIONS  # noqa: E402

GREATEST_CUT = 40  # the greatest bound that cuts stretches short


def run_model(generator, case, bound):
    """The model after random events, and these."""
    kernel = Kernel(case.system, bound)
    events = []
    for _ in range(case.event_count * (1 if bound > GREATEST_CUT else 3)):
        events.append(generator.event(kernel.world))
        kernel.step(events[-1])
    return kernel, events


def report(trial, events, calls, situations):
    """Prints how much was compared, and what never came up."""
    version = VERSIONS.get(trial.version, NEWEST)
    cases = cases_of(version)
    print(f"{trial.count} systems, {events} events, {calls.total()} calls: the program and the model agree")
    for caller in ("task", "handler"):
        total = sum(times for (who, *_), times in calls.items() if who == caller)
        came, listed = pairs_of(caller, calls), pairs_of(caller, cases)
        share = f"{len(came & listed)} of the {len(listed)} pairs"
        print(f"from {caller}s: {total} calls, with {share} of call and reply that can come")
        for service, reply in sorted(came - listed):
            print("came up, and is not listed:", service, reply)
    for situation in situations_of(version):
        if "cut short" in situation and situations[situation]:
            print(f"came up {situations[situation]} times: {situation}")
    for missing in sorted(cases - calls.keys()):
        print("never came up:", *missing)
    for missing in situations_of(version):
        if not situations[missing]:
            print("never came up:", missing)


def compare(trial):
    """Compares the program with the model on each system."""
    events, calls, situations = 0, Counter(), Counter()
    for seed, generator in trial.systems():
        case, bound = generator.case(), trial.bound(seed, GREATEST_CUT)
        kernel, steps = run_model(generator, case, bound)
        trial.build_case(case)
        trial.write("system.steps", "".join(f"{step}\n" for step in steps))
        expect_same("the trace beside that of the model", trial.simulated("system.steps", bound), kernel.text())
        events += kernel.world.event
        calls += kernel.calls
        situations += kernel.world.situations
    report(trial, events, calls, situations)


if __name__ == "__main__":
    sys.exit(main("Compares the program with a model on random systems.", 2000, ("fmp",), compare))
