#!/usr/bin/env python3
"""Runs systems by threads, a thread for each processor, and plays what came out again.

    checks/model/host.py [COUNT] [SEED] [--program PATH]

makes COUNT systems (300), one from each seed from SEED (1) on, of one to eight processors, and has `fmp host` run each
of them. Of the journal that it writes it must hold that:

- `fmp sim` prints over the journal what `fmp host` printed, and so does kernel.py, which is written from the rules of
  the kernel and shares nothing with the program;
- each event of the journal does something in the model, or keeps a place, for every other system runs at a bound of 1
  to 200, which cuts stretches short;
- no processor stands in it more often than it had turns, and there are no more ticks than were asked for.

At the end eight processors make 100,000 turns each; the program has to end within a minute.

At the first fault it prints the seed, what is wrong and the folder that keeps the texts, and its status is 1. It wants
the program as `rt run` leaves it in crates/fmp/out, or at PATH.
"""

import sys
import time
from collections import Counter
from pathlib import Path

sys.dont_write_bytecode = True  # the folders of the checks stay as they are
sys.path[0] = str(Path(__file__).resolve().parents[1])  # the folder `checks`, whose folders are packages

from model.harness import PROCESSORS, expect, expect_same, main, replayed  # noqa: E402

LONG_TURNS = 100_000
GREATEST_CUT = 200  # the greatest bound that cuts stretches short


def counts(journal, turns, ticks):
    """The events of a journal by their text, none more often than the threads made it."""
    made = Counter(journal)
    for event, times in made.items():
        expect(times <= (ticks if event == "tick" else turns), f"'{event}' stands {times} times in the journal")
        expect(not event.startswith("int"), f"no thread makes '{event}'")
    return made


def host_one(trial, generator, bound):
    """Hosts one random system at a bound: the events of its journal, and how many of them kept a place."""
    case = generator.case()
    turns, ticks = generator.random.randint(1, 60), generator.random.randint(0, 30)
    trial.build_case(case)
    printed, _ = trial.run("fmp", f"host system.img system.journal --turns {turns} --ticks {ticks} --bound {bound}")
    again = trial.simulated("system.journal", bound)
    expect_same("the trace of the host beside the simulation of its journal", printed, again)
    journal = trial.read("system.journal").splitlines()
    made = counts(journal, turns, ticks)
    model = replayed(case, bound, journal)
    expect_same("the trace of the host beside that of the model", printed, model.text())
    return made, model.kept


def host_long(trial):
    """Hosts eight processors that call without end: how long it took."""
    trial.build_endless()
    began = time.monotonic()
    trial.run("fmp", f"host system.img system.journal --turns {LONG_TURNS} --ticks 0")
    took = time.monotonic() - began
    made = counts(trial.read("system.journal").splitlines(), LONG_TURNS, 0)
    for p in PROCESSORS:
        turns = made[f"run {p}"]
        expect(turns == LONG_TURNS, f"processor {p} made {turns} of {LONG_TURNS} turns")
    return took


def check(trial):
    """Hosts each system, and then the long one."""
    made, kept = Counter(), 0
    for seed, generator in trial.systems():
        events, kept_by_them = host_one(trial, generator, trial.bound(seed, GREATEST_CUT))
        made += events
        kept += kept_by_them
    took = host_long(trial)
    print(f"{trial.count} systems by threads, {made.total()} events, {made['tick']} of them ticks, {kept} kept places: "
          "the host, the simulation of its journal and the model agree")
    print(f"eight processors with {LONG_TURNS} turns each: {took:.1f} seconds")


if __name__ == "__main__":
    sys.exit(main("Runs random systems by threads, and plays their journals again.", 300, ("fmp",), check))
