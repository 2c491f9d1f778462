#!/usr/bin/env python3
"""Has threads share boards by tickets, and plays what came out again.

    checks/model/boards.py [COUNT] [SEED] [--program PATH] [--stress PATH]

makes COUNT systems (300), one from each seed from SEED (1) on, of one to eight processors, and has `fmp_stress` host
each of them by 1 to 64 seats, of which up to three follow the row while others take tickets, feed events and meet; the
last one reads the finished row. It must hold that:

- the journal that it writes is not longer than its room, and each event of it does something in kernel.py, which is
  written from the rules of the kernel and shares nothing with the programs, or keeps a place there, for every other
  system runs at a bound of 1 to 200, which cuts stretches short;
- `fmp sim` prints over the journal what the model prints;
- what each follower read is the journal, and what it printed while the others called is what the simulation prints
  before the states; what each other seat read is the journal; no read missed an event that its seat had seen;
- as many events were journaled as the calls were told, and there are no more ticks than were asked for.

At the end 64 seats share a board of eight processors that call without end, 10,000 turns each; there the simulation has
to do each event of the journal.

At the first fault it prints the seed, what is wrong and the folder that keeps the texts, and its status is 1. It wants
the programs as `rt run` leaves them in crates/fmp/out and crates/fmp_stress/out, or at the paths given.
"""

import sys
from collections import Counter
from dataclasses import dataclass
from pathlib import Path

sys.dont_write_bytecode = True  # the folders of the checks stay as they are
sys.path[0] = str(Path(__file__).resolve().parents[1])  # the folder `checks`, whose folders are packages

from model.harness import BOUND, PROCESSORS, expect, expect_same, main, replayed  # noqa: E402

GREATEST_CUT = 200  # the greatest bound that cuts stretches short


@dataclass
class Plan:
    """How a board is shared."""

    seats: int
    followers: int
    share: int
    turns: int
    ticks: int
    capacity: int
    bound: int
    seed: int

    def words(self):
        return " ".join(f"--{name} {value}" for name, value in vars(self).items())


LONG = Plan(seats=64, followers=3, share=2, turns=10_000, ticks=1000, capacity=1 << 20, bound=BOUND, seed=1)


def plan(random, bound, seed):
    """How the board of a seed is shared: mostly by few seats, and mostly with room for all events."""
    seats = random.choice((1, 2, 4, 8, 8, 16, random.randint(1, 64)))
    return Plan(
        seats=seats, followers=min(random.randint(0, 3), max(0, seats - 2)), share=random.choice((1, 1, 2, 3, 8)),
        turns=random.randint(1, 600 // seats + 2), ticks=random.randint(0, 30),
        capacity=random.choice((1 << 20, 1 << 20, 1 << 20, random.randint(1, 300))),
        bound=bound, seed=seed)


def stress(trial, shared):
    """Hosts the image by seats: what the program counted."""
    printed, _ = trial.run("fmp_stress", f"system.img system.journal {shared.words()}")
    return Counter({name: int(number) for name, number in map(str.split, printed.splitlines())})


def expect_told(told, shared, journal):
    """What the program counted fits the plan and the journal."""
    expect(told["seats"] == shared.seats, f"{told['seats']} of {shared.seats} seats came back")
    expect(told["events"] == told["journaled"] == len(journal),
           f"{len(journal)} events are in the journal, and {told['journaled']} were told to be")
    expect(len(journal) <= shared.capacity, f"{len(journal)} events have room for {shared.capacity}")
    expect(not told["full"] or len(journal) == shared.capacity, "an event was refused, and the journal had room for it")
    expect(journal.count("tick") <= shared.ticks, f"{journal.count('tick')} ticks of {shared.ticks}")
    for name in ("missed", "lost", "differing"):
        expect(told[name] == 0, f"{name}: {told[name]}")


def expect_followed(trial, name, journal, printed):
    """What a follower read is the journal, and what it printed is all that its simulation prints before the states."""
    expect(trial.read(name) == journal, f"{name} is something else than the journal")
    lines = trial.read(f"{name}.trace")
    expect(printed.startswith(lines), f"{name}.trace does not begin what the simulation prints")
    states = printed[len(lines):].splitlines()
    expect(not any(line[0].isdigit() for line in states), f"{name}.trace ends before '{states[:1]}'")


def host(trial, shared):
    """Hosts the image: what was counted, the journal, and what its simulation prints."""
    told = stress(trial, shared)
    text = trial.read("system.journal")
    journal = text.splitlines()
    expect_told(told, shared, journal)
    told += Counter({"followers": shared.followers, "ticks": journal.count("tick")})
    printed = trial.simulated("system.journal", shared.bound)
    for number in range(1, shared.followers + 1):
        expect_followed(trial, f"system.journal.{number}", text, printed)
    return told, journal, printed


def host_one(trial, generator, seed):
    """Hosts one random system: what was counted."""
    case = generator.case()
    trial.build_case(case)
    shared = plan(generator.random, trial.bound(seed, GREATEST_CUT), seed)
    told, journal, printed = host(trial, shared)
    model = replayed(case, shared.bound, journal)
    expect_same("the simulation of the journal beside the model", printed, model.text())
    return told + Counter(kept=model.kept)


def host_long(trial):
    """Hosts eight processors that call without end, by 64 seats: what was counted."""
    trial.build_endless()
    told, journal, printed = host(trial, LONG)
    last = printed.splitlines()[-1 - len(PROCESSORS)]
    expect(last.startswith(f"{len(journal)} "), f"the simulation of {len(journal)} events ends with '{last}'")
    return told


def check(trial):
    """Hosts each system, and then the long one."""
    made = Counter()
    for seed, generator in trial.systems():
        made += host_one(trial, generator, seed)
    long = host_long(trial)
    print(f"{trial.count} systems by {made['seats']} seats, {made['followers']} of them followers: {made['events']} "
          f"events, {made['ticks']} of them ticks, {made['kept']} kept places, {made['stale']} stale outcomes, "
          f"{made['full']} without room: the simulation of each journal, the model and the followers agree, and every "
          "seat read the journal")
    print(f"eight processors by {long['seats']} seats: {long['events']} events, {long['stale']} stale outcomes; every "
          "seat read the journal, and each event of it does something in the simulation")


if __name__ == "__main__":
    about = "Has threads share boards, and plays what came out again."
    sys.exit(main(about, 300, ("fmp", "fmp_stress"), check))
