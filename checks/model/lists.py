#!/usr/bin/env python3
"""Runs random lists of events in the model of the kernel, on random systems of which the search of all schedules has
found nothing: nor do they.

    checks/model/lists.py [COUNT [SEED]] [--view PATH] [--program PATH]

Of each system it is asked whether one code is ever answered or one value ever put, and tasks may wait forever, since
most random systems have a deadlock; and of every third system in lists of events in which few activations and wakeups
are queued: its lists end before an event that would queue more. COUNT is the number of systems that were searched whole
and have nothing to be found. Each has LISTS lists of up to LONG events, and every other system runs at a small bound.
"""

import copy
import random
import re
import subprocess
import sys
from pathlib import Path

sys.dont_write_bytecode = True  # the folders of the checks stay as they are
sys.path[0] = str(Path(__file__).resolve().parents[1])  # the folder `checks`, whose folders are packages

from model.explore import BOUND, MOST  # noqa: E402
from model.harness import SECONDS, expect, main  # noqa: E402
from model.kernel import Kernel  # noqa: E402
from model.schedules import Question, goes_on_for_ever, tells, tries_of  # noqa: E402
from model.sentences import FAULTS  # noqa: E402
from model.systems import Generator  # noqa: E402

LISTS = 1_000  # of each system
LONG = 60  # events at most
NEVERS = ("E_CTX", "E_ILUSE", "E_OBJ", "E_QOVR", "E_RLWAI", "E_TMOUT", "put(0)", "put(1)", "put(-5)")


def has_nothing(trial, case, bound, never, question):
    """Whether `fmp_view explore` examines every state and finds nothing."""
    rests = [word for name in re.findall(r"CRE_TSK\((\w+)", case.configuration) for word in ("--rest", name)]
    words = ["explore", "system.cfg", "system.src", "--never", never, *rests, "--bound", str(bound)]
    words += ["--queued", str(question.queued)] if question.queued is not None else []
    done = subprocess.run([trial.programs["fmp_view"], *words, "--states", str(MOST)], cwd=trial.folder,
                          capture_output=True, text=True, check=False, timeout=SECONDS)
    expect(done.returncode in (0, 4, 5), f"it ends with status {done.returncode}: {done.stderr.rstrip()}")
    return done.returncode == 0


def show_nothing(start, never, question, events):
    """No line of these events shows what was looked for, and no handler goes on for ever. Each task may. They end
    before the first one that the question leaves out."""
    bodies = start.system.bodies
    kernel, told = copy.deepcopy(start, {id(bodies): bodies}), 0
    for event in events:
        is_of_handler = event.startswith("run") and kernel.world.processors[int(event.split()[1]) - 1].handler
        expect(not is_of_handler or not goes_on_for_ever(kernel, event), f"{event} goes on for ever")
        told = len(kernel.world.lines)
        kernel.step(event)
        if not question.lets_queue(kernel.world):
            break
        told = len(kernel.world.lines)
    for line in kernel.world.lines[:told]:
        expect(not any(tells(line, word) for word in (never, *FAULTS)), f"'{line}' is told")


def check(trial):
    """Takes systems until as many as are asked for have nothing to be found."""
    clean, seed = 0, trial.seed
    while clean < trial.count:
        trial.at = f"seed {seed}: "
        case = Generator(seed, trial.version).case()
        trial.build(case.configuration, case.source)
        case.system.queue_limit = 255
        bound = trial.bound(seed, BOUND)
        chosen, tries = random.Random(f"lists {seed}"), tries_of(case.system)
        never = chosen.choice(NEVERS)
        question = Question(queued=chosen.choice((0, 1, 2)) if seed % 3 == 0 else None)
        if has_nothing(trial, case, bound, never, question):
            start = Kernel(case.system, bound)
            for _ in range(LISTS):
                show_nothing(start, never, question, chosen.choices(tries, k=chosen.randint(1, LONG)))
            clean += 1
        seed += 1
    trial.at = ""
    print(f"checks/model/lists.py: {clean} of {seed - trial.seed} systems have nothing to be found, and {LISTS} lists "
          "of events of each show nothing")


if __name__ == "__main__":
    sys.exit(main("Runs random lists of events where a search found nothing.", 300, ("fmp", "fmp_view"), check))
