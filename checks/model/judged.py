#!/usr/bin/env python3
"""Runs random lists of events on random systems, and judges each run by random sentences: `fmp_view expect` says what
the judge of sentences.py says, and a sentence that `fmp_view explore` found to hold in every run is failed by none.

    checks/model/judged.py [COUNT [SEED]] [--view PATH] [--program PATH]

The systems and their texts are those of sentenced.py, with up to two sentences of the end of a run after them. COUNT
is the number of systems of which it is claimed that each sentence holds, in at most MOST states. A system has LISTS
lists of up to LONG events, which end before the first event that the search leaves out; one of which nothing is claimed
has fewer. Every other system runs at a small bound.
"""

import re
import subprocess
import sys
from collections import Counter
from copy import deepcopy
from pathlib import Path
from random import Random

sys.dont_write_bytecode = True  # the folders of the checks stay as they are
sys.path[0] = str(Path(__file__).resolve().parents[1])  # the folder `checks`, whose folders are packages

from model.explore import BOUND, EXPECT, explored, is_claimed  # noqa: E402
from model.harness import SECONDS, expect, main  # noqa: E402
from model.kernel import Kernel  # noqa: E402
from model.schedules import after, tries_of  # noqa: E402
from model.sentences import Judge, Sentences, read_all  # noqa: E402
from model.sentenced import asked  # noqa: E402

MOST = 2_000
LISTS = {True: 50, False: 5}  # by whether something is claimed
LONG = 80  # events at most
ENDED = "ended.expect"  # the text of expectations with sentences of the end of a run


def let(kernel, question, event, came, limits):
    """Whether the question lets an event come to a kernel to which this many interrupts came, by what is kept of its
    limits, and what it leads to."""
    runs = question.idle_ticks and event == "tick" and any(
        after(kernel, f"run {processor.number}") for processor in kernel.world.processors)
    return question.lets(event, came, {"run"} if runs else set()) and not question.holding(event, limits) and (
        question.queued is None or question.lets_queue((after(kernel, event) or kernel).world))


def judged(start, question, sentences, events):
    """The events that the question lets come, up to the first that it does not, and the verdict of the run."""
    bodies = start.system.bodies
    kernel, came, done = deepcopy(start, {id(bodies): bodies}), 0, []
    judge, limits = Judge(sentences, kernel), Judge(question.limits, kernel)
    for event in events:
        if not let(kernel, question, event, came, limits.kept):
            break
        before = kernel.world.event
        kernel.step(event)
        judge.see()
        limits.see()
        came += event.startswith("int") and kernel.world.event > before
        done.append(event)
    return done, judge.verdict()


def printed(trial, bound):
    """The place of the sentence that `fmp_view expect` says the run fails, and the event; none if it says nothing."""
    words = ["expect", "system.img", "system.steps", ENDED, "--src", "system.src", "--bound", str(bound)]
    done = subprocess.run([trial.programs["fmp_view"], *words], cwd=trial.folder, capture_output=True, text=True,
                          check=False, timeout=SECONDS)
    found = re.match(rf"{ENDED}:(\d+): event (\d+): ", done.stdout)
    expect(done.returncode == (4 if found else 0), f"it ends with status {done.returncode}: {done.stderr.rstrip()}")
    return (int(found[1]) - 1, int(found[2])) if found else None


def judge_lists(trial, case, bound, question, holds, chosen):
    """Runs lists of events: the kinds of the sentences that were failed."""
    ends = Sentences(chosen, case, ())
    lines = [*trial.read(EXPECT).split("\n"), *(ends.end() for _ in range(chosen.randint(0, 2)))]
    trial.write(ENDED, "\n".join(lines))
    sentences, failed = read_all(lines, case.system), Counter()
    start, tries = Kernel(case.system, bound), tries_of(case.system)
    for _ in range(LISTS[holds]):
        events = chosen.choices(tries, k=chosen.randint(0, LONG))
        events, verdict = judged(start, question, sentences, events)
        trial.write("system.steps", "".join(f"{event}\n" for event in events))
        told = printed(trial, bound)
        expect(told == verdict, f"`fmp_view expect` says {told}, and the model {verdict}")
        expect(not holds or verdict is None or verdict[0] >= len(question.sentences),
               f"line {verdict and verdict[0] + 1} is failed, which was found to hold")
        failed[type(sentences[verdict[0]]).__name__ if verdict else "none"] += 1
    return failed


def check(trial):
    """Takes systems until of as many as are asked for it is claimed that each sentence holds."""
    clean, failed, seed = 0, Counter(), trial.seed
    while clean < trial.count:
        trial.at = f"seed {seed}: "
        case, lines, question = asked(seed, trial.version)
        trial.build(case.configuration, case.source)
        trial.write(EXPECT, "\n".join(lines))
        bound = trial.bound(seed, BOUND)
        status, text = explored(trial, bound, question, MOST)
        expect(status in (0, 4, 5), f"it ends with status {status}: {text!r}")
        holds = is_claimed(trial, case, question, text)
        failed += judge_lists(trial, case, bound, question, holds, Random(f"judged {seed}"))
        clean += holds
        seed += 1
    trial.at = ""
    print(f"checks/model/judged.py: {clean} of {seed - trial.seed} systems keep each sentence, and "
          f"{failed.total()} runs are judged as the model judges them")
    print("failed: " + "; ".join(f"{count} times {kind}" for kind, count in failed.most_common()))


if __name__ == "__main__":
    sys.exit(main("Judges random runs by random sentences.", 300, ("fmp", "fmp_view"), check))
